/* Does what run.py says with the C API. */
#include "nlroute_requests.h"

#include <arpa/inet.h>
#include <linux/netlink.h>
#include <linux/rtnetlink.h>
#include <net/if.h>
#include <stdio.h>
#include <stdlib.h>
#include <sys/socket.h>

enum { PLACES = 1 << 14, ROOM = 1 << 20, VALUES = 64 };

/* What holds values, and how deep they are in the message. */
enum { MESSAGE, DATA, PORT_DATA, AF_SPEC, PROTINFO, HOLDERS };
static const uint8_t levels[HOLDERS] = {0, 2, 2, 1, 1};

/* A request: its head, values, and octets. */
static struct {
    struct nlroute_head head;
    struct nlroute_value held[HOLDERS][VALUES];
    size_t counts[HOLDERS];
    char kind[16], port_kind[16];
    uint8_t octets[128];
    uint32_t family; /* of the options that are read */
    int holder;
} made;

static int netlink;
static uint8_t reply[ROOM];
static size_t reply_len;

static void start(struct nlroute_head head) {
    memset(&made, 0, sizeof made);
    made.head = head;
}

static void add(int holder, const struct nlroute_value *values, size_t count) {
    if (made.counts[holder] + count > VALUES) exit(1);
    for (size_t i = 0; i < count; i++) made.held[holder][made.counts[holder]++] = nlroute_below(levels[holder], values[i]);
}

static void add_one(struct nlroute_value value) { add(MESSAGE, &value, 1); }

/* Adds values that have their depth, after those of the message that hold them. */
static void add_held(const struct nlroute_value *before, size_t count, int holder) {
    add(MESSAGE, before, count);
    add(MESSAGE, made.held[holder], made.counts[holder]);
}

/* Adds the lists of all holders to the message. */
static void add_lists(void) {
    const char *kind = made.kind, *port_kind = made.port_kind;
    const struct nlroute_value device[] = {NLROUTE_DATA(kind)}, port[] = {NLROUTE_PORT_DATA(port_kind)};
    const struct nlroute_value and_port[] = {NLROUTE_AND_PORT_DATA(port_kind)};
    const struct nlroute_value af_spec = nlroute_af_spec(), protinfo = nlroute_protinfo();
    if (*kind) add_held(device, made.counts[DATA] ? 3 : 2, DATA);
    if (*port_kind) add_held(*kind ? and_port : port, *kind ? 2 : 3, PORT_DATA);
    if (made.counts[AF_SPEC]) add_held(&af_spec, 1, AF_SPEC);
    if (made.counts[PROTINFO]) add_held(&protinfo, 1, PROTINFO);
}

/* Sends the request, prints why it is refused, and receives the reply. */
static void ask(void) {
    static uint8_t request[4096];
    static uint32_t sequence;
    struct nlroute_message message;
    size_t at = 0;
    made.head.sequence = ++sequence;
    ptrdiff_t length = nlroute_request(&made.head, made.held[MESSAGE], made.counts[MESSAGE], made.octets, sizeof made.octets,
                                       request, sizeof request, &at);
    reply_len = 0;
    if (length < 0) printf("refused 0 value %zu: %s\n", at, nlroute_refusal_text(length));
    if (length < 0 || send(netlink, request, (size_t)length, 0) < 0) return;
    for (;;) {
        ssize_t len = recv(netlink, reply + reply_len, sizeof reply - reply_len, 0);
        if (len <= 0) exit(1);
        at = reply_len;
        reply_len += (size_t)len;
        for (; !nlroute_read_message(reply, reply_len, at, &message); at = message.next) {
            int32_t error = 0;
            if (message.type == NLMSG_ERROR) memcpy(&error, reply + message.list, sizeof error);
            if (error) printf("refused %d\n", -error);
            if (message.type == NLMSG_ERROR || message.type == NLMSG_DONE || !(message.flags & NLM_F_MULTI)) return;
        }
    }
}

/* Prints a list, and those in it. */
static void print_lists(uint32_t family, uint8_t address_family, const uint8_t *list, size_t len) {
    struct nlroute_value *values = calloc(PLACES, sizeof *values);
    char text[8 * NLROUTE_TEXT_ROOM];
    ptrdiff_t count = values ? nlroute_values(family, list, len, values, PLACES) : 0;
    nlroute_family_name(family, text, sizeof text);
    printf("list %s", text);
    for (ptrdiff_t i = 0; i < count; i++) {
        nlroute_kind_name(family, &values[i], text, sizeof text);
        /* Numbers and addresses of a list have no name: they follow that of the list. */
        if (*text != '[') printf("\n%s", text);
        nlroute_text(family, &values[i], list, len, text, sizeof text);
        printf("%s%s", *text ? " " : "", text);
    }
    printf("\n%s", count < 0 ? "malformed\n" : "");
    for (ptrdiff_t i = 0; i < count; i++) {
        ptrdiff_t below = nlroute_opens(family, address_family, &values[i], list, len);
        if (below >= 0 && values[i].form != NLROUTE_FORM_PEER)
            print_lists((uint32_t)below, address_family, list + values[i].offset, values[i].length);
    }
    free(values);
}

/* Reads a link, and prints it: of AF_BRIDGE, the dump of all links has it. */
static void print_link(int32_t index, bool in_bridge) {
    struct nlroute_message message;
    start(in_bridge ? nlroute_dump() : nlroute_get(index));
    if (in_bridge) made.head.address_family = AF_BRIDGE;
    if (in_bridge) add_one(nlroute_of_message(nlroute_number(NLROUTE_IFLA_EXT_MASK, RTEXT_FILTER_BRVLAN)));
    ask();
    for (size_t at = 0; !nlroute_read_message(reply, reply_len, at, &message); at = message.next) {
        if (message.type != RTM_NEWLINK || message.index != index) continue;
        printf("index %d\n", index);
        print_lists(NLROUTE_LINK, message.address_family, reply + message.list, message.length);
    }
    printf("end\n");
}

/* Returns the other end of a link: 16 bytes of a struct ifinfomsg, and a name. */
static struct nlroute_value peer(uint16_t kind, const char *name) {
    const struct nlroute_value text = nlroute_lent(NLROUTE_IFLA_IFNAME, 0, (uint32_t)strlen(name) + 1);
    ptrdiff_t length =
        nlroute_write(NLROUTE_LINK, &text, 1, (const uint8_t *)name, text.length, made.octets + 16, sizeof made.octets - 16);
    return nlroute_passed(kind, NLROUTE_FORM_PEER, 0, 16 + (uint32_t)length);
}

/* Returns a value of this type. */
static struct nlroute_value value_of(struct nlroute_value type, uint16_t kind, const char *text) {
    uint32_t first, second;
    uint64_t number;
    uint8_t a[16];
    if (sscanf(text, "%u/%u", &first, &second) == 2) return nlroute_pair(kind, first, second);
    if (sscanf(text, "%hhx:%hhx:%hhx:%hhx:%hhx:%hhx", a, a + 1, a + 2, a + 3, a + 4, a + 5) == 6)
        return nlroute_address(kind, a, 6);
    if (inet_pton(AF_INET, text, a) == 1) return nlroute_address(kind, a, 4);
    if (!strcmp(text, "on")) return nlroute_number(kind, 1);
    if (!nlroute_number_of(made.family, &type, text, strlen(text), &number)) return nlroute_number(kind, number);
    return nlroute_number(kind, (uint64_t)strtoll(text, NULL, 10));
}

/* Adds an option. The element of a list has type or index 1: indexes do not matter. */
static void add_option(const char *name, char *text) {
    ptrdiff_t found = nlroute_kind_of(made.family, name, strlen(name));
    uint16_t kind = (uint16_t)found;
    struct nlroute_row row = {0};
    if (found < 0 || nlroute_read_row(made.family, kind, 0, 0, &row)) exit(1);
    struct nlroute_value values[] = {nlroute_number(kind, 0), nlroute_element(kind, nlroute_number(1, 0))};
    if (row.is_list) values[1] = nlroute_element(kind, value_of(values[1], 1, strtok(text, "[]")));
    else values[0] = row.form == NLROUTE_FORM_PEER ? peer(kind, text) : value_of(values[0], kind, text);
    if (made.holder == MESSAGE) values[0] = nlroute_of_message(values[0]);
    add(made.holder, values, row.is_list ? 2 : 1);
}

/* Begins options of a set. */
static void start_options(const char *set) {
    const char *end = strstr(set, "_port");
    made.family = (uint32_t)nlroute_family_of(set, strlen(set));
    made.holder = made.family == NLROUTE_LINK ? MESSAGE : end ? PORT_DATA : DATA;
    if (made.head.address_family == AF_BRIDGE) made.holder = made.family == NLROUTE_AF_SPEC_BRIDGE ? AF_SPEC : PROTINFO;
    if (made.holder == PORT_DATA) snprintf(made.port_kind, sizeof made.port_kind, "%.*s", (int)(end - set), set);
    if (made.holder == DATA && !*made.kind) snprintf(made.kind, sizeof made.kind, "%s", set);
}

/* Does a line. Returns false if the word is the name of an option. */
static bool do_line(const char *word, const char *text, int32_t index) {
    const struct nlroute_value names = nlroute_of_message(nlroute_list(NLROUTE_IFLA_PROP_LIST));
    const struct nlroute_value name = nlroute_name_of(NLROUTE_IFLA_ALT_IFNAME, text);
    if (!strcmp(word, "create")) return start(nlroute_create()), add_one(nlroute_name(text)), true;
    if (!strcmp(word, "change")) return start(nlroute_change(index)), true;
    if (!strcmp(word, "property")) return start(nlroute_property(index)), true;
    if (!strcmp(word, "property_delete")) return start(nlroute_property_delete(index)), true;
    if (!strcmp(word, "bridge")) return start(nlroute_bridge_set(index)), true;
    if (!strcmp(word, "bridge_delete")) return start(nlroute_bridge_delete(index)), true;
    if (!strcmp(word, "up")) return made.head = nlroute_up(made.head, true), true;
    if (!strcmp(word, "kind")) return snprintf(made.kind, sizeof made.kind, "%s", text), true;
    if (!strcmp(word, "link")) return add_one(nlroute_lower((uint32_t)index)), true;
    if (!strcmp(word, "master")) return add_one(nlroute_master((uint32_t)index)), true;
    if (!strcmp(word, "alternative")) return add_one(names), add_one(nlroute_element(names.kind, name)), true;
    if (!strcmp(word, "options")) return start_options(text), true;
    if (!strcmp(word, "send")) return add_lists(), ask(), true;
    if (!strcmp(word, "read") || !strcmp(word, "bridge_read")) return print_link(index, *word == 'b'), true;
    return false;
}

int main(void) {
    static char line[256], number[16];
    netlink = socket(AF_NETLINK, SOCK_RAW | SOCK_CLOEXEC, NETLINK_ROUTE);
    if (netlink < 0) return perror("netlink"), 1;
    while (fgets(line, sizeof line, stdin)) {
        char *text = line + strcspn(line, " \n");
        if (*text) *text++ = 0;
        text[strcspn(text, "\n")] = 0;
        int32_t index = *text == '@' ? (int32_t)if_nametoindex(text + 1) : 0;
        snprintf(number, sizeof number, "%d", index);
        if (!do_line(line, text, index)) add_option(line, *text == '@' ? number : text);
    }
    return 0;
}
