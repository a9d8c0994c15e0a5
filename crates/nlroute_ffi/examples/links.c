/*
 * Prints the attributes of the machine's links: of bonds, bridges, VLANs and so on, and of their ports. Any user
 * may run it.
 *
 * Compile it as nlroute.h says: cc links.c $(pkg-config --cflags --libs nlroute)
 */
#include "nlroute_requests.h"

#include <linux/if_link.h>
#include <linux/rtnetlink.h>
#include <stdio.h>
#include <sys/socket.h>
#include <unistd.h>

enum { PLACES = 1024, ROOM = 1 << 16 };

/* Prints the first error of a list. */
static void print_fault(uint32_t family, const uint8_t *list, size_t len) {
    struct nlroute_fault fault;
    char text[NLROUTE_TEXT_ROOM];
    if (nlroute_first_fault(family, list, len, &fault)) return;
    nlroute_fault_text(family, &fault, text, sizeof text);
    printf("    %s\n", text);
}

/* Reads the values of a list, at most PLACES. Prints the error of a list that is malformed. */
static ptrdiff_t read_list(uint32_t family, const uint8_t *list, size_t len, struct nlroute_value *values) {
    ptrdiff_t count = nlroute_values(family, list, len, values, PLACES);
    if (count == NLROUTE_HAS_FAULT) print_fault(family, list, len);
    return count == NLROUTE_NO_ROOM ? PLACES : count;
}

/* Prints the values of a list, a line each; elements of a list are indented below it. */
static void print_list(uint32_t family, const uint8_t *list, size_t len) {
    static struct nlroute_value values[PLACES];
    char name[NLROUTE_TEXT_ROOM], text[NLROUTE_TEXT_ROOM];
    ptrdiff_t count = read_list(family, list, len, values);
    nlroute_family_name(family, name, sizeof name);
    printf("  %s\n", name);
    for (ptrdiff_t i = 0; i < count; i++) {
        nlroute_kind_name(family, &values[i], name, sizeof name);
        nlroute_text(family, &values[i], list, len, text, sizeof text);
        printf("    %*s%s%s%s\n", 2 * values[i].depth, "", name, *text ? " " : "", text);
    }
}

/* Prints the name of a link, and the lists of its kind: those in its IFLA_LINKINFO. */
static void print_link(const uint8_t *list, const struct nlroute_message *message) {
    static struct nlroute_value values[PLACES];
    ptrdiff_t count = read_list(NLROUTE_LINK, list, message->length, values);
    struct nlroute_value name = {0};
    for (ptrdiff_t i = 0; i < count; i++)
        if (values[i].kind == IFLA_IFNAME) name = values[i];
    printf("%d: %.*s\n", message->index, (int)name.length, (const char *)list + name.offset);
    for (ptrdiff_t i = 0; i < count; i++) {
        ptrdiff_t family = nlroute_opens(NLROUTE_LINK, message->address_family, &values[i], list, message->length);
        if (values[i].kind == IFLA_LINKINFO && family >= 0)
            print_list((uint32_t)family, list + values[i].offset, values[i].length);
    }
}

/* Prints the links of the messages in a buffer. Returns whether more messages follow. */
static bool print_links(const uint8_t *buffer, size_t len) {
    struct nlroute_message message;
    for (size_t at = 0; !nlroute_read_message(buffer, len, at, &message); at = message.next) {
        if (message.type == NLMSG_DONE || message.type == NLMSG_ERROR) return false;
        if (message.type == RTM_NEWLINK) print_link(buffer + message.list, &message);
    }
    return true;
}

int main(void) {
    static uint8_t buffer[ROOM];
    const struct nlroute_head dump = nlroute_dump();
    size_t at;
    ssize_t len = nlroute_request(&dump, NLROUTE_NO_VALUES, NLROUTE_NO_OCTETS, buffer, sizeof buffer, &at);
    int netlink = socket(AF_NETLINK, SOCK_RAW | SOCK_CLOEXEC, NETLINK_ROUTE);
    if (len < 0 || netlink < 0 || send(netlink, buffer, (size_t)len, 0) < 0) return perror("netlink"), 1;
    do {
        len = recv(netlink, buffer, sizeof buffer, 0);
        if (len < 0) return perror("netlink"), 1;
    } while (print_links(buffer, (size_t)len));
    close(netlink);
    return 0;
}
