/*
 * Tasks of network managers and packet printers, a function each, to copy from. Prints a line `ok ..` for each check that
 * succeeds, and `FAILED ..` for each that fails.
 */
#define _POSIX_C_SOURCE 200809L /* open_memstream */
#include "nlroute.h"
#include "nlroute_kinds.h"

#include <arpa/inet.h>
#include <linux/can/netlink.h>
#include <linux/rtnetlink.h>
#include <stdio.h>
#include <stdlib.h>
#include <string.h>

/* Reads the forward delay of a bridge, in hundredths of a second. Returns 0 or an error code. */
static ptrdiff_t forward_delay(const uint8_t *list, size_t len, uint32_t *delay) {
    struct nlroute_value value;
    ptrdiff_t code = nlroute_find(NLROUTE_BRIDGE, list, len, NLROUTE_IFLA_BR_FORWARD_DELAY, &value);
    if (code == 0) *delay = (uint32_t)value.number;
    return code;
}

/* Copies a bridge's list with another forward delay, and with an attribute more. Returns the length or an error code. */
static ptrdiff_t with_delay(const uint8_t *list, size_t len, uint32_t delay, uint8_t *out, size_t room) {
    struct nlroute_value values[64];
    ptrdiff_t count = nlroute_values(NLROUTE_BRIDGE, list, len, values, 63);
    if (count < 0) return count;
    for (ptrdiff_t i = 0; i < count; i++)
        if (values[i].kind == NLROUTE_IFLA_BR_FORWARD_DELAY) values[i].number = delay;
    values[count++] = nlroute_number(NLROUTE_IFLA_BR_VLAN_FILTERING, 1);
    return nlroute_write(NLROUTE_BRIDGE, values, (size_t)count, list, len, out, room);
}

/* Prints the values of a list, a line each: the kernel's name and the value. */
static void print_list(FILE *to, uint32_t family, const uint8_t *list, size_t len) {
    struct nlroute_value values[64];
    char name[NLROUTE_TEXT_ROOM], value[NLROUTE_TEXT_ROOM];
    ptrdiff_t count = nlroute_values(family, list, len, values, 64);
    for (ptrdiff_t i = 0; i < count; i++) {
        nlroute_kind_name(family, &values[i], name, sizeof name);
        nlroute_text(family, &values[i], list, len, value, sizeof value);
        fprintf(to, "%*s%s%s%s\n", 2 * values[i].depth, "", name, *value ? " " : "", value);
    }
}

/* Prints the attributes of the bonds in a buffer of messages, a line each. */
static void print_bonds(FILE *to, const uint8_t *bytes, size_t len) {
    struct nlroute_message message;
    struct nlroute_range bond;
    for (size_t at = 0; nlroute_read_message(bytes, len, at, &message) == 0; at = message.next) {
        const uint8_t *list = bytes + message.list;
        if (message.type == RTM_NEWLINK
            && nlroute_held(list, message.length, message.address_family, NLROUTE_BOND, &bond) == 0)
            print_list(to, NLROUTE_BOND, list + bond.offset, bond.length);
    }
}

/* Says in a text what is wrong with a list. Returns whether anything is. */
static bool explain(uint32_t family, const uint8_t *list, size_t len, char *text, size_t room) {
    struct nlroute_fault fault;
    if (nlroute_first_fault(family, list, len, &fault)) return false;
    return nlroute_fault_text(family, &fault, text, room) > 0;
}

/* Stores the ARP targets of a bond, at most `most`. Returns how many it stored. */
static size_t arp_targets(const uint8_t *list, size_t len, struct in_addr *targets, size_t most) {
    struct nlroute_value values[64];
    ptrdiff_t count = nlroute_values(NLROUTE_BOND, list, len, values, 64);
    size_t found = 0;
    for (ptrdiff_t i = 0; i < count && found < most; i++)
        if (values[i].kind == NLROUTE_IFLA_BOND_ARP_IP_TARGET && values[i].depth == 1)
            memcpy(&targets[found++], values[i].octets, sizeof *targets);
    return found;
}

/* Writes a list that sets two ARP targets of a bond. Returns the length or an error code. */
static ptrdiff_t set_targets(const struct in_addr targets[2], uint8_t *out, size_t room) {
    const uint16_t kind = NLROUTE_IFLA_BOND_ARP_IP_TARGET;
    const struct nlroute_value values[] = {
        nlroute_list(kind),
        nlroute_element(kind, nlroute_address(0, &targets[0], 4)),
        nlroute_element(kind, nlroute_address(1, &targets[1], 4)),
    };
    return nlroute_write(NLROUTE_BOND, values, 3, NLROUTE_NO_OCTETS, out, room);
}

/* Reads the bit rate of a CAN controller, in bits per second. Returns 0 or an error code. */
static ptrdiff_t bit_rate(const uint8_t *list, size_t len, uint32_t *rate) {
    struct nlroute_value value;
    struct can_bittiming timing;
    ptrdiff_t code = nlroute_find(NLROUTE_CAN, list, len, NLROUTE_IFLA_CAN_BITTIMING, &value);
    if (code == 0) code = nlroute_can_bittiming(&value, list, len, &timing);
    if (code == 0) *rate = timing.bitrate;
    return code;
}

/* Reads the address of the IGMP querier that a bridge has seen. Returns 0 or an error code. */
static ptrdiff_t querier(const uint8_t *list, size_t len, struct in_addr *address) {
    struct nlroute_value value;
    ptrdiff_t code = nlroute_find_in(NLROUTE_BRIDGE, list, len, NLROUTE_IFLA_BR_MCAST_QUERIER_STATE,
                                     NLROUTE_BRIDGE_QUERIER_IP_ADDRESS, &value);
    if (code == 0) memcpy(address, value.octets, sizeof *address);
    return code;
}

/* Appends an attribute to a message, whose buffer is zeroed and has room for it. Returns the attribute. */
static struct rtattr *append(struct nlmsghdr *message, uint16_t type, const void *payload, size_t len) {
    struct rtattr *attr = (struct rtattr *)((char *)message + NLMSG_ALIGN(message->nlmsg_len));
    attr->rta_type = type;
    attr->rta_len = (uint16_t)RTA_LENGTH(len);
    memcpy(RTA_DATA(attr), payload, len);
    message->nlmsg_len = (uint32_t)(NLMSG_ALIGN(message->nlmsg_len) + RTA_SPACE(len));
    return attr;
}

/* Appends an IFLA_LINKINFO with a list that nlroute_write() wrote, for a device of this kind, such as "bridge". */
static void append_info(struct nlmsghdr *message, const char *kind, const uint8_t *list, size_t len) {
    struct rtattr *info = append(message, IFLA_LINKINFO, "", 0);
    append(message, IFLA_INFO_KIND, kind, strlen(kind));
    append(message, IFLA_INFO_DATA, list, len);
    info->rta_len = (uint16_t)((char *)message + message->nlmsg_len - (char *)info);
}

static int failed;

static void check(bool holds, const char *what) {
    printf("%s %s\n", holds ? "ok" : "FAILED", what);
    failed |= !holds;
}

int main(void) {
    /* a forward delay of 15 s, and the querier 10.0.0.1 */
    const uint8_t bridge[20] = {8, 0, 1, 0, 0xDC, 5, 0, 0, 12, 0, 47, 0x80, 8, 0, 1, 0, 10, 0, 0, 1};
    /* the same with 7 s, and VLAN filtering */
    const uint8_t changed[28] = {8, 0, 1, 0, 0xBC, 2, 0, 0, 12, 0, 47, 0x80, 8, 0,
                                 1, 0, 10, 0, 0, 1, 5, 0, 7, 0, 1, 0, 0, 0};
    /* 802.3ad, and the targets 10.0.0.1 and 10.0.0.2 */
    const uint8_t bond[28] = {5, 0, 1, 0, 4, 0, 0, 0, 20, 0, 8, 0, 8, 0, 0, 0, 10, 0, 0, 1, 8, 0, 1, 0, 10, 0, 0, 2};
    /* 500 kbit/s */
    const uint8_t can[36] = {36, 0, 1, 0, 0x20, 0xA1, 7, 0};
    uint32_t number = 0;
    check(!forward_delay(bridge, sizeof bridge, &number) && number == 1500, "a forward delay is read");
    check(forward_delay(bridge + 8, 12, &number) == NLROUTE_ABSENT && number == 1500, "a list has none");

    uint8_t out[64];
    bool is_written = with_delay(bridge, sizeof bridge, 700, out, sizeof out) == sizeof changed;
    check(is_written && !memcmp(out, changed, sizeof changed), "it is changed, and an attribute is appended");

    char *printed = NULL, text[NLROUTE_TEXT_ROOM];
    size_t size = 0;
    FILE *to = open_memstream(&printed, &size);
    if (!to) return perror("open_memstream"), 1;
    print_list(to, NLROUTE_BOND, bond, sizeof bond);
    fclose(to);
    check(!strcmp(printed, "IFLA_BOND_MODE 802.3ad (4)\nIFLA_BOND_ARP_IP_TARGET\n  [0] 10.0.0.1\n  [1] 10.0.0.2\n"),
          "a bond is printed");
    free(printed);

    /* an RTM_NEWLINK of a bond in mode 802.3ad, and an NLMSG_DONE */
    const uint8_t dump[] = {56, 0, 0, 0, 16, 0, 2,  0, 1,  0, 0, 0, 0, 0, 0, 0, 0,   0,   1,   0,   9,  0, 0, 0, 0, 0,
                            0,  0, 0, 0, 0,  0, 24, 0, 18, 0, 8, 0, 1, 0, 'b', 'o', 'n', 'd', 12, 0, 2, 0, 5, 0, 1, 0,
                            4,  0, 0, 0, 20, 0, 0,  0, 3,  0, 2, 0, 1, 0, 0, 0, 0,   0,   0,   0,   0,  0, 0, 0};
    to = open_memstream(&printed, &size);
    if (!to) return perror("open_memstream"), 1;
    print_bonds(to, dump, sizeof dump);
    fclose(to);
    check(!strcmp(printed, "IFLA_BOND_MODE 802.3ad (4)\n"), "the bonds of a dump are printed");
    free(printed);

    check(explain(NLROUTE_BOND, bond, 27, text, sizeof text), "a list that is cut off is explained");
    check(!strcmp(text, "error at 8: nla_len 20 exceeds the 19 bytes left"), "in these words");

    struct in_addr targets[2], address;
    check(arp_targets(bond, sizeof bond, targets, 2) == 2 && ntohl(targets[1].s_addr) == 0x0A000002, "two targets");
    check(set_targets(targets, out, sizeof out) == 20 && !memcmp(out, bond + 8, 20), "two targets are written");

    check(!bit_rate(can, sizeof can, &number) && number == 500000, "a bit rate is read");
    check(!querier(bridge, sizeof bridge, &address) && ntohl(address.s_addr) == 0x0A000001, "a querier is read");

    union {
        struct nlmsghdr header;
        uint8_t bytes[128];
    } message = {.header = {.nlmsg_len = NLMSG_LENGTH(sizeof(struct ifinfomsg)), .nlmsg_type = RTM_NEWLINK}};
    /* an IFLA_LINKINFO with the kind, the delay, and VLAN filtering */
    const uint8_t info[36] = {36, 0, 18, 0, 10, 0, 1, 0, 'b', 'r', 'i', 'd', 'g', 'e', 0, 0, 20, 0,
                              2,  0, 8,  0, 1,  0, 0xDC, 5, 0, 0, 5, 0, 7, 0, 1, 0, 0, 0};
    const struct nlroute_value request[] = {
        nlroute_number(NLROUTE_IFLA_BR_FORWARD_DELAY, 1500),
        nlroute_number(NLROUTE_IFLA_BR_VLAN_FILTERING, 1),
    };
    ptrdiff_t written = nlroute_write(NLROUTE_BRIDGE, request, 2, NLROUTE_NO_OCTETS, out, sizeof out);
    if (written > 0) append_info(&message.header, "bridge", out, (size_t)written);
    check(message.header.nlmsg_len == 68 && !memcmp(message.bytes + 32, info, sizeof info), "a request is wrapped");
    return failed;
}
