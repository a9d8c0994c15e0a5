/*
 * Makes a request that sets up a bridge, as `ip link add br0 type bridge forward_delay 700 hello_time 100 group_address
 * 01:80:c2:00:00:04` sends it, and prints its attributes in hex and in words. With a name as argument, it makes the bridge
 * of this name: run it as root.
 *
 * Compile it as nlroute.h says: cc bridge.c $(pkg-config --cflags --libs nlroute)
 */
#include "nlroute.h"
#include "nlroute_kinds.h"

#include <linux/rtnetlink.h>
#include <stdio.h>
#include <string.h>
#include <sys/socket.h>
#include <unistd.h>

enum { ROOM = 128 };

/* Writes a list, or says why it cannot be written. Returns its length or an error code. */
static ptrdiff_t written(uint32_t family, const struct nlroute_value *values, size_t count, const uint8_t *octets, size_t len,
                         uint8_t *out, size_t room) {
    size_t at = 0;
    ptrdiff_t code = nlroute_write(family, values, count, octets, len, out, room);
    if (code < 0) {
        ptrdiff_t measured = nlroute_measure(family, values, count, octets, len, &at);
        fprintf(stderr, "value %zu: %s\n", at, nlroute_refusal_text(measured < 0 ? measured : code));
    }
    return code;
}

/* Writes the attributes of a request for a bridge of this name. Returns their length or an error code. */
static ptrdiff_t bridge(const char *name, uint8_t out[ROOM]) {
    const uint8_t group[6] = {0x01, 0x80, 0xC2, 0x00, 0x00, 0x04};
    const struct nlroute_value data[] = {
        nlroute_number(NLROUTE_IFLA_BR_FORWARD_DELAY, 700),
        nlroute_number(NLROUTE_IFLA_BR_HELLO_TIME, 100),
        nlroute_address(NLROUTE_IFLA_BR_GROUP_ADDR, group, sizeof group),
    };
    /* the texts and the list that the request refers to: a name, the kind, and the bridge's attributes */
    enum { NAME = 0, KIND = 16, DATA = 24 };
    uint8_t octets[ROOM] = {0};
    snprintf((char *)octets + NAME, KIND - NAME, "%s", name);
    memcpy(octets + KIND, "bridge", 6);
    ptrdiff_t len = written(NLROUTE_BRIDGE, data, 3, NLROUTE_NO_OCTETS, octets + DATA, sizeof octets - DATA);
    if (len < 0) return len;
    const struct nlroute_value link[] = {
        nlroute_lent(NLROUTE_IFLA_IFNAME, NAME, (uint32_t)strlen((const char *)octets + NAME) + 1),
        nlroute_list(NLROUTE_IFLA_LINKINFO),
        nlroute_element(NLROUTE_IFLA_LINKINFO, nlroute_lent(NLROUTE_IFLA_INFO_KIND, KIND, 6)),
        nlroute_element(NLROUTE_IFLA_LINKINFO, nlroute_lent(NLROUTE_IFLA_INFO_DATA, DATA, (uint32_t)len)),
    };
    return written(NLROUTE_LINK, link, 4, octets, sizeof octets, out, ROOM);
}

/* Prints the values of a list, a line each; elements of a list are indented below it. */
static void print_list(uint32_t family, const uint8_t *list, size_t len, int indent) {
    struct nlroute_value values[32];
    char name[NLROUTE_TEXT_ROOM], text[NLROUTE_TEXT_ROOM];
    ptrdiff_t count = nlroute_values(family, list, len, values, 32);
    for (ptrdiff_t i = 0; i < count; i++) {
        int deeper = indent + 2 * values[i].depth;
        nlroute_kind_name(family, &values[i], name, sizeof name);
        nlroute_text(family, &values[i], list, len, text, sizeof text);
        if (values[i].form != NLROUTE_FORM_HELD) printf("%*s%s%s%s\n", deeper, "", name, *text ? " " : "", text);
        else {
            printf("%*s%s\n", deeper, "", name);
            print_list(NLROUTE_BRIDGE, list + values[i].offset, values[i].length, deeper + 2);
        }
    }
}

/* Sends the request with these attributes to the kernel. Returns whether it did what was asked. */
static bool send_request(const uint8_t *attributes, size_t len) {
    struct {
        struct nlmsghdr header;
        struct ifinfomsg link;
        uint8_t attributes[ROOM];
    } request = {{0, RTM_NEWLINK, NLM_F_REQUEST | NLM_F_ACK | NLM_F_CREATE | NLM_F_EXCL, 1, 0}, {0}, {0}};
    struct {
        struct nlmsghdr header;
        struct nlmsgerr error;
        uint8_t rest[512];
    } reply = {0};
    request.header.nlmsg_len = (uint32_t)(NLMSG_LENGTH(sizeof request.link) + len);
    memcpy(request.attributes, attributes, len);
    int netlink = socket(AF_NETLINK, SOCK_RAW | SOCK_CLOEXEC, NETLINK_ROUTE);
    bool is_sent = netlink >= 0 && send(netlink, &request, request.header.nlmsg_len, 0) > 0;
    if (!is_sent || recv(netlink, &reply, sizeof reply, 0) < (ssize_t)NLMSG_LENGTH(sizeof reply.error)) return perror("netlink"), false;
    close(netlink);
    if (reply.error.error) fprintf(stderr, "refused: %s\n", strerror(-reply.error.error));
    return !reply.error.error;
}

int main(int argc, char **argv) {
    uint8_t list[ROOM];
    ptrdiff_t len = bridge(argc > 1 ? argv[1] : "br0", list);
    if (len < 0) return 1;
    if (argc > 1) return !send_request(list, (size_t)len);
    for (ptrdiff_t i = 0; i < len; i++) printf("%s%02x", i && i % 4 == 0 ? " " : "", list[i]);
    printf("\n");
    print_list(NLROUTE_LINK, list, (size_t)len, 0);
    return 0;
}
