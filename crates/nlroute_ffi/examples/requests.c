/*
 * Requests of network managers, a function each, to copy from. Each is compared with what the kernel's headers say that it
 * is, byte for byte. Prints a line `ok ..` for each check that succeeds, and `FAILED ..` for each that fails. No socket is
 * opened: send() takes the bytes.
 */
#include "nlroute_requests.h"

#include <stdio.h>

/* A request in a buffer, and why it was not written. */
struct written {
    uint8_t bytes[256];
    ptrdiff_t length;
    size_t at;
};

/* Writes a request into a buffer; its sequence number is 1. */
static void write_values(struct written *it, struct nlroute_head head, const struct nlroute_value *values, size_t count) {
    head.sequence = 1;
    it->length = nlroute_request(&head, values, count, NLROUTE_NO_OCTETS, it->bytes, sizeof it->bytes, &it->at);
}

/* Makes a bond in mode 802.3ad, which looks at its links every 100 ms. */
static void make_bond(struct written *it, const char *name) {
    const struct nlroute_value bond[] = {
        nlroute_name(name),
        NLROUTE_DATA("bond"),
        nlroute_below(2, nlroute_number(NLROUTE_IFLA_BOND_MODE, NLROUTE_BOND_MODE_8023AD)),
        nlroute_below(2, nlroute_number(NLROUTE_IFLA_BOND_MIIMON, 100)),
    };
    write_values(it, nlroute_create(), NLROUTE_VALUES(bond));
}

/* Makes a link a port of a bond or bridge, and sets it up. A port of a bond has to be down before. */
static void add_port(struct written *it, int32_t port, uint32_t master, bool is_up) {
    const struct nlroute_value values[] = {nlroute_master(master)};
    struct nlroute_head head = nlroute_change(port);
    write_values(it, is_up ? nlroute_up(head, true) : head, NLROUTE_VALUES(values));
}

/* Makes a VLAN device on a link. */
static void make_vlan(struct written *it, const char *name, uint32_t lower, uint16_t id) {
    const struct nlroute_value vlan[] = {
        nlroute_name(name),
        nlroute_lower(lower),
        NLROUTE_DATA("vlan"),
        nlroute_below(2, nlroute_number(NLROUTE_IFLA_VLAN_ID, id)),
    };
    write_values(it, nlroute_create(), NLROUTE_VALUES(vlan));
}

/* Makes a bridge that filters VLANs. */
static void make_bridge(struct written *it, const char *name) {
    const struct nlroute_value bridge[] = {
        nlroute_name(name),
        NLROUTE_DATA("bridge"),
        nlroute_below(2, nlroute_number(NLROUTE_IFLA_BR_VLAN_FILTERING, 1)),
    };
    write_values(it, nlroute_create(), NLROUTE_VALUES(bridge));
}

/* Sets the cost of a bridge port, and adds it to a VLAN: untagged, and the VLAN of untagged frames. */
static void set_bridge_port(struct written *it, int32_t port, uint32_t cost, uint16_t vlan) {
    const struct nlroute_value values[] = {
        nlroute_protinfo(),
        nlroute_below(1, nlroute_number(NLROUTE_IFLA_BRPORT_COST, cost)),
        nlroute_af_spec(),
        nlroute_below(1, nlroute_pair(NLROUTE_IFLA_BRIDGE_VLAN_INFO, vlan, 6)),
    };
    write_values(it, nlroute_bridge_set(port), NLROUTE_VALUES(values));
}

/* The same cost by the options of the port. */
static void set_port_cost(struct written *it, int32_t port, uint32_t cost) {
    const struct nlroute_value values[] = {
        NLROUTE_PORT_DATA("bridge"),
        nlroute_below(2, nlroute_number(NLROUTE_IFLA_BRPORT_COST, cost)),
    };
    write_values(it, nlroute_change(port), NLROUTE_VALUES(values));
}

/* Sets a link down, and gives it a name, an MTU and an address. */
static void rename_link(struct written *it, int32_t index, const char *name, uint32_t mtu, const uint8_t address[6]) {
    const struct nlroute_value values[] = {
        nlroute_name(name),
        nlroute_mtu(mtu),
        nlroute_octets(NLROUTE_IFLA_ADDRESS, address, 6),
    };
    write_values(it, nlroute_up(nlroute_change(index), false), NLROUTE_VALUES(values));
}

/* Adds an alternative name. */
static void add_name(struct written *it, int32_t index, const char *name) {
    const struct nlroute_value values[] = {
        nlroute_of_message(nlroute_list(NLROUTE_IFLA_PROP_LIST)),
        nlroute_element(NLROUTE_IFLA_PROP_LIST, nlroute_name_of(NLROUTE_IFLA_ALT_IFNAME, name)),
    };
    write_values(it, nlroute_property(index), NLROUTE_VALUES(values));
}

static void delete_link(struct written *it, int32_t index) {
    write_values(it, nlroute_delete(index), NLROUTE_NO_VALUES);
}

/* Makes a pair of veth devices. The peer is a struct ifinfomsg, here zeros, and the attributes of a link. */
static void make_pair(struct written *it, const char *name, const char *peer) {
    uint8_t octets[16 + 64] = {0};
    size_t size = strlen(peer) + 1;
    memcpy(octets, peer, size < 16 ? size : 16);
    const struct nlroute_value peer_name = nlroute_lent(NLROUTE_IFLA_IFNAME, 0, (uint32_t)size);
    ptrdiff_t len = nlroute_write(NLROUTE_LINK, &peer_name, 1, octets, 16, octets + 32, 48);
    const struct nlroute_value values[] = {
        nlroute_name(name),
        NLROUTE_DATA("veth"),
        nlroute_below(2, nlroute_passed(NLROUTE_VETH_INFO_PEER, NLROUTE_FORM_PEER, 16, 16 + (uint32_t)len)),
    };
    struct nlroute_head head = nlroute_create();
    head.sequence = 1;
    it->length = len < 0 ? len : nlroute_request(&head, NLROUTE_VALUES(values), octets, sizeof octets, it->bytes,
                                                 sizeof it->bytes, &it->at);
}

static int failed;

static void check(bool holds, const char *what) {
    printf("%s %s\n", holds ? "ok" : "FAILED", what);
    failed |= !holds;
}

/* Compares a request with hex digits, which have blanks between them. */
static void check_bytes(const struct written *it, const char *hex, const char *what) {
    ptrdiff_t length = 0;
    bool is_same = it->length > 0;
    unsigned byte;
    int used;
    for (; is_same && sscanf(hex, " %2x%n", &byte, &used) == 1; hex += used, length++)
        is_same = length < it->length && it->bytes[length] == byte;
    check(is_same && length == it->length, what);
}

/* Checks that a request is refused with a code, and that the code is that of the value at an index. */
static void check_refused(const struct written *it, ptrdiff_t code, size_t at, const char *what) {
    check(it->length == code && it->at == at, what);
}

#define ZEROS "00000000 00000000 00000000 "

static void written_requests(void) {
    struct written it;
    make_bond(&it, "bond0");
    check_bytes(&it, "4c000000 10000506 01000000 00000000 00000000 " ZEROS "0a000300 626f6e64 30000000"
                     "20001200 08000100 626f6e64 14000200 05000100 04000000 08000300 64000000", "a bond");
    add_port(&it, 2, 7, false);
    check_bytes(&it, "28000000 10000500 01000000 00000000 00000000 02000000 00000000 00000000 08000a00 07000000",
                "a port of the bond");
    add_port(&it, 3, 7, true);
    check_bytes(&it, "28000000 10000500 01000000 00000000 00000000 03000000 01000000 01000000 08000a00 07000000",
                "another, which is set up");
    make_vlan(&it, "v5", 7, 5);
    check_bytes(&it, "48000000 10000506 01000000 00000000 00000000 " ZEROS "07000300 76350000 08000500 07000000"
                     "18001200 08000100 766c616e 0c000200 06000100 05000000", "a VLAN device on it");
    make_bridge(&it, "br0");
    check_bytes(&it, "44000000 10000506 01000000 00000000 00000000 " ZEROS "08000300 62723000"
                     "1c001200 0a000100 62726964 67650000 0c000200 05000700 01000000", "a bridge that filters VLANs");
    set_bridge_port(&it, 4, 44, 10);
    check_bytes(&it, "38000000 13000500 01000000 00000000 07000000 04000000 00000000 00000000"
                     "0c000c80 08000300 2c000000 0c001a00 08000200 06000a00", "its port's cost and VLAN");
    set_port_cost(&it, 4, 44);
    check_bytes(&it, "3c000000 10000500 01000000 00000000 00000000 04000000 00000000 00000000"
                     "1c001200 0a000400 62726964 67650000 0c000500 08000300 2c000000", "the cost by its options");
    const uint8_t address[6] = {2, 0, 0, 0, 0, 7};
    rename_link(&it, 4, "lan0", 1400, address);
    check_bytes(&it, "40000000 10000500 01000000 00000000 00000000 04000000 00000000 01000000"
                     "09000300 6c616e30 00000000 08000400 78050000 0a000100 02000000 00070000", "name, MTU and address");
    add_name(&it, 3, "another");
    check_bytes(&it, "30000000 6c00050e 01000000 00000000 00000000 03000000 00000000 00000000"
                     "10003480 0c003500 616e6f74 68657200", "an alternative name");
    make_pair(&it, "e0", "e1");
    check_bytes(&it, "54000000 10000506 01000000 00000000 00000000 " ZEROS "07000300 65300000"
                     "2c001200 08000100 76657468 20000200 1c000100 00000000 " ZEROS "07000300 65310000", "a pair");
    delete_link(&it, 3);
    check_bytes(&it, "20000000 11000500 01000000 00000000 00000000 03000000 00000000 00000000", "a link is deleted");
}

static void refused_requests(void) {
    struct written it;
    make_bond(&it, "a name too long!");
    check_refused(&it, NLROUTE_BAD_NAME, 0, "a name of 16 bytes");
    make_bond(&it, "a b");
    check_refused(&it, NLROUTE_BAD_NAME, 0, "a name with a blank");
    delete_link(&it, 0);
    check_refused(&it, NLROUTE_NO_INDEX, 0, "no index");
    write_values(&it, nlroute_make_head(20, 4, 1), NLROUTE_NO_VALUES);
    check_refused(&it, NLROUTE_BAD_TYPE, 0, "another type");
    const struct nlroute_value number = nlroute_number(NLROUTE_IFLA_BOND_MODE, 4);
    const struct nlroute_value bond[] = {NLROUTE_DATA("bond"), number};
    write_values(&it, nlroute_create(), NLROUTE_VALUES(bond));
    check_refused(&it, NLROUTE_BAD_DEPTH, 2, "data without values");
    write_values(&it, nlroute_create(), &number, 1);
    check_refused(&it, NLROUTE_BAD_FORM, 0, "a number where bytes are");
    const struct nlroute_value other[] = {NLROUTE_DATA("zz9"), nlroute_below(2, number)};
    write_values(&it, nlroute_create(), NLROUTE_VALUES(other));
    check_refused(&it, NLROUTE_NO_SET, 2, "data of a kind without a set");
    const struct nlroute_value deep[] = {NLROUTE_DATA("bond"), nlroute_below(3, number)};
    write_values(&it, nlroute_create(), NLROUTE_VALUES(deep));
    check_refused(&it, NLROUTE_BAD_DEPTH, 3, "a depth too many");
    const struct nlroute_value wide[] = {NLROUTE_DATA("bond"), nlroute_below(2, nlroute_number(NLROUTE_IFLA_BOND_MODE, 256))};
    write_values(&it, nlroute_create(), NLROUTE_VALUES(wide));
    check_refused(&it, NLROUTE_BAD_NUMBER, 3, "a number too large");
    const struct nlroute_value text = nlroute_string(NLROUTE_IFLA_IFALIAS, "seventeen bytes!!");
    write_values(&it, nlroute_change(3), &text, 1);
    check_refused(&it, NLROUTE_BAD_OCTETS, 0, "17 octets of a value");

    uint8_t out[76];
    memset(out, 0xFF, sizeof out);
    const struct nlroute_head head = nlroute_change(3);
    const struct nlroute_value master = nlroute_master(7);
    size_t at = 9;
    bool is_small = nlroute_request(&head, &master, 1, NLROUTE_NO_OCTETS, out, 39, &at) == NLROUTE_NO_ROOM && at == 40;
    for (size_t i = 0; i < sizeof out; i++) is_small &= out[i] == 0xFF;
    check(is_small, "a buffer that is one byte too small stays, and the length is told");
    check(!strcmp(nlroute_refusal_text(NLROUTE_NO_SET), "no attribute set reads the list of these values"), "in words");
}

int main(void) {
    written_requests();
    refused_requests();
    return failed;
}
