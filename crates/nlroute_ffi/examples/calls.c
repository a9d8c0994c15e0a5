/*
 * Calls the functions of nlroute.h from C. Prints a line `ok ..` for each check that succeeds, and `FAILED ..` for each
 * that fails. Some checks are of what no contract covers: which number belongs to which attribute set, and that each
 * result occurs. The linker options --wrap=malloc and --wrap=realloc let this program make allocations fail.
 */
#include "nlroute.h"
#include "nlroute_kinds.h"

#include <linux/can/netlink.h>
#include <stdbool.h>
#include <stdio.h>
#include <string.h>

static bool memory_is_out;
#ifdef __cplusplus
extern "C" {
#endif
void *__real_malloc(size_t size);
void *__real_realloc(void *old, size_t size);
void *__wrap_malloc(size_t size) { return memory_is_out ? NULL : __real_malloc(size); }
void *__wrap_realloc(void *old, size_t size) { return memory_is_out ? NULL : __real_realloc(old, size); }
#ifdef __cplusplus
}
#endif

static int failed;

static void check(bool holds, const char *what) {
    printf("%s %s\n", holds ? "ok" : "FAILED", what);
    failed |= !holds;
}

/* Checks whether all len bytes are 0xFF. */
static bool are_lent(const void *bytes, size_t len) {
    for (size_t i = 0; i < len; i++)
        if (((const uint8_t *)bytes)[i] != 0xFF) return false;
    return true;
}

/* What `ip link add link eth0 name v5 type vlan proto 802.1ad id 5 egress-qos-map 1:2` sends for the VLAN. */
static const uint8_t vlan[32] = {6, 0, 5, 0, 0x88, 0xA8, 0, 0, 6,  0, 1, 0, 5, 0, 0, 0,
                                 16, 0, 3, 0, 12,   0,    1, 0, 1, 0, 0, 0, 2, 0, 0, 0};

/* The names of the attribute sets, by their numbers. tools/made.py writes them. */
static const char *const sets[] = {
    [NLROUTE_AF_SPEC_BRIDGE] = "af_spec_bridge",
    [NLROUTE_BOND] = "bond",
    [NLROUTE_BOND_PORT] = "bond_port",
    [NLROUTE_BRIDGE] = "bridge",
    [NLROUTE_BRIDGE_PORT] = "bridge_port",
    [NLROUTE_VLAN] = "vlan",
    [NLROUTE_CAN] = "can",
    [NLROUTE_DSA] = "dsa",
    [NLROUTE_HSR] = "hsr",
    [NLROUTE_PROTO_BRIDGE] = "proto_bridge",
    [NLROUTE_VXLAN] = "vxlan",
    [NLROUTE_LINK] = "link",
    [NLROUTE_AF_SPEC] = "af_spec",
    [NLROUTE_INET] = "inet",
    [NLROUTE_INET6] = "inet6",
    [NLROUTE_MCTP] = "mctp",
    [NLROUTE_REPLY] = "reply",
    [NLROUTE_GENEVE] = "geneve",
    [NLROUTE_VRF] = "vrf",
    [NLROUTE_VRF_PORT] = "vrf_port",
    [NLROUTE_TUN] = "tun",
    [NLROUTE_IPVLAN] = "ipvlan",
    [NLROUTE_MACVLAN] = "macvlan",
    [NLROUTE_NETKIT] = "netkit",
    [NLROUTE_VETH] = "veth",
};

/* Types of attribute sets, by their names. */
static const struct {
    uint32_t family;
    const char *type;
    uint16_t kind;
} types[] = {
    {NLROUTE_AF_SPEC_BRIDGE, "IFLA_BRIDGE_VLAN_INFO", 2},
    {NLROUTE_BOND, "IFLA_BOND_MODE", 1},
    {NLROUTE_BOND_PORT, "IFLA_BOND_SLAVE_STATE", 1},
    {NLROUTE_BRIDGE, "IFLA_BR_GROUP_ADDR", 20},
    {NLROUTE_BRIDGE_PORT, "IFLA_BRPORT_STATE", 1},
    {NLROUTE_VLAN, "IFLA_VLAN_PROTOCOL", 5},
    {NLROUTE_CAN, "IFLA_CAN_CTRLMODE", 5},
    {NLROUTE_DSA, "IFLA_DSA_CONDUIT", 1},
    {NLROUTE_HSR, "IFLA_HSR_PROTOCOL", 7},
    {NLROUTE_PROTO_BRIDGE, "IFLA_BRPORT_NEIGH_FORWARD_GRAT", 45},
    {NLROUTE_VXLAN, "IFLA_VXLAN_PORT", 15},
    {NLROUTE_LINK, "IFLA_IFNAME", 3},
    {NLROUTE_AF_SPEC, "AF_INET6", 10},
    {NLROUTE_INET, "IFLA_INET_CONF", 1},
    {NLROUTE_INET6, "IFLA_INET6_TOKEN", 7},
    {NLROUTE_MCTP, "IFLA_MCTP_NET", 1},
    {NLROUTE_REPLY, "NLMSGERR_ATTR_MSG", 1},
};

/* How many attribute sets there are; no set has this number. */
enum { FAMILIES = sizeof sets / sizeof sets[0] };

static void families(void) {
    char name[NLROUTE_TEXT_ROOM];
    for (uint32_t i = 0; i < FAMILIES; i++)
        check(nlroute_family_name(i, name, sizeof name) > 0 && !strcmp(name, sets[i]), "a set by its number");
    for (size_t i = 0; i < sizeof types / sizeof types[0]; i++)
        check(nlroute_kind_of(types[i].family, types[i].type, strlen(types[i].type)) == types[i].kind, "a type of a set");
    check(nlroute_family_name(FAMILIES, name, sizeof name) == NLROUTE_NO_FAMILY, "no set has the next number");
}

static void rewriting(void) {
    uint8_t out[40];
    memset(out, 0xFF, sizeof out);
    ptrdiff_t answer = nlroute_rewrite(NLROUTE_VLAN, vlan, 32, out, 40);
    check(answer == 32 && !memcmp(out, vlan, 32), "a request is rewritten as it is");
    check(are_lent(out + 32, 8), "what stands behind it is left");
    check(nlroute_rewrite(NLROUTE_VLAN, vlan, 32, out, 32) == 32, "there is room for it alone");
    check(nlroute_rewrite(NLROUTE_VLAN, vlan, 0, out, 0) == 0, "no values take no bytes");
    check(nlroute_count(NLROUTE_VLAN, vlan, 32) == 3, "a request has three values");
    check(nlroute_count(NLROUTE_VLAN, vlan, 0) == 0, "no bytes have no values");
}

static void judging(void) {
    memory_is_out = true;
    bool is_so = nlroute_is_canonical(NLROUTE_VLAN, vlan, 32), empty = nlroute_is_canonical(NLROUTE_VLAN, vlan, 0);
    memory_is_out = false;
    check(is_so, "a request is canonical, and no memory is taken to tell");
    check(empty, "no bytes are canonical");
    check(!nlroute_is_canonical(NLROUTE_VLAN, vlan, 30), "with a fault it is not");
    const uint8_t on[8] = {5, 0, 7, 0, 2}, written[8] = {5, 0, 7, 0, 1};
    bool first = !nlroute_is_canonical(NLROUTE_BRIDGE, on, sizeof on);
    check(first && nlroute_is_canonical(NLROUTE_BRIDGE, written, sizeof written), "output is canonical, input not");
    check(!nlroute_is_canonical(FAMILIES, vlan, 32), "nothing is canonical for the number of no set");
}

static void refusals(void) {
    static uint8_t grows[65533] = {0xFD, 0xFF, 3, 0, 0xF9, 0xFF, 99}, out[65540];
    memset(out, 0xFF, sizeof out);
    check(nlroute_rewrite(NLROUTE_VLAN, vlan, 30, out, 40) == NLROUTE_HAS_FAULT, "-1 for a fault");
    ptrdiff_t grown = nlroute_rewrite(NLROUTE_VLAN, grows, sizeof grows, out, sizeof out);
    check(grown == NLROUTE_TOO_LONG, "-2 for a list that grows");
    check(nlroute_rewrite(NLROUTE_VLAN, vlan, 32, out, 31) == NLROUTE_NO_ROOM, "-4 with room for all but a byte");
    check(nlroute_rewrite(FAMILIES, vlan, 32, out, 40) == NLROUTE_NO_FAMILY, "-5 for the number of no set");
    check(nlroute_rewrite(UINT32_MAX, vlan, 32, out, 40) == NLROUTE_NO_FAMILY, "-5 for the greatest number");
    memory_is_out = true;
    ptrdiff_t rewritten = nlroute_rewrite(NLROUTE_VLAN, vlan, 32, out, 40);
    ptrdiff_t counted = nlroute_count(NLROUTE_VLAN, vlan, 32), empty = nlroute_rewrite(NLROUTE_VLAN, vlan, 0, out, 0);
    memory_is_out = false;
    check(rewritten == NLROUTE_NO_MEMORY, "-3 without memory");
    check(counted == 3 && empty == 0, "no memory for a count, or for no values");
    check(are_lent(out, sizeof out), "nothing was written");
    check(nlroute_count(NLROUTE_VLAN, vlan, 30) == -1 && nlroute_count(FAMILIES, vlan, 32) == -5, "-1 and -5 of a count");
}

/* Checks nlroute_rewrite_streaming(): it builds no list of values, so only values that own heap memory allocate. */
static void value_by_value(void) {
    const uint8_t plain[20] = {8, 0, 1, 0x80, 42, 0, 0, 0, 8, 0, 1, 0, 43, 0, 0, 0, 5, 0, 1, 0};
    uint8_t out[40];
    memset(out, 0xFF, sizeof out);
    ptrdiff_t small = nlroute_rewrite_streaming(NLROUTE_VLAN, vlan, 32, out, 31);
    check(small == NLROUTE_NO_ROOM, "-4 with room for all but a byte, value by value");
    check(nlroute_rewrite_streaming(FAMILIES, vlan, 32, out, 40) == NLROUTE_NO_FAMILY, "-5 value by value");
    check(are_lent(out, sizeof out), "nothing was written then");
    ptrdiff_t answer = nlroute_rewrite_streaming(NLROUTE_VLAN, vlan, 32, out, 40);
    check(answer == 32 && !memcmp(out, vlan, 32) && are_lent(out + 32, 8), "a request is rewritten value by value");
    memory_is_out = true;
    ptrdiff_t nested = nlroute_rewrite_streaming(NLROUTE_VLAN, vlan, 32, out, 40);
    memset(out, 0xFF, sizeof out);
    ptrdiff_t numbers = nlroute_rewrite_streaming(NLROUTE_DSA, plain, 16, out, 40);
    memory_is_out = false;
    check(nested == NLROUTE_NO_MEMORY, "-3 for a list of mappings without memory");
    check(numbers == 16 && out[3] == 0 && are_lent(out + 16, 24), "numbers take no memory");
    memset(out, 0xFF, sizeof out);
    answer = nlroute_rewrite_streaming(NLROUTE_DSA, plain, 18, out, 40);
    check(answer == NLROUTE_HAS_FAULT, "-1 for a fault, value by value");
    check(are_lent(out + 20, 20), "what stands behind the room is left");
}

/* A list of a bridge: a delay of 15 s, the bridge ID 8000.02:00:00:00:00:01, the IGMP querier 10.0.0.1, and type 99. */
static const uint8_t bridge[38] = {8,  0, 1,  0,    0xDC, 5, 0, 0, 12, 0, 11, 0, 0x80, 0, 2,  0,    0, 0,    0,
                                   1,  12, 0, 47,   0x80, 8, 0, 1, 0,  10, 0, 0, 1,    6, 0,  99,   0x40, 0xDE, 0xAD};

/* Checks the struct itself: no contract covers how C sees its fields. */
static void values(void) {
    struct nlroute_value v[6], found;
    memset(v, 0xFF, sizeof v);
    memory_is_out = true;
    ptrdiff_t places = nlroute_places(NLROUTE_BRIDGE, bridge, sizeof bridge);
    ptrdiff_t stored = nlroute_values(NLROUTE_BRIDGE, bridge, sizeof bridge, v, 6);
    memory_is_out = false;
    check(places == 5 && stored == 5 && are_lent(v + 5, sizeof v[5]), "five values, without memory");
    check(v[0].kind == NLROUTE_IFLA_BR_FORWARD_DELAY && v[0].form == NLROUTE_FORM_UNSIGNED, "a delay is a number");
    check(v[0].number == 1500, "the delay");
    check(v[0].offset == 4 && v[0].length == 4 && v[0].depth == 0 && v[0].inner == 0, "where it is");
    const uint8_t address[16] = {2, 0, 0, 0, 0, 1}, querier[16] = {10, 0, 0, 1};
    check(v[1].kind == NLROUTE_IFLA_BR_BRIDGE_ID && v[1].form == NLROUTE_FORM_BRIDGE_ID, "a bridge ID");
    check(v[1].number == 0x8000, "its priority");
    check(v[1].offset == 12 && v[1].length == 8 && !memcmp(v[1].octets, address, 16), "its address");
    struct nlroute_field field;
    check(!nlroute_read_field(NLROUTE_BRIDGE, v + 1, 0, bridge, sizeof bridge, &field), "a field of the bridge ID");
    check(!strcmp(field.name, "prio") && field.number == 0x8000 && field.form == NLROUTE_FORM_UNSIGNED, "the priority");
    check(!nlroute_read_field(NLROUTE_BRIDGE, v + 1, 1, bridge, sizeof bridge, &field), "another");
    check(!strcmp(field.name, "addr") && field.offset == 2 && field.form == NLROUTE_FORM_MAC, "the address");
    check(field.length == 6 && !memcmp(field.octets, address, 16) && field.number == 0, "its octets");
    check(v[2].kind == 47 && v[2].form == NLROUTE_FORM_LIST && v[2].number == 1, "a list of one element");
    check(v[2].offset == 24 && v[2].length == 8, "where the list is");
    check(v[3].kind == 47 && v[3].inner == 1 && v[3].depth == 1 && v[3].form == NLROUTE_FORM_IPV4, "the element");
    check(v[3].offset == 28 && v[3].length == 4 && !memcmp(v[3].octets, querier, 16), "the address of the querier");
    check(v[4].kind == 99 && v[4].form == NLROUTE_FORM_UNKNOWN && v[4].flags == 0x4000, "a type that is not known");
    check(v[4].offset == 36 && v[4].length == 2, "its payload");
    check(nlroute_values(NLROUTE_BRIDGE, bridge, sizeof bridge, v, 4) == NLROUTE_NO_ROOM, "-4 with four places");
    check(nlroute_values(NLROUTE_BRIDGE, bridge, 37, v, 6) == NLROUTE_HAS_FAULT, "-1 of values");
    memset(&found, 0xFF, sizeof found);
    check(nlroute_find(NLROUTE_BRIDGE, bridge, sizeof bridge, 2, &found) == NLROUTE_ABSENT, "-6 for what is not there");
    check(nlroute_find_in(FAMILIES, bridge, sizeof bridge, 47, 1, &found) == NLROUTE_NO_FAMILY, "-5 of an element");
    check(are_lent(&found, sizeof found), "nothing was found");
    bool is_found = !nlroute_find(NLROUTE_BRIDGE, bridge, sizeof bridge, 1, &found);
    check(is_found && !memcmp(&found, v, sizeof found), "the delay is found");
    is_found = !nlroute_find_in(NLROUTE_BRIDGE, bridge, sizeof bridge, 47, 1, &found);
    check(is_found && !memcmp(&found, v + 3, sizeof found), "the querier is found");
}

/* Reads a message about a link: its name, its counters, and in IFLA_LINKINFO a kind and the list of its set. */
static void links(void) {
    uint8_t list[64] = {7, 0, 3, 0, 'b', 'r', 0, 0, 28, 0, 23, 0, 1};
    struct nlroute_value v[8], found;
    char name[NLROUTE_TEXT_ROOM];
    list[20] = 2;
    list[28] = 3;
    memcpy(list + 36, "\x1c\0\x12\0\x0b\0\1\0bridge\0\0\x0c\0\2\0\x08\0\1\0\xdc\5\0\0", 28);
    ptrdiff_t count = nlroute_values(NLROUTE_LINK, list, sizeof list, v, 8);
    check(count == 8 && v[0].form == NLROUTE_FORM_TEXT && v[0].length == 3, "a name is a text, with its NUL");
    check(v[1].form == NLROUTE_FORM_LIST && v[1].number == 3 && v[4].number == 3 && v[4].inner == NLROUTE_RX_BYTES, "counters");
    nlroute_kind_name(NLROUTE_LINK, v + 4, name, sizeof name);
    check(!strcmp(name, "rx_bytes"), "the place of a counter has a name");
    check(!nlroute_find_in(NLROUTE_LINK, list, sizeof list, NLROUTE_IFLA_STATS64, NLROUTE_TX_PACKETS, &found), "a counter");
    check(found.number == 2, "it is found by its place");
    check(v[6].form == NLROUTE_FORM_TEXT && v[7].form == NLROUTE_FORM_HELD, "a kind, and a list of another set");
    ptrdiff_t family = nlroute_from_info_kind((const char *)list + v[6].offset, v[6].length - 1);
    check(family == NLROUTE_BRIDGE, "the kind tells which");
    check(!nlroute_find((uint32_t)family, list + v[7].offset, v[7].length, NLROUTE_IFLA_BR_FORWARD_DELAY, &found), "a delay");
    check(found.number == 1500, "it is in that list");
    uint8_t out[64];
    ptrdiff_t written = nlroute_write(NLROUTE_LINK, v, 8, list, sizeof list, out, sizeof out);
    check(written == 64 && !memcmp(out, list, 64), "the values are written as they were");
}

/* Checks the kernel's structs: IFLA_CAN_BITTIMING of 250 kbit/s, and IFLA_CAN_BITTIMING_CONST of a controller. Each of
   their eight numbers differs from the others. */
static void timing(void) {
    const uint8_t timing[4] = {36, 0, 1, 0}, limits[20] = {52, 0, 2, 0, 'm', 'c', 'p', '2', '5', '1', 'x'};
    const uint32_t rates[8] = {250000, 875, 125, 12, 15, 4, 1, 2}, segments[8] = {3, 16, 2, 8, 4, 1, 64, 5};
    uint8_t can[88];
    memcpy(can, timing, sizeof timing);
    memcpy(can + 4, rates, sizeof rates);
    memcpy(can + 36, limits, sizeof limits);
    memcpy(can + 56, segments, sizeof segments);
    struct nlroute_value v[2];
    struct can_bittiming bits;
    struct can_bittiming_const most;
    check(nlroute_values(NLROUTE_CAN, can, sizeof can, v, 2) == 2, "two structs");
    check(!nlroute_can_bittiming(v, can, sizeof can, &bits), "a bit timing");
    check(bits.bitrate == 250000 && bits.sample_point == 875 && bits.tq == 125, "its bit rate, sample point and quantum");
    check(bits.prop_seg == 12 && bits.phase_seg1 == 15 && bits.phase_seg2 == 4, "its segments");
    check(bits.sjw == 1 && bits.brp == 2, "its jump width and prescaler");
    check(!nlroute_can_bittiming_const(v + 1, can, sizeof can, &most), "the limits of a bit timing");
    check(!strcmp(most.name, "mcp251x"), "their name");
    check(most.tseg1_min == 3 && most.tseg1_max == 16, "the limits of the first segment");
    check(most.tseg2_min == 2 && most.tseg2_max == 8 && most.sjw_max == 4, "of the second segment and the jump width");
    check(most.brp_min == 1 && most.brp_max == 64 && most.brp_inc == 5, "of the prescaler");
    check(nlroute_can_bittiming(v + 1, can, sizeof can, &bits) == NLROUTE_BAD_FORM, "-7 for limits");
    struct nlroute_field field;
    size_t count = 0;
    for (; !nlroute_read_field(NLROUTE_CAN, v, count, can, sizeof can, &field); count++)
        check(field.number == rates[count] && field.offset == 4 * count && field.length == 4, field.name);
    check(count == 8 && !strcmp(field.name, "brp") && field.form == NLROUTE_FORM_UNSIGNED, "eight fields by name");
    check(nlroute_read_field(NLROUTE_CAN, v, count, can, sizeof can, &field) == NLROUTE_ABSENT, "-6 for a ninth");
    check(nlroute_read_field(NLROUTE_CAN, v + 1, 0, can, sizeof can, &field) == NLROUTE_ABSENT, "-6 for limits");
    check(nlroute_read_field(NLROUTE_CAN, v, 8, can, 35, &field) == NLROUTE_BAD_OCTETS, "-10 of a field");
    check(nlroute_read_field(FAMILIES, v, 0, can, sizeof can, &field) == NLROUTE_NO_FAMILY, "-5 of a field");
    check(nlroute_can_bittiming(v, can, 35, &bits) == NLROUTE_BAD_OCTETS, "-10 for bytes that are cut off");
    check(!strcmp(nlroute_refusal_text(NLROUTE_BAD_FORM), "the value has another form"), "a code in words");
    check(!strcmp(nlroute_refusal_text(NLROUTE_ABSENT), "there is no such attribute, element, field, name or error"), "absent");
}

static struct nlroute_value value(uint16_t kind, uint8_t form, uint64_t number, uint32_t second) {
    struct nlroute_value v;
    memset(&v, 0, sizeof v);
    v.kind = kind;
    v.form = form;
    v.number = number;
    v.second = second;
    return v;
}

static struct nlroute_value element(uint16_t kind, uint16_t inner, uint8_t form, uint64_t number, uint32_t second) {
    struct nlroute_value v = value(kind, form, number, second);
    v.inner = inner;
    v.depth = 1;
    return v;
}

static struct nlroute_value with_octets(struct nlroute_value v, const char *octets, size_t len) {
    memcpy(v.octets, octets, len);
    v.length = (uint32_t)len;
    return v;
}

static struct nlroute_value with_length(struct nlroute_value v, uint64_t offset, uint32_t length) {
    v.offset = offset;
    v.length = length;
    return v;
}

/* Checks that a call returned the length of a text, and stored it and nothing behind its NUL. */
static void check_text(ptrdiff_t answer, const char *text, size_t room, const char *wanted) {
    size_t len = strlen(wanted);
    bool is_put = answer == (ptrdiff_t)len && len < room && !memcmp(text, wanted, len + 1);
    check(is_put && are_lent(text + len + 1, room - len - 1), wanted);
}

static void check_name(uint32_t family, struct nlroute_value v, const char *wanted) {
    char text[NLROUTE_TEXT_ROOM];
    memset(text, 0xFF, sizeof text);
    check_text(nlroute_kind_name(family, &v, text, sizeof text), text, sizeof text, wanted);
}

static void check_value(uint32_t family, struct nlroute_value v, const char *wanted) {
    /* the limits that timing() reads, and two bytes of a type that is not known */
    uint8_t octets[50] = {'m', 'c', 'p', '2', '5', '1', 'x', 0, 'y'};
    char text[NLROUTE_TEXT_ROOM];
    for (uint8_t i = 0; i < 8; i++) octets[16 + 4 * i] = i;
    octets[48] = 0xDE;
    octets[49] = 0xAD;
    memset(text, 0xFF, sizeof text);
    memory_is_out = true;
    ptrdiff_t answer = nlroute_text(family, &v, octets, sizeof octets, text, sizeof text);
    memory_is_out = false;
    check_text(answer, text, sizeof text, wanted);
}

/* Asks what is known of types, and finds what it is told by its name again. */
static void asking(void) {
    struct nlroute_row row;
    struct nlroute_value type;
    uint64_t number = 0;
    char name[NLROUTE_TEXT_ROOM];
    uint32_t known = 0, told = 0;
    for (uint32_t family = 0; family < FAMILIES; family++) {
        ptrdiff_t len = nlroute_family_name(family, name, sizeof name);
        check(len > 0 && nlroute_family_of(name, (size_t)len) == family, "a set has a name");
        for (uint32_t kind = 0; kind < 1 << 14; kind++) {
            type = nlroute_number((uint16_t)kind, 0);
            if (nlroute_read_row(family, type.kind, 0, 0, &row) || row.form == NLROUTE_FORM_UNKNOWN) continue;
            known++;
            len = nlroute_kind_name(family, &type, name, sizeof name);
            told += nlroute_kind_of(family, name, (size_t)len) == (ptrdiff_t)kind;
        }
    }
    check(known > 150 && told == known, "each type is found by its name");
    check(nlroute_family_of("bridges", 7) == NLROUTE_NO_FAMILY, "-5 for the name of no set");
    check(nlroute_from_info_kind("bond", 4) == NLROUTE_BOND && nlroute_from_port_kind("bond", 4) == NLROUTE_BOND_PORT,
          "devices and ports of a kind have different sets");
    check(nlroute_from_info_kind("bond_port", 9) == NLROUTE_NO_FAMILY, "the name of a set is not a kind");
    check(nlroute_kind_of(NLROUTE_BOND, "IFLA_BOND", 9) == NLROUTE_ABSENT, "-6 for the name of no type");
    check(!nlroute_read_row(NLROUTE_BOND, NLROUTE_IFLA_BOND_MODE, 0, 0, &row), "a type has a row");
    check(row.form == NLROUTE_FORM_NAMED && row.width == 1 && !row.is_list && row.flags == 0, "the row of an enum");
    check(!nlroute_read_row(NLROUTE_BOND, NLROUTE_IFLA_BOND_ARP_IP_TARGET, 3, 1, &row), "an address has a row");
    check(row.form == NLROUTE_FORM_IPV4 && row.width == 4 && row.unit == NLROUTE_UNIT_NONE, "the row of an address");
    check(!nlroute_read_row(NLROUTE_BOND, NLROUTE_IFLA_BOND_MIIMON, 0, 0, &row), "a time has a row");
    check(row.form == NLROUTE_FORM_UNSIGNED && row.unit == NLROUTE_UNIT_MILLISECONDS, "its unit");
    struct nlroute_row list;
    check(!nlroute_read_row(NLROUTE_BRIDGE, NLROUTE_IFLA_BR_MCAST_QUERIER_STATE, 0, 0, &list), "a list has a row");
    check(list.width == 0 && list.flags == 0x8000 && list.form == NLROUTE_FORM_LIST && list.is_list == 1, "its numbers");
    ptrdiff_t no_element = nlroute_read_row(NLROUTE_BOND, NLROUTE_IFLA_BOND_MODE, 0, 1, &row);
    check(no_element == NLROUTE_BAD_ELEMENT && row.width == 4 && row.unit == NLROUTE_UNIT_MILLISECONDS, "-9 for no element");
    check(nlroute_kind_of_in(NLROUTE_BOND, NLROUTE_IFLA_BOND_AD_INFO, "IFLA_BOND_AD_INFO_NUM_PORTS", 27) == 2, "an element");
    type = nlroute_number(NLROUTE_IFLA_BOND_MODE, 0);
    check(!nlroute_number_of(NLROUTE_BOND, &type, "802.3ad", 7, &number) && number == 4, "a mode by its name");
    check(nlroute_number_of(NLROUTE_BOND, &type, "802.3", 5, &number) == NLROUTE_ABSENT && number == 4, "-6 for no mode");
    type.number = 4;
    memset(name, 0xFF, sizeof name);
    check_text(nlroute_text(NLROUTE_BOND, &type, NLROUTE_NO_OCTETS, name, sizeof name), name, sizeof name, "802.3ad (4)");
    for (ptrdiff_t code = NLROUTE_REPEATED - 1; code < 2; code++) {
        memset(name, 0xFF, sizeof name);
        check_text(nlroute_code_text(code, name, sizeof name), name, sizeof name, nlroute_refusal_text(code));
    }
    type = nlroute_bridge_id(NLROUTE_IFLA_BR_BRIDGE_ID, 32768, "\2\0\0\0\0\1");
    check(type.length == 8 && type.number == 32768 && type.octets[5] == 1, "a bridge ID");
    type = nlroute_pair(NLROUTE_IFLA_VLAN_QOS_MAPPING, 1, 2);
    check(type.number == 1 && type.second == 2, "a pair");
}

static void names(void) {
    check(nlroute_version() == NLROUTE_VERSION, "the version of the header");
    check_name(NLROUTE_BRIDGE, value(NLROUTE_IFLA_BR_FORWARD_DELAY, 0, 0, 0), "IFLA_BR_FORWARD_DELAY");
    check_name(NLROUTE_BRIDGE, value(99, 0, 0, 0), "type 99");
    check_name(NLROUTE_VLAN, element(NLROUTE_IFLA_VLAN_EGRESS_QOS, 1, 0, 0, 0), "IFLA_VLAN_QOS_MAPPING");
    check_name(NLROUTE_VLAN, element(NLROUTE_IFLA_VLAN_EGRESS_QOS, 2, 0, 0, 0), "type 2");
    check_name(NLROUTE_BOND, element(NLROUTE_IFLA_BOND_ARP_IP_TARGET, 3, 0, 0, 0), "[3]");
    check_name(NLROUTE_CAN, element(NLROUTE_IFLA_CAN_BITRATE_CONST, 65535, 0, 0, 0), "[65535]");

    struct nlroute_value mode = value(NLROUTE_IFLA_BOND_MODE, 0, 4, 0);
    char text[40];
    memset(text, 0xFF, sizeof text);
    check_text(nlroute_number_name(NLROUTE_BOND, &mode, text, 40), text, 40, "802.3ad");
    memset(text, 0xFF, sizeof text);
    check(nlroute_number_name(NLROUTE_BOND, &mode, text, 4) == 7, "the whole length of a name that is cut");
    check(!memcmp(text, "802", 4) && are_lent(text + 4, 36), "its first three characters, and a NUL");
    check(nlroute_number_name(NLROUTE_BOND, &mode, text, 1) == 7 && text[0] == 0, "a NUL alone");
    text[0] = 'x';
    check(nlroute_number_name(NLROUTE_BOND, &mode, text, 0) == 7 && text[0] == 'x', "nothing without room");
    mode.number = 7;
    check(nlroute_number_name(NLROUTE_BOND, &mode, text, 40) == NLROUTE_ABSENT && text[0] == 0, "-6 of a number");
    text[0] = 'x';
    check(nlroute_kind_name(FAMILIES, &mode, text, 40) == NLROUTE_NO_FAMILY && text[0] == 0, "-5 of a name");

    struct nlroute_value state = value(NLROUTE_IFLA_CAN_STATE, NLROUTE_FORM_NAMED, 3, 0);
    memset(text, 0xFF, sizeof text);
    check_text(nlroute_number_name(NLROUTE_CAN, &state, text, 40), text, 40, "BUS-OFF");
    struct nlroute_value protocol = value(NLROUTE_IFLA_VLAN_PROTOCOL, NLROUTE_FORM_NAMED, 0x88A8, 0);
    memset(text, 0xFF, sizeof text);
    check_text(nlroute_number_name(NLROUTE_VLAN, &protocol, text, 40), text, 40, "802.1ad");
    struct nlroute_value lacp = value(NLROUTE_IFLA_BOND_SLAVE_AD_ACTOR_OPER_PORT_STATE, NLROUTE_FORM_FLAGS, 1, 0);
    memset(text, 0xFF, sizeof text);
    check_text(nlroute_flag_name(NLROUTE_BOND_PORT, &lacp, 0, text, 40), text, 40, "LACP_ACTIVITY");
    check(nlroute_flag_name(NLROUTE_BOND_PORT, &lacp, 8, text, 40) == NLROUTE_ABSENT, "-6 of a bit");
    check(nlroute_flag_name(NLROUTE_BOND_PORT, &lacp, UINT32_MAX, text, 40) == NLROUTE_ABSENT, "-6 of no bit");
    struct nlroute_value modes = value(NLROUTE_IFLA_CAN_CTRLMODE, NLROUTE_FORM_MASKED, 0, 0);
    memset(text, 0xFF, sizeof text);
    check_text(nlroute_flag_name(NLROUTE_CAN, &modes, 5, text, 40), text, 40, "FD");
}

static void texts(void) {
    check_value(NLROUTE_BRIDGE, value(NLROUTE_IFLA_BR_FORWARD_DELAY, NLROUTE_FORM_UNSIGNED, 1500, 0),
                "1500 (15.00 s)");
    check_value(NLROUTE_BRIDGE, value(NLROUTE_IFLA_BR_GROUP_FWD_MASK, NLROUTE_FORM_UNSIGNED, 16, 0), "16 (0x10)");
    check_value(NLROUTE_BRIDGE, value(NLROUTE_IFLA_BR_FDB_FLUSH, NLROUTE_FORM_EMPTY, 0, 0), "");
    check_value(NLROUTE_BRIDGE, value(NLROUTE_IFLA_BR_VLAN_FILTERING, NLROUTE_FORM_BOOL, 1, 0), "on");
    check_value(NLROUTE_BRIDGE, value(NLROUTE_IFLA_BR_VLAN_FILTERING, NLROUTE_FORM_BOOL, 0, 0), "off");
    check_value(NLROUTE_BRIDGE,
                with_length(with_octets(value(NLROUTE_IFLA_BR_BRIDGE_ID, NLROUTE_FORM_BRIDGE_ID, 0x1000, 0),
                                        "\xbe\x51\x20\x60\x12\xa4", 6), 0, 8),
                "1000.be:51:20:60:12:a4");
    check_value(NLROUTE_BRIDGE,
                with_octets(value(NLROUTE_IFLA_BR_GROUP_ADDR, NLROUTE_FORM_MAC, 0, 0), "\x01\x80\xc2\0\0\x04", 6),
                "01:80:c2:00:00:04");
    check_value(NLROUTE_BRIDGE, value(NLROUTE_IFLA_BR_MULTI_BOOLOPT, NLROUTE_FORM_MASKED, 1, 3),
                "value NO_LL_LEARN mask NO_LL_LEARN|MCAST_VLAN_SNOOPING");
    check_value(NLROUTE_BRIDGE, value(47, NLROUTE_FORM_LIST, 3, 0), "");
    check_value(NLROUTE_BRIDGE, with_octets(element(47, 1, NLROUTE_FORM_IPV4, 0, 0), "\xc0\xa8\0\x01", 4),
                "192.168.0.1");
    check_value(NLROUTE_BRIDGE, element(47, 2, NLROUTE_FORM_UNSIGNED, 3, 0), "ifindex 3");
    check_value(NLROUTE_BRIDGE,
                with_octets(element(47, 5, NLROUTE_FORM_IPV6, 0, 0), "\xfe\x80\0\0\0\0\0\0\0\0\0\0\0\0\0\x02", 16),
                "fe80::2");
    check_value(NLROUTE_BRIDGE, with_length(value(99, NLROUTE_FORM_UNKNOWN, 0, 0), 48, 2), "hex dead");
    check_value(NLROUTE_BRIDGE, with_length(value(99, NLROUTE_FORM_UNKNOWN, 0, 0), 50, 0), "(empty)");
    check_value(NLROUTE_BRIDGE_PORT, value(NLROUTE_IFLA_BRPORT_STATE, NLROUTE_FORM_NAMED, 1, 0), "listening (1)");
    check_value(NLROUTE_BOND, value(NLROUTE_IFLA_BOND_MODE, NLROUTE_FORM_NAMED, 4, 0), "802.3ad (4)");
    check_value(NLROUTE_BOND, value(NLROUTE_IFLA_BOND_MODE, NLROUTE_FORM_NAMED, 99, 0), "99");
    check_value(NLROUTE_BOND, value(NLROUTE_IFLA_BOND_MIIMON, NLROUTE_FORM_UNSIGNED, 100, 0), "100 ms");
    check_value(NLROUTE_BOND,
                with_octets(element(NLROUTE_IFLA_BOND_ARP_IP_TARGET, 0, NLROUTE_FORM_IPV4, 0, 0), "\x0a\0\0\x01", 4),
                "10.0.0.1");
    check_value(NLROUTE_BOND_PORT, value(NLROUTE_IFLA_BOND_SLAVE_PRIO, NLROUTE_FORM_SIGNED, UINT64_MAX, 0), "-1");
    check_value(NLROUTE_BOND_PORT,
                with_length(value(NLROUTE_IFLA_BOND_SLAVE_PERM_HWADDR, NLROUTE_FORM_BYTES, 0, 0), 48, 2), "de:ad");
    check_value(NLROUTE_BOND_PORT,
                with_length(value(NLROUTE_IFLA_BOND_SLAVE_AD_ACTOR_OPER_PORT_STATE, NLROUTE_FORM_FLAGS, 5, 0), 0, 1),
                "LACP_ACTIVITY|AGGREGATION");
    check_value(NLROUTE_BOND_PORT, with_length(value(8, NLROUTE_FORM_FLAGS, 0, 0), 0, 2), "0");
    check_value(NLROUTE_VLAN, value(NLROUTE_IFLA_VLAN_PROTOCOL, NLROUTE_FORM_NAMED, 0x8100, 0), "802.1Q (0x8100)");
    check_value(NLROUTE_VLAN, value(NLROUTE_IFLA_VLAN_FLAGS, NLROUTE_FORM_MASKED, 6, UINT32_MAX),
                "flags GVRP|LOOSE_BINDING mask all");
    check_value(NLROUTE_VLAN, element(NLROUTE_IFLA_VLAN_EGRESS_QOS, 1, NLROUTE_FORM_QOS_MAPPING, 5, 6), "from 5 to 6");
    check_value(NLROUTE_CAN, with_length(value(NLROUTE_IFLA_CAN_BITTIMING, NLROUTE_FORM_BITTIMING, 0, 0), 16, 32),
                "bitrate 0 bit/s sample_point 1 tq 2 ns prop_seg 3 phase_seg1 4 phase_seg2 5 sjw 6 brp 7");
    check_value(NLROUTE_CAN,
                with_length(value(NLROUTE_IFLA_CAN_BITTIMING_CONST, NLROUTE_FORM_BITTIMING_CONST, 0, 0), 0, 48),
                "name \"mcp251x\" tseg1_min 0 tseg1_max 1 tseg2_min 2 tseg2_max 3 sjw_max 4 "
                "brp_min 5 brp_max 6 brp_inc 7");
    check_value(NLROUTE_CAN, value(NLROUTE_IFLA_CAN_CLOCK, NLROUTE_FORM_UNSIGNED, 8000000, 0), "freq 8000000 Hz");
    check_value(NLROUTE_CAN, value(NLROUTE_IFLA_CAN_STATE, NLROUTE_FORM_NAMED, 0, 0), "ERROR-ACTIVE (0)");
    check_value(NLROUTE_CAN, value(NLROUTE_IFLA_CAN_CTRLMODE, NLROUTE_FORM_MASKED, 0x21, 0),
                "mask 0 flags LOOPBACK|FD");
    check_value(NLROUTE_CAN, value(NLROUTE_IFLA_CAN_BERR_COUNTER, NLROUTE_FORM_BERR_COUNTER, 1, 2), "txerr 1 rxerr 2");
    check_value(NLROUTE_CAN, element(NLROUTE_IFLA_CAN_TERMINATION_CONST, 1, NLROUTE_FORM_UNSIGNED, 120, 0), "120 ohm");
    check_value(NLROUTE_AF_SPEC_BRIDGE, value(2, NLROUTE_FORM_VLAN_INFO, 10, 6), "vid 10 flags PVID|UNTAGGED");
    check_value(NLROUTE_AF_SPEC_BRIDGE, element(3, 3, NLROUTE_FORM_FLAGS, 0xFFFF, 0), "all");

    uint8_t bytes[130];
    memset(bytes, 0xAB, sizeof bytes);
    char text[NLROUTE_TEXT_ROOM];
    struct nlroute_value v = with_length(value(99, NLROUTE_FORM_UNKNOWN, 0, 0), 0, 130);
    memset(text, 0xFF, sizeof text);
    check(nlroute_text(NLROUTE_VLAN, &v, bytes, 130, text, sizeof text) == 264, "the whole length of a long text");
    check(!strncmp(text, "hex abab", 8) && strlen(text) == 255, "its first 255 characters");
    memory_is_out = true;
    ptrdiff_t answer = nlroute_text(NLROUTE_VLAN, &v, bytes, 130, text, sizeof text);
    memory_is_out = false;
    check(answer == 264 && strlen(text) == 255, "a long text without memory");
    check(nlroute_text(NLROUTE_VLAN, &v, bytes, 129, text, sizeof text) == NLROUTE_BAD_OCTETS, "-10 of a text");
    v.form = 20;
    check(nlroute_text(NLROUTE_VLAN, &v, bytes, 130, text, sizeof text) == NLROUTE_BAD_FORM, "-7 of a text");
    check(nlroute_text(FAMILIES, &v, bytes, 130, text, sizeof text) == NLROUTE_NO_FAMILY && text[0] == 0, "-5 of a text");
    v = value(2, NLROUTE_FORM_VLAN_INFO, 65536, 0);
    check(nlroute_text(NLROUTE_AF_SPEC_BRIDGE, &v, bytes, 130, text, sizeof text) == NLROUTE_BAD_NUMBER, "-8 of a text");

    v = value(NLROUTE_IFLA_BOND_MODE, NLROUTE_FORM_UNSIGNED, 4, 0);
    check(nlroute_text(NLROUTE_BOND, &v, bytes, 0, text, sizeof text) == NLROUTE_BAD_FORM, "-7 for another form");
    v = value(NLROUTE_IFLA_BOND_MODE, NLROUTE_FORM_NAMED, 256, 0);
    check(nlroute_text(NLROUTE_BOND, &v, bytes, 0, text, sizeof text) == NLROUTE_BAD_NUMBER, "-8 for a mode of two bytes");
    v = value(NLROUTE_IFLA_BOND_SLAVE_PRIO, NLROUTE_FORM_SIGNED, UINT32_MAX, 0);
    check(nlroute_text(NLROUTE_BOND_PORT, &v, bytes, 0, text, sizeof text) == NLROUTE_BAD_NUMBER, "-8 for eight bytes");
    v = element(NLROUTE_IFLA_BOND_MODE, 0, NLROUTE_FORM_NAMED, 4, 0);
    check(nlroute_text(NLROUTE_BOND, &v, bytes, 0, text, sizeof text) == NLROUTE_BAD_ELEMENT, "-9 of a text");
}

static void texts_of_faults(void) {
    const uint8_t nested[16] = {15, 0, 3, 0, 11, 0, 1, 0}, bitrates[12] = {10, 0, 13, 0};
    struct nlroute_fault fault;
    char text[NLROUTE_TEXT_ROOM];
    check(!nlroute_first_fault(NLROUTE_VLAN, nested, 16, &fault), "a mapping of seven bytes");
    memset(text, 0xFF, sizeof text);
    memory_is_out = true;
    ptrdiff_t answer = nlroute_fault_text(NLROUTE_VLAN, &fault, text, sizeof text);
    memory_is_out = false;
    check_text(answer, text, sizeof text,
               "error at 0: IFLA_VLAN_EGRESS_QOS: IFLA_VLAN_QOS_MAPPING has 7 bytes, expected 8");
    check(!nlroute_first_fault(NLROUTE_VLAN, vlan, 30, &fault), "an attribute that is cut off");
    memset(text, 0xFF, sizeof text);
    answer = nlroute_fault_text(NLROUTE_VLAN, &fault, text, sizeof text);
    check_text(answer, text, sizeof text, "error at 16: nla_len 16 exceeds the 14 bytes left");
    check(!nlroute_first_fault(NLROUTE_CAN, bitrates, 12, &fault), "bit rates of six bytes");
    memset(text, 0xFF, sizeof text);
    answer = nlroute_fault_text(NLROUTE_CAN, &fault, text, sizeof text);
    check_text(answer, text, sizeof text, "error at 0: IFLA_CAN_BITRATE_CONST has 6 bytes, expected a multiple of 4");
    fault.cause = 7;
    check(nlroute_fault_text(NLROUTE_CAN, &fault, text, sizeof text) == NLROUTE_BAD_FORM && text[0] == 0,
          "-7 of an error");
    check(nlroute_fault_text(FAMILIES, &fault, text, sizeof text) == NLROUTE_NO_FAMILY, "-5 of the text of an error");
}

/*
 * An RTM_NEWLINK from port 7 with the sequence number 5: the link 9 of the type ARPHRD_ETHER is up, and changed so. It has
 * an IFLA_MTU of two bytes, which is malformed, and an IFLA_LINKINFO of a bond in mode 802.3ad. Then an NLMSG_DONE without
 * padding, of 18 bytes.
 */
static const uint8_t dump[] = {64, 0, 0, 0, 16, 0, 2, 0, 5, 0,  0, 0, 7,  0, 0, 0, 0, 0, 1, 0, 9,   0,   0,   0,   1,  0, 0, 0,
                               1,  0, 0, 0, 6,  0, 4, 0, 1, 2,  0, 0, 24, 0, 18, 0, 8, 0, 1, 0, 'b', 'o', 'n', 'd', 12, 0, 2, 0,
                               5,  0, 1, 0, 4,  0, 0, 0, 18, 0, 0, 0, 3,  0, 0, 0, 5, 0, 0, 0, 7,   0,   0,   0,   0,  0};

static void messages(void) {
    struct nlroute_message link, done, none;
    memset(&none, 0xFF, sizeof none);
    check(sizeof link == 56 && sizeof(struct nlroute_range) == 16, "the structs have no padding");
    memory_is_out = true;
    ptrdiff_t first = nlroute_read_message(dump, sizeof dump, 0, &link);
    ptrdiff_t second = nlroute_read_message(dump, sizeof dump, 64, &done);
    memory_is_out = false;
    check(!first && link.list == 32 && link.length == 32 && link.next == 64 && link.len == 64, "a message, and the next");
    check(link.type == 16 && link.flags == 2 && link.sequence == 5 && link.port == 7, "its struct nlmsghdr");
    bool is_first = link.is_link == 1 && link.index == 9 && link.link_type == 1 && link.address_family == 0;
    check(is_first && link.link_flags == 1 && link.change == 1, "its struct ifinfomsg");
    check(!second && done.list == 80 && done.length == 2 && done.next == 82 && done.type == 3, "an NLMSG_DONE");
    check(done.is_link == 0 && done.index == 0 && done.link_flags == 0, "it is not about a link");
    /* RTM_NEWLINKPROP, RTM_DELLINKPROP and RTM_GETLINKPROP have the same header, RTM_NEWNEXTHOP before them another */
    uint8_t property[64];
    memcpy(property, dump, sizeof property);
    for (property[4] = 104; property[4] < 112; property[4]++) {
        bool is_property = property[4] >= 108 && property[4] <= 110;
        check(!nlroute_read_message(property, 64, 0, &link) && link.type == property[4] && link.is_link == is_property, "a type");
        check(link.index == (is_property ? 9 : 0) && link.list == (is_property ? 32 : 16), "its header");
    }
    check(nlroute_read_message(dump, sizeof dump, 82, &none) == NLROUTE_ABSENT, "-6 at the end");
    check(nlroute_read_message(dump, sizeof dump, SIZE_MAX, &none) == NLROUTE_ABSENT, "-6 after the end");
    check(nlroute_read_message(dump, 63, 0, &none) == NLROUTE_HAS_FAULT, "-1 of a message that is cut off");
    check(are_lent(&none, sizeof none), "no message was stored");
}

static void errors_of_messages(void) {
    const uint8_t short_link[] = {20, 0, 0, 0, 16, 0, 0, 0, 0, 0, 0, 0, 0, 0, 0, 0, 0, 0, 1, 0};
    const uint8_t small[] = {15, 0, 0, 0, 2, 0, 0, 0, 0, 0, 0, 0, 0, 0, 0, 0};
    const struct {
        const uint8_t *bytes;
        size_t len;
        uint32_t place, cause;
        uint64_t first, second;
        const char *text;
    } rows[] = {
        {dump, 15, NLROUTE_MESSAGE_HEADER, NLROUTE_SHORT_FRAME, 15, 0, "error at 0: 15 bytes left, too few for a message header"},
        {small, 16, NLROUTE_MESSAGE_HEADER, NLROUTE_SMALL_LENGTH, 15, 0, "error at 0: nlmsg_len 15 is below 16"},
        {dump, 63, NLROUTE_MESSAGE_HEADER, NLROUTE_OVERRUN, 64, 63, "error at 0: nlmsg_len 64 exceeds the 63 bytes left"},
        {short_link, 20, NLROUTE_LINK_HEADER, NLROUTE_TOO_SHORT, 32, 20, "error at 0: 20 bytes, too few for a link message"},
    };
    struct nlroute_fault fault;
    char text[NLROUTE_TEXT_ROOM];
    for (size_t i = 0; i < sizeof rows / sizeof rows[0]; i++) {
        memset(text, 0xFF, sizeof text);
        memory_is_out = true;
        ptrdiff_t found = nlroute_message_fault(rows[i].bytes, rows[i].len, 0, &fault);
        ptrdiff_t answer = nlroute_fault_text(NLROUTE_LINK, &fault, text, sizeof text);
        memory_is_out = false;
        bool is_so = !found && fault.at == 0 && fault.place == rows[i].place && fault.cause == rows[i].cause;
        check(is_so && fault.first == rows[i].first && fault.second == rows[i].second, "the error of a message");
        check_text(answer, text, sizeof text, rows[i].text);
    }
    fault.first = 36;
    check(nlroute_fault_text(NLROUTE_LINK, &fault, text, sizeof text) == NLROUTE_BAD_FORM, "-7 of the error of a message");
    memset(&fault, 0xFF, sizeof fault);
    bool has_none = nlroute_message_fault(dump, sizeof dump, 0, &fault) == NLROUTE_ABSENT;
    check(has_none && nlroute_message_fault(dump, sizeof dump, 82, &fault) == NLROUTE_ABSENT, "-6 without an error");
    check(are_lent(&fault, sizeof fault), "no error was stored");
}

static void held_lists(void) {
    const uint8_t *list = dump + 32;
    struct nlroute_range held, none;
    memset(&none, 0xFF, sizeof none);
    memory_is_out = true;
    ptrdiff_t found = nlroute_held(list, 32, 0, NLROUTE_BOND, &held);
    memory_is_out = false;
    check(!found && held.offset == 24 && held.length == 8, "the data of a bond");
    check(nlroute_held(list, 32, 0, NLROUTE_VLAN, &none) == NLROUTE_ABSENT, "-6 of a VLAN");
    check(nlroute_held(list, 32, 0, NLROUTE_LINK, &none) == NLROUTE_ABSENT, "the list itself is not in its attributes");
    check(nlroute_held(list, 32, 0, FAMILIES, &none) == NLROUTE_NO_FAMILY, "-5 of a list");
    check(are_lent(&none, sizeof none), "no list was stored");

    const uint8_t *good = list + 8;
    struct nlroute_value v[3];
    check(nlroute_values(NLROUTE_LINK, good, 24, v, 3) == 3, "an IFLA_LINKINFO, the kind, and the data");
    memory_is_out = true;
    ptrdiff_t opened = nlroute_opens(NLROUTE_LINK, 0, v + 2, good, 24);
    memory_is_out = false;
    check(opened == NLROUTE_BOND, "the set of the data");
    check(nlroute_opens(NLROUTE_LINK, 0, v + 1, good, 24) == NLROUTE_ABSENT, "-6 of the kind");
    check(nlroute_opens(NLROUTE_LINK, 0, v, good, 24) == NLROUTE_ABSENT, "-6 of a nested list");
    check(nlroute_opens(NLROUTE_LINK, 0, v + 2, good, 12) == NLROUTE_ABSENT, "-6 of another list");
    check(nlroute_opens(FAMILIES, 0, v + 2, good, 24) == NLROUTE_NO_FAMILY, "-5 of a value");

    struct nlroute_value spec = value(26, NLROUTE_FORM_HELD, 0, 0), info = value(12, NLROUTE_FORM_UNKNOWN, 0, 0);
    check(nlroute_opens(NLROUTE_LINK, 0, &spec, good, 0) == NLROUTE_AF_SPEC, "an IFLA_AF_SPEC");
    check(nlroute_opens(NLROUTE_LINK, 7, &spec, good, 0) == NLROUTE_AF_SPEC_BRIDGE, "that of a bridge");
    check(nlroute_opens(NLROUTE_LINK, 7, &info, good, 0) == NLROUTE_ABSENT, "-6 of an IFLA_PROTINFO without NLA_F_NESTED");
    info.flags = 0x8000;
    check(nlroute_opens(NLROUTE_LINK, 7, &info, good, 0) == NLROUTE_BRIDGE_PORT, "one with NLA_F_NESTED");
    check(nlroute_opens(NLROUTE_LINK, 10, &info, good, 0) == NLROUTE_INET6, "one of IPv6");
    info.form = NLROUTE_FORM_BYTES;
    check(nlroute_opens(NLROUTE_LINK, 10, &info, good, 0) == NLROUTE_ABSENT, "-6 of bytes");
}

/* A payload of one byte where four are required, and a truncated header after it. */
static void room_first(void) {
    const uint8_t short_value[10] = {5, 0, 1, 0, 42, 0, 0, 0, 3, 0};
    uint8_t out[12] = {0};
    memory_is_out = true;
    ptrdiff_t rewritten = nlroute_rewrite(NLROUTE_DSA, short_value, 10, out, 12);
    ptrdiff_t counted = nlroute_count(NLROUTE_DSA, short_value, 10);
    memory_is_out = false;
    check(rewritten == NLROUTE_NO_MEMORY, "room for all values is asked for before the first one is read");
    check(counted == NLROUTE_HAS_FAULT, "a count finds its fault without memory");
}

static void faults(void) {
    struct nlroute_fault first;
    memset(&first, 0xFF, sizeof first);
    memory_is_out = true;
    ptrdiff_t answer = nlroute_first_fault(NLROUTE_VLAN, vlan, 32, &first);
    memory_is_out = false;
    check(answer == NLROUTE_ABSENT, "-6 for no fault, without memory");
    check(nlroute_first_fault(FAMILIES, vlan, 30, &first) == NLROUTE_NO_FAMILY, "-5 of a fault");
    check(are_lent(&first, sizeof first), "no fault was stored");
    memory_is_out = true;
    answer = nlroute_first_fault(NLROUTE_VLAN, vlan, 30, &first);
    memory_is_out = false;
    check(answer == 0, "a fault is stored, without memory");
    check(first.at == 16 && first.place == NLROUTE_FRAME && first.kind == 0 && first.inner == 0, "it is at 16");
    check(first.cause == NLROUTE_OVERRUN && first.first == 16 && first.second == 14, "it is an overrun");
    /* IFLA_VLAN_EGRESS_QOS with a mapping of seven bytes */
    const uint8_t nested[16] = {15, 0, 3, 0, 11, 0, 1, 0};
    answer = nlroute_first_fault(NLROUTE_VLAN, nested, 16, &first);
    check(!answer && first.at == 0 && first.place == NLROUTE_ELEMENT_PAYLOAD, "a mapping has a fault");
    check(first.kind == 3 && first.inner == 1, "both its types");
    check(first.cause == NLROUTE_WRONG_LENGTH && first.first == 8 && first.second == 7, "its length is wrong");
    /* seven numbers that differ: IFLA_BOND_AD_INFO_PARTNER_MAC of seven bytes, in the second attribute */
    const uint8_t bond[24] = {5, 0, 1, 0, 4, 0, 0, 0, 15, 0, 23, 0, 11, 0, 5, 0, 1, 2, 3, 4, 5, 6, 7, 0};
    answer = nlroute_first_fault(NLROUTE_BOND, bond, 24, &first);
    check(!answer && first.at == 8 && first.place == 3 && first.kind == 23 && first.inner == 5, "a MAC address has a fault");
    check(first.cause == 4 && first.first == 6 && first.second == 7, "it has a byte more");
}

static bool is_reported(const char *text, const char *wanted, uint8_t status) {
    uint8_t out[128], code = 0xFF;
    size_t len = strlen(wanted);
    memset(out, 0xFF, sizeof out);
    ptrdiff_t short_of = nlroute_report(NLROUTE_DSA, (const uint8_t *)text, strlen(text), out, len - 1, &code);
    if (short_of != NLROUTE_NO_ROOM || !are_lent(out, sizeof out) || code != 0xFF) return false;
    ptrdiff_t answer = nlroute_report(NLROUTE_DSA, (const uint8_t *)text, strlen(text), out, sizeof out, &code);
    bool is_put = !memcmp(out, wanted, len) && are_lent(out + len, sizeof out - len);
    return answer == (ptrdiff_t)len && is_put && code == status;
}

static void reports(void) {
    check(is_reported("08000100 2a000000", "attr 1 len 4\nout 080001002a000000\nsame\n", 0), "status 0");
    check(is_reported("08000100 2a0000", "fault at 0: overrun 8 7\n", 1), "status 1");
    check(is_reported("08000100 2a00000", "bad hex\n", 2), "status 2");
    uint8_t out[4] = {0xFF, 0xFF, 0xFF, 0xFF}, code = 0xFF;
    memory_is_out = true;
    ptrdiff_t answer = nlroute_report(NLROUTE_DSA, (const uint8_t *)"00", 2, out, 4, &code);
    memory_is_out = false;
    check(answer == NLROUTE_NO_MEMORY, "-3 of a report");
    check(nlroute_report(FAMILIES, vlan, 0, out, 4, &code) == NLROUTE_NO_FAMILY, "-5 of a report");
    check(are_lent(out, sizeof out) && code == 0xFF, "neither text nor status was put");
}

int main(void) {
    families();
    rewriting();
    judging();
    refusals();
    values();
    links();
    timing();
    asking();
    names();
    texts();
    texts_of_faults();
    messages();
    errors_of_messages();
    held_lists();
    value_by_value();
    room_first();
    faults();
    reports();
    return failed;
}
