/*
 * Prints the requests of a network manager: it makes a bond with two ports, a VLAN device on it, and a bridge that filters
 * VLANs, with this device as its port; then it changes the bond and the VLAN device, and deletes all three. manager.rs and
 * manager.py of bindings print the same.
 *
 * No socket is opened. A manager sends each request after the acknowledgement of the one before, and reads the indexes of new
 * links from the kernel.
 */
#include "nlroute_requests.h"

#include <stdio.h>

/* Interface indexes. */
enum { ETH1 = 3, ETH2 = 4, BOND = 10, VLAN = 11, BRIDGE = 12 };

static uint32_t sequence;
static int failed;

/* Writes a request with the next sequence number, and prints it, or why it cannot be written. */
static void request(const char *title, struct nlroute_head head, const struct nlroute_value *values, size_t count) {
    uint8_t bytes[256];
    size_t at = 0;
    head.sequence = ++sequence;
    ptrdiff_t length = nlroute_request(&head, values, count, NLROUTE_NO_OCTETS, bytes, sizeof bytes, &at);
    printf("%s: ", title);
    for (ptrdiff_t i = 0; i < length; i++) printf("%02x", bytes[i]);
    if (length < 0) printf("value %zu: %s", at, nlroute_refusal_text(length)), failed = 1;
    printf("\n");
}

static void make_bond(void) {
    const struct nlroute_value bond[] = {
        nlroute_name("bond0"),
        NLROUTE_DATA("bond"),
        nlroute_below(2, nlroute_number(NLROUTE_IFLA_BOND_MODE, NLROUTE_BOND_MODE_8023AD)),
        nlroute_below(2, nlroute_number(NLROUTE_IFLA_BOND_MIIMON, 100)),
        nlroute_below(2, nlroute_number(NLROUTE_IFLA_BOND_XMIT_HASH_POLICY, 1)), /* layer3+4 */
    };
    request("make bond0", nlroute_create(), NLROUTE_VALUES(bond));
}

/* A bond takes no port that is up, and sets it up itself. */
static void add_ports(void) {
    const struct nlroute_value master[] = {nlroute_master(BOND)};
    request("set eth1 down", nlroute_up(nlroute_change(ETH1), false), NLROUTE_NO_VALUES);
    request("make eth1 a port of bond0", nlroute_change(ETH1), NLROUTE_VALUES(master));
    request("set eth2 down", nlroute_up(nlroute_change(ETH2), false), NLROUTE_NO_VALUES);
    request("make eth2 a port of bond0", nlroute_change(ETH2), NLROUTE_VALUES(master));
    request("set bond0 up", nlroute_up(nlroute_change(BOND), true), NLROUTE_NO_VALUES);
}

static void make_vlan(void) {
    const struct nlroute_value vlan[] = {
        nlroute_name("bond0.100"),
        nlroute_lower(BOND),
        NLROUTE_DATA("vlan"),
        nlroute_below(2, nlroute_number(NLROUTE_IFLA_VLAN_ID, 100)),
    };
    request("make bond0.100", nlroute_up(nlroute_create(), true), NLROUTE_VALUES(vlan));
}

static void make_bridge(void) {
    const struct nlroute_value bridge[] = {
        nlroute_name("br0"),
        NLROUTE_DATA("bridge"),
        nlroute_below(2, nlroute_number(NLROUTE_IFLA_BR_VLAN_FILTERING, 1)),
        nlroute_below(2, nlroute_number(NLROUTE_IFLA_BR_VLAN_DEFAULT_PVID, 0)),
        nlroute_below(2, nlroute_number(NLROUTE_IFLA_BR_STP_STATE, 0)),
    };
    request("make br0", nlroute_up(nlroute_create(), true), NLROUTE_VALUES(bridge));
}

/* Makes the VLAN device a port of the bridge, and adds VLAN 100 to it: untagged, and for untagged frames. */
static void add_bridge_port(void) {
    const struct nlroute_value port[] = {nlroute_master(BRIDGE)};
    const struct nlroute_value vlan[] = {
        nlroute_af_spec(),
        nlroute_below(1, nlroute_pair(NLROUTE_IFLA_BRIDGE_VLAN_INFO, 100, 6)), /* PVID, UNTAGGED */
    };
    request("make bond0.100 a port of br0", nlroute_change(VLAN), NLROUTE_VALUES(port));
    request("add VLAN 100 to bond0.100", nlroute_bridge_set(VLAN), NLROUTE_VALUES(vlan));
}

/*
 * Changes the bond, and the VLAN device. It is a port of the bridge by now: kind and data of the device and of the port are in
 * the same IFLA_LINKINFO.
 */
static void change_links(void) {
    const struct nlroute_value bond[] = {
        NLROUTE_DATA("bond"),
        nlroute_below(2, nlroute_number(NLROUTE_IFLA_BOND_MIIMON, 200)),
        nlroute_below(2, nlroute_number(NLROUTE_IFLA_BOND_RESEND_IGMP, 2)),
    };
    const struct nlroute_value both[] = {
        NLROUTE_DATA("vlan"),
        nlroute_below(2, nlroute_flags(NLROUTE_IFLA_VLAN_FLAGS, 4, 4)), /* LOOSE_BINDING */
        NLROUTE_AND_PORT_DATA("bridge"),
        nlroute_below(2, nlroute_number(NLROUTE_IFLA_BRPORT_COST, 44)),
    };
    request("change bond0", nlroute_change(BOND), NLROUTE_VALUES(bond));
    request("change bond0.100 and its port", nlroute_change(VLAN), NLROUTE_VALUES(both));
}

int main(void) {
    make_bond();
    add_ports();
    make_vlan();
    make_bridge();
    add_bridge_port();
    change_links();
    request("delete br0", nlroute_delete(BRIDGE), NLROUTE_NO_VALUES);
    request("delete bond0.100", nlroute_delete(VLAN), NLROUTE_NO_VALUES);
    request("delete bond0", nlroute_delete(BOND), NLROUTE_NO_VALUES);
    return failed;
}
