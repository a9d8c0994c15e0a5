#!/usr/bin/env python3
"""Prints the requests of a network manager: it makes a bond with two ports, a VLAN device on it, and a bridge that filters
VLANs, with this device as its port; then it changes the bond and the VLAN device, and deletes all three.

It opens no socket. A manager sends each request after the acknowledgement of the one before, and reads the indexes of new
links from the kernel.
"""
from nlroute import *

ETH1, ETH2, BOND, VLAN, BRIDGE = 3, 4, 10, 11, 12  # interface indexes

BOND_OPTIONS = List(
    Family.BOND,
    {
        IFLA_BOND_MODE: BondMode.IEEE8023AD,
        IFLA_BOND_MIIMON: 100,
        IFLA_BOND_XMIT_HASH_POLICY: BondXmitHashPolicy.LAYER3_4,
    },
)
BRIDGE_OPTIONS = List(
    Family.BRIDGE,
    {IFLA_BR_VLAN_FILTERING: True, IFLA_BR_VLAN_DEFAULT_PVID: 0, IFLA_BR_STP_STATE: BridgeStpState.NO},
)
LOOSE = Masked(VlanFlags.LOOSE_BINDING, VlanFlags.LOOSE_BINDING)
UNTAGGED = VlanInfo(100, BridgeVlanFlags.PVID | BridgeVlanFlags.UNTAGGED)

# What the manager does, and the request for it. Their sequence numbers are 1, 2, 3 and so on.
REQUESTS = [
    ("make bond0", Request.create("bond0").options(BOND_OPTIONS)),
    # a bond takes no port that is up, and sets it up itself
    ("set eth1 down", Request.change(ETH1).up(False)),
    ("make eth1 a port of bond0", Request.change(ETH1).master(BOND)),
    ("set eth2 down", Request.change(ETH2).up(False)),
    ("make eth2 a port of bond0", Request.change(ETH2).master(BOND)),
    ("set bond0 up", Request.change(BOND).up()),
    ("make bond0.100", Request.create("bond0.100").link(BOND).options(Family.VLAN, {IFLA_VLAN_ID: 100}).up()),
    ("make br0", Request.create("br0").options(BRIDGE_OPTIONS).up()),
    ("make bond0.100 a port of br0", Request.change(VLAN).master(BRIDGE)),
    ("add VLAN 100 to bond0.100", Request.bridge(VLAN).options(Family.AF_SPEC_BRIDGE, {IFLA_BRIDGE_VLAN_INFO: UNTAGGED})),
    # options of the same set are joined
    (
        "change bond0",
        Request.change(BOND).options(Family.BOND, {IFLA_BOND_MIIMON: 200}).options(Family.BOND, {IFLA_BOND_RESEND_IGMP: 2}),
    ),
    # those of the VLAN device and of the bridge port, which it is by now, are side by side
    (
        "change bond0.100 and its port",
        Request.change(VLAN).options(Family.VLAN, {IFLA_VLAN_FLAGS: LOOSE}).options(Family.BRIDGE_PORT, {IFLA_BRPORT_COST: 44}),
    ),
    ("delete br0", Request.delete(BRIDGE)),
    ("delete bond0.100", Request.delete(VLAN)),
    ("delete bond0", Request.delete(BOND)),
]


def main() -> None:
    for sequence, (title, request) in enumerate(REQUESTS, 1):
        request.sequence = sequence
        print(f"{title}: {bytes(request).hex()}")


if __name__ == "__main__":
    main()
