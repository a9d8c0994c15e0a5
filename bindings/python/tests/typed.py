"""What type checkers know. `mypy --strict` accepts this file: each line with `type: ignore` is an error that it finds.

No test runs it.
"""
from ipaddress import IPv4Address
from typing import Any, Optional, assert_type

from nlroute import *

bond = read(Family.BOND, b"")
assert_type(bond[IFLA_BOND_MIIMON], int)
assert_type(bond[IFLA_BOND_MODE], BondMode)
assert_type(bond.get(IFLA_BOND_MODE), Optional[BondMode])
assert_type(bond.get(IFLA_BOND_MIIMON, 0), int)
assert_type(bond.get_all(IFLA_BOND_ARP_IP_TARGET), list[list[IPv4Address]])
assert_type(bond[IFLA_BOND_AD_INFO][IFLA_BOND_AD_INFO_PARTNER_MAC], Mac)
assert_type(bond[0], Attribute)
assert_type([value for _, value in bond], list[Content])
assert_type(read(Family.CAN, b"")[IFLA_CAN_BITTIMING].bitrate, int)
assert_type(read(Family.VLAN, b"")[IFLA_VLAN_FLAGS], Masked[VlanFlags])
assert_type(read(Family.LINK, b"")[IFLA_STATS64][LinkStats64.RX_DROPPED], int)
assert_type(read(Family.LINK, b"")[IFLA_LINKINFO][IFLA_INFO_DATA], bytes)
assert_type(from_info_kind("bond"), Optional[Family])
assert_type(BondMode("802.3ad"), BondMode)
assert_type(Family("bond"), Family)
assert_type(Family.BOND.text, str)
assert_type(bond.items(), list[Attribute])
assert_type(bond.to_dict(), dict[str, Any])
assert_type(next(messages(b"")).type, MessageType)
assert_type(next(messages(b"")).link_flags, LinkFlags)

bond[IFLA_BOND_MIIMON] = 100
bond[IFLA_BOND_MIIMON] = "100"  # type: ignore[misc]
bond.append(IFLA_BOND_MODE, BondMode.IEEE8023AD)
bond.append(IFLA_BOND_MODE, Mac(bytes(6)))  # type: ignore[misc]
bond["IFLA_BOND_MODE"] = "802.3ad"
bond["IFLA_BOND_AD_INFO"]["IFLA_BOND_AD_INFO_AGGREGATOR"] = 1
del bond[IFLA_BOND_MIIMON]
IFLA_BOND_MIIMON in bond and bond[0].name == IFLA_BOND_MIIMON

values = {"IFLA_BOND_MIIMON": 100}
List(Family.BOND, values)
List(Family.BOND, {IFLA_BOND_MIIMON: 100, IFLA_BOND_MODE: BondMode.IEEE8023AD, "type 99": b""})
List(Family.BOND, [(IFLA_BOND_MIIMON, 100), ("type 99", b"")])
List(Family.BOND, bond)
List.within(Family.BOND, IFLA_BOND_AD_INFO, {IFLA_BOND_AD_INFO_AGGREGATOR: 1})
read(Family.BOND, "08000300")  # type: ignore[arg-type]
