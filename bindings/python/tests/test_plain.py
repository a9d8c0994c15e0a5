"""Names and values for other programs: items(), to_dict() and json, Family of a text, and what `*` imports."""
import json
import unittest

import nlroute
from nlroute import *

# IFLA_LINKINFO: IFLA_INFO_KIND bridge, and IFLA_INFO_DATA with IFLA_BR_FORWARD_DELAY 700
LINKINFO = "1c001200 0b000100 62726964 67650000 0c000200 08000100 bc020000"
# The attribute set, the list, and what it is as a dict. The lists are those of runs/plain or of the kernel's headers.
DICTS = [
    (Family.BOND, "05000100 04000000 05000100 63000000", {"IFLA_BOND_MODE": 99}),
    (Family.BOND, "05000100 04000000 05000600 01000000", {"IFLA_BOND_MODE": "802.3ad", "IFLA_BOND_USE_CARRIER": True}),
    (Family.BOND, "14000800 08000000 0a000001 08000100 0a000002",
     {"IFLA_BOND_ARP_IP_TARGET": ["10.0.0.1", "10.0.0.2"]}),
    (Family.BOND, "0a001a00 02000000 00010000", {"IFLA_BOND_AD_ACTOR_SYSTEM": "02:00:00:00:00:01"}),
    (Family.BOND, "14001780 06000100 02000000 0600 0900 dead0000",
     {"IFLA_BOND_AD_INFO": {"IFLA_BOND_AD_INFO_AGGREGATOR": 2, "type 9": {"payload": "dead", "flags": 0}}}),
    (Family.BOND_PORT, "0c000400 00112233 44556677", {"IFLA_BOND_SLAVE_PERM_HWADDR": "00:11:22:33:44:55:66:77"}),
    (Family.BOND_PORT, "05000700 05000000",
     {"IFLA_BOND_SLAVE_AD_ACTOR_OPER_PORT_STATE": ["LACP_ACTIVITY", "AGGREGATION"]}),
    (Family.BRIDGE, "04001500 0c000a00 1000be51 206012a4",
     {"IFLA_BR_FDB_FLUSH": None, "IFLA_BR_ROOT_ID": {"priority": 4096, "address": "be:51:20:60:12:a4"}}),
    (Family.VLAN, "0c000200 82000000 00000000", {"IFLA_VLAN_FLAGS": {"flags": ["GVRP", "0x80"], "mask": []}}),
    (Family.VLAN, "10000380 0c000100 05000000 06000000", {"IFLA_VLAN_EGRESS_QOS": [{"from": 5, "to": 6}]}),
    (Family.AF_SPEC_BRIDGE, "08000200 06000a00 06000100 01000000 08000200 00001400",
     {"IFLA_BRIDGE_VLAN_INFO": [{"vid": 10, "flags": ["PVID", "UNTAGGED"]}, {"vid": 20, "flags": []}],
      "IFLA_BRIDGE_MODE": "vepa"}),
    (Family.AF_SPEC_BRIDGE, "08000200 06000a00",
     {"IFLA_BRIDGE_VLAN_INFO": [{"vid": 10, "flags": ["PVID", "UNTAGGED"]}]}),
    (Family.LINK, LINKINFO,
     {"IFLA_LINKINFO": {"IFLA_INFO_KIND": "bridge", "IFLA_INFO_DATA": {"IFLA_BR_FORWARD_DELAY": 700}}}),
    # the data is malformed; of a kind without a set
    (Family.LINK, LINKINFO.replace("08000100 bc", "09000100 bc"),
     {"IFLA_LINKINFO": {"IFLA_INFO_KIND": "bridge", "IFLA_INFO_DATA":
         {"error": "error at 20: nla_len 9 exceeds the 8 bytes left", "hex": "09000100bc020000"}}}),
    (Family.LINK, "14001200 08000100 74617000 08000200 01020304",
     {"IFLA_LINKINFO": {"IFLA_INFO_KIND": "tap", "IFLA_INFO_DATA": "01020304"}}),
    (Family.LINK, "0a000100 02000000 00050000 0800 0300 65746800",
     {"IFLA_ADDRESS": "02:00:00:00:00:05", "IFLA_IFNAME": "eth"}),
    (Family.MACVLAN, "10000500 0a000400 02000000 00010000", {"IFLA_MACVLAN_MACADDR_DATA": {"IFLA_MACVLAN_MACADDR": ["02:00:00:00:00:01"]}}),
    (Family.LINK, "10003480 0c003500 61006263 00000000", {"IFLA_PROP_LIST": {"IFLA_ALT_IFNAME": ["a\0bc\0\0\0"]}}),
    (Family.LINK, "0c000700 05000000 00000000", {"IFLA_STATS": {"rx_packets": 5, "tx_packets": 0}}),
    (Family.INET6, "14000700 20010db8 00000000 00000000 00000001", {"IFLA_INET6_TOKEN": "2001:db8::1"}),
    (Family.AF_SPEC, "0c000200 08000100 01000000", {"AF_INET": {"IFLA_INET_CONF": {"forwarding": 1}}}),
]  # fmt: skip


class Plain(unittest.TestCase):
    def test_dicts(self):
        for family, digits, expected in DICTS:
            with self.subTest(family=family.name, digits=digits):
                found = read(family, bytes.fromhex(digits)).to_dict()
                self.assertEqual(found, expected)
                self.assertEqual(list(found), list(expected))
                self.assertEqual(json.loads(json.dumps(found)), expected)

    def test_fields_of_structs(self):
        data = bytes.fromhex("24000e00 00000cfc 00000000 ffff0cfc 00000000 00100000 00000000 0b000502 00000000")
        found = read(Family.LINK, data).to_dict()
        self.assertEqual(found["IFLA_MAP"]["base_addr"], 4096)
        timing = List(Family.CAN, {IFLA_CAN_BITTIMING: CanBitTiming(bitrate=500000)}).to_dict()
        self.assertEqual(timing["IFLA_CAN_BITTIMING"]["bitrate"], 500000)

    def test_values_that_were_not_read(self):
        bond = List(Family.BOND, {"IFLA_BOND_MODE": 4, "IFLA_BOND_AD_INFO": {"IFLA_BOND_AD_INFO_AGGREGATOR": 2}})
        expected = {"IFLA_BOND_MODE": "802.3ad", "IFLA_BOND_AD_INFO": {"IFLA_BOND_AD_INFO_AGGREGATOR": 2}}
        self.assertEqual(bond.to_dict(), expected)
        within = List.within(Family.BOND, "IFLA_BOND_AD_INFO", {"IFLA_BOND_AD_INFO_PARTNER_MAC": bytes(6)})
        self.assertEqual(within.to_dict(), {"IFLA_BOND_AD_INFO_PARTNER_MAC": "00:00:00:00:00:00"})
        info = read(Family.LINK, bytes.fromhex(LINKINFO.replace("08000100 bc", "09000100 bc")))["IFLA_LINKINFO"]
        words = "error at 16: nla_len 9 exceeds the 8 bytes left"  # (without the header of IFLA_LINKINFO)
        self.assertEqual(info.to_dict()["IFLA_INFO_DATA"]["error"], words)
        for empty in (List(Family.BOND), List.within(Family.BOND, "IFLA_BOND_AD_INFO")):
            self.assertEqual(empty.to_dict(), {})
        # names and addresses are accepted again
        values = {"IFLA_BOND_MODE": "802.3ad", "IFLA_BOND_AD_ACTOR_SYSTEM": "02:00:00:00:00:01"}
        self.assertEqual(List(Family.BOND, values).to_dict(), values)
        with self.assertRaises(WriteError):
            List(Family.BOND, {"IFLA_BOND_MIIMON": -1}).to_dict()

    def test_items(self):
        vlans = read(Family.AF_SPEC_BRIDGE, bytes.fromhex("08000200 06000a00 06000100 01000000 08000200 00001400"))
        items = [("IFLA_BRIDGE_VLAN_INFO", VlanInfo(20)), ("IFLA_BRIDGE_MODE", BridgeMode.VEPA)]
        self.assertEqual(vlans.items(), items)
        self.assertEqual(dict(vlans.items()), dict(vlans))
        self.assertEqual([it.name for it in vlans.items()], vlans.keys())
        self.assertEqual(List(Family.BOND).items(), [])


class Names(unittest.TestCase):
    def test_families(self):
        for family in Family:
            self.assertIs(Family(family.text), family)
            self.assertEqual((str(family), f"{family:>3d}".strip()), (family.name.lower(), str(int(family))))
        for wrong in ("BOND", "", "1", 77, None):
            with self.assertRaises(ValueError):
                Family(wrong)

    def test_all(self):
        self.assertEqual(len(nlroute.__all__), len(set(nlroute.__all__)))
        for name in nlroute.__all__:
            self.assertTrue(hasattr(nlroute, name), name)
        self.assertLess({"read", "List", "Family", "BondMode", "IFLA_BOND_MODE", "Fault"}, set(nlroute.__all__))
        public = {name for name, it in vars(nlroute).items() if name[0] != "_" and not isinstance(it, type(unittest))}
        self.assertEqual(public - set(nlroute.__all__), set())


if __name__ == "__main__":
    unittest.main()
