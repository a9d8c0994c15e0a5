"""Tasks of programs that manage links. Expected bytes are worked out from the kernel's headers.

An attribute is nla_len and nla_type, two bytes each, its payload, and padding to four bytes.
"""
import struct
import unittest
from ipaddress import IPv4Address

from nlroute import *

# IFLA_BOND_MODE (1): 802.3ad; IFLA_BOND_MIIMON (3): 100; IFLA_BOND_ARP_IP_TARGET (8): 10.0.0.1 and 10.0.0.2
BOND = bytes.fromhex("05000100 04000000 08000300 64000000 14000800 08000000 0a000001 08000100 0a000002")
# IFLA_BR_FORWARD_DELAY (1): 1500; IFLA_BR_MCAST_QUERIER_STATE (47): BRIDGE_QUERIER_IP_ADDRESS (1): 10.0.0.1
BRIDGE = bytes.fromhex("08000100 dc050000 0c002f80 08000100 0a000001")
# IFLA_CAN_BITTIMING (1): struct can_bittiming, of 500 kbit/s and 87.5 %
TIMING = "20a10700 6b030000" + "00000000" * 6
CAN = bytes.fromhex("24000100" + TIMING)
# IFLA_IFNAME (3); IFLA_STATS64 (23): struct rtnl_link_stats64, 25 numbers; IFLA_LINKINFO (18): IFLA_INFO_KIND (1), and
# IFLA_INFO_DATA (2): IFLA_BR_FORWARD_DELAY (1)
STATS = struct.pack("<25Q", 12, 0, 840, 0, 0, 0, 3, *[0] * 18)
LINK = bytes.fromhex("08000300 62723000 cc001700") + STATS
LINK += bytes.fromhex("1c001200 0b000100 62726964 67650000 0c000200 08000100 dc050000")


class Tasks(unittest.TestCase):
    def test_print_a_bond(self):
        lines = [
            "IFLA_BOND_MODE 802.3ad (4)",
            "IFLA_BOND_MIIMON 100 ms",
            "IFLA_BOND_ARP_IP_TARGET 10.0.0.1 10.0.0.2",
        ]
        self.assertEqual(text(Family.BOND, BOND).split("\n"), lines)
        self.assertEqual(str(read(Family.BOND, BOND)).split("\n"), lines)

    def test_change_a_bridge(self):
        bridge = read(Family.BRIDGE, BRIDGE)
        self.assertEqual(bridge[IFLA_BR_FORWARD_DELAY], 1500)
        bridge[IFLA_BR_FORWARD_DELAY] = 700
        bridge.append(IFLA_BR_MCAST_HASH_MAX, 512)
        expected = bytes.fromhex("08000100 bc020000 0c002f80 08000100 0a000001 08001b00 00020000")
        self.assertEqual(bytes(bridge), expected)

    def test_make_a_bond(self):
        bond = List(
            Family.BOND,
            {
                "IFLA_BOND_MODE": BondMode.IEEE8023AD,
                "IFLA_BOND_MIIMON": 100,
                "IFLA_BOND_ARP_IP_TARGET": ["10.0.0.1", IPv4Address("10.0.0.2")],
            },
        )
        self.assertEqual(bytes(bond), BOND)

    def test_report_an_error(self):
        with self.assertRaises(Fault) as caught:
            read(Family.BRIDGE, bytes.fromhex("08000100 dc050000 07000200 01020300"))
        fault = caught.exception
        self.assertEqual(str(fault), "error at 8: IFLA_BR_HELLO_TIME has 3 bytes, expected 4")
        self.assertEqual((fault.at, fault.place, fault.cause), (8, Place.PAYLOAD, Cause.WRONG_LENGTH))
        self.assertEqual((fault.kind, fault.inner, fault.numbers), (2, 0, (4, 3)))

    def test_make_a_vlan(self):
        vlan = List(Family.VLAN)
        vlan[IFLA_VLAN_ID] = 100
        vlan[IFLA_VLAN_PROTOCOL] = VlanProtocol.IEEE8021AD
        vlan[IFLA_VLAN_FLAGS] = Masked(VlanFlags.GVRP, VlanFlags.GVRP | VlanFlags.REORDER_HDR)
        vlan[IFLA_VLAN_EGRESS_QOS] = [QosMapping(0, 1), QosMapping(6, 7)]
        # IFLA_VLAN_ID (1); IFLA_VLAN_PROTOCOL (5): ETH_P_8021AD, big-endian; IFLA_VLAN_FLAGS (2): struct
        # ifla_vlan_flags; IFLA_VLAN_EGRESS_QOS (3): twice IFLA_VLAN_QOS_MAPPING (1), struct ifla_vlan_qos_mapping
        expected = "06000100 64000000 06000500 88a80000 0c000200 02000000 03000000"
        expected += "1c000300 0c000100 00000000 01000000 0c000100 06000000 07000000"
        self.assertEqual(bytes(vlan), bytes.fromhex(expected))

    def test_read_and_write_bit_timing(self):
        timing = read(Family.CAN, CAN)[IFLA_CAN_BITTIMING]
        self.assertEqual((timing.bitrate, timing.sample_point), (500000, 875))
        can = List(Family.CAN, [(IFLA_CAN_BITTIMING, CanBitTiming(bitrate=500000, sample_point=875))])
        can.append(IFLA_CAN_CTRLMODE, Masked(CanCtrlMode.FD, CanCtrlMode.FD | CanCtrlMode.LISTENONLY))
        # IFLA_CAN_CTRLMODE (5): struct can_ctrlmode, mask and flags: CAN_CTRLMODE_FD 0x20, CAN_CTRLMODE_LISTENONLY 2
        self.assertEqual(bytes(can), CAN + bytes.fromhex("0c000500 22000000 20000000"))

    def test_find_the_querier(self):
        state = read(Family.BRIDGE, BRIDGE)[IFLA_BR_MCAST_QUERIER_STATE]
        self.assertEqual(state[BRIDGE_QUERIER_IP_ADDRESS], IPv4Address("10.0.0.1"))
        self.assertEqual(str(state), "BRIDGE_QUERIER_IP_ADDRESS 10.0.0.1")

    def test_a_flag_that_may_have_no_payload(self):
        # IFLA_VXLAN_TTL_INHERIT (28): NLA_FLAG in a request, one byte in a reply
        for octets, value in (("04001c00", None), ("05001c0000000000", False), ("05001c0001000000", True)):
            vxlan = read(Family.VXLAN, bytes.fromhex(octets))
            self.assertIs(vxlan[IFLA_VXLAN_TTL_INHERIT], value)
            self.assertEqual(bytes(vxlan).hex(), octets)
            self.assertEqual(bytes(List(Family.VXLAN, {IFLA_VXLAN_TTL_INHERIT: value})).hex(), octets)

    def test_read_a_link(self):
        link = read(Family.LINK, LINK)
        self.assertEqual(str(link[IFLA_IFNAME]), "br0")
        self.assertEqual(link[IFLA_STATS64][LinkStats64.RX_DROPPED], 3)
        self.assertEqual(str(link).split("\n")[1], "IFLA_STATS64 rx_packets 12 rx_bytes 840 rx_dropped 3 (22 zero)")
        info = link[IFLA_LINKINFO]
        data = read(from_info_kind(str(info[IFLA_INFO_KIND])), info[IFLA_INFO_DATA])
        self.assertEqual((data.family, data[IFLA_BR_FORWARD_DELAY]), (Family.BRIDGE, 1500))
        self.assertEqual(bytes(data), info[IFLA_INFO_DATA])
        self.assertEqual(bytes(link), LINK)

    def test_print_arrays(self):
        # IFLA_INET_CONF (1) and IFLA_INET6_STATS (3), of which only the places 0 to 3 have names
        for family, octets, line in [
            (Family.INET, "0c000100 01000000 ffffffff", "IFLA_INET_CONF forwarding 1 mc_forwarding -1"),
            (Family.INET, "0c000100 00000000 00000000", "IFLA_INET_CONF (2 zero)"),
            (Family.INET, "04000100", "IFLA_INET_CONF (empty)"),
            (Family.INET, "94000100" + "00000000" * 33 + "07000000 00000000" "00000000", "IFLA_INET_CONF [33] 7 (35 zero)"),
            (Family.INET6, "2c000300 05000000" + "00000000" * 7 + "07000000 00000000", "IFLA_INET6_STATS num 5 [4] 7 (3 zero)"),
        ]:
            self.assertEqual(text(family, bytes.fromhex(octets)), line)

    def test_request_a_bridge(self):
        # as `ip link add br0 type bridge forward_delay 700 vlan_filtering 1 group_address 01:80:c2:00:00:04` sends it
        group = "01:80:c2:00:00:04"
        data = {IFLA_BR_FORWARD_DELAY: 700, IFLA_BR_VLAN_FILTERING: True, IFLA_BR_GROUP_ADDR: group}
        info = {IFLA_INFO_KIND: Text(b"bridge"), IFLA_INFO_DATA: bytes(List(Family.BRIDGE, data))}
        expected = "08000300 62723000 30001200 0a000100 62726964 67650000 20000200"
        expected += "08000100 bc020000 05000700 01000000 0a001400 0180c200 00040000"
        self.assertEqual(bytes(List(Family.LINK, {IFLA_IFNAME: "br0", IFLA_LINKINFO: info})), bytes.fromhex(expected))

    def test_fields_of_structs(self):
        address = Mac("02:00:00:00:00:01")
        bridge = List(Family.BRIDGE, {IFLA_BR_FORWARD_DELAY: 1500, IFLA_BR_BRIDGE_ID: BridgeId(0x8000, address)})
        self.assertEqual(bridge.fields(IFLA_BR_BRIDGE_ID), {"prio": 0x8000, "addr": address})
        self.assertIs(type(bridge.fields("IFLA_BR_BRIDGE_ID")["addr"]), Mac)
        self.assertEqual(bridge.fields(IFLA_BR_FORWARD_DELAY), {})
        # struct bridge_vlan_info, whose flags are first
        vlan = read(Family.AF_SPEC_BRIDGE, bytes.fromhex("08000200 06000a00"))
        self.assertEqual(list(vlan.fields(IFLA_BRIDGE_VLAN_INFO).items()), [("vid", 10), ("flags", 6)])
        timing = read(Family.CAN, CAN)
        self.assertEqual(timing.fields(IFLA_CAN_BITTIMING), timing[IFLA_CAN_BITTIMING]._asdict())
        with self.assertRaises(KeyError):
            bridge.fields(IFLA_BR_ROOT_ID)


if __name__ == "__main__":
    unittest.main()
