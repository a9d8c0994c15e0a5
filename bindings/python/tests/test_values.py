"""A value of each form: its bytes, as runs/plain and the kernel's headers have them, and the value in Python."""
import copy
import pickle
import unittest
from concurrent.futures import ThreadPoolExecutor
from ipaddress import IPv4Address, IPv6Address

from nlroute import *

# struct can_bittiming, and struct can_bittiming_const with a name of two bytes of which one is not UTF-8
TIMING = "01000000 02000000 03000000 04000000 05000000 06000000 07000000 08000000"
LIMITS = "61880000" + "00000000" * 3 + TIMING
# The attribute set, the list, the attribute, and its value. Each list is canonical.
CASES = [
    (Family.BRIDGE, "04001500", IFLA_BR_FDB_FLUSH, None),
    (Family.BOND, "05000600 01000000", IFLA_BOND_USE_CARRIER, True),
    (Family.BOND, "05001000 ff000000", IFLA_BOND_NUM_PEER_NOTIF, 255),
    (Family.VLAN, "06000100 fe0f0000", IFLA_VLAN_ID, 4094),
    (Family.BOND, "08001200 04030201", IFLA_BOND_MIN_LINKS, 0x01020304),
    (Family.BRIDGE, "0c001000 ffffffff ffffffff", IFLA_BR_HELLO_TIMER, (1 << 64) - 1),
    (Family.BOND_PORT, "08000900 9cffffff", IFLA_BOND_SLAVE_PRIO, -100),
    (Family.BOND_PORT, "08000900 00000080", IFLA_BOND_SLAVE_PRIO, -(1 << 31)),
    (Family.BOND, "05000100 04000000", IFLA_BOND_MODE, BondMode.IEEE8023AD),
    (Family.VLAN, "06000500 88a80000", IFLA_VLAN_PROTOCOL, VlanProtocol.IEEE8021AD),
    (Family.BOND_PORT, "05000700 05000000", IFLA_BOND_SLAVE_AD_ACTOR_OPER_PORT_STATE, LacpState.LACP_ACTIVITY | 4),
    (Family.VLAN, "0c000200 02000000 06000000", IFLA_VLAN_FLAGS, Masked(VlanFlags.GVRP, VlanFlags(6))),
    # of struct can_ctrlmode the mask is first
    (Family.CAN, "0c000500 21000000 20000000", IFLA_CAN_CTRLMODE, Masked(CanCtrlMode.FD, CanCtrlMode(0x21))),
    (Family.BOND, "0a001a00 02000000 00010000", IFLA_BOND_AD_ACTOR_SYSTEM, Mac("02:00:00:00:00:01")),
    (Family.BOND, "14000800 08000000 0a000001 08000100 0a000002", IFLA_BOND_ARP_IP_TARGET,
     [IPv4Address("10.0.0.1"), IPv4Address("10.0.0.2")]),
    (Family.BOND, "18001f00 14000000 20010db8 00000000 00000000 00000001", IFLA_BOND_NS_IP6_TARGET,
     [IPv6Address("2001:db8::1")]),
    (Family.CAN, "08000c00 78000000", IFLA_CAN_TERMINATION_CONST, [120, 0]),
    (Family.CAN, "0c000d00 48e80100 a0860100", IFLA_CAN_BITRATE_CONST, [125000, 100000]),
    (Family.BRIDGE, "0c000a00 1000be51 206012a4", IFLA_BR_ROOT_ID, BridgeId(0x1000, Mac("be:51:20:60:12:a4"))),
    (Family.AF_SPEC_BRIDGE, "08000200 06000a00", IFLA_BRIDGE_VLAN_INFO, VlanInfo(10, BridgeVlanFlags(6))),
    (Family.VLAN, "10000380 0c000100 05000000 06000000", IFLA_VLAN_EGRESS_QOS, [QosMapping(from_=5, to=6)]),
    (Family.CAN, "08000800 01000200", IFLA_CAN_BERR_COUNTER, BerrCounter(txerr=1, rxerr=2)),
    (Family.CAN, "24000100" + TIMING, IFLA_CAN_BITTIMING, CanBitTiming(1, 2, 3, 4, 5, 6, 7, 8)),
    (Family.BOND_PORT, "0c000400 00112233 44556677", IFLA_BOND_SLAVE_PERM_HWADDR, bytes.fromhex("0011223344556677")),
]  # fmt: skip


class Values(unittest.TestCase):
    def test_forms(self):
        for family, digits, name, value in CASES:
            with self.subTest(name=name):
                data = bytes.fromhex(digits)
                found = read(family, data)
                self.assertEqual(list(found), [(name, value)])
                self.assertIs(type(found[name]), type(value))
                self.assertEqual(bytes(List(family, {name: value})), bytes(found))
                # (NLA_F_NESTED is written or not, whatever the input has)
                self.assertEqual(len(bytes(found)), len(data))
                self.assertEqual(bytes(found)[4:], data[4:])
                self.assertEqual(read(family, bytes(found)), found)
                self.assertEqual(pickle.loads(pickle.dumps(found)), found)

    def test_types_of_members(self):
        flags = read(Family.VLAN, bytes.fromhex("0c000200 02000000 06000000"))[IFLA_VLAN_FLAGS]
        self.assertIs(type(flags.mask), VlanFlags)
        info = read(Family.AF_SPEC_BRIDGE, bytes.fromhex("08000200 06000a00"))[IFLA_BRIDGE_VLAN_INFO]
        self.assertIs(type(info.flags), BridgeVlanFlags)
        self.assertEqual(str(info.flags), "PVID|UNTAGGED")

    def test_complement(self):
        # (before 3.11, Python has negative numbers for these)
        self.assertEqual((~VlanFlags.GVRP, str(~VlanFlags.GVRP)), (0x1D, "REORDER_HDR|LOOSE_BINDING|MVRP|BRIDGE_BINDING"))

    def test_generic_type(self):
        self.assertEqual(Masked[VlanFlags](VlanFlags.GVRP, VlanFlags(6)), (2, 6))

    def test_nested_list(self):
        # IFLA_BOND_AD_INFO: IFLA_BOND_AD_INFO_AGGREGATOR (1), IFLA_BOND_AD_INFO_PARTNER_MAC (5), and type 9
        data = bytes.fromhex("20001780 06000100 02000000 0a000500 02000000 00010000 0600 0900 dead0000")
        bond = read(Family.BOND, data)
        info = bond[IFLA_BOND_AD_INFO]
        self.assertEqual(info["IFLA_BOND_AD_INFO_AGGREGATOR"], 2)
        self.assertEqual(info[IFLA_BOND_AD_INFO_PARTNER_MAC], Mac("02:00:00:00:00:01"))
        self.assertEqual(info["type 9"], Unknown(b"\xde\xad"))
        self.assertEqual(str(info).split("\n")[0], "IFLA_BOND_AD_INFO_AGGREGATOR 2")
        self.assertEqual(bytes(bond)[4:], data[4:])
        values = {"IFLA_BOND_AD_INFO_AGGREGATOR": 2, "IFLA_BOND_AD_INFO_PARTNER_MAC": "02:00:00:00:00:01"}
        values["type 9"] = b"\xde\xad"
        self.assertEqual(bytes(List(Family.BOND, {IFLA_BOND_AD_INFO: values})), bytes(bond))
        within = List.within(Family.BOND, "IFLA_BOND_AD_INFO", values)
        self.assertEqual(bytes(List(Family.BOND, {IFLA_BOND_AD_INFO: within})), bytes(bond))
        del info["type 9"]
        self.assertEqual(len(bytes(bond)), len(data) - 8)

    def test_unknown(self):
        # type 99 with NLA_F_NESTED, and twice type 100 without
        data = bytes.fromhex("06006380 dead0000 05006400 01000000 05006400 02000000")
        vlan = read(Family.VLAN, data)
        self.assertEqual(vlan["type 99"], Unknown(b"\xde\xad", 0x8000))
        self.assertEqual(vlan.get_all("type 100"), [Unknown(b"\1"), Unknown(b"\2")])
        self.assertEqual(bytes(vlan), data)
        self.assertEqual(bytes(List(Family.VLAN, {"type 100": bytearray(b"\1")})), data[8:16])

    def test_unknown_among_mappings(self):
        # runs/plain/nested: the last element has a type without a row
        data = bytes.fromhex("18000400 0c000100 05000000 06000000 060009c0 dead0000")
        vlan = read(Family.VLAN, data)
        self.assertEqual(vlan[IFLA_VLAN_INGRESS_QOS], [QosMapping(5, 6), Unknown(b"\xde\xad", 0xC000, 9)])
        self.assertEqual(bytes(vlan)[4:], data[4:])

    def test_addresses_of_another_size(self):
        # they are dropped, as runs/plain/bond has it
        data = bytes.fromhex("14000800 06000000 0a000000 08000000 0a000001")
        self.assertEqual(read(Family.BOND, data)[IFLA_BOND_ARP_IP_TARGET], [IPv4Address("10.0.0.1")])

    def test_limits(self):
        # the name has a byte that is not UTF-8: it is kept when read, and U+FFFD when written
        can = read(Family.CAN, bytes.fromhex("34000200" + LIMITS))
        self.assertEqual(can[IFLA_CAN_BITTIMING_CONST], CanBitTimingConst("a\udc88", 1, 2, 3, 4, 5, 6, 7, 8))
        again = bytes.fromhex("34000200 61efbfbd" + "00000000" * 3 + TIMING)
        self.assertEqual(bytes(can), again)

    def test_texts_for_values(self):
        bond = List(Family.BOND, {"IFLA_BOND_MODE": "802.3ad", "IFLA_BOND_AD_ACTOR_SYSTEM": "02-00-00-00-00-01"})
        self.assertEqual(bytes(bond), bytes.fromhex("05000100 04000000 0a001a00 02000000 00010000"))

    def test_buffers(self):
        data = bytes.fromhex("08000300 64000000")
        for it in (bytearray(data), memoryview(data), memoryview(bytearray(b"\0" + data))[1:]):
            self.assertEqual(read(Family.BOND, it)[IFLA_BOND_MIIMON], 100)


class Sequence(unittest.TestCase):
    def setUp(self):
        # IFLA_BRIDGE_VLAN_INFO: VLANs 10 and 20; between them IFLA_BRIDGE_MODE
        self.data = bytes.fromhex("08000200 06000a00 06000100 01000000 08000200 00001400")
        self.list = read(Family.AF_SPEC_BRIDGE, self.data)

    def test_repeats_are_kept(self):
        names = ["IFLA_BRIDGE_VLAN_INFO", "IFLA_BRIDGE_MODE", "IFLA_BRIDGE_VLAN_INFO"]
        self.assertEqual([it.name for it in self.list], names)
        self.assertEqual([it.vid for it in self.list.get_all(IFLA_BRIDGE_VLAN_INFO)], [10, 20])
        self.assertEqual(self.list[IFLA_BRIDGE_VLAN_INFO].vid, 20)
        self.assertEqual(self.list.keys(), ["IFLA_BRIDGE_VLAN_INFO", "IFLA_BRIDGE_MODE"])
        self.assertEqual(dict(self.list), {"IFLA_BRIDGE_VLAN_INFO": VlanInfo(20), "IFLA_BRIDGE_MODE": 1})
        self.assertEqual(bytes(self.list), self.data)

    def test_set_replaces_all(self):
        self.list[IFLA_BRIDGE_VLAN_INFO] = VlanInfo(30)
        self.assertEqual(bytes(self.list), bytes.fromhex("08000200 00001e00 06000100 01000000"))
        del self.list[IFLA_BRIDGE_VLAN_INFO]
        self.assertEqual(list(self.list), [(IFLA_BRIDGE_MODE, BridgeMode.VEPA)])
        self.list[IFLA_BRIDGE_FLAGS] = "self"
        self.assertEqual(len(self.list), 2)

    def test_index(self):
        self.assertEqual(self.list[-1], Attribute("IFLA_BRIDGE_VLAN_INFO", VlanInfo(20)))
        self.assertEqual(self.list[:2], list(self.list)[:2])
        self.assertEqual([it.name for it in reversed(self.list)][0], IFLA_BRIDGE_VLAN_INFO)

    def test_copies(self):
        for make in (copy.copy, copy.deepcopy, lambda it: pickle.loads(pickle.dumps(it))):
            other = make(self.list)
            self.assertEqual(other, self.list)
            other.append(IFLA_BRIDGE_FLAGS, 1)
            self.assertNotEqual(other, self.list)
        self.assertEqual(len(self.list), 3)
        with self.assertRaises(TypeError):
            hash(self.list)

    def test_extend(self):
        self.list.extend(self.list)
        self.assertEqual(bytes(self.list), 2 * self.data)
        with self.assertRaises(KeyError):
            self.list.extend([("type 99", b""), (IFLA_BOND_MODE, 1)])
        self.assertEqual(len(self.list), 6)
        self.list.extend({"type 99": b"", IFLA_BRIDGE_FLAGS: 1})
        self.assertEqual(len(self.list), 8)

    def test_threads(self):
        def work(number):
            for _ in range(200):
                bond = List(Family.BOND, {"IFLA_BOND_MIIMON": number})
                again = read(Family.BOND, bytes(bond))
                if again[IFLA_BOND_MIIMON] != number or str(again) != f"IFLA_BOND_MIIMON {number} ms":
                    return False
            return True

        with ThreadPoolExecutor(8) as pool:
            self.assertEqual(list(pool.map(work, range(8))), [True] * 8)

    def test_nested_copies(self):
        bond = read(Family.BOND, bytes.fromhex("0c001780 06000100 02000000"))
        other = copy.deepcopy(bond)
        other[IFLA_BOND_AD_INFO]["IFLA_BOND_AD_INFO_AGGREGATOR"] = 3
        self.assertEqual(bond[IFLA_BOND_AD_INFO][0].value, 2)
        self.assertIs(pickle.loads(pickle.dumps(bond[IFLA_BOND_AD_INFO]))._table, bond[IFLA_BOND_AD_INFO]._table)

    def test_equality(self):
        self.assertNotEqual(List(Family.BOND), List(Family.VLAN))
        self.assertNotEqual(List(Family.BOND), [])
        self.assertEqual(repr(List(Family.BOND, {"IFLA_BOND_MIIMON": 100})), "<BOND IFLA_BOND_MIIMON=100>")

    def test_errors_can_be_pickled(self):
        for make in (lambda: read(Family.BOND, b"1"), lambda: bytes(List(Family.BOND, {"IFLA_BOND_MIIMON": -1}))):
            with self.assertRaises(Error) as caught:
                make()
            again = pickle.loads(pickle.dumps(caught.exception))
            self.assertEqual((str(again), vars(again)), (str(caught.exception), vars(caught.exception)))


if __name__ == "__main__":
    unittest.main()
