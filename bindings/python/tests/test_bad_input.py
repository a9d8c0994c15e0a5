"""What bad input gets: each row of the table in docs/python.md, and what follows from it."""
import subprocess
import sys
import unittest
from ipaddress import AddressValueError

import nlroute
from nlroute import *


NO_MEMORY = """
import resource
from nlroute import *
data = bytes(64 << 20)
with open("/proc/self/statm") as file:
    size = int(file.read().split()[0]) * resource.getpagesize() + (4 << 20)
resource.setrlimit(resource.RLIMIT_AS, (size, size))
try:
    read(Family.BOND, data)
except MemoryError:
    print("MemoryError")
"""


def written(family, name, value):
    """Writes a list with one attribute."""
    return bytes(List(family, [(name, value)]))


class Reading(unittest.TestCase):
    def test_malformed_bytes(self):
        # nla_len 8, and 6 bytes are left
        with self.assertRaisesRegex(Fault, "^error at 0: nla_len 8 exceeds the 6 bytes left$") as caught:
            read(Family.BOND, bytes.fromhex("080003006400"))
        fault = caught.exception
        self.assertEqual((fault.at, fault.place, fault.cause), (0, Place.FRAME, Cause.OVERRUN))
        self.assertEqual(fault.numbers, (8, 6))
        self.assertIsInstance(fault, Error)
        self.assertIsInstance(fault, ValueError)

    def test_malformed_element(self):
        # IFLA_BOND_AD_INFO (23): IFLA_BOND_AD_INFO_AGGREGATOR (1) has one byte, not two
        with self.assertRaises(Fault) as caught:
            text(Family.BOND, bytes.fromhex("05000100 01000000 0c001700 05000100 01000000"))
        fault = caught.exception
        self.assertEqual((fault.at, fault.place, fault.kind, fault.inner), (8, Place.ELEMENT_PAYLOAD, 23, 1))
        self.assertEqual((fault.cause, fault.numbers), (Cause.WRONG_LENGTH, (2, 1)))

    def test_no_bytes(self):
        for data in ("08000300", 5, [8, 0], None):
            for function in (read, text):
                with self.subTest(data=data), self.assertRaises(TypeError):
                    function(Family.BOND, data)

    def test_unknown_family(self):
        for function in (lambda: read(77, b""), lambda: text(77, b""), lambda: List(77), lambda: List.within(77, "x")):
            with self.assertRaisesRegex(ValueError, "^'Bond' is not a valid Family: af_spec_bridge, bond, bond_port, "):
                Family("Bond")
            with self.assertRaisesRegex(ValueError, "^77 is not a valid Family$"):
                function()

    def test_absent(self):
        bond = read(Family.BOND, b"")
        with self.assertRaisesRegex(KeyError, "^'IFLA_BOND_MIIMON'$"):
            bond[IFLA_BOND_MIIMON]
        with self.assertRaises(KeyError):
            del bond[IFLA_BOND_MIIMON]
        self.assertIsNone(bond.get(IFLA_BOND_MIIMON))
        self.assertEqual(bond.get("IFLA_BOND_MIIMON", 5), 5)
        self.assertEqual(bond.get_all(IFLA_BOND_MIIMON), [])
        with self.assertRaises(IndexError):
            bond[0]

    def test_another_set(self):
        bond = List(Family.BOND)
        calls = [
            lambda: bond[IFLA_BR_FORWARD_DELAY],
            lambda: bond.get(IFLA_BR_FORWARD_DELAY),
            lambda: bond.get_all(IFLA_BR_FORWARD_DELAY),
            lambda: bond.append(IFLA_BR_FORWARD_DELAY, 1),
            lambda: bond.__setitem__(IFLA_BR_FORWARD_DELAY, 1),
        ]
        for call in calls:
            with self.assertRaisesRegex(KeyError, "^'BOND has no IFLA_BR_FORWARD_DELAY'$"):
                call()

    def test_element_of_another_list(self):
        within = List.within(Family.BOND, "IFLA_BOND_AD_INFO")
        with self.assertRaisesRegex(KeyError, "IFLA_BOND_AD_INFO has no BRIDGE_QUERIER_IP_PORT"):
            within["BRIDGE_QUERIER_IP_PORT"] = 1
        with self.assertRaisesRegex(KeyError, "IFLA_BOND_AD_INFO has no BRIDGE_QUERIER_IP_PORT"):
            written(Family.BOND, "IFLA_BOND_AD_INFO", {"BRIDGE_QUERIER_IP_PORT": 1})
        with self.assertRaisesRegex(KeyError, "BOND has no IFLA_BOND_AD_INFO_AGGREGATOR"):
            List(Family.BOND, {"IFLA_BOND_AD_INFO_AGGREGATOR": 1})
        with self.assertRaisesRegex(KeyError, "IFLA_BOND_MIIMON is not a nested list"):
            List.within(Family.BOND, "IFLA_BOND_MIIMON")


class Writing(unittest.TestCase):
    def assert_rejected(self, family, name, value, code, said=None, index=0):
        with self.assertRaises(WriteError) as caught:
            written(family, name, value)
        error = caught.exception
        self.assertEqual((error.name, error.index, error.code), (said or name, index, code))
        self.assertEqual(str(error), f"{said or name}: {code.text}")

    def test_wrong_type(self):
        rows = [
            (Family.BOND, "IFLA_BOND_MIIMON", "100"),
            (Family.BOND, "IFLA_BOND_MIIMON", 1.5),
            (Family.BOND, "IFLA_BOND_MIIMON", None),
            (Family.BOND, "IFLA_BOND_ARP_IP_TARGET", "10.0.0.1"),
            (Family.BOND, "IFLA_BOND_ARP_IP_TARGET", 5),
            (Family.BOND, "IFLA_BOND_ARP_IP_TARGET", iter(["10.0.0.1"])),
            (Family.BOND, "IFLA_BOND_ARP_IP_TARGET", {"10.0.0.1": 1}),
            (Family.BOND, "IFLA_BOND_AD_INFO", b"1234"),
            (Family.BOND, "IFLA_BOND_AD_INFO", [5]),
            (Family.BOND, "IFLA_BOND_AD_ACTOR_SYSTEM", 6),
            (Family.BOND_PORT, "IFLA_BOND_SLAVE_PERM_HWADDR", "020000000001"),
            (Family.BOND_PORT, "IFLA_BOND_SLAVE_PERM_HWADDR", 6),
            (Family.BRIDGE, "IFLA_BR_FDB_FLUSH", True),
            (Family.BRIDGE, "IFLA_BR_ROOT_ID", 4096),
            (Family.VLAN, "IFLA_VLAN_FLAGS", VlanFlags.GVRP),
            (Family.VLAN, "IFLA_VLAN_EGRESS_QOS", [5]),
            (Family.VLAN, "IFLA_VLAN_EGRESS_QOS", [Unknown(b"")]),
            (Family.VLAN, "type 99", 5),
            (Family.CAN, "IFLA_CAN_BITTIMING", 500000),
            (Family.CAN, "IFLA_CAN_BITTIMING", (1, 2)),
            (Family.CAN, "IFLA_CAN_BITTIMING_CONST", CanBitTimingConst(b"c", *[0] * 8)),
        ]
        for family, name, value in rows:
            with self.subTest(name=name, value=value), self.assertRaisesRegex(TypeError, r"^(IFLA_\w+|type 99)[:\[]"):
                written(family, name, value)
        for name, value in ((5, 5), (None, 5)):
            with self.subTest(name=name), self.assertRaises(TypeError):
                List(Family.BOND, [(name, value)])

    def test_number_out_of_range(self):
        for number in (1 << 32, -1, 1 << 64, 1 << 70):
            self.assert_rejected(Family.BOND, "IFLA_BOND_MIIMON", number, Code.BAD_NUMBER)
        # IFLA_BOND_SLAVE_PRIO is an s32
        for number in (1 << 31, -(1 << 31) - 1, (1 << 64) - 1, 1 << 70, -(1 << 70)):
            self.assert_rejected(Family.BOND_PORT, "IFLA_BOND_SLAVE_PRIO", number, Code.BAD_NUMBER)
        self.assert_rejected(Family.BOND, "IFLA_BOND_MODE", BondMode(256), Code.BAD_NUMBER)
        self.assert_rejected(Family.BOND, "IFLA_BOND_USE_CARRIER", 2, Code.BAD_NUMBER)
        self.assert_rejected(Family.VLAN, "IFLA_VLAN_FLAGS", Masked(0, 1 << 32), Code.BAD_NUMBER)
        self.assert_rejected(Family.BRIDGE, "IFLA_BR_ROOT_ID", (65536, bytes(6)), Code.BAD_NUMBER)
        self.assert_rejected(Family.CAN, "IFLA_CAN_BITTIMING", CanBitTiming(bitrate=-1), Code.BAD_NUMBER)
        self.assert_rejected(Family.CAN, "IFLA_CAN_BERR_COUNTER", BerrCounter(0, 65536), Code.BAD_NUMBER)

    def test_number_of_element_out_of_range(self):
        name = "IFLA_BOND_AD_INFO_AGGREGATOR"
        self.assert_rejected(Family.BOND, "IFLA_BOND_AD_INFO", {name: 65536}, Code.BAD_NUMBER, name)
        name = "IFLA_CAN_TERMINATION_CONST"
        self.assert_rejected(Family.CAN, name, [120, 65536], Code.BAD_NUMBER, f"{name}[1]")
        name = "IFLA_VLAN_QOS_MAPPING"
        self.assert_rejected(Family.VLAN, "IFLA_VLAN_EGRESS_QOS", [(0, 1 << 32)], Code.BAD_NUMBER, name)

    def test_index(self):
        bond = List(Family.BOND, {"IFLA_BOND_AD_INFO": {"IFLA_BOND_AD_INFO_NUM_PORTS": 1}, "IFLA_BOND_MIIMON": -1})
        with self.assertRaises(WriteError) as caught:
            bytes(bond)
        self.assertEqual(caught.exception.index, 1)
        # the first one counts, whether the library or the package finds it
        vlan = {"IFLA_VLAN_ID": 1, "IFLA_VLAN_PROTOCOL": 0x1234, "IFLA_VLAN_EGRESS_QOS": [(0, 1), (1 << 70, 1)]}
        with self.assertRaises(WriteError) as caught:
            bytes(List(Family.VLAN, vlan))
        self.assertEqual((caught.exception.index, caught.exception.name), (1, "IFLA_VLAN_PROTOCOL"))
        with self.assertRaises(WriteError) as caught:
            bytes(List(Family.VLAN, {**vlan, "IFLA_VLAN_PROTOCOL": "802.1ad"}))
        self.assertEqual((caught.exception.index, caught.exception.name), (2, "IFLA_VLAN_QOS_MAPPING"))

    def test_number_without_a_name(self):
        # BOND_MODE_* ends with 6
        data = bytes.fromhex("05000100 4d000000")
        mode = read(Family.BOND, data)[IFLA_BOND_MODE]
        self.assertEqual((mode, mode.text, str(mode), type(mode)), (77, "", "77", BondMode))
        self.assertEqual(written(Family.BOND, "IFLA_BOND_MODE", mode), data)

    def test_unknown_name(self):
        names = "balance-rr, active-backup, balance-xor, broadcast, 802.3ad, balance-tlb, balance-alb"
        with self.assertRaisesRegex(ValueError, f"^'802.3xx' is not a valid BondMode: {names}$"):
            BondMode("802.3xx")
        with self.assertRaisesRegex(ValueError, f"^IFLA_BOND_MODE: '802.3xx' is not a valid BondMode: {names}$"):
            written(Family.BOND, "IFLA_BOND_MODE", "802.3xx")

    def test_flag_without_a_name(self):
        # IFLA_VLAN_FLAGS: flags 0x42, mask 0xffffffff
        data = bytes.fromhex("0c000200 42000000 ffffffff")
        flags, mask = read(Family.VLAN, data)[IFLA_VLAN_FLAGS]
        self.assertEqual((flags, str(flags), mask), (0x42, "GVRP|0x40", 0xFFFFFFFF))
        self.assertEqual(written(Family.VLAN, "IFLA_VLAN_FLAGS", (flags, mask)), data)

    def test_vlan_protocol(self):
        # only ETH_P_8021Q and ETH_P_8021AD can be written
        self.assert_rejected(Family.VLAN, "IFLA_VLAN_PROTOCOL", VlanProtocol(0x1234), Code.BAD_NUMBER)

    def test_too_long(self):
        # nla_len has 16 bits: at most 65,531 bytes of payload
        name = "IFLA_BOND_ARP_IP_TARGET"
        self.assertEqual(len(written(Family.BOND, name, ["10.0.0.1"] * 8191)), 4 + 8 * 8191)
        self.assert_rejected(Family.BOND, name, ["10.0.0.1"] * 8192, Code.TOO_LONG)
        self.assert_rejected(Family.CAN, "IFLA_CAN_TERMINATION_CONST", [1] * 70000, Code.TOO_LONG)
        self.assertEqual(len(written(Family.BOND, "type 99", bytes(65531))), 65536)
        self.assert_rejected(Family.BOND, "type 99", bytes(65532), Code.TOO_LONG)

    def test_malformed_addresses(self):
        for address in ("", "02:00:00:00:00", "2:0:0:0:0:1", "02:00:00-00:00:01", "020000000001", b"12345", [256] * 6):
            with self.subTest(address=address), self.assertRaises(ValueError):
                written(Family.BOND, "IFLA_BOND_AD_ACTOR_SYSTEM", address)
        for address in ("10.0.0", "10.0.0.256", b"123", "::1", -1):
            with self.subTest(address=address), self.assertRaisesRegex(AddressValueError, r"^IFLA_BOND_ARP_IP_TARGET\[1\]:"):
                written(Family.BOND, "IFLA_BOND_ARP_IP_TARGET", ["10.0.0.1", address])
        with self.assertRaises(AddressValueError):
            written(Family.BOND, "IFLA_BOND_NS_IP6_TARGET", ["10.0.0.1"])

    def test_type_that_is_known(self):
        bond = List(Family.BOND)
        for name in ("type 1", "type 01", "type -1", "type \u0661", "IFLA_BOND_XYZ"):
            with self.subTest(name=name), self.assertRaisesRegex(KeyError, f"BOND has no {name}"):
                bond.append(name, b"")

    def test_type_that_is_too_large(self):
        # nla_type has 14 bits besides its flags
        for name in ("type 16384", "type 65536", "type 99999999999999999999"):
            self.assert_rejected(Family.BOND, name, b"", Code.BAD_NUMBER)
        for flags in (1, -1, 0x10000):
            self.assert_rejected(Family.BOND, "type 99", Unknown(b"", flags), Code.BAD_NUMBER)

    def test_long_name(self):
        for name, code in (("c" * 17, Code.TOO_LONG),):
            self.assert_rejected(Family.CAN, "IFLA_CAN_BITTIMING_CONST", CanBitTimingConst(name, *[0] * 8), code)
        with self.assertRaises(ValueError):
            written(Family.CAN, "IFLA_CAN_BITTIMING_CONST", CanBitTimingConst("a\0b", *[0] * 8))

    def test_nested_list_alone(self):
        within = List.within(Family.BOND, "IFLA_BOND_AD_INFO", {"IFLA_BOND_AD_INFO_NUM_PORTS": 2})
        with self.assertRaisesRegex(TypeError, "not a whole list"):
            bytes(within)

    def test_no_memory(self):
        # 4 MB more than the process has, for the values of 64 MB
        ran = subprocess.run([sys.executable, "-c", NO_MEMORY], stdout=subprocess.PIPE, text=True, check=False)
        self.assertEqual((ran.stdout, ran.returncode), ("MemoryError\n", 0))
        self.assertIsInstance(nlroute._library.unexpected(Code.NO_MEMORY), MemoryError)


if __name__ == "__main__":
    unittest.main()
