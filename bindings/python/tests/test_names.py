"""Names, numbers and texts: those of nlroute_kinds.h, of runs/plain, and of the kernel's headers."""
import ctypes
import doctest
import os
import re
import unittest

import nlroute
from nlroute import *
from nlroute import _kinds, _tables

TOP = os.path.dirname(os.path.dirname(os.path.dirname(os.path.dirname(os.path.realpath(__file__)))))
GROUP = re.compile(r"/\* (?:Attributes of NLROUTE_|Elements of )([^*]*)\. \*/\nenum \{\n([^}]*)\n\};")
PLACES = re.compile(r"/\* Places of the array (\w+)\. \*/\nenum \{\n([^}]*)\n\};")
PLACE = re.compile(r"NLROUTE_(?:(?:IPV4_CONF|IPV6_CONF|IPV6_STATS|ICMP6_STATS)_)?(\w+) = (\d+)")
TYPE = re.compile(r"NLROUTE_(\w+) = (\d+),? /\* (.*?)((?:, .*)?) \*/")
UNITS = {
    "1/100 s": Unit.CLOCK_TICKS, "ms": Unit.MILLISECONDS, "s": Unit.SECONDS, "ns": Unit.NANOSECONDS, "bit/s": Unit.BITS_PER_SECOND,
    "ohms": Unit.OHMS, "Hz": Unit.HERTZ, "interface index": Unit.INTERFACE_INDEX,
}  # fmt: skip
LIST = re.compile(r"^> ([a-z_]+) ((?:[0-9a-f]| )*)$")
# Bits and numbers of the kernel's headers: if_bonding.h, if_vlan.h, can/netlink.h, if_bridge.h, bond_3ad.h.
KERNEL = [
    (BondMode.IEEE8023AD, 4),
    (BondMode.BALANCE_ALB, 6),
    (VlanFlags.GVRP, 2),
    (VlanFlags.BRIDGE_BINDING, 16),
    (VlanProtocol.IEEE8021Q, 0x8100),
    (CanCtrlMode.LISTENONLY, 2),
    (CanCtrlMode.FD, 0x20),
    (CanState.BUS_OFF, 3),
    (BridgeVlanFlags.UNTAGGED, 4),
    (LacpState.AGGREGATION, 4),
    (BridgePortState.FORWARDING, 3),
]  # fmt: skip


# Those of message headers: linux/netlink.h, rtnetlink.h, if.h, socket.h.
HEADERS = {
    MessageType: {
        "NLMSG_NOOP": 1, "NLMSG_ERROR": 2, "NLMSG_DONE": 3, "NLMSG_OVERRUN": 4, "RTM_NEWLINK": 16, "RTM_DELLINK": 17,
        "RTM_GETLINK": 18, "RTM_SETLINK": 19, "RTM_NEWLINKPROP": 108, "RTM_DELLINKPROP": 109, "RTM_GETLINKPROP": 110,
    },
    MessageFlags: {
        "REQUEST": 1, "MULTI": 2, "ACK": 4, "ECHO": 8, "DUMP_INTR": 0x10, "DUMP_FILTERED": 0x20, "ROOT": 0x100,
        "MATCH": 0x200, "ATOMIC": 0x400, "DUMP": 0x300, "REPLACE": 0x100, "EXCL": 0x200, "CREATE": 0x400, "APPEND": 0x800,
        "NONREC": 0x100, "BULK": 0x200, "CAPPED": 0x100, "ACK_TLVS": 0x200,
    },
    LinkFlags: {
        "UP": 0x1, "BROADCAST": 0x2, "DEBUG": 0x4, "LOOPBACK": 0x8, "POINTOPOINT": 0x10, "NOTRAILERS": 0x20,
        "RUNNING": 0x40, "NOARP": 0x80, "PROMISC": 0x100, "ALLMULTI": 0x200, "MASTER": 0x400, "SLAVE": 0x800,
        "MULTICAST": 0x1000, "PORTSEL": 0x2000, "AUTOMEDIA": 0x4000, "DYNAMIC": 0x8000, "LOWER_UP": 0x10000,
        "DORMANT": 0x20000, "ECHO": 0x40000,
    },
    AddressFamily: {"UNSPEC": 0, "INET": 2, "BRIDGE": 7, "INET6": 10, "PACKET": 17, "MPLS": 28, "MCTP": 45},
}  # fmt: skip


def form_of(row):
    """Returns the form of a row in the words of nlroute_kinds.h."""
    names = {number: name for name, number in vars(_kinds.Form).items()}
    if not row.item:
        return "LIST of attributes" if row.elements else names[row.form]
    return f"LIST of {names[row.item.form]}" if not row.item.name else "LIST of attributes"


def header():
    """Returns the text of nlroute_kinds.h."""
    with open(os.path.join(TOP, "crates/nlroute_ffi/include/nlroute_kinds.h"), encoding="utf-8") as file:
        return file.read()


def held_names():
    """Returns the names of the attributes that hold a list of another set, or a peer."""
    tables = list(_tables.TABLES.values())
    tables += [below for table in tables for below in table.below.values()]
    return {row.name for table in tables for row in table.by_kind.values() if row.form in (_kinds.Form.HELD, _kinds.Form.PEER)}


def opens(line, names):
    """Returns whether nlshow prints the attributes of a held list below a line."""
    return line.split()[0] in names and not line.endswith(" not decoded)")


def runs():
    """Yields each list of runs/plain with the lines that nlshow prints for it."""
    folder = os.path.join(TOP, "runs/plain")
    for name in sorted(os.listdir(folder)):
        with open(os.path.join(folder, name), encoding="utf-8") as file:
            lines = [line for line in file.read().split("\n") if line and line[0] in " >"]
        at = [index for index, line in enumerate(lines) if line[0] == ">"] + [len(lines)]
        for start, end in zip(at, at[1:]):
            found = LIST.match(lines[start])
            if found and found[1].upper() in Family.__members__ and not len(found[2].replace(" ", "")) % 2:
                yield Family[found[1].upper()], bytes.fromhex(found[2]), [it[2:] for it in lines[start + 1 : end]]


def rewritten(family, data):
    """Returns what nlroute_rewrite() writes."""
    library = nlroute._library.LIBRARY
    library.nlroute_rewrite.argtypes = library.nlroute_values.argtypes
    out = ctypes.create_string_buffer(len(data) + 4)
    length = library.nlroute_rewrite(family, data, len(data), out, len(data) + 4)
    return out.raw[:length]


class Names(unittest.TestCase):
    def test_version_and_mark(self):
        mark = rf"nlroute {re.escape(nlroute.__version__)}, (un)?proved, commit \S+, \S.*"
        self.assertRegex(nlroute.build(), f"^{mark}$")

    def test_header(self):
        groups = GROUP.findall(header())
        rows = {(table.title, row.name): row for table in _tables.TABLES.values() for row in table.by_name.values()}
        for table in _tables.TABLES.values():
            for row in table.by_kind.values():
                rows |= {(row.name, it.name): it for it in row.elements}
                if row.item and row.item.name:
                    rows[row.name, row.item.name] = row.item
        seen = set()
        for titles, body in groups:
            for title in re.split(r" and |, ", titles):
                for name, number, form, more in TYPE.findall(body):
                    row = rows[title, name]
                    self.assertEqual((row.kind, form_of(row)), (int(number), form), name)
                    said = [UNITS[it] for it in more.split(", ") if it in UNITS] or [Unit.NONE, Unit.MASK]
                    self.assertIn(row.unit, said, name)
                    self.assertEqual(getattr(nlroute, name), name)
                    seen.add((title, name))
        # IFLA_PROTINFO has a type of bridge ports, and IFLA_PROP_LIST one of links, which the header has once
        unseen = {title for title, _ in set(rows) - seen}
        self.assertEqual(unseen, {"PROTO_BRIDGE", "IFLA_PROP_LIST", "IFLA_MACVLAN_MACADDR_DATA"})

    def test_units(self):
        # IFLA_CAN_TERMINATION_CONST is an array of numbers; IFLA_GENEVE_TOS has no unit, but is shown in hex
        rows = [
            (Family.BRIDGE, "IFLA_BR_AGEING_TIME", Unit.CLOCK_TICKS),
            (Family.BOND, "IFLA_BOND_PRIMARY", Unit.INTERFACE_INDEX),
            (Family.CAN, "IFLA_CAN_TERMINATION_CONST", Unit.OHMS),
            (Family.GENEVE, "IFLA_GENEVE_TOS", Unit.MASK),
            (Family.VLAN, "IFLA_VLAN_ID", Unit.NONE),
        ]
        for family, name, unit in rows:
            self.assertIs(List(family).unit(name), unit)
        state = List.within(Family.BRIDGE, "IFLA_BR_MCAST_QUERIER_STATE")
        self.assertIs(state.unit("BRIDGE_QUERIER_IP_OTHER_TIMER"), Unit.CLOCK_TICKS)
        self.assertRaises(KeyError, state.unit, "IFLA_BR_AGEING_TIME")
        self.assertIs(List(Family.VLAN).unit("type 99"), Unit.NONE)

    def test_places(self):
        groups = dict(PLACES.findall(header()))
        found = {name: {it: int(number) for it, number in PLACE.findall(body)} for name, body in groups.items()}
        # (the header has a name once)
        found["link_stats64"] |= found["link_stats"]
        arrays = {
            "link_stats": LinkStats, "link_stats64": LinkStats64, "ipv4_conf": Ipv4Conf, "ipv6_conf": Ipv6Conf,
            "ipv6_stats": Ipv6Stats, "icmp6_stats": Icmp6Stats,
        }  # fmt: skip
        self.assertEqual(found, {name: {it.name: it.value for it in places} for name, places in arrays.items()})

    def test_kernel(self):
        for member, number in KERNEL:
            self.assertEqual(member, number)

    def test_headers(self):
        for made, numbers in HEADERS.items():
            self.assertEqual({name: int(it) for name, it in made.__members__.items()}, numbers)
        texts = [str(it) for it in (MessageType.RTM_NEWLINK, MessageType(20), AddressFamily.INET, LinkFlags(0x80001))]
        self.assertEqual(texts, ["RTM_NEWLINK", "20", "AF_INET", "UP|0x80000"])
        self.assertEqual((AddressFamily("AF_MCTP"), MessageType("NLMSG_DONE")), (45, 3))
        # the names of bits 8 to 11 depend on the type of the message
        flags = MessageFlags.REQUEST | MessageFlags.ACK | MessageFlags.CREATE | MessageFlags.EXCL
        self.assertEqual((flags, str(flags), repr(flags)), (0x605, "REQUEST|ACK|0x600", "<MessageFlags REQUEST|ACK|0x600: 1541>"))
        texts = [flags.text_in(kind) for kind in (16, 17, 18, 2, 20)]
        names = "EXCL|CREATE", "BULK|0x400", "MATCH|ATOMIC", "ACK_TLVS|0x400", "0x600"
        self.assertEqual(texts, [f"REQUEST|ACK|{name}" for name in names])
        self.assertEqual(MessageFlags(0).text_in(MessageType.RTM_NEWLINK), "0")
        self.assertIn(MessageFlags.DUMP, MessageFlags(0x301))
        self.assertEqual(~MessageFlags.ACK & MessageFlags(7), MessageFlags.REQUEST | MessageFlags.MULTI)

    def test_runs(self):
        count, names = 0, held_names()
        for family, data, lines in runs():
            if any(opens(line, names) for line in lines):
                continue
            errors = [line.strip() for line in lines if line.strip().startswith("error at ")]
            count += 1
            with self.subTest(family=family.name, data=data.hex()):
                if errors:
                    with self.assertRaises(Fault) as caught:
                        text(family, data)
                    self.assertEqual(str(caught.exception), errors[0])
                    self.assertEqual(caught.exception.at, int(re.match(r"error at (\d+)", errors[0])[1]))
                else:
                    self.assertEqual(text(family, data).splitlines(), lines)
                    self.assertEqual(str(read(family, data)), text(family, rewritten(family, data)))
        self.assertGreater(count, 100)

    def test_long_text(self):
        data = bytes.fromhex("e8036300") + bytes(996)
        self.assertEqual(text(Family.BOND, data), "type 99 hex " + "00" * 996)


class Memory(unittest.TestCase):
    def test_sets_of_many_flags_are_not_stored(self):
        before = len(LinkFlags._value2member_map_)
        self.assertEqual([int(LinkFlags(number)) for number in range(512)], list(range(512)))
        self.assertLessEqual(len(LinkFlags._value2member_map_), before + 32)

    def test_numbers_without_a_name_are_not_stored(self):
        for make in (VlanFlags, BondMode):
            before = len(make._value2member_map_)
            for number in range(1000, 1064):
                self.assertEqual(make(number), number)
            self.assertLessEqual(len(make._value2member_map_), before + 32)


def load_tests(loader, tests, pattern):
    tests.addTests(doctest.DocTestSuite(nlroute))
    tests.addTests(doctest.DocTestSuite(nlroute._list))
    return tests


if __name__ == "__main__":
    unittest.main()
