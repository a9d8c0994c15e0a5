"""Requests about links, byte for byte as iproute2 6.1 sends them, and requests that cannot be written."""
import ctypes
import os
import struct
import unittest

from nlroute import *
from nlroute import _library, _records, _request
from nlroute._kinds import Form
from nlroute._tables import TABLES

HERE = os.path.dirname(os.path.abspath(__file__))
B, P = Family.BRIDGE, Family.BRIDGE_PORT


def make(name=None):
    """Returns the request that makes a link, with its name if it comes first."""
    return Request(16, 0x604, 0).named(name) if name else Request(16, 0x604, 0)


def change(index=3):
    return Request.change(index)


def bridge_dump():
    return Request(18, 0x300, 0, address_family=7)


def attribute(kind, *payload):
    """Returns an attribute: nla_len and nla_type, the payload in parts, and padding."""
    payload = b"".join(payload)
    return struct.pack("=HH", 4 + len(payload), kind) + payload + bytes(-len(payload) % 4)


def number(kind, value):
    """Returns an attribute that is a u32."""
    return attribute(kind, struct.pack("=I", value))


def peer(**values):
    """Returns a VETH_INFO_PEER: a struct ifinfomsg of zeros, and attributes of the other link."""
    return bytes(16) + bytes(List(Family.LINK, values))


TIMING = CanBitTiming(500000, 0, 0, 0, 0, 0, 0, 0)
BOTH = CanCtrlMode.LOOPBACK | CanCtrlMode.ONE_SHOT | CanCtrlMode.FD
MULTI = BridgeBoolOpt.NO_LL_LEARN | BridgeBoolOpt.MCAST_VLAN_SNOOPING
GVRP = VlanFlags.GVRP | VlanFlags.LOOSE_BINDING

# The requests of requests.tsv, in its order.
REQUESTS = [
    make("br0").options(B),
    make("br1").options(
        B,
        {
            "IFLA_BR_FORWARD_DELAY": 700,
            "IFLA_BR_HELLO_TIME": 300,
            "IFLA_BR_STP_STATE": 1,
            "IFLA_BR_VLAN_FILTERING": True,
            "IFLA_BR_VLAN_PROTOCOL": "802.1ad",
            "IFLA_BR_MCAST_SNOOPING": False,
            "IFLA_BR_GROUP_ADDR": "01:80:c2:00:00:04",
        },
    ),
    make()
    .mtu(1400)
    .address("02:00:00:00:00:07")
    .named("br2")
    .options(
        B,
        {
            "IFLA_BR_AGEING_TIME": 20000,
            "IFLA_BR_PRIORITY": 4096,
            "IFLA_BR_MULTI_BOOLOPT": Masked(MULTI, MULTI),
        },
    ),
    change(4).options(B, {"IFLA_BR_AGEING_TIME": 500, "IFLA_BR_FDB_FLUSH": None}),
    make("bond0").options(
        Family.BOND,
        {
            "IFLA_BOND_MODE": "802.3ad",
            "IFLA_BOND_MIIMON": 100,
            "IFLA_BOND_AD_LACP_RATE": "fast",
            "IFLA_BOND_XMIT_HASH_POLICY": "layer3+4",
            "IFLA_BOND_AD_SELECT": "bandwidth",
        },
    ),
    make("bond1").options(
        Family.BOND,
        {
            "IFLA_BOND_MODE": "active-backup",
            "IFLA_BOND_ARP_INTERVAL": 200,
            "IFLA_BOND_ARP_IP_TARGET": ["10.0.0.1", "10.0.0.2"],
            "IFLA_BOND_ARP_VALIDATE": "all",
            "IFLA_BOND_NS_IP6_TARGET": ["2001:db8::1"],
            "IFLA_BOND_FAIL_OVER_MAC": "follow",
        },
    ),
    make().link(1).named("v5").options(Family.VLAN, {"IFLA_VLAN_ID": 5}),
    make()
    .link(1)
    .named("v6")
    .options(
        Family.VLAN,
        {
            "IFLA_VLAN_PROTOCOL": "802.1ad",
            "IFLA_VLAN_ID": 6,
            "IFLA_VLAN_INGRESS_QOS": [(1, 2), (3, 4)],
            "IFLA_VLAN_EGRESS_QOS": [(5, 6)],
            "IFLA_VLAN_FLAGS": Masked(GVRP, GVRP),
        },
    ),
    make("can9").options(
        Family.CAN,
        {
            "IFLA_CAN_RESTART_MS": 100,
            "IFLA_CAN_TERMINATION": 120,
            "IFLA_CAN_BITTIMING": TIMING,
            "IFLA_CAN_DATA_BITTIMING": TIMING._replace(bitrate=2000000),
            "IFLA_CAN_CTRLMODE": Masked(BOTH, BOTH),
        },
    ),
    make("hsr0").options(
        Family.HSR,
        {"IFLA_HSR_SLAVE1": 3, "IFLA_HSR_SLAVE2": 2, "IFLA_HSR_MULTICAST_SPEC": 45, "IFLA_HSR_VERSION": 1},
    ),
    make("prp0").options(Family.HSR, {"IFLA_HSR_SLAVE1": 3, "IFLA_HSR_SLAVE2": 2, "IFLA_HSR_PROTOCOL": 1}),
    change().master(4),
    change().master(0),
    change()
    .kind("bridge_slave")
    .options(
        P,
        {
            "IFLA_BRPORT_STATE": 3,
            "IFLA_BRPORT_PRIORITY": 16,
            "IFLA_BRPORT_COST": 44,
            "IFLA_BRPORT_GUARD": True,
            "IFLA_BRPORT_MODE": True,
            "IFLA_BRPORT_MULTICAST_ROUTER": 2,
            "IFLA_BRPORT_ISOLATED": True,
            "IFLA_BRPORT_BACKUP_PORT": 2,
        },
    ),
    change().kind("bond_slave").options(Family.BOND_PORT, {"IFLA_BOND_SLAVE_QUEUE_ID": 3, "IFLA_BOND_SLAVE_PRIO": -1}),
    change().up(False),
    change().up().mtu(9000).address("02:00:00:00:00:01"),
    change().named("vx"),
    change().set("IFLA_IFALIAS", b"upstream"),
    Request.delete(3),
    Request.delete(4).kind("bridge"),
    Request.property(3).set("IFLA_PROP_LIST", {"IFLA_ALT_IFNAME": "another"}),
    Request.bridge(3)
    .options(
        P,
        {
            "IFLA_BRPORT_GUARD": True,
            "IFLA_BRPORT_UNICAST_FLOOD": False,
            "IFLA_BRPORT_MCAST_FLOOD": False,
            "IFLA_BRPORT_LEARNING": False,
            "IFLA_BRPORT_COST": 44,
            "IFLA_BRPORT_PRIORITY": 3,
            "IFLA_BRPORT_STATE": 2,
        },
    )
    .options(Family.AF_SPEC_BRIDGE, {"IFLA_BRIDGE_FLAGS": 2, "IFLA_BRIDGE_MODE": 1}),
    Request.bridge(3).options(Family.AF_SPEC_BRIDGE, {"IFLA_BRIDGE_VLAN_INFO": (10, 6)}),
    Request.bridge(3).options(
        Family.AF_SPEC_BRIDGE, [("IFLA_BRIDGE_VLAN_INFO", (100, 8)), ("IFLA_BRIDGE_VLAN_INFO", (200, 16))]
    ),
    Request.bridge(3).options(
        Family.AF_SPEC_BRIDGE,
        {
            "IFLA_BRIDGE_VLAN_TUNNEL_INFO": {
                "IFLA_BRIDGE_VLAN_TUNNEL_ID": 100,
                "IFLA_BRIDGE_VLAN_TUNNEL_VID": 10,
                "IFLA_BRIDGE_VLAN_TUNNEL_FLAGS": 0,
            }
        },
    ),
    Request.bridge_delete(3).options(
        Family.AF_SPEC_BRIDGE, {"IFLA_BRIDGE_FLAGS": 2, "IFLA_BRIDGE_VLAN_INFO": (10, 0)}
    ),
    Request(18, 0x300, 0, address_family=17).set("IFLA_EXT_MASK", 1),
    Request.get(2).set("IFLA_EXT_MASK", 9),
    bridge_dump(),
    bridge_dump().set("IFLA_EXT_MASK", 2),
    make("vx0").options(
        Family.VXLAN,
        {
            "IFLA_VXLAN_LINK": 3,
            "IFLA_VXLAN_ID": 42,
            "IFLA_VXLAN_GROUP": "10.0.0.1",
            "IFLA_VXLAN_LEARNING": True,
            "IFLA_VXLAN_PORT": 4789,
        },
    ),
    make().link(3).named("mv0").options(Family.MACVLAN, {"IFLA_MACVLAN_MODE": 4}),
    make("vr0").options(Family.VRF, {"IFLA_VRF_TABLE": 10}),
    make("e0").options(Family.VETH, {"VETH_INFO_PEER": bytes(16) + bytes.fromhex("0700030065310000")}),
    make()
    .mtu(1400)
    .named("e0")
    .options(
        Family.VETH,
        {"VETH_INFO_PEER": peer(IFLA_MTU=1300, IFLA_ADDRESS=bytes(Mac("02:00:00:00:00:01")), IFLA_IFNAME="e1")},
    ),
    Request.property(18).set("IFLA_PROP_LIST", {"IFLA_ALT_IFNAME": "enp2s0f0np0"}),
    Request.property(18).set("IFLA_PROP_LIST", [("IFLA_ALT_IFNAME", "second"), ("IFLA_ALT_IFNAME", "third")]),
    Request.property_delete(18).set("IFLA_PROP_LIST", {"IFLA_ALT_IFNAME": "enp2s0f0np0"}),
]

# An IFLA_LINKINFO of a bond with IFLA_BOND_MIIMON 150, which is a bridge port with IFLA_BRPORT_COST 44.
BOTH_INFO = attribute(
    18, attribute(1, b"bond"), attribute(2, number(3, 150)), attribute(4, b"bridge"), attribute(5, number(3, 44))
)
BOND = List(Family.BOND, {"IFLA_BOND_MIIMON": 150})
PORT = List(P, {"IFLA_BRPORT_COST": 44})
LINK_INFO = {"IFLA_INFO_KIND": "bond"}
LINK = List(Family.LINK)


class Requests(unittest.TestCase):
    def test_all_are_those_of_iproute2(self):
        with open(os.path.join(HERE, "../../requests.tsv"), encoding="utf-8") as file:
            rows = [line.rstrip("\n").split("\t") for line in file]
        self.assertEqual(len(rows), len(REQUESTS))
        for (command, hexed), request in zip(rows, REQUESTS):
            request.sequence = 1
            self.assertEqual(bytes(request).hex(), hexed, command)

    def test_a_buffer_that_is_one_byte_too_small(self):
        """The library returns the length that it needs, and leaves the buffer."""
        found = []

        def small(head, records, octets, owners):
            count, at = len(records) // 48, ctypes.c_size_t()
            for room in 0, len(found[-1]) - 1:
                out = ctypes.create_string_buffer(b"\xff" * len(found[-1]), len(found[-1]))
                arguments = head, records, count, octets, len(octets), out, room, ctypes.byref(at)
                self.assertEqual(_library.LIBRARY.nlroute_request(*arguments), Code.NO_ROOM)
                self.assertEqual((at.value, out.raw), (len(found[-1]), b"\xff" * len(found[-1])))
            return b""

        whole = _library.request
        self.addCleanup(setattr, _request._library, "request", whole)
        for request in REQUESTS:
            _request._library.request = whole
            found.append(bytes(request))
            _request._library.request = small
            bytes(request)

    def test_names(self):
        for name in "", "sixteen-bytes-xx", ".", "..", "a b", "a:b", "a/b", "a\0b", "a\u00a0", "a\n":
            with self.assertRaises(WriteError, msg=name) as caught:
                bytes(Request.create(name))
            error = caught.exception
            self.assertEqual((error.name, error.index, error.code), ("IFLA_IFNAME", 0, Code.BAD_NAME))
        for name in "p%d", "-", "fifteen-bytes-x", os.fsdecode(b"\xff"):
            self.assertIn(os.fsencode(name), bytes(Request.create(name)))

    def test_kinds(self):
        for kind in "", "a\0b", "k" * 56:
            with self.assertRaises(WriteError) as caught:
                bytes(Request.create("a").kind(kind))
            error = caught.exception
            self.assertEqual((error.name, error.index, error.code), ("IFLA_INFO_KIND", 1, Code.BAD_NAME))
        self.assertIn(b"k" * 55, bytes(Request.create("a").kind("k" * 55)))
        vtap = Request.create("a").kind("macvtap").options(Family.MACVLAN, {"IFLA_MACVLAN_MODE": 4})
        self.assertIn(b"\x0b\0\x01\0macvtap\0", bytes(vtap))

    def test_heads(self):
        for request in Request.change(0), Request.change(-1), Request.delete(0), Request.bridge(0), Request(16, 4, 1 << 31):
            with self.assertRaises(WriteError) as caught:
                bytes(request)
            error = caught.exception
            self.assertEqual((error.name, error.index, error.code), ("ifi_index", 0, Code.NO_INDEX))
        for kind in 0, 3, 20, 107, 110:
            with self.assertRaises(WriteError) as caught:
                bytes(Request(kind, 4, 1))
            self.assertEqual((caught.exception.name, caught.exception.code), ("nlmsg_type", Code.BAD_TYPE))
        created = Request.create("a")
        created.index = 777
        self.assertEqual(bytes(created)[20:24], b"\x09\x03\0\0")
        with self.assertRaises(WriteError) as caught:
            bytes(Request(1 << 16, 4, 1))
        self.assertEqual((caught.exception.name, caught.exception.code), ("nlmsg_type", Code.BAD_NUMBER))

    def test_values(self):
        """The first value that cannot be written is found in its list."""
        bond = List(Family.BOND, {"IFLA_BOND_MODE": 4, "IFLA_BOND_MIIMON": 1 << 32})
        port = List(Family.BRIDGE_PORT, {"IFLA_BRPORT_COST": 1 << 64})
        rows = [
            (Request.create("a").options(bond), "IFLA_BOND_MIIMON", 1, Code.BAD_NUMBER),
            (Request.change(1).options(port), "IFLA_BRPORT_COST", 0, Code.BAD_NUMBER),
            (Request.change(1).mtu(1 << 32).options(port), "IFLA_MTU", 0, Code.BAD_NUMBER),
            (Request.change(1).mtu(9).named("a b").options(bond), "IFLA_IFNAME", 1, Code.BAD_NAME),
            (Request.change(1).set("IFLA_IFALIAS", "x" * 65531), "IFLA_IFALIAS", 0, Code.TOO_LONG),
            (Request.change(1).options(Family.INET6), "inet6", 0, Code.NO_SET),
            (Request.create("a").kind("zz9").options(bond), "IFLA_INFO_DATA", 1, Code.NO_SET),
        ]
        for request, name, index, code in rows:
            with self.assertRaises(WriteError) as caught:
                bytes(request)
            error = caught.exception
            self.assertEqual((error.name, error.index, error.code), (name, index, code))
        with self.assertRaises(KeyError):
            Request.create("a").set("IFLA_BR_FORWARD_DELAY", 1)
        with self.assertRaises(TypeError):
            bytes(Request.change("eth0"))

    def test_lengths(self):
        """An attribute has at most 65,531 bytes. Of a nested list, whose length is a multiple of four, it is 65,528."""

        def properties(size):
            return {"IFLA_ALT_IFNAME": bytes(size)}

        self.assertEqual(len(bytes(change().set("IFLA_IFALIAS", b"x" * 65531))), 32 + 65536)
        self.assertEqual(len(bytes(change().set("IFLA_PROP_LIST", properties(65524)))), 32 + 4 + 65528)
        for request, name, code in (
            (change().set("IFLA_IFALIAS", b"x" * 65532), "IFLA_IFALIAS", Code.TOO_LONG),
            (change().set("IFLA_PROP_LIST", properties(65525)), "IFLA_PROP_LIST", Code.TOO_LONG),
            (change().set("IFLA_PROP_LIST", properties(65525)).named(""), "IFLA_PROP_LIST", Code.TOO_LONG),
            (change().set("IFLA_PROP_LIST", properties(65532)).named(""), "IFLA_ALT_IFNAME", Code.TOO_LONG),
        ):
            with self.assertRaises(WriteError) as caught:
                bytes(request)
            self.assertEqual((caught.exception.name, caught.exception.index, caught.exception.code), (name, 0, code))

    def test_a_message_that_is_too_large(self):
        """It would have more than 2^32 - 1 bytes: 65,600 values that refer to the same bytes."""
        head, count, at = Request.change(1)._head(), 65600, ctypes.c_size_t()
        value = _records.VALUE.pack(20, 0, 0, Form.TEXT, 0, 0, 65531, 0, 0, b"")
        arguments = head, value * count, count, bytes(65531), 65531, ctypes.create_string_buffer(1), 1, ctypes.byref(at)
        self.assertEqual((_library.LIBRARY.nlroute_request(*arguments), at.value), (Code.TOO_LONG, count))

    def test_written(self):
        """What is repeated, or empty, is written."""
        self.assertEqual(bytes(change())[32:], b"")
        self.assertEqual(bytes(change().set("IFLA_PROP_LIST", {}))[32:].hex(), "04003480")
        self.assertEqual(bytes(change().mtu(1).mtu(2))[32:].hex(), "08000400010000000800040002000000")
        vlan = List(Family.VLAN, {"IFLA_VLAN_ID": 5})
        self.assertEqual(len(bytes(change().options(vlan).options(vlan))), 32 + 16 + 2 * 8)

    def test_every_attribute_of_the_message(self):
        """Numbers, lists, structs, texts and bytes: each can be set, and a message with all of them can be sent again."""
        contents = {Form.EMPTY: None, Form.BOOL: True, Form.TEXT: b"x\0", Form.BYTES: b"\1", Form.HELD: b"", Form.LIST: []}
        request = change()
        for row in TABLES[Family.LINK].by_kind.values():
            content = bytes(32) if row.name == "IFLA_MAP" else contents.get(row.form, 1)
            single = change().set(row.name, content)
            (it,) = messages(bytes(single))
            self.assertEqual(it.attributes.keys(), [row.name])
            self.assertEqual(bytes(change().options(it.attributes)), bytes(single))
            request.set(row.name, content)
        request.set("IFLA_MAP", bytes(range(32))).set("IFLA_STATS64", [1, 2]).set("type 999", Unknown(b"\1\2", 0x8000))
        request.set("IFLA_PROP_LIST", [("IFLA_ALT_IFNAME", "second"), ("IFLA_ALT_IFNAME", "third")])
        (it,) = messages(bytes(request))
        self.assertEqual(len(it.attributes), len(TABLES[Family.LINK].by_kind) + 4)
        self.assertEqual(it.payload, bytes(it.attributes))
        self.assertEqual(bytes(change().options(it.attributes)), bytes(request))
        again = change()
        for name, value in it.attributes:
            again.set(name, value)
        self.assertEqual(bytes(again), bytes(request))

    def test_a_message_is_sent_again(self):
        """Attributes that were read are written with their bytes, also the lists in them."""
        spec = attribute(26, attribute(10, attribute(8, b"\1")))
        for attributes in (
            attribute(3, b"b0\0") + number(4, 1500) + BOTH_INFO + spec,
            attribute(18, attribute(1, b"veth\0"), attribute(2, attribute(1, bytes(16), number(4, 1300)))),
            attribute(52 | 0x8000, attribute(53, b"enp2s0f0np0\0")) + attribute(14, bytes(32)) + attribute(23, bytes(96)),
        ):
            (it,) = messages(bytes(change())[:32].replace(b"\x20", bytes([32 + len(attributes)]), 1) + attributes)
            self.assertEqual(bytes(change().options(it.attributes))[32:], attributes)
            self.assertEqual(bytes(change().up().options(it.attributes).mtu(9))[32:], number(4, 9) + attributes)
        attributes = attribute(12 | 0x8000, number(3, 44)) + attribute(26, attribute(2, b"\0\0\x0a\0"))
        request = Request.bridge(3).options(List.read(Family.LINK, attributes))
        self.assertEqual(bytes(request)[32:], attributes)


class OneOfEach(unittest.TestCase):
    """A message has one IFLA_LINKINFO, one IFLA_AF_SPEC and one IFLA_PROTINFO."""

    def refused(self, request, name, index, code):
        with self.assertRaises(WriteError, msg=name) as caught:
            bytes(request)
        error = caught.exception
        self.assertEqual((error.name, error.index, error.code), (name, index, code))

    def test_device_and_port(self):
        """Their data are beside each other, that of the device first."""
        for request in (
            change().options(BOND).options(PORT),
            change().options(PORT).options(BOND),
            change().options(BOND).options(PORT).kind("bond"),
            change().options(PORT).options(BOND).options(P).options(Family.BOND),
            change().options(LINK).options(BOND).options(PORT),
        ):
            self.assertEqual(bytes(request)[32:], BOTH_INFO)
        self.assertEqual(str(next(messages(bytes(change().options(BOND).options(PORT)))).held(P)), "IFLA_BRPORT_COST 44")

        port = attribute(4, b"bridge"), attribute(5, number(3, 44))
        rows = [
            # a kind of a device without data
            (change().kind("dummy").options(PORT), (attribute(1, b"dummy"), *port)),
            (change().kind("bridge").options(PORT), (attribute(1, b"bridge"), *port)),
            (change().options(Family.BOND).options(PORT), (attribute(1, b"bond"), *port)),
            # another kind with the same set
            (
                change().kind("macvtap").options(PORT).options(Family.MACVLAN, {"IFLA_MACVLAN_MODE": 4}),
                (attribute(1, b"macvtap"), attribute(2, number(1, 4)), *port),
            ),
            # a kind that announces the set of port data
            (change().kind("bridge_slave").options(PORT), (attribute(1, b"bridge_slave"), port[1])),
            # a port without data
            (change().options(P), (attribute(4, b"bridge"),)),
            (change().options(BOND).options(P), (attribute(1, b"bond"), attribute(2, number(3, 150)), attribute(4, b"bridge"))),
            (change().kind("bridge_slave").options(P), (attribute(1, b"bridge_slave"),)),
            (change().kind("dummy").options(P), (attribute(1, b"dummy"),)),
            # a kind that has no set, and options without values
            (change().kind("dummy").options(Family.BOND), (attribute(1, b"dummy"),)),
            (change().kind("dummy").options(Family.BOND).options(PORT), (attribute(1, b"dummy"), *port)),
        ]
        for request, parts in rows:
            self.assertEqual(bytes(request)[32:], attribute(18, *parts))

    def test_joined(self):
        """Lists of one set become one list, in order, at the place of the first."""
        igmp, priority = List(Family.BOND, {"IFLA_BOND_RESEND_IGMP": 2}), List(P, {"IFLA_BRPORT_PRIORITY": 3})
        device = attribute(2, number(3, 150), number(15, 2), number(3, 150))
        port = attribute(5, number(3, 44), attribute(2, b"\3\0"))
        ports = number(3, 44) + attribute(2, b"\3\0")
        vlans = attribute(2, b"\6\0\x0a\0"), attribute(2, b"\0\0\x14\0")
        first, second = ((Family.AF_SPEC_BRIDGE, {"IFLA_BRIDGE_VLAN_INFO": it}) for it in ((10, 6), (20, 0)))
        mtu = List(Family.LINK, {"IFLA_MTU": 9})
        info = attribute(18, attribute(1, b"bond"), attribute(2, number(3, 150), number(15, 2)))
        inet, inet6 = {"AF_INET": b""}, {"AF_INET6": attribute(8, b"\1")}
        rows = [
            (change().options(BOND).options(igmp).options(BOND), attribute(18, attribute(1, b"bond"), device)),
            (change().options(PORT).options(priority), attribute(18, attribute(4, b"bridge"), port)),
            (change().kind("bridge_slave").options(PORT).options(priority), attribute(18, attribute(1, b"bridge_slave"), port)),
            (
                change().options(BOND).options(PORT).options(igmp).options(priority).options(BOND),
                attribute(18, attribute(1, b"bond"), device, attribute(4, b"bridge"), port),
            ),
            (change().options(Family.BOND).options(BOND), attribute(18, attribute(1, b"bond"), attribute(2, number(3, 150)))),
            (
                change().options(Family.AF_SPEC, inet).options(Family.AF_SPEC, inet6),
                attribute(26, attribute(2), attribute(10, attribute(8, b"\1"))),
            ),
            (
                Request.bridge(3).options(*first).options(PORT).options(*second).options(priority),
                attribute(26, *vlans) + attribute(12 | 0x8000, ports),
            ),
            # other attributes stay where they are; a list without values has no place
            (
                change().options(Family.AF_SPEC).options(BOND).options(mtu).options(Family.AF_SPEC, inet).options(igmp).mtu(8),
                number(4, 8) + info + number(4, 9) + attribute(26, attribute(2)),
            ),
        ]
        for request, attributes in rows:
            self.assertEqual(bytes(request)[32:].hex(" ", 4), attributes.hex(" ", 4))

    def test_other_sets(self):
        """Options of two devices, or of two ports, are no list. The name is that of the list that would have both."""
        vlan, port = List(Family.VLAN, {"IFLA_VLAN_ID": 5}), List(Family.BOND_PORT, {"IFLA_BOND_SLAVE_PRIO": 1})
        data, port_data = "IFLA_INFO_DATA", "IFLA_INFO_SLAVE_DATA"
        rows = [
            (change().options(BOND).options(vlan), data, 0),
            (change().options(vlan).mtu(9).options(BOND), data, 1),
            (change().options(BOND).options(Family.VLAN), data, 0),
            (change().options(Family.BOND).options(Family.VLAN), data, 0),
            (change().options(BOND).options(PORT).options(vlan), data, 0),
            (change().options(PORT).options(port), port_data, 0),
            (change().options(port).options(BOND).options(P), port_data, 0),
            (change().mtu(9).kind("bridge_slave").options(PORT).options(port), port_data, 1),
            (Request.bridge(3).options(PORT).options(BOND).options(vlan), "bond", 0),
        ]
        for request, name, index in rows:
            self.refused(request, name, index, Code.NO_SET)

    def test_kind_and_options(self):
        """The set of options is the one that reads data of the kind."""
        geneve, macvlan = List(Family.GENEVE, {"IFLA_GENEVE_ID": 5}), List(Family.MACVLAN, {"IFLA_MACVLAN_MODE": 4})
        port = List(Family.BOND_PORT, {"IFLA_BOND_SLAVE_PRIO": 1})
        data, port_data = "IFLA_INFO_DATA", "IFLA_INFO_SLAVE_DATA"
        rows = [
            (change().kind("vxlan").options(geneve), data),
            (change().options(geneve).kind("vxlan"), data),
            (change().kind("vxlan").options(Family.GENEVE), data),
            (change().kind("dummy").options(BOND), data),
            (change().kind("dummy").options(Family.BOND).options(BOND), data),
            (change().kind("dummy").options(Family.BOND).options(Family.VLAN), data),
            (change().kind("bond_port").options(BOND), data),
            (change().kind("macvtap").options(macvlan).options(BOND), data),
            (change().kind("bridge_slave").options(BOND).options(PORT), data),
            (change().kind("bond_slave").options(PORT), port_data),
            (change().kind("bond_slave").options(P), port_data),
            (change().kind("bridge_slave").options(port), port_data),
        ]
        for request, name in rows:
            self.refused(request, name, 0, Code.NO_SET)
        for kind, options in (
            ("geneve", geneve),
            ("macvlan", macvlan),
            ("macvtap", macvlan),
            ("bond\0", BOND),
            ("vxcan", List(Family.VETH, {"VETH_INFO_PEER": bytes(16)})),
        ):
            info = attribute(18, attribute(1, kind.encode()), attribute(2, bytes(options)))
            self.assertEqual(bytes(change().kind(kind).options(options))[32:], info)

    def test_set_beside_options(self):
        """What would be the second of these attributes is refused, with its index in the message."""
        spec = List(Family.AF_SPEC, {"AF_INET": b""})
        vlans = List(Family.AF_SPEC_BRIDGE, {"IFLA_BRIDGE_VLAN_INFO": (10, 0)})
        info, protinfo = List(Family.LINK, {"IFLA_LINKINFO": LINK_INFO}), List(Family.LINK, {"type 12": Unknown(b"", 0x8000)})
        rows = [
            (change().set("IFLA_LINKINFO", LINK_INFO).options(BOND), "IFLA_LINKINFO", 1),
            (change().options(BOND).set("IFLA_LINKINFO", LINK_INFO), "IFLA_LINKINFO", 1),
            (change().mtu(9).set("IFLA_LINKINFO", {}).options(PORT), "IFLA_LINKINFO", 2),
            (change().set("IFLA_LINKINFO", LINK_INFO).kind("bond"), "IFLA_LINKINFO", 1),
            (change().set("IFLA_LINKINFO", LINK_INFO).set("IFLA_LINKINFO", LINK_INFO), "IFLA_LINKINFO", 1),
            (change().options(BOND).options(info), "IFLA_LINKINFO", 1),
            (change().options(info).kind("dummy"), "IFLA_LINKINFO", 1),
            (change().options(info).options(info), "IFLA_LINKINFO", 1),
            (change().set("IFLA_AF_SPEC", b"").options(spec), "IFLA_AF_SPEC", 1),
            (change().options(spec).options(Family.LINK, {"IFLA_MTU": 9, "IFLA_AF_SPEC": b""}), "IFLA_AF_SPEC", 2),
            (Request.bridge(3).set("IFLA_AF_SPEC", b"").options(vlans), "IFLA_AF_SPEC", 1),
            (Request.bridge(3).set("type 12", Unknown(b"", 0x8000)).options(PORT), "IFLA_PROTINFO", 1),
            (Request.bridge(3).options(PORT).options(protinfo), "type 12", 1),
            (change().options(protinfo).options(protinfo), "type 12", 1),
        ]
        for request, name, index in rows:
            self.refused(request, name, index, Code.REPEATED)
        # options without values need no attribute
        self.assertEqual(bytes(change().set("IFLA_AF_SPEC", b"").options(Family.AF_SPEC))[32:], attribute(26))
        self.assertEqual(bytes(Request.bridge(3).options(protinfo).options(P))[32:], attribute(12 | 0x8000))
        # and other attributes may repeat
        self.assertEqual(len(bytes(change().options(Family.LINK, {"IFLA_MTU": 1}).mtu(2))), 32 + 16)

    def test_first_error(self):
        """The first value that cannot be written is found, with its index in the list that was passed, or in the message."""
        high, higher = ({"IFLA_BOND_MODE": 4, "IFLA_BOND_UPDELAY": 1 << bits} for bits in (32, 64))
        long, updelay = {"type 999": Unknown(bytes(40000), 0)}, ("IFLA_BOND_UPDELAY", 1, Code.BAD_NUMBER)
        vlan = List(Family.VLAN, {"IFLA_VLAN_ID": 5})
        rows = [
            (change().options(BOND).options(Family.BOND, high), *updelay),
            (change().options(BOND).options(Family.BOND, higher), *updelay),
            (change().options(Family.BOND, higher).options(Family.BOND, high), *updelay),
            (change().mtu(9).options(Family.LINK, {"IFLA_MTU": 1 << 32}), "IFLA_MTU", 1, Code.BAD_NUMBER),
            (change().mtu(9).options(Family.LINK, {"IFLA_MTU": 1 << 64}), "IFLA_MTU", 1, Code.BAD_NUMBER),
            (change().named("a b").mtu(1 << 64), "IFLA_IFNAME", 0, Code.BAD_NAME),
            (change().options(P, {"IFLA_BRPORT_COST": 1 << 32}).options(BOND), "IFLA_BRPORT_COST", 0, Code.BAD_NUMBER),
            (change().options(BOND).options(Family.BOND, [("IFLA_BOND_MODE", 256)]), "IFLA_BOND_MODE", 0, Code.BAD_NUMBER),
            # the two lists are too long together
            (change().mtu(9).options(Family.BOND, long).options(Family.BOND, long), "IFLA_INFO_DATA", 1, Code.TOO_LONG),
            (Request.bridge(3).options(P, long).options(P, long), "IFLA_PROTINFO", 0, Code.TOO_LONG),
            # what is before a contradiction
            (Request.delete(0).kind("vxlan").options(BOND), "ifi_index", 0, Code.NO_INDEX),
            (Request.create("a b").kind("vxlan").options(BOND), "IFLA_IFNAME", 0, Code.BAD_NAME),
            (change().kind("").options(BOND), "IFLA_INFO_KIND", 0, Code.BAD_NAME),
            (change().options(Family.BOND, high).options(PORT).options(Family.VRF_PORT), *updelay),
            # and after it
            (change().options(Family.BOND, high).options(vlan), "IFLA_INFO_DATA", 0, Code.NO_SET),
            (change().set("IFLA_LINKINFO", {}).kind("vxlan").options(BOND), "IFLA_LINKINFO", 1, Code.REPEATED),
            (change().options(BOND).options(Family.INET6), "inet6", 0, Code.NO_SET),
            (Request.bridge(3).options(BOND), "bond", 0, Code.NO_SET),
            (Request.bridge(3).options(P).options(Family.BOND_PORT, {"IFLA_BOND_SLAVE_PRIO": 1}), "bond_port", 0, Code.NO_SET),
        ]
        for row in rows:
            self.refused(*row)

    def test_options_are_whole_lists(self):
        with self.assertRaises(TypeError):
            change().options(List.within(Family.BOND, "IFLA_BOND_AD_INFO", {"IFLA_BOND_AD_INFO_NUM_PORTS": 1}))
        with self.assertRaises(TypeError):
            change().options(BOND, {"IFLA_BOND_MIIMON": 2})

    def test_options_are_those_that_were_passed(self):
        bond = List(Family.BOND, {"IFLA_BOND_MIIMON": 1})
        request = change().options(bond)
        before = bytes(request)
        bond["IFLA_BOND_MIIMON"] = 2
        self.assertEqual(bytes(request), before)

    def test_repr(self):
        rows = [
            (change().master(7).up(), "RTM_NEWLINK flags=ACK index=3 link_flags=UP link_change=UP <LINK IFLA_MASTER=7>"),
            (Request.create("d0").kind("dummy"), "RTM_NEWLINK flags=ACK|EXCL|CREATE index=0 kind='dummy' <LINK IFLA_IFNAME='d0'>"),
            (Request.bridge(3), "RTM_SETLINK flags=ACK index=3 address_family=AF_BRIDGE"),
            (change().options(BOND), f"RTM_NEWLINK flags=ACK index=3 {BOND!r}"),
            (change().options(Family.VRF), "RTM_NEWLINK flags=ACK index=3 <VRF>"),
            (Request("x", None, "3"), "x flags=None index=3"),  # (checked when it is written)
        ]
        for request, words in rows:
            self.assertEqual(repr(request), f"<Request {words}>")


if __name__ == "__main__":
    unittest.main()
