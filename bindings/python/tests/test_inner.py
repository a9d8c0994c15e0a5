"""Lists of other sets that are written from values: dicts and lists in place of their bytes. Expected bytes are worked out from
the kernel's headers (rtnetlink.h, if_link.h, veth.h), or are those of iproute2 6.1."""
import os
import struct
import unittest

from nlroute import *

REQUESTS = os.path.join(os.path.dirname(os.path.realpath(__file__)), "../../requests.tsv")
NAME = {"IFLA_IFNAME": "e1"}


def attribute(kind, *payload):
    """Returns an attribute: nla_len and nla_type, the payload in parts, and padding."""
    payload = b"".join(payload)
    return struct.pack("=HH", 4 + len(payload), kind) + payload + bytes(-len(payload) % 4)


def sent(command):
    """Returns the bytes of the request of a command of iproute2."""
    with open(REQUESTS, encoding="utf-8") as file:
        return bytes.fromhex(dict(line.rstrip("\n").split("\t") for line in file)[command])


# IFLA_BOND_MODE (1): 802.3ad; IFLA_LINKINFO (18) with IFLA_INFO_KIND (1) and IFLA_INFO_DATA (2)
MODE = attribute(1, b"\4")
INFO = attribute(18, attribute(1, b"bond\0"), attribute(2, MODE))
BOND = {"IFLA_BOND_MODE": "802.3ad"}


def info(data, kind="bond"):
    return List(Family.LINK, {"IFLA_LINKINFO": {"IFLA_INFO_KIND": kind, "IFLA_INFO_DATA": data}})


class Inner(unittest.TestCase):
    def test_a_list_in_a_nested_list(self):
        for data in (BOND, List(Family.BOND, BOND), [("IFLA_BOND_MODE", 4)], MODE):
            self.assertEqual(bytes(info(data)), INFO)
        self.assertEqual(info(BOND).to_dict(), {"IFLA_LINKINFO": {"IFLA_INFO_KIND": "bond", "IFLA_INFO_DATA": BOND}})
        self.assertEqual(bytes(info({}))[-8:], attribute(1, b"bond\0")[-4:] + attribute(2))
        # IFLA_INFO_SLAVE_KIND (4) tells the set of IFLA_INFO_SLAVE_DATA (5): IFLA_BRPORT_COST (3)
        port = {"IFLA_INFO_SLAVE_KIND": "bridge", "IFLA_INFO_SLAVE_DATA": {"IFLA_BRPORT_COST": 44}}
        expected = attribute(18, attribute(4, b"bridge\0"), attribute(5, attribute(3, struct.pack("=I", 44))))
        self.assertEqual(bytes(List(Family.LINK, {"IFLA_LINKINFO": port})), expected)
        self.assertEqual(bytes(List(Family.LINK, {"IFLA_LINKINFO": List.within(Family.LINK, "IFLA_LINKINFO", port)})), expected)

    def test_lists_in_a_list(self):
        # IFLA_AF_SPEC (26): AF_INET6 (10): IFLA_INET6_ADDR_GEN_MODE (8): none
        expected = attribute(10, attribute(8, b"\1"))
        spec = {"AF_INET6": {"IFLA_INET6_ADDR_GEN_MODE": "none"}}
        self.assertEqual(bytes(List(Family.AF_SPEC, spec)), expected)
        self.assertEqual(bytes(List(Family.LINK, {"IFLA_AF_SPEC": spec})), attribute(26, expected))
        self.assertEqual(bytes(Request.change(3).set("IFLA_AF_SPEC", spec))[32:], attribute(26, expected))
        # of AF_BRIDGE: IFLA_BRIDGE_VLAN_INFO (2)
        request = Request.bridge(3).set("IFLA_AF_SPEC", {"IFLA_BRIDGE_VLAN_INFO": VlanInfo(10)})
        self.assertEqual(bytes(request)[32:], attribute(26, attribute(2, struct.pack("=HH", 0, 10))))

    def test_a_protinfo(self):
        # IFLA_PROTINFO (12) with NLA_F_NESTED, in a message of AF_BRIDGE: IFLA_BRPORT_COST (3)
        port = {"IFLA_BRPORT_COST": 44}
        expected = attribute(12 | 0x8000, attribute(3, struct.pack("=I", 44)))
        for value in (port, List(Family.BRIDGE_PORT, port), [("IFLA_BRPORT_COST", 44)]):
            made = bytes(Request.bridge(3).set("type 12", value))
            self.assertEqual(made[32:], expected)
        (message,) = messages(made)
        self.assertEqual(message.to_dict()["attributes"], {"type 12": port})
        # in other messages, no set reads it
        for values in (Request.change(3).set("type 12", port), List(Family.LINK, {"type 12": port}), List(Family.BOND, {"type 99": {}})):
            with self.assertRaises(WriteError) as caught:
                bytes(values)
            self.assertEqual(caught.exception.code, Code.NO_SET)

    def test_requests(self):
        request = Request(16, 0x604, 0).set("IFLA_IFNAME", "bond0").set("IFLA_LINKINFO", {"IFLA_INFO_KIND": "bond", "IFLA_INFO_DATA": BOND})
        self.assertEqual(bytes(request)[44:], INFO)

    def test_peers(self):
        command = "ip link add e0 type veth peer name e1"
        for value in (NAME, List(Family.LINK, NAME), {"attributes": NAME}, bytes(16) + attribute(3, b"e1\0")):
            made = Request.create("e0").options(Family.VETH, {"VETH_INFO_PEER": value})
            self.assertEqual(bytes(made)[32:], sent(command)[32:])
        command = "ip link add e0 mtu 1400 type veth peer name e1 mtu 1300 address 02:00:00:00:00:01"
        value = {"IFLA_MTU": 1300, "IFLA_ADDRESS": Mac("02:00:00:00:00:01"), "IFLA_IFNAME": "e1"}
        made = Request(16, 0x604, 0).mtu(1400).named("e0").options(Family.VETH, {VETH_INFO_PEER: value})
        self.assertEqual(bytes(made)[32:], sent(command)[32:])
        # IFLA_NETKIT_PEER_INFO (1), with ifi_index
        value = {"index": 5, "attributes": NAME}
        expected = attribute(1, struct.pack("=BxHiII", 0, 0, 5, 0, 0), attribute(3, b"e1\0"))
        self.assertEqual(bytes(List(Family.NETKIT, {"IFLA_NETKIT_PEER_INFO": value})), expected)
        found = List(Family.VETH, {"VETH_INFO_PEER": value}).to_dict()
        self.assertEqual(List(Family.VETH, found).to_dict(), found)

    def test_structs(self):
        # struct ifla_vxlan_port_range and struct vxlanhdr are big-endian; struct rtnl_link_ifmap and ifla_cacheinfo are not
        ports = {"low": 32768, "high": 61000}
        rows = [
            (Family.VXLAN, "IFLA_VXLAN_PORT_RANGE", ports, struct.pack(">HH", 32768, 61000)),
            (Family.GENEVE, "IFLA_GENEVE_PORT_RANGE", ports, struct.pack(">HH", 32768, 61000)),
            (Family.VXLAN, "IFLA_VXLAN_RESERVED_BITS", {"vx_flags": 1 << 24, "vx_vni": 255}, struct.pack(">II", 1 << 24, 255)),
            (Family.LINK, "IFLA_MAP", {"base_addr": 1 << 40, "irq": 5, "port": 7}, struct.pack("=QQQHBB4x", 0, 0, 1 << 40, 5, 0, 7)),
            (Family.INET6, "IFLA_INET6_CACHEINFO", {"tstamp": 9}, struct.pack("=4I", 0, 9, 0, 0)),
            (Family.VXLAN, "IFLA_VXLAN_PORT_RANGE", {}, bytes(4)),
        ]
        for family, name, fields, expected in rows:
            items = List(family, {name: fields})
            self.assertEqual(bytes(items)[4:], expected)
            self.assertEqual(List(family, {name: items.fields(name)}).to_dict(), List(family, {name: expected}).to_dict())
            self.assertEqual(items.to_dict()[name] | fields, items.to_dict()[name])
        bad = lambda fields: bytes(List(Family.VXLAN, {"IFLA_VXLAN_PORT_RANGE": fields}))
        with self.assertRaises(WriteError) as caught:
            bad({"low": 1 << 16})
        self.assertEqual((caught.exception.name, caught.exception.code), ("IFLA_VXLAN_PORT_RANGE", Code.BAD_NUMBER))
        self.assertRaisesRegex(KeyError, "IFLA_VXLAN_PORT_RANGE has no middle", bad, {"low": 1, "middle": 2})
        self.assertRaises(TypeError, bad, {"low": "1"})
        # bytes that are no struct
        self.assertRaises(TypeError, bytes, List(Family.LINK, {"IFLA_ADDRESS": {"low": 1}}))

    def test_what_cannot_be_written(self):
        rows = [
            (info(BOND, "zz99"), "IFLA_INFO_DATA", Code.NO_SET),
            (info(List(Family.VLAN)), "IFLA_INFO_DATA", Code.NO_SET),
            (info({"IFLA_BOND_MIIMON": 1 << 32}), "IFLA_BOND_MIIMON", Code.BAD_NUMBER),
            (List(Family.LINK, {"IFLA_AF_SPEC": List(Family.BOND)}), "IFLA_AF_SPEC", Code.NO_SET),
            (List(Family.VETH, {"VETH_INFO_PEER": {"IFLA_MTU": -1}}), "IFLA_MTU", Code.BAD_NUMBER),
            (List(Family.VETH, {"VETH_INFO_PEER": {"index": 1 << 31, "attributes": {}}}), "VETH_INFO_PEER", Code.BAD_NUMBER),
        ]
        for values, name, code in rows:
            before = List(values.family, [("type 99", b"")])
            before.extend(values)
            with self.assertRaises(WriteError) as caught:
                bytes(before)
            self.assertEqual((caught.exception.name, caught.exception.index, caught.exception.code), (name, 1, code))
        peer = lambda value: List(Family.VETH, {"VETH_INFO_PEER": value})
        for values in (info({"IFLA_VLAN_ID": 1}), peer({"IFLA_VLAN_ID": 1}), peer({"mtu": 1, "attributes": {}})):
            self.assertRaises(KeyError, bytes, values)
        for values in (info(5), info("text"), peer("text"), peer([1]), info((("IFLA_BOND_MODE", 4),))):
            self.assertRaises(TypeError, bytes, values)


if __name__ == "__main__":
    unittest.main()
