"""Messages. Expected values are worked out from the kernel's headers (linux/netlink.h, rtnetlink.h, if_link.h)."""
import copy
import json
import pickle
import struct
import unittest

from nlroute import *


def attribute(kind, payload):
    """Returns an attribute: nla_len and nla_type, the payload, and padding."""
    data = struct.pack("=HH", 4 + len(payload), kind) + payload
    return data + b"\0" * (-len(data) % 4)


def message(kind, payload, flags=2):
    """Returns a message with the sequence number 5 from port 7."""
    return struct.pack("=IHHII", 16 + len(payload), kind, flags, 5, 7) + payload


def link(attributes, kind=16, address_family=0):
    """Returns a message about the link 9, of ARPHRD_ETHER, which is up."""
    return message(kind, struct.pack("=BxHiII", address_family, 1, 9, 1, 1) + attributes)


# IFLA_BOND_MODE (1): 802.3ad; IFLA_BOND_SLAVE_STATE (1): backup; IFLA_BR_FORWARD_DELAY (1): 1500
MODE = attribute(1, b"\4")
# IFLA_LINKINFO (18): IFLA_INFO_KIND (1), IFLA_INFO_DATA (2), IFLA_INFO_SLAVE_KIND (4), IFLA_INFO_SLAVE_DATA (5)
INFO = attribute(18, attribute(1, b"bond\0") + attribute(2, MODE) + attribute(4, b"bridge") + attribute(5, attribute(1, b"\3")))
# IFLA_AF_SPEC (26): AF_INET6 (10): IFLA_INET6_ADDR_GEN_MODE (8): none
SPEC = attribute(26, attribute(10, attribute(8, b"\1")))
LINK = link(attribute(3, b"b0\0") + INFO + SPEC)
DONE = message(3, struct.pack("=i", 0))


class Messages(unittest.TestCase):
    def test_fields(self):
        first, second = messages(LINK + DONE)
        self.assertEqual((first.at, first.type, first.flags, first.sequence, first.port), (0, 16, 2, 5, 7))
        self.assertEqual((first.is_link, first.index, first.link_flags, first.change), (True, 9, 1, 1))
        self.assertEqual((first.link_type, first.address_family, first.payload), (1, 0, LINK[32:]))
        self.assertEqual((first.type, first.flags), (MessageType.RTM_NEWLINK, MessageFlags.MULTI))
        self.assertEqual((str(first.type), str(first.flags), str(first.link_flags)), ("RTM_NEWLINK", "MULTI", "UP"))
        self.assertEqual((first.link_flags, first.change), (LinkFlags.UP, LinkFlags.UP))
        self.assertIs(first.address_family, AddressFamily.UNSPEC)
        self.assertEqual(repr(first), f"<Message type=RTM_NEWLINK index=9 {len(LINK) - 32} bytes>")
        self.assertEqual((second.at, second.type, second.is_link, second.payload), (len(LINK), 3, False, bytes(4)))
        self.assertEqual((len(second.attributes), list(second.lists()), second.held(Family.BOND)), (0, [], None))

    def test_no_messages(self):
        self.assertEqual(list(messages(b"")), [])
        self.assertEqual([it.index for it in messages(bytearray(LINK))], [9])
        with self.assertRaises(TypeError):
            next(messages("text"))

    def test_lists(self):
        (it,) = messages(LINK)
        families = [Family.LINK, Family.BOND, Family.BRIDGE_PORT, Family.AF_SPEC, Family.INET6]
        self.assertEqual([family for family, _ in it.lists()], families)
        self.assertEqual([items.family for _, items in it.lists()], families)
        bond = dict(it.lists())[Family.BOND]
        self.assertEqual(bond[IFLA_BOND_MODE], BondMode.IEEE8023AD)
        self.assertEqual(str(it.attributes[IFLA_IFNAME]), "b0")

    def test_print_bonds(self):
        printed = []
        for it in messages(LINK + DONE):
            if bond := it.held(Family.BOND):
                printed.append(str(bond))
        self.assertEqual(printed, ["IFLA_BOND_MODE 802.3ad (4)"])

    def test_held(self):
        (it,) = messages(LINK)
        self.assertEqual(it.held(Family.BRIDGE_PORT)[IFLA_BRPORT_STATE], BridgePortState.FORWARDING)
        self.assertEqual(str(it.held(Family.INET6)), "IFLA_INET6_ADDR_GEN_MODE none (1)")
        self.assertIsNone(it.held(Family.BRIDGE))
        # the last counts, and an attribute that is malformed does not
        other = attribute(18, attribute(1, b"bond") + attribute(2, attribute(1, b"\1")))
        (it,) = messages(link(INFO + attribute(4, b"\1") + other))
        self.assertEqual(it.held(Family.BOND)[IFLA_BOND_MODE], BondMode.ACTIVE_BACKUP)
        self.assertRaises(Fault, lambda: it.attributes)

    def test_malformed_list(self):
        (it,) = messages(link(attribute(18, attribute(1, b"bond") + attribute(2, attribute(3, b"\1")))))
        with self.assertRaises(Fault) as caught:
            it.held(Family.BOND)
        # two headers of 16 bytes, that of IFLA_LINKINFO, 8 bytes of IFLA_INFO_KIND, and the header of IFLA_INFO_DATA
        self.assertEqual(str(caught.exception), "error at 48: IFLA_BOND_MIIMON has 1 byte, expected 4")
        self.assertEqual((caught.exception.at, caught.exception.list_at, caught.exception.family), (0, 48, Family.BOND))
        found = []
        with self.assertRaises(Fault):
            for family, _ in it.lists():
                found.append(family)
        self.assertEqual(found, [Family.LINK])
        data = it.to_dict()["attributes"]["IFLA_LINKINFO"]["IFLA_INFO_DATA"]
        words = "error at 48: IFLA_BOND_MIIMON has 1 byte, expected 4"
        self.assertEqual(data, {"error": words, "hex": "0500030001000000"})

    def test_offsets_of_errors(self):
        # after a message: a bond whose IFLA_BOND_MODE has 4 bytes, a list whose first header is malformed, and attributes
        # of the message that are
        info = lambda data: attribute(18, attribute(1, b"bond") + attribute(2, data))
        rows = [
            (info(MODE + attribute(1, bytes(4))), Family.BOND, 8, 48, "IFLA_BOND_MODE has 4 bytes, expected 1"),
            (info(b"\3\0\1\0"), Family.BOND, 0, 48, "nla_len 3 is below 4"),
            (attribute(3, b"b0\0") + attribute(4, b"\1"), Family.LINK, 8, 32, "IFLA_MTU has 1 byte, expected 4"),
        ]
        for data, family, at, start, words in rows:
            _, it = messages(LINK + link(data))
            expected = f"error at {len(LINK) + start + at}: {words}", at, len(LINK) + start, family
            calls = [lambda: list(it.lists()), lambda: it.attributes if family == Family.LINK else it.held(family)]
            for call in calls:
                with self.assertRaises(Fault) as caught:
                    call()
                for fault in caught.exception, copy.copy(caught.exception), pickle.loads(pickle.dumps(caught.exception)):
                    self.assertEqual((str(fault), fault.at, fault.list_at, fault.family), expected)
        with self.assertRaises(Fault) as caught:
            read(Family.BOND, b"\3\0\1\0")
        self.assertEqual((caught.exception.list_at, caught.exception.family), (0, Family.BOND))

    def test_bridge(self):
        # of AF_BRIDGE: IFLA_AF_SPEC is another list; IFLA_PROTINFO (12) is one with NLA_F_NESTED
        spec = attribute(26, attribute(2, struct.pack("=HH", 6, 10)))
        (it,) = messages(link(attribute(12 | 0x8000, attribute(1, b"\3")) + spec, address_family=7))
        families = [family for family, _ in it.lists()]
        self.assertEqual(families, [Family.LINK, Family.BRIDGE_PORT, Family.AF_SPEC_BRIDGE])
        found = it.to_dict()
        self.assertEqual(found["address_family"], 7)
        self.assertEqual(found["attributes"]["type 12"], {"IFLA_BRPORT_STATE": "forwarding"})
        (it,) = messages(link(attribute(12, attribute(1, b"\3")), address_family=7))
        self.assertEqual([family for family, _ in it.lists()], [Family.LINK])

    def test_properties(self):
        # IFLA_PROP_LIST (52) with NLA_F_NESTED: two IFLA_ALT_IFNAME (53)
        names = attribute(52 | 0x8000, attribute(53, b"second\0") + attribute(53, b"third\0"))
        for kind in 108, 109, 110:
            (it,) = messages(link(names, kind))
            self.assertEqual((it.type, it.is_link, it.index, it.link_flags, it.payload), (kind, True, 9, 1, names))
            ((family, items),) = it.lists()
            self.assertEqual((family, items), (Family.LINK, it.attributes))
            self.assertEqual([str(name) for _, name in items[IFLA_PROP_LIST]], ["second", "third"])
            found = it.to_dict()
            self.assertEqual((found["index"], found["attributes"]), (9, {"IFLA_PROP_LIST": {"IFLA_ALT_IFNAME": ["second", "third"]}}))
            again = Request(kind, 0, 9).options(items)
            if kind != 110:
                self.assertEqual(bytes(again)[32:], names)
        self.assertEqual([it.is_link for kind in (107, 111) for it in messages(link(names, kind))], [False, False])

    def test_peer(self):
        # the data of a veth: VETH_INFO_PEER (1) has a struct ifinfomsg of AF_BRIDGE, IFLA_IFNAME (3) and IFLA_AF_SPEC (26)
        header = struct.pack("=BxHiII", 7, 0, 5, 0, 0)
        peer = header + attribute(3, b"v1\0") + attribute(26, attribute(2, struct.pack("=HH", 6, 10)))
        (it,) = messages(link(attribute(18, attribute(1, b"veth") + attribute(2, attribute(1, peer)))))
        families = [Family.LINK, Family.VETH, Family.LINK, Family.AF_SPEC_BRIDGE]
        self.assertEqual([family for family, _ in it.lists()], families)
        self.assertEqual(str(it.held(Family.LINK)[IFLA_IFNAME]), "v1")
        found = it.to_dict()["attributes"]["IFLA_LINKINFO"]["IFLA_INFO_DATA"]["VETH_INFO_PEER"]
        self.assertEqual((found["address_family"], found["index"], found["link_flags"]), (7, 5, 0))
        self.assertEqual(found["attributes"]["IFLA_IFNAME"], "v1")
        self.assertEqual(list(found["attributes"]["IFLA_AF_SPEC"]), ["IFLA_BRIDGE_VLAN_INFO"])
        # an IFLA_MTU (4) of a byte, after 48 bytes as above, the header of VETH_INFO_PEER, and that of the peer
        (it,) = messages(link(attribute(18, attribute(1, b"veth") + attribute(2, attribute(1, header + attribute(4, b"\1"))))))
        with self.assertRaises(Fault) as caught:
            list(it.lists())
        words = "error at 68: IFLA_MTU has 1 byte, expected 4"
        self.assertEqual((str(caught.exception), caught.exception.list_at), (words, 68))
        found = it.to_dict()["attributes"]["IFLA_LINKINFO"]["IFLA_INFO_DATA"]["VETH_INFO_PEER"]
        self.assertEqual((found["index"], found["attributes"]), (5, {"error": words, "hex": "0500040001000000"}))

    def test_to_dict(self):
        (it,) = messages(LINK)
        info = {
            "IFLA_INFO_KIND": "bond",
            "IFLA_INFO_DATA": {"IFLA_BOND_MODE": "802.3ad"},
            "IFLA_INFO_SLAVE_KIND": "bridge",
            "IFLA_INFO_SLAVE_DATA": {"IFLA_BRPORT_STATE": "forwarding"},
        }
        expected = {
            "type": 16,
            "flags": 2,
            "sequence": 5,
            "port": 7,
            "address_family": 0,
            "link_type": 1,
            "index": 9,
            "link_flags": 1,
            "change": 1,
            "attributes": {
                "IFLA_IFNAME": "b0",
                "IFLA_LINKINFO": info,
                "IFLA_AF_SPEC": {"AF_INET6": {"IFLA_INET6_ADDR_GEN_MODE": "none"}},
            },
        }
        self.assertEqual(it.to_dict(), expected)
        json.dumps(it.to_dict())
        fields = {name: type(field) for name, field in it.to_dict().items()}
        self.assertEqual(set(fields.values()), {int, dict})  # (numbers, as before they had names)
        (done,) = messages(DONE)
        self.assertEqual(done.to_dict(), {"type": 3, "flags": 2, "sequence": 5, "port": 7})

    def test_faults(self):
        rows = [
            (LINK[:15], 0, Cause.SHORT_FRAME, (15, 0), "error at 0: 15 bytes left, too few for a message header"),
            (LINK + bytes(16), len(LINK), Cause.SMALL_LENGTH, (0, 0), f"error at {len(LINK)}: nlmsg_len 0 is below 16"),
            (DONE[:19], 0, Cause.OVERRUN, (20, 19), "error at 0: nlmsg_len 20 exceeds the 19 bytes left"),
            (message(16, bytes(8)), 0, Cause.TOO_SHORT, (32, 24), "error at 0: 24 bytes, too few for a link message"),
            (message(110, b"\0"), 0, Cause.TOO_SHORT, (32, 17), "error at 0: 17 bytes, too few for a link message"),
        ]
        for data, at, cause, numbers, words in rows:
            with self.assertRaises(MessageFault) as caught:
                list(messages(data))
            fault = caught.exception
            self.assertEqual((str(fault), fault.at, fault.cause, fault.numbers), (words, at, cause, numbers))
            self.assertIsInstance(fault, Error)
            for it in copy.copy(fault), pickle.loads(pickle.dumps(fault)):
                self.assertEqual((str(it), it.at, it.cause, it.numbers), (words, at, cause, numbers))


if __name__ == "__main__":
    unittest.main()
