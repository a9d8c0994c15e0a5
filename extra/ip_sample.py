"""The devices of a network namespace, as the kernel sends them and as iproute2 prints them, for compare_ip.py."""
import json
import socket
import struct
import subprocess

# From linux/netlink.h, linux/rtnetlink.h, linux/if_link.h and linux/socket.h.
NLMSG_ERROR, NLMSG_DONE, RTM_GETLINK = 2, 3, 18
NLM_F_REQUEST, NLM_F_DUMP, IFLA_EXT_MASK = 0x1, 0x300, 29
RTEXT_FILTER_VF, RTEXT_FILTER_BRVLAN, RTEXT_FILTER_BRVLAN_COMPRESSED = 1, 2, 4
AF_UNSPEC, AF_BRIDGE = 0, 7


def dump(family, mask):
    """The buffers in which the kernel sends all links."""
    attribute = struct.pack("=HHI", 8, IFLA_EXT_MASK, mask)
    body = struct.pack("=BBHiII", family, 0, 0, 0, 0, 0) + (attribute if mask else b"")
    with socket.socket(socket.AF_NETLINK, socket.SOCK_RAW, socket.NETLINK_ROUTE) as wire:
        wire.settimeout(10)
        wire.bind((0, 0))
        wire.send(struct.pack("=IHHII", 16 + len(body), RTM_GETLINK, NLM_F_REQUEST | NLM_F_DUMP, 1, 0) + body)
        buffers = [wire.recv(1 << 16)]
        while not ends(buffers[-1]):
            buffers.append(wire.recv(1 << 16))
        return buffers


def ends(buffer):
    """Whether a buffer has the last message of a dump."""
    at = 0
    while at + 16 <= len(buffer):
        length, kind = struct.unpack_from("=IH", buffer, at)
        if kind in (NLMSG_ERROR, NLMSG_DONE):
            return True
        at += max(16, (length + 3) & ~3)
    return False


def said_by(words):
    """What a command of iproute2 prints in JSON, by the names of the devices."""
    ran = subprocess.run(words.split(), capture_output=True, text=True, check=True)
    return {it["ifname"]: it for it in json.loads(ran.stdout or "[]")}


class Sample:
    """Four dumps, each next to the JSON of the command that asks for the same dump."""

    def __init__(self):
        self.links = dump(AF_UNSPEC, RTEXT_FILTER_VF)
        self.link = said_by("ip -s -s -d -j link show")
        self.ports = dump(AF_BRIDGE, 0)
        self.port = said_by("bridge -d -j link show")
        self.vlans = dump(AF_BRIDGE, RTEXT_FILTER_BRVLAN)
        self.vlan = said_by("bridge -j vlan show")
        self.tunnel = said_by("bridge -j vlan tunnelshow")
        self.ranges = dump(AF_BRIDGE, RTEXT_FILTER_BRVLAN_COMPRESSED)
        self.range = said_by("bridge -c -j vlan show")
        self.indexes = {name: it["ifindex"] for name, it in self.link.items()}
        # for each bridge the roots that its ports have
        self.roots = {}
        for name, it in self.link.items():
            if root := self.info(name).get("info_slave_data", {}).get("root_id"):
                self.roots.setdefault(it["master"], []).append(root)

    def info(self, name):
        """The `linkinfo` of a device."""
        return self.link.get(name, {}).get("linkinfo", {})

    def of_bridges(self):
        """The bridges and their ports."""
        infos = {name: self.info(name) for name in self.link}
        return {name for name, it in infos.items() if "bridge" in (it.get("info_kind"), it.get("info_slave_kind"))}
