#!/usr/bin/env python3
"""Does what run.py says with the Python package."""
import socket
import struct
import sys

from nlroute import IFLA_ALT_IFNAME, IFLA_EXT_MASK, IFLA_IFNAME, IFLA_PROP_LIST, Error, Family, List, Request, messages

AF_BRIDGE, NLM_F_MULTI, NLMSG_ERROR, NLMSG_DONE, RTEXT_FILTER_BRVLAN = 7, 2, 2, 3, 2
REQUESTS = ("create", "change", "property", "property_delete", "bridge", "bridge_delete")


class Netlink:
    def __init__(self):
        self.socket = socket.socket(socket.AF_NETLINK, socket.SOCK_RAW, socket.NETLINK_ROUTE)
        self.sequence = 0

    def ask(self, request):
        """Sends a request, prints why it is refused, and returns the links of the reply."""
        self.sequence += 1
        request.sequence = self.sequence
        try:
            self.socket.send(bytes(request))
        except (Error, TypeError, ValueError) as error:
            print("refused 0", error)
            return []
        links = []
        while True:
            for message in messages(self.socket.recv(1 << 17)):
                links += [message] if message.type not in (NLMSG_ERROR, NLMSG_DONE) else []
                (error,) = struct.unpack_from("=i", message.payload) if message.type == NLMSG_ERROR else (0,)
                if error:
                    print("refused", -error)
                if message.type in (NLMSG_ERROR, NLMSG_DONE) or not message.flags & NLM_F_MULTI:
                    return links

    def read(self, index, in_bridge):
        """Prints a link and its lists."""
        request = Request.dump().set(IFLA_EXT_MASK, RTEXT_FILTER_BRVLAN) if in_bridge else Request.get(index)
        request.address_family = AF_BRIDGE if in_bridge else 0
        for link in (it for it in self.ask(request) if it.index == index):
            print("index", index)
            for family, items in link.lists():
                print(f"list {family}", items, sep="\n")


def value(key, text):
    """Returns the value of an attribute."""
    if str(text).startswith("["):
        return [value(key, text[1:-1])]
    if key in ("VETH_INFO_PEER", "IFLA_NETKIT_PEER_INFO"):
        return {IFLA_IFNAME: text}
    if "/" in str(text):
        return tuple(int(it) for it in text.split("/"))
    try:
        return int(text)
    except ValueError:
        return {"on": True, "off": False}.get(text, text)


def main():
    netlink, request, options = Netlink(), None, None
    for line in sys.stdin:
        word, _, text = line.rstrip("\n").partition(" ")
        if text.startswith("@"):
            text = {name: index for index, name in socket.if_nameindex()}.get(text[1:], 0)
        if options is not None and not word.isupper():
            request.options(options)
            options = None
        if word in REQUESTS:
            request = getattr(Request, word)(text)
        elif word in ("up", "kind", "link", "master"):
            getattr(request, word)(*[] if word == "up" else [text])
        elif word == "alternative":
            request.set(IFLA_PROP_LIST, {IFLA_ALT_IFNAME: text})
        elif word == "options":
            options = List(Family[text.upper()])
        elif word == "send":
            netlink.ask(request)
        elif word in ("read", "bridge_read"):
            netlink.read(text, word != "read")
            print("end", flush=True)
        else:
            options.append(word, value(word, text))


if __name__ == "__main__":
    main()
