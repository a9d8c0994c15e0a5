#!/usr/bin/env python3
"""Prints the attributes of the machine's links: of bonds, bridges, VLANs and so on, and of their ports.

Any user may run it.
"""
import socket
import struct
from collections.abc import Iterable, Iterator

from nlroute import IFLA_IFNAME, Family, Fault, Message, MessageType, Request, Text, messages

# The sets of lists that every link has.
ADDRESS_FAMILIES = {Family.AF_SPEC, Family.INET, Family.INET6, Family.MCTP}


def buffers() -> Iterator[bytes]:
    """Yields what the kernel sends: one or several messages at a time."""
    with socket.socket(socket.AF_NETLINK, socket.SOCK_RAW, socket.NETLINK_ROUTE) as netlink:
        netlink.send(bytes(Request.dump()))
        while True:
            yield netlink.recv(1 << 16)


def links(buffers: Iterable[bytes]) -> Iterator[Message]:
    """Yields the messages about links, up to the end of a dump."""
    for data in buffers:
        for message in messages(data):
            if message.type == MessageType.NLMSG_ERROR:
                raise OSError(-struct.unpack_from("=i", message.payload)[0], "RTM_GETLINK")
            if message.type == MessageType.NLMSG_DONE:
                return
            if message.type == MessageType.RTM_NEWLINK:
                yield message


def print_link(link: Message) -> None:
    """Prints the name of a link, and the lists that its attributes hold."""
    print(f"{link.index}: {link.attributes.get(IFLA_IFNAME, Text('?'))}")
    for family, items in link.lists():
        if family not in ADDRESS_FAMILIES | {Family.LINK}:
            print(f"  {family}")
            for line in str(items).splitlines():
                print(f"    {line}")


def main() -> None:
    for link in links(buffers()):
        try:
            print_link(link)
        except Fault as fault:
            print(f"    {fault}")


if __name__ == "__main__":
    main()
