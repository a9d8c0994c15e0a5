"""What `nlshow` has to print for a capture, worked out apart from its code, from docs/programs.md and the formats.

`read(data, is_raw)` returns a Reading. Of a message it has the type, the length, the sequence number and the port, but
neither its flags nor the lines below it: `comparable` leaves these out of what `nlshow` printed.
"""
import datetime
import functools
import re
import struct
from typing import NamedTuple

MOST, MOST_INTERFACES, NETLINK, SECOND = 1048576, 256, 253, 10**9
# The last time that is printed.
LAST_TIME = 253402207200 * SECOND + SECOND - 1
PCAP = {"d4c3b2a1": ("<", 6), "a1b2c3d4": (">", 6), "4d3cb2a1": ("<", 9), "a1b23c4d": (">", 9)}
# How files in other formats begin, and what is said of them.
COMPRESSED = {"gzip": ("1f8b", "zcat"), "xz": ("fd377a585a00", "xzcat"), "zstd": ("28b52ffd", "zstdcat"), "lz4": ("04224d18", "lz4cat")}
OTHERS = {bytes.fromhex(it): f"{name} data: decompress it first, as in {cat} FILE | nlshow" for name, (it, cat) in COMPRESSED.items()}
OTHERS |= {b"BZh%d" % it: "bzip2 data: decompress it first, as in bzcat FILE | nlshow" for it in range(1, 10)}
OTHERS |= {bytes.fromhex(it): "modified pcap file: convert it first, as in editcap -F pcapng FILE - | nlshow" for it in ("34cdb2a1", "a1b2cd34")}
OTHERS |= {b"snoop\0\0\0": "snoop file: convert it first, as in editcap -F pcapng FILE - | nlshow"}
# What is said of messages, one after another, and the lengths and types of the first.
MESSAGES, LENGTHS, KINDS = "raw netlink messages: read them with --raw, as in nlshow --raw FILE", range(16, 65537), {1, 2, 3, 4, *range(15, 124)}
SECTION, INTERFACE, PACKET = 0x0A0D0D0A, 1, 6
LEAST = {SECTION: ("section", 28), INTERFACE: ("interface", 20), PACKET: ("packet", 32)}
ORDERS = {"4d3c2b1a": "<", "1a2b3c4d": ">"}
DONE, TIME = 3, 15
TYPES = {1: "NLMSG_NOOP", 2: "NLMSG_ERROR", DONE: "NLMSG_DONE", 4: "NLMSG_OVERRUN"}
TYPES |= {16: "RTM_NEWLINK", 17: "RTM_DELLINK", 18: "RTM_GETLINK", 19: "RTM_SETLINK"}
PROTOCOLS = """ROUTE UNUSED USERSOCK FIREWALL SOCK_DIAG NFLOG XFRM SELINUX ISCSI AUDIT FIB_LOOKUP CONNECTOR NETFILTER IP6_FW
DNRTMSG KOBJECT_UEVENT GENERIC - SCSITRANSPORT ECRYPTFS RDMA CRYPTO SMC""".split()
# The errors that end an input, each by a name.
ERRORS = {
    "pcap header": "{bytes}, too few for a pcap header",
    "pcap version": "pcap version {}.{}, expected 2.4",
    "link type": "link type {}, expected 253",
    "record header": "{bytes} left, too few for a record header",
    "record above": "record length {} is above 1048576",
    "record exceeds": "record length {} exceeds the {bytes} left",
    "block header": "{bytes} left, too few for a block",
    "magic": "no byte-order magic",
    "block below": "block length {} is below 12",
    "block multiple": "block length {} is not a multiple of 4",
    "block above": "block length {} is above 1048576",
    "block exceeds": "block length {} exceeds the {bytes} left",
    "block differs": "block lengths {} and {} differ",
    "simple packet": "block type 3 is not read",
    "obsolete packet": "block type 2 is not read",
    "section below": "section block length {} is below 28",
    "interface below": "interface block length {} is below 20",
    "packet below": "packet block length {} is below 32",
    "pcapng version": "pcapng version {}.{}, expected 1.0",
    "interfaces": "more than 256 interfaces",
    "option": "option {} has {bytes}, but {} are left",
    "tsresol length": "if_tsresol has {bytes}, expected 1",
    "tsresol": "if_tsresol {} is above 9",
    "tsoffset length": "if_tsoffset has {bytes}, expected 8",
    "interface": "interface {} is not described",
    "captured": "captured length {} exceeds the {bytes} left",
    "message header": "{bytes} left, too few for a message header",
    "message below": "nlmsg_len {} is below 16",
    "message above": "nlmsg_len {} is above 1048576",
    "message exceeds": "nlmsg_len {} exceeds the {bytes} left",
}


class Reading(NamedTuple):
    """What is read of an input: the form, the offsets of the units, the lines, and the name of the error that ends it."""

    form: str
    starts: list
    lines: list
    error: str


class Wrong(Exception):
    """An error that ends an input: its name, its numbers, and the number of bytes that it names."""

    def __init__(self, name, *numbers, size=0):
        super().__init__(name)
        self.name, self.text = name, ERRORS[name].format(*numbers, bytes=count_of(size, "byte"))


def count_of(number, noun):
    return f"{number} {noun}{'s' * (number != 1)}"


def time_of(nanoseconds, digits):
    """A time since 1970 as it is printed."""
    if not 0 <= nanoseconds <= LAST_TIME:
        return "time out of range"
    seconds, rest = divmod(nanoseconds, SECOND)
    text = (datetime.datetime(1970, 1, 1) + datetime.timedelta(seconds=seconds)).isoformat()
    return f"time {text}{f'.{rest:09}'[: digits + 1] if digits else ''}Z"


def message_line(head):
    length, kind, _, sequence, port = head
    return f"{TYPES.get(kind, f'type {kind}')} len {length} seq {sequence} pid {port}"


def lines_of_messages(data):
    """The lines of the messages of a packet."""
    at, size = 0, len(data)
    while at < size:
        left = size - at
        if at and not any(data[at:]):
            yield f"{count_of(left, 'zero byte')} at {at}"
            return
        head = struct.unpack_from("<IHHII", data, at) if left >= 16 else None
        if not head:
            yield f"error at {at}: {count_of(left, 'byte')} left, too few for a message header"
            return
        if head[0] < 16:
            yield f"error at {at}: nlmsg_len {head[0]} is below 16"
            return
        if head[0] > left:
            yield f"error at {at}: nlmsg_len {head[0]} exceeds the {count_of(left, 'byte')} left"
            return
        yield message_line(head)
        if head[1] == DONE:
            return
        at += (head[0] + 3) // 4 * 4


def lines_of_packet(number, time, original, link_type, data):
    line = f"packet {number} {time} len {len(data)}"
    line += f" of {original}" if original != len(data) else ""
    if link_type != NETLINK:
        yield f"{line} link type {link_type}"
    elif len(data) < 16:
        yield line
        yield f"  error at 0: {count_of(len(data), 'byte')}, too few for a cooked header"
    elif protocol := int.from_bytes(data[14:16], "big"):
        name = PROTOCOLS[protocol] if protocol < len(PROTOCOLS) else "-"
        yield f"{line} protocol " + (f"{protocol}" if name == "-" else f"NETLINK_{name} ({protocol})")
    else:
        yield line
        yield from lines_of_messages(data[16:])


def read_pcap(data, starts, lines):
    order, digits = PCAP[data[:4].hex()]
    starts.append(0)
    if len(data) < 24:
        raise Wrong("pcap header", size=len(data))
    major, minor, link_type = struct.unpack_from(order + "4xHH12xI", data)
    if (major, minor) != (2, 4):
        raise Wrong("pcap version", major, minor)
    link_type %= 2**26  # (above are the bits about the FCS)
    if link_type != NETLINK:
        raise Wrong("link type", link_type)
    at, number = 24, 0
    while at < len(data):
        left, number = len(data) - at, number + 1
        starts.append(at)
        if left < 16:
            raise Wrong("record header", size=left)
        seconds, rest, captured, original = struct.unpack_from(order + "4I", data, at)
        if captured + 16 > MOST:
            raise Wrong("record above", captured + 16)
        if captured + 16 > left:
            raise Wrong("record exceeds", captured + 16, size=left)
        time = time_of(seconds * SECOND + rest * 10 ** (9 - digits), digits)
        lines += lines_of_packet(number, time, original, link_type, data[at + 16 : at + 16 + captured])
        at += 16 + captured


def interface_of(order, block):
    """The link type, the digits of the times, and the seconds to add."""
    options, found = block[16:-4], {}
    while options:
        code, length = struct.unpack_from(order + "HH", options)
        if not code:
            break
        if length > len(options) - 4:
            raise Wrong("option", code, len(options) - 4, size=length)
        found.setdefault(code, options[4 : 4 + length])
        options = options[4 + (length + 3) // 4 * 4 :]
    resolution, offset = found.get(9, b"\6"), found.get(14, bytes(8))
    if len(resolution) != 1:
        raise Wrong("tsresol length", size=len(resolution))
    if resolution[0] > 9:
        raise Wrong("tsresol", resolution[0])
    if len(offset) != 8:
        raise Wrong("tsoffset length", size=len(offset))
    return struct.unpack_from(order + "H", block, 8)[0], resolution[0], struct.unpack(order + "q", offset)[0]


def read_pcapng(data, starts, lines):
    order, interfaces, at, number = "<", [], 0, 0
    while at < len(data):
        left = len(data) - at
        starts.append(at)
        if left < 12:
            raise Wrong("block header", size=left)
        (kind,) = struct.unpack_from(order + "I", data, at)
        if kind == SECTION:
            order, interfaces = ORDERS.get(data[at + 8 : at + 12].hex()), []
            if not order:
                raise Wrong("magic")
        (length,) = struct.unpack_from(order + "I", data, at + 4)
        if length < 12:
            raise Wrong("block below", length)
        if length % 4:
            raise Wrong("block multiple", length)
        if length > MOST:
            raise Wrong("block above", length)
        if length > left:
            raise Wrong("block exceeds", length, size=left)
        block = data[at : at + length]
        (again,) = struct.unpack_from(order + "I", block, length - 4)
        if again != length:
            raise Wrong("block differs", length, again)
        if kind in (2, 3):
            raise Wrong("simple packet" if kind == 3 else "obsolete packet")
        name, least = LEAST.get(kind, ("", 0))
        if length < least:
            raise Wrong(f"{name} below", length)
        if kind == SECTION:
            version = struct.unpack_from(order + "HH", block, 12)
            if version not in ((1, 0), (1, 2)):
                raise Wrong("pcapng version", *version)
        elif kind == INTERFACE:
            if len(interfaces) == MOST_INTERFACES:
                raise Wrong("interfaces")
            interfaces.append(interface_of(order, block))
        elif kind == PACKET:
            which, high, low, captured, original = struct.unpack_from(order + "5I", block, 8)
            if which >= len(interfaces):
                raise Wrong("interface", which)
            if captured > length - 32:
                raise Wrong("captured", captured, size=length - 32)
            number += 1
            link_type, digits, offset = interfaces[which]
            time = time_of((high << 32 | low) * 10 ** (9 - digits) + offset * SECOND, digits)
            lines += lines_of_packet(number, time, original, link_type, block[28 : 28 + captured])
        at += length


def read_raw(data, starts, lines):
    at = 0
    while at < len(data):
        left = len(data) - at
        starts.append(at)
        if left < 16:
            raise Wrong("message header", size=left)
        head = struct.unpack_from("<IHHII", data, at)
        if head[0] < 16:
            raise Wrong("message below", head[0])
        if head[0] > MOST:
            raise Wrong("message above", head[0])
        if head[0] > left:
            raise Wrong("message exceeds", head[0], size=left)
        if (head[0], head[1]) == (24, TIME):
            seconds, rest = struct.unpack_from("<II", data, at + 16)
            lines.append(time_of(seconds * SECOND + rest * 1000, 6))
        else:
            lines.append(message_line(head))
        at += (head[0] + 3) // 4 * 4


FORMS = {"pcap": read_pcap, "pcapng": read_pcapng, "raw": read_raw}


def others_of(data):
    """What is said of an input in another format, in a list, or an empty one."""
    length, kind = struct.unpack_from("<IH", data.ljust(6, b"\0"))
    found = [text for magic, text in OTHERS.items() if data.startswith(magic)]
    return found or [MESSAGES] * (len(data) >= 6 and length in LENGTHS and kind in KINDS)


def form_of(data, is_raw=False):
    """The form of an input: one of FORMS, other, or lines."""
    first = data[:4].hex()
    form = "pcap" if first in PCAP else "pcapng" if first == "0a0d0d0a" else "other" if others_of(data) else "lines"
    return "raw" if is_raw else form


@functools.lru_cache(2000)
def read(data, is_raw=False):
    """The Reading of an input. That of lines has no lines."""
    starts, lines, error, form = [], [], "", form_of(data, is_raw)
    if form == "other":
        lines = others_of(data)
    if form in FORMS:
        try:
            FORMS[form](data, starts, lines)
        except Wrong as wrong:
            error = wrong.name
            lines.append(f"input error at {starts[-1]}: {wrong.text}")
    return Reading(form, starts, lines, error)


# What a line of a message has besides the numbers, and the lines below a packet that are compared.
FLAGS = re.compile(r"(\S+|type \d+)( len \d+) flags \S+( seq \d+ pid \d+)")
OF_PACKET = re.compile(r"  error at 0: \d+ bytes?, too few for a cooked header")


def comparable(printed):
    """The lines of the output of `nlshow` that a Reading has, as it has them."""
    for line in printed:
        if not line.startswith(" ") or OF_PACKET.fullmatch(line):
            found = FLAGS.fullmatch(line)
            yield "".join(found.groups()) if found else line
