"""The lines that `nlshow` prints of captures of netlink: pcap and pcapng files, and streams of messages."""
from __future__ import annotations

import struct
from collections.abc import Callable, Iterator
from datetime import datetime, timedelta
from typing import NamedTuple

from ._show_message import padded, show_messages

MOST = 1_048_576  # bytes of a record, a block or a message
MOST_INTERFACES = 256  # of a section
NETLINK = 253  # LINKTYPE_NETLINK
LINK_TYPE = (1 << 26) - 1  # The other bits of the field are about the frame check sequence
COOKED = 16  # bytes of the header of a packet of netlink
# The names in `linux/netlink.h`, without NETLINK_
PROTOCOL_NAMES = (
    "ROUTE UNUSED USERSOCK FIREWALL SOCK_DIAG NFLOG XFRM SELINUX ISCSI AUDIT FIB_LOOKUP CONNECTOR NETFILTER IP6_FW DNRTMSG "
    "KOBJECT_UEVENT GENERIC - SCSITRANSPORT ECRYPTFS RDMA CRYPTO SMC"
).split()
PROTOCOLS = {number: f"NETLINK_{name}" for number, name in enumerate(PROTOCOL_NAMES) if name != "-"}
# The first bytes of pcap files: the byte order, and how many digits of a second times have
PCAP = {
    b"\xd4\xc3\xb2\xa1": ("<", 6),
    b"\xa1\xb2\xc3\xd4": (">", 6),
    b"\x4d\x3c\xb2\xa1": ("<", 9),
    b"\xa1\xb2\x3c\x4d": (">", 9),
}
# The type of a section header, with which a pcapng file begins, and its byte-order magic
SECTION = b"\n\r\r\n"
ORDERS = {b"\x4d\x3c\x2b\x1a": "<", b"\x1a\x2b\x3c\x4d": ">"}
INTERFACE, OBSOLETE_PACKET, SIMPLE_PACKET, PACKET = 1, 2, 3, 6  # types of other blocks
RESOLUTION, OFFSET = 9, 14  # the options if_tsresol and if_tsoffset
TIMESTAMP = 15  # the type of the message that `rtmon` writes before others: when it received them
EPOCH = datetime(1970, 1, 1)
LAST_SECOND = 253_402_207_200  # 9999-12-30T22:00:00Z


def compressed(name: str, program: str) -> str:
    return f"{name} data: decompress it first, as in {program} FILE | nlshow"


def other(name: str) -> str:
    return f"{name} file: convert it first, as in editcap -F pcapng FILE - | nlshow"


# The first bytes of files that are not read, and the line that says what they are
OTHER_FORMATS = {
    b"\x1f\x8b": compressed("gzip", "zcat"),
    b"\xfd7zXZ\0": compressed("xz", "xzcat"),
    b"\x28\xb5\x2f\xfd": compressed("zstd", "zstdcat"),
    **{b"BZh%d" % level: compressed("bzip2", "bzcat") for level in range(1, 10)},
    b"\x04\x22\x4d\x18": compressed("lz4", "lz4cat"),
    b"\x34\xcd\xb2\xa1": other("modified pcap"),
    b"\xa1\xb2\xcd\x34": other("modified pcap"),
    b"snoop\0\0\0": other("snoop"),
}
MAGICS = (*PCAP, SECTION, *OTHER_FORMATS)
# The line that says that an input is messages, one after another
RAW_MESSAGES = "raw netlink messages: read them with --raw, as in nlshow --raw FILE"
MESSAGE_LENGTHS = range(16, 65_537)  # of the first one
MESSAGE_TYPES = (*range(1, 5), *range(TIMESTAMP, 124))  # NLMSG_NOOP to NLMSG_OVERRUN, TIMESTAMP, RTM_BASE to RTM_MAX


class InputFault(Exception):
    """Why the rest of an input is not read."""


class Packet(NamedTuple):
    """A captured packet."""

    nanosecond: int  # since 1970, UTC
    digits: int  # of a second that the file keeps
    original: int  # the length that it had, in bytes
    link_type: int
    data: bytes


class Interface(NamedTuple):
    """An interface of a section: the link type of its packets, and how their times are counted."""

    link_type: int
    digits: int
    offset: int  # seconds


class Source:
    """The bytes of an input. `read` returns some more of them, or none at the end."""

    def __init__(self, read: Callable[[], bytes]) -> None:
        self.read = read
        self.held = bytearray()
        self.at = 0  # the offset of those that are held
        self.has_ended = False

    def fill(self, count: int) -> int:
        """Reads until so many bytes are held, or to the end. Returns how many are held."""
        while len(self.held) < count and not self.has_ended:
            piece = self.read()
            self.has_ended = not piece
            self.held += piece
        return len(self.held)

    def take(self, count: int) -> bytes:
        """Removes so many bytes, or all that are held, and returns them."""
        taken = bytes(self.held[:count])
        del self.held[:count]
        self.at += len(taken)
        return taken

    def line(self, most: int) -> bytes:
        """Takes the bytes up to the next LF, or to the end, but no more than `most`."""
        end = self.held.find(b"\n", 0, most)
        while end < 0 and len(self.held) < most and not self.has_ended:
            searched = len(self.held)
            self.fill(searched + 1)
            end = self.held.find(b"\n", searched, most)
        return self.take(end + 1 if end >= 0 else most)

    def magic(self) -> bytes | None:
        """Returns the first bytes, if they are those of a file that is not lines. Takes nothing."""
        while not self.has_ended and any(len(self.held) < len(it) and it.startswith(self.held) for it in MAGICS):
            self.fill(len(self.held) + 1)
        return next((it for it in MAGICS if self.held.startswith(it)), None)

    def is_messages(self) -> bool:
        """Returns whether the first bytes are those of messages, one after another. Takes nothing."""
        while not self.has_ended and may_begin_messages(self.held):
            self.fill(len(self.held) + 1)
        front = bytes(self.held[:6])
        if len(front) < 6:
            return False
        length, kind = struct.unpack("<IH", front)
        return length in MESSAGE_LENGTHS and kind in MESSAGE_TYPES

    def begins(self, least: int, few: str) -> bool:
        """Returns whether a unit follows: false at the end. Each has at least so many bytes."""
        left = self.fill(least)
        if 0 < left < least:
            raise InputFault(f"{bytes_text(left)}{few}")
        return left > 0

    def unit(self, length: int, name: str, padding: int = 0) -> bytes:
        """Returns a unit of this length, without the padding, which may be missing at the end. Takes nothing."""
        if length > MOST:
            raise InputFault(f"{name} {length} is above {MOST}")
        left = self.fill(length + padding)
        if left < length:
            raise InputFault(f"{name} {length} exceeds the {bytes_text(left)} left")
        return bytes(self.held[:length])


def may_begin_messages(front: bytes | bytearray) -> bool:
    """Returns whether bytes are too few for the length and the type of a message, and may begin them."""
    low = int.from_bytes(front[:4], "little")
    may_be_length = low in MESSAGE_LENGTHS or low + 256 ** len(front) < MESSAGE_LENGTHS.stop
    return len(front) < 6 and may_be_length and (len(front) < 5 or front[4] in MESSAGE_TYPES)


def bytes_text(count: int) -> str:
    return "1 byte" if count == 1 else f"{count} bytes"


def show_capture(source: Source, magic: bytes) -> Iterator[str]:
    """Yields the lines of a pcap or pcapng file, up to its end or to an error that ends it."""
    packets = pcap_packets(source, *PCAP[magic]) if magic in PCAP else pcapng_packets(source)
    try:
        for number, packet in enumerate(packets, 1):
            yield packet_line(number, packet)
            yield from lines_below(packet)
    except InputFault as fault:
        yield f"input error at {source.at}: {fault}"


def show_stream_of_messages(source: Source) -> Iterator[str]:
    """Yields the lines of messages, one after another, and of the times that `rtmon` writes before them."""
    try:
        while source.begins(16, " left, too few for a message header"):
            length, kind = struct.unpack_from("<IH", source.held)
            if length < 16:
                raise InputFault(f"nlmsg_len {length} is below 16")
            message = source.unit(length, "nlmsg_len", padded(length) - length)
            if kind == TIMESTAMP and length == 24:
                seconds, parts = struct.unpack_from("<II", message, 16)
                yield f"time {time_text(nanoseconds(seconds, parts, 6), 6)}"
            else:
                yield from show_messages(message)
            source.take(padded(length))
    except InputFault as fault:
        yield f"input error at {source.at}: {fault}"


def pcap_packets(source: Source, order: str, digits: int) -> Iterator[Packet]:
    """Yields the packets of a pcap file. A record stays in `source` until the next one is asked for."""
    source.begins(24, ", too few for a pcap header")
    major, minor, link_type = struct.unpack_from(f"{order}4xHH12xI", source.held)
    if (major, minor) != (2, 4):
        raise InputFault(f"pcap version {major}.{minor}, expected 2.4")
    if link_type & LINK_TYPE != NETLINK:
        raise InputFault(f"link type {link_type & LINK_TYPE}, expected {NETLINK}")
    source.take(24)
    while source.begins(16, " left, too few for a record header"):
        seconds, parts, length, original = struct.unpack_from(f"{order}4I", source.held)
        record = source.unit(16 + length, "record length")
        yield Packet(nanoseconds(seconds, parts, digits), digits, original, NETLINK, record[16:])
        source.take(16 + length)


def pcapng_packets(source: Source) -> Iterator[Packet]:
    """Yields the packets of a pcapng file. A block stays in `source` until the next packet is asked for."""
    order = "<"
    interfaces: list[Interface] = []
    while source.begins(12, " left, too few for a block"):
        is_section = source.held.startswith(SECTION)
        if is_section:
            order = order_of(bytes(source.held[8:12]))
        block = whole_block(source, order)
        kind = number_at(order, block, 0)
        if is_section:
            check_section(order, block)
            interfaces = []
        elif kind == INTERFACE:
            check_least("interface", block, 20)
            if len(interfaces) == MOST_INTERFACES:
                raise InputFault(f"more than {MOST_INTERFACES} interfaces")
            interfaces.append(interface_of(order, block))
        elif kind == PACKET:
            yield packet_of(order, interfaces, block)
        elif kind in (OBSOLETE_PACKET, SIMPLE_PACKET):
            raise InputFault(f"block type {kind} is not read")
        source.take(len(block))


def order_of(magic: bytes) -> str:
    """Returns the byte order of a section."""
    if magic not in ORDERS:
        raise InputFault("no byte-order magic")
    return ORDERS[magic]


def number_at(order: str, data: bytes | bytearray, at: int) -> int:
    """Returns the 32-bit number at an offset."""
    number: int = struct.unpack_from(f"{order}I", data, at)[0]
    return number


def whole_block(source: Source, order: str) -> bytes:
    """Returns the next block, whose two lengths are the same."""
    length = number_at(order, source.held, 4)
    if length < 12:
        raise InputFault(f"block length {length} is below 12")
    if length % 4:
        raise InputFault(f"block length {length} is not a multiple of 4")
    block = source.unit(length, "block length")
    last = number_at(order, block, length - 4)
    if last != length:
        raise InputFault(f"block lengths {length} and {last} differ")
    return block


def check_least(name: str, block: bytes, least: int) -> None:
    if len(block) < least:
        raise InputFault(f"{name} block length {len(block)} is below {least}")


def check_section(order: str, block: bytes) -> None:
    check_least("section", block, 28)
    major, minor = struct.unpack_from(f"{order}HH", block, 12)
    if (major, minor) not in ((1, 0), (1, 2)):
        raise InputFault(f"pcapng version {major}.{minor}, expected 1.0")


def interface_of(order: str, block: bytes) -> Interface:
    """Returns the interface that a block describes."""
    first: dict[int, bytes] = {}
    for code, value in options_in(order, block[16:-4]):
        first.setdefault(code, value)
    resolution, offset = first.get(RESOLUTION, b"\6"), first.get(OFFSET, bytes(8))
    if len(resolution) != 1:
        raise InputFault(f"if_tsresol has {bytes_text(len(resolution))}, expected 1")
    if resolution[0] > 9:
        raise InputFault(f"if_tsresol {resolution[0]} is above 9")
    if len(offset) != 8:
        raise InputFault(f"if_tsoffset has {bytes_text(len(offset))}, expected 8")
    (link_type,) = struct.unpack_from(f"{order}H", block, 8)
    (seconds,) = struct.unpack(f"{order}q", offset)
    return Interface(link_type, resolution[0], seconds)


def options_in(order: str, data: bytes) -> Iterator[tuple[int, bytes]]:
    """Yields the code and the value of each option, up to one with the code 0."""
    while len(data) >= 4:
        code, length = struct.unpack_from(f"{order}HH", data)
        if not code:
            return
        if length > len(data) - 4:
            raise InputFault(f"option {code} has {bytes_text(length)}, but {len(data) - 4} are left")
        yield code, data[4 : 4 + length]
        data = data[4 + padded(length) :]


def packet_of(order: str, interfaces: list[Interface], block: bytes) -> Packet:
    """Returns the packet of a block."""
    check_least("packet", block, 32)
    index, high, low, length, original = struct.unpack_from(f"{order}5I", block, 8)
    if index >= len(interfaces):
        raise InputFault(f"interface {index} is not described")
    left = len(block) - 32
    if length > left:
        raise InputFault(f"captured length {length} exceeds the {bytes_text(left)} left")
    link_type, digits, offset = interfaces[index]
    nanosecond = nanoseconds(offset, high << 32 | low, digits)
    return Packet(nanosecond, digits, original, link_type, block[28 : 28 + length])


def nanoseconds(seconds: int, parts: int, digits: int) -> int:
    """Returns the nanoseconds in seconds and parts of a second, of which 10 to the power of `digits` are one."""
    unit: int = 10 ** (9 - digits)
    return seconds * 10**9 + parts * unit


def time_text(nanosecond: int, digits: int) -> str:
    """Returns the text of an instant, as exact as the file has it."""
    seconds, rest = divmod(nanosecond, 10**9)
    if not 0 <= seconds <= LAST_SECOND:
        return "out of range"
    part = f".{rest:09}"[: digits + 1] if digits else ""
    return f"{(EPOCH + timedelta(seconds=seconds)).isoformat()}{part}Z"


def packet_line(number: int, packet: Packet) -> str:
    """Returns the line of a packet."""
    length = len(packet.data)
    words = f"packet {number} time {time_text(packet.nanosecond, packet.digits)} len {length}"
    if packet.original != length:
        words += f" of {packet.original}"
    if packet.link_type != NETLINK:
        return f"{words} link type {packet.link_type}"
    protocol = protocol_of(packet) if length >= COOKED else 0
    if protocol in PROTOCOLS:
        return f"{words} protocol {PROTOCOLS[protocol]} ({protocol})" if protocol else words
    return f"{words} protocol {protocol}"


def protocol_of(packet: Packet) -> int:
    """Returns the protocol (`NETLINK_`) in the header of a packet of netlink."""
    return int.from_bytes(packet.data[COOKED - 2 : COOKED], "big")


def lines_below(packet: Packet) -> Iterator[str]:
    """Yields the lines of the messages of a packet, if it is of NETLINK_ROUTE."""
    if packet.link_type != NETLINK:
        return
    if len(packet.data) < COOKED:
        yield f"  error at 0: {bytes_text(len(packet.data))}, too few for a cooked header"
    elif not protocol_of(packet):
        yield from show_messages(packet.data[COOKED:])
