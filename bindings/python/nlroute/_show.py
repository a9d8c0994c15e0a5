"""The lines that `nlshow` prints of a list, also of one that is malformed."""
from __future__ import annotations

import struct
import sys
from collections.abc import Iterator, Mapping

from ._errors import Fault
from ._kinds import Family, Form
from ._library import is_canonical, opens, value_text, values
from ._read import groups, is_array, line, payload, title
from ._records import HEADER, IFINFOMSG, PEER_HEADER, record
from ._tables import TABLES, Table

AF_BRIDGE, IFLA_PROTINFO, IFLA_BRPORT_STATE = 7, 12, 1
MOST_LEVELS = 6  # of lists that are opened below a list
# Names in a header (`linux/socket.h`, `if_arp.h`, `if.h`), without ARPHRD_ and IFF_.
ADDRESS_FAMILIES = {AF_BRIDGE: "AF_BRIDGE"}
DEVICE_TYPES = {1: "ETHER", 280: "CAN", 772: "LOOPBACK", 65534: "NONE"}
DEVICE_FLAG_NAMES = (
    "UP BROADCAST DEBUG LOOPBACK POINTOPOINT NOTRAILERS RUNNING NOARP PROMISC ALLMULTI MASTER SLAVE MULTICAST PORTSEL "
    "AUTOMEDIA DYNAMIC LOWER_UP DORMANT ECHO"
).split()
DEVICE_FLAGS = {1 << at: name for at, name in enumerate(DEVICE_FLAG_NAMES)}


def pieces(data: bytes) -> Iterator[tuple[int, bytes, int]]:
    """Yields the offset of each attribute of a list, its bytes, and how many there are with padding. If a header is
    malformed, the rest of the list is the last one."""
    at = 0
    while at < len(data):
        length = int.from_bytes(data[at : at + 2], sys.byteorder)
        if not HEADER <= length <= len(data) - at:
            length = len(data) - at
        size = (length + 3) // 4 * 4
        yield at, data[at : at + length], size
        at += size


def show(family: Family, data: bytes) -> list[str]:
    """Returns the lines of a list, with one for each error in its place."""
    return [f"  {it}" for it in set_lines(TABLES[family], data, 0)]


def check(family: Family, data: bytes) -> list[str]:
    """Returns a line that says whether a list is canonical."""
    wrong = (at for at, _, size in pieces(data) if not is_canonical(family, data[at : at + size]))
    at = next(wrong, None)
    return ["canonical" if at is None else f"not canonical at {at}"]


def set_lines(table: Table, data: bytes, start: int, address_family: int = 0, levels: int = MOST_LEVELS) -> Iterator[str]:
    """Yields the lines of a list that begins at an offset, below a header with an address family. So many levels of lists
    are opened below it."""
    for at, piece, _ in pieces(data):
        try:
            found = list(groups(table.family, piece))
        except Fault as fault:
            yield f"error at {start + at}: {str(fault).partition(': ')[2]}"
            continue
        for raw, elements in found:
            yield from attribute_lines(table, raw, elements, piece, start + at, address_family, levels)


def attribute_lines(
    table: Table, raw: bytes, elements: list[bytes], data: bytes, start: int, address_family: int, levels: int
) -> Iterator[str]:
    """Yields the lines of an attribute: its record, those of its elements, and its bytes, which begin at an offset."""
    it = record(raw, 0)
    if it.form == Form.HELD:
        yield from held_lines(table, table.name(it.kind), raw, data, start, address_family, levels)
        return
    if it.form == Form.UNKNOWN and table.family is Family.LINK and it.kind == IFLA_PROTINFO:
        yield from protocol_lines(table, raw, data, start, address_family, levels)
        return
    if it.form == Form.PEER and levels:
        yield from peer_lines(table.name(it.kind), payload(it, data), start + it.offset, levels)
        return
    yield title(table, raw, elements, data)
    if is_array(table, raw):
        return
    below = table.below.get(it.kind)
    for element in elements:
        inner = record(element, 0)
        if below and inner.form == Form.HELD:
            lines = held_lines(below, below.name(inner.inner), element, data, start, address_family, levels)
            yield from (f"  {words}" for words in lines)
        else:
            yield f"  {line(table.family, element, '', data)}"


def held_lines(
    table: Table, name: str, raw: bytes, data: bytes, start: int, address_family: int, levels: int
) -> Iterator[str]:
    """Yields the lines of an attribute that holds a list of another set."""
    family = opens(table.family, address_family, raw, data)
    if family is None or not levels:
        yield line(table.family, raw, name, data)
        return
    it = record(raw, 0)
    content = payload(it, data)
    is_selected = table.list_row or family is Family.AF_SPEC_BRIDGE or it.form == Form.UNKNOWN
    words = f"{name} ({family})" if is_selected else name
    yield words if content else f"{words} (empty)"
    below = set_lines(TABLES[family], content, start + it.offset, address_family, levels - 1)
    yield from (f"  {it}" for it in below)


def protocol_lines(table: Table, raw: bytes, data: bytes, start: int, address_family: int, levels: int) -> Iterator[str]:
    """Yields the lines of an IFLA_PROTINFO: of a list, of the STP state of a bridge port, or as of an unknown type. The
    address family tells which."""
    content = payload(record(raw, 0), data)
    if levels and opens(table.family, address_family, raw, data):
        yield from held_lines(table, "IFLA_PROTINFO", raw, data, start, address_family, levels)
    elif address_family == AF_BRIDGE and len(content) == 1:
        state = struct.pack("<HH", HEADER + 1, IFLA_BRPORT_STATE) + content
        yield f"IFLA_PROTINFO {value_text(Family.BRIDGE_PORT, bytes(values(Family.BRIDGE_PORT, state)), state)}"
    else:
        yield title(table, raw, [], data)


def peer_lines(name: str, data: bytes, start: int, levels: int) -> Iterator[str]:
    """Yields the lines of the other end of a link, whose bytes begin at an offset: a header, and a list of attributes."""
    family, index, fields = header_words(data)
    words = f"{name} ifindex {index}{fields}"
    yield words if data[PEER_HEADER:] else f"{words} (empty)"
    below = set_lines(TABLES[Family.LINK], data[PEER_HEADER:], start + PEER_HEADER, family, levels - 1)
    yield from (f"  {it}" for it in below)


def header_words(data: bytes) -> tuple[int, int, str]:
    """Returns the address family and the index in a `struct ifinfomsg`, and its other fields that are not 0, as words."""
    family, kind, index, flags, change = IFINFOMSG.unpack_from(data)
    words = named(" family ", ADDRESS_FAMILIES, family) + named(" type ", DEVICE_TYPES, kind)
    return family, index, words + flagged(" flags ", flags) + flagged(" change ", change)


def named(before: str, names: Mapping[int, str], number: int) -> str:
    """Returns a number other than 0 by its name."""
    return before + names.get(number, str(number)) if number else ""


def flagged(before: str, bits: int) -> str:
    """Returns flags of a device by their names, unless there are none."""
    return before + flags_text(DEVICE_FLAGS, 4, bits) if bits else ""


def flags_text(names: Mapping[int, str], width: int, bits: int) -> str:
    """Returns flags of `width` bytes by their names."""
    rest = bits & ~sum(names)
    if rest and bits == (1 << 8 * width) - 1:
        return "all"
    return "|".join([name for bit, name in names.items() if bits & bit] + [f"{rest:#x}"] * bool(rest)) or "0"


def quoted(text: bytes) -> str:
    """Returns bytes between quotes, as printable ASCII."""
    shown = (f"\\{it:c}" if it in b'"\\' else f"{it:c}" if 32 <= it < 127 else f"\\x{it:02x}" for it in text)
    return f'"{"".join(shown)}"'
