"""Loads libnlroute, and calls it.

The calls keep the interpreter's lock (`PyDLL`): they take microseconds, and no other thread changes an input meanwhile.
Inputs are `bytes`, which nothing changes; outputs are new buffers, which nobody else has.
"""
from __future__ import annotations

import ctypes
import os
from collections.abc import Callable, Iterator
from typing import Any

from ._errors import Error, Fault, MessageFault, WriteError
from ._kinds import VERSION, Cause, Code, Family, Place
from ._records import FAULT, FIELD, MESSAGE, RANGE, VALUE, FieldRecord, MessageRecord, buffer

SONAME = f"libnlroute.so.{VERSION >> 16}.{VERSION >> 8 & 255}"
FAMILY, BYTES, SIZE, OUT = ctypes.c_uint32, ctypes.c_char_p, ctypes.c_size_t, ctypes.c_void_p
BYTE = ctypes.c_uint8
SIGNATURES: dict[str, list[Any]] = {
    "nlroute_values": [FAMILY, BYTES, SIZE, OUT, SIZE],
    "nlroute_first_fault": [FAMILY, BYTES, SIZE, OUT],
    "nlroute_fault_text": [FAMILY, BYTES, OUT, SIZE],
    "nlroute_kind_name": [FAMILY, BYTES, OUT, SIZE],
    "nlroute_text": [FAMILY, BYTES, BYTES, SIZE, OUT, SIZE],
    "nlroute_read_field": [FAMILY, BYTES, SIZE, BYTES, SIZE, OUT],
    "nlroute_write": [FAMILY, BYTES, SIZE, BYTES, SIZE, OUT, SIZE],
    "nlroute_measure": [FAMILY, BYTES, SIZE, BYTES, SIZE, OUT],
    "nlroute_read_message": [BYTES, SIZE, SIZE, OUT],
    "nlroute_message_fault": [BYTES, SIZE, SIZE, OUT],
    "nlroute_held": [BYTES, SIZE, BYTE, FAMILY, OUT],
    "nlroute_opens": [FAMILY, BYTE, BYTES, BYTES, SIZE],
    "nlroute_request": [BYTES, BYTES, SIZE, BYTES, SIZE, OUT, SIZE, OUT],
    "nlroute_from_info_kind": [BYTES, SIZE],
    "nlroute_from_port_kind": [BYTES, SIZE],
}
ADVICE = f"Install {SONAME} where the system finds it (ldconfig, LD_LIBRARY_PATH), or set NLROUTE_LIBRARY to its path."


def load() -> ctypes.PyDLL:
    """Loads the library: $NLROUTE_LIBRARY, the one in this package, or the system's."""
    packed = os.path.join(os.path.dirname(__file__), SONAME)
    path = os.environ.get("NLROUTE_LIBRARY") or (packed if os.path.exists(packed) else SONAME)
    try:
        library = ctypes.PyDLL(path)
        version = library.nlroute_version
        for name, arguments in SIGNATURES.items():
            function = getattr(library, name)
            function.argtypes, function.restype = arguments, ctypes.c_ssize_t
        library.nlroute_build.argtypes, library.nlroute_build.restype = [], ctypes.c_char_p
        library.nlroute_is_canonical.argtypes = [FAMILY, BYTES, SIZE]
        library.nlroute_is_canonical.restype = ctypes.c_bool
    except (OSError, AttributeError) as error:
        raise ImportError(f"{error}. {ADVICE}") from None
    version.argtypes, version.restype = [], ctypes.c_uint32
    if version() >> 8 != VERSION >> 8:
        raise ImportError(f"{path} has the version {version():#08x}, expected {VERSION:#08x}. {ADVICE}")
    return library


LIBRARY = load()
VALUES = LIBRARY.nlroute_values
TEXT = ctypes.c_char * 256  # enough for most texts


def build() -> str:
    """Returns the mark of the library: version, `proved` or `unproved`, commit and toolchain.

    The mark is added when the library is built. It is a label, not evidence.
    """
    mark: bytes = LIBRARY.nlroute_build()
    return mark.decode()


def whole(data: bytes | bytearray | memoryview) -> bytes:
    """Returns bytes, and copies what could change. A `str` or an `int` is a TypeError."""
    return data if type(data) is bytes else bytes(memoryview(data))


def values(family: Family, data: bytes, start: int = 0) -> memoryview:
    """Returns the records of a list, which has the offset `start` for errors. Raises Fault."""
    places = len(data) // 8 + 1  # enough for nearly every list, and len / 2 for all
    while True:
        out = buffer(VALUE.size * places)
        count = VALUES(family, data, len(data), out, places)
        if count >= 0:
            return memoryview(out).cast("B")[: count * VALUE.size]
        if count != Code.NO_ROOM:
            raise fault(family, data, start) if count == Code.HAS_FAULT else unexpected(count)
        places = len(data) // 2


def fault(family: Family, data: bytes, start: int) -> Fault:
    """Returns the first error of a malformed list, which has the offset `start`."""
    out = buffer(FAULT.size)
    code = LIBRARY.nlroute_first_fault(family, data, len(data), out)
    if code:
        raise unexpected(code)
    raw = ctypes.string_at(out, FAULT.size)
    at, first, second, place, kind, inner, cause = FAULT.unpack(raw)
    moved = FAULT.pack(start + at, first, second, place, kind, inner, cause)
    words = text_of(LIBRARY.nlroute_fault_text, family, moved)
    return Fault(words, at, Place(place), Cause(cause), kind, inner, (first, second), family, start)


def message(data: bytes, at: int) -> MessageRecord | None:
    """Returns the message at an offset of a buffer, or None at its end. Raises MessageFault."""
    out = buffer(MESSAGE.size)
    code = LIBRARY.nlroute_read_message(data, len(data), at, out)
    if code == Code.ABSENT:
        return None
    if code:
        raise message_fault(data, at) if code == Code.HAS_FAULT else unexpected(code)
    return MessageRecord._make(MESSAGE.unpack(ctypes.string_at(out, MESSAGE.size)))


def message_fault(data: bytes, at: int) -> MessageFault:
    """Returns the error of a malformed message."""
    out = buffer(FAULT.size)
    code = LIBRARY.nlroute_message_fault(data, len(data), at, out)
    if code:
        raise unexpected(code)
    raw = ctypes.string_at(out, FAULT.size)
    at, first, second, _, _, _, cause = FAULT.unpack(raw)
    return MessageFault(text_of(LIBRARY.nlroute_fault_text, Family.LINK, raw), at, Cause(cause), (first, second))


def held(data: bytes, address_family: int, family: Family) -> tuple[int, int] | None:
    """Returns the offset and the length of the last list of a set in the attributes of a message, or None."""
    out = buffer(RANGE.size)
    code = LIBRARY.nlroute_held(data, len(data), address_family, family, out)
    if code == Code.ABSENT:
        return None
    if code:
        raise unexpected(code)
    offset, length = RANGE.unpack(ctypes.string_at(out, RANGE.size))
    return offset, length


def opens(family: Family, address_family: int, raw: bytes, data: bytes) -> Family | None:
    """Returns the set that reads the list in a record of a list, or None."""
    number = LIBRARY.nlroute_opens(family, address_family, raw, data, len(data))
    return None if number == Code.ABSENT else Family(number)


def is_canonical(family: Family, data: bytes) -> bool:
    """Returns whether a list has the bytes that the library writes."""
    return bool(LIBRARY.nlroute_is_canonical(family, data, len(data)))


def text_of(function: Callable[..., int], *arguments: Any) -> str:
    """Returns the text that a function stores as snprintf() does."""
    out, room = TEXT(), ctypes.sizeof(TEXT)
    while True:
        length = function(*arguments, out, room)
        if length < 0:
            raise unexpected(length)
        if length < room:
            return out.value.decode()
        room = length + 1
        out = ctypes.create_string_buffer(room)


def kind_name(family: Family, raw: bytes) -> str:
    """Returns the name of the attribute type of a record."""
    return text_of(LIBRARY.nlroute_kind_name, family, raw)


def value_text(family: Family, raw: bytes, data: bytes) -> str:
    """Returns the text of a record of a list."""
    return text_of(LIBRARY.nlroute_text, family, raw, data, len(data))


def fields(family: Family, raw: bytes, data: bytes) -> Iterator[FieldRecord]:
    """Yields the fields of the struct that a record of a list holds; none if it holds no struct."""
    out = buffer(FIELD.size)
    for index in range(len(data)):
        code = LIBRARY.nlroute_read_field(family, raw, index, data, len(data), out)
        if code == Code.ABSENT:
            return
        if code:
            raise unexpected(code)
        yield FieldRecord._make(FIELD.unpack(ctypes.string_at(out, FIELD.size)))


def write(family: Family, records: bytes, octets: bytes, owners: list[tuple[int, str]]) -> bytes:
    """Returns the list of these records. `owners` has the attribute's index, and a name, for each.

    Raises WriteError.
    """
    count = len(records) // VALUE.size
    # 4 bytes of header, at most 16 of content or those of octets, and at most 3 of padding for each
    room = 24 * count + len(octets)
    out = buffer(room)
    length = LIBRARY.nlroute_write(family, records, count, octets, len(octets), out, room)
    if length >= 0:
        return ctypes.string_at(out, length)
    at = ctypes.c_size_t()
    code = LIBRARY.nlroute_measure(family, records, count, octets, len(octets), ctypes.byref(at))
    if code >= 0 or at.value >= count:
        raise unexpected(length)
    index, name = owners[at.value]
    raise WriteError(name, index, Code(code))


def request(head: bytes, records: bytes, octets: bytes, owners: list[tuple[int, str]]) -> bytes:
    """Returns the request of these records, whose `owners` are as for write(). Raises WriteError."""
    count, at = len(records) // VALUE.size, ctypes.c_size_t()
    room = 32 + 24 * count + len(octets)
    while True:
        out = buffer(room)
        size = LIBRARY.nlroute_request(head, records, count, octets, len(octets), out, room, ctypes.byref(at))
        if size >= 0:
            return ctypes.string_at(out, size)
        if size != Code.NO_ROOM:
            break
        room = at.value
    field = {Code.BAD_TYPE: "nlmsg_type", Code.NO_INDEX: "ifi_index"}.get(Code(size), "nlmsg_len")
    index, name = owners[at.value] if at.value < count else (0, field)
    raise WriteError(name, index, Code(size))


def from_info_kind(kind: str) -> Family | None:
    """Returns the set of the devices of a kind (IFLA_INFO_KIND), that of their IFLA_INFO_DATA.

    >>> from_info_kind("bond"), from_info_kind("bond_port")
    (<Family.BOND: 1>, None)
    """
    return numbered(LIBRARY.nlroute_from_info_kind, kind)


def from_port_kind(kind: str) -> Family | None:
    """Returns the set of the ports of a kind (IFLA_INFO_SLAVE_KIND), that of their IFLA_INFO_SLAVE_DATA.

    >>> from_port_kind("bond"), from_port_kind("vlan")
    (<Family.BOND_PORT: 2>, None)
    """
    return numbered(LIBRARY.nlroute_from_port_kind, kind)


def numbered(function: Callable[..., int], kind: str) -> Family | None:
    """Returns the set whose number a call returns for a kind."""
    words = kind.encode(errors="surrogateescape")
    number = function(words, len(words))
    return None if number == Code.NO_FAMILY else Family(number)


def unexpected(code: int) -> Exception:
    """Returns the exception for an error code that no input leads to."""
    if code == Code.NO_MEMORY:
        return MemoryError()
    return Error(str(Code(code)))
