"""The structs of nlroute.h as bytes, and buffers for them."""
from __future__ import annotations

import ctypes
import struct
from typing import Any, NamedTuple


class Record(NamedTuple):
    """The fields of `struct nlroute_value`; `second` is also `mask`."""

    kind: int
    inner: int
    flags: int
    form: int
    depth: int
    second: int
    length: int
    number: int
    offset: int
    octets: bytes


class FieldRecord(NamedTuple):
    """The fields of `struct nlroute_field`."""

    name: bytes
    number: int
    offset: int
    length: int
    form: int
    octets: bytes


class MessageRecord(NamedTuple):
    """The fields of `struct nlroute_message`."""

    list: int
    length: int
    next: int
    len: int
    sequence: int
    port: int
    type: int
    flags: int
    link_index: int
    link_flags: int
    change: int
    link_type: int
    address_family: int
    is_link: int


VALUE = struct.Struct("=HHHBBIIQQ16s")
FIELD = struct.Struct("=32sQQII16s")
REQUEST = struct.Struct("=HHIIBBHiII")  # struct nlroute_head
# The same, but kind, inner, flags, form and depth as one number, and only the field `number` besides.
HEAD = struct.Struct("=Q8xQ24x")
FAULT = struct.Struct("=QQQIIII")
MESSAGE = struct.Struct("=QQQIIIHHiIIHBB")
RANGE = struct.Struct("=QQ")
assert VALUE.size == HEAD.size == 48 and REQUEST.size == 28 and FIELD.size == 72 and FAULT.size == 40 and MESSAGE.size == 56
HEADER = 4  # bytes of struct nlattr
# The struct ifinfomsg that is before the attributes of NLROUTE_FORM_PEER.
IFINFOMSG = struct.Struct("=BxHiII")
PEER_HEADER = IFINFOMSG.size
# The names of its fields in `Message`, and in a dict of a peer, which has the attributes as "attributes".
PEER_FIELDS = "address_family", "link_type", "index", "link_flags", "change"


def record(raw: bytes | memoryview, index: int) -> Record:
    """Returns a record of an array of them."""
    return Record._make(VALUE.unpack_from(raw, index * VALUE.size))


def head(kind: int, form: int, list_kind: int | None) -> int:
    """Returns the first number of HEAD for an attribute or, with the type of its list, an element."""
    first = (kind, 0, 0, form, 0) if list_kind is None else (list_kind, kind, 0, form, 1)
    return int(HEAD.unpack(VALUE.pack(*first, 0, 0, 0, 0, b""))[0])


# An array type for each power of two: ctypes would make a type for each new length.
ARRAYS: dict[int, Any] = {}


def buffer(length: int) -> Any:
    """Returns a new buffer of at least `length` bytes, aligned for every struct."""
    bits = length.bit_length()
    if bits not in ARRAYS:
        ARRAYS[bits] = ctypes.c_uint64 * (1 + (1 << bits) // 8)
    return ARRAYS[bits]()
