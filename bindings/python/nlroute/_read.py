"""Makes values of the records that the library stores for a list."""
from __future__ import annotations

import struct
from collections.abc import Callable, Iterator
from ipaddress import IPv4Address, IPv6Address
from typing import Any

from ._kinds import Family, Form
from ._library import fields, kind_name, value_text, values, whole
from ._records import HEAD, VALUE, FieldRecord, Record, record
from ._tables import TABLES, Table
from ._types import (
    Attribute,
    BerrCounter,
    BridgeId,
    CanBitTiming,
    CanBitTimingConst,
    Content,
    Mac,
    Masked,
    QosMapping,
    Row,
    Text,
    Unknown,
    VlanInfo,
)

Nested = Callable[[Table, "list[Attribute]"], Any]
SIGN = 1 << 63


def attributes(table: Table, data: bytes, nested: Nested, start: int = 0) -> list[Attribute]:
    """Returns the attributes of a list, which has the offset `start` for errors. `nested` makes the value of a nested list.

    Raises Fault.
    """
    raw = values(table.family, data, start)
    ready, numbers, new = table.ready, table.numbers, tuple.__new__
    found: list[Attribute] = []
    passed = 0  # elements so far
    pairs = HEAD.iter_unpack(raw)
    for pair in pairs:
        item = ready.get(pair)
        if item is None:
            name = numbers.get(pair[0])
            if name is not None:
                item = new(Attribute, (name, pair[1]))
            else:
                item, count = attribute(table, raw, len(found) + passed, data, nested)
                passed += count
                for _ in range(count):
                    next(pairs)
        found.append(item)
    return found


def attribute(table: Table, raw: memoryview, index: int, data: bytes, nested: Nested) -> tuple[Attribute, int]:
    """Returns the attribute that a record begins, and how many elements follow the record."""
    it = record(raw, index)
    row = table.by_kind.get(it.kind)
    if it.form != Form.LIST or row is None:
        return Attribute(table.name(it.kind), content(row, it, data)), 0
    elements = raw[(index + 1) * VALUE.size : (index + 1 + it.number) * VALUE.size]
    if row.item:
        return Attribute(row.name, list(items(row.item, elements, data))), it.number
    below = table.below[it.kind]
    return Attribute(row.name, nested(below, list(inner(below, elements, data)))), it.number


def inner(table: Table, raw: memoryview, data: bytes) -> Iterator[Attribute]:
    """Yields the elements of a nested list."""
    for index, pair in enumerate(HEAD.iter_unpack(raw)):
        item = table.ready.get(pair)
        if item is None:
            name = table.numbers.get(pair[0])
            if name is not None:
                item = Attribute(name, pair[1])
            else:
                it = record(raw, index)
                item = Attribute(table.name(it.inner), content(table.by_kind.get(it.inner), it, data))
        yield item


def items(row: Row, raw: memoryview, data: bytes) -> Iterator[Content]:
    """Yields the addresses, numbers or mappings of a list."""
    if row.form == Form.UNSIGNED:
        yield from (number for _, number in HEAD.iter_unpack(raw))
        return
    for fields in VALUE.iter_unpack(raw):
        it = Record._make(fields)
        if it.form == Form.UNKNOWN:
            yield Unknown(payload(it, data), it.flags, it.inner)
        else:
            yield content(row, it, data)


def payload(it: Record, data: bytes) -> bytes:
    """Returns the bytes that a record refers to."""
    return data[it.offset : it.offset + it.length]


def typed(row: Row | None, number: int) -> int:
    """Returns a number as a member of the row's enum, or as its set of flags."""
    return row.type(number) if row and row.type else number


def mac(it: Record) -> Mac:
    """Returns the address of a record, without the checks of Mac()."""
    return bytes.__new__(Mac, it.octets[:6])


def limits(row: Row | None, it: Record, data: bytes) -> CanBitTimingConst:
    """Returns the limits of a CAN controller. Its name ends before the first NUL."""
    name, *numbers = struct.unpack("=16s8I", payload(it, data))
    return CanBitTimingConst(name.split(b"\0")[0].decode(errors="surrogateescape"), *numbers)


# How the content of a value is made, by its form.
CONTENTS: dict[int, Callable[[Row | None, Record, bytes], Content]] = {
    Form.EMPTY: lambda row, it, data: None,
    Form.BOOL: lambda row, it, data: it.number != 0 if it.length else None,
    Form.UNSIGNED: lambda row, it, data: it.number,
    Form.SIGNED: lambda row, it, data: (it.number ^ SIGN) - SIGN,
    Form.NAMED: lambda row, it, data: typed(row, it.number),
    Form.FLAGS: lambda row, it, data: typed(row, it.number),
    Form.MASKED: lambda row, it, data: Masked(typed(row, it.number), typed(row, it.second)),
    Form.MAC: lambda row, it, data: mac(it),
    Form.IPV4: lambda row, it, data: IPv4Address(it.octets[:4]),
    Form.IPV6: lambda row, it, data: IPv6Address(it.octets),
    Form.BRIDGE_ID: lambda row, it, data: BridgeId(it.number, mac(it)),
    Form.VLAN_INFO: lambda row, it, data: VlanInfo(it.number, typed(row, it.second)),
    Form.QOS_MAPPING: lambda row, it, data: QosMapping(it.number, it.second),
    Form.BERR_COUNTER: lambda row, it, data: BerrCounter(it.number, it.second),
    Form.BITTIMING: lambda row, it, data: CanBitTiming(*struct.unpack("=8I", payload(it, data))),
    Form.BITTIMING_CONST: limits,
    Form.BYTES: lambda row, it, data: payload(it, data),
    Form.TEXT: lambda row, it, data: Text(payload(it, data)),
    Form.HELD: lambda row, it, data: payload(it, data),
    Form.PEER: lambda row, it, data: payload(it, data),
    Form.UNKNOWN: lambda row, it, data: Unknown(payload(it, data), it.flags),
}


def content(row: Row | None, it: Record, data: bytes) -> Content:
    """Returns the content of a value that is not a list."""
    return CONTENTS[it.form](row, it, data)


def struct_fields(family: Family, data: bytes, index: int) -> dict[str, int | Mac | bytes]:
    """Returns what the fields of a struct hold, by their names: of the record with this index of a list."""
    raw = bytes(values(family, data)[index * VALUE.size : (index + 1) * VALUE.size])
    return struct_fields_of(family, raw, record(raw, 0), data)


def struct_fields_of(family: Family, raw: bytes, it: Record, data: bytes) -> dict[str, int | Mac | bytes]:
    """Returns what the fields of a struct hold, by their names: of a record of a list."""
    return {field.name.split(b"\0")[0].decode(): field_content(field, it, data) for field in fields(family, raw, data)}


def field_content(field: FieldRecord, it: Record, data: bytes) -> int | Mac | bytes:
    """Returns what a field of a struct holds."""
    if field.form in (Form.UNSIGNED, Form.NAMED, Form.FLAGS):
        return field.number
    if field.form == Form.SIGNED:
        return (field.number ^ SIGN) - SIGN
    if field.form == Form.MAC:
        return bytes.__new__(Mac, field.octets[:6])
    start = it.offset + field.offset
    return data[start : start + field.length]


def groups(family: Family, data: bytes, start: int = 0) -> Iterator[tuple[bytes, list[bytes]]]:
    """Yields the record of each attribute of a list, with those of its elements. The list has the offset `start` for errors.

    Raises Fault.
    """
    raw = bytes(values(family, data, start))
    records = [raw[at : at + VALUE.size] for at in range(0, len(raw), VALUE.size)]
    at = 0
    while at < len(records):
        it = record(records[at], 0)
        end = at + 1 + (it.number if it.form == Form.LIST else 0)
        yield records[at], records[at + 1 : end]
        at = end


def lines(table: Table, data: bytes | bytearray | memoryview) -> Iterator[str]:
    """Yields the lines of a list, as `nlshow` prints them."""
    data = whole(data)
    for raw, elements in groups(table.family, data):
        yield title(table, raw, elements, data)
        if not is_array(table, raw):
            yield from (f"  {line(table.family, element, '', data)}" for element in elements)


def is_array(table: Table, raw: bytes) -> bool:
    """Returns whether the elements of an attribute are addresses or numbers, which are on its line."""
    row = table.by_kind.get(record(raw, 0).kind)
    return bool(row and row.item and not row.item.name)


def title(table: Table, raw: bytes, elements: list[bytes], data: bytes) -> str:
    """Returns the line of an attribute."""
    it = record(raw, 0)
    row = table.by_kind.get(it.kind)
    first = line(table.family, raw, row.name if row else "", data)
    if it.form == Form.LIST and not elements:
        return f"{first} (empty)"
    return " ".join([first, *item_texts(table.family, elements, data)]) if is_array(table, raw) else first


def item_texts(family: Family, elements: list[bytes], data: bytes) -> Iterator[str]:
    """Yields the words of an array: its numbers or addresses or, if its places have names, those that are not zero."""
    if kind_name(family, elements[0]).startswith("["):
        # the unit of numbers is after the last one
        yield from (value_text(family, element, data).split(" ", 1)[0] for element in elements[:-1])
        yield value_text(family, elements[-1], data)
        return
    named = [element for element in elements if record(element, 0).number]
    yield from (line(family, element, "", data) for element in named)
    if len(named) < len(elements):
        yield f"({len(elements) - len(named)} zero)"


def line(family: Family, raw: bytes, name: str, data: bytes) -> str:
    """Returns the name and the text of a value. `name` may be empty."""
    words = value_text(family, raw, data)
    title = (name or kind_name(family, raw)) + nla_flags(record(raw, 0).flags)
    return f"{title} {words}" if words else title


def nla_flags(flags: int) -> str:
    """Returns the flags of an unknown attribute type, after a space."""
    names = [name for bit, name in ((0x4000, "NLA_F_NET_BYTEORDER"), (0x8000, "NLA_F_NESTED")) if flags & bit]
    return " " + "|".join(names) if names else ""
