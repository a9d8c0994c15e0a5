"""Makes records of values, for the library to write."""
from __future__ import annotations

import struct
from collections.abc import Callable, Iterable, Iterator, Mapping
from ipaddress import AddressValueError, IPv4Address, IPv6Address
from operator import index as whole_number
from typing import Any, Union

from . import _library
from ._errors import WriteError
from ._kinds import Code, Family, Form
from ._records import IFINFOMSG, PEER_FIELDS, VALUE
from ._tables import TABLES, Table
from ._types import Attribute, Mac, Name, Named, Row, Text, Unknown

Values = Union[Mapping[Any, Any], Iterable[tuple[Name, Any]]]  # (the keys of a mapping are names)
# number, second, length, octets and flags of a record, and the bytes that it refers to.
Fields = tuple[int, int, int, bytes, int, bytes]
NAME_ROOM = 16  # of struct can_bittiming_const
NLA_F_NESTED = 0x8000


def pairs(values: Values, title: str = "") -> Iterator[tuple[Any, Any]]:
    """Yields the names and values of a mapping, a list of attributes, or other pairs. `title` is for errors."""
    for item in values.items() if isinstance(values, Mapping) else values:
        if not isinstance(item, (tuple, list)) or len(item) != 2:
            raise TypeError(f"{title}expected a name and a value, not {item!r}")
        yield item[0], item[1]


def write(table: Table, items: list[Attribute], address_family: int = 0) -> bytes:
    """Returns a list as it is sent, in a message of this address family.

    Raises WriteError, TypeError, ValueError or KeyError if a value cannot be written.
    """
    writer = Writer(table, address_family)
    error = writer.add_all(items)
    # (an attribute before the one that has the error may have another)
    data = _library.write(table.family, b"".join(writer.records), bytes(writer.octets), writer.owners)
    if error:
        raise error
    return data


class Writer:
    """The records of attributes, the bytes that they refer to, and which attribute each record is of.

    `address_family` is that of the message, on which the sets of lists in attributes depend.
    """

    def __init__(self, table: Table, address_family: int = 0) -> None:
        self.table, self.address_family = table, address_family
        self.records: list[bytes] = []
        self.octets = bytearray()
        self.owners: list[tuple[int, str]] = []

    def add_all(self, items: list[Attribute]) -> WriteError | None:
        """Adds attributes up to the first that no record can have, and returns the error for it.

        Raises TypeError, ValueError or KeyError.
        """
        for index, item in enumerate(items):
            before = len(self.records)
            try:
                self.add(index, item)
            except WriteError as error:
                del self.records[before:], self.owners[before:]
                return error
        return None

    def add(self, index: int, attribute: Attribute) -> None:
        """Adds the attribute that has this index in its list. Raises as add_all() does, and WriteError."""
        name, value = attribute
        row = self.table.row(name)
        if row.form in (Form.HELD, Form.PEER, Form.LIST, Form.UNKNOWN):
            value = self.with_bytes(index, row, value)
        if row.form != Form.LIST:
            self.put(index, row, (row.kind, 0, 0), value)
            return
        at = len(self.records)
        self.records.append(b"")
        self.owners.append((index, row.name))
        for number, (it, title, content) in enumerate(self.elements(row, value)):
            # (the library does not use the index of an item, so it may be cut)
            inner = it.kind if it.name else number & 0xFFFF
            self.put(index, it, (row.kind, inner, 1), content, title)
        count = len(self.records) - at - 1
        self.records[at] = VALUE.pack(row.kind, 0, 0, Form.LIST, 0, 0, 0, count, 0, b"")

    def elements(self, row: Row, value: Any) -> Iterator[tuple[Row, str, Any]]:
        """Yields the row, a name, and the content of each element of a list."""
        # (an iterator could be written once only)
        wrong = (str, bytes, bytearray, memoryview, Iterator) + ((Mapping,) if row.item else ())
        if isinstance(value, wrong) or not isinstance(value, Iterable):
            raise TypeError(f"{row.name}: expected a list, not {value!r}")
        if row.item:
            for number, item in enumerate(value):
                if row.item.name and isinstance(item, Unknown) and item.kind is not None:
                    yield Row(f"type {item.kind}", item.kind, Form.UNKNOWN), f"type {item.kind}", item
                else:
                    yield row.item, row.item.name or f"{row.name}[{number}]", item
            return
        below = self.table.below[row.kind]
        for name, item in pairs(value, f"{row.name}: "):
            yield below.row(name), name, item

    def with_bytes(self, index: int, row: Row, value: Any) -> Any:
        """Returns the value of an attribute, with bytes for each list of another set that is a dict or a list."""
        if row.form == Form.PEER:
            return self.peer(index, row.name, value) if is_list(value) else value
        if row.form in (Form.HELD, Form.UNKNOWN):
            if not is_list(value):
                return value
            (family,) = self.families(index, Attribute(row.name, held_in(row, b"")), [0])
            return held_in(row, self.held(index, row.name, value, family))
        below = self.table.below.get(row.kind)
        if not below or not below.holders or not is_list(value):
            return value
        items = list(pairs(value, f"{row.name}: "))
        found = [at for at, (name, it) in enumerate(items) if name in below.holders and is_list(it)]
        # (other elements, such as an IFLA_INFO_KIND, tell the sets of these)
        without = [(name, b"" if at in found else it) for at, (name, it) in enumerate(items)]
        families = self.families(index, Attribute(row.name, without), [1 + at for at in found]) if found else []
        for at, family in zip(found, families):
            name, it = items[at]
            items[at] = name, self.held(index, name, it, family)
        return items

    def families(self, index: int, attribute: Any, places: list[int]) -> list[Family | None]:
        """Returns the sets that read the lists in an attribute: those of the records at these places."""
        writer, family = Writer(self.table, self.address_family), self.table.family
        writer.add(index, attribute)
        data = _library.write(family, b"".join(writer.records), bytes(writer.octets), writer.owners)
        raw = bytes(_library.values(family, data))
        records = [raw[at * VALUE.size : (at + 1) * VALUE.size] for at in places]
        return [_library.opens(family, self.address_family, it, data) for it in records]

    def held(self, index: int, name: str, value: Any, family: Family | None, address_family: int | None = None) -> bytes:
        """Returns the bytes of a list of another set, which is that of `family`."""
        own: Table | None = getattr(value, "_table", None)
        if family is None or (own and own is not TABLES[family]):
            raise WriteError(name, index, Code.NO_SET)
        items = [Attribute(*pair) for pair in pairs(value, f"{name}: ")]
        try:
            return write(TABLES[family], items, self.address_family if address_family is None else address_family)
        except WriteError as error:
            raise WriteError(error.name, index, error.code) from None

    def peer(self, index: int, name: str, value: Any) -> bytes:
        """Returns the bytes of the other end of a link: a header, and a list of attributes of a link."""
        fields: dict[Any, Any] = {}
        if isinstance(value, Mapping) and "attributes" in value:
            fields = dict(value)
            value = fields.pop("attributes")
        numbers = [whole_number(fields.pop(field, 0)) for field in PEER_FIELDS]
        if fields:
            raise KeyError(f"{name} has no {next(iter(fields))}")
        try:
            header = IFINFOMSG.pack(*numbers)
        except struct.error:
            raise WriteError(name, index, Code.BAD_NUMBER) from None
        return header + self.held(index, name, value, Family.LINK, numbers[0])

    def put(self, index: int, row: Row, place: tuple[int, int, int], value: Any, name: str = "") -> None:
        """Adds a record. `place` has its fields kind, inner and depth."""
        name = name or row.name
        try:
            number, second, length, octets, flags, carried = FIELDS[row.form](row, value)
        except Unfit as error:
            raise WriteError(name, index, error.code) from None
        except AddressValueError as error:
            raise AddressValueError(f"{name}: {error}") from None
        except (TypeError, ValueError) as error:
            raise (TypeError if isinstance(error, TypeError) else ValueError)(f"{name}: {error}") from None
        kind, inner, depth = place
        offset = len(self.octets)
        self.octets += carried
        try:
            packed = VALUE.pack(kind, inner, flags, row.form, depth, second, length, number, offset, octets)
        except struct.error:
            raise WriteError(name, index, Code.BAD_NUMBER) from None
        self.records.append(packed)
        self.owners.append((index, name))


def is_list(value: Any) -> bool:
    """Returns whether a value is a dict, a List or a list of pairs, in place of the bytes of a list."""
    return isinstance(value, (Mapping, list)) or hasattr(value, "_table")


def held_in(row: Row, data: bytes) -> bytes | Unknown:
    """Returns the value of an attribute that holds a list of another set: these bytes. One without a row may be an
    IFLA_PROTINFO, `type 12`, which is a list in a message of AF_BRIDGE if it has NLA_F_NESTED."""
    return Unknown(data, NLA_F_NESTED) if row.form == Form.UNKNOWN else data


class Unfit(Exception):
    """A value that no record can have."""

    def __init__(self, code: Code) -> None:
        self.code = code


def parts(value: Any, what: str, count: int) -> tuple[Any, ...]:
    """Returns the fields of a tuple. Raises TypeError if it is not one, or has another number of fields."""
    if not isinstance(value, tuple) or len(value) != count:
        raise TypeError(f"expected {what}, not {value!r}")
    return value


def empty(row: Row, value: Any) -> Fields:
    if value is not None:
        raise TypeError(f"expected None, not {value!r}")
    return 0, 0, 0, b"", 0, b""


def carried(content: bytes, flags: int = 0) -> Fields:
    return 0, 0, len(content), b"", flags, content


def number(row: Row, value: Any) -> Fields:
    if isinstance(value, str) and row.type and issubclass(row.type, Named):
        value = row.type(value)
    return whole_number(value), 0, 0, b"", 0, b""


def boolean(row: Row, value: Any) -> Fields:
    if row.optional and value is None:
        return 1, 0, 0, b"", 0, b""
    return whole_number(value), 0, 1, b"", 0, b""


def signed(row: Row, value: Any) -> Fields:
    it = whole_number(value)
    if not -(1 << 63) <= it < 1 << 63:
        raise Unfit(Code.BAD_NUMBER)
    return it & (1 << 64) - 1, 0, 0, b"", 0, b""


def two(what: str) -> Callable[[Row, Any], Fields]:
    """Returns the function for a tuple of two numbers."""

    def fields(row: Row, value: Any) -> Fields:
        first, second = parts(value, what, 2)
        return whole_number(first), whole_number(second), 0, b"", 0, b""

    return fields


def address(make: Callable[[Any], bytes]) -> Callable[[Row, Any], Fields]:
    """Returns the function for an address."""

    def fields(row: Row, value: Any) -> Fields:
        octets = make(value)
        return 0, 0, len(octets), octets, 0, b""

    return fields


def bridge_id(row: Row, value: Any) -> Fields:
    priority, octets = parts(value, "BridgeId", 2)
    return whole_number(priority), 0, 8, Mac(octets), 0, b""


def words(layout: str, *fields: Any) -> bytes:
    """Returns a struct. Raises Unfit if one of its numbers is out of range."""
    try:
        return struct.pack(layout, *fields)
    except struct.error:
        raise Unfit(Code.BAD_NUMBER) from None


def timing(row: Row, value: Any) -> Fields:
    return carried(words("=8I", *map(whole_number, parts(value, "CanBitTiming", 8))))


def limits(row: Row, value: Any) -> Fields:
    name, *numbers = parts(value, "CanBitTimingConst", 9)
    if not isinstance(name, str) or "\0" in name:
        raise (ValueError if isinstance(name, str) else TypeError)(f"{name!r} is not a name")
    octets = name.encode(errors="surrogateescape")
    if len(octets) > NAME_ROOM:
        raise Unfit(Code.TOO_LONG)
    return carried(words(f"={NAME_ROOM}s8I", octets, *map(whole_number, numbers)))


def octets_of(value: Any) -> bytes:
    return bytes(memoryview(value))


def packed(row: Row, value: Mapping[Any, Any]) -> bytes:
    """Returns a struct with these fields, and with zeros for the others. Raises KeyError if it has no field of a name."""
    if not row.struct:
        raise TypeError(f"expected bytes, not {value!r}")
    out, left = bytearray(row.struct.size), dict(value)
    for name, offset, layout in row.struct.fields:
        try:
            struct.pack_into(layout, out, offset, whole_number(left.pop(name, 0)))
        except struct.error:
            raise Unfit(Code.BAD_NUMBER) from None
    if left:
        raise KeyError(f"{row.name} has no {next(iter(left))}")
    return bytes(out)


def unknown(row: Row, value: Any) -> Fields:
    if isinstance(value, Unknown):
        return carried(octets_of(value.payload), whole_number(value.flags))
    return carried(octets_of(value))


# The fields of a value, by the form of its attribute type.
FIELDS: dict[int, Callable[[Row, Any], Fields]] = {
    Form.EMPTY: empty,
    Form.BOOL: boolean,
    Form.UNSIGNED: number,
    Form.SIGNED: signed,
    Form.NAMED: number,
    Form.FLAGS: number,
    Form.MASKED: two("Masked"),
    Form.MAC: address(Mac),
    Form.IPV4: address(lambda value: IPv4Address(value).packed),
    Form.IPV6: address(lambda value: IPv6Address(value).packed),
    Form.BRIDGE_ID: bridge_id,
    Form.VLAN_INFO: two("VlanInfo"),
    Form.QOS_MAPPING: two("QosMapping"),
    Form.BERR_COUNTER: two("BerrCounter"),
    Form.BITTIMING: timing,
    Form.BITTIMING_CONST: limits,
    Form.BYTES: lambda row, value: carried(packed(row, value) if isinstance(value, Mapping) else octets_of(value)),
    Form.TEXT: lambda row, value: carried(Text(value)),
    Form.HELD: lambda row, value: carried(octets_of(value)),
    Form.PEER: lambda row, value: carried(octets_of(value)),
    Form.UNKNOWN: unknown,
}
