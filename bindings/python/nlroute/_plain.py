"""Values as `json` writes them."""
from __future__ import annotations

from ipaddress import IPv4Address, IPv6Address
from typing import Any

from ._errors import Fault
from ._kinds import Family, Form
from ._library import kind_name, opens, value_text
from ._read import content, groups, is_array, payload, struct_fields_of
from ._records import IFINFOMSG, PEER_FIELDS, PEER_HEADER, Record, record
from ._tables import TABLES, Table
from ._types import Flags, Mac, Named, Row, Text

# Attributes of which Linux sends and reads several, by the set or the list that has them.
REPEATED = {
    ("AF_SPEC_BRIDGE", "IFLA_BRIDGE_VLAN_INFO"),
    ("AF_SPEC_BRIDGE", "IFLA_BRIDGE_VLAN_TUNNEL_INFO"),
    ("IFLA_MACVLAN_MACADDR_DATA", "IFLA_MACVLAN_MACADDR"),
    ("IFLA_PROP_LIST", "IFLA_ALT_IFNAME"),
}


def to_dict(table: Table, data: bytes, address_family: int = 0, start: int = 0) -> dict[str, Any]:
    """Returns the values of a list by name, in a message of this address family. It has the offset `start` for errors.

    Raises Fault.
    """
    found: dict[str, Any] = {}
    for raw, elements in groups(table.family, data, start):
        it = record(raw, 0)
        row = table.by_kind.get(it.kind)
        if it.form != Form.LIST or row is None:
            value = plain(table, row, raw, data, address_family, start)
        elif row.item:
            value = array(table, row.item, raw, elements, data)
        else:
            value = inner(table.below[it.kind], elements, data, address_family, start)
        put(found, table, table.name(it.kind), value)
    return found


def put(found: dict[str, Any], table: Table, name: str, value: Any) -> None:
    """Stores a value, after those before it if the attribute is one that repeats."""
    if (table.title, name) in REPEATED:
        found.setdefault(name, []).append(value)
    else:
        found[name] = value


def inner(table: Table, elements: list[bytes], data: bytes, address_family: int, start: int) -> dict[str, Any]:
    """Returns the elements of a nested list by name."""
    found: dict[str, Any] = {}
    for raw in elements:
        kind = record(raw, 0).inner
        put(found, table, table.name(kind), plain(table, table.by_kind.get(kind), raw, data, address_family, start))
    return found


def array(table: Table, row: Row, raw: bytes, elements: list[bytes], data: bytes) -> Any:
    """Returns the elements of an array: by the names of their places if they have names."""
    values = [value_of(content(row, record(element, 0), data)) for element in elements]
    names = [kind_name(table.family, element) for element in elements]
    if not names or names[0].startswith("[") or not is_array(table, raw):
        return values
    return dict(zip((name.strip("[]") for name in names), values))


def plain(table: Table, row: Row | None, raw: bytes, data: bytes, address_family: int, start: int) -> Any:
    """Returns a value that is not a nested list."""
    it = record(raw, 0)
    if it.form in (Form.HELD, Form.PEER, Form.UNKNOWN):
        found = held(table, raw, it, data, address_family, start)
        if found is not None:
            return found
    if it.form == Form.BYTES:
        return octets(table, raw, it, data)
    return value_of(content(row, it, data))


def held(table: Table, raw: bytes, it: Record, data: bytes, address_family: int, start: int) -> dict[str, Any] | None:
    """Returns a list of another set, or None if no set reads it."""
    family = opens(table.family, address_family, raw, data)
    if family is None:
        return None
    found, at = payload(it, data), start + it.offset
    if it.form != Form.PEER:
        return read_or_marked(family, found, address_family, at)
    header = dict(zip(PEER_FIELDS, IFINFOMSG.unpack_from(found)))
    below = read_or_marked(family, found[PEER_HEADER:], header["address_family"], at + PEER_HEADER)
    return {**header, "attributes": below}


def read_or_marked(family: Family, data: bytes, address_family: int, start: int) -> dict[str, Any]:
    """Returns the values of a list by name; of one that is malformed, its first error and its bytes."""
    try:
        return to_dict(TABLES[family], data, address_family, start)
    except Fault as fault:
        return {"error": str(fault), "hex": data.hex()}


def octets(table: Table, raw: bytes, it: Record, data: bytes) -> Any:
    """Returns a struct by its fields, and other bytes as the text of an address or as hex digits."""
    fields = struct_fields_of(table.family, raw, it, data)
    if fields:
        return {name: value_of(value) for name, value in fields.items()}
    found = payload(it, data)
    address = found.hex(":")
    return address if value_text(table.family, raw, data) == address else found.hex()


def value_of(value: Any) -> Any:
    """Returns a value of the package as one of `json`."""
    if isinstance(value, Named):
        return value.text or int(value)
    if isinstance(value, Flags):
        return [name for name in str(value).split("|") if name != "0"]
    if isinstance(value, (Mac, Text, IPv4Address, IPv6Address)):
        return str(value)
    if isinstance(value, bytes):
        return value.hex()
    if isinstance(value, tuple):
        fields = zip(getattr(value, "_fields"), value)
        return {name.rstrip("_"): value_of(it) for name, it in fields if it is not None}
    return value
