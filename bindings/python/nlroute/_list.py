"""Lists of attributes."""
from __future__ import annotations

from collections.abc import Iterable, Iterator
from typing import Any, overload

from . import _library, _plain, _read, _write
from ._kinds import Family, Unit
from ._records import HEADER
from ._tables import TABLES, Table
from ._types import Attribute, Key, Mac, Name, T
from ._write import Values, pairs


def text(family: Family, data: bytes | bytearray | memoryview) -> str:
    """Returns what `nlshow` prints of a list: a line for each attribute, with the kernel's name and the unit.

    Elements of a nested list are below it, indented. Of a list of another set, such as IFLA_INFO_DATA, `nlshow` prints
    the attributes, and this its length: read its bytes. Raises Fault.

    >>> print(text(Family.BRIDGE, bytes.fromhex("08000100 dc050000")))
    IFLA_BR_FORWARD_DELAY 1500 (15.00 s)
    """
    return "\n".join(_read.lines(TABLES[Family(family)], data))


class List:
    """A list of attributes: the payload of an IFLA_INFO_DATA, for example, or a list inside of it.

    It is a sequence of attributes, which are pairs of a name and a value. By name, it is a mapping to the last value.

    >>> from nlroute import *
    >>> bond = List(Family.BOND, {"IFLA_BOND_MODE": "802.3ad", "IFLA_BOND_ARP_IP_TARGET": ["10.0.0.1"]})
    >>> bond[IFLA_BOND_MIIMON] = 100
    >>> bytes(bond).hex(" ", 4)
    '05000100 04000000 0c000800 08000000 0a000001 08000300 64000000'
    >>> len(bond), bond[0], "IFLA_BOND_UPDELAY" in bond, bond.get("IFLA_BOND_UPDELAY")
    (3, Attribute(name='IFLA_BOND_MODE', value='802.3ad'), False, None)

    A value is converted and checked when the list is written. Then a number may be out of range (WriteError), have
    another type (TypeError), or a name or an address may not be one (ValueError).
    """

    __slots__ = "_table", "_items"
    __hash__ = None  # type: ignore[assignment]

    def __init__(self, family: Family, values: Values = ()) -> None:
        self._table = TABLES[Family(family)]
        self._items: list[Attribute] = []
        self.extend(values)

    @classmethod
    def within(cls, family: Family, name: Name, values: Values = ()) -> List:
        """Makes a list to be the value of an attribute, such as IFLA_BOND_AD_INFO."""
        self = cls._of(TABLES[Family(family)].nested(str(name)), [])
        self.extend(values)
        return self

    @classmethod
    def read(cls, family: Family, data: bytes | bytearray | memoryview) -> List:
        """Parses a list. Raises Fault."""
        return cls._read_at(0, Family(family), _library.whole(data))

    @classmethod
    def _read_at(cls, start: int, family: Family, data: bytes) -> List:
        """Parses a list that has this offset in a buffer of messages. Raises Fault."""
        table = TABLES[family]
        return cls._of(table, _read.attributes(table, data, cls._of, start))

    @classmethod
    def _of(cls, table: Table, items: list[Attribute]) -> List:
        self = cls.__new__(cls)
        self._table, self._items = table, items
        return self

    @property
    def family(self) -> Family:
        """The attribute set."""
        return self._table.family

    def __len__(self) -> int:
        return len(self._items)

    def __iter__(self) -> Iterator[Attribute]:
        return iter(self._items)

    @overload
    def append(self, name: Key[T], value: T) -> None: ...
    @overload
    def append(self, name: str, value: Any) -> None: ...
    def append(self, name: Any, value: Any) -> None:
        """Adds an attribute at the end, even if there is one of this name."""
        self._table.row(name)
        self._items.append(Attribute(str(name), value))

    def extend(self, values: Values) -> None:
        """Adds attributes at the end: those of a mapping, a list, or pairs."""
        added = []
        for name, value in pairs(values):
            self._table.row(name)
            added.append(Attribute(str(name), value))
        self._items += added

    @overload
    def __getitem__(self, key: Key[T]) -> T: ...
    @overload
    def __getitem__(self, key: str) -> Any: ...
    @overload
    def __getitem__(self, key: int) -> Attribute: ...
    @overload
    def __getitem__(self, key: slice) -> list[Attribute]: ...
    def __getitem__(self, key: Any) -> Any:
        if not isinstance(key, str):
            return self._items[key]
        for name, value in reversed(self._items):
            if name == key:
                return value
        self._table.row(key)
        raise KeyError(str(key))

    @overload
    def get(self, key: Key[T]) -> T | None: ...
    @overload
    def get(self, key: Key[T], default: T) -> T: ...
    @overload
    def get(self, key: str, default: Any = None) -> Any: ...
    def get(self, key: Any, default: Any = None) -> Any:
        """Returns the last value of this name, or `default`."""
        self._table.row(key)
        return next((value for name, value in reversed(self._items) if name == key), default)

    @overload
    def get_all(self, key: Key[T]) -> list[T]: ...
    @overload
    def get_all(self, key: str) -> list[Any]: ...
    def get_all(self, key: Any) -> list[Any]:
        """Returns all values of this name, in order."""
        self._table.row(key)
        return [value for name, value in self._items if name == key]

    def fields(self, key: Name) -> dict[str, int | Mac | bytes]:
        """Returns the fields of a struct, by their names in the kernel's headers: of the last value of this name.

        It is empty if the value is no struct. Raises as bytes() does.

        >>> from nlroute import *
        >>> List(Family.BRIDGE, {IFLA_BR_BRIDGE_ID: BridgeId(32768, Mac("02:00:00:00:00:01"))}).fields(IFLA_BR_BRIDGE_ID)
        {'prio': 32768, 'addr': Mac('02:00:00:00:00:01')}
        """
        only = List._of(self._table, [Attribute(str(key), self[str(key)])])
        if not self._table.list_row:
            return _read.struct_fields(self.family, bytes(only), 0)
        return _read.struct_fields(self.family, bytes(List(self.family, [(self._table.title, only)])), 1)

    def unit(self, key: Name) -> Unit:
        """Returns what the numbers of an attribute count, whether the list has it or not.

        >>> from nlroute import *
        >>> List(Family.BOND).unit(IFLA_BOND_MIIMON)
        <Unit.MILLISECONDS: 2>
        """
        return Unit(self._table.row(str(key)).unit)

    @overload
    def __setitem__(self, key: Key[T], value: T) -> None: ...
    @overload
    def __setitem__(self, key: str, value: Any) -> None: ...
    def __setitem__(self, key: Any, value: Any) -> None:
        """Replaces all values of this name by one, at the place of the first; adds it at the end if there is none."""
        self._table.row(key)
        first = next((at for at, item in enumerate(self._items) if item.name == key), len(self._items))
        rest = [item for item in self._items[first:] if item.name != key]
        self._items[first:] = [Attribute(str(key), value), *rest]

    def __delitem__(self, key: Name) -> None:
        """Removes all values of this name. Raises KeyError if there is none."""
        self[key]
        self._items = [item for item in self._items if item.name != key]

    def __contains__(self, key: object) -> bool:
        return any(item.name == key for item in self._items)

    def keys(self) -> list[str]:
        """Returns the names, each once."""
        return list(dict.fromkeys(item.name for item in self._items))

    def items(self) -> list[Attribute]:
        """Returns the names, each once, with the last value of each. The list itself has all values."""
        return [Attribute(name, self[name]) for name in self.keys()]

    def to_dict(self) -> dict[str, Any]:
        """Returns names with values that `json.dumps` takes: the last value of each name.

        An enum is its text or, without one, a number; flags are a list of names. Addresses are text, other bytes hex
        digits. A struct is a dict, and so is an array whose places have names. Lists of other sets are read, as in
        IFLA_INFO_DATA; one that is malformed is a dict of its first `error` and its bytes, `hex`. Attributes that Linux
        sends several times, such as IFLA_BRIDGE_VLAN_INFO, are a list of all values. Raises as bytes() does.

        >>> from nlroute import *
        >>> bond = {"IFLA_BOND_MODE": 4, "IFLA_BOND_ARP_IP_TARGET": ["10.0.0.1"]}
        >>> List(Family.BOND, bond).to_dict()
        {'IFLA_BOND_MODE': '802.3ad', 'IFLA_BOND_ARP_IP_TARGET': ['10.0.0.1']}
        """
        if not self._table.list_row:
            return _plain.to_dict(self._table, bytes(self))
        above = List(self.family, [(self._table.title, self)])
        # (the offsets of errors count from the list, before which is a header)
        found: dict[str, Any] = _plain.to_dict(above._table, bytes(above), start=-HEADER)
        inner: dict[str, Any] = found[self._table.title]
        return inner

    def __eq__(self, other: object) -> bool:
        if not isinstance(other, List):
            return NotImplemented
        return self._table is other._table and self._items == other._items

    def __repr__(self) -> str:
        return f"<{self._table.title}{','.join(f' {name}={value!r}' for name, value in self._items)}>"

    def __reduce__(self) -> tuple[Any, ...]:
        return _restore, (type(self), self.family, self._table.list_kind, self._items)

    def __bytes__(self) -> bytes:
        """The list as it is sent. Raises WriteError, TypeError or ValueError if a value cannot be written."""
        if self._table.list_row:
            raise TypeError(f"{self._table.title} is not a whole list: it is the value of an attribute")
        return _write.write(self._table, self._items)

    def __str__(self) -> str:
        """text() of the list. Raises as bytes() does."""
        if not self._table.list_row:
            return text(self.family, bytes(self))
        above = List(self.family, [(self._table.title, self)])
        return "\n".join(line.removeprefix("  ") for line in str(above).splitlines()[1:])


def _restore(cls: type[List], family: Family, list_kind: int | None, items: Iterable[Attribute]) -> List:
    """Makes a list that was pickled or copied."""
    table = TABLES[family]
    return cls._of(table if list_kind is None else table.below[list_kind], list(items))


read = List.read
