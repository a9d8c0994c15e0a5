"""Types of values: enums, flags, addresses and structs, and the names of attributes as keys."""
from __future__ import annotations

import re
from collections.abc import Iterable
from enum import IntEnum, IntFlag
from ipaddress import IPv4Address, IPv6Address
from types import GenericAlias
from typing import TYPE_CHECKING, Any, Generic, NamedTuple, TypeVar, Union

if TYPE_CHECKING:
    from ._list import List

T = TypeVar("T")
F = TypeVar("F", bound=int)


E = TypeVar("E", bound="Texts")


class Texts(IntEnum):
    """An enum whose members have a text. This, in place of a number, also makes a member."""

    text: str

    # (A name as the argument is for `_missing_`.)
    def __new__(cls: type[E], number: int | str, text: str = "") -> E:
        self = int.__new__(cls, number)
        self._value_, self.text = int(self), text
        return self

    @classmethod
    def _missing_(cls, value: object) -> Any:
        if not isinstance(value, str):
            return None
        found = next((member for member in cls if member.text == value), None)
        if found is None:
            raise ValueError(f"{value!r} is not a valid {cls.__name__}: {', '.join(member.text for member in cls)}")
        return found

    def __str__(self) -> str:
        return self.text or str(int(self))

    def __format__(self, spec: str) -> str:
        return format(int(self), spec) if spec else str(self)


class Named(Texts):
    """An enum of the kernel. `text` is the name that `ip` and `nlshow` print.

    A number without a name is a member too, whose `text` is empty: kernels may add some.

    >>> from nlroute import BondMode
    >>> BondMode("802.3ad"), BondMode(4).text, str(BondMode(77))
    (<BondMode.IEEE8023AD: 4>, '802.3ad', '77')
    """

    @classmethod
    def _missing_(cls, value: object) -> Any:
        if not isinstance(value, int):
            return super()._missing_(value)
        # This member is not stored: input could otherwise fill the memory.
        self = int.__new__(cls, value)
        self._name_, self._value_, self.text = str(int(value)), int(value), ""
        return self


MOST_STORED = 16  # bits of flags whose sets are stored


class Flags(IntFlag):
    """A set of flags. Bits without a name are kept.

    >>> from nlroute import VlanFlags
    >>> print(VlanFlags.GVRP | VlanFlags.REORDER_HDR | 0x80)
    REORDER_HDR|GVRP|0x80
    """

    @classmethod
    def _named(cls) -> int:
        """Returns the bits that have a name in texts."""
        return sum(cls)

    @classmethod
    def _missing_(cls, value: object) -> Any:
        if isinstance(value, int) and value < 0:
            # the complement, which Python before 3.11 leaves negative
            return cls(value + (1 << max(cls._named().bit_length(), value.bit_length())))
        self = super()._missing_(value)
        named = cls._named()
        if isinstance(self, cls) and (int(self) & ~named or named >> MOST_STORED):
            # IntFlag stores each new set. Sets of few named bits are few; of the others, input could make 2^32.
            cls._value2member_map_.pop(int(self), None)
        return self

    def __str__(self) -> str:
        named = self._named()
        names = [member.name or "" for member in type(self) if member & named and member in self]
        rest = int(self) & ~named
        return "|".join(names + ([hex(rest)] if rest else [])) or "0"

    def __format__(self, spec: str) -> str:
        return format(int(self), spec) if spec else str(self)


MAC = re.compile(r"[0-9A-Fa-f]{2}(?:([:-])[0-9A-Fa-f]{2})(?:\1[0-9A-Fa-f]{2}){4}")


class Mac(bytes):
    """A MAC address: six bytes.

    >>> from nlroute import Mac
    >>> Mac("02:00:00:00:00:01"), Mac(b"\\2\\0\\0\\0\\0\\1") == Mac("02-00-00-00-00-01")
    (Mac('02:00:00:00:00:01'), True)
    """

    __slots__ = ()

    def __new__(cls, address: str | bytes | bytearray | memoryview | Iterable[int]) -> Mac:
        if isinstance(address, str):
            octets = bytes.fromhex(re.sub("[:-]", "", address)) if MAC.fullmatch(address) else b""
        else:
            octets = bytes(iter(address))
        if len(octets) != 6:
            raise ValueError(f"{address!r} is not a MAC address")
        return super().__new__(cls, octets)

    def __str__(self) -> str:
        return self.hex(":")

    def __repr__(self) -> str:
        return f"Mac({str(self)!r})"


class Text(bytes):
    """A text: its bytes, and the NUL at their end if the attribute has one. One made of a str has one.

    >>> from nlroute import Text
    >>> Text("eth0"), str(Text("eth0")), str(Text(b"eth0"))
    (Text(b'eth0\\x00'), 'eth0', 'eth0')
    """

    __slots__ = ()

    def __new__(cls, text: str | bytes | bytearray | memoryview) -> Text:
        octets = text.encode(errors="surrogateescape") + b"\0" if isinstance(text, str) else bytes(memoryview(text))
        return super().__new__(cls, octets)

    def __str__(self) -> str:
        return self.removesuffix(b"\0").decode(errors="surrogateescape")

    def __repr__(self) -> str:
        return f"Text({super().__repr__()})"


if TYPE_CHECKING:

    class Masked(NamedTuple, Generic[F]):
        flags: F
        mask: F

else:
    # (before 3.11, a NamedTuple cannot be a Generic)
    class Masked(NamedTuple):
        """Flags, and a mask of the flags that the message sets."""

        flags: F
        mask: F
        __class_getitem__ = classmethod(GenericAlias)


class VlanInfo(NamedTuple):
    """`struct bridge_vlan_info`."""

    vid: int
    flags: int = 0


class QosMapping(NamedTuple):
    """`struct ifla_vlan_qos_mapping`. `from` is a keyword of Python."""

    from_: int
    to: int


class BerrCounter(NamedTuple):
    """`struct can_berr_counter`."""

    txerr: int
    rxerr: int


class BridgeId(NamedTuple):
    """A bridge's priority and address."""

    priority: int
    address: Mac


class CanBitTiming(NamedTuple):
    """`struct can_bittiming`."""

    bitrate: int = 0
    sample_point: int = 0
    tq: int = 0
    prop_seg: int = 0
    phase_seg1: int = 0
    phase_seg2: int = 0
    sjw: int = 0
    brp: int = 0


class CanBitTimingConst(NamedTuple):
    """`struct can_bittiming_const`. Bytes of the name that are not UTF-8 are surrogates, as in file names."""

    name: str
    tseg1_min: int
    tseg1_max: int
    tseg2_min: int
    tseg2_max: int
    sjw_max: int
    brp_min: int
    brp_max: int
    brp_inc: int


class Unknown(NamedTuple):
    """The payload of an attribute whose type the library does not know."""

    payload: bytes
    flags: int = 0  # NLA_F_NESTED and NLA_F_NET_BYTEORDER of nla_type
    kind: int | None = None  # for an element among mappings: its type


Content = Union[
    None, bool, int, Mac, IPv4Address, IPv6Address, BridgeId, VlanInfo, QosMapping, BerrCounter, CanBitTiming,
    CanBitTimingConst, bytes, Masked[Any], "list[Any]", "List", Unknown,
]  # fmt: skip


if TYPE_CHECKING:

    class Key(Generic[T]):
        # Not a str here: where both are accepted, type checkers would take a value of a wrong type for that of a str.
        def __init__(self, name: str) -> None: ...
        def __eq__(self, other: object) -> bool: ...
        def __hash__(self) -> int: ...

else:

    class Key(str, Generic[T]):
        """The name of an attribute, a str, with the type of its values: `IFLA_BOND_MODE` is a `Key[BondMode]`.

        Type checkers know the values of keys. For a plain str they accept every value.
        """

        __slots__ = ()


Name = Union[str, Key[Any]]


class Attribute(NamedTuple):
    """An attribute of a list."""

    name: str
    value: Content


class Struct(NamedTuple):
    """The struct that the bytes of an attribute are."""

    size: int  # in bytes
    fields: tuple[tuple[str, int, str], ...]  # the name, the offset, and the format for struct.pack()


class Row(NamedTuple):
    """What the library knows of an attribute type, or of an element of a list."""

    name: str  # empty for an element that has an index in place of a type
    kind: int
    form: int
    type: type[Named] | type[Flags] | None = None
    unit: int = 0  # a Unit: what its number counts, or each number of its array
    elements: tuple[Row, ...] = ()  # of a nested list
    item: Row | None = None  # of a list of addresses, numbers or mappings
    optional: bool = False  # a boolean that may have no payload: None without
    struct: Struct | None = None  # of bytes that are one
