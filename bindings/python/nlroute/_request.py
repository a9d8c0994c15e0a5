"""Requests about links."""
from __future__ import annotations

from operator import index as whole_number
from typing import Any, NamedTuple, overload

from . import _library
from ._errors import WriteError
from ._headers import AddressFamily, LinkFlags, MessageFlags, MessageType
from ._kinds import Code, Family, Form
from ._library import from_info_kind, from_port_kind
from ._list import List
from ._records import REQUEST, VALUE
from ._types import Key, Mac, T
from ._write import Values, Writer

CREATED = MessageFlags.ACK | MessageFlags.CREATE | MessageFlags.EXCL  # the flags of a request that makes something
IFLA_PROTINFO, IFLA_LINKINFO, IFLA_AF_SPEC = 12, 18, 26
INFO_KIND, INFO_DATA, INFO_SLAVE_KIND, INFO_SLAVE_DATA = 1, 2, 4, 5
INLINE = (1 << 64) - 1  # the offset of a value after which the values of its list follow
OF_MESSAGE = 0xFFFF  # the field `inner` of a value that is an attribute of the message


class Holder(NamedTuple):
    """What holds options: an attribute of the message or, with `inner`, an element of its IFLA_LINKINFO."""

    name: str
    kind: int
    inner: int = 0


MESSAGE = Holder("", 0)  # the message itself
AF_SPEC, PROTINFO = Holder("IFLA_AF_SPEC", IFLA_AF_SPEC), Holder("IFLA_PROTINFO", IFLA_PROTINFO)
DATA = Holder("IFLA_INFO_DATA", IFLA_LINKINFO, INFO_DATA)
PORT_DATA = Holder("IFLA_INFO_SLAVE_DATA", IFLA_LINKINFO, INFO_SLAVE_DATA)
# The set of the port data that an IFLA_INFO_KIND announces. With these two kinds, iproute2 sends no IFLA_INFO_SLAVE_KIND.
ANNOUNCED = {"bond_slave": Family.BOND_PORT, "bridge_slave": Family.BRIDGE_PORT}


class Request:
    """A request about a link: a whole rtnetlink message, such as the one that makes a bond. bytes() writes it.

    It asks for an acknowledgement (NLM_F_ACK), unless it asks for links. Each method changes the request, and returns it.

    >>> from nlroute import *
    >>> options = List(Family.BOND, {IFLA_BOND_MODE: "802.3ad", IFLA_BOND_MIIMON: 100})
    >>> len(bytes(Request.create("bond0").options(options)))
    76
    >>> bytes(Request.change(3).master(7).up())[32:].hex()
    '08000a0007000000'
    >>> Request.change(3).master(7).up()
    <Request RTM_NEWLINK flags=ACK index=3 link_flags=UP link_change=UP <LINK IFLA_MASTER=7>>

    Raises WriteError if an attribute or element cannot be written, with its name and its index: that of options in the list
    that was passed, that of other attributes in the message. Of an error in the header, the name is that of the field.

    >>> bytes(Request.delete(0))
    Traceback (most recent call last):
        ...
    nlroute.WriteError: ifi_index: the index of the link is 0 or negative
    """

    def __init__(self, type: int, flags: int, index: int, address_family: int = 0) -> None:
        """Makes a request of this nlmsg_type with these nlmsg_flags, to which NLM_F_REQUEST is added, and this ifi_index."""
        self.type: int = type
        self.flags: int = flags
        self.index: int = index
        self.address_family: int = address_family
        self.sequence = 0  # nlmsg_seq, which the replies repeat
        self.port = 0  # nlmsg_pid
        self.link_flags: int = LinkFlags(0)  # ifi_flags
        self.link_change: int = LinkFlags(0)  # those of them that change
        self._attributes = List(Family.LINK)
        self._kind: str | None = None
        self._options: list[List] = []

    @classmethod
    def create(cls, name: str) -> Request:
        """Makes a link with this name: RTM_NEWLINK with NLM_F_CREATE and NLM_F_EXCL."""
        return cls(MessageType.RTM_NEWLINK, CREATED, 0).named(name)

    @classmethod
    def change(cls, index: int) -> Request:
        """Changes the link with this index: RTM_NEWLINK."""
        return cls(MessageType.RTM_NEWLINK, MessageFlags.ACK, index)

    @classmethod
    def delete(cls, index: int) -> Request:
        """Deletes the link with this index: RTM_DELLINK."""
        return cls(MessageType.RTM_DELLINK, MessageFlags.ACK, index)

    @classmethod
    def get(cls, link: str | int) -> Request:
        """Asks for the link with this name or index: RTM_GETLINK."""
        kind, flags = MessageType.RTM_GETLINK, MessageFlags(0)
        return cls(kind, flags, 0).named(link) if isinstance(link, str) else cls(kind, flags, link)

    @classmethod
    def dump(cls) -> Request:
        """Asks for all links: RTM_GETLINK with NLM_F_DUMP."""
        return cls(MessageType.RTM_GETLINK, MessageFlags.DUMP, 0)

    @classmethod
    def bridge(cls, index: int) -> Request:
        """Sets VLANs and port options of the bridge or bridge port with this index: RTM_SETLINK of AF_BRIDGE.

        Its options are lists of Family.AF_SPEC_BRIDGE and Family.BRIDGE_PORT.
        """
        return cls(MessageType.RTM_SETLINK, MessageFlags.ACK, index, AddressFamily.BRIDGE)

    @classmethod
    def bridge_delete(cls, index: int) -> Request:
        """Deletes VLANs of the bridge or bridge port with this index: RTM_DELLINK of AF_BRIDGE. The link stays."""
        return cls(MessageType.RTM_DELLINK, MessageFlags.ACK, index, AddressFamily.BRIDGE)

    @classmethod
    def property(cls, index: int) -> Request:
        """Adds properties to the link with this index: RTM_NEWLINKPROP with NLM_F_CREATE, NLM_F_EXCL and NLM_F_APPEND.

        They are in an IFLA_PROP_LIST: `set("IFLA_PROP_LIST", {"IFLA_ALT_IFNAME": "uplink"})` adds an alternative name.
        """
        return cls(MessageType.RTM_NEWLINKPROP, CREATED | MessageFlags.APPEND, index)

    @classmethod
    def property_delete(cls, index: int) -> Request:
        """Deletes properties of the link with this index: RTM_DELLINKPROP."""
        return cls(MessageType.RTM_DELLINKPROP, MessageFlags.ACK, index)

    def up(self, is_up: bool = True) -> Request:
        """Sets the link up, or down (IFF_UP)."""
        self.link_flags = self.link_flags & ~LinkFlags.UP | (LinkFlags.UP if is_up else 0)
        self.link_change |= LinkFlags.UP
        return self

    def named(self, name: str) -> Request:
        """Sets the name (IFLA_IFNAME) that the link gets."""
        return self.set("IFLA_IFNAME", name)

    def mtu(self, mtu: int) -> Request:
        """Sets the MTU in bytes (IFLA_MTU)."""
        return self.set("IFLA_MTU", mtu)

    def address(self, address: str | Mac) -> Request:
        """Sets the hardware address (IFLA_ADDRESS)."""
        return self.set("IFLA_ADDRESS", bytes(Mac(address)))

    def link(self, index: int) -> Request:
        """Sets the index of the link that a VLAN device and the like is on (IFLA_LINK)."""
        return self.set("IFLA_LINK", index)

    def master(self, index: int) -> Request:
        """Makes the link a port of the bond or bridge with this index (IFLA_MASTER); 0 ends that."""
        return self.set("IFLA_MASTER", index)

    @overload
    def set(self, name: Key[T], value: T) -> Request: ...
    @overload
    def set(self, name: str, value: Any) -> Request: ...
    def set(self, name: Any, value: Any) -> Request:
        """Appends an attribute of the message. Raises KeyError if there is none of this name.

        A message has one IFLA_LINKINFO, one IFLA_AF_SPEC and one IFLA_PROTINFO (`type 12`): each is set here, or made from
        options and kind. A second one cannot be written (Code.REPEATED).
        """
        self._attributes.append(name, value)
        return self

    def kind(self, kind: str) -> Request:
        """Sets the kind of the device (IFLA_INFO_KIND), such as "dummy".

        Options have a kind of their own: set it for another one with the same options, such as "macvtap", or "bridge_slave"
        for those of a port. Options of another set than that of the kind cannot be written (Code.NO_SET).
        """
        self._kind = kind
        return self

    @overload
    def options(self, options: List) -> Request: ...
    @overload
    def options(self, options: Family, values: Values = ()) -> Request: ...
    def options(self, options: Any, values: Values = ()) -> Request:
        """Sets options: of a device, of a port or, for bridge(), of AF_BRIDGE. The attribute set tells which.

        Lists of the same set are joined, in order. Options of a device and options of a port are beside each other; those of
        two devices' sets, or of two ports' sets, cannot be written (Code.NO_SET). Nor can they in AF_BRIDGE, where Linux
        ignores them. An empty list of a device's options sets its kind only.

        >>> from nlroute import *
        >>> request = Request.change(3).options(Family.BOND, {IFLA_BOND_MIIMON: 200})
        >>> request = request.options(Family.BRIDGE_PORT, {IFLA_BRPORT_COST: 44})
        >>> bytes(request.options(Family.BOND, {IFLA_BOND_RESEND_IGMP: 2}))[44:64].hex(" ", 4)
        '14000200 08000300 c8000000 08000f00 02000000'
        """
        if isinstance(options, List) and values:
            raise TypeError("options in a List take no further values")
        lists = options if isinstance(options, List) else List(options, values)
        if lists._table.list_row:
            raise TypeError(f"{lists._table.title} is not a whole list: it is the value of an attribute")
        self._options.append(List._of(lists._table, list(lists._items)))  # (as it is now)
        return self

    def __repr__(self) -> str:
        flags = self.flags.text_in(self.type) if isinstance(self.flags, MessageFlags) else self.flags
        words = [str(self.type), f"flags={flags}", f"index={self.index}"]
        for name in "address_family", "sequence", "port", "link_flags", "link_change":
            words += [f"{name}={getattr(self, name)}"] if getattr(self, name) else []
        words += [] if self._kind is None else [f"kind={self._kind!r}"]
        lists = [it for it in (self._attributes, *self._options) if len(it) or it is not self._attributes]
        return f"<Request {' '.join([*words, *map(repr, lists)])}>"

    def __bytes__(self) -> bytes:
        """The message as it is sent. Raises WriteError, TypeError or ValueError if it cannot be written."""
        parts = Parts(self._head(), self.address_family)
        parts.add_list(self._attributes, 0)
        for options in self._options:
            family, holder = options.family, self._holder(options.family)
            if holder is None:
                raise WriteError(str(family), 0, Code.NO_SET)
            if holder == MESSAGE:
                parts.add_list(options, 0)
            elif holder.kind in parts.held:
                continue  # (the first options of this list were joined with these)
            elif holder.inner:
                self._add_info(parts)
            elif len(options):
                parts.add_held(holder, self._held(holder), family)
        if self._kind is not None and IFLA_LINKINFO not in parts.held:
            self._add_info(parts)
        return parts.write()

    def _holder(self, family: Family) -> Holder | None:
        """Returns what holds the options of a set, or None if the request has no place for them."""
        is_bridge = self.address_family == AddressFamily.BRIDGE
        if family == Family.LINK:
            return MESSAGE
        if family == (Family.AF_SPEC_BRIDGE if is_bridge else Family.AF_SPEC):
            return AF_SPEC
        if is_bridge:
            return PROTINFO if family == Family.BRIDGE_PORT else None
        if from_info_kind(str(family)) == family:
            return DATA
        return PORT_DATA if from_port_kind(port_kind(family)) == family else None

    def _held(self, holder: Holder) -> list[List]:
        """Returns the lists of options that are joined in it."""
        return [it for it in self._options if self._holder(it.family) == holder]

    def _add_info(self, parts: Parts) -> None:
        """Adds the IFLA_LINKINFO: kind and data of the device, then those of the port."""
        data, port_data = self._held(DATA), self._held(PORT_DATA)
        kind = str(data[0].family) if data and self._kind is None else self._kind
        parts.add("IFLA_LINKINFO", IFLA_LINKINFO, 0, 0, Form.LIST)
        if kind is not None:
            parts.add_kind("IFLA_INFO_KIND", INFO_KIND, kind)
            reader = from_info_kind(kind.removesuffix("\0"))
            if data and reader is None and not any(map(len, data)):
                reader = data[0].family  # (a kind that has no set may have options without values)
            parts.add_held(DATA, data, reader)
        if port_data:
            family = port_data[0].family
            announced = None if self._kind is None else ANNOUNCED.get(self._kind.removesuffix("\0"))
            # (a kind that was set is enough if it announces the set, or if there are no data)
            if self._kind is None or (announced is None and any(map(len, port_data))):
                parts.add_kind("IFLA_INFO_SLAVE_KIND", INFO_SLAVE_KIND, port_kind(family))
            parts.add_held(PORT_DATA, port_data, family if announced is None else announced)

    def _head(self) -> bytes:
        """Returns the `struct nlroute_head`."""
        fields = {"nlmsg_type": (self.type, 16), "nlmsg_flags": (self.flags, 16), "nlmsg_seq": (self.sequence, 32)}
        fields |= {"nlmsg_pid": (self.port, 32), "ifi_family": (self.address_family, 8), "ifi_index": (self.index, 31)}
        fields |= {"ifi_flags": (self.link_flags, 32), "ifi_change": (self.link_change, 32)}
        for name, (value, bits) in fields.items():
            if not (-1 << 31 if bits == 31 else 0) <= whole_number(value) < 1 << bits:
                raise WriteError(name, 0, Code.NO_INDEX if bits == 31 else Code.BAD_NUMBER)
        kind, flags, sequence, port, address_family, index, link_flags, change = (it for it, _ in fields.values())
        return REQUEST.pack(kind, flags, sequence, port, address_family, 0, 0, index, link_flags, change)


def port_kind(family: Family) -> str:
    """Returns the kind of the ports that have a set."""
    return str(family).removesuffix("_port")


class Parts:
    """The records of a request, the bytes that they refer to, and what each record is of."""

    def __init__(self, head: bytes, address_family: int) -> None:
        self.head, self.address_family = head, address_family
        self.records: list[bytes] = []
        self.octets = bytearray()
        self.owners: list[tuple[int, str]] = []
        self.attributes = 0
        self.held: set[int] = set()  # types of the attributes of the message that hold options

    def add_list(self, items: List, depth: int, holder: Holder | None = None) -> None:
        """Adds the values of a list, after the attribute or element that holds them, if there are any.

        Raises as bytes() does.
        """
        writer = Writer(items._table, self.address_family)
        error = writer.add_all(items._items)
        if holder and writer.records:
            self.add(*holder, depth - 1, Form.HELD, INLINE)
        start, first = len(self.octets), self.attributes if depth == 0 else 0
        for raw in writer.records:
            kind, inner, flags, form, own, second, length, number, offset, octets = VALUE.unpack(raw)
            if depth + own == 0:
                inner = OF_MESSAGE
            moved = kind, inner, flags, form, own + depth, second, length, number, offset + start, octets
            self.records.append(VALUE.pack(*moved))
        self.octets += writer.octets
        self.owners += [(index + first, name) for index, name in writer.owners]
        self.attributes += len(items) if depth == 0 else 0
        if error:
            self.write()  # (a value before it may have another error)
            raise WriteError(error.name, error.index + first, error.code)

    def add_held(self, holder: Holder, lists: list[List], family: Family | None) -> None:
        """Adds the values of lists, joined, after the attribute or element that holds them, if there are any.

        Raises as bytes() does, also if a list has another set than `family`, which reads the values.
        """
        if any(it.family != family for it in lists):
            self.write()  # (a value before the lists may have an error)
            raise WriteError(holder.name, self.attributes - 1, Code.NO_SET)
        first: Holder | None = holder
        for items in filter(len, lists):
            self.add_list(items, 2 if holder.inner else 1, first)
            first = None

    def add(self, name: str, kind: int, inner: int, depth: int, form: int, offset: int = 0, length: int = 0) -> None:
        """Adds a record of the message."""
        if depth == 0:
            self.attributes += 1
            self.held.add(kind)
            inner = OF_MESSAGE
        self.records.append(VALUE.pack(kind, inner, 0, form, depth, 0, length, 0, offset, b""))
        self.owners.append((self.attributes - 1, name))

    def add_kind(self, name: str, inner: int, kind: str) -> None:
        """Adds a kind to the IFLA_LINKINFO."""
        words = kind.encode(errors="surrogateescape")
        self.add(name, IFLA_LINKINFO, inner, 1, Form.TEXT, len(self.octets), len(words))
        self.octets += words

    def write(self) -> bytes:
        """Returns the message. Raises WriteError."""
        return _library.request(self.head, b"".join(self.records), bytes(self.octets), self.owners)
