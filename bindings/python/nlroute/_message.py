"""The messages of a buffer, and the lists in them."""
from __future__ import annotations

from collections.abc import Iterator
from typing import Any

from . import _library, _plain
from ._headers import AddressFamily, LinkFlags, MessageFlags, MessageType
from ._kinds import Family, Form
from ._list import List
from ._records import PEER_FIELDS, PEER_HEADER, VALUE, MessageRecord, record
from ._tables import TABLES

LEVELS = 6  # of lists that are opened below the attributes of a message


class Message:
    """A message. The fields from `index` on are those of its `struct ifinfomsg`; they are 0 if it has none.

    >>> import nlroute
    >>> link = bytes.fromhex("10000200 01000000 00000000 00000100 09000000 00000000 00000000")
    >>> info = bytes.fromhex("18001200 08000100 626f6e64 0c000200 05000100 04000000")
    >>> message, = nlroute.messages(bytes.fromhex("38000000") + link + info)
    >>> message.type, message.index, message.attributes.keys()
    (<MessageType.RTM_NEWLINK: 16>, 9, ['IFLA_LINKINFO'])
    >>> print(message.held(nlroute.Family.BOND))
    IFLA_BOND_MODE 802.3ad (4)
    """

    __slots__ = (
        "at", "type", "flags", "sequence", "port", "is_link", "index", "link_flags", "change", "link_type",
        "address_family", "payload", "_start",
    )  # fmt: skip

    at: int  # offset in the buffer, in bytes
    type: MessageType  # nlmsg_type
    flags: MessageFlags  # nlmsg_flags
    sequence: int  # nlmsg_seq
    port: int  # nlmsg_pid
    # whether it has a struct ifinfomsg: RTM_NEWLINK, RTM_DELLINK, RTM_GETLINK, RTM_SETLINK, RTM_NEWLINKPROP,
    # RTM_DELLINKPROP, RTM_GETLINKPROP
    is_link: bool
    index: int  # ifi_index
    link_flags: LinkFlags  # ifi_flags
    change: LinkFlags  # ifi_change
    link_type: int  # ifi_type
    address_family: AddressFamily  # ifi_family
    payload: bytes  # its attributes as they are in the buffer; without a struct ifinfomsg, what follows its header

    def __init__(self, at: int, fields: MessageRecord, data: bytes):
        self.at, self.is_link = at, bool(fields.is_link)
        self.type, self.flags = MessageType(fields.type), MessageFlags(fields.flags)
        self.sequence, self.port, self.index = fields.sequence, fields.port, fields.link_index
        self.link_flags, self.change = LinkFlags(fields.link_flags), LinkFlags(fields.change)
        self.link_type, self.address_family = fields.link_type, AddressFamily(fields.address_family)
        self.payload = data[fields.list : fields.list + fields.length]
        self._start = fields.list  # offset of the payload in the buffer

    @property
    def attributes(self) -> List:
        """Its attributes: empty, if it is not about a link. Raises Fault."""
        return List._read_at(self._start, Family.LINK, self.payload if self.is_link else b"")

    def held(self, family: Family) -> List | None:
        """Returns the last list of a set that an attribute holds, at any depth, or None. Raises Fault if it is malformed."""
        held = _library.held(self.payload, self.address_family, Family(family)) if self.is_link else None
        if held is None:
            return None
        at, length = held
        return List._read_at(self._start + at, Family(family), self.payload[at : at + length])

    def lists(self) -> Iterator[tuple[Family, List]]:
        """Yields its attributes, and each list that one of them holds, followed by those in it. Raises Fault."""
        if self.is_link:
            yield from lists_in(LEVELS, self.address_family, Family.LINK, self.payload, self._start)

    def to_dict(self) -> dict[str, Any]:
        """Returns the fields and the attributes, as `List.to_dict` does. Raises Fault if the attributes are malformed."""
        found: dict[str, Any] = {name: int(getattr(self, name)) for name in ("type", "flags", "sequence", "port")}
        if self.is_link:
            found |= {name: int(getattr(self, name)) for name in PEER_FIELDS}
            found["attributes"] = _plain.to_dict(TABLES[Family.LINK], self.payload, self.address_family, self._start)
        return found

    def __repr__(self) -> str:
        return f"<Message type={self.type} index={self.index} {len(self.payload)} bytes>"


def lists_in(
    depth: int, address_family: int, family: Family, data: bytes, start: int
) -> Iterator[tuple[Family, List]]:
    """Yields a list, which has the offset `start` in the buffer, and those in it, through a number of levels."""
    yield family, List._read_at(start, family, data)
    raw = bytes(_library.values(family, data))
    for index in range(len(raw) // VALUE.size if depth else 0):
        it = record(raw, index)
        if it.form not in (Form.HELD, Form.PEER, Form.UNKNOWN):
            continue
        one = raw[index * VALUE.size : (index + 1) * VALUE.size]
        below = _library.opens(family, address_family, one, data)
        if below is not None:
            held = data[it.offset : it.offset + it.length]
            skipped, inner = (PEER_HEADER, held[0]) if it.form == Form.PEER else (0, address_family)
            yield from lists_in(depth - 1, inner, below, held[skipped:], start + it.offset + skipped)


def messages(data: bytes | bytearray | memoryview) -> Iterator[Message]:
    """Yields the messages of a buffer, such as `recv` returns. Raises MessageFault at one that is malformed.

    >>> import nlroute
    >>> two = nlroute.messages(bytes.fromhex("10000000 03000000 05000000 00000000 08000000"))
    >>> next(two)
    <Message type=NLMSG_DONE index=0 0 bytes>
    >>> next(two)
    Traceback (most recent call last):
        ...
    nlroute.MessageFault: error at 16: 4 bytes left, too few for a message header
    """
    data, at = _library.whole(data), 0
    while (fields := _library.message(data, at)) is not None:
        yield Message(at, fields, data)
        at = fields.next
