"""Finds Linux link attributes in netlink messages, reads, prints, changes and writes them, and writes requests.

To read the bytes of a list, such as the payload of IFLA_INFO_DATA of a bond:
    bond = read(Family.BOND, data)           the attributes, each a name with a value
    bond[IFLA_BOND_MIIMON]                   the value of one; KeyError if it is not there
    bond.to_dict()                           all, as json.dumps takes them
    text(Family.BOND, data)                  all, a line for each, as nlshow prints them
To read messages:
    for message in messages(data)            each message of a buffer, such as recv returns
    message.held(Family.BOND)                the last list of a set in it, or None
    message.lists()                          all lists in it, each with its set
To write the bytes of a list:
    bond = List(Family.BOND, {name: value})  a list of these values
    bond[IFLA_BOND_MIIMON] = 200             replaces or adds a value
    bytes(bond)                              the bytes; WriteError if a value does not fit
To write a request, which bytes() also does:
    Request.create("bond0").options(bond)    makes a link with these options
    Request.change(index).master(7).up()     changes the link with this index

Constants, such as IFLA_BOND_MIIMON, have the kernel's names, and know the types of their values. Malformed bytes raise Fault. `build()` says which library does the work, and whether it is proved.

>>> from nlroute import *
>>> bridge = read(Family.BRIDGE, bytes.fromhex("08000100dc050000 0a001400 0180c2000000 0000"))
>>> bridge[IFLA_BR_FORWARD_DELAY]
1500
>>> print(bridge)
IFLA_BR_FORWARD_DELAY 1500 (15.00 s)
IFLA_BR_GROUP_ADDR 01:80:c2:00:00:00
>>> bridge[IFLA_BR_FORWARD_DELAY] = 700
>>> bytes(bridge)[:8].hex()
'08000100bc020000'
>>> for name, value in bridge:
...     print(name, value)
IFLA_BR_FORWARD_DELAY 700
IFLA_BR_GROUP_ADDR 01:80:c2:00:00:00
>>> read(Family.BRIDGE, bytes.fromhex("08000100dc050000 0700020001020300"))
Traceback (most recent call last):
    ...
nlroute.Fault: error at 8: IFLA_BR_HELLO_TIME has 3 bytes, expected 4
"""
import typing as _typing

from . import _kinds
from ._errors import Error as Error, Fault as Fault, MessageFault as MessageFault, WriteError as WriteError
from ._headers import AddressFamily as AddressFamily, LinkFlags as LinkFlags
from ._headers import MessageFlags as MessageFlags, MessageType as MessageType
from ._kinds import *
from ._kinds import VERSION as _VERSION
from ._library import build as build, from_info_kind as from_info_kind, from_port_kind as from_port_kind
from ._list import List as List, read as read, text as text
from ._message import Message as Message, messages as messages
from ._request import Request as Request
from ._types import (
    Attribute as Attribute,
    BerrCounter as BerrCounter,
    BridgeId as BridgeId,
    CanBitTiming as CanBitTiming,
    CanBitTimingConst as CanBitTimingConst,
    Content as Content,
    Flags as Flags,
    Key as Key,
    Mac as Mac,
    Masked as Masked,
    Named as Named,
    QosMapping as QosMapping,
    Text as Text,
    Unknown as Unknown,
    VlanInfo as VlanInfo,
)

# (mypy does not add the names of another module; it takes `A as A` for a public name)
if not _typing.TYPE_CHECKING:
    __all__ = [
        "Error", "Fault", "MessageFault", "WriteError", "build", "from_info_kind", "from_port_kind", "List", "read", "text",
        "Message", "messages", "Request", "Attribute", "BerrCounter", "BridgeId", "CanBitTiming", "CanBitTimingConst",
        "Content", "Flags", "Key", "Mac", "Masked", "Named", "QosMapping", "Text", "Unknown", "VlanInfo",
        "AddressFamily", "LinkFlags", "MessageFlags", "MessageType", *_kinds.__all__,
    ]  # fmt: skip

__version__ = f"{_VERSION >> 16}.{_VERSION >> 8 & 255}.{_VERSION & 255}"

# Tracebacks, pickles and documentation show the public name of a class: nlroute.Fault.
for _it in list(globals().values()):
    if isinstance(_it, type) and _it.__module__.startswith("nlroute."):
        _it.__module__ = __name__
del _it, _VERSION, _typing
