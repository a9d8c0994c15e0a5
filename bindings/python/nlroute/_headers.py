"""Numbers and flags of message headers, by the kernel's names."""
from __future__ import annotations

from ._types import Flags, Named


class MessageType(Named):
    """The type of a message, nlmsg_type (`linux/netlink.h`, `rtnetlink.h`)."""

    NLMSG_NOOP = 1, "NLMSG_NOOP"
    NLMSG_ERROR = 2, "NLMSG_ERROR"
    NLMSG_DONE = 3, "NLMSG_DONE"
    NLMSG_OVERRUN = 4, "NLMSG_OVERRUN"
    RTM_NEWLINK = 16, "RTM_NEWLINK"
    RTM_DELLINK = 17, "RTM_DELLINK"
    RTM_GETLINK = 18, "RTM_GETLINK"
    RTM_SETLINK = 19, "RTM_SETLINK"
    RTM_NEWLINKPROP = 108, "RTM_NEWLINKPROP"
    RTM_DELLINKPROP = 109, "RTM_DELLINKPROP"
    RTM_GETLINKPROP = 110, "RTM_GETLINKPROP"


class MessageFlags(Flags):
    """nlmsg_flags, without NLM_F_ (`linux/netlink.h`).

    The meaning of bits 8 to 11 depends on the type of the message. So they have several names, and none in texts but those
    of text_in().

    >>> from nlroute import MessageFlags
    >>> print(MessageFlags.REQUEST | MessageFlags.DUMP)
    REQUEST|0x300
    """

    REQUEST = 1 << 0
    MULTI = 1 << 1
    ACK = 1 << 2
    ECHO = 1 << 3
    DUMP_INTR = 1 << 4
    DUMP_FILTERED = 1 << 5
    # of a request that gets something
    ROOT = 1 << 8
    MATCH = 1 << 9
    ATOMIC = 1 << 10
    DUMP = 3 << 8
    # of one that makes or changes something
    REPLACE = 1 << 8
    EXCL = 1 << 9
    CREATE = 1 << 10
    APPEND = 1 << 11
    # of one that deletes something
    NONREC = 1 << 8
    BULK = 1 << 9
    # of a reply
    CAPPED = 1 << 8
    ACK_TLVS = 1 << 9

    @classmethod
    def _named(cls) -> int:
        return 0x3F

    def text_in(self, kind: int) -> str:
        """Returns the names of the flags in a message of a type, as `nlshow` prints them.

        >>> from nlroute import MessageFlags, MessageType
        >>> MessageFlags(0x605).text_in(MessageType.RTM_NEWLINK)
        'REQUEST|ACK|EXCL|CREATE'
        """
        names = flag_names(kind)
        rest = int(self) & ~sum(names)
        return "|".join([name for bit, name in names.items() if self & bit] + ([hex(rest)] if rest else [])) or "0"

    def __repr__(self) -> str:
        return f"<{type(self).__name__} {self}: {int(self)}>"


COMMON_FLAGS = {1 << bit: MessageFlags(1 << bit).name or "" for bit in range(6)}
NEW_FLAGS = {0x100: "REPLACE", 0x200: "EXCL", 0x400: "CREATE", 0x800: "APPEND"}
GET_FLAGS = {0x100: "ROOT", 0x200: "MATCH", 0x400: "ATOMIC"}
DELETE_FLAGS = {0x100: "NONREC", 0x200: "BULK"}
REPLY_FLAGS = {0x100: "CAPPED", 0x200: "ACK_TLVS"}
# Those of one message type besides the common ones
OWN_FLAGS = {
    2: REPLY_FLAGS, 3: REPLY_FLAGS, 16: NEW_FLAGS, 17: DELETE_FLAGS, 18: GET_FLAGS, 19: NEW_FLAGS, 108: NEW_FLAGS,
    109: DELETE_FLAGS, 110: GET_FLAGS,
}  # fmt: skip


def flag_names(kind: int) -> dict[int, str]:
    """Returns the names of flags in messages of a type."""
    return COMMON_FLAGS | OWN_FLAGS.get(kind, {})


class LinkFlags(Flags):
    """Flags of a link, ifi_flags and ifi_change, without IFF_ (`linux/if.h`)."""

    UP = 1 << 0
    BROADCAST = 1 << 1
    DEBUG = 1 << 2
    LOOPBACK = 1 << 3
    POINTOPOINT = 1 << 4
    NOTRAILERS = 1 << 5
    RUNNING = 1 << 6
    NOARP = 1 << 7
    PROMISC = 1 << 8
    ALLMULTI = 1 << 9
    MASTER = 1 << 10
    SLAVE = 1 << 11
    MULTICAST = 1 << 12
    PORTSEL = 1 << 13
    AUTOMEDIA = 1 << 14
    DYNAMIC = 1 << 15
    LOWER_UP = 1 << 16
    DORMANT = 1 << 17
    ECHO = 1 << 18


class AddressFamily(Named):
    """An address family, as ifi_family has it (`linux/socket.h`)."""

    UNSPEC = 0, "AF_UNSPEC"
    INET = 2, "AF_INET"
    BRIDGE = 7, "AF_BRIDGE"
    INET6 = 10, "AF_INET6"
    PACKET = 17, "AF_PACKET"
    MPLS = 28, "AF_MPLS"
    MCTP = 45, "AF_MCTP"
