"""The lines that `nlshow` prints of the messages of a buffer, also of one that is malformed."""
from __future__ import annotations

import struct
from collections.abc import Iterator
from typing import NamedTuple

from . import _library
from ._errors import MessageFault
from ._headers import flag_names
from ._kinds import Cause, Family
from ._records import HEADER, IFINFOMSG
from ._show import flags_text, header_words, pieces, quoted, set_lines
from ._tables import TABLES

NLMSG_ERROR, NLMSG_DONE, RTM_GETLINK = 2, 3, 18
LINK_TYPES = (16, 17, 18, 19, 108, 109, 110)  # of messages about links
IFLA_IFNAME = 3
CAPPED, ACK_TLVS = 0x100, 0x200  # NLM_F_ of a reply
NLMSGHDR = struct.Struct("<IHHII")
# An NLMSG_ERROR has at least a struct nlmsgerr: an int, and the struct nlmsghdr of the request
NLMSGERR = 4 + NLMSGHDR.size
# Names in `linux/netlink.h` and `rtnetlink.h`
MESSAGE_TYPES = {
    1: "NLMSG_NOOP", 2: "NLMSG_ERROR", 3: "NLMSG_DONE", 4: "NLMSG_OVERRUN", 16: "RTM_NEWLINK", 17: "RTM_DELLINK",
    18: "RTM_GETLINK", 19: "RTM_SETLINK", 108: "RTM_NEWLINKPROP", 109: "RTM_DELLINKPROP", 110: "RTM_GETLINKPROP",
}  # fmt: skip
# Names from 1 on (`asm-generic/errno-base.h`, `errno.h`); 41 and 58 have none
ERRNOS = (
    "EPERM ENOENT ESRCH EINTR EIO ENXIO E2BIG ENOEXEC EBADF ECHILD EAGAIN ENOMEM EACCES EFAULT ENOTBLK EBUSY EEXIST "
    "EXDEV ENODEV ENOTDIR EISDIR EINVAL ENFILE EMFILE ENOTTY ETXTBSY EFBIG ENOSPC ESPIPE EROFS EMLINK EPIPE EDOM "
    "ERANGE EDEADLK ENAMETOOLONG ENOLCK ENOSYS ENOTEMPTY ELOOP - ENOMSG EIDRM ECHRNG EL2NSYNC EL3HLT EL3RST ELNRNG "
    "EUNATCH ENOCSI EL2HLT EBADE EBADR EXFULL ENOANO EBADRQC EBADSLT - EBFONT ENOSTR ENODATA ETIME ENOSR ENONET "
    "ENOPKG EREMOTE ENOLINK EADV ESRMNT ECOMM EPROTO EMULTIHOP EDOTDOT EBADMSG EOVERFLOW ENOTUNIQ EBADFD EREMCHG "
    "ELIBACC ELIBBAD ELIBSCN ELIBMAX ELIBEXEC EILSEQ ERESTART ESTRPIPE EUSERS ENOTSOCK EDESTADDRREQ EMSGSIZE "
    "EPROTOTYPE ENOPROTOOPT EPROTONOSUPPORT ESOCKTNOSUPPORT EOPNOTSUPP EPFNOSUPPORT EAFNOSUPPORT EADDRINUSE "
    "EADDRNOTAVAIL ENETDOWN ENETUNREACH ENETRESET ECONNABORTED ECONNRESET ENOBUFS EISCONN ENOTCONN ESHUTDOWN "
    "ETOOMANYREFS ETIMEDOUT ECONNREFUSED EHOSTDOWN EHOSTUNREACH EALREADY EINPROGRESS ESTALE EUCLEAN ENOTNAM ENAVAIL "
    "EISNAM EREMOTEIO EDQUOT ENOMEDIUM EMEDIUMTYPE ECANCELED ENOKEY EKEYEXPIRED EKEYREVOKED EKEYREJECTED EOWNERDEAD "
    "ENOTRECOVERABLE ERFKILL EHWPOISON"
).split()
ERRNO_NAMES = {-number: name for number, name in enumerate(ERRNOS, 1) if name != "-"}


class Header(NamedTuple):
    """The fields of a `struct nlmsghdr`."""

    length: int
    type: int
    flags: int
    sequence: int
    port: int


def show_messages(data: bytes) -> Iterator[str]:
    """Yields the lines of the messages of a buffer, up to its end, an NLMSG_DONE or a malformed header."""
    at = 0
    while at < len(data):
        fault = fault_at(data, at)
        if fault and fault.cause != Cause.TOO_SHORT:
            yield rest_line(data, at) or str(fault)
            return
        header = Header._make(NLMSGHDR.unpack_from(data, at))
        yield first_line(header)
        payload = data[at + NLMSGHDR.size : at + header.length]
        yield from (f"  {it}" for it in body_lines(header, payload, at, fault))
        if header.type == NLMSG_DONE:
            return
        at += padded(header.length)


def fault_at(data: bytes, at: int) -> MessageFault | None:
    """Returns why the message at an offset is malformed. The cause is TOO_SHORT if only its `struct ifinfomsg` is."""
    try:
        _library.message(data, at)
    except MessageFault as fault:
        return fault
    return None


def padded(length: int) -> int:
    return (length + 3) // 4 * 4


def rest_line(data: bytes, at: int) -> str:
    """Returns the line of what is left at an offset if it is zeros after a message, else no text."""
    count = len(data) - at
    return f"{count} zero byte{'s' * (count != 1)} at {at}" if at and not any(data[at:]) else ""


def first_line(header: Header) -> str:
    """Returns the line of the header of a message."""
    names = flag_names(header.type)
    words = MESSAGE_TYPES.get(header.type, f"type {header.type}")
    flags = flags_text(names, 2, header.flags)
    return f"{words} len {header.length} flags {flags} seq {header.sequence} pid {header.port}"


def body_lines(header: Header, payload: bytes, at: int, fault: MessageFault | None) -> Iterator[str]:
    """Yields the lines below the first one of the message at an offset."""
    if header.type in (NLMSG_ERROR, NLMSG_DONE):
        yield from reply_lines(header, payload, at)
    elif header.type == RTM_GETLINK and 1 <= len(payload) < IFINFOMSG.size:
        return  # a request with a struct rtgenmsg
    elif fault:
        yield str(fault)
    elif header.type in LINK_TYPES:
        yield from link_lines(payload, at + NLMSGHDR.size)


def link_lines(payload: bytes, start: int) -> Iterator[str]:
    """Yields the lines of a link, whose `struct ifinfomsg` begins at an offset."""
    data = payload[IFINFOMSG.size :]
    name = link_name(data)
    words = "" if name is None else f" name {quoted(name)}"
    family, index, fields = header_words(payload)
    yield f"ifindex {index}{words}{fields}"
    yield from set_lines(TABLES[Family.LINK], data, start + IFINFOMSG.size, family)


def link_name(data: bytes) -> bytes | None:
    """Returns the last IFLA_IFNAME of a list before its first malformed header."""
    name = None
    for _, piece, _ in pieces(data):
        if len(piece) < HEADER:
            break
        length, kind = struct.unpack_from("<HH", piece)
        if length != len(piece):
            break
        if kind & 0x3FFF == IFLA_IFNAME:
            name = piece[HEADER:].removesuffix(b"\0")
    return name


def reply_lines(header: Header, payload: bytes, at: int) -> Iterator[str]:
    """Yields the lines of an NLMSG_ERROR, or of the NLMSG_DONE that ends a dump: the result, and the attributes."""
    if header.type == NLMSG_ERROR and len(payload) < NLMSGERR:
        yield f"error at {at}: {header.length} bytes, too few for an error message"
        return
    error = int.from_bytes(payload[:4], "little", signed=True) if len(payload) >= 4 else 0
    if error < 0 or header.type == NLMSG_ERROR:
        yield result_line(error)
    start = reply_start(header, payload)
    yield from set_lines(TABLES[Family.REPLY], payload[start:], at + NLMSGHDR.size + start)


def result_line(error: int) -> str:
    """Returns the line of the result of a request: 0, or an errno, which is negative."""
    if not error:
        return "ack"
    name = ERRNO_NAMES.get(error)
    return f"error {name} ({error})" if name else f"error ({error})"


def reply_start(header: Header, payload: bytes) -> int:
    """Returns where the attributes of a reply begin in its payload: after the request, of which CAPPED has the header."""
    if not header.flags & ACK_TLVS:
        return len(payload)
    if header.type == NLMSG_DONE:
        return min(len(payload), 4)
    if header.flags & CAPPED:
        return NLMSGERR
    request = int.from_bytes(payload[4:8], "little")
    return min(len(payload), 4 + padded(max(request, NLMSGHDR.size)))
