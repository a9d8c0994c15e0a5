"""Exceptions."""
from __future__ import annotations

from typing import Any

from ._kinds import Cause, Code, Family, Place


class Error(ValueError):
    """A list or a message cannot be read, or a list not be written."""


class Fault(Error):
    """The bytes are not a list of this attribute set. The text is that of `nlshow`: of a list in a message, its offset counts
    from the start of the buffer that has the message.

    >>> import nlroute
    >>> try:
    ...     nlroute.read(nlroute.Family.BOND, bytes.fromhex("0500010004000000 0700030001020300"))
    ... except nlroute.Fault as fault:
    ...     print(fault, fault.at, fault.place.name, fault.cause.name, fault.kind, fault.numbers, sep=", ")
    error at 8: IFLA_BOND_MIIMON has 3 bytes, expected 4, 8, PAYLOAD, WRONG_LENGTH, 3, (4, 3)
    """

    at: int  # offset of the attribute in the list, in bytes
    place: Place  # its part that is malformed
    cause: Cause
    kind: int  # attribute type, 0 for a malformed header of an attribute
    inner: int  # type of the element, if its payload is malformed
    numbers: tuple[int, int]  # those of the cause, in bytes
    family: Family  # attribute set of the list
    list_at: int  # offset of the list in the buffer of messages, in bytes; 0 for a list that is in none

    def __init__(
        self, text: str, at: int, place: Place, cause: Cause, kind: int, inner: int, numbers: tuple[int, int],
        family: Family, list_at: int = 0,
    ):  # fmt: skip
        super().__init__(text)
        self.at, self.place, self.cause, self.kind, self.inner, self.numbers = at, place, cause, kind, inner, numbers
        self.family, self.list_at = family, list_at

    def __reduce__(self) -> tuple[Any, ...]:
        fields = self.at, self.place, self.cause, self.kind, self.inner, self.numbers, self.family, self.list_at
        return type(self), (str(self), *fields)


class MessageFault(Error):
    """A message is malformed. The text is that of `nlshow`.

    >>> import nlroute
    >>> try:
    ...     next(nlroute.messages(bytes.fromhex("08000000 10000000 00000000 00000000")))
    ... except nlroute.MessageFault as fault:
    ...     print(fault, fault.at, fault.cause.name, fault.numbers, sep=", ")
    error at 0: nlmsg_len 8 is below 16, 0, SMALL_LENGTH, (8, 0)
    """

    at: int  # offset of the message in the buffer, in bytes
    cause: Cause
    numbers: tuple[int, int]  # those of the cause, in bytes

    def __init__(self, text: str, at: int, cause: Cause, numbers: tuple[int, int]):
        super().__init__(text)
        self.at, self.cause, self.numbers = at, cause, numbers

    def __reduce__(self) -> tuple[Any, ...]:
        return type(self), (str(self), self.at, self.cause, self.numbers)


class WriteError(Error):
    """A value cannot be written.

    >>> from nlroute import List, Family, WriteError
    >>> bond = List(Family.BOND, {"IFLA_BOND_MODE": "802.3ad", "IFLA_BOND_MIIMON": 1 << 32})
    >>> try:
    ...     bytes(bond)
    ... except WriteError as error:
    ...     print(error, error.index, error.code.name, sep=", ")
    IFLA_BOND_MIIMON: the attribute cannot hold the number, 1, BAD_NUMBER
    """

    name: str  # of the attribute or the element
    index: int  # of the attribute in the list
    code: Code

    def __init__(self, name: str, index: int, code: Code):
        super().__init__(f"{name}: {code.text}")
        self.name, self.index, self.code = name, index, code

    def __reduce__(self) -> tuple[Any, ...]:
        return type(self), (self.name, self.index, self.code)
