"""Prints link attributes, messages and captures, as `nlshow` does: python -m nlroute [--raw] [FILE]..

Each FILE, or standard input, is a capture of netlink, pcap or pcapng, or has lines. With --raw, it is messages, as
`rtmon` records them. Each line is one of

    FAMILY HEX        the bytes of a list
    check FAMILY HEX  the same; reports whether the list is canonical
    message HEX       the bytes of one or more messages

FAMILY is the name of an attribute set, such as bond. White space separates the words. Blank lines, and lines that
begin with #, are ignored. The FILE - is standard input. Lines and status are those of nlshow(1).

Status: 0 if all input is right, 1 if not, 2 for a wrong argument or a file in another format, 4 if an allocation fails,
5 if reading or writing fails.
"""
from __future__ import annotations

import errno
import os
import re
import sys
from binascii import unhexlify
from collections.abc import Callable, Iterable
from functools import partial
from io import BufferedReader
from typing import cast

from . import __version__
from ._capture import OTHER_FORMATS, RAW_MESSAGES, Source, show_capture, show_stream_of_messages
from ._kinds import Family
from ._show import check, quoted, show
from ._show_message import show_messages

USAGE = "usage: python -m nlroute [--raw] [FILE].. | --help | --version"
MOST_TEXT = 262_144  # bytes of a line
SPACE = b" \t\r\n"
DIGITS = b"0123456789ABCDEFabcdef"
MARK, PREFIX = re.compile(rb"[xX:]"), re.compile(rb"0[xX](?=[0-9A-Fa-f])")
REPEATED = re.compile(rb"[ -~\t]*")
CHUNK = 65_536  # bytes of one read, at most
WRONG, MISUSED, NO_MEMORY, FAILED = 1, 2, 4, 5


class Unwritten(Exception):
    """Standard output cannot be written."""


def put(line: bytes) -> None:
    """Writes a line, which `flush` passes on."""
    try:
        sys.stdout.buffer.write(line + b"\n")
    except OSError as error:
        raise Unwritten from error


def flush() -> None:
    try:
        sys.stdout.buffer.flush()
    except OSError as error:
        raise Unwritten from error


def family_of(name: bytes) -> Family | None:
    try:
        return Family(name.decode())
    except ValueError:
        return None


def cut(text: bytes) -> tuple[bytes, bytes]:
    """Returns the first word, which is empty if white space begins the text, and what follows it."""
    end = next((at for at, byte in enumerate(text) if byte in SPACE), len(text))
    return text[:end], text[end:]


def answer(text: bytes) -> list[str]:
    """Returns the lines for a request. Those of errors are as in `is_wrong`."""
    word, rest = cut(text)
    if word == b"message":
        return lines_of(text, rest, show_messages)
    printed = show
    if word == b"check":
        word, rest = cut(rest.lstrip(SPACE))
        printed = check
    family = family_of(word)
    return ["no such family"] if family is None else lines_of(text, rest, partial(printed, family))


def lines_of(text: bytes, rest: bytes, printed: Callable[[bytes], Iterable[str]]) -> list[str]:
    """Returns the lines that are printed of the bytes in hex at the end of a line."""
    plain = without_marks(rest)
    try:
        data = unhexlify(plain.translate(None, SPACE))
    except ValueError:
        return [f"bad hex at column {len(text) - len(rest) + bad_at(plain) + 1}"]
    return list(printed(data))


def without_marks(text: bytes) -> bytes:
    """Returns the text with spaces in the place of `0x` in front of a byte, and of `:` behind one."""
    if not MARK.search(text):
        return text
    plain, is_half, is_behind = bytearray(text), False, False
    for at in range(len(plain)):
        if not is_half and PREFIX.match(plain, at):
            plain[at : at + 2] = b"  "
        elif is_behind and plain[at] == ord(":"):
            plain[at] = ord(" ")
        is_digit = plain[at] in DIGITS
        is_half ^= is_digit
        is_behind = is_digit and not is_half
    return bytes(plain)


def bad_at(plain: bytes) -> int:
    """Returns the index of the first byte that is neither a digit nor white space, or else of the last digit."""
    bad = (at for at, byte in enumerate(plain) if byte not in DIGITS + SPACE)
    return next(bad, len(plain.rstrip(SPACE)) - 1)


def is_wrong(line: str) -> bool:
    """Returns whether a line is an error. No other line begins so."""
    errors = ("error at ", "not canonical at ", "no such family", "bad hex", "input error at ")
    return line.lstrip(" ").startswith(errors)


def show_line(line: bytes) -> int:
    """Prints what a line asks for, and returns the status."""
    if len(line) > MOST_TEXT:
        put(b"input too long")
        return WRONG
    if line.startswith(b"#") or not line.strip(SPACE):
        return 0
    front = line[:-1] if line.endswith(b"\r") else line
    put(front if REPEATED.fullmatch(front) else quoted(line).encode())
    return put_all(answer(line))


def put_all(lines: Iterable[str]) -> int:
    """Prints lines, and returns the status: whether one is an error."""
    status = 0
    for line in lines:
        put(line.encode())
        status = WRONG if is_wrong(line) else status
    return status


def read_line(source: Source) -> bytes | None:
    """Returns the next line without its LF, or its start if it is too long, or None at the end."""
    line = rest = source.line(MOST_TEXT + 2)
    while len(rest) == MOST_TEXT + 2 and not rest.endswith(b"\n"):
        rest = source.line(MOST_TEXT + 2)
    return line.removesuffix(b"\n") if line else None


def tell(name: str, error: OSError) -> None:
    """Writes to standard error why an input with this name cannot be opened or read."""
    octets = os.fsencode(name)
    text = name if re.fullmatch(rb"[ -~]+", octets) else quoted(octets)
    print(f"nlshow: {text}: {os.strerror(error.errno or errno.EIO)}", file=sys.stderr)


def show_stream(raw: bool, stream: BufferedReader, name: str = "-") -> int:
    """Prints what an input with this name asks for, and returns the status."""

    def read() -> bytes:
        # (another program may wait for the answer, before it writes more)
        flush()
        return stream.read1(CHUNK)

    try:
        return show_source(raw, Source(read))
    except OSError as error:
        tell(name, error)
        put(b"read fault")
        return FAILED


def show_source(raw: bool, source: Source) -> int:
    """Prints what an input asks for: as messages, if `raw` is set, otherwise as its first bytes say."""
    if raw:
        return put_all(show_stream_of_messages(source))
    magic = source.magic()
    if magic is None and source.is_messages():
        put(RAW_MESSAGES.encode())
        return MISUSED
    if magic is None:
        status = 0
        while (line := read_line(source)) is not None:
            status = max(status, show_line(line))
        return status
    if magic in OTHER_FORMATS:
        put(OTHER_FORMATS[magic].encode())
        return MISUSED
    return put_all(show_capture(source, magic))


def standard_input() -> BufferedReader:
    return cast(BufferedReader, sys.stdin.buffer)


def show_file(raw: bool, name: str) -> int:
    """Prints what a file asks for, below its name, and returns the status."""
    put(b"file " + quoted(os.fsencode(name)).encode())
    if name == "-":
        return show_stream(raw, standard_input())
    try:
        stream = open(name, "rb")
    except OSError as error:
        tell(name, error)
        put(b"read fault" if isinstance(error, IsADirectoryError) else b"cannot open")
        return FAILED
    with stream:
        return show_stream(raw, stream, name)


def run(raw: bool, names: list[str]) -> int:
    """Prints what all inputs ask for, and returns the greatest status."""
    try:
        status = max(show_file(raw, it) for it in names) if names else show_stream(raw, standard_input())
    except MemoryError:
        put(b"no memory")
        status = NO_MEMORY
    flush()
    return status


def main(words: list[str]) -> int:
    options = words[: words.index("--")] if "--" in words else words
    wrong = next((it for it in options if it.startswith("-") and it not in ("-", "--raw")), None)
    if wrong in ("-h", "--help"):
        print(USAGE, __doc__, sep="\n\n", end="")
    elif wrong in ("-V", "--version"):
        print("nlroute", __version__)
    elif options.count("--raw") > 1:
        print("error: the argument '--raw' cannot be used multiple times", USAGE, sep="\n", file=sys.stderr)
        return MISUSED
    elif wrong is not None:
        print(f"error: unexpected argument '{wrong}' found", USAGE, sep="\n", file=sys.stderr)
        return MISUSED
    else:
        names = [it for it in options if it != "--raw"] + words[len(options) + 1 :]
        try:
            return run("--raw" in options, names)
        except Unwritten as error:
            if not isinstance(error.__cause__, BrokenPipeError):
                print("write fault", file=sys.stderr)
            # (the interpreter would write the rest when it ends)
            os.dup2(os.open(os.devnull, os.O_WRONLY), sys.stdout.fileno())
            return FAILED
    return 0


if __name__ == "__main__":
    sys.exit(main(sys.argv[1:]))
