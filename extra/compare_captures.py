#!/usr/bin/env python3
"""Compares what `nlshow` says of the packets of captures with what `tcpdump` and `tshark` say.

usage: extra/compare_captures.py [--binary PATH] [FILE]..

FILE may be a folder; the default is runs/captures/inputs. A file that does not begin as pcap or pcapng is left out.
Of each capture that one of the tools reads without an error it makes variants, in a temporary folder: other formats, times,
lengths and comments by `editcap`, what `tcpdump` and `tshark` write again, `text2pcap` of its bytes, and `mergecap` of two.

`nlshow` reads each file as an operand and as standard input, and has to print the same. The number, time, captured and
original length of each packet, whether its link type is 253, and its netlink protocol have to be those of:

- `tcpdump --nano -w -`, which is what libpcap reads. (Without --nano, tcpdump cuts times to microseconds, and as text it
  prints no lengths.)
- `tshark -T fields`, which has its own numbers for link types.

Malformed files are compared up to the error: all have to end there, behind the same packet. If only one of them refuses a
file, this is a difference, unless REFUSED or NOT_READ has the reason. Wireshark guesses the form of a file by its first
packets. A malformed file that it takes for something else is not compared with tshark.

It prints a line for each file, with its differences below; then each reason, with the files. The last line is 'N passed, M
failed', where each file counts once for each tool. The status is 0 if none failed, 1 if one did, 2 if there was nothing to
compare.

CI does not run it: it needs `tcpdump` or `tshark` (Debian's packages tcpdump, tshark). --binary names `nlshow`. The default
is the one that `rt run` leaves in crates/nlshow.
"""
import argparse
import datetime
import os
import re
import shutil
import struct
import subprocess
import sys
import tempfile
from pathlib import Path
from typing import NamedTuple

ROOT = Path(__file__).resolve().parents[1]
INPUTS = ROOT / "runs/captures/inputs"
MAGIC = {bytes.fromhex(it) for it in ("d4c3b2a1", "a1b2c3d4", "4d3cb2a1", "a1b23c4d", "0a0d0d0a")}
LINE = re.compile(
    r"packet (\d+) time (?:out of range|(\S+)Z) len (\d+)(?: of (\d+))?"
    r"(?: link type (\d+))?(?: protocol (?:\w+ \()?(\d+)\)?)?"
)
SECOND = 10**9
# The last time that `nlshow` prints, and where the seconds of a pcap file begin again.
LAST_TIME = 253402207200 * SECOND + SECOND - 1
WRAP = 2**32 * SECOND
# The length of a cooked header, and a protocol that a tool does not tell.
HEADER, UNTOLD = 16, -1
MOST_SHOWN = 3
# What tshark and tcpdump say on standard error besides errors.
NO_ERROR = ("Running as", "reading from file")
# What a tool refuses in files that `nlshow` reads: its error, and the reason.
REFUSED = {
    "different from the type of the first": "libpcap takes one link type in a file",
    "different from the snapshot length of the first": "libpcap takes one snapshot length in a file",
    "bigger than snaplen of": "libpcap takes no packet above the snapshot length",
    "bigger than maximum of 262144": "the tools take no packet above 262,144 bytes",
    "no Interface Description Blocks": "libpcap takes no file without an interface",
    r"pcapng block size \d+ > maximum": "libpcap takes all sections in the byte order of the first",
    r"more than one \w+ option": "libpcap takes an option only once",
}
# What `nlshow` refuses in files that a tool reads.
NOT_READ = {
    r"link type \d+, expected 253": "nlshow takes no pcap file of another link type",
    r"pcap version 2\.[0-3], expected 2\.4": "nlshow takes version 2.4 of pcap only",
    r"block type [23] is not read": "nlshow takes no simple and no obsolete packet block",
    r"if_tsresol \d+ is above 9": "nlshow takes no finer times than nanoseconds, and no powers of two",
    r"if_ts(resol|offset) has": "tshark passes over an option of a wrong length",
    "more than 256 interfaces": "nlshow takes 256 interfaces in a section",
    r"block length \d+ is above 1048576": "nlshow takes no block above 1,048,576 bytes",
}
# The fields of a line of tshark.
FRAME, NETLINK = ("number", "time_epoch", "cap_len", "len", "encap_type"), ("hatype", "family")
FIELDS = [*(f"frame.{it}" for it in FRAME), *(f"netlink.{it}" for it in NETLINK)]
# Programs that make variants, with what stands before the names of input and output.
COPIES = [
    *(["editcap", *it.split()] for it in ("-F pcap", "-F pcapng", "-F nsecpcap", "-s 60", "-s 10 -F pcap", "-t 3600")),
    ["editcap", "-a", "1:a comment"],
    *([tool, *more, "-r"] for tool, more in (("tcpdump", []), ("tcpdump", ["--nano"]), ("tshark", []))),
]
MERGES = [["mergecap", "-a", "-w"], ["mergecap", "-F", "pcap", "-w"]]
TEXTS = [["text2pcap", "-q", "-l", "253", "-t", "%Y-%m-%d %H:%M:%S.%f", "-F", it] for it in ("pcap", "pcapng")]


class Packet(NamedTuple):
    """A packet. `time` is in nanoseconds since 1970, or None if it is out of range. `protocol` is None if the packet is too
    short for it, or of another link type."""

    number: int
    time: int | None
    captured: int
    original: int
    is_netlink: bool
    protocol: int | None


class Reading(NamedTuple):
    """What a program reads of a file. `odd` is what else is wrong with the output of `nlshow`, or how a tool counts.
    `snapshot` is the snapshot length, if the program has one."""

    packets: list
    error: str
    odd: list
    snapshot: int | None = None


def run(words, stdin=subprocess.DEVNULL):
    """Runs a program. Returns its status, its output, and the error that it writes."""
    known = {**os.environ, "TZ": "UTC", "LC_ALL": "C"}
    ran = subprocess.run(words, stdin=stdin, capture_output=True, env=known, timeout=60)
    said = [it for it in ran.stderr.decode(errors="replace").splitlines() if it and not it.startswith(NO_ERROR)]
    return ran.returncode, ran.stdout, " ".join(said)[:300]


def nanoseconds(text):
    """The nanoseconds since 1970 of a time without its zone."""
    whole, _, fraction = text.partition(".")
    since = datetime.datetime.fromisoformat(whole) - datetime.datetime(1970, 1, 1)
    return (since.days * 86400 + since.seconds) * SECOND + int(fraction.ljust(9, "0"))


def of_nlshow(binary, path):
    status, output, said = run([binary, path])
    with open(path, "rb") as it:
        again = run([binary], it)
    first, _, rest = output.partition(b"\n")
    odd = [] if first.startswith(b'file "') else [f"the first line is {first[:100]!r}"]
    if again != (status, rest, said):
        odd.append("as standard input, the file gives something else")
    packets, error = [], ""
    for line in rest.decode(errors="replace").splitlines():
        if found := LINE.fullmatch(line):
            number, time, captured, original, link, protocol = found.groups()
            length, is_netlink = int(captured), link is None
            has = int(protocol or 0) if is_netlink and length >= HEADER else None
            since = nanoseconds(time) if time else None
            packets.append(Packet(int(number), since, length, int(original or length), is_netlink, has))
        elif line.startswith("input error at "):
            error = line
        elif line.startswith("packet "):
            odd.append(f"a line is {line[:100]!r}")
    if status not in (0, 1) or error and not status or said:
        odd.append(f"the status is {status}, and standard error {said!r}")
    return Reading(packets, error, odd)


def of_tcpdump(path, with_bytes=None):
    """What libpcap reads. The bytes of the packets go to the list."""
    with open(path, "rb") as it:
        status, data, said = run(["tcpdump", "--nano", "-n", "-w", "-", "-r", "-"], it)
    packets, at = [], 24
    snapshot, link = struct.unpack_from("=2I", data, 16) if data else (None, 0)
    is_netlink = link & 0x3FFFFFF == 253
    while at < len(data):
        seconds, rest, captured, original = struct.unpack_from("=4I", data, at)
        payload = data[at + 16 : at + 16 + captured]
        has = int.from_bytes(payload[14:16], "big") if is_netlink and captured >= HEADER else None
        packets.append(Packet(len(packets) + 1, seconds * SECOND + rest, captured, original, is_netlink, has))
        if with_bytes is not None:
            with_bytes.append(payload)
        at += 16 + captured
    return Reading(packets, said if status else "", [], snapshot)


def of_tshark(path):
    """What tshark reads. It also numbers blocks without a time, such as custom blocks, which are no packets for others."""
    words = ["tshark", "-n", "-r", path, "-T", "fields", *(word for it in FIELDS for word in ("-e", it))]
    status, output, said = run(words)
    packets, passed = [], 0
    for line in output.decode().splitlines():
        number, time, captured, original, kind, hardware, protocol = line.split("\t")
        if not time:
            passed += 1
            continue
        whole, _, fraction = time.partition(".")
        since = int(whole) * SECOND + int(fraction.ljust(9, "0"))
        is_netlink = kind == "158"
        has = None if hardware or not is_netlink or int(captured) < HEADER else UNTOLD
        has = int(protocol, 0) if is_netlink and protocol else has
        packets.append(Packet(int(number) - passed, since, int(captured), int(original), is_netlink, has))
    odd = ["tshark numbers blocks without a time, too"] * bool(passed)
    return Reading(packets, said if status else "", odd)


TOOLS = {"tcpdump": of_tcpdump, "tshark": of_tshark}


def other_form(path):
    """What Wireshark takes a file for, if it is neither pcap nor pcapng: it guesses by the first packets."""
    form = run(["capinfos", "-T", "-r", "-t", path])[1].decode(errors="replace").strip().rpartition("\t")[2]
    return "" if form in ("pcap", "nsecpcap", "pcapng") else form


def listed(names):
    more = f" and {len(names) - MOST_SHOWN} more" if len(names) > MOST_SHOWN else ""
    return ", ".join(names[:MOST_SHOWN]) + more


def counted(packets):
    return f"{len(packets)} packet{'s' * (len(packets) != 1)}"


def reason_of_field(field, one, two, tool, snapshot):
    """Why a field of `nlshow` differs from that of a tool, or nothing."""
    if field == "time" and tool == "tcpdump" and (one is None or one % WRAP == two):
        return "tcpdump writes 32 bits of the seconds"
    if field == "time" and one is None and not 0 <= two <= LAST_TIME:
        return "nlshow prints no time before 1970 or in the last hours of 9999"
    if field == "captured" and snapshot == two < one:
        return "libpcap cuts packets of a pcap file to its snapshot length"
    if field == "protocol" and two == UNTOLD:
        return "tshark reads no header of another hardware type than 824"
    return None


def reason_not_read(error, theirs, size):
    """Why `nlshow` refuses what a tool reads, or nothing. A length above the most has to be in the file, and the link type
    has to be another one for the tool, too."""
    above = re.search(r"length (\d+) is above", error)
    is_misread = above and int(above[1]) > size
    is_of_netlink = "link type" in error and any(it.is_netlink for it in theirs.packets)
    return None if is_misread or is_of_netlink else reason_of(error, NOT_READ)


def reason_of(error, reasons):
    return next((reason for pattern, reason in reasons.items() if re.search(pattern, error)), None)


def packet_differences(tool, ours, theirs):
    """How the packets differ that both have, each with a reason or nothing."""
    for mine, other in zip(ours.packets, theirs.packets):
        for field, one, two in zip(Packet._fields, mine, other):
            if one != two:
                text = f"packet {mine.number} has {field} {one}, but in {tool} {two}"
                yield reason_of_field(field, one, two, tool, theirs.snapshot), text


def end_differences(tool, ours, theirs, size):
    """How the numbers of packets differ, or whether an error ends them, with a reason or nothing."""
    more = len(ours.packets) - len(theirs.packets)
    if more or bool(ours.error) != bool(theirs.error):
        is_ours = more < 0 or not more and ours.error
        reason = reason_not_read(ours.error, theirs, size) if is_ours else reason_of(theirs.error, REFUSED)
        mine, other = [f"{counted(it.packets)}, {it.error or 'no error'}" for it in (ours, theirs)]
        yield reason, f"nlshow has {mine}; {tool} has {other}"


class Report:
    """What was found."""

    def __init__(self):
        self.passed, self.failed, self.reasons = 0, 0, {}

    def compare(self, label, path, ours, theirs):
        """Compares a file's readings by `nlshow` and by each tool, and prints what differs."""
        print(f"{label}: {counted(ours.packets)}" + f", {ours.error}" * bool(ours.error))
        for tool, reading in theirs.items():
            found = [*packet_differences(tool, ours, reading)]
            found += end_differences(tool, ours, reading, os.path.getsize(path))
            differences = [text for reason, text in found if not reason]
            reasons = [reason for reason, _ in found if reason] + reading.odd
            if tool == "tshark" and found and (form := other_form(path)):
                differences, reasons = [], [f"Wireshark takes the file for {form}"]
            self.count(tool, ours.odd + differences)
            for it in reasons:
                self.reasons.setdefault(it, {})[label] = None

    def count(self, tool, differences):
        self.passed, self.failed = self.passed + (not differences), self.failed + bool(differences)
        for it in differences[:MOST_SHOWN]:
            print(f"  {tool} differs: {it}")
        if len(differences) > MOST_SHOWN:
            print(f"  {tool} differs: {len(differences) - MOST_SHOWN} more")

    def show(self):
        for reason, labels in self.reasons.items():
            print(f"explained: {reason}: {listed([*labels])}")
        print(f"{self.passed} passed, {self.failed} failed")


class Variants:
    """Files that other programs make of captures, in a folder."""

    def __init__(self, room):
        self.room, self.count = room, 0

    def made(self, label, words):
        """A file that a program makes, with the label; nothing if it does not. `OUT` is the name of the file."""
        self.count += 1
        path = f"{self.room}/{self.count}.pcap"
        status, _, said = run([path if it == "OUT" else it for it in words])
        if status or not os.path.exists(path):
            print(f"not made: {label}: {said[:150]}")
        else:
            yield label, path

    def copies(self, path):
        for words in COPIES:
            if shutil.which(words[0]):
                between = ["-w"] if words[-1] == "-r" else []
                label = " ".join(it for it in words if it != "-r")
                yield from self.made(f"{path.name} by {label}", [*words, str(path), *between, "OUT"])

    def merges(self, one, two):
        for words in MERGES:
            if shutil.which(words[0]):
                label = f"{one.name} and {two.name} by {' '.join(words[:-1])}"
                yield from self.made(label, [*words, "OUT", str(one), str(two)])

    def texts(self, path):
        """The packets as lines of a time and of bytes, read again."""
        payloads = []
        if not shutil.which("text2pcap") or not shutil.which("tcpdump"):
            return
        packets = of_tcpdump(path, payloads).packets
        if not packets or not packets[0].is_netlink:
            return
        with open(f"{self.room}/text", "w") as it:
            for packet, payload in zip(packets, payloads):
                since, rest = divmod(packet.time, SECOND)
                when = datetime.datetime(1970, 1, 1) + datetime.timedelta(seconds=since)
                it.write(f"{when}.{rest:09}\n000000 {payload.hex(' ')}\n")
        for words in TEXTS:
            yield from self.made(f"{path.name} by text2pcap {words[-1]}", [*words, f"{self.room}/text", "OUT"])

    def of(self, paths):
        for at, path in enumerate(paths):
            yield from self.copies(path)
            yield from self.texts(path)
            yield from self.merges(path, paths[(at + 1) % len(paths)])


def captures(asked):
    """The files to compare: those that are named, and those in the folders that are named."""
    files = [file for path in asked for file in (sorted(path.rglob("*")) if path.is_dir() else [path])]
    files = [it for it in files if not it.is_dir()]
    found = [it for it in files if it.read_bytes()[:4] in MAGIC]
    if left_out := [it.name for it in files if it not in found]:
        print(f"left out: they begin neither as pcap nor as pcapng: {listed(left_out)}")
    return found


def compare(binary, files, tools):
    """Compares the files and their variants. Returns the report."""
    report, whole = Report(), []

    def compare_one(label, path):
        theirs = {tool: TOOLS[tool](path) for tool in tools}
        report.compare(label, path, of_nlshow(binary, path), theirs)
        return any(it.packets and not it.error for it in theirs.values())

    for path in files:
        if compare_one(path.name, path):
            whole.append(path)
    with tempfile.TemporaryDirectory() as room:
        for label, path in Variants(room).of(whole):
            compare_one(label, path)
            os.remove(path)
    return report


def main():
    parser = argparse.ArgumentParser(usage="extra/compare_captures.py [--binary PATH] [FILE]..")
    parser.add_argument("--binary", default=f"{ROOT}/crates/nlshow/out/nlshow")
    parser.add_argument("files", nargs="*", type=Path, default=[INPUTS])
    asked = parser.parse_args()
    binary, tools = shutil.which(asked.binary), [it for it in TOOLS if shutil.which(it)]
    for it in {*TOOLS} - {*tools}:
        print(f"left out: {it} is not installed")
    files = captures([it for it in asked.files if it.exists()])
    if lacking := [f"{it}" for it in asked.files if not it.exists()] + [asked.binary] * (not binary):
        print(f"there is no {', no '.join(lacking)}")
    if lacking or not tools or not files:
        return 2
    report = compare(os.path.abspath(binary), files, tools)
    report.show()
    return 1 if report.failed else 0


if __name__ == "__main__":
    sys.exit(main())
