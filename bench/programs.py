#!/usr/bin/env python3
"""Processor time and memory of programs that print messages about links: `nlshow`, in the plain form and as JSON, tshark,
`ip monitor` and pyroute2.

usage: bench/programs.py [--binary PATH] [--messages N] [--runs N]

All get the same messages, 50,000 by default: those of runs/plain/captured, again and again. `nlshow` and tshark read them
as a pcap file, a message in each packet, the others as the file that `rtmon` would write, with the time before each
message. For pyroute2, each message is decoded, and printed as `dump` returns it.

First, each program prints a few messages to a pipe. One that does not print each is left out, as are those that are not
installed (Debian's packages tshark, iproute2, python3-pyroute2). Then each runs five times, or N, in turn, and its output
is thrown away. The table has the medians: processor time (user and system), the same for a message, and the most resident
memory; and how many bytes it printed for each of those few messages. Below are the ratios of `nlshow` to tshark and `ip`,
and of its JSON to that of tshark.

Unlike instructions, times depend on the machine, and on what else it does. What the programs print differs, too: tshark
names every top-level attribute, but leaves the data of devices and ports as bytes.

--binary names `nlshow`. The default is the one that `rt run` leaves in crates/nlshow.
"""
import argparse
import ctypes
import os
import re
import shutil
import statistics
import struct
import subprocess
import sys
import tempfile
from pathlib import Path

sys.dont_write_bytecode = True
ROOT = Path(__file__).resolve().parents[1]
sys.path.insert(0, f"{ROOT}/tools")
from runs import runs_in  # noqa: E402

STORED = ROOT / "runs/plain/captured"
# The devices that the stored messages refer to, and do not describe. `ip` would ask the kernel for their names each time.
OTHERS = {3: b"vb", 170: b"a", 172: b"b"}
BEGAN = 1795806395
# The header that a packet of link type 253 begins with.
COOKED = struct.pack(">HHIIHH", 4, 824, 0, 0, 0, 0)
# prctl(2): orphans become children of this process.
PR_SET_CHILD_SUBREAPER = 36
PYROUTE2 = """
import struct, sys
from pyroute2.netlink.rtnl.marshal import MarshalRtnl
marshal, file = MarshalRtnl(), open(sys.argv[1], "rb")
while head := file.read(16):
    length, kind = struct.unpack_from("<IH", head)
    data = head + file.read((length + 3) // 4 * 4 - 16)
    for it in marshal.parse(data) if kind != 15 else ():
        print(it.dump())
"""


def described(index, name):
    """A message with the name of a device."""
    attribute = struct.pack("<HH", 5 + len(name), 3) + name.ljust((len(name) + 4) // 4 * 4, b"\0")
    return struct.pack("<IHHII", 32 + len(attribute), 16, 2, 1, 0) + struct.pack("<BxHiII", 0, 1, index, 0, 0) + attribute


def messages(count):
    """So many messages: names of other devices, and those that are stored, again and again."""
    [run] = runs_in(STORED.read_bytes())
    lines = run.stdin.decode().splitlines()
    stored = [bytes.fromhex(it.removeprefix("message ")) for it in lines if it.startswith("message ")]
    found = [described(*it) for it in OTHERS.items()]
    return [*found, *(stored[at % len(stored)] for at in range(count))][:count]


def write(folder, count):
    """Writes the messages as a pcap file and as that of rtmon, a millisecond after each other."""
    with open(f"{folder}/pcap", "wb") as pcap, open(f"{folder}/rtmon", "wb") as rtmon:
        pcap.write(struct.pack("<IHHIIII", 0xA1B2C3D4, 2, 4, 0, 0, 262144, 253))
        for at, it in enumerate(messages(count)):
            seconds, rest = BEGAN + at // 1000, at % 1000 * 1000
            pcap.write(struct.pack("<4I", seconds, rest, *[len(COOKED + it)] * 2) + COOKED + it)
            rtmon.write(struct.pack("<IHHIIII", 24, 15, 0, 0, 0, seconds, rest) + it + bytes(-len(it) % 4))


def python():
    """A Python that has pyroute2, or nothing."""
    for it in (sys.executable, "/usr/bin/python3"):
        if shutil.which(it) and not subprocess.run([it, "-c", "import pyroute2"], capture_output=True).returncode:
            return it
    return None


def programs(binary):
    """The programs by name: the words, the file, and how a message begins in the output."""
    return {
        "nlshow": ([binary], "pcap", rb"^RTM_NEWLINK"),
        "nlshow --format json": ([binary, "--format", "json"], "pcap", rb'^\{"file":"[^"]+","packet":\{.*"ok":true\}$'),
        "tshark": (["tshark", "-T", "json", "-r"], "pcap", rb'^        "netlink-route": \{'),
        "ip": (["ip", "-d", "monitor", "file"], "rtmon", rb"^\d+: "),
        "pyroute2": ([python(), "-c", PYROUTE2], "rtmon", rb"^\{"),
    }


def few_printed(name, words, file, pattern, folder, count):
    """How many bytes a program prints for each message of the file; 0 if it is not there, or does not print each."""
    if not words[0] or not shutil.which(words[0]):
        print(f"left out: {name} is not installed")
        return 0
    ran = subprocess.run([*words, f"{folder}/{file}"], capture_output=True)
    printed = len(re.findall(pattern, ran.stdout, re.MULTILINE))
    if printed != count:
        print(f"left out: {name} prints {printed} of {count} messages; status {ran.returncode} {ran.stderr[:200]}")
        return 0
    return len(ran.stdout) / count


def spent(words):
    """Runs a program. Returns its processor time in seconds, and the most memory in bytes. Linux also counts the memory of
    the process that a program replaces. Here this is a shell, which leaves the program to this process."""
    shell = os.posix_spawn("/bin/sh", ["sh", "-c", '"$@" >/dev/null 2>&1 &', "sh", *words], os.environ)
    os.waitpid(shell, 0)
    used = os.wait4(-1, 0)[2]
    return used.ru_utime + used.ru_stime, used.ru_maxrss * 1024


def measure(found, folder, runs):
    """The median time and memory of each program."""
    ctypes.CDLL(None).prctl(PR_SET_CHILD_SUBREAPER, 1, 0, 0, 0)
    taken = {name: [] for name in found}
    for _ in range(runs):
        for name, (words, file, _) in found.items():
            taken[name].append(spent([*words, f"{folder}/{file}"]))
    return {name: [statistics.median(it) for it in zip(*pairs)] for name, pairs in taken.items()}


def show(taken, printed, count):
    print(f"{'':<20}{'time':>10}{'a message':>13}{'memory':>12}{'printed':>10}")
    for name, (seconds, memory) in taken.items():
        print(f"{name:<20}{seconds:>8.2f} s{seconds / count * 1e6:>10.1f} us{memory / 1e6:>9.1f} MB{printed[name]:>8.0f} B")
    for one, other in (("nlshow", "tshark"), ("nlshow", "ip"), ("nlshow --format json", "tshark")):
        if one in taken and other in taken:
            time, memory = (ours / theirs for ours, theirs in zip(taken[one], taken[other]))
            print(f"{one} to {other}: {time:.3f} of the time, {memory:.3f} of the memory")


def main():
    parser = argparse.ArgumentParser(usage="bench/programs.py [--binary PATH] [--messages N] [--runs N]")
    parser.add_argument("--binary", default=f"{ROOT}/crates/nlshow/out/nlshow")
    parser.add_argument("--messages", type=int, default=50000)
    parser.add_argument("--runs", type=int, default=5)
    asked = parser.parse_args()
    with tempfile.TemporaryDirectory() as folder:
        few = len(messages(asked.messages)[:30])
        write(folder, few)
        found = programs(asked.binary)
        printed = {name: few_printed(name, *it, folder, few) for name, it in found.items()}
        found = {name: it for name, it in found.items() if printed[name]}
        write(folder, asked.messages)
        size = os.path.getsize(f"{folder}/pcap")
        print(f"{asked.messages:,} messages, {size:,} bytes of pcap, {asked.runs} runs", flush=True)
        show(measure(found, folder, asked.runs), printed, asked.messages)
    return 0 if found else 2


if __name__ == "__main__":
    sys.exit(main())
