#!/usr/bin/env python3
"""Compares the documents of `nlshow --format json` with the bytes that it reads, which this script walks over by itself.

usage: extra/compare_json.py [--binary PATH] [--lists N] [--seed S]

The inputs are those of all runs of `nlshow`, whatever form they ask for; the messages and lists of runs/plain/captured and
docs/captured.pcapng, each as a line; 20,000 random lists, or N; half as many messages of runs with some bytes changed; and
a quarter as many captures that extra/fuzz/captures/mutate.py makes. Each is an input of its own. Of each:

- every line of the output is one document: Python's `json` reads it, and no object has a key twice;
- the documents are those of the lines, packets and messages in the input, in their order, and of the errors that end an
  input; extra/fuzz/captures/reader.py reads captures. Members that say where a document is from, the numbers of headers,
  replies and packets, and offsets of errors in lists are those of the input;
- an array of attributes has an element for each attribute, in order, and one more with an error if the rest is malformed;
  an attribute that is not decoded has its type, its flags and its payload; numbers and arrays of numbers are those of the
  payload, and lists of addresses are as long as theirs; bytes in hexadecimal are those of the payload;
- `ok` is the last member, and false if and only if something in the document is an error, or not canonical;
- the exit status is as `ok` and the errors of files tell, and that of the plain form; standard error is empty.

At the end, `jq` has to read the lines of all inputs, and to count as many. CI does not run it; it needs `jq`. The last line
is 'N inputs, M failed', and the status 0 only if none failed. --binary names `nlshow`; the default is the one that `rt run`
leaves in crates/nlshow.
"""
import argparse
import concurrent.futures
import ipaddress
import json
import os
import random
import re
import shutil
import struct
import subprocess
import sys
import tempfile
from typing import NamedTuple

sys.dont_write_bytecode = True
from random_lines import ROOT, SETS, captured, changed, random_list, stored  # noqa: E402
from runs import add_stored, files_of, name_of, runs_of  # noqa: E402

sys.path.insert(0, f"{ROOT}/extra/fuzz/captures")
import mutate  # noqa: E402
import reader  # noqa: E402

LONGEST, BLANKS = 262144, b" \t\r"
LINKS, GETLINK, ERROR, DONE = (16, 17, 18, 19), 18, 2, 3
# Flags of replies.
CAPPED, ACK_TLVS = 0x100, 0x200
# The numbers in network byte order: those of VXLAN devices, by their names in documents.
NETWORK_ORDER = ("port", "label")
# Arrays whose places have names.
COUNTERS = ("stats", "stats64", "conf", "icmp6stats")
HEADER = ("len", "type", "flags", "seq", "pid")
OF_LINK = ("family", "type", "index", "flags", "change")
SHOWN = 3


class Input(NamedTuple):
    """An input: what it is, the bytes of standard input, whether inputs are raw, the operands, and the bytes of files."""

    name: str
    stdin: bytes
    is_raw: bool = False
    operands: list = []
    files: dict = {}


class Wrong(Exception):
    """What is wrong with a document."""


def need(holds, *message):
    if not holds:
        raise Wrong(" ".join(map(str, message))[:300])


# ---- the input


def attributes(data):
    """The attributes of a list: offset, type, flags and payload of each; and the offset of a malformed rest, or None."""
    found, at = [], 0
    while at < len(data):
        length, kind = struct.unpack_from("<HH", data, at) if len(data) - at >= 4 else (0, 0)
        if not 4 <= length <= len(data) - at:
            return found, at
        found.append((at, kind & 0x3FFF, kind & 0xC000, data[at + 4 : at + length]))
        at += (length + 3) // 4 * 4
    return found, None


def messages(data):
    """The messages of a line or a packet: the offset and the bytes of each. Malformed ones have no bytes."""
    at = 0
    while at < len(data):
        length, kind = struct.unpack_from("<IH", data, at) if len(data) - at >= 16 else (0, 0)
        if not 16 <= length <= len(data) - at:
            if not at or any(data[at:]):
                yield at, None
            return
        yield at, data[at : at + length]
        if kind == DONE:
            return
        at += (length + 3) // 4 * 4


def of_messages(place, data):
    """What documents have to say of the messages of a line or a packet: place, what it is, and the parts of that."""
    found = [(place, "message", it) if it[1] is not None else (place, "error", (it[0], None)) for it in messages(data)]
    return found or [(place, "nothing", ())]


def of_line(number, line):
    """Likewise of a line."""
    place = {"line": number}
    words = line.translate(bytes.maketrans(BLANKS, b"   ")).split(b" ")
    words = words[:1] + [it for it in words[1:] if it]
    if len(line) > LONGEST:
        return [(place, "error", (None, "input too long"))]
    if not any(words) or line.startswith(b"#"):
        return []
    what = words.pop(0).decode(errors="replace")
    family = what if what != "check" else words.pop(0).decode(errors="replace") if words else ""
    if family not in SETS and what != "message":
        return [(place, "error", (None, "no such family"))]
    digits = b"".join(words)
    if not re.fullmatch(rb"([0-9a-fA-F]{2})*", digits):
        # (the column is not worked out; random lines have no `:` and no `0x`)
        return [(place, "error", (None, None))]
    data = bytes.fromhex(digits.decode())
    if what == "message":
        return of_messages(place, data)
    return [(place, "check" if what == "check" else "list", (family, data))]


def packets(data, reading):
    """The bytes of the packets of a capture."""
    order = "<"
    for at in reading.starts[: -1 if reading.error else None]:
        kind = struct.unpack_from(order + "I", data, at)[0]
        if reading.form == "pcap":
            order = reader.PCAP[data[:4].hex()][0]
            (length,) = struct.unpack_from(order + "I", data, at + 8) if at else (0,)
            yield from [data[at + 16 : at + 16 + length]] * (at > 0)
        elif kind == reader.SECTION:
            order = reader.ORDERS[data[at + 8 : at + 12].hex()]
        elif kind == reader.PACKET:
            yield data[at + 28 : at + 28 + struct.unpack_from(order + "I", data, at + 20)[0]]


def of_capture(data, reading):
    """What documents have to say of a capture."""
    found = packets(data, reading)
    for line in reading.lines:
        if line.startswith("packet "):
            place, packet = {"packet": line}, next(found)
            is_route = " link type " not in line and " protocol " not in line and len(packet) >= 16
            yield from of_messages(place, packet[16:]) if is_route else []
            if not is_route:
                is_short = " link type " not in line and len(packet) < 16
                yield (place, "error", (0, None)) if is_short else (place, "nothing", ())
        elif line.startswith("input error at "):
            yield {}, "error", (reading.starts[-1], line.split(": ", 1)[1])


def of_raw(data, reading):
    """What documents have to say of messages, one after another."""
    for at, line in zip(reading.starts, reading.lines):
        if line.startswith("time "):
            yield {}, "time", (line[5:],)
        elif line.startswith("input error at "):
            yield {}, "error", (at, line.split(": ", 1)[1])
        else:
            yield {}, "message", (0, data[at : at + struct.unpack_from("<I", data, at)[0]])


def of_bytes(data, is_raw):
    reading = reader.read(data, is_raw)
    if reading.form == "lines":
        lines = data.split(b"\n")
        return [it for number, line in enumerate(lines, 1) for it in of_line(number, line)]
    if reading.form == "other":
        return [({}, "error", (None, reading.lines[0]))]
    return [*(of_raw if reading.form == "raw" else of_capture)(data, reading)]


def of_input(given):
    """What the documents of an input have to say: each a place, what it is, and the parts of that."""
    if not given.operands:
        return of_bytes(given.stdin, given.is_raw)
    found, stdin = [], given.stdin
    for name in given.operands:
        # (standard input is read once)
        data, stdin = (stdin, b"") if name == "-" else (given.files.get(os.path.normpath(name)) if name else None, stdin)
        parts = of_bytes(data, given.is_raw) if data is not None else [({}, "error", (None, fault_of(name)))]
        found += [({"file": name, **place}, what, it) for place, what, it in parts]
    return found


def fault_of(name):
    """What is said of an operand that has no file in the folder of a run."""
    return "read fault" if os.path.isdir(name) else "cannot open"


# ---- documents


def unique(pairs):
    need(len(dict(pairs)) == len(pairs), "a key twice:", [it for it, _ in pairs])
    return dict(pairs)


def has_error(value):
    if isinstance(value, dict):
        return "error" in value or value.get("canonical") is False or any(map(has_error, value.values()))
    return isinstance(value, list) and any(map(has_error, value))


def packet_line(packet):
    """The member `packet` as the plain form prints it."""
    time, protocol = packet["time"], packet["protocol"]
    line = f"packet {packet['number']} time {time['utc'] if time else 'out of range'} len {packet['len']}"
    line += f" of {packet['original_len']}" if packet["original_len"] != packet["len"] else ""
    line += f" link type {packet['link_type']}" if packet["link_type"] != reader.NETLINK else ""
    if protocol and protocol["number"]:
        line += f" protocol {protocol['name']} ({protocol['number']})" if protocol["name"] else f" protocol {protocol['number']}"
    return line


def check_time(time):
    if time:
        seconds = f"{time['utc'].rstrip('Z').partition('.')[0]}+00:00"
        digits = time["utc"].rstrip("Z").partition(".")[2]
        need(time["sec"] == int(reader.datetime.datetime.fromisoformat(seconds).timestamp()), "sec of", time)
        need(time["nsec"] == int(digits.ljust(9, "0")), "nsec of", time)


def number_of(value):
    return value["number"] if isinstance(value, dict) else value


def check_document(document, place, what, parts):
    """Checks that a document says this."""
    keys = [*document]
    need(keys[-1] == "ok" and document["ok"] is not has_error(document), "ok:", document)
    need(keys[: len(place)] == [*place], "place:", keys)
    for key, value in place.items():
        need((packet_line(document[key]) if key == "packet" else document[key]) == value, key, document[key], value)
    check_time(document.get("packet", document).get("time"))
    keys = keys[len(place) : -1]
    if what == "nothing":
        need(not keys, "members:", keys)
    elif what == "time":
        need(keys == ["time"] and document["time"]["utc"] == parts[0], "time:", document)
    elif what == "error":
        at, text = parts
        need(keys == ["error"] and document["error"]["at"] == at, "error:", document)
        need(text in (None, document["error"]["text"]), "text:", document)
    elif what == "check":
        check = document["check"]
        need(keys == ["check"] and check["family"] == parts[0], "check:", document)
        need((check["at"] is None) is check["canonical"], "at:", document)
    elif what == "list":
        need(keys == ["list"] and document["list"]["family"] == parts[0], "list:", document)
        check_elements(document["list"]["attrs"], parts[1], 0)
    else:
        check_message(document, keys, *parts)


def check_message(document, keys, at, message):
    """Checks the members for a message at an offset."""
    header = struct.unpack_from("<IHHII", message)
    need(keys[:5] == [*HEADER] and tuple(number_of(document[it]) for it in HEADER) == header, "header:", document)
    kind, size, more = header[1], len(message) - 16, keys[5:]
    if kind in LINKS and size >= 16:
        need(more == ["link"], "link:", keys)
        check_link(document["link"], message[16:], at + 16)
    elif kind == DONE or kind == ERROR and size >= 20:
        check_reply(document, more, at, kind, header[2], message[16:])
    elif kind == ERROR or kind in LINKS and not (kind == GETLINK and size):
        need(more == ["error"] and document["error"]["at"] == at, "error:", document)
    else:
        need(not more, "members:", keys)


def check_link(link, data, at):
    """Checks the object of a link, or of a peer, against a struct ifinfomsg at an offset, and the attributes behind it."""
    need([*link] == [*OF_LINK, "attrs"], "members:", link)
    need(tuple(number_of(link[it]) for it in OF_LINK) == struct.unpack_from("<BxHiII", data), "ifinfomsg:", link)
    check_elements(link["attrs"], data[16:], at + 16)


def behind_request(payload):
    """The offset of what follows the request in the payload of an NLMSG_ERROR."""
    return 4 + (max(struct.unpack_from("<I", payload, 4)[0], 16) + 3) // 4 * 4


def check_reply(document, keys, at, kind, flags, payload):
    """Checks the member for a reply against its payload. A success at the end of a dump has one only with attributes."""
    errno = struct.unpack_from("<i", payload)[0] if len(payload) >= 4 else 0
    start = len(payload)
    if flags & ACK_TLVS:
        start = min(4 if kind == DONE else 20 if flags & CAPPED else behind_request(payload), len(payload))
    is_told = kind == ERROR or errno < 0 or start < len(payload)
    need(keys == ["reply"] * is_told, "reply:", keys)
    if is_told:
        reply = document["reply"]
        need([*reply] == ["errno", "attrs"], "members:", reply)
        need(reply["errno"]["number"] == errno, "errno:", document)
        check_elements(reply["attrs"], payload[start:], at + 16 + start)


def check_elements(elements, data, base):
    """Checks an array of attributes against their bytes, which start at an offset."""
    found, rest = attributes(data)
    need(len(elements) == len(found) + (rest is not None), len(elements), "elements for", data.hex())
    if rest is not None:
        need([*elements[-1]] == ["error"] and elements[-1]["error"]["at"] == base + rest, "rest:", elements[-1])
    for element, (at, kind, flags, payload) in zip(elements, found):
        if "error" in element:
            need([*element] == ["error"] and element["error"]["at"] == base + at, "error:", element)
            continue
        need([*element] in (["name", "value"], ["name", "value", "unit"]), "members:", element)
        check_value(element["name"], element["value"], kind, flags, payload, base + at + 4)


def check_value(name, value, kind, flags, payload, base):
    """Checks the value of an attribute against its payload, as far as its form tells what it means."""
    if isinstance(value, dict) and "hex" in value and "type" in value:
        raw = (value["type"], value["flags"]["number"], value["hex"])
        need(raw == (kind, flags, payload.hex()), "not decoded:", value)
    elif isinstance(value, dict) and [*value] == ["hex"]:
        need(value["hex"] in (payload.hex(), payload.removesuffix(b"\0").hex()), "bytes:", value, payload.hex())
    elif isinstance(value, dict) and "attrs" in value:
        check_link(value, payload, base)
    elif isinstance(value, dict) and name in COUNTERS:
        check_numbers([*value.values()], payload)
    elif isinstance(value, bool) or isinstance(value, (str, dict)):
        need(not name.isdigit(), "decoded:", name)
    elif isinstance(value, int):
        order = "big" if name in NETWORK_ORDER else "little"
        numbers = [int.from_bytes(payload, order, signed=it) for it in (False, True)]
        need(value in numbers and len(payload) in (1, 2, 4, 8), "number:", value, payload.hex())
    elif value and isinstance(value[0], int):
        check_numbers(value, payload)
    elif value and isinstance(value[0], dict):
        check_elements(value, payload, base)
    else:
        of_value = [len(ipaddress.ip_address(it).packed) for it in value]
        sizes = [len(it[3]) for it in attributes(payload)[0]]
        need(any(of_value == [size] * sizes.count(size) for size in (4, 16)), "addresses:", value, payload.hex())


def check_numbers(numbers, payload):
    """Checks the numbers of an array, whose width follows from how many there are."""
    width = len(payload) // max(len(numbers), 1)
    whole = b"".join(it.to_bytes(width, "little", signed=it < 0) for it in numbers)
    need(whole == payload, "numbers:", numbers, payload.hex())


# ---- runs


def of_runs():
    """The inputs of all runs that print what they read."""
    for file, run in [(file, run) for file in files_of(ROOT) for run in runs_of(ROOT, file)]:
        add_stored(run, os.path.dirname(f"{ROOT}/runs/{file}"))
        words = [it for it in run.arguments if it not in ("--check", "--brief") and not it.startswith("--format=")]
        while "--format" in words:
            at = words.index("--format")
            del words[at : at + 2]
        operands = [it for it in words if it == "-" or not it.startswith("-")]
        others = {*words} - {*operands}
        if run.program == "nlshow" and not (run.status == 2 and run.stderr) and not run.full and others <= {"--raw"}:
            files = {os.fsdecode(it): data for it, data in run.given.items()}
            yield Input(name_of(file, run), files.pop(""), "--raw" in words, operands, files)


def inputs(count):
    """All inputs."""
    yield from of_runs()
    with open(f"{ROOT}/runs/plain/captured", encoding="utf-8") as file:
        found = re.findall(r"^> (message \w+)$", file.read(), re.MULTILINE)
    with open(f"{ROOT}/docs/captured.pcapng", "rb") as file:
        data = file.read()
    yield Input("captured.pcapng", data)
    for packet in packets(data, reader.read(data)):
        found.append(f"message {packet[16:].hex()}")
    found += [f"{name} {data.hex()}" for name, data in captured()]
    found += [f"{name} {data.hex()}" for name, data in (random_list() for _ in range(count))]
    given = [bytes.fromhex(it) for it in re.findall(r"^message ((?:[0-9a-f]{2})+)$", stored(), re.MULTILINE)]
    found += [f"message {changed(random.choice(given)).hex()}" for _ in range(count // 2)]
    yield from (Input(f"{it[:60]}..", f"{it}\n".encode()) for it in found)
    mutator = mutate.Mutator([*mutate.stored()])
    for it in (mutator.input() for _ in range(count // 4)):
        yield Input(f"capture {it.data[:60].hex()}..", *it)


def started(binary, given, form):
    """The program, after it has read an input."""
    with tempfile.TemporaryDirectory(prefix="json-") as folder:
        for name, data in given.files.items():
            with open(os.path.join(folder, name), "wb") as file:
                file.write(data)
        words = [binary, "--format", form, *["--raw"] * given.is_raw, *["--", *given.operands] * bool(given.operands)]
        return subprocess.run(words, input=given.stdin, capture_output=True, cwd=folder, timeout=60)


def check(binary, given):
    """What is wrong with the documents of an input, or None; and what was printed."""
    ran, plain = (started(binary, given, it) for it in ("json", "plain"))
    try:
        wanted, lines = of_input(given), ran.stdout.split(b"\n")
        need(lines.pop() == b"", "the last line has no LF")
        documents = [json.loads(it, object_pairs_hook=unique) for it in lines]
        need(len(documents) == len(wanted), len(documents), "documents, expected", len(wanted))
        for number, (document, it) in enumerate(zip(documents, wanted), 1):
            need(isinstance(document, dict), "it is no object")
            check_document(document, *it)
        fails = [it for _, what, it in wanted if what == "error" and it[1] in ("cannot open", "read fault")]
        is_other = any(it[1] in (*reader.OTHERS.values(), reader.MESSAGES) for _, what, it in wanted if what == "error")
        status = 5 if fails else 2 if is_other else 0 if all(it["ok"] for it in documents) else 1
        need(ran.returncode == plain.returncode == status, "status", ran.returncode, plain.returncode, status)
        reasons = [it for it in ran.stderr.split(b"\n")[:-1] if it.startswith(b"nlshow: ")]
        need(len(reasons) == len(fails) == ran.stderr.count(b"\n"), "standard error:", ran.stderr)
    except (Wrong, ValueError, KeyError, TypeError) as error:
        return f"{type(error).__name__}: {error}", ran.stdout
    return None, ran.stdout


def read_by_jq(printed):
    """How many documents `jq` reads, or its error."""
    words = ["jq", "-n", "reduce inputs as $document (0; . + 1)"]
    ran = subprocess.run(words, stdin=printed, capture_output=True, text=True)
    return ran.stdout.strip() if not ran.returncode else ran.stderr.strip()


def main():
    parser = argparse.ArgumentParser(usage="extra/compare_json.py [--binary PATH] [--lists N] [--seed S]")
    for name, default in (("binary", f"{ROOT}/crates/nlshow/out/nlshow"), ("lists", 20000), ("seed", 1)):
        parser.add_argument(f"--{name}", type=type(default), default=default)
    asked = parser.parse_args()
    random.seed(asked.seed)
    binary, tried, failed = os.path.abspath(asked.binary), 0, 0
    if not shutil.which("jq"):
        sys.exit("there is no jq")
    with tempfile.TemporaryFile() as printed, concurrent.futures.ThreadPoolExecutor(os.cpu_count()) as pool:
        given = [*inputs(asked.lists)]
        for it, (wrong, output) in zip(given, pool.map(lambda it: check(binary, it), given)):
            tried, failed = tried + 1, failed + bool(wrong)
            if wrong and failed <= SHOWN:
                print(f"FAILED {it.name}: {wrong}")
            printed.write(output)
        printed.seek(0)
        count = sum(it.count(b"\n") for it in printed)
        printed.seek(0)
        of_jq = read_by_jq(printed)
    if of_jq != str(count):
        print(f"FAILED jq: of {count} documents, it reads {of_jq}")
        failed += 1
    print(f"{count} documents")
    print(f"{tried} inputs, {failed} failed")
    return 1 if failed else 0


if __name__ == "__main__":
    sys.exit(main())
