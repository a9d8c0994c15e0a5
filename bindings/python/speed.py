#!/usr/bin/env python3
"""Measures the package on the list of a bridge, and compares it with pyroute2 if that is installed.

usage: bindings/python/speed.py [--check]

The list is bench/lists/bridge.hex. Times are the least of many runs, in microseconds. Both decode every value. pyroute2
reads attributes when they are asked for, so its figure includes a walk over all values. With --check, the last line is
'N passed, M failed': decoding has to be five times as fast as in pyroute2.
"""
import importlib.metadata
import os
import struct
import sys
import timeit

HERE = os.path.dirname(os.path.realpath(__file__))
sys.path.insert(0, HERE)
from nlroute import IFLA_BR_FORWARD_DELAY, Family, List, read, text  # noqa: E402

try:
    import pyroute2
    from pyroute2.netlink.rtnl.ifinfmsg import ifinfmsg
except ImportError:
    pyroute2 = None
FACTOR = 5
RUNS = 30


def microseconds(call, times):
    """Returns the least time of a call."""
    return min(timeit.repeat(call, number=times, repeat=RUNS)) / times * 1e6


def bridge():
    """Returns the bytes of the list."""
    with open(os.path.join(HERE, "../../bench/lists/bridge.hex"), encoding="ascii") as file:
        return bytes.fromhex(file.read())


def walk(found):
    """Returns how many values pyroute2 has decoded, and decodes those that it has not."""
    count = 0
    for _, value in found["attrs"]:
        count += 1
        if isinstance(value, dict) and value.get("attrs"):
            count += walk(value)
    return count


def by_pyroute2(data):
    """Returns the functions that decode and encode the list with pyroute2."""
    kind = ifinfmsg.ifinfo.bridge_data
    raw = struct.pack("=HH", 4 + len(data), 2) + data

    def decode():
        found = kind(raw)
        found.decode()
        return walk(found)

    assert decode() > 40
    return decode


def main():
    if sys.argv[1:] not in ([], ["--check"]):
        sys.exit(__doc__)
    data = bridge()
    found = read(Family.BRIDGE, data)

    def change():
        found[IFLA_BR_FORWARD_DELAY] = 700
        return bytes(found)

    calls = {
        "read": lambda: read(Family.BRIDGE, data),
        "bytes of a list": lambda: bytes(found),
        "set one value, and bytes": change,
        "text": lambda: text(Family.BRIDGE, data),
        "get one value": lambda: found[IFLA_BR_FORWARD_DELAY],
        "make a list of two values": lambda: bytes(List(Family.BOND, {"IFLA_BOND_MODE": 4, "IFLA_BOND_MIIMON": 100})),
    }
    print(f"a bridge: {len(found)} attributes, {len(data)} bytes; microseconds")
    times = {name: microseconds(call, 100) for name, call in calls.items()}
    for name, time in times.items():
        print(f"{time:8.1f}  {name}")
    if not pyroute2:
        print("skipped: there is no pyroute2 to compare with")
        sys.exit(0)
    other = microseconds(by_pyroute2(data), 20)
    factor = other / min(times["read"], microseconds(calls["read"], 100))
    print(f"{other:8.1f}  decoded by pyroute2 {importlib.metadata.version('pyroute2')}: {factor:.1f} times as long")
    if sys.argv[1:]:
        print("1 passed, 0 failed" if factor >= FACTOR else "0 passed, 1 failed")
        sys.exit(factor < FACTOR)


if __name__ == "__main__":
    main()
