#!/usr/bin/env python3
"""Compares what `nlshow` prints of the kernel's messages with what `ip` and `bridge` print of the same devices.

usage: extra/compare_ip.py [--binary PATH]

It makes devices in a user and network namespace of its own (ip_devices.py), and dumps them with RTM_GETLINK. `nlshow`
gets each buffer as a line `message HEX`. Each attribute line that it prints is compared with the JSON of iproute2, by a
rule of ip_values.py:

- `ip -s -s -d link`: messages of AF_UNSPEC, and what messages of AF_BRIDGE have in common with them;
- `bridge -d link`: messages of AF_BRIDGE;
- `bridge vlan` and `bridge vlan tunnelshow`: `IFLA_AF_SPEC`. The VLANs are dumped one by one, and again as ranges.

Each value of a link, of its `info_data` and `info_slave_data`, and each of a port, VLAN or tunnel, has a line. Each device
is in both. Message headers are not compared. What only one of them prints is a difference, unless a rule explains it. A timer may differ by TOLERANCE, and all is repeated up to TRIES times until nothing differs.

It prints for each device how many values agree, how many lines are explained, and the differences; then each explanation,
with the lines. The last line is 'N values agree, M differ'. The status is 0 if none differs, 1 if one does, 2 if there was
nothing to compare.

CI does not run it: it needs user namespaces, `unshare`, `ip` and `bridge`. --binary names the program. The default is
the one that `rt run` leaves in crates/nlshow.
"""
import argparse
import collections
import json
import os
import re
import shutil
import subprocess
import sys

sys.dont_write_bytecode = True
sys.path.insert(0, os.path.dirname(os.path.realpath(__file__)))
import ip_devices  # noqa: E402
import ip_sample  # noqa: E402
import ip_values as rules  # noqa: E402

ROOT = os.path.dirname(os.path.dirname(os.path.realpath(__file__)))
TRIES = 5
NAME = r'"((?:[^"\\]|\\.)*)"'
WORDS = "".join(rf"(?: {it} (\S+))?" for it in ("family", "type", "flags", "change"))
LINK = re.compile(rf"ifindex (\d+)(?: name {NAME})?{WORDS}")
LINK_TYPES = {"ether": "ETHER", "loopback": "LOOPBACK", "can": "CAN", "none": "NONE"}
# Keys of `bridge link` that are not of a port.
NOT_OF_PORT = {"ifindex", "flags", "hwmode", *rules.BRIDGE_KEYS}
VLAN, TUNNEL = "IFLA_BRIDGE_VLAN_INFO", "IFLA_BRIDGE_VLAN_TUNNEL_INFO"
VLAN_FLAGS = {"PVID": "PVID", "Egress Untagged": "UNTAGGED"}


class Node:
    """A line of the plain form: its first word or words, the rest, and the lines that are indented below it."""

    def __init__(self, line):
        self.line, self.children = line, []
        found = re.match(r"type \d+|\S+", line)
        self.name = found[0]
        self.text = line[found.end():].strip()

    def child(self, name):
        """The first line of this name below this one, or one without lines below."""
        return next((it for it in self.children if it.name == name), Node(f"{name} (none)"))


def parse(lines):
    """The lines without indentation, each with those that are indented below it."""
    above = [(-1, Node("top"))]
    for line in lines:
        indent, node = len(line) - len(line.lstrip(" ")), Node(line.strip() or "(empty line)")
        above = [it for it in above if it[0] < indent]
        above[-1][1].children.append(node)
        above.append((indent, node))
    return above[0][1].children


class Report:
    """What was found, by device."""

    def __init__(self):
        self.agree, self.explained = collections.Counter(), collections.Counter()
        self.reasons, self.differences, self.device = {}, {}, ""

    def on(self, device):
        """What follows is found on this device."""
        self.device = device
        self.agree[device] += 0
        return self

    def pair(self, line, text, key, value, wanted, is_timer=False):
        """Compares a text of a line with the one that should be there for the value of a key."""
        if text == wanted or is_timer and rules.is_near(text, wanted):
            self.agree[self.device] += 1
        else:
            self.differ(f"{line}: JSON has {key} {json.dumps(value)}, so it should be {wanted}")

    def sequence(self, lines, key, wanted):
        """Compares lines in order with those that should be there for an array."""
        for at in range(max(len(lines), len(wanted))):
            line, want = [it[at] if at < len(it) else "(no line)" for it in (lines, wanted)]
            self.pair(line, line, f"{key}[{at}]", want, want)

    def explain(self, name, reason):
        self.explained[self.device] += 1
        self.reasons.setdefault(reason, {})[name] = None

    def differ(self, text):
        self.differences.setdefault(self.device, []).append(text)

    def show(self):
        """Prints what was found. Returns how many values agree, and how many differ."""
        for device, agree in self.agree.items():
            differences = self.differences.get(device, [])
            print(f"{device}: {agree} values agree, {self.explained[device]} explained, {len(differences)} differ")
            for it in differences:
                print(f"  differs: {it}")
        for reason, names in self.reasons.items():
            print(f"explained: {reason}: {', '.join(names)}")
        return sum(self.agree.values()), sum(map(len, self.differences.values()))


class Comparison:
    """Compares a sample with what a program prints of its buffers."""

    def __init__(self, binary, sample):
        self.binary, self.sample, self.report = binary, sample, Report()

    def compare(self):
        sample = self.sample
        for name, node in self.messages(sample.links, {*sample.link}):
            self.compare_link(node, name)
        for name, node in self.messages(sample.ports, {*sample.port}):
            self.compare_port(node, name)
        for buffers, vlan in ((sample.vlans, sample.vlan), (sample.ranges, sample.range)):
            for name, node in self.messages(buffers, sample.of_bridges()):
                self.compare_vlans(node, vlan.get(name, {}), "vlans", vlan_lines)
                if buffers is sample.vlans:
                    self.compare_vlans(node, sample.tunnel.get(name, {}), "tunnels", tunnel_lines)
        return self.report

    def printed(self, buffers):
        """What the program prints for buffers, without the lines that it was given."""
        given = [f"message {it.hex()}" for it in buffers]
        ran = subprocess.run([self.binary], input="\n".join(given) + "\n", capture_output=True, text=True, timeout=60)
        if ran.returncode:
            self.report.on("nlshow").differ(f"the program ends with status {ran.returncode} {ran.stderr[:200]}")
        return [it for it in ran.stdout.splitlines() if it not in given]

    def messages(self, buffers, names):
        """The messages that the program prints, with the names of their devices. These are compared with `ip` as far as
        it has them. Devices that are not of these names, or are not there, are differences."""
        lacking = {*names}
        for node in parse(self.printed(buffers)):
            found = LINK.fullmatch(node.child("ifindex").line)
            name = unescaped(found[2] or "") if found else ""
            if node.name == "RTM_NEWLINK" and name in lacking:
                lacking.remove(name)
                self.compare_message(node, found, name)
                yield name, node
            elif node.name != "NLMSG_DONE":
                self.report.on(name or "nlshow").differ(f"{node.line}: iproute2 has no such device here")
        for name in sorted(lacking):
            self.report.on(name).differ("nlshow prints no message about this device")

    def compare_message(self, node, link, name):
        """What messages of all families have: the line of the link, attributes outside of lists, and a port's list in
        AF_BRIDGE."""
        report, said, info = self.report.on(name), self.sample.link[name], self.sample.info(name)
        self.compare_line(link, said)
        others = rules.OTHER_LINES
        values = {key: it for key, it in said.items() if key not in rules.NOT_TOP}
        if link[3] == "AF_BRIDGE":
            others = {*others, "IFLA_AF_SPEC"}
            values = {key: it for key, it in values.items() if key in rules.BRIDGE_KEYS}
            # (here the kernel names a bridge as its own master)
            values.setdefault("master", name)
            if info.get("info_slave_kind") == "bridge":
                self.compare_protinfo(node, info["info_slave_data"], rules.PORT)
        nodes = [it for it in node.children if it.name not in others]
        rules.compare_list(nodes, values, rules.TOP, self.sample, report)

    def compare_protinfo(self, node, values, rows):
        """The list of a port in AF_BRIDGE, or its state alone. Other attributes than those of the rows are left out."""
        found = node.child("IFLA_PROTINFO")
        if found.text == "(bridge_port)":
            nodes = [it for it in found.children if it.name in rows or it.name not in rules.PORT]
            rules.compare_list(nodes, values, rows, self.sample, self.report)
        else:
            rules.one("state", rules.PORT_STATE, None, found, values, self.sample, self.report)

    def spec(self, node):
        """The lines of IFLA_AF_SPEC."""
        found = node.child("IFLA_AF_SPEC")
        if found.text.removesuffix(" (empty)") not in ("(none)", "(af_spec_bridge)"):
            self.report.differ(f"{found.line}: it is not af_spec_bridge")
        return found.children

    def compare_line(self, link, said):
        """The line of a link. iproute2 omits RUNNING and prints NO-CARRIER if an UP device lacks it. M-DOWN is of the
        device below."""
        index, name, _, kind, flags, _ = link.groups()
        has = {*(flags or "").split("|")} - {""}
        carrier = {"NO-CARRIER"} if "UP" in has and "RUNNING" not in has else set()
        has, wanted = (rules.flag_set(it) for it in (has - {"RUNNING"} | carrier, {*said["flags"]} - {"M-DOWN"}))
        for key, text, it in (("ifindex", index, str(said["ifindex"])), ("ifname", unescaped(name), said["ifname"]),
                              ("flags", has, wanted), ("link_type", kind, LINK_TYPES.get(said["link_type"]))):
            if it:
                self.report.pair(link[0], text, key, said[key], it)
            else:
                self.report.explain(f"type {kind}", "nlshow has no name for this type")

    def compare_link(self, node, name):
        """The lists of a device in `ip link`, and what selects them."""
        info, node = self.sample.info(name), node.child("IFLA_LINKINFO")
        kinds = [it for it in node.children if it.name in rules.KINDS]
        values = {key: info[key] for key in ("info_kind", "info_slave_kind") if key in info}
        rules.compare_list(kinds, values, rules.KINDS, self.sample, self.report)
        for name_of_list, key in (("IFLA_INFO_DATA", "info_data"), ("IFLA_INFO_SLAVE_DATA", "info_slave_data")):
            found = node.child(name_of_list)
            if re.fullmatch(r"\(\d+ bytes?, not decoded\)", found.text):
                self.report.explain(name_of_list, "nlshow does not decode the lists of this type")
                continue
            rows = rules.LISTS.get(found.text, {})
            rules.compare_list(found.children, info.get(key, {}), rows, self.sample, self.report)

    def compare_port(self, node, name):
        """A port in `bridge link`, which has all of its keys in one object."""
        said = self.sample.port[name]
        values = {key: it for key, it in said.items() if key not in NOT_OF_PORT}
        self.compare_protinfo(node, values, rules.BRIDGE_PORT)
        mode = {key: it for key, it in said.items() if key == "hwmode"}
        rules.compare_list(self.spec(node), mode, rules.SPEC, self.sample, self.report)

    def compare_vlans(self, node, said, key, lines_of):
        """The VLANs of a bridge or port, or its tunnels."""
        nodes = [it for it in self.spec(node) if (it.name == TUNNEL) == (key == "tunnels")]
        lines = [it.line for top in nodes for it in (top, *top.children)]
        self.report.sequence(lines, key, [it for entry in said.get(key, []) for it in lines_of(entry)])


def unescaped(text):
    """A quoted name, without its escapes."""
    return re.sub(r"\\(x..|.)", lambda it: chr(int(it[1][1:], 16)) if len(it[1]) > 1 else it[1], text or "")


def ends(entry):
    """The first and the last VLAN of an entry of `bridge vlan`, with their tunnels and flags; or the only one."""
    if "vlanEnd" not in entry:
        return [(entry["vlan"], entry.get("tunid"), [])]
    last = (entry["vlanEnd"], entry.get("tunidEnd", entry.get("tunid")), ["RANGE_END"])
    return [(entry["vlan"], entry.get("tunid"), ["RANGE_BEGIN"]), last]


def vlan_lines(entry):
    flags = [VLAN_FLAGS.get(it, it) for it in entry.get("flags", [])]
    return [f"{VLAN} vid {vid} flags {'|'.join(flags + more) or '0'}" for vid, _, more in ends(entry)]


def tunnel_lines(entry):
    name, lines = "IFLA_BRIDGE_VLAN_TUNNEL", []
    for vid, number, more in ends(entry):
        lines += [TUNNEL, f"{name}_ID {number}", f"{name}_VID {vid}", f"{name}_FLAGS {'|'.join(more) or '0'}"]
    return lines


def compare(binary):
    """Makes the devices and compares them. Returns the exit status."""
    for words, said in ip_devices.make():
        print(f"not made: {words}: {said}")
    for _ in range(TRIES):
        report = Comparison(binary, ip_sample.Sample()).compare()
        if not report.differences:
            break
    agree, differ = report.show()
    print(f"{agree} values agree, {differ} differ")
    return 1 if differ else 0 if agree else 2


def main():
    parser = argparse.ArgumentParser(usage="extra/compare_ip.py [--binary PATH]")
    parser.add_argument("--binary", default=f"{ROOT}/crates/nlshow/out/nlshow")
    # (the program starts itself again, in the namespaces)
    parser.add_argument("--inside", action="store_true", help=argparse.SUPPRESS)
    asked = parser.parse_args()
    lacking = [it for it in ("unshare", "ip", "bridge", asked.binary) if not shutil.which(it)]
    if lacking:
        print(f"compare_ip: there is no program {lacking[0]}", file=sys.stderr)
        return 2
    if asked.inside:
        return compare(os.path.abspath(shutil.which(asked.binary)))
    return subprocess.run(["unshare", "-rn", sys.executable, *sys.argv, "--inside"]).returncode


if __name__ == "__main__":
    sys.exit(main())
