"""What the Python package returns of a list, in the lines that bindings/compare.py describes."""
from nlroute import *
from nlroute import _tables
from nlroute._kinds import Form


def lines_of(family, changes, number, data):
    """Returns the lines for a list."""
    try:
        found = read(family, data)
        lines = text(family, data).splitlines()
    except Fault as it:
        numbers = [it.at, it.place, it.cause, it.kind, it.inner, *it.numbers]
        return f"fault {' '.join(str(int(number)) for number in numbers)}\ntext {it}\n"
    out = [line for name, value in found for line in value_lines(_tables.TABLES[family], name, value)]
    out += [f"text {it}" for it in lines]
    if changes:
        change(found, number)
    try:
        out.append(f"bytes {bytes(found).hex()}")
    except WriteError as it:
        out.append(f"rejected {it.index} {it.name} {int(it.code)} {it.code.text}")
    return "".join(f"{line}\n" for line in out)


def change(found, number):
    """Changes a list as compare.py describes it."""
    if found.family == Family.BOND:
        found[IFLA_BOND_MIIMON] = number
        found["IFLA_BOND_ARP_IP_TARGET"] = ["10.0.0.1", "10.0.0.2"]
        info = {"IFLA_BOND_AD_INFO_AGGREGATOR": number & 0xFFFF, "IFLA_BOND_AD_INFO_PARTNER_MAC": "02:00:00:00:00:01"}
        found.append(IFLA_BOND_AD_INFO, List.within(Family.BOND, "IFLA_BOND_AD_INFO", info))
    if found.family == Family.BRIDGE:
        found[IFLA_BR_FORWARD_DELAY] = number
        found.append(IFLA_BR_MCAST_HASH_MAX, 512)
        if IFLA_BR_PRIORITY in found:
            del found[IFLA_BR_PRIORITY]
    if found.family == Family.VLAN:
        found[IFLA_VLAN_FLAGS] = Masked(VlanFlags(number), VlanFlags(number))
        found[IFLA_VLAN_PROTOCOL] = VlanProtocol(number & 0xFFFF)
        found.append(IFLA_VLAN_EGRESS_QOS, [QosMapping(number, 1)])
    if found.family == Family.CAN:
        found[IFLA_CAN_BITTIMING] = CanBitTiming(bitrate=number, sample_point=875)
        found.append(IFLA_CAN_RESTART_MS, number)
    found.append("type 99", Unknown(number.to_bytes(4, "little"), 0x8000))


def value_lines(table, name, value):
    """Yields a line for an attribute, and one for each of its elements."""
    row = table.row(name)
    if row.form != Form.LIST:
        yield f"value 0 {row.kind} {name} {content(row, value)}"
        return
    yield f"value 0 {row.kind} {name} list {len(value)}"
    if isinstance(value, List):
        below = table.below[row.kind]
        for it, inner in value:
            yield f"value 1 {below.row(it).kind} {it} {content(below.row(it), inner)}"
        return
    for index, inner in enumerate(value):
        if isinstance(inner, Unknown):
            yield f"value 1 {inner.kind} type {inner.kind} {content(row.item, inner)}"
        else:
            kind, title = (row.item.kind, row.item.name) if row.item.name else (index, place(name, index))
            yield f"value 1 {kind} {title} {content(row.item, inner)}"


# The arrays whose places have names.
PLACES = {
    IFLA_STATS: LinkStats,
    IFLA_STATS64: LinkStats64,
    IFLA_INET_CONF: Ipv4Conf,
    IFLA_INET6_CONF: Ipv6Conf,
    IFLA_INET6_STATS: Ipv6Stats,
    IFLA_INET6_ICMP6STATS: Icmp6Stats,
}


def place(name, index):
    """Returns the name of a place of an array."""
    places = PLACES.get(name, ())
    return places(index).name.lower() if index < len(places) else f"[{index}]"


# The words for a content, by the form of its attribute type. Others are a number.
WORDS = {
    Form.EMPTY: lambda it: "empty",
    Form.BOOL: lambda it: f"bool {it is None or it:d}",
    Form.UNSIGNED: lambda it: f"unsigned {it}",
    Form.SIGNED: lambda it: f"signed {it}",
    Form.NAMED: lambda it: f"named {it:d}",
    Form.FLAGS: lambda it: f"flags {it:d}",
    Form.MASKED: lambda it: f"masked {it.flags:d} {it.mask:d}",
    Form.MAC: lambda it: f"mac {it.hex()}",
    Form.IPV4: lambda it: f"ipv4 {it.packed.hex()}",
    Form.IPV6: lambda it: f"ipv6 {it.packed.hex()}",
    Form.BRIDGE_ID: lambda it: f"bridge_id {it.priority} {it.address.hex()}",
    Form.VLAN_INFO: lambda it: f"vlan_info {it.vid} {it.flags:d}",
    Form.QOS_MAPPING: lambda it: f"qos_mapping {it.from_} {it.to}",
    Form.BERR_COUNTER: lambda it: f"berr_counter {it.txerr} {it.rxerr}",
    Form.BITTIMING: lambda it: f"bittiming {' '.join(map(str, it))}",
    # (of the name the C API takes 15 bytes)
    Form.BITTIMING_CONST: lambda it: "bittiming_const "
    + f"{it.name.encode(errors='surrogateescape')[:15].hex()} {' '.join(map(str, it[1:]))}",
    Form.BYTES: lambda it: f"bytes {it.hex()}",
    Form.TEXT: lambda it: f"text {it.hex()}",
    Form.HELD: lambda it: f"held {it.hex()}",
    Form.PEER: lambda it: f"peer {it.hex()}",
}


def content(row, value):
    """Returns the words for a content."""
    if isinstance(value, Unknown):
        return f"unknown {value.flags} {value.payload.hex()}"
    return WORDS[row.form](value)
