"""How `ip` and `bridge` write in JSON what `nlshow` prints: for each attribute a rule, for compare_ip.py.

A rule compares an attribute's line with the values of a JSON object, tells a report what it finds, and returns the keys
of the object that it knows. A form takes a JSON value and returns the text that `nlshow` should print after the
attribute's name. Both take the sample, which has the indexes of the devices and the roots of the bridges.
"""
import grp
import pwd
import re
from functools import partial

# The clock ticks by which a timer may differ.
TOLERANCE = 100
IP_SILENT = "ip does not print it"
IP_OLD = "this ip does not print it"
BRIDGE_SILENT = "bridge does not print it"
BRIDGE_OLD = "this bridge does not print it"
AS_NULL = "null"


# Forms.

def number(value, _):
    """A number. JSON has a number, or a string of C."""
    return str(int(value, 0) if isinstance(value, str) else value)


def mask(value, sample):
    return f"{number(value, sample)} ({int(number(value, sample)):#x})"


def with_unit(unit):
    return lambda value, _: f"{value} {unit}"


def on_off(value, _):
    """A boolean. JSON has true, 1 or "on"."""
    return {"True": "on", "1": "on", "False": "off", "0": "off"}.get(str(value), str(value))


def if_on(value, _):
    """A boolean. JSON has it only if it is true."""
    return "on" if value else "off"


def number_or_0(value, sample):
    """A number. JSON lacks 0."""
    return number(value or 0, sample)


def mask_or_0(value, sample):
    return mask(value or 0, sample)


def flag(value, _):
    """An attribute without a value. JSON has true."""
    return "" if value is True else str(value)


def ports(value, _):
    return f"low {value['low']} high {value['high']}"


def ticks(value, _):
    """A time in 1/100 s."""
    return f"{value} ({value // 100}.{value % 100:02} s)"


def timer(value, sample):
    """A time that moves. JSON has seconds."""
    return ticks(round(100 * value), sample)


def is_near(text, wanted):
    """Whether a text is a time as `ticks` writes it, at most TOLERANCE from the one that is wanted."""
    found, middle = (int(re.match(r"\d*", it)[0] or -TOLERANCE) for it in (text, wanted))
    return text == ticks(found, None) and abs(found - middle) <= TOLERANCE


def address(value, _):
    """An address, or a list of them."""
    return (value if isinstance(value, str) else " ".join(value or [])) or "(empty)"


def bridge_id(value, _):
    """A bridge identifier. iproute2 omits leading zeros of octets."""
    priority, _, octets = value.partition(".")
    return f"{priority}.{':'.join(it.zfill(2) for it in octets.split(':'))}"


def device(value, sample):
    """An interface index. JSON has the name, null for no device, or the index of a device of another namespace."""
    if value is None or isinstance(value, int):
        return f"ifindex {value or 0}"
    return f"ifindex {sample.indexes.get(value, value)}"


def protocol(value, _):
    return value + {"802.1Q": " (0x8100)", "802.1ad": " (0x88a8)"}.get(value, "")


def flag_set(flags):
    """Flags in an order that does not depend on that of the programs."""
    return "|".join(sorted(flags)) or "0"


def enum(names, said=None):
    """The form of an enum: its names from 0, and those in JSON if they differ. JSON may have the number too."""
    names = names.split()
    said = said.split() if said else names

    def form(value, _):
        if isinstance(value, str) and value not in said:
            return value
        at = said.index(value) if isinstance(value, str) else value or 0
        return f"{names[at]} ({at})" if at < len(names) else str(at)

    return form


PORT_STATE = enum("disabled listening learning forwarding blocking")
ROUTER = enum("disabled auto permanent temp")


def uid(value, _):
    """A number of a user. JSON has the name, if there is one."""
    return value if value.isdigit() else str(pwd.getpwnam(value).pw_uid)


def gid(value, _):
    return value if value.isdigit() else str(grp.getgrnam(value).gr_gid)


# Rules. What depends on the attribute comes first: `partial` gives it.

def one(key, form, missing, node, values, sample, report):
    """The attribute has the value of a key. `missing` is the reason for which JSON may lack the key, AS_NULL if that
    means the same as null, or None."""
    if node.children:
        report.differ(f"{node.line}: it has lines below it, as {node.children[0].line}")
    if key in values or missing == AS_NULL:
        try:
            wanted = form(values.get(key), sample)
        except (TypeError, ValueError, AttributeError):
            wanted = "of another type"
        report.pair(node.line, node.text, key, values.get(key), wanted, form is timer)
    elif missing:
        report.explain(node.name, missing)
    else:
        report.differ(f"{node.line}: JSON has no {key}")
    return {key}


def either(keys, node, values, *rest):
    """An address. JSON has one of these keys."""
    return one(next((it for it in keys if it in values), keys[0]), address, None, node, values, *rest)


def never(reason, node, _values, _sample, report):
    """JSON has no value of the attribute."""
    report.explain(node.name, reason)
    return set()


def table(prefix, *groups, **others):
    """The rules of the attributes of a list. A group has a form, keys, and why JSON may lack them. The attribute of a
    key has its name, in capitals; another name precedes it, as in MODE:hairpin. Other attributes have other rules."""
    rows = {f"{prefix}{name}": rule for name, rule in others.items()}
    for form, keys, *missing in groups:
        for name, _, key in (it.rpartition(":") for it in keys.split()):
            rows[f"{prefix}{name or key.upper()}"] = partial(one, key, form, *missing or [None])
    return rows


def link(node, values, *rest):
    """IFLA_LINK: the device's name, or its index if it is in another namespace."""
    return one("link_index" if "link_index" in values else "link", device, None, node, values, *rest)


def root_id(node, values, sample, report):
    """The root of a bridge. Some versions of `ip` print the bridge's own identifier; then its ports have the root."""
    roots = sample.roots.get(report.device, [])
    if values.get("root_id") == values.get("bridge_id") and roots and values["root_id"] not in roots:
        reason = "this ip prints the bridge's own identifier in its place"
        report.explain(f"{node.name} of a bridge that is not the root", reason)
        values = values | {"root_id": roots[0]}
    return one("root_id", bridge_id, None, node, values, sample, report)


# The boolean options of a bridge: the flags that have other keys, and the others.
OPTIONS = {"NO_LL_LEARN": "no_linklocal_learn", "MST_ENABLE": "mst_enabled"}
OPTIONS |= {it.upper(): it for it in ("mcast_vlan_snooping", "mdb_offload_fail_notification", "fdb_local_vlan_0")}


def options(node, values, _sample, report):
    """The boolean options of a bridge. JSON has a number for each that is in the mask and that this `ip` knows."""
    found = re.fullmatch(r"value (\S+) mask (\S+)", node.text)
    value, known = (it.split("|") for it in found.groups()) if found else ([], [])
    if not found:
        report.differ(f"{node.line}: it is no value with a mask")
    for flag, key in OPTIONS.items():
        if flag in known and key in values:
            report.pair(f"{node.name} {flag}", str(int(flag in value)), key, values[key], str(values[key]))
        elif flag in known:
            report.explain(f"{node.name} {flag}", IP_OLD)
        elif key in values:
            report.differ(f"{node.line}: JSON has {key} {values[key]}")
    return set(OPTIONS.values())


def vlan_flags(node, values, _sample, report):
    """The flags of a VLAN device, and their mask, which JSON lacks."""
    found = re.fullmatch(r"flags (\S+) mask (\S+)", node.text)
    flags = flag_set(found[1].split("|")) if found else "no value with a mask"
    wanted = flag_set(values["flags"] or ["0"]) if "flags" in values else "in JSON"
    report.pair(node.line, flags, "flags", values.get("flags"), wanted)
    report.explain(f"mask of {node.name}", IP_SILENT)
    return {"flags"}


def bits(names, none, node, values, _sample, report):
    """A set of flags: JSON has a boolean for each flag that is set, and perhaps another if none is."""
    said = "|".join(it.upper() for it in names if values.get(it)) or "0"
    report.pair(node.line, node.text, "/".join(names), {it: values[it] for it in names if it in values}, said)
    return {*names, none}


def mappings(key, node, values, _sample, report):
    """The priority mappings of a VLAN device: an array of objects."""
    said = [f"IFLA_VLAN_QOS_MAPPING from {it['from']} to {it['to']}" for it in values.get(key, [])]
    report.pair(node.line, node.text, key, values.get(key), "" if said else "(empty)")
    report.sequence([it.line for it in node.children], key, said)
    return {key}


def nested(key, rows, node, values, sample, report):
    """A nested list: an object."""
    report.pair(node.line, node.text, key, values.get(key), "" if node.children else "(empty)")
    compare_list(node.children, values.get(key, {}), rows, sample, report)
    return {key}


def array(key, name, node, values, _sample, report):
    """A nested list whose elements are alike: an array."""
    report.pair(node.line, node.text, key, values.get(key), "" if node.children else "(empty)")
    report.sequence([it.line for it in node.children], key, [f"{name} {it}" for it in values.get(key, [])])
    return {key}


# The names of the states of LACP in nlshow and in JSON, lowest bit first.
LACP = "LACP_ACTIVITY LACP_TIMEOUT AGGREGATION SYNCHRONIZATION COLLECTING DISTRIBUTING DEFAULTED EXPIRED".split()
LACP_SAID = "active short_timeout aggregating in_sync collecting distributing defaulted expired".split()


def lacp_state(value, _):
    """The state of LACP: a number, or an array of words."""
    if isinstance(value, list):
        return "|".join(dict(zip(LACP_SAID, LACP)).get(it, it) for it in value) or "0"
    return "|".join(name for at, name in enumerate(LACP) if value >> at & 1) or "0"


def lacp(key, *rest):
    """The state of LACP of a bond's port: a number, and once more in words."""
    return one(key, lacp_state, None, *rest) | one(f"{key}_str", lacp_state, IP_OLD, *rest)


def compare_list(nodes, values, rows, sample, report):
    """Compares the lines of an attribute list with a JSON object. Each line has a rule, and each key is of a line."""
    keys, names = set(), set()
    for node in nodes:
        if node.name in names:
            report.differ(f"{node.line}: another line has this attribute too")
        elif node.name in rows:
            keys |= rows[node.name](node, values, sample, report)
        elif node.name.startswith("type "):
            report.explain(node.name, "nlshow has no name for this attribute type")
        else:
            report.differ(f"{node.line}: there is no rule for it")
        names.add(node.name)
    for key, value in values.items():
        if key not in keys and key.removesuffix("_str") in keys:
            report.explain(key, f"it is {key.removesuffix('_str')} in words")
        elif key not in keys:
            report.differ(f"JSON has {key} {value}, but there is no line for it")


def quoted(value, _):
    """A text."""
    return '"' + re.sub(r'(["\\\\])', r"\\\1", value) + '"'


def group(value, sample):
    """A group of devices. JSON has the name of 0."""
    return "0" if value == "default" else number(value, sample)


def counters(width, node, values, _sample, report):
    """Counters by their names, of so many bits. JSON has two objects, for what is received and for what is sent. What a
    device has counted is of both."""
    report.explain(f"number of zeros in {node.name}", IP_SILENT)
    pairs = re.findall(r"(\w+) (\d+)", node.text)
    for way, numbers in values.get("stats64", {}).items():
        for key, value in numbers.items():
            name = key if key in ("multicast", "collisions") else f"{way}_{key}"
            if name != "tx_carrier_changes":
                report.pair(f"{node.name} {name}", dict(pairs).get(name, "0"), key, value, str(value % 2**width))
    return {"stats64"}


def changes(node, values, sample, report):
    """How often the carrier of a link changed, which JSON has among what was sent."""
    one("carrier_changes", number, IP_OLD, node, values.get("stats64", {}).get("tx", {}), sample, report)
    return {"stats64"}


def alternative_names(node, values, _sample, report):
    """The alternative names of a link: an array."""
    said = [f"IFLA_ALT_IFNAME {quoted(it, None)}" for it in values.get("altnames", [])]
    report.sequence([it.line for it in node.children], "altnames", said)
    return {"altnames"}


def permanent(node, values, *rest):
    """The permanent address. JSON has it if it is another than the address."""
    return one("permaddr", address, None, node, {"permaddr": values.get("address")} | values, *rest)


def programs(node, values, _sample, report):
    """The XDP programs of a link. JSON has none if there are none."""
    none = [it.line for it in node.children] == ["IFLA_XDP_ATTACHED none (0)"]
    report.pair(node.line, str(not none), "xdp", values.get("xdp"), str("xdp" in values))
    return {"xdp"}


def families(node, values, sample, report):
    """What a link has for each address family. JSON has one setting of AF_INET6."""
    for it in node.children:
        if it.name == "AF_INET6":
            compare_list(it.children, {key: values[key] for key in INET6_KEYS if key in values}, INET6, sample, report)
        else:
            report.explain(f"{node.name}: {it.name}", IP_SILENT)
    return INET6_KEYS


# The attributes of a message about a link, without IFLA_LINKINFO and IFLA_PROTINFO.
STATES = "UNKNOWN NOTPRESENT DOWN LOWERLAYERDOWN TESTING DORMANT UP"
SILENT = """MAP CARRIER CARRIER_UP_COUNT CARRIER_DOWN_COUNT NUM_VF VFINFO_LIST VF_PORTS PORT_SELF DEVLINK_PORT DPLL_PIN
PROTO_DOWN_REASON"""
TOP = table(
    "IFLA_",
    (number, """mtu promiscuity min_mtu max_mtu num_tx_queues num_rx_queues gso_max_size gso_max_segs tso_max_size
        tso_max_segs gro_max_size link_netnsid"""),
    (number, "allmulti gso_ipv4_max_size gro_ipv4_max_size max_pacing_offload_horizon headroom tailroom", IP_OLD),
    (number_or_0, "txqlen", AS_NULL),
    (quoted, "ifname qdisc ifalias PARENT_DEV_NAME:parentdev PARENT_DEV_BUS_NAME:parentbus phys_port_name"),
    (address, "address broadcast"),
    (address, "phys_port_id phys_switch_id", IP_OLD),
    (device, "master"),
    (enum(STATES), "operstate"),
    (enum("DEFAULT DORMANT TESTING"), "linkmode"),
    (group, "group"),
    (if_on, "proto_down", AS_NULL),
    (if_on, "NETNS_IMMUTABLE:netns-immutable", IP_OLD),
    LINK=link,
    STATS=partial(counters, 32),
    STATS64=partial(counters, 64),
    CARRIER_CHANGES=changes,
    PROP_LIST=alternative_names,
    PERM_ADDRESS=permanent,
    XDP=programs,
    AF_SPEC=families,
    **dict.fromkeys(SILENT.split(), partial(never, IP_SILENT)),
)
INET6_KEYS = {"inet6_addr_gen_mode"}
MODES = enum("eui64 none stable_secret random")
INET6 = table(
    "IFLA_INET6_",
    (MODES, "ADDR_GEN_MODE:inet6_addr_gen_mode"),
    **dict.fromkeys("FLAGS CONF STATS CACHEINFO ICMP6STATS TOKEN RA_MTU".split(), partial(never, IP_SILENT)),
)
# What `ip` says of a link besides these attributes.
NOT_TOP = {"ifindex", "flags", "link_type", "link_pointtopoint", "linkinfo"}
# What messages of AF_BRIDGE have of these.
BRIDGE_KEYS = {"ifname", "mtu", "address", "link", "link_index", "master", "operstate"}
KINDS = table("IFLA_INFO_", (quoted, "KIND:info_kind SLAVE_KIND:info_slave_kind"))
# Lines of a message that are compared elsewhere.
OTHER_LINES = {"ifindex", "IFLA_LINKINFO", "IFLA_PROTINFO"}

BRIDGE = table(
    "IFLA_BR_",
    (ticks, """forward_delay hello_time max_age ageing_time mcast_last_member_intvl mcast_membership_intvl
        mcast_querier_intvl mcast_query_intvl mcast_query_response_intvl mcast_startup_query_intvl"""),
    (timer, "hello_timer tcn_timer topology_change_timer gc_timer"),
    (number, """priority root_port root_path_cost topology_change topology_change_detected mcast_hash_elasticity
        mcast_hash_max mcast_last_member_cnt mcast_startup_query_cnt vlan_default_pvid mcast_igmp_version mcast_mld_version"""),
    (number, "fdb_n_learned fdb_max_learned", IP_OLD),
    (on_off, """vlan_filtering mcast_snooping mcast_query_use_ifaddr mcast_querier nf_call_iptables nf_call_ip6tables
        nf_call_arptables vlan_stats_enabled mcast_stats_enabled vlan_stats_per_port"""),
    (enum("no kernel_stp user_stp"), "stp_state"),
    (enum("auto user kernel"), "stp_mode", IP_OLD),
    (ROUTER, "mcast_router"),
    (protocol, "vlan_protocol"),
    (mask, "group_fwd_mask"),
    (bridge_id, "bridge_id"),
    (address, "group_addr"),
    ROOT_ID=root_id,
    MULTI_BOOLOPT=options,
    MCAST_QUERIER_STATE=partial(never, IP_SILENT),
)

# What is the same in `ip` and `bridge`.
OF_PORT = [
    (PORT_STATE, "state"),
    (number, "priority cost"),
    (on_off, """MODE:hairpin guard PROTECT:root_block FAST_LEAVE:fastleave learning UNICAST_FLOOD:flood mcast_flood
        MCAST_TO_UCAST:mcast_to_unicast vlan_tunnel bcast_flood neigh_suppress isolated locked"""),
    (device, "backup_port"),
]
# What only newer versions print.
NEW = [(on_off, "mab neigh_vlan_suppress neigh_forward_grat"), (number, "mcast_n_groups mcast_max_groups backup_nhid")]
PORT = table(
    "IFLA_BRPORT_",
    *OF_PORT,
    *((*it, IP_OLD) for it in NEW),
    (on_off, "PROXYARP:proxy_arp PROXYARP_WIFI:proxy_arp_wifi topology_change_ack config_pending"),
    (bridge_id, "root_id bridge_id"),
    (mask, "designated_port id group_fwd_mask"),
    (number, "designated_cost"),
    (number, "no"),
    (timer, "message_age_timer forward_delay_timer hold_timer"),
    (ROUTER, "multicast_router"),
    (number, "mcast_eht_hosts_limit mcast_eht_hosts_cnt", IP_OLD),
    **dict.fromkeys(("LEARNING_SYNC", "MRP_RING_OPEN", "MRP_IN_OPEN"), partial(never, IP_SILENT)),
)
BRIDGE_PORT = table(
    "IFLA_BRPORT_",
    *OF_PORT,
    *((*it, BRIDGE_OLD) for it in NEW),
    (on_off, "learning_sync", BRIDGE_OLD),
    (ROUTER, "MULTICAST_ROUTER:mcast_router"),
)
SPEC = table("IFLA_BRIDGE_", (enum("veb vepa", "VEB VEPA"), "MODE:hwmode"), FLAGS=partial(never, BRIDGE_SILENT))
VLAN = table(
    "IFLA_VLAN_",
    (number, "id"),
    (protocol, "protocol"),
    FLAGS=vlan_flags,
    **{it.upper(): partial(mappings, it) for it in ("egress_qos", "ingress_qos")},
)

AGGREGATE = table("IFLA_BOND_AD_INFO_", (number, "aggregator num_ports actor_key partner_key"), (address, "partner_mac"))
BOND = table(
    "IFLA_BOND_",
    (enum("balance-rr active-backup balance-xor broadcast 802.3ad balance-tlb balance-alb"), "mode"),
    (device, "active_slave primary", AS_NULL),
    (with_unit("ms"), "miimon updelay downdelay arp_interval PEER_NOTIF_DELAY:peer_notify_delay"),
    (with_unit("s"), "lp_interval"),
    (on_off, "use_carrier tlb_dynamic_lb ad_lacp_active"),
    (on_off, "coupled_control BROADCAST_NEIGH:broadcast_neighbor lacp_strict", IP_OLD),
    (address, "arp_ip_target ns_ip6_target", AS_NULL),
    (address, "ad_actor_system"),
    (enum("none active backup all filter filter_active filter_backup"), "arp_validate"),
    (enum("any all"), "arp_all_targets"),
    (enum("always better failure"), "primary_reselect"),
    (enum("none active follow"), "fail_over_mac"),
    (enum("layer2 layer3+4 layer2+3 encap2+3 encap3+4 vlan+srcmac"), "xmit_hash_policy"),
    (enum("dropped delivered"), "all_slaves_active"),
    (enum("slow fast"), "ad_lacp_rate"),
    (enum("stable bandwidth count actor_port_prio"), "ad_select"),
    (number, """resend_igmp num_peer_notif min_links packets_per_slave ad_actor_sys_prio ad_user_port_key
        MISSED_MAX:arp_missed_max"""),
    AD_INFO=partial(nested, "ad_info", AGGREGATE),
)
BOND_PORT = table(
    "IFLA_BOND_SLAVE_",
    (enum("active backup", "ACTIVE BACKUP"), "state"),
    (enum("up going_down down going_back", "UP GOING_DOWN DOWN GOING_BACK"), "mii_status"),
    (number, "link_failure_count queue_id ad_aggregator_id prio"),
    (address, "perm_hwaddr"),
    (number, "actor_port_prio", IP_OLD),
    (enum("monitor churn no_churn"), "ad_churn_actor_state ad_churn_partner_state", IP_OLD),
    **{it.upper(): partial(lacp, it) for it in ("ad_actor_oper_port_state", "ad_partner_oper_port_state")},
)
HSR = table(
    "IFLA_HSR_",
    (device, "slave1 slave2"),
    (device, "interlink", IP_OLD),
    (address, "supervision_addr"),
    (number, "seq_nr"),
    (enum("hsr prp"), "PROTOCOL:proto"),
    **dict.fromkeys(("MULTICAST_SPEC", "VERSION"), partial(never, IP_SILENT)),
)

VXLAN = table(
    "IFLA_VXLAN_",
    (number, "id port"),
    (number_or_0, "ttl limit", AS_NULL),
    (mask_or_0, "tos label", AS_NULL),
    (with_unit("s"), "ageing"),
    (device, "link"),
    (address, "local local6"),
    (on_off, "learning udp_csum udp_zero_csum6_tx udp_zero_csum6_rx"),
    (if_on, "proxy rsc l2miss l3miss remcsum_tx remcsum_rx COLLECT_METADATA:external vnifilter", AS_NULL),
    (on_off, "localbypass mc_route", IP_OLD),
    (enum("unset set inherit"), "df"),
    (enum("fixed inherit"), "label_policy", IP_OLD),
    (ports, "port_range"),
    (flag, "gbp gpe"),
    GROUP=partial(either, ("group", "remote")),
    GROUP6=partial(either, ("group6", "remote6")),
    **dict.fromkeys(("TTL_INHERIT", "REMCSUM_NOPARTIAL", "RESERVED_BITS"), partial(never, IP_SILENT)),
)

GENEVE = table(
    "IFLA_GENEVE_",
    (number, "id port"),
    (number_or_0, "ttl", AS_NULL),
    (mask_or_0, "tos label", AS_NULL),
    (address, "remote remote6"),
    (on_off, "udp_csum udp_zero_csum6_tx udp_zero_csum6_rx"),
    (enum("unset set inherit"), "df"),
    (ports, "port_range", IP_OLD),
    (flag, "COLLECT_METADATA:external inner_proto_inherit"),
    TTL_INHERIT=partial(never, IP_SILENT),
)

VRF = table("IFLA_VRF_", (number, "table"))

VRF_PORT = table("IFLA_VRF_PORT_", (number, "table"))

TUN = table(
    "IFLA_TUN_",
    (uid, "OWNER:user"),
    (gid, "GROUP:group"),
    (enum("- tun tap"), "type"),
    (on_off, "pi vnet_hdr persist multi_queue"),
    (number, "NUM_QUEUES:numqueues NUM_DISABLED_QUEUES:numdisabled"),
)

IPVLAN = table("IFLA_IPVLAN_", (enum("l2 l3 l3s"), "mode"), FLAGS=partial(bits, ("private", "vepa"), "bridge"))

MACVLAN = table(
    "IFLA_MACVLAN_",
    (enum("0 private vepa 3 bridge 5 6 7 passthru 9 10 11 12 13 14 15 source"), "mode"),
    (number, "MACADDR_COUNT:macaddr_count", "ip prints it in the mode source only"),
    (number, "BC_QUEUE_LEN:bcqueuelen BC_QUEUE_LEN_USED:usedbcqueuelen"),
    (number, "BC_CUTOFF:bclim", IP_OLD),
    FLAGS=partial(bits, ("nopromisc", "nodst"), ""),
    MACADDR_DATA=partial(array, "macaddr_data", "IFLA_MACVLAN_MACADDR"),
)

NETKIT = table(
    "IFLA_NETKIT_",
    (lambda value, _: "on" if value == "primary" else "off", "PRIMARY:type"),
    (enum("forward 1 blackhole"), "policy peer_policy"),
    (enum("l2 l3"), "mode"),
    (enum("none default"), "scrub peer_scrub", IP_OLD),
    (number, "headroom tailroom", IP_OLD),
)

# The rules of a list of `ip`, by the attribute set that nlshow names. CAN and DSA need hardware.
LISTS = {
    "(bridge)": BRIDGE, "(bridge_port)": PORT, "(vlan)": VLAN, "(bond)": BOND, "(bond_port)": BOND_PORT, "(hsr)": HSR, "(vxlan)": VXLAN,
    "(geneve)": GENEVE, "(vrf)": VRF, "(vrf_port)": VRF_PORT, "(tun)": TUN, "(ipvlan)": IPVLAN, "(macvlan)": MACVLAN, "(netkit)": NETKIT,
}  # fmt: skip
