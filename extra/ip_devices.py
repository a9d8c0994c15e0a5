"""Devices with settings that differ from the defaults, for compare_ip.py. It runs in a network namespace of its own.

Kernels and versions of `ip` differ in what they know. So each setting is a command of its own, and one that is refused
is only noted.

There are pairs of veth devices, a0 and b0 to a7 and b7:

- br0, with STP, has the ports a0, a1 and a2; br1, without STP, has b1 and a3; br2, with STP below br0, has b2;
- bond0 has a4 and a5, and bond1 has b5 and a6;
- hsr0 is on b3 and b4, prp0 on b6 and b7, and others are on b0.
"""
import json
import subprocess
import time

PAIRS = 8
PORTS = {"br0": "a0; a1; a2", "br1": "b1; a3", "br2": "b2"}
# Settings of the bridge br0. Some depend on earlier ones.
BRIDGE = """
forward_delay 700; hello_time 300; max_age 1500; ageing_time 12345; stp_state 1; priority 4096; group_fwd_mask 8;
group_address 01:80:c2:00:00:04; no_linklocal_learn 1; vlan_default_pvid 7; vlan_stats_enabled 1;
vlan_stats_per_port 1; vlan_protocol 802.1ad; vlan_filtering 1; mcast_vlan_snooping 1; mst_enabled 1; mcast_router 2;
mcast_query_use_ifaddr 1; mcast_querier 1; mcast_hash_elasticity 8; mcast_hash_max 1024; mcast_last_member_count 3;
mcast_startup_query_count 5; mcast_last_member_interval 150; mcast_membership_interval 27000;
mcast_querier_interval 24500; mcast_query_interval 13500; mcast_query_response_interval 1100;
mcast_startup_query_interval 3300; mcast_stats_enabled 1; mcast_igmp_version 3; mcast_mld_version 2;
nf_call_iptables 1; nf_call_ip6tables 1; nf_call_arptables 1; fdb_max_learned 100
"""
OTHER_BRIDGE = "mcast_snooping 0; mcast_router 0; vlan_default_pvid 0"
# br2 has the group address of br0, to which BPDUs are sent.
SECOND_BRIDGE = "stp_state 1; group_address 01:80:c2:00:00:04"
# Settings of the port a0 of br0.
PORT = """
cost 77; priority 7; guard on; hairpin on; fastleave on; root_block on; learning off; flood off; mcast_flood off;
bcast_flood off; mcast_to_unicast on; mcast_router 2; mcast_max_groups 64; neigh_suppress on; neigh_vlan_suppress on;
group_fwd_mask 16384; isolated on; locked on; mab on; backup_port a1
"""
# Settings of the port b1 of br1.
OTHER_PORT = """
cost 1234; proxy_arp on; proxy_arp_wifi on; mcast_fast_leave on; mcast_router 0; group_fwd_mask 49157; state 2
"""
BOND = """
miimon 100; updelay 200; downdelay 300; peer_notify_delay 400; use_carrier 1; lacp_rate fast; lacp_active off;
ad_select bandwidth; ad_actor_sys_prio 1000; ad_user_port_key 5; ad_actor_system 02:00:00:00:00:09;
xmit_hash_policy layer3+4; min_links 1; all_slaves_active 1; num_grat_arp 3; resend_igmp 4; lp_interval 6
"""
# Settings of a bond with the mode active-backup.
BACKUP_BOND = """
arp_interval 200; arp_ip_target 192.0.2.7,192.0.2.8; ns_ip6_target 2001:db8::7,2001:db8::8;
arp_validate filter_active; arp_all_targets all; arp_missed_max 4; primary_reselect better; fail_over_mac follow
"""
# VLANs of bridges and ports, and the tunnels of some.
VLANS = """
dev a0 vid 10 pvid untagged;
dev a0 vid 20;
dev a0 vid 100-103;
dev a0 vid 110-112 untagged;
dev a0 vid 100 tunnel_info id 1000;
dev a0 vid 101-103 tunnel_info id 1001-1003;
dev a1 vid 4094;
dev br0 vid 10 self
"""
# Devices on others, and types that nlshow does not decode.
OTHERS = """
link b0 name v6 type vlan proto 802.1ad id 6 gvrp on mvrp on loose_binding on ingress-qos-map 1:2 3:4 egress-qos-map 5:6;
link b0 name v7 type vlan id 7 reorder_hdr off;
name hsr0 type hsr slave1 b3 slave2 b4 supervision 45 version 1;
name prp0 type hsr slave1 b6 slave2 b7 supervision 46 proto 1;
name mv0 link b0 type macvlan mode bridge;
name mt0 link b0 type macvtap mode vepa;
name mv1 link b0 type macvlan mode source nodst bcqueuelen 500 macaddr set 02:00:00:00:00:01 02:00:00:00:00:02;
name vx0 type vxlan id 42 remote 192.0.2.9 dstport 4789;
name gn0 type geneve id 1000 remote 192.0.2.9 ttl 64 tos 0x10 df set;
name gn1 type geneve id 5 remote 2001:db8::9 ttl inherit flowlabel 0xabcde udp6zerocsumtx;
name iv0 link a7 type ipvlan mode l3s private;
name it0 link a7 type ipvtap mode l3s bridge;
name vrf0 type vrf table 100;
name vrfp0 master vrf0 type dummy;
name nk0 type netkit mode l2 forward peer blackhole;
name dummy0 type dummy;
name vcan0 type vcan
"""


# The commands that were refused, each with what it said.
REFUSED = []


def run(words):
    """Whether a command succeeds."""
    words = " ".join(words.split())
    ran = subprocess.run(words.split(), capture_output=True, text=True)
    said = (ran.stderr + ran.stdout).strip().splitlines()
    if ran.returncode:
        REFUSED.append((words, said[0] if said else f"status {ran.returncode}"))
    return ran.returncode == 0


def each(words, settings):
    """Runs a command once for each setting."""
    for setting in settings.split(";"):
        run(f"{words} {setting}")


def make_bridges():
    """Makes the bridges, with their ports. br0 gets all settings."""
    for bridge, settings in (("br0", BRIDGE), ("br1", OTHER_BRIDGE), ("br2", SECOND_BRIDGE)):
        run(f"ip link add {bridge} type bridge")
        each(f"ip link set {bridge} type bridge", settings)
    for bridge, ports in PORTS.items():
        each(f"ip link set master {bridge} dev", ports)
        run(f"ip link set {bridge} up")
    run("ip address add 192.0.2.1/24 dev br0")
    run("ip link set a0 type bridge_slave vlan_tunnel on")
    each("bridge vlan add", VLANS)


def make_bonds():
    """Makes a bond with LACP, one with a backup, and one without ports."""
    if run("ip link add bond0 type bond mode 802.3ad"):
        each("ip link set bond0 type bond", BOND)
        each("ip link set", "a4 master bond0; a5 master bond0; a4 type bond_slave queue_id 3; bond0 up")
    if run("ip link add bond1 type bond mode active-backup"):
        each("ip link set bond1 type bond", BACKUP_BOND)
        each("ip link set", "b5 master bond1; a6 master bond1")
        each("ip link set b5 type bond_slave", "prio -1; queue_id 2")
        each("ip link set", "bond1 type bond primary b5; bond1 up")
    if run("ip link add bond2 type bond mode balance-rr"):
        each("ip link set bond2 type bond", "packets_per_slave 2; use_carrier 0")


def set_ports():
    """Sets what a bridge changes by itself while its ports come up: br2 finds its root at first."""
    for _ in range(50):
        ran = subprocess.run("ip -d -j link show br2".split(), capture_output=True, text=True)
        if ran.returncode or json.loads(ran.stdout)[0]["linkinfo"]["info_data"]["root_port"]:
            break
        time.sleep(0.2)
    each("ip link set a0 type bridge_slave", PORT)
    each("ip link set b1 type bridge_slave", OTHER_PORT)
    run("ip link set a3 type bridge_slave state 4")
    run("bridge link set dev a1 learning_sync on")


def make():
    """Makes all devices. Returns the commands that were refused, each with what it said."""
    run("ip link set lo up")
    for at in range(PAIRS):
        peer = f"peer name b{at} address 02:00:00:00:01:0{at}"
        run(f"ip link add a{at} address 02:00:00:00:00:0{at} type veth {peer}")
    make_bonds()
    make_bridges()
    each("ip link add", OTHERS)
    each("ip tuntap add dev", "tun0 mode tun user 0 group 0; tap0 mode tap multi_queue vnet_hdr pi")
    each("ip link set up dev", ";".join(f"a{at}; b{at}" for at in range(PAIRS)))
    set_ports()
    return REFUSED
