"""Numbers of the C API, enums, flags and names of attributes. Written by bindings/generate.py."""
from __future__ import annotations

from enum import IntEnum
from typing import TYPE_CHECKING

from ._types import Flags, Key, Named, Row, Struct, Texts

if TYPE_CHECKING:
    from ipaddress import IPv4Address, IPv6Address

    from ._list import List
    from ._types import BerrCounter, BridgeId, CanBitTiming, CanBitTimingConst, Mac, Masked, QosMapping, Text, VlanInfo

VERSION = 0x000300  # of nlroute.h


class Family(Texts):
    """An attribute set: `Family("bond")` is `Family.BOND`."""

    AF_SPEC_BRIDGE = 0, "af_spec_bridge"
    BOND = 1, "bond"
    BOND_PORT = 2, "bond_port"
    BRIDGE = 3, "bridge"
    BRIDGE_PORT = 4, "bridge_port"
    VLAN = 5, "vlan"
    CAN = 6, "can"
    DSA = 7, "dsa"
    HSR = 8, "hsr"
    PROTO_BRIDGE = 9, "proto_bridge"
    VXLAN = 10, "vxlan"
    LINK = 11, "link"
    AF_SPEC = 12, "af_spec"
    INET = 13, "inet"
    INET6 = 14, "inet6"
    MCTP = 15, "mctp"
    REPLY = 16, "reply"
    GENEVE = 17, "geneve"
    VRF = 18, "vrf"
    VRF_PORT = 19, "vrf_port"
    TUN = 20, "tun"
    IPVLAN = 21, "ipvlan"
    MACVLAN = 22, "macvlan"
    NETKIT = 23, "netkit"
    VETH = 24, "veth"


class Place(IntEnum):
    """The part of an attribute that is malformed."""
    FRAME = 0
    PAYLOAD = 1
    ELEMENT_FRAME = 2
    ELEMENT_PAYLOAD = 3
    MESSAGE_HEADER = 6
    LINK_HEADER = 7


class Cause(IntEnum):
    """What is wrong with it."""
    SHORT_FRAME = 1
    SMALL_LENGTH = 2
    OVERRUN = 3
    WRONG_LENGTH = 4
    TOO_SHORT = 5
    ADDRESS_LENGTH = 6


class Unit(IntEnum):
    """What a number counts."""
    NONE = 0
    CLOCK_TICKS = 1
    MILLISECONDS = 2
    SECONDS = 3
    BITS_PER_SECOND = 4
    OHMS = 5
    NANOSECONDS = 6
    HERTZ = 7
    INTERFACE_INDEX = 8
    MASK = 9


class Form:
    """The numbers of enum nlroute_form."""
    OF_KIND = 0
    EMPTY = 1
    BOOL = 2
    UNSIGNED = 3
    SIGNED = 4
    NAMED = 5
    FLAGS = 6
    MASKED = 7
    MAC = 8
    IPV4 = 9
    IPV6 = 10
    BRIDGE_ID = 11
    VLAN_INFO = 12
    QOS_MAPPING = 13
    BERR_COUNTER = 14
    BITTIMING = 15
    BITTIMING_CONST = 16
    BYTES = 17
    LIST = 18
    UNKNOWN = 19
    TEXT = 20
    HELD = 21
    PEER = 22


class Code(Named):
    """An error code of the library."""
    HAS_FAULT = -1, "the list is malformed"
    TOO_LONG = -2, "a value does not fit in an attribute"
    NO_MEMORY = -3, "an allocation failed"
    NO_ROOM = -4, "the buffer is too small"
    NO_FAMILY = -5, "no attribute set has this number"
    ABSENT = -6, "there is no such attribute, element, field, name or error"
    BAD_FORM = -7, "the value has another form"
    BAD_NUMBER = -8, "the attribute cannot hold the number"
    BAD_ELEMENT = -9, "an element does not follow its list"
    BAD_OCTETS = -10, "the bytes of the value are not in the input, or have a wrong length"
    BAD_TYPE = -11, "the message is not a request about links"
    NO_INDEX = -12, "the index of the link is 0 or negative"
    BAD_NAME = -13, "Linux does not take the name or kind"
    NO_SET = -14, "no attribute set reads the list of these values"
    BAD_DEPTH = -15, "the value has a wrong depth, or is not marked as one of the message"
    REPEATED = -16, "the message has a second list of this type"


class BridgeFlags(Named):
    """Numbers of IFLA_BRIDGE_FLAGS."""
    MASTER = 1, "master"
    SELF = 2, "self"


class BridgeMode(Named):
    """Numbers of IFLA_BRIDGE_MODE."""
    VEB = 0, "veb"
    VEPA = 1, "vepa"


class BridgeVlanFlags(Flags):
    """Flags of IFLA_BRIDGE_VLAN_INFO, IFLA_BRIDGE_VLAN_TUNNEL_FLAGS."""
    MASTER = 1 << 0
    PVID = 1 << 1
    UNTAGGED = 1 << 2
    RANGE_BEGIN = 1 << 3
    RANGE_END = 1 << 4
    BRENTRY = 1 << 5
    ONLY_OPTS = 1 << 6


class BondMode(Named):
    """Numbers of IFLA_BOND_MODE."""
    BALANCE_RR = 0, "balance-rr"
    ACTIVE_BACKUP = 1, "active-backup"
    BALANCE_XOR = 2, "balance-xor"
    BROADCAST = 3, "broadcast"
    IEEE8023AD = 4, "802.3ad"
    BALANCE_TLB = 5, "balance-tlb"
    BALANCE_ALB = 6, "balance-alb"


class BondArpValidate(Named):
    """Numbers of IFLA_BOND_ARP_VALIDATE."""
    NONE = 0, "none"
    ACTIVE = 1, "active"
    BACKUP = 2, "backup"
    ALL = 3, "all"
    FILTER = 4, "filter"
    FILTER_ACTIVE = 5, "filter_active"
    FILTER_BACKUP = 6, "filter_backup"


class BondArpAllTargets(Named):
    """Numbers of IFLA_BOND_ARP_ALL_TARGETS."""
    ANY = 0, "any"
    ALL = 1, "all"


class BondPrimaryReselect(Named):
    """Numbers of IFLA_BOND_PRIMARY_RESELECT."""
    ALWAYS = 0, "always"
    BETTER = 1, "better"
    FAILURE = 2, "failure"


class BondFailOverMac(Named):
    """Numbers of IFLA_BOND_FAIL_OVER_MAC."""
    NONE = 0, "none"
    ACTIVE = 1, "active"
    FOLLOW = 2, "follow"


class BondXmitHashPolicy(Named):
    """Numbers of IFLA_BOND_XMIT_HASH_POLICY."""
    LAYER2 = 0, "layer2"
    LAYER3_4 = 1, "layer3+4"
    LAYER2_3 = 2, "layer2+3"
    ENCAP2_3 = 3, "encap2+3"
    ENCAP3_4 = 4, "encap3+4"
    VLAN_SRCMAC = 5, "vlan+srcmac"


class BondAllPortsActive(Named):
    """Numbers of IFLA_BOND_ALL_SLAVES_ACTIVE."""
    DROPPED = 0, "dropped"
    DELIVERED = 1, "delivered"


class BondAdLacpRate(Named):
    """Numbers of IFLA_BOND_AD_LACP_RATE."""
    SLOW = 0, "slow"
    FAST = 1, "fast"


class BondAdSelect(Named):
    """Numbers of IFLA_BOND_AD_SELECT."""
    STABLE = 0, "stable"
    BANDWIDTH = 1, "bandwidth"
    COUNT = 2, "count"
    ACTOR_PORT_PRIO = 3, "actor_port_prio"


class BondPortState(Named):
    """Numbers of IFLA_BOND_SLAVE_STATE."""
    ACTIVE = 0, "active"
    BACKUP = 1, "backup"


class MiiStatus(Named):
    """Numbers of IFLA_BOND_SLAVE_MII_STATUS."""
    UP = 0, "up"
    GOING_DOWN = 1, "going_down"
    DOWN = 2, "down"
    GOING_BACK = 3, "going_back"


class LacpState(Flags):
    """Flags of IFLA_BOND_SLAVE_AD_ACTOR_OPER_PORT_STATE, IFLA_BOND_SLAVE_AD_PARTNER_OPER_PORT_STATE."""
    LACP_ACTIVITY = 1 << 0
    LACP_TIMEOUT = 1 << 1
    AGGREGATION = 1 << 2
    SYNCHRONIZATION = 1 << 3
    COLLECTING = 1 << 4
    DISTRIBUTING = 1 << 5
    DEFAULTED = 1 << 6
    EXPIRED = 1 << 7


class ChurnState(Named):
    """Numbers of IFLA_BOND_SLAVE_AD_CHURN_ACTOR_STATE, IFLA_BOND_SLAVE_AD_CHURN_PARTNER_STATE."""
    MONITOR = 0, "monitor"
    CHURN = 1, "churn"
    NO_CHURN = 2, "no_churn"


class BridgeStpState(Named):
    """Numbers of IFLA_BR_STP_STATE."""
    NO = 0, "no"
    KERNEL_STP = 1, "kernel_stp"
    USER_STP = 2, "user_stp"


class VlanProtocol(Named):
    """Numbers of IFLA_BR_VLAN_PROTOCOL, IFLA_VLAN_PROTOCOL."""
    IEEE8021Q = 33024, "802.1Q"
    IEEE8021AD = 34984, "802.1ad"


class McastRouter(Named):
    """Numbers of IFLA_BR_MCAST_ROUTER, IFLA_BRPORT_MULTICAST_ROUTER."""
    DISABLED = 0, "disabled"
    AUTO = 1, "auto"
    PERMANENT = 2, "permanent"
    TEMP = 3, "temp"


class BridgeBoolOpt(Flags):
    """Flags of IFLA_BR_MULTI_BOOLOPT."""
    NO_LL_LEARN = 1 << 0
    MCAST_VLAN_SNOOPING = 1 << 1
    MST_ENABLE = 1 << 2
    MDB_OFFLOAD_FAIL_NOTIFICATION = 1 << 3
    FDB_LOCAL_VLAN_0 = 1 << 4


class BridgeStpMode(Named):
    """Numbers of IFLA_BR_STP_MODE."""
    AUTO = 0, "auto"
    USER = 1, "user"
    KERNEL = 2, "kernel"


class BridgePortState(Named):
    """Numbers of IFLA_BRPORT_STATE."""
    DISABLED = 0, "disabled"
    LISTENING = 1, "listening"
    LEARNING = 2, "learning"
    FORWARDING = 3, "forwarding"
    BLOCKING = 4, "blocking"


class VlanFlags(Flags):
    """Flags of IFLA_VLAN_FLAGS."""
    REORDER_HDR = 1 << 0
    GVRP = 1 << 1
    LOOSE_BINDING = 1 << 2
    MVRP = 1 << 3
    BRIDGE_BINDING = 1 << 4


class CanState(Named):
    """Numbers of IFLA_CAN_STATE."""
    ERROR_ACTIVE = 0, "ERROR-ACTIVE"
    ERROR_WARNING = 1, "ERROR-WARNING"
    ERROR_PASSIVE = 2, "ERROR-PASSIVE"
    BUS_OFF = 3, "BUS-OFF"
    STOPPED = 4, "STOPPED"
    SLEEPING = 5, "SLEEPING"


class CanCtrlMode(Flags):
    """Flags of IFLA_CAN_CTRLMODE, IFLA_CAN_CTRLMODE_SUPPORTED."""
    LOOPBACK = 1 << 0
    LISTENONLY = 1 << 1
    TRIPLE_SAMPLES = 1 << 2
    ONE_SHOT = 1 << 3
    BERR_REPORTING = 1 << 4
    FD = 1 << 5
    PRESUME_ACK = 1 << 6
    FD_NON_ISO = 1 << 7
    CC_LEN8_DLC = 1 << 8
    TDC_AUTO = 1 << 9
    TDC_MANUAL = 1 << 10
    RESTRICTED = 1 << 11
    XL = 1 << 12
    XL_TDC_AUTO = 1 << 13
    XL_TDC_MANUAL = 1 << 14
    XL_TMS = 1 << 15


class HsrProtocol(Named):
    """Numbers of IFLA_HSR_PROTOCOL."""
    HSR = 0, "hsr"
    PRP = 1, "prp"


class VxlanDf(Named):
    """Numbers of IFLA_VXLAN_DF, IFLA_GENEVE_DF."""
    UNSET = 0, "unset"
    SET = 1, "set"
    INHERIT = 2, "inherit"


class VxlanLabelPolicy(Named):
    """Numbers of IFLA_VXLAN_LABEL_POLICY."""
    FIXED = 0, "fixed"
    INHERIT = 1, "inherit"


class OperState(Named):
    """Numbers of IFLA_OPERSTATE."""
    UNKNOWN = 0, "UNKNOWN"
    NOTPRESENT = 1, "NOTPRESENT"
    DOWN = 2, "DOWN"
    LOWERLAYERDOWN = 3, "LOWERLAYERDOWN"
    TESTING = 4, "TESTING"
    DORMANT = 5, "DORMANT"
    UP = 6, "UP"


class LinkMode(Named):
    """Numbers of IFLA_LINKMODE."""
    DEFAULT = 0, "DEFAULT"
    DORMANT = 1, "DORMANT"
    TESTING = 2, "TESTING"


class ExtMask(Flags):
    """Flags of IFLA_EXT_MASK."""
    VF = 1 << 0
    BRVLAN = 1 << 1
    BRVLAN_COMPRESSED = 1 << 2
    SKIP_STATS = 1 << 3
    MRP = 1 << 4
    CFM_CONFIG = 1 << 5
    CFM_STATUS = 1 << 6
    MST = 1 << 7


class XdpAttached(Named):
    """Numbers of IFLA_XDP_ATTACHED."""
    NONE = 0, "none"
    XDP = 1, "xdp"
    XDPGENERIC = 2, "xdpgeneric"
    XDPOFFLOAD = 3, "xdpoffload"
    XDPMULTI = 4, "xdpmulti"


class XdpFlags(Flags):
    """Flags of IFLA_XDP_FLAGS."""
    UPDATE_IF_NOEXIST = 1 << 0
    SKB_MODE = 1 << 1
    DRV_MODE = 1 << 2
    HW_MODE = 1 << 3
    REPLACE = 1 << 4


class LinkEvent(Named):
    """Numbers of IFLA_EVENT."""
    NONE = 0, "NONE"
    REBOOT = 1, "REBOOT"
    FEATURE_CHANGE = 2, "FEATURE CHANGE"
    BONDING_FAILOVER = 3, "BONDING FAILOVER"
    NOTIFY_PEERS = 4, "NOTIFY PEERS"
    RESEND_IGMP = 5, "RESEND IGMP"
    BONDING_OPTION = 6, "BONDING OPTION"


class Inet6Flags(Flags):
    """Flags of IFLA_INET6_FLAGS."""
    RS_SENT = 1 << 4
    RA_RCVD = 1 << 5
    RA_MANAGED = 1 << 6
    RA_OTHERCONF = 1 << 7
    READY = 1 << 31


class AddrGenMode(Named):
    """Numbers of IFLA_INET6_ADDR_GEN_MODE."""
    EUI64 = 0, "eui64"
    NONE = 1, "none"
    STABLE_SECRET = 2, "stable_secret"
    RANDOM = 3, "random"


class TunType(Named):
    """Numbers of IFLA_TUN_TYPE."""
    TUN = 1, "tun"
    TAP = 2, "tap"


class IpvlanMode(Named):
    """Numbers of IFLA_IPVLAN_MODE."""
    L2 = 0, "l2"
    L3 = 1, "l3"
    L3S = 2, "l3s"


class IpvlanFlags(Flags):
    """Flags of IFLA_IPVLAN_FLAGS."""
    PRIVATE = 1 << 0
    VEPA = 1 << 1


class MacvlanMode(Named):
    """Numbers of IFLA_MACVLAN_MODE."""
    PRIVATE = 1, "private"
    VEPA = 2, "vepa"
    BRIDGE = 4, "bridge"
    PASSTHRU = 8, "passthru"
    SOURCE = 16, "source"


class MacvlanFlags(Flags):
    """Flags of IFLA_MACVLAN_FLAGS."""
    NOPROMISC = 1 << 0
    NODST = 1 << 1


class MacvlanMacaddrMode(Named):
    """Numbers of IFLA_MACVLAN_MACADDR_MODE."""
    ADD = 0, "add"
    DEL = 1, "del"
    FLUSH = 2, "flush"
    SET = 3, "set"


class NetkitPolicy(Named):
    """Numbers of IFLA_NETKIT_POLICY, IFLA_NETKIT_PEER_POLICY."""
    FORWARD = 0, "forward"
    BLACKHOLE = 2, "blackhole"


class NetkitMode(Named):
    """Numbers of IFLA_NETKIT_MODE."""
    L2 = 0, "l2"
    L3 = 1, "l3"


class NetkitScrub(Named):
    """Numbers of IFLA_NETKIT_SCRUB, IFLA_NETKIT_PEER_SCRUB."""
    NONE = 0, "none"
    DEFAULT = 1, "default"


class LinkStats(IntEnum):
    """Places of the array IFLA_STATS: indices of its list."""
    RX_PACKETS = 0
    TX_PACKETS = 1
    RX_BYTES = 2
    TX_BYTES = 3
    RX_ERRORS = 4
    TX_ERRORS = 5
    RX_DROPPED = 6
    TX_DROPPED = 7
    MULTICAST = 8
    COLLISIONS = 9
    RX_LENGTH_ERRORS = 10
    RX_OVER_ERRORS = 11
    RX_CRC_ERRORS = 12
    RX_FRAME_ERRORS = 13
    RX_FIFO_ERRORS = 14
    RX_MISSED_ERRORS = 15
    TX_ABORTED_ERRORS = 16
    TX_CARRIER_ERRORS = 17
    TX_FIFO_ERRORS = 18
    TX_HEARTBEAT_ERRORS = 19
    TX_WINDOW_ERRORS = 20
    RX_COMPRESSED = 21
    TX_COMPRESSED = 22
    RX_NOHANDLER = 23


class LinkStats64(IntEnum):
    """Places of the array IFLA_STATS64: indices of its list."""
    RX_PACKETS = 0
    TX_PACKETS = 1
    RX_BYTES = 2
    TX_BYTES = 3
    RX_ERRORS = 4
    TX_ERRORS = 5
    RX_DROPPED = 6
    TX_DROPPED = 7
    MULTICAST = 8
    COLLISIONS = 9
    RX_LENGTH_ERRORS = 10
    RX_OVER_ERRORS = 11
    RX_CRC_ERRORS = 12
    RX_FRAME_ERRORS = 13
    RX_FIFO_ERRORS = 14
    RX_MISSED_ERRORS = 15
    TX_ABORTED_ERRORS = 16
    TX_CARRIER_ERRORS = 17
    TX_FIFO_ERRORS = 18
    TX_HEARTBEAT_ERRORS = 19
    TX_WINDOW_ERRORS = 20
    RX_COMPRESSED = 21
    TX_COMPRESSED = 22
    RX_NOHANDLER = 23
    RX_OTHERHOST_DROPPED = 24


class Ipv4Conf(IntEnum):
    """Places of the array IFLA_INET_CONF: indices of its list."""
    FORWARDING = 0
    MC_FORWARDING = 1
    PROXY_ARP = 2
    ACCEPT_REDIRECTS = 3
    SECURE_REDIRECTS = 4
    SEND_REDIRECTS = 5
    SHARED_MEDIA = 6
    RP_FILTER = 7
    ACCEPT_SOURCE_ROUTE = 8
    BOOTP_RELAY = 9
    LOG_MARTIANS = 10
    TAG = 11
    ARPFILTER = 12
    MEDIUM_ID = 13
    NOXFRM = 14
    NOPOLICY = 15
    FORCE_IGMP_VERSION = 16
    ARP_ANNOUNCE = 17
    ARP_IGNORE = 18
    PROMOTE_SECONDARIES = 19
    ARP_ACCEPT = 20
    ARP_NOTIFY = 21
    ACCEPT_LOCAL = 22
    SRC_VMARK = 23
    PROXY_ARP_PVLAN = 24
    ROUTE_LOCALNET = 25
    IGMPV2_UNSOLICITED_REPORT_INTERVAL = 26
    IGMPV3_UNSOLICITED_REPORT_INTERVAL = 27
    IGNORE_ROUTES_WITH_LINKDOWN = 28
    DROP_UNICAST_IN_L2_MULTICAST = 29
    DROP_GRATUITOUS_ARP = 30
    BC_FORWARDING = 31
    ARP_EVICT_NOCARRIER = 32


class Ipv6Conf(IntEnum):
    """Places of the array IFLA_INET6_CONF: indices of its list."""
    FORWARDING = 0
    HOPLIMIT = 1
    MTU6 = 2
    ACCEPT_RA = 3
    ACCEPT_REDIRECTS = 4
    AUTOCONF = 5
    DAD_TRANSMITS = 6
    RTR_SOLICITS = 7
    RTR_SOLICIT_INTERVAL = 8
    RTR_SOLICIT_DELAY = 9
    USE_TEMPADDR = 10
    TEMP_VALID_LFT = 11
    TEMP_PREFERED_LFT = 12
    REGEN_MAX_RETRY = 13
    MAX_DESYNC_FACTOR = 14
    MAX_ADDRESSES = 15
    FORCE_MLD_VERSION = 16
    ACCEPT_RA_DEFRTR = 17
    ACCEPT_RA_PINFO = 18
    ACCEPT_RA_RTR_PREF = 19
    RTR_PROBE_INTERVAL = 20
    ACCEPT_RA_RT_INFO_MAX_PLEN = 21
    PROXY_NDP = 22
    OPTIMISTIC_DAD = 23
    ACCEPT_SOURCE_ROUTE = 24
    MC_FORWARDING = 25
    DISABLE_IPV6 = 26
    ACCEPT_DAD = 27
    FORCE_TLLAO = 28
    NDISC_NOTIFY = 29
    MLDV1_UNSOLICITED_REPORT_INTERVAL = 30
    MLDV2_UNSOLICITED_REPORT_INTERVAL = 31
    SUPPRESS_FRAG_NDISC = 32
    ACCEPT_RA_FROM_LOCAL = 33
    USE_OPTIMISTIC = 34
    ACCEPT_RA_MTU = 35
    STABLE_SECRET = 36
    USE_OIF_ADDRS_ONLY = 37
    ACCEPT_RA_MIN_HOP_LIMIT = 38
    IGNORE_ROUTES_WITH_LINKDOWN = 39
    DROP_UNICAST_IN_L2_MULTICAST = 40
    DROP_UNSOLICITED_NA = 41
    KEEP_ADDR_ON_DOWN = 42
    RTR_SOLICIT_MAX_INTERVAL = 43
    SEG6_ENABLED = 44
    SEG6_REQUIRE_HMAC = 45
    ENHANCED_DAD = 46
    ADDR_GEN_MODE = 47
    DISABLE_POLICY = 48
    ACCEPT_RA_RT_INFO_MIN_PLEN = 49
    NDISC_TCLASS = 50
    RPL_SEG_ENABLED = 51
    RA_DEFRTR_METRIC = 52
    IOAM6_ENABLED = 53
    IOAM6_ID = 54
    IOAM6_ID_WIDE = 55
    NDISC_EVICT_NOCARRIER = 56
    ACCEPT_UNTRACKED_NA = 57
    ACCEPT_RA_MIN_LFT = 58
    FORCE_FORWARDING = 59


class Ipv6Stats(IntEnum):
    """Places of the array IFLA_INET6_STATS: indices of its list."""
    NUM = 0
    INPKTS = 1
    INOCTETS = 2
    INDELIVERS = 3


class Icmp6Stats(IntEnum):
    """Places of the array IFLA_INET6_ICMP6STATS: indices of its list."""
    NUM = 0
    INMSGS = 1
    INERRORS = 2
    OUTMSGS = 3
    OUTERRORS = 4
    CSUMERRORS = 5
    RATELIMITHOST = 6


IFLA_BRIDGE_FLAGS: Key[BridgeFlags] = Key("IFLA_BRIDGE_FLAGS")
IFLA_BRIDGE_MODE: Key[BridgeMode] = Key("IFLA_BRIDGE_MODE")
IFLA_BRIDGE_VLAN_INFO: Key[VlanInfo] = Key("IFLA_BRIDGE_VLAN_INFO")
IFLA_BRIDGE_VLAN_TUNNEL_INFO: Key[List] = Key("IFLA_BRIDGE_VLAN_TUNNEL_INFO")
IFLA_BRIDGE_VLAN_TUNNEL_ID: Key[int] = Key("IFLA_BRIDGE_VLAN_TUNNEL_ID")
IFLA_BRIDGE_VLAN_TUNNEL_VID: Key[int] = Key("IFLA_BRIDGE_VLAN_TUNNEL_VID")
IFLA_BRIDGE_VLAN_TUNNEL_FLAGS: Key[BridgeVlanFlags] = Key("IFLA_BRIDGE_VLAN_TUNNEL_FLAGS")
IFLA_BOND_MODE: Key[BondMode] = Key("IFLA_BOND_MODE")
IFLA_BOND_ACTIVE_SLAVE: Key[int] = Key("IFLA_BOND_ACTIVE_SLAVE")  # 100 is printed as ifindex 100
IFLA_BOND_MIIMON: Key[int] = Key("IFLA_BOND_MIIMON")  # 100 is printed as 100 ms
IFLA_BOND_UPDELAY: Key[int] = Key("IFLA_BOND_UPDELAY")  # 100 is printed as 100 ms
IFLA_BOND_DOWNDELAY: Key[int] = Key("IFLA_BOND_DOWNDELAY")  # 100 is printed as 100 ms
IFLA_BOND_USE_CARRIER: Key[bool] = Key("IFLA_BOND_USE_CARRIER")
IFLA_BOND_ARP_INTERVAL: Key[int] = Key("IFLA_BOND_ARP_INTERVAL")  # 100 is printed as 100 ms
IFLA_BOND_ARP_IP_TARGET: Key[list[IPv4Address]] = Key("IFLA_BOND_ARP_IP_TARGET")
IFLA_BOND_ARP_VALIDATE: Key[BondArpValidate] = Key("IFLA_BOND_ARP_VALIDATE")
IFLA_BOND_ARP_ALL_TARGETS: Key[BondArpAllTargets] = Key("IFLA_BOND_ARP_ALL_TARGETS")
IFLA_BOND_PRIMARY: Key[int] = Key("IFLA_BOND_PRIMARY")  # 100 is printed as ifindex 100
IFLA_BOND_PRIMARY_RESELECT: Key[BondPrimaryReselect] = Key("IFLA_BOND_PRIMARY_RESELECT")
IFLA_BOND_FAIL_OVER_MAC: Key[BondFailOverMac] = Key("IFLA_BOND_FAIL_OVER_MAC")
IFLA_BOND_XMIT_HASH_POLICY: Key[BondXmitHashPolicy] = Key("IFLA_BOND_XMIT_HASH_POLICY")
IFLA_BOND_RESEND_IGMP: Key[int] = Key("IFLA_BOND_RESEND_IGMP")
IFLA_BOND_NUM_PEER_NOTIF: Key[int] = Key("IFLA_BOND_NUM_PEER_NOTIF")
IFLA_BOND_ALL_SLAVES_ACTIVE: Key[BondAllPortsActive] = Key("IFLA_BOND_ALL_SLAVES_ACTIVE")
IFLA_BOND_MIN_LINKS: Key[int] = Key("IFLA_BOND_MIN_LINKS")
IFLA_BOND_LP_INTERVAL: Key[int] = Key("IFLA_BOND_LP_INTERVAL")  # 100 is printed as 100 s
IFLA_BOND_PACKETS_PER_SLAVE: Key[int] = Key("IFLA_BOND_PACKETS_PER_SLAVE")
IFLA_BOND_AD_LACP_RATE: Key[BondAdLacpRate] = Key("IFLA_BOND_AD_LACP_RATE")
IFLA_BOND_AD_SELECT: Key[BondAdSelect] = Key("IFLA_BOND_AD_SELECT")
IFLA_BOND_AD_INFO: Key[List] = Key("IFLA_BOND_AD_INFO")
IFLA_BOND_AD_INFO_AGGREGATOR: Key[int] = Key("IFLA_BOND_AD_INFO_AGGREGATOR")
IFLA_BOND_AD_INFO_NUM_PORTS: Key[int] = Key("IFLA_BOND_AD_INFO_NUM_PORTS")
IFLA_BOND_AD_INFO_ACTOR_KEY: Key[int] = Key("IFLA_BOND_AD_INFO_ACTOR_KEY")
IFLA_BOND_AD_INFO_PARTNER_KEY: Key[int] = Key("IFLA_BOND_AD_INFO_PARTNER_KEY")
IFLA_BOND_AD_INFO_PARTNER_MAC: Key[Mac] = Key("IFLA_BOND_AD_INFO_PARTNER_MAC")
IFLA_BOND_AD_ACTOR_SYS_PRIO: Key[int] = Key("IFLA_BOND_AD_ACTOR_SYS_PRIO")
IFLA_BOND_AD_USER_PORT_KEY: Key[int] = Key("IFLA_BOND_AD_USER_PORT_KEY")
IFLA_BOND_AD_ACTOR_SYSTEM: Key[Mac] = Key("IFLA_BOND_AD_ACTOR_SYSTEM")
IFLA_BOND_TLB_DYNAMIC_LB: Key[bool] = Key("IFLA_BOND_TLB_DYNAMIC_LB")
IFLA_BOND_PEER_NOTIF_DELAY: Key[int] = Key("IFLA_BOND_PEER_NOTIF_DELAY")  # 100 is printed as 100 ms
IFLA_BOND_AD_LACP_ACTIVE: Key[bool] = Key("IFLA_BOND_AD_LACP_ACTIVE")
IFLA_BOND_MISSED_MAX: Key[int] = Key("IFLA_BOND_MISSED_MAX")
IFLA_BOND_NS_IP6_TARGET: Key[list[IPv6Address]] = Key("IFLA_BOND_NS_IP6_TARGET")
IFLA_BOND_COUPLED_CONTROL: Key[bool] = Key("IFLA_BOND_COUPLED_CONTROL")
IFLA_BOND_BROADCAST_NEIGH: Key[bool] = Key("IFLA_BOND_BROADCAST_NEIGH")
IFLA_BOND_LACP_STRICT: Key[bool] = Key("IFLA_BOND_LACP_STRICT")
IFLA_BOND_SLAVE_STATE: Key[BondPortState] = Key("IFLA_BOND_SLAVE_STATE")
IFLA_BOND_SLAVE_MII_STATUS: Key[MiiStatus] = Key("IFLA_BOND_SLAVE_MII_STATUS")
IFLA_BOND_SLAVE_LINK_FAILURE_COUNT: Key[int] = Key("IFLA_BOND_SLAVE_LINK_FAILURE_COUNT")
IFLA_BOND_SLAVE_PERM_HWADDR: Key[bytes] = Key("IFLA_BOND_SLAVE_PERM_HWADDR")
IFLA_BOND_SLAVE_QUEUE_ID: Key[int] = Key("IFLA_BOND_SLAVE_QUEUE_ID")
IFLA_BOND_SLAVE_AD_AGGREGATOR_ID: Key[int] = Key("IFLA_BOND_SLAVE_AD_AGGREGATOR_ID")
IFLA_BOND_SLAVE_AD_ACTOR_OPER_PORT_STATE: Key[LacpState] = Key("IFLA_BOND_SLAVE_AD_ACTOR_OPER_PORT_STATE")
IFLA_BOND_SLAVE_AD_PARTNER_OPER_PORT_STATE: Key[LacpState] = Key("IFLA_BOND_SLAVE_AD_PARTNER_OPER_PORT_STATE")
IFLA_BOND_SLAVE_PRIO: Key[int] = Key("IFLA_BOND_SLAVE_PRIO")
IFLA_BOND_SLAVE_ACTOR_PORT_PRIO: Key[int] = Key("IFLA_BOND_SLAVE_ACTOR_PORT_PRIO")
IFLA_BOND_SLAVE_AD_CHURN_ACTOR_STATE: Key[ChurnState] = Key("IFLA_BOND_SLAVE_AD_CHURN_ACTOR_STATE")
IFLA_BOND_SLAVE_AD_CHURN_PARTNER_STATE: Key[ChurnState] = Key("IFLA_BOND_SLAVE_AD_CHURN_PARTNER_STATE")
IFLA_BR_FORWARD_DELAY: Key[int] = Key("IFLA_BR_FORWARD_DELAY")  # 100 is printed as 100 (1.00 s)
IFLA_BR_HELLO_TIME: Key[int] = Key("IFLA_BR_HELLO_TIME")  # 100 is printed as 100 (1.00 s)
IFLA_BR_MAX_AGE: Key[int] = Key("IFLA_BR_MAX_AGE")  # 100 is printed as 100 (1.00 s)
IFLA_BR_AGEING_TIME: Key[int] = Key("IFLA_BR_AGEING_TIME")  # 100 is printed as 100 (1.00 s)
IFLA_BR_STP_STATE: Key[BridgeStpState] = Key("IFLA_BR_STP_STATE")
IFLA_BR_PRIORITY: Key[int] = Key("IFLA_BR_PRIORITY")
IFLA_BR_VLAN_FILTERING: Key[bool] = Key("IFLA_BR_VLAN_FILTERING")
IFLA_BR_VLAN_PROTOCOL: Key[VlanProtocol] = Key("IFLA_BR_VLAN_PROTOCOL")
IFLA_BR_GROUP_FWD_MASK: Key[int] = Key("IFLA_BR_GROUP_FWD_MASK")  # 100 is printed as 100 (0x64)
IFLA_BR_ROOT_ID: Key[BridgeId] = Key("IFLA_BR_ROOT_ID")
IFLA_BR_BRIDGE_ID: Key[BridgeId] = Key("IFLA_BR_BRIDGE_ID")
IFLA_BR_ROOT_PORT: Key[int] = Key("IFLA_BR_ROOT_PORT")
IFLA_BR_ROOT_PATH_COST: Key[int] = Key("IFLA_BR_ROOT_PATH_COST")
IFLA_BR_TOPOLOGY_CHANGE: Key[int] = Key("IFLA_BR_TOPOLOGY_CHANGE")
IFLA_BR_TOPOLOGY_CHANGE_DETECTED: Key[int] = Key("IFLA_BR_TOPOLOGY_CHANGE_DETECTED")
IFLA_BR_HELLO_TIMER: Key[int] = Key("IFLA_BR_HELLO_TIMER")  # 100 is printed as 100 (1.00 s)
IFLA_BR_TCN_TIMER: Key[int] = Key("IFLA_BR_TCN_TIMER")  # 100 is printed as 100 (1.00 s)
IFLA_BR_TOPOLOGY_CHANGE_TIMER: Key[int] = Key("IFLA_BR_TOPOLOGY_CHANGE_TIMER")  # 100 is printed as 100 (1.00 s)
IFLA_BR_GC_TIMER: Key[int] = Key("IFLA_BR_GC_TIMER")  # 100 is printed as 100 (1.00 s)
IFLA_BR_GROUP_ADDR: Key[Mac] = Key("IFLA_BR_GROUP_ADDR")
IFLA_BR_FDB_FLUSH: Key[None] = Key("IFLA_BR_FDB_FLUSH")
IFLA_BR_MCAST_ROUTER: Key[McastRouter] = Key("IFLA_BR_MCAST_ROUTER")
IFLA_BR_MCAST_SNOOPING: Key[bool] = Key("IFLA_BR_MCAST_SNOOPING")
IFLA_BR_MCAST_QUERY_USE_IFADDR: Key[bool] = Key("IFLA_BR_MCAST_QUERY_USE_IFADDR")
IFLA_BR_MCAST_QUERIER: Key[bool] = Key("IFLA_BR_MCAST_QUERIER")
IFLA_BR_MCAST_HASH_ELASTICITY: Key[int] = Key("IFLA_BR_MCAST_HASH_ELASTICITY")
IFLA_BR_MCAST_HASH_MAX: Key[int] = Key("IFLA_BR_MCAST_HASH_MAX")
IFLA_BR_MCAST_LAST_MEMBER_CNT: Key[int] = Key("IFLA_BR_MCAST_LAST_MEMBER_CNT")
IFLA_BR_MCAST_STARTUP_QUERY_CNT: Key[int] = Key("IFLA_BR_MCAST_STARTUP_QUERY_CNT")
IFLA_BR_MCAST_LAST_MEMBER_INTVL: Key[int] = Key("IFLA_BR_MCAST_LAST_MEMBER_INTVL")  # 100 is printed as 100 (1.00 s)
IFLA_BR_MCAST_MEMBERSHIP_INTVL: Key[int] = Key("IFLA_BR_MCAST_MEMBERSHIP_INTVL")  # 100 is printed as 100 (1.00 s)
IFLA_BR_MCAST_QUERIER_INTVL: Key[int] = Key("IFLA_BR_MCAST_QUERIER_INTVL")  # 100 is printed as 100 (1.00 s)
IFLA_BR_MCAST_QUERY_INTVL: Key[int] = Key("IFLA_BR_MCAST_QUERY_INTVL")  # 100 is printed as 100 (1.00 s)
IFLA_BR_MCAST_QUERY_RESPONSE_INTVL: Key[int] = Key("IFLA_BR_MCAST_QUERY_RESPONSE_INTVL")  # 100 is printed as 100 (1.00 s)
IFLA_BR_MCAST_STARTUP_QUERY_INTVL: Key[int] = Key("IFLA_BR_MCAST_STARTUP_QUERY_INTVL")  # 100 is printed as 100 (1.00 s)
IFLA_BR_NF_CALL_IPTABLES: Key[bool] = Key("IFLA_BR_NF_CALL_IPTABLES")
IFLA_BR_NF_CALL_IP6TABLES: Key[bool] = Key("IFLA_BR_NF_CALL_IP6TABLES")
IFLA_BR_NF_CALL_ARPTABLES: Key[bool] = Key("IFLA_BR_NF_CALL_ARPTABLES")
IFLA_BR_VLAN_DEFAULT_PVID: Key[int] = Key("IFLA_BR_VLAN_DEFAULT_PVID")
IFLA_BR_VLAN_STATS_ENABLED: Key[bool] = Key("IFLA_BR_VLAN_STATS_ENABLED")
IFLA_BR_MCAST_STATS_ENABLED: Key[bool] = Key("IFLA_BR_MCAST_STATS_ENABLED")
IFLA_BR_MCAST_IGMP_VERSION: Key[int] = Key("IFLA_BR_MCAST_IGMP_VERSION")
IFLA_BR_MCAST_MLD_VERSION: Key[int] = Key("IFLA_BR_MCAST_MLD_VERSION")
IFLA_BR_VLAN_STATS_PER_PORT: Key[bool] = Key("IFLA_BR_VLAN_STATS_PER_PORT")
IFLA_BR_MULTI_BOOLOPT: Key[Masked[BridgeBoolOpt]] = Key("IFLA_BR_MULTI_BOOLOPT")
IFLA_BR_MCAST_QUERIER_STATE: Key[List] = Key("IFLA_BR_MCAST_QUERIER_STATE")
BRIDGE_QUERIER_IP_ADDRESS: Key[IPv4Address] = Key("BRIDGE_QUERIER_IP_ADDRESS")
BRIDGE_QUERIER_IP_PORT: Key[int] = Key("BRIDGE_QUERIER_IP_PORT")  # 100 is printed as ifindex 100
BRIDGE_QUERIER_IP_OTHER_TIMER: Key[int] = Key("BRIDGE_QUERIER_IP_OTHER_TIMER")  # 100 is printed as 100 (1.00 s)
BRIDGE_QUERIER_IPV6_ADDRESS: Key[IPv6Address] = Key("BRIDGE_QUERIER_IPV6_ADDRESS")
BRIDGE_QUERIER_IPV6_PORT: Key[int] = Key("BRIDGE_QUERIER_IPV6_PORT")  # 100 is printed as ifindex 100
BRIDGE_QUERIER_IPV6_OTHER_TIMER: Key[int] = Key("BRIDGE_QUERIER_IPV6_OTHER_TIMER")  # 100 is printed as 100 (1.00 s)
IFLA_BR_FDB_N_LEARNED: Key[int] = Key("IFLA_BR_FDB_N_LEARNED")
IFLA_BR_FDB_MAX_LEARNED: Key[int] = Key("IFLA_BR_FDB_MAX_LEARNED")
IFLA_BR_STP_MODE: Key[BridgeStpMode] = Key("IFLA_BR_STP_MODE")
IFLA_BRPORT_STATE: Key[BridgePortState] = Key("IFLA_BRPORT_STATE")
IFLA_BRPORT_PRIORITY: Key[int] = Key("IFLA_BRPORT_PRIORITY")
IFLA_BRPORT_COST: Key[int] = Key("IFLA_BRPORT_COST")
IFLA_BRPORT_MODE: Key[bool] = Key("IFLA_BRPORT_MODE")
IFLA_BRPORT_GUARD: Key[bool] = Key("IFLA_BRPORT_GUARD")
IFLA_BRPORT_PROTECT: Key[bool] = Key("IFLA_BRPORT_PROTECT")
IFLA_BRPORT_FAST_LEAVE: Key[bool] = Key("IFLA_BRPORT_FAST_LEAVE")
IFLA_BRPORT_LEARNING: Key[bool] = Key("IFLA_BRPORT_LEARNING")
IFLA_BRPORT_UNICAST_FLOOD: Key[bool] = Key("IFLA_BRPORT_UNICAST_FLOOD")
IFLA_BRPORT_PROXYARP: Key[bool] = Key("IFLA_BRPORT_PROXYARP")
IFLA_BRPORT_LEARNING_SYNC: Key[bool] = Key("IFLA_BRPORT_LEARNING_SYNC")
IFLA_BRPORT_PROXYARP_WIFI: Key[bool] = Key("IFLA_BRPORT_PROXYARP_WIFI")
IFLA_BRPORT_ROOT_ID: Key[BridgeId] = Key("IFLA_BRPORT_ROOT_ID")
IFLA_BRPORT_BRIDGE_ID: Key[BridgeId] = Key("IFLA_BRPORT_BRIDGE_ID")
IFLA_BRPORT_DESIGNATED_PORT: Key[int] = Key("IFLA_BRPORT_DESIGNATED_PORT")  # 100 is printed as 100 (0x64)
IFLA_BRPORT_DESIGNATED_COST: Key[int] = Key("IFLA_BRPORT_DESIGNATED_COST")
IFLA_BRPORT_ID: Key[int] = Key("IFLA_BRPORT_ID")  # 100 is printed as 100 (0x64)
IFLA_BRPORT_NO: Key[int] = Key("IFLA_BRPORT_NO")
IFLA_BRPORT_TOPOLOGY_CHANGE_ACK: Key[bool] = Key("IFLA_BRPORT_TOPOLOGY_CHANGE_ACK")
IFLA_BRPORT_CONFIG_PENDING: Key[bool] = Key("IFLA_BRPORT_CONFIG_PENDING")
IFLA_BRPORT_MESSAGE_AGE_TIMER: Key[int] = Key("IFLA_BRPORT_MESSAGE_AGE_TIMER")  # 100 is printed as 100 (1.00 s)
IFLA_BRPORT_FORWARD_DELAY_TIMER: Key[int] = Key("IFLA_BRPORT_FORWARD_DELAY_TIMER")  # 100 is printed as 100 (1.00 s)
IFLA_BRPORT_HOLD_TIMER: Key[int] = Key("IFLA_BRPORT_HOLD_TIMER")  # 100 is printed as 100 (1.00 s)
IFLA_BRPORT_FLUSH: Key[None] = Key("IFLA_BRPORT_FLUSH")
IFLA_BRPORT_MULTICAST_ROUTER: Key[McastRouter] = Key("IFLA_BRPORT_MULTICAST_ROUTER")
IFLA_BRPORT_MCAST_FLOOD: Key[bool] = Key("IFLA_BRPORT_MCAST_FLOOD")
IFLA_BRPORT_MCAST_TO_UCAST: Key[bool] = Key("IFLA_BRPORT_MCAST_TO_UCAST")
IFLA_BRPORT_VLAN_TUNNEL: Key[bool] = Key("IFLA_BRPORT_VLAN_TUNNEL")
IFLA_BRPORT_BCAST_FLOOD: Key[bool] = Key("IFLA_BRPORT_BCAST_FLOOD")
IFLA_BRPORT_GROUP_FWD_MASK: Key[int] = Key("IFLA_BRPORT_GROUP_FWD_MASK")  # 100 is printed as 100 (0x64)
IFLA_BRPORT_NEIGH_SUPPRESS: Key[bool] = Key("IFLA_BRPORT_NEIGH_SUPPRESS")
IFLA_BRPORT_ISOLATED: Key[bool] = Key("IFLA_BRPORT_ISOLATED")
IFLA_BRPORT_BACKUP_PORT: Key[int] = Key("IFLA_BRPORT_BACKUP_PORT")  # 100 is printed as ifindex 100
IFLA_BRPORT_MRP_RING_OPEN: Key[bool] = Key("IFLA_BRPORT_MRP_RING_OPEN")
IFLA_BRPORT_MRP_IN_OPEN: Key[bool] = Key("IFLA_BRPORT_MRP_IN_OPEN")
IFLA_BRPORT_MCAST_EHT_HOSTS_LIMIT: Key[int] = Key("IFLA_BRPORT_MCAST_EHT_HOSTS_LIMIT")
IFLA_BRPORT_MCAST_EHT_HOSTS_CNT: Key[int] = Key("IFLA_BRPORT_MCAST_EHT_HOSTS_CNT")
IFLA_BRPORT_LOCKED: Key[bool] = Key("IFLA_BRPORT_LOCKED")
IFLA_BRPORT_MAB: Key[bool] = Key("IFLA_BRPORT_MAB")
IFLA_BRPORT_MCAST_N_GROUPS: Key[int] = Key("IFLA_BRPORT_MCAST_N_GROUPS")
IFLA_BRPORT_MCAST_MAX_GROUPS: Key[int] = Key("IFLA_BRPORT_MCAST_MAX_GROUPS")
IFLA_BRPORT_NEIGH_VLAN_SUPPRESS: Key[bool] = Key("IFLA_BRPORT_NEIGH_VLAN_SUPPRESS")
IFLA_BRPORT_BACKUP_NHID: Key[int] = Key("IFLA_BRPORT_BACKUP_NHID")
IFLA_BRPORT_NEIGH_FORWARD_GRAT: Key[bool] = Key("IFLA_BRPORT_NEIGH_FORWARD_GRAT")
IFLA_VLAN_ID: Key[int] = Key("IFLA_VLAN_ID")
IFLA_VLAN_FLAGS: Key[Masked[VlanFlags]] = Key("IFLA_VLAN_FLAGS")
IFLA_VLAN_EGRESS_QOS: Key[list[QosMapping]] = Key("IFLA_VLAN_EGRESS_QOS")
IFLA_VLAN_QOS_MAPPING: Key[QosMapping] = Key("IFLA_VLAN_QOS_MAPPING")
IFLA_VLAN_INGRESS_QOS: Key[list[QosMapping]] = Key("IFLA_VLAN_INGRESS_QOS")
IFLA_VLAN_PROTOCOL: Key[VlanProtocol] = Key("IFLA_VLAN_PROTOCOL")
IFLA_CAN_BITTIMING: Key[CanBitTiming] = Key("IFLA_CAN_BITTIMING")
IFLA_CAN_BITTIMING_CONST: Key[CanBitTimingConst] = Key("IFLA_CAN_BITTIMING_CONST")
IFLA_CAN_CLOCK: Key[int] = Key("IFLA_CAN_CLOCK")  # 100 is printed as freq 100 Hz
IFLA_CAN_STATE: Key[CanState] = Key("IFLA_CAN_STATE")
IFLA_CAN_CTRLMODE: Key[Masked[CanCtrlMode]] = Key("IFLA_CAN_CTRLMODE")
IFLA_CAN_RESTART_MS: Key[int] = Key("IFLA_CAN_RESTART_MS")  # 100 is printed as 100 ms
IFLA_CAN_RESTART: Key[int] = Key("IFLA_CAN_RESTART")
IFLA_CAN_BERR_COUNTER: Key[BerrCounter] = Key("IFLA_CAN_BERR_COUNTER")
IFLA_CAN_DATA_BITTIMING: Key[CanBitTiming] = Key("IFLA_CAN_DATA_BITTIMING")
IFLA_CAN_DATA_BITTIMING_CONST: Key[CanBitTimingConst] = Key("IFLA_CAN_DATA_BITTIMING_CONST")
IFLA_CAN_TERMINATION: Key[int] = Key("IFLA_CAN_TERMINATION")  # 100 is printed as 100 ohm
IFLA_CAN_TERMINATION_CONST: Key[list[int]] = Key("IFLA_CAN_TERMINATION_CONST")
IFLA_CAN_BITRATE_CONST: Key[list[int]] = Key("IFLA_CAN_BITRATE_CONST")
IFLA_CAN_DATA_BITRATE_CONST: Key[list[int]] = Key("IFLA_CAN_DATA_BITRATE_CONST")
IFLA_CAN_BITRATE_MAX: Key[int] = Key("IFLA_CAN_BITRATE_MAX")  # 100 is printed as 100 bit/s
IFLA_CAN_TDC: Key[List] = Key("IFLA_CAN_TDC")
IFLA_CAN_TDC_TDCV_MIN: Key[int] = Key("IFLA_CAN_TDC_TDCV_MIN")
IFLA_CAN_TDC_TDCV_MAX: Key[int] = Key("IFLA_CAN_TDC_TDCV_MAX")
IFLA_CAN_TDC_TDCO_MIN: Key[int] = Key("IFLA_CAN_TDC_TDCO_MIN")
IFLA_CAN_TDC_TDCO_MAX: Key[int] = Key("IFLA_CAN_TDC_TDCO_MAX")
IFLA_CAN_TDC_TDCF_MIN: Key[int] = Key("IFLA_CAN_TDC_TDCF_MIN")
IFLA_CAN_TDC_TDCF_MAX: Key[int] = Key("IFLA_CAN_TDC_TDCF_MAX")
IFLA_CAN_TDC_TDCV: Key[int] = Key("IFLA_CAN_TDC_TDCV")
IFLA_CAN_TDC_TDCO: Key[int] = Key("IFLA_CAN_TDC_TDCO")
IFLA_CAN_TDC_TDCF: Key[int] = Key("IFLA_CAN_TDC_TDCF")
IFLA_CAN_CTRLMODE_EXT: Key[List] = Key("IFLA_CAN_CTRLMODE_EXT")
IFLA_CAN_CTRLMODE_SUPPORTED: Key[CanCtrlMode] = Key("IFLA_CAN_CTRLMODE_SUPPORTED")
IFLA_DSA_CONDUIT: Key[int] = Key("IFLA_DSA_CONDUIT")  # 100 is printed as ifindex 100
IFLA_HSR_SLAVE1: Key[int] = Key("IFLA_HSR_SLAVE1")  # 100 is printed as ifindex 100
IFLA_HSR_SLAVE2: Key[int] = Key("IFLA_HSR_SLAVE2")  # 100 is printed as ifindex 100
IFLA_HSR_MULTICAST_SPEC: Key[int] = Key("IFLA_HSR_MULTICAST_SPEC")
IFLA_HSR_SUPERVISION_ADDR: Key[Mac] = Key("IFLA_HSR_SUPERVISION_ADDR")
IFLA_HSR_SEQ_NR: Key[int] = Key("IFLA_HSR_SEQ_NR")
IFLA_HSR_VERSION: Key[int] = Key("IFLA_HSR_VERSION")
IFLA_HSR_PROTOCOL: Key[HsrProtocol] = Key("IFLA_HSR_PROTOCOL")
IFLA_HSR_INTERLINK: Key[int] = Key("IFLA_HSR_INTERLINK")  # 100 is printed as ifindex 100
IFLA_VXLAN_ID: Key[int] = Key("IFLA_VXLAN_ID")
IFLA_VXLAN_GROUP: Key[IPv4Address] = Key("IFLA_VXLAN_GROUP")
IFLA_VXLAN_LINK: Key[int] = Key("IFLA_VXLAN_LINK")  # 100 is printed as ifindex 100
IFLA_VXLAN_LOCAL: Key[IPv4Address] = Key("IFLA_VXLAN_LOCAL")
IFLA_VXLAN_TTL: Key[int] = Key("IFLA_VXLAN_TTL")
IFLA_VXLAN_TOS: Key[int] = Key("IFLA_VXLAN_TOS")  # 100 is printed as 100 (0x64)
IFLA_VXLAN_LEARNING: Key[bool] = Key("IFLA_VXLAN_LEARNING")
IFLA_VXLAN_AGEING: Key[int] = Key("IFLA_VXLAN_AGEING")  # 100 is printed as 100 s
IFLA_VXLAN_LIMIT: Key[int] = Key("IFLA_VXLAN_LIMIT")
IFLA_VXLAN_PORT_RANGE: Key[bytes] = Key("IFLA_VXLAN_PORT_RANGE")
IFLA_VXLAN_PROXY: Key[bool] = Key("IFLA_VXLAN_PROXY")
IFLA_VXLAN_RSC: Key[bool] = Key("IFLA_VXLAN_RSC")
IFLA_VXLAN_L2MISS: Key[bool] = Key("IFLA_VXLAN_L2MISS")
IFLA_VXLAN_L3MISS: Key[bool] = Key("IFLA_VXLAN_L3MISS")
IFLA_VXLAN_PORT: Key[int] = Key("IFLA_VXLAN_PORT")
IFLA_VXLAN_GROUP6: Key[IPv6Address] = Key("IFLA_VXLAN_GROUP6")
IFLA_VXLAN_LOCAL6: Key[IPv6Address] = Key("IFLA_VXLAN_LOCAL6")
IFLA_VXLAN_UDP_CSUM: Key[bool] = Key("IFLA_VXLAN_UDP_CSUM")
IFLA_VXLAN_UDP_ZERO_CSUM6_TX: Key[bool] = Key("IFLA_VXLAN_UDP_ZERO_CSUM6_TX")
IFLA_VXLAN_UDP_ZERO_CSUM6_RX: Key[bool] = Key("IFLA_VXLAN_UDP_ZERO_CSUM6_RX")
IFLA_VXLAN_REMCSUM_TX: Key[bool] = Key("IFLA_VXLAN_REMCSUM_TX")
IFLA_VXLAN_REMCSUM_RX: Key[bool] = Key("IFLA_VXLAN_REMCSUM_RX")
IFLA_VXLAN_GBP: Key[None] = Key("IFLA_VXLAN_GBP")
IFLA_VXLAN_REMCSUM_NOPARTIAL: Key[None] = Key("IFLA_VXLAN_REMCSUM_NOPARTIAL")
IFLA_VXLAN_COLLECT_METADATA: Key[bool] = Key("IFLA_VXLAN_COLLECT_METADATA")
IFLA_VXLAN_LABEL: Key[int] = Key("IFLA_VXLAN_LABEL")  # 100 is printed as 100 (0x64)
IFLA_VXLAN_GPE: Key[None] = Key("IFLA_VXLAN_GPE")
IFLA_VXLAN_TTL_INHERIT: Key[bool | None] = Key("IFLA_VXLAN_TTL_INHERIT")
IFLA_VXLAN_DF: Key[VxlanDf] = Key("IFLA_VXLAN_DF")
IFLA_VXLAN_VNIFILTER: Key[bool] = Key("IFLA_VXLAN_VNIFILTER")
IFLA_VXLAN_LOCALBYPASS: Key[bool] = Key("IFLA_VXLAN_LOCALBYPASS")
IFLA_VXLAN_LABEL_POLICY: Key[VxlanLabelPolicy] = Key("IFLA_VXLAN_LABEL_POLICY")
IFLA_VXLAN_RESERVED_BITS: Key[bytes] = Key("IFLA_VXLAN_RESERVED_BITS")
IFLA_VXLAN_MC_ROUTE: Key[bool] = Key("IFLA_VXLAN_MC_ROUTE")
IFLA_ADDRESS: Key[bytes] = Key("IFLA_ADDRESS")
IFLA_BROADCAST: Key[bytes] = Key("IFLA_BROADCAST")
IFLA_IFNAME: Key[Text] = Key("IFLA_IFNAME")
IFLA_MTU: Key[int] = Key("IFLA_MTU")
IFLA_LINK: Key[int] = Key("IFLA_LINK")  # 100 is printed as ifindex 100
IFLA_QDISC: Key[Text] = Key("IFLA_QDISC")
IFLA_STATS: Key[list[int]] = Key("IFLA_STATS")
IFLA_COST: Key[bytes] = Key("IFLA_COST")
IFLA_PRIORITY: Key[bytes] = Key("IFLA_PRIORITY")
IFLA_MASTER: Key[int] = Key("IFLA_MASTER")  # 100 is printed as ifindex 100
IFLA_WIRELESS: Key[bytes] = Key("IFLA_WIRELESS")
IFLA_TXQLEN: Key[int] = Key("IFLA_TXQLEN")
IFLA_MAP: Key[bytes] = Key("IFLA_MAP")
IFLA_WEIGHT: Key[int] = Key("IFLA_WEIGHT")
IFLA_OPERSTATE: Key[OperState] = Key("IFLA_OPERSTATE")
IFLA_LINKMODE: Key[LinkMode] = Key("IFLA_LINKMODE")
IFLA_LINKINFO: Key[List] = Key("IFLA_LINKINFO")
IFLA_INFO_KIND: Key[Text] = Key("IFLA_INFO_KIND")
IFLA_INFO_DATA: Key[bytes] = Key("IFLA_INFO_DATA")
IFLA_INFO_XSTATS: Key[bytes] = Key("IFLA_INFO_XSTATS")
IFLA_INFO_SLAVE_KIND: Key[Text] = Key("IFLA_INFO_SLAVE_KIND")
IFLA_INFO_SLAVE_DATA: Key[bytes] = Key("IFLA_INFO_SLAVE_DATA")
IFLA_NET_NS_PID: Key[int] = Key("IFLA_NET_NS_PID")
IFLA_IFALIAS: Key[Text] = Key("IFLA_IFALIAS")
IFLA_NUM_VF: Key[int] = Key("IFLA_NUM_VF")
IFLA_VFINFO_LIST: Key[bytes] = Key("IFLA_VFINFO_LIST")
IFLA_STATS64: Key[list[int]] = Key("IFLA_STATS64")
IFLA_VF_PORTS: Key[bytes] = Key("IFLA_VF_PORTS")
IFLA_PORT_SELF: Key[bytes] = Key("IFLA_PORT_SELF")
IFLA_AF_SPEC: Key[bytes] = Key("IFLA_AF_SPEC")
IFLA_GROUP: Key[int] = Key("IFLA_GROUP")
IFLA_NET_NS_FD: Key[int] = Key("IFLA_NET_NS_FD")
IFLA_EXT_MASK: Key[ExtMask] = Key("IFLA_EXT_MASK")
IFLA_PROMISCUITY: Key[int] = Key("IFLA_PROMISCUITY")
IFLA_NUM_TX_QUEUES: Key[int] = Key("IFLA_NUM_TX_QUEUES")
IFLA_NUM_RX_QUEUES: Key[int] = Key("IFLA_NUM_RX_QUEUES")
IFLA_CARRIER: Key[bool] = Key("IFLA_CARRIER")
IFLA_PHYS_PORT_ID: Key[bytes] = Key("IFLA_PHYS_PORT_ID")
IFLA_CARRIER_CHANGES: Key[int] = Key("IFLA_CARRIER_CHANGES")
IFLA_PHYS_SWITCH_ID: Key[bytes] = Key("IFLA_PHYS_SWITCH_ID")
IFLA_LINK_NETNSID: Key[int] = Key("IFLA_LINK_NETNSID")
IFLA_PHYS_PORT_NAME: Key[Text] = Key("IFLA_PHYS_PORT_NAME")
IFLA_PROTO_DOWN: Key[bool] = Key("IFLA_PROTO_DOWN")
IFLA_GSO_MAX_SEGS: Key[int] = Key("IFLA_GSO_MAX_SEGS")
IFLA_GSO_MAX_SIZE: Key[int] = Key("IFLA_GSO_MAX_SIZE")
IFLA_PAD: Key[None] = Key("IFLA_PAD")
IFLA_XDP: Key[List] = Key("IFLA_XDP")
IFLA_XDP_FD: Key[int] = Key("IFLA_XDP_FD")
IFLA_XDP_ATTACHED: Key[XdpAttached] = Key("IFLA_XDP_ATTACHED")
IFLA_XDP_FLAGS: Key[XdpFlags] = Key("IFLA_XDP_FLAGS")
IFLA_XDP_PROG_ID: Key[int] = Key("IFLA_XDP_PROG_ID")
IFLA_XDP_DRV_PROG_ID: Key[int] = Key("IFLA_XDP_DRV_PROG_ID")
IFLA_XDP_SKB_PROG_ID: Key[int] = Key("IFLA_XDP_SKB_PROG_ID")
IFLA_XDP_HW_PROG_ID: Key[int] = Key("IFLA_XDP_HW_PROG_ID")
IFLA_XDP_EXPECTED_FD: Key[int] = Key("IFLA_XDP_EXPECTED_FD")
IFLA_EVENT: Key[LinkEvent] = Key("IFLA_EVENT")
IFLA_NEW_NETNSID: Key[int] = Key("IFLA_NEW_NETNSID")
IFLA_TARGET_NETNSID: Key[int] = Key("IFLA_TARGET_NETNSID")
IFLA_CARRIER_UP_COUNT: Key[int] = Key("IFLA_CARRIER_UP_COUNT")
IFLA_CARRIER_DOWN_COUNT: Key[int] = Key("IFLA_CARRIER_DOWN_COUNT")
IFLA_NEW_IFINDEX: Key[int] = Key("IFLA_NEW_IFINDEX")  # 100 is printed as ifindex 100
IFLA_MIN_MTU: Key[int] = Key("IFLA_MIN_MTU")
IFLA_MAX_MTU: Key[int] = Key("IFLA_MAX_MTU")
IFLA_PROP_LIST: Key[List] = Key("IFLA_PROP_LIST")
IFLA_ALT_IFNAME: Key[Text] = Key("IFLA_ALT_IFNAME")
IFLA_PERM_ADDRESS: Key[bytes] = Key("IFLA_PERM_ADDRESS")
IFLA_PROTO_DOWN_REASON: Key[List] = Key("IFLA_PROTO_DOWN_REASON")
IFLA_PROTO_DOWN_REASON_MASK: Key[int] = Key("IFLA_PROTO_DOWN_REASON_MASK")  # 100 is printed as 100 (0x64)
IFLA_PROTO_DOWN_REASON_VALUE: Key[int] = Key("IFLA_PROTO_DOWN_REASON_VALUE")  # 100 is printed as 100 (0x64)
IFLA_PARENT_DEV_NAME: Key[Text] = Key("IFLA_PARENT_DEV_NAME")
IFLA_PARENT_DEV_BUS_NAME: Key[Text] = Key("IFLA_PARENT_DEV_BUS_NAME")
IFLA_GRO_MAX_SIZE: Key[int] = Key("IFLA_GRO_MAX_SIZE")
IFLA_TSO_MAX_SIZE: Key[int] = Key("IFLA_TSO_MAX_SIZE")
IFLA_TSO_MAX_SEGS: Key[int] = Key("IFLA_TSO_MAX_SEGS")
IFLA_ALLMULTI: Key[int] = Key("IFLA_ALLMULTI")
IFLA_DEVLINK_PORT: Key[List] = Key("IFLA_DEVLINK_PORT")
DEVLINK_ATTR_BUS_NAME: Key[Text] = Key("DEVLINK_ATTR_BUS_NAME")
DEVLINK_ATTR_DEV_NAME: Key[Text] = Key("DEVLINK_ATTR_DEV_NAME")
DEVLINK_ATTR_PORT_INDEX: Key[int] = Key("DEVLINK_ATTR_PORT_INDEX")
IFLA_GSO_IPV4_MAX_SIZE: Key[int] = Key("IFLA_GSO_IPV4_MAX_SIZE")
IFLA_GRO_IPV4_MAX_SIZE: Key[int] = Key("IFLA_GRO_IPV4_MAX_SIZE")
IFLA_DPLL_PIN: Key[List] = Key("IFLA_DPLL_PIN")
DPLL_A_PIN_ID: Key[int] = Key("DPLL_A_PIN_ID")
IFLA_MAX_PACING_OFFLOAD_HORIZON: Key[bytes] = Key("IFLA_MAX_PACING_OFFLOAD_HORIZON")
IFLA_NETNS_IMMUTABLE: Key[bool] = Key("IFLA_NETNS_IMMUTABLE")
IFLA_HEADROOM: Key[int] = Key("IFLA_HEADROOM")
IFLA_TAILROOM: Key[int] = Key("IFLA_TAILROOM")
AF_INET: Key[bytes] = Key("AF_INET")
AF_INET6: Key[bytes] = Key("AF_INET6")
AF_MCTP: Key[bytes] = Key("AF_MCTP")
IFLA_INET_CONF: Key[list[int]] = Key("IFLA_INET_CONF")
IFLA_INET6_FLAGS: Key[Inet6Flags] = Key("IFLA_INET6_FLAGS")
IFLA_INET6_CONF: Key[list[int]] = Key("IFLA_INET6_CONF")
IFLA_INET6_STATS: Key[list[int]] = Key("IFLA_INET6_STATS")
IFLA_INET6_MCAST: Key[bytes] = Key("IFLA_INET6_MCAST")
IFLA_INET6_CACHEINFO: Key[bytes] = Key("IFLA_INET6_CACHEINFO")
IFLA_INET6_ICMP6STATS: Key[list[int]] = Key("IFLA_INET6_ICMP6STATS")
IFLA_INET6_TOKEN: Key[IPv6Address] = Key("IFLA_INET6_TOKEN")
IFLA_INET6_ADDR_GEN_MODE: Key[AddrGenMode] = Key("IFLA_INET6_ADDR_GEN_MODE")
IFLA_INET6_RA_MTU: Key[int] = Key("IFLA_INET6_RA_MTU")
IFLA_MCTP_NET: Key[int] = Key("IFLA_MCTP_NET")
IFLA_MCTP_PHYS_BINDING: Key[int] = Key("IFLA_MCTP_PHYS_BINDING")
NLMSGERR_ATTR_MSG: Key[Text] = Key("NLMSGERR_ATTR_MSG")
NLMSGERR_ATTR_OFFS: Key[int] = Key("NLMSGERR_ATTR_OFFS")
NLMSGERR_ATTR_COOKIE: Key[bytes] = Key("NLMSGERR_ATTR_COOKIE")
NLMSGERR_ATTR_POLICY: Key[bytes] = Key("NLMSGERR_ATTR_POLICY")
NLMSGERR_ATTR_MISS_TYPE: Key[int] = Key("NLMSGERR_ATTR_MISS_TYPE")
NLMSGERR_ATTR_MISS_NEST: Key[int] = Key("NLMSGERR_ATTR_MISS_NEST")
IFLA_GENEVE_ID: Key[int] = Key("IFLA_GENEVE_ID")
IFLA_GENEVE_REMOTE: Key[IPv4Address] = Key("IFLA_GENEVE_REMOTE")
IFLA_GENEVE_TTL: Key[int] = Key("IFLA_GENEVE_TTL")
IFLA_GENEVE_TOS: Key[int] = Key("IFLA_GENEVE_TOS")  # 100 is printed as 100 (0x64)
IFLA_GENEVE_PORT: Key[int] = Key("IFLA_GENEVE_PORT")
IFLA_GENEVE_COLLECT_METADATA: Key[None] = Key("IFLA_GENEVE_COLLECT_METADATA")
IFLA_GENEVE_REMOTE6: Key[IPv6Address] = Key("IFLA_GENEVE_REMOTE6")
IFLA_GENEVE_UDP_CSUM: Key[bool] = Key("IFLA_GENEVE_UDP_CSUM")
IFLA_GENEVE_UDP_ZERO_CSUM6_TX: Key[bool] = Key("IFLA_GENEVE_UDP_ZERO_CSUM6_TX")
IFLA_GENEVE_UDP_ZERO_CSUM6_RX: Key[bool] = Key("IFLA_GENEVE_UDP_ZERO_CSUM6_RX")
IFLA_GENEVE_LABEL: Key[int] = Key("IFLA_GENEVE_LABEL")  # 100 is printed as 100 (0x64)
IFLA_GENEVE_TTL_INHERIT: Key[bool] = Key("IFLA_GENEVE_TTL_INHERIT")
IFLA_GENEVE_DF: Key[VxlanDf] = Key("IFLA_GENEVE_DF")
IFLA_GENEVE_INNER_PROTO_INHERIT: Key[None] = Key("IFLA_GENEVE_INNER_PROTO_INHERIT")
IFLA_GENEVE_PORT_RANGE: Key[bytes] = Key("IFLA_GENEVE_PORT_RANGE")
IFLA_VRF_TABLE: Key[int] = Key("IFLA_VRF_TABLE")
IFLA_VRF_PORT_TABLE: Key[int] = Key("IFLA_VRF_PORT_TABLE")
IFLA_TUN_OWNER: Key[int] = Key("IFLA_TUN_OWNER")
IFLA_TUN_GROUP: Key[int] = Key("IFLA_TUN_GROUP")
IFLA_TUN_TYPE: Key[TunType] = Key("IFLA_TUN_TYPE")
IFLA_TUN_PI: Key[bool] = Key("IFLA_TUN_PI")
IFLA_TUN_VNET_HDR: Key[bool] = Key("IFLA_TUN_VNET_HDR")
IFLA_TUN_PERSIST: Key[bool] = Key("IFLA_TUN_PERSIST")
IFLA_TUN_MULTI_QUEUE: Key[bool] = Key("IFLA_TUN_MULTI_QUEUE")
IFLA_TUN_NUM_QUEUES: Key[int] = Key("IFLA_TUN_NUM_QUEUES")
IFLA_TUN_NUM_DISABLED_QUEUES: Key[int] = Key("IFLA_TUN_NUM_DISABLED_QUEUES")
IFLA_IPVLAN_MODE: Key[IpvlanMode] = Key("IFLA_IPVLAN_MODE")
IFLA_IPVLAN_FLAGS: Key[IpvlanFlags] = Key("IFLA_IPVLAN_FLAGS")
IFLA_MACVLAN_MODE: Key[MacvlanMode] = Key("IFLA_MACVLAN_MODE")
IFLA_MACVLAN_FLAGS: Key[MacvlanFlags] = Key("IFLA_MACVLAN_FLAGS")
IFLA_MACVLAN_MACADDR_MODE: Key[MacvlanMacaddrMode] = Key("IFLA_MACVLAN_MACADDR_MODE")
IFLA_MACVLAN_MACADDR: Key[Mac] = Key("IFLA_MACVLAN_MACADDR")
IFLA_MACVLAN_MACADDR_DATA: Key[List] = Key("IFLA_MACVLAN_MACADDR_DATA")
IFLA_MACVLAN_MACADDR_COUNT: Key[int] = Key("IFLA_MACVLAN_MACADDR_COUNT")
IFLA_MACVLAN_BC_QUEUE_LEN: Key[int] = Key("IFLA_MACVLAN_BC_QUEUE_LEN")
IFLA_MACVLAN_BC_QUEUE_LEN_USED: Key[int] = Key("IFLA_MACVLAN_BC_QUEUE_LEN_USED")
IFLA_MACVLAN_BC_CUTOFF: Key[int] = Key("IFLA_MACVLAN_BC_CUTOFF")
IFLA_NETKIT_PEER_INFO: Key[bytes] = Key("IFLA_NETKIT_PEER_INFO")
IFLA_NETKIT_PRIMARY: Key[bool] = Key("IFLA_NETKIT_PRIMARY")
IFLA_NETKIT_POLICY: Key[NetkitPolicy] = Key("IFLA_NETKIT_POLICY")
IFLA_NETKIT_PEER_POLICY: Key[NetkitPolicy] = Key("IFLA_NETKIT_PEER_POLICY")
IFLA_NETKIT_MODE: Key[NetkitMode] = Key("IFLA_NETKIT_MODE")
IFLA_NETKIT_SCRUB: Key[NetkitScrub] = Key("IFLA_NETKIT_SCRUB")
IFLA_NETKIT_PEER_SCRUB: Key[NetkitScrub] = Key("IFLA_NETKIT_PEER_SCRUB")
IFLA_NETKIT_HEADROOM: Key[int] = Key("IFLA_NETKIT_HEADROOM")
IFLA_NETKIT_TAILROOM: Key[int] = Key("IFLA_NETKIT_TAILROOM")
VETH_INFO_PEER: Key[bytes] = Key("VETH_INFO_PEER")

SETS: dict[Family, tuple[Row, ...]] = {
    Family.AF_SPEC_BRIDGE: (
        Row("IFLA_BRIDGE_FLAGS", 0, 5, BridgeFlags),
        Row("IFLA_BRIDGE_MODE", 1, 5, BridgeMode),
        Row("IFLA_BRIDGE_VLAN_INFO", 2, 12, BridgeVlanFlags),
        Row("IFLA_BRIDGE_VLAN_TUNNEL_INFO", 3, 18, elements=(
            Row("IFLA_BRIDGE_VLAN_TUNNEL_ID", 1, 3),
            Row("IFLA_BRIDGE_VLAN_TUNNEL_VID", 2, 3),
            Row("IFLA_BRIDGE_VLAN_TUNNEL_FLAGS", 3, 6, BridgeVlanFlags),
        )),
    ),
    Family.BOND: (
        Row("IFLA_BOND_MODE", 1, 5, BondMode),
        Row("IFLA_BOND_ACTIVE_SLAVE", 2, 3, unit=Unit.INTERFACE_INDEX),
        Row("IFLA_BOND_MIIMON", 3, 3, unit=Unit.MILLISECONDS),
        Row("IFLA_BOND_UPDELAY", 4, 3, unit=Unit.MILLISECONDS),
        Row("IFLA_BOND_DOWNDELAY", 5, 3, unit=Unit.MILLISECONDS),
        Row("IFLA_BOND_USE_CARRIER", 6, 2),
        Row("IFLA_BOND_ARP_INTERVAL", 7, 3, unit=Unit.MILLISECONDS),
        Row("IFLA_BOND_ARP_IP_TARGET", 8, 18, item=Row("", 0, 9)),
        Row("IFLA_BOND_ARP_VALIDATE", 9, 5, BondArpValidate),
        Row("IFLA_BOND_ARP_ALL_TARGETS", 10, 5, BondArpAllTargets),
        Row("IFLA_BOND_PRIMARY", 11, 3, unit=Unit.INTERFACE_INDEX),
        Row("IFLA_BOND_PRIMARY_RESELECT", 12, 5, BondPrimaryReselect),
        Row("IFLA_BOND_FAIL_OVER_MAC", 13, 5, BondFailOverMac),
        Row("IFLA_BOND_XMIT_HASH_POLICY", 14, 5, BondXmitHashPolicy),
        Row("IFLA_BOND_RESEND_IGMP", 15, 3),
        Row("IFLA_BOND_NUM_PEER_NOTIF", 16, 3),
        Row("IFLA_BOND_ALL_SLAVES_ACTIVE", 17, 5, BondAllPortsActive),
        Row("IFLA_BOND_MIN_LINKS", 18, 3),
        Row("IFLA_BOND_LP_INTERVAL", 19, 3, unit=Unit.SECONDS),
        Row("IFLA_BOND_PACKETS_PER_SLAVE", 20, 3),
        Row("IFLA_BOND_AD_LACP_RATE", 21, 5, BondAdLacpRate),
        Row("IFLA_BOND_AD_SELECT", 22, 5, BondAdSelect),
        Row("IFLA_BOND_AD_INFO", 23, 18, elements=(
            Row("IFLA_BOND_AD_INFO_AGGREGATOR", 1, 3),
            Row("IFLA_BOND_AD_INFO_NUM_PORTS", 2, 3),
            Row("IFLA_BOND_AD_INFO_ACTOR_KEY", 3, 3),
            Row("IFLA_BOND_AD_INFO_PARTNER_KEY", 4, 3),
            Row("IFLA_BOND_AD_INFO_PARTNER_MAC", 5, 8),
        )),
        Row("IFLA_BOND_AD_ACTOR_SYS_PRIO", 24, 3),
        Row("IFLA_BOND_AD_USER_PORT_KEY", 25, 3),
        Row("IFLA_BOND_AD_ACTOR_SYSTEM", 26, 8),
        Row("IFLA_BOND_TLB_DYNAMIC_LB", 27, 2),
        Row("IFLA_BOND_PEER_NOTIF_DELAY", 28, 3, unit=Unit.MILLISECONDS),
        Row("IFLA_BOND_AD_LACP_ACTIVE", 29, 2),
        Row("IFLA_BOND_MISSED_MAX", 30, 3),
        Row("IFLA_BOND_NS_IP6_TARGET", 31, 18, item=Row("", 0, 10)),
        Row("IFLA_BOND_COUPLED_CONTROL", 32, 2),
        Row("IFLA_BOND_BROADCAST_NEIGH", 33, 2),
        Row("IFLA_BOND_LACP_STRICT", 34, 2),
    ),
    Family.BOND_PORT: (
        Row("IFLA_BOND_SLAVE_STATE", 1, 5, BondPortState),
        Row("IFLA_BOND_SLAVE_MII_STATUS", 2, 5, MiiStatus),
        Row("IFLA_BOND_SLAVE_LINK_FAILURE_COUNT", 3, 3),
        Row("IFLA_BOND_SLAVE_PERM_HWADDR", 4, 17),
        Row("IFLA_BOND_SLAVE_QUEUE_ID", 5, 3),
        Row("IFLA_BOND_SLAVE_AD_AGGREGATOR_ID", 6, 3),
        Row("IFLA_BOND_SLAVE_AD_ACTOR_OPER_PORT_STATE", 7, 6, LacpState),
        Row("IFLA_BOND_SLAVE_AD_PARTNER_OPER_PORT_STATE", 8, 6, LacpState),
        Row("IFLA_BOND_SLAVE_PRIO", 9, 4),
        Row("IFLA_BOND_SLAVE_ACTOR_PORT_PRIO", 10, 3),
        Row("IFLA_BOND_SLAVE_AD_CHURN_ACTOR_STATE", 11, 5, ChurnState),
        Row("IFLA_BOND_SLAVE_AD_CHURN_PARTNER_STATE", 12, 5, ChurnState),
    ),
    Family.BRIDGE: (
        Row("IFLA_BR_FORWARD_DELAY", 1, 3, unit=Unit.CLOCK_TICKS),
        Row("IFLA_BR_HELLO_TIME", 2, 3, unit=Unit.CLOCK_TICKS),
        Row("IFLA_BR_MAX_AGE", 3, 3, unit=Unit.CLOCK_TICKS),
        Row("IFLA_BR_AGEING_TIME", 4, 3, unit=Unit.CLOCK_TICKS),
        Row("IFLA_BR_STP_STATE", 5, 5, BridgeStpState),
        Row("IFLA_BR_PRIORITY", 6, 3),
        Row("IFLA_BR_VLAN_FILTERING", 7, 2),
        Row("IFLA_BR_VLAN_PROTOCOL", 8, 5, VlanProtocol),
        Row("IFLA_BR_GROUP_FWD_MASK", 9, 3, unit=Unit.MASK),
        Row("IFLA_BR_ROOT_ID", 10, 11),
        Row("IFLA_BR_BRIDGE_ID", 11, 11),
        Row("IFLA_BR_ROOT_PORT", 12, 3),
        Row("IFLA_BR_ROOT_PATH_COST", 13, 3),
        Row("IFLA_BR_TOPOLOGY_CHANGE", 14, 3),
        Row("IFLA_BR_TOPOLOGY_CHANGE_DETECTED", 15, 3),
        Row("IFLA_BR_HELLO_TIMER", 16, 3, unit=Unit.CLOCK_TICKS),
        Row("IFLA_BR_TCN_TIMER", 17, 3, unit=Unit.CLOCK_TICKS),
        Row("IFLA_BR_TOPOLOGY_CHANGE_TIMER", 18, 3, unit=Unit.CLOCK_TICKS),
        Row("IFLA_BR_GC_TIMER", 19, 3, unit=Unit.CLOCK_TICKS),
        Row("IFLA_BR_GROUP_ADDR", 20, 8),
        Row("IFLA_BR_FDB_FLUSH", 21, 1),
        Row("IFLA_BR_MCAST_ROUTER", 22, 5, McastRouter),
        Row("IFLA_BR_MCAST_SNOOPING", 23, 2),
        Row("IFLA_BR_MCAST_QUERY_USE_IFADDR", 24, 2),
        Row("IFLA_BR_MCAST_QUERIER", 25, 2),
        Row("IFLA_BR_MCAST_HASH_ELASTICITY", 26, 3),
        Row("IFLA_BR_MCAST_HASH_MAX", 27, 3),
        Row("IFLA_BR_MCAST_LAST_MEMBER_CNT", 28, 3),
        Row("IFLA_BR_MCAST_STARTUP_QUERY_CNT", 29, 3),
        Row("IFLA_BR_MCAST_LAST_MEMBER_INTVL", 30, 3, unit=Unit.CLOCK_TICKS),
        Row("IFLA_BR_MCAST_MEMBERSHIP_INTVL", 31, 3, unit=Unit.CLOCK_TICKS),
        Row("IFLA_BR_MCAST_QUERIER_INTVL", 32, 3, unit=Unit.CLOCK_TICKS),
        Row("IFLA_BR_MCAST_QUERY_INTVL", 33, 3, unit=Unit.CLOCK_TICKS),
        Row("IFLA_BR_MCAST_QUERY_RESPONSE_INTVL", 34, 3, unit=Unit.CLOCK_TICKS),
        Row("IFLA_BR_MCAST_STARTUP_QUERY_INTVL", 35, 3, unit=Unit.CLOCK_TICKS),
        Row("IFLA_BR_NF_CALL_IPTABLES", 36, 2),
        Row("IFLA_BR_NF_CALL_IP6TABLES", 37, 2),
        Row("IFLA_BR_NF_CALL_ARPTABLES", 38, 2),
        Row("IFLA_BR_VLAN_DEFAULT_PVID", 39, 3),
        Row("IFLA_BR_VLAN_STATS_ENABLED", 41, 2),
        Row("IFLA_BR_MCAST_STATS_ENABLED", 42, 2),
        Row("IFLA_BR_MCAST_IGMP_VERSION", 43, 3),
        Row("IFLA_BR_MCAST_MLD_VERSION", 44, 3),
        Row("IFLA_BR_VLAN_STATS_PER_PORT", 45, 2),
        Row("IFLA_BR_MULTI_BOOLOPT", 46, 7, BridgeBoolOpt),
        Row("IFLA_BR_MCAST_QUERIER_STATE", 47, 18, elements=(
            Row("BRIDGE_QUERIER_IP_ADDRESS", 1, 9),
            Row("BRIDGE_QUERIER_IP_PORT", 2, 3, unit=Unit.INTERFACE_INDEX),
            Row("BRIDGE_QUERIER_IP_OTHER_TIMER", 3, 3, unit=Unit.CLOCK_TICKS),
            Row("BRIDGE_QUERIER_IPV6_ADDRESS", 5, 10),
            Row("BRIDGE_QUERIER_IPV6_PORT", 6, 3, unit=Unit.INTERFACE_INDEX),
            Row("BRIDGE_QUERIER_IPV6_OTHER_TIMER", 7, 3, unit=Unit.CLOCK_TICKS),
        )),
        Row("IFLA_BR_FDB_N_LEARNED", 48, 3),
        Row("IFLA_BR_FDB_MAX_LEARNED", 49, 3),
        Row("IFLA_BR_STP_MODE", 50, 5, BridgeStpMode),
    ),
    Family.BRIDGE_PORT: (
        Row("IFLA_BRPORT_STATE", 1, 5, BridgePortState),
        Row("IFLA_BRPORT_PRIORITY", 2, 3),
        Row("IFLA_BRPORT_COST", 3, 3),
        Row("IFLA_BRPORT_MODE", 4, 2),
        Row("IFLA_BRPORT_GUARD", 5, 2),
        Row("IFLA_BRPORT_PROTECT", 6, 2),
        Row("IFLA_BRPORT_FAST_LEAVE", 7, 2),
        Row("IFLA_BRPORT_LEARNING", 8, 2),
        Row("IFLA_BRPORT_UNICAST_FLOOD", 9, 2),
        Row("IFLA_BRPORT_PROXYARP", 10, 2),
        Row("IFLA_BRPORT_LEARNING_SYNC", 11, 2),
        Row("IFLA_BRPORT_PROXYARP_WIFI", 12, 2),
        Row("IFLA_BRPORT_ROOT_ID", 13, 11),
        Row("IFLA_BRPORT_BRIDGE_ID", 14, 11),
        Row("IFLA_BRPORT_DESIGNATED_PORT", 15, 3, unit=Unit.MASK),
        Row("IFLA_BRPORT_DESIGNATED_COST", 16, 3),
        Row("IFLA_BRPORT_ID", 17, 3, unit=Unit.MASK),
        Row("IFLA_BRPORT_NO", 18, 3),
        Row("IFLA_BRPORT_TOPOLOGY_CHANGE_ACK", 19, 2),
        Row("IFLA_BRPORT_CONFIG_PENDING", 20, 2),
        Row("IFLA_BRPORT_MESSAGE_AGE_TIMER", 21, 3, unit=Unit.CLOCK_TICKS),
        Row("IFLA_BRPORT_FORWARD_DELAY_TIMER", 22, 3, unit=Unit.CLOCK_TICKS),
        Row("IFLA_BRPORT_HOLD_TIMER", 23, 3, unit=Unit.CLOCK_TICKS),
        Row("IFLA_BRPORT_FLUSH", 24, 1),
        Row("IFLA_BRPORT_MULTICAST_ROUTER", 25, 5, McastRouter),
        Row("IFLA_BRPORT_MCAST_FLOOD", 27, 2),
        Row("IFLA_BRPORT_MCAST_TO_UCAST", 28, 2),
        Row("IFLA_BRPORT_VLAN_TUNNEL", 29, 2),
        Row("IFLA_BRPORT_BCAST_FLOOD", 30, 2),
        Row("IFLA_BRPORT_GROUP_FWD_MASK", 31, 3, unit=Unit.MASK),
        Row("IFLA_BRPORT_NEIGH_SUPPRESS", 32, 2),
        Row("IFLA_BRPORT_ISOLATED", 33, 2),
        Row("IFLA_BRPORT_BACKUP_PORT", 34, 3, unit=Unit.INTERFACE_INDEX),
        Row("IFLA_BRPORT_MRP_RING_OPEN", 35, 2),
        Row("IFLA_BRPORT_MRP_IN_OPEN", 36, 2),
        Row("IFLA_BRPORT_MCAST_EHT_HOSTS_LIMIT", 37, 3),
        Row("IFLA_BRPORT_MCAST_EHT_HOSTS_CNT", 38, 3),
        Row("IFLA_BRPORT_LOCKED", 39, 2),
        Row("IFLA_BRPORT_MAB", 40, 2),
        Row("IFLA_BRPORT_MCAST_N_GROUPS", 41, 3),
        Row("IFLA_BRPORT_MCAST_MAX_GROUPS", 42, 3),
        Row("IFLA_BRPORT_NEIGH_VLAN_SUPPRESS", 43, 2),
        Row("IFLA_BRPORT_BACKUP_NHID", 44, 3),
        Row("IFLA_BRPORT_NEIGH_FORWARD_GRAT", 45, 2),
    ),
    Family.VLAN: (
        Row("IFLA_VLAN_ID", 1, 3),
        Row("IFLA_VLAN_FLAGS", 2, 7, VlanFlags),
        Row("IFLA_VLAN_EGRESS_QOS", 3, 18, item=Row("IFLA_VLAN_QOS_MAPPING", 1, 13)),
        Row("IFLA_VLAN_INGRESS_QOS", 4, 18, item=Row("IFLA_VLAN_QOS_MAPPING", 1, 13)),
        Row("IFLA_VLAN_PROTOCOL", 5, 5, VlanProtocol),
    ),
    Family.CAN: (
        Row("IFLA_CAN_BITTIMING", 1, 15),
        Row("IFLA_CAN_BITTIMING_CONST", 2, 16),
        Row("IFLA_CAN_CLOCK", 3, 3),
        Row("IFLA_CAN_STATE", 4, 5, CanState),
        Row("IFLA_CAN_CTRLMODE", 5, 7, CanCtrlMode),
        Row("IFLA_CAN_RESTART_MS", 6, 3, unit=Unit.MILLISECONDS),
        Row("IFLA_CAN_RESTART", 7, 3),
        Row("IFLA_CAN_BERR_COUNTER", 8, 14),
        Row("IFLA_CAN_DATA_BITTIMING", 9, 15),
        Row("IFLA_CAN_DATA_BITTIMING_CONST", 10, 16),
        Row("IFLA_CAN_TERMINATION", 11, 3, unit=Unit.OHMS),
        Row("IFLA_CAN_TERMINATION_CONST", 12, 18, unit=Unit.OHMS, item=Row("", 0, 3, unit=Unit.OHMS)),
        Row("IFLA_CAN_BITRATE_CONST", 13, 18, unit=Unit.BITS_PER_SECOND, item=Row("", 0, 3, unit=Unit.BITS_PER_SECOND)),
        Row("IFLA_CAN_DATA_BITRATE_CONST", 14, 18, unit=Unit.BITS_PER_SECOND, item=Row("", 0, 3, unit=Unit.BITS_PER_SECOND)),
        Row("IFLA_CAN_BITRATE_MAX", 15, 3, unit=Unit.BITS_PER_SECOND),
        Row("IFLA_CAN_TDC", 16, 18, elements=(
            Row("IFLA_CAN_TDC_TDCV_MIN", 1, 3),
            Row("IFLA_CAN_TDC_TDCV_MAX", 2, 3),
            Row("IFLA_CAN_TDC_TDCO_MIN", 3, 3),
            Row("IFLA_CAN_TDC_TDCO_MAX", 4, 3),
            Row("IFLA_CAN_TDC_TDCF_MIN", 5, 3),
            Row("IFLA_CAN_TDC_TDCF_MAX", 6, 3),
            Row("IFLA_CAN_TDC_TDCV", 7, 3),
            Row("IFLA_CAN_TDC_TDCO", 8, 3),
            Row("IFLA_CAN_TDC_TDCF", 9, 3),
        )),
        Row("IFLA_CAN_CTRLMODE_EXT", 17, 18, elements=(
            Row("IFLA_CAN_CTRLMODE_SUPPORTED", 1, 6, CanCtrlMode),
        )),
    ),
    Family.DSA: (
        Row("IFLA_DSA_CONDUIT", 1, 3, unit=Unit.INTERFACE_INDEX),
    ),
    Family.HSR: (
        Row("IFLA_HSR_SLAVE1", 1, 3, unit=Unit.INTERFACE_INDEX),
        Row("IFLA_HSR_SLAVE2", 2, 3, unit=Unit.INTERFACE_INDEX),
        Row("IFLA_HSR_MULTICAST_SPEC", 3, 3),
        Row("IFLA_HSR_SUPERVISION_ADDR", 4, 8),
        Row("IFLA_HSR_SEQ_NR", 5, 3),
        Row("IFLA_HSR_VERSION", 6, 3),
        Row("IFLA_HSR_PROTOCOL", 7, 5, HsrProtocol),
        Row("IFLA_HSR_INTERLINK", 8, 3, unit=Unit.INTERFACE_INDEX),
    ),
    Family.PROTO_BRIDGE: (
        Row("IFLA_BRPORT_NEIGH_FORWARD_GRAT", 45, 2),
    ),
    Family.VXLAN: (
        Row("IFLA_VXLAN_ID", 1, 3),
        Row("IFLA_VXLAN_GROUP", 2, 9),
        Row("IFLA_VXLAN_LINK", 3, 3, unit=Unit.INTERFACE_INDEX),
        Row("IFLA_VXLAN_LOCAL", 4, 9),
        Row("IFLA_VXLAN_TTL", 5, 3),
        Row("IFLA_VXLAN_TOS", 6, 3, unit=Unit.MASK),
        Row("IFLA_VXLAN_LEARNING", 7, 2),
        Row("IFLA_VXLAN_AGEING", 8, 3, unit=Unit.SECONDS),
        Row("IFLA_VXLAN_LIMIT", 9, 3),
        Row("IFLA_VXLAN_PORT_RANGE", 10, 17, struct=Struct(4, (("low", 0, ">H"), ("high", 2, ">H")))),
        Row("IFLA_VXLAN_PROXY", 11, 2),
        Row("IFLA_VXLAN_RSC", 12, 2),
        Row("IFLA_VXLAN_L2MISS", 13, 2),
        Row("IFLA_VXLAN_L3MISS", 14, 2),
        Row("IFLA_VXLAN_PORT", 15, 3),
        Row("IFLA_VXLAN_GROUP6", 16, 10),
        Row("IFLA_VXLAN_LOCAL6", 17, 10),
        Row("IFLA_VXLAN_UDP_CSUM", 18, 2),
        Row("IFLA_VXLAN_UDP_ZERO_CSUM6_TX", 19, 2),
        Row("IFLA_VXLAN_UDP_ZERO_CSUM6_RX", 20, 2),
        Row("IFLA_VXLAN_REMCSUM_TX", 21, 2),
        Row("IFLA_VXLAN_REMCSUM_RX", 22, 2),
        Row("IFLA_VXLAN_GBP", 23, 1),
        Row("IFLA_VXLAN_REMCSUM_NOPARTIAL", 24, 1),
        Row("IFLA_VXLAN_COLLECT_METADATA", 25, 2),
        Row("IFLA_VXLAN_LABEL", 26, 3, unit=Unit.MASK),
        Row("IFLA_VXLAN_GPE", 27, 1),
        Row("IFLA_VXLAN_TTL_INHERIT", 28, 2, optional=True),
        Row("IFLA_VXLAN_DF", 29, 5, VxlanDf),
        Row("IFLA_VXLAN_VNIFILTER", 30, 2),
        Row("IFLA_VXLAN_LOCALBYPASS", 31, 2),
        Row("IFLA_VXLAN_LABEL_POLICY", 32, 5, VxlanLabelPolicy),
        Row("IFLA_VXLAN_RESERVED_BITS", 33, 17, struct=Struct(8, (("vx_flags", 0, ">I"), ("vx_vni", 4, ">I")))),
        Row("IFLA_VXLAN_MC_ROUTE", 34, 2),
    ),
    Family.LINK: (
        Row("IFLA_ADDRESS", 1, 17),
        Row("IFLA_BROADCAST", 2, 17),
        Row("IFLA_IFNAME", 3, 20),
        Row("IFLA_MTU", 4, 3),
        Row("IFLA_LINK", 5, 3, unit=Unit.INTERFACE_INDEX),
        Row("IFLA_QDISC", 6, 20),
        Row("IFLA_STATS", 7, 18, item=Row("", 0, 3)),
        Row("IFLA_COST", 8, 17),
        Row("IFLA_PRIORITY", 9, 17),
        Row("IFLA_MASTER", 10, 3, unit=Unit.INTERFACE_INDEX),
        Row("IFLA_WIRELESS", 11, 17),
        Row("IFLA_TXQLEN", 13, 3),
        Row("IFLA_MAP", 14, 17, struct=Struct(32, (("mem_start", 0, "=Q"), ("mem_end", 8, "=Q"), ("base_addr", 16, "=Q"), ("irq", 24, "=H"), ("dma", 26, "=B"), ("port", 27, "=B")))),
        Row("IFLA_WEIGHT", 15, 3),
        Row("IFLA_OPERSTATE", 16, 5, OperState),
        Row("IFLA_LINKMODE", 17, 5, LinkMode),
        Row("IFLA_LINKINFO", 18, 18, elements=(
            Row("IFLA_INFO_KIND", 1, 20),
            Row("IFLA_INFO_DATA", 2, 21),
            Row("IFLA_INFO_XSTATS", 3, 17),
            Row("IFLA_INFO_SLAVE_KIND", 4, 20),
            Row("IFLA_INFO_SLAVE_DATA", 5, 21),
        )),
        Row("IFLA_NET_NS_PID", 19, 3),
        Row("IFLA_IFALIAS", 20, 20),
        Row("IFLA_NUM_VF", 21, 3),
        Row("IFLA_VFINFO_LIST", 22, 21),
        Row("IFLA_STATS64", 23, 18, item=Row("", 0, 3)),
        Row("IFLA_VF_PORTS", 24, 21),
        Row("IFLA_PORT_SELF", 25, 21),
        Row("IFLA_AF_SPEC", 26, 21),
        Row("IFLA_GROUP", 27, 3),
        Row("IFLA_NET_NS_FD", 28, 3),
        Row("IFLA_EXT_MASK", 29, 6, ExtMask),
        Row("IFLA_PROMISCUITY", 30, 3),
        Row("IFLA_NUM_TX_QUEUES", 31, 3),
        Row("IFLA_NUM_RX_QUEUES", 32, 3),
        Row("IFLA_CARRIER", 33, 2),
        Row("IFLA_PHYS_PORT_ID", 34, 17),
        Row("IFLA_CARRIER_CHANGES", 35, 3),
        Row("IFLA_PHYS_SWITCH_ID", 36, 17),
        Row("IFLA_LINK_NETNSID", 37, 4),
        Row("IFLA_PHYS_PORT_NAME", 38, 20),
        Row("IFLA_PROTO_DOWN", 39, 2),
        Row("IFLA_GSO_MAX_SEGS", 40, 3),
        Row("IFLA_GSO_MAX_SIZE", 41, 3),
        Row("IFLA_PAD", 42, 1),
        Row("IFLA_XDP", 43, 18, elements=(
            Row("IFLA_XDP_FD", 1, 4),
            Row("IFLA_XDP_ATTACHED", 2, 5, XdpAttached),
            Row("IFLA_XDP_FLAGS", 3, 6, XdpFlags),
            Row("IFLA_XDP_PROG_ID", 4, 3),
            Row("IFLA_XDP_DRV_PROG_ID", 5, 3),
            Row("IFLA_XDP_SKB_PROG_ID", 6, 3),
            Row("IFLA_XDP_HW_PROG_ID", 7, 3),
            Row("IFLA_XDP_EXPECTED_FD", 8, 4),
        )),
        Row("IFLA_EVENT", 44, 5, LinkEvent),
        Row("IFLA_NEW_NETNSID", 45, 4),
        Row("IFLA_TARGET_NETNSID", 46, 4),
        Row("IFLA_CARRIER_UP_COUNT", 47, 3),
        Row("IFLA_CARRIER_DOWN_COUNT", 48, 3),
        Row("IFLA_NEW_IFINDEX", 49, 3, unit=Unit.INTERFACE_INDEX),
        Row("IFLA_MIN_MTU", 50, 3),
        Row("IFLA_MAX_MTU", 51, 3),
        Row("IFLA_PROP_LIST", 52, 18, elements=(
            Row("IFLA_ALT_IFNAME", 53, 20),
        )),
        Row("IFLA_ALT_IFNAME", 53, 20),
        Row("IFLA_PERM_ADDRESS", 54, 17),
        Row("IFLA_PROTO_DOWN_REASON", 55, 18, elements=(
            Row("IFLA_PROTO_DOWN_REASON_MASK", 1, 3, unit=Unit.MASK),
            Row("IFLA_PROTO_DOWN_REASON_VALUE", 2, 3, unit=Unit.MASK),
        )),
        Row("IFLA_PARENT_DEV_NAME", 56, 20),
        Row("IFLA_PARENT_DEV_BUS_NAME", 57, 20),
        Row("IFLA_GRO_MAX_SIZE", 58, 3),
        Row("IFLA_TSO_MAX_SIZE", 59, 3),
        Row("IFLA_TSO_MAX_SEGS", 60, 3),
        Row("IFLA_ALLMULTI", 61, 3),
        Row("IFLA_DEVLINK_PORT", 62, 18, elements=(
            Row("DEVLINK_ATTR_BUS_NAME", 1, 20),
            Row("DEVLINK_ATTR_DEV_NAME", 2, 20),
            Row("DEVLINK_ATTR_PORT_INDEX", 3, 3),
        )),
        Row("IFLA_GSO_IPV4_MAX_SIZE", 63, 3),
        Row("IFLA_GRO_IPV4_MAX_SIZE", 64, 3),
        Row("IFLA_DPLL_PIN", 65, 18, elements=(
            Row("DPLL_A_PIN_ID", 1, 3),
        )),
        Row("IFLA_MAX_PACING_OFFLOAD_HORIZON", 66, 17, unit=Unit.NANOSECONDS),
        Row("IFLA_NETNS_IMMUTABLE", 67, 2),
        Row("IFLA_HEADROOM", 68, 3),
        Row("IFLA_TAILROOM", 69, 3),
    ),
    Family.AF_SPEC: (
        Row("AF_INET", 2, 21),
        Row("AF_INET6", 10, 21),
        Row("AF_MCTP", 45, 21),
    ),
    Family.INET: (
        Row("IFLA_INET_CONF", 1, 18, item=Row("", 0, 4)),
    ),
    Family.INET6: (
        Row("IFLA_INET6_FLAGS", 1, 6, Inet6Flags),
        Row("IFLA_INET6_CONF", 2, 18, item=Row("", 0, 4)),
        Row("IFLA_INET6_STATS", 3, 18, item=Row("", 0, 3)),
        Row("IFLA_INET6_MCAST", 4, 17),
        Row("IFLA_INET6_CACHEINFO", 5, 17, struct=Struct(16, (("max_reasm_len", 0, "=I"), ("tstamp", 4, "=I"), ("reachable_time", 8, "=I"), ("retrans_time", 12, "=I")))),
        Row("IFLA_INET6_ICMP6STATS", 6, 18, item=Row("", 0, 3)),
        Row("IFLA_INET6_TOKEN", 7, 10),
        Row("IFLA_INET6_ADDR_GEN_MODE", 8, 5, AddrGenMode),
        Row("IFLA_INET6_RA_MTU", 9, 3),
    ),
    Family.MCTP: (
        Row("IFLA_MCTP_NET", 1, 3),
        Row("IFLA_MCTP_PHYS_BINDING", 2, 3),
    ),
    Family.REPLY: (
        Row("NLMSGERR_ATTR_MSG", 1, 20),
        Row("NLMSGERR_ATTR_OFFS", 2, 3),
        Row("NLMSGERR_ATTR_COOKIE", 3, 17),
        Row("NLMSGERR_ATTR_POLICY", 4, 21),
        Row("NLMSGERR_ATTR_MISS_TYPE", 5, 3),
        Row("NLMSGERR_ATTR_MISS_NEST", 6, 3),
    ),
    Family.GENEVE: (
        Row("IFLA_GENEVE_ID", 1, 3),
        Row("IFLA_GENEVE_REMOTE", 2, 9),
        Row("IFLA_GENEVE_TTL", 3, 3),
        Row("IFLA_GENEVE_TOS", 4, 3, unit=Unit.MASK),
        Row("IFLA_GENEVE_PORT", 5, 3),
        Row("IFLA_GENEVE_COLLECT_METADATA", 6, 1),
        Row("IFLA_GENEVE_REMOTE6", 7, 10),
        Row("IFLA_GENEVE_UDP_CSUM", 8, 2),
        Row("IFLA_GENEVE_UDP_ZERO_CSUM6_TX", 9, 2),
        Row("IFLA_GENEVE_UDP_ZERO_CSUM6_RX", 10, 2),
        Row("IFLA_GENEVE_LABEL", 11, 3, unit=Unit.MASK),
        Row("IFLA_GENEVE_TTL_INHERIT", 12, 2),
        Row("IFLA_GENEVE_DF", 13, 5, VxlanDf),
        Row("IFLA_GENEVE_INNER_PROTO_INHERIT", 14, 1),
        Row("IFLA_GENEVE_PORT_RANGE", 15, 17, struct=Struct(4, (("low", 0, ">H"), ("high", 2, ">H")))),
    ),
    Family.VRF: (
        Row("IFLA_VRF_TABLE", 1, 3),
    ),
    Family.VRF_PORT: (
        Row("IFLA_VRF_PORT_TABLE", 1, 3),
    ),
    Family.TUN: (
        Row("IFLA_TUN_OWNER", 1, 3),
        Row("IFLA_TUN_GROUP", 2, 3),
        Row("IFLA_TUN_TYPE", 3, 5, TunType),
        Row("IFLA_TUN_PI", 4, 2),
        Row("IFLA_TUN_VNET_HDR", 5, 2),
        Row("IFLA_TUN_PERSIST", 6, 2),
        Row("IFLA_TUN_MULTI_QUEUE", 7, 2),
        Row("IFLA_TUN_NUM_QUEUES", 8, 3),
        Row("IFLA_TUN_NUM_DISABLED_QUEUES", 9, 3),
    ),
    Family.IPVLAN: (
        Row("IFLA_IPVLAN_MODE", 1, 5, IpvlanMode),
        Row("IFLA_IPVLAN_FLAGS", 2, 6, IpvlanFlags),
    ),
    Family.MACVLAN: (
        Row("IFLA_MACVLAN_MODE", 1, 5, MacvlanMode),
        Row("IFLA_MACVLAN_FLAGS", 2, 6, MacvlanFlags),
        Row("IFLA_MACVLAN_MACADDR_MODE", 3, 5, MacvlanMacaddrMode),
        Row("IFLA_MACVLAN_MACADDR", 4, 8),
        Row("IFLA_MACVLAN_MACADDR_DATA", 5, 18, elements=(
            Row("IFLA_MACVLAN_MACADDR", 4, 8),
        )),
        Row("IFLA_MACVLAN_MACADDR_COUNT", 6, 3),
        Row("IFLA_MACVLAN_BC_QUEUE_LEN", 7, 3),
        Row("IFLA_MACVLAN_BC_QUEUE_LEN_USED", 8, 3),
        Row("IFLA_MACVLAN_BC_CUTOFF", 9, 4),
    ),
    Family.NETKIT: (
        Row("IFLA_NETKIT_PEER_INFO", 1, 22),
        Row("IFLA_NETKIT_PRIMARY", 2, 2),
        Row("IFLA_NETKIT_POLICY", 3, 5, NetkitPolicy),
        Row("IFLA_NETKIT_PEER_POLICY", 4, 5, NetkitPolicy),
        Row("IFLA_NETKIT_MODE", 5, 5, NetkitMode),
        Row("IFLA_NETKIT_SCRUB", 6, 5, NetkitScrub),
        Row("IFLA_NETKIT_PEER_SCRUB", 7, 5, NetkitScrub),
        Row("IFLA_NETKIT_HEADROOM", 8, 3),
        Row("IFLA_NETKIT_TAILROOM", 9, 3),
    ),
    Family.VETH: (
        Row("VETH_INFO_PEER", 1, 22),
    ),
}

__all__ = [
    "Family", "Code", "Place", "Cause", "Unit", "BridgeFlags", "BridgeMode", "BridgeVlanFlags", "BondMode",
    "BondArpValidate", "BondArpAllTargets", "BondPrimaryReselect", "BondFailOverMac", "BondXmitHashPolicy",
    "BondAllPortsActive", "BondAdLacpRate", "BondAdSelect", "BondPortState", "MiiStatus", "LacpState", "ChurnState",
    "BridgeStpState", "VlanProtocol", "McastRouter", "BridgeBoolOpt", "BridgeStpMode", "BridgePortState", "VlanFlags",
    "CanState", "CanCtrlMode", "HsrProtocol", "VxlanDf", "VxlanLabelPolicy", "OperState", "LinkMode", "ExtMask",
    "XdpAttached", "XdpFlags", "LinkEvent", "Inet6Flags", "AddrGenMode", "TunType", "IpvlanMode", "IpvlanFlags",
    "MacvlanMode", "MacvlanFlags", "MacvlanMacaddrMode", "NetkitPolicy", "NetkitMode", "NetkitScrub", "LinkStats",
    "LinkStats64", "Ipv4Conf", "Ipv6Conf", "Ipv6Stats", "Icmp6Stats", "IFLA_BRIDGE_FLAGS", "IFLA_BRIDGE_MODE",
    "IFLA_BRIDGE_VLAN_INFO", "IFLA_BRIDGE_VLAN_TUNNEL_INFO", "IFLA_BRIDGE_VLAN_TUNNEL_ID",
    "IFLA_BRIDGE_VLAN_TUNNEL_VID", "IFLA_BRIDGE_VLAN_TUNNEL_FLAGS", "IFLA_BOND_MODE", "IFLA_BOND_ACTIVE_SLAVE",
    "IFLA_BOND_MIIMON", "IFLA_BOND_UPDELAY", "IFLA_BOND_DOWNDELAY", "IFLA_BOND_USE_CARRIER", "IFLA_BOND_ARP_INTERVAL",
    "IFLA_BOND_ARP_IP_TARGET", "IFLA_BOND_ARP_VALIDATE", "IFLA_BOND_ARP_ALL_TARGETS", "IFLA_BOND_PRIMARY",
    "IFLA_BOND_PRIMARY_RESELECT", "IFLA_BOND_FAIL_OVER_MAC", "IFLA_BOND_XMIT_HASH_POLICY", "IFLA_BOND_RESEND_IGMP",
    "IFLA_BOND_NUM_PEER_NOTIF", "IFLA_BOND_ALL_SLAVES_ACTIVE", "IFLA_BOND_MIN_LINKS", "IFLA_BOND_LP_INTERVAL",
    "IFLA_BOND_PACKETS_PER_SLAVE", "IFLA_BOND_AD_LACP_RATE", "IFLA_BOND_AD_SELECT", "IFLA_BOND_AD_INFO",
    "IFLA_BOND_AD_INFO_AGGREGATOR", "IFLA_BOND_AD_INFO_NUM_PORTS", "IFLA_BOND_AD_INFO_ACTOR_KEY",
    "IFLA_BOND_AD_INFO_PARTNER_KEY", "IFLA_BOND_AD_INFO_PARTNER_MAC", "IFLA_BOND_AD_ACTOR_SYS_PRIO",
    "IFLA_BOND_AD_USER_PORT_KEY", "IFLA_BOND_AD_ACTOR_SYSTEM", "IFLA_BOND_TLB_DYNAMIC_LB",
    "IFLA_BOND_PEER_NOTIF_DELAY", "IFLA_BOND_AD_LACP_ACTIVE", "IFLA_BOND_MISSED_MAX", "IFLA_BOND_NS_IP6_TARGET",
    "IFLA_BOND_COUPLED_CONTROL", "IFLA_BOND_BROADCAST_NEIGH", "IFLA_BOND_LACP_STRICT", "IFLA_BOND_SLAVE_STATE",
    "IFLA_BOND_SLAVE_MII_STATUS", "IFLA_BOND_SLAVE_LINK_FAILURE_COUNT", "IFLA_BOND_SLAVE_PERM_HWADDR",
    "IFLA_BOND_SLAVE_QUEUE_ID", "IFLA_BOND_SLAVE_AD_AGGREGATOR_ID", "IFLA_BOND_SLAVE_AD_ACTOR_OPER_PORT_STATE",
    "IFLA_BOND_SLAVE_AD_PARTNER_OPER_PORT_STATE", "IFLA_BOND_SLAVE_PRIO", "IFLA_BOND_SLAVE_ACTOR_PORT_PRIO",
    "IFLA_BOND_SLAVE_AD_CHURN_ACTOR_STATE", "IFLA_BOND_SLAVE_AD_CHURN_PARTNER_STATE", "IFLA_BR_FORWARD_DELAY",
    "IFLA_BR_HELLO_TIME", "IFLA_BR_MAX_AGE", "IFLA_BR_AGEING_TIME", "IFLA_BR_STP_STATE", "IFLA_BR_PRIORITY",
    "IFLA_BR_VLAN_FILTERING", "IFLA_BR_VLAN_PROTOCOL", "IFLA_BR_GROUP_FWD_MASK", "IFLA_BR_ROOT_ID",
    "IFLA_BR_BRIDGE_ID", "IFLA_BR_ROOT_PORT", "IFLA_BR_ROOT_PATH_COST", "IFLA_BR_TOPOLOGY_CHANGE",
    "IFLA_BR_TOPOLOGY_CHANGE_DETECTED", "IFLA_BR_HELLO_TIMER", "IFLA_BR_TCN_TIMER", "IFLA_BR_TOPOLOGY_CHANGE_TIMER",
    "IFLA_BR_GC_TIMER", "IFLA_BR_GROUP_ADDR", "IFLA_BR_FDB_FLUSH", "IFLA_BR_MCAST_ROUTER", "IFLA_BR_MCAST_SNOOPING",
    "IFLA_BR_MCAST_QUERY_USE_IFADDR", "IFLA_BR_MCAST_QUERIER", "IFLA_BR_MCAST_HASH_ELASTICITY",
    "IFLA_BR_MCAST_HASH_MAX", "IFLA_BR_MCAST_LAST_MEMBER_CNT", "IFLA_BR_MCAST_STARTUP_QUERY_CNT",
    "IFLA_BR_MCAST_LAST_MEMBER_INTVL", "IFLA_BR_MCAST_MEMBERSHIP_INTVL", "IFLA_BR_MCAST_QUERIER_INTVL",
    "IFLA_BR_MCAST_QUERY_INTVL", "IFLA_BR_MCAST_QUERY_RESPONSE_INTVL", "IFLA_BR_MCAST_STARTUP_QUERY_INTVL",
    "IFLA_BR_NF_CALL_IPTABLES", "IFLA_BR_NF_CALL_IP6TABLES", "IFLA_BR_NF_CALL_ARPTABLES", "IFLA_BR_VLAN_DEFAULT_PVID",
    "IFLA_BR_VLAN_STATS_ENABLED", "IFLA_BR_MCAST_STATS_ENABLED", "IFLA_BR_MCAST_IGMP_VERSION",
    "IFLA_BR_MCAST_MLD_VERSION", "IFLA_BR_VLAN_STATS_PER_PORT", "IFLA_BR_MULTI_BOOLOPT", "IFLA_BR_MCAST_QUERIER_STATE",
    "BRIDGE_QUERIER_IP_ADDRESS", "BRIDGE_QUERIER_IP_PORT", "BRIDGE_QUERIER_IP_OTHER_TIMER",
    "BRIDGE_QUERIER_IPV6_ADDRESS", "BRIDGE_QUERIER_IPV6_PORT", "BRIDGE_QUERIER_IPV6_OTHER_TIMER",
    "IFLA_BR_FDB_N_LEARNED", "IFLA_BR_FDB_MAX_LEARNED", "IFLA_BR_STP_MODE", "IFLA_BRPORT_STATE",
    "IFLA_BRPORT_PRIORITY", "IFLA_BRPORT_COST", "IFLA_BRPORT_MODE", "IFLA_BRPORT_GUARD", "IFLA_BRPORT_PROTECT",
    "IFLA_BRPORT_FAST_LEAVE", "IFLA_BRPORT_LEARNING", "IFLA_BRPORT_UNICAST_FLOOD", "IFLA_BRPORT_PROXYARP",
    "IFLA_BRPORT_LEARNING_SYNC", "IFLA_BRPORT_PROXYARP_WIFI", "IFLA_BRPORT_ROOT_ID", "IFLA_BRPORT_BRIDGE_ID",
    "IFLA_BRPORT_DESIGNATED_PORT", "IFLA_BRPORT_DESIGNATED_COST", "IFLA_BRPORT_ID", "IFLA_BRPORT_NO",
    "IFLA_BRPORT_TOPOLOGY_CHANGE_ACK", "IFLA_BRPORT_CONFIG_PENDING", "IFLA_BRPORT_MESSAGE_AGE_TIMER",
    "IFLA_BRPORT_FORWARD_DELAY_TIMER", "IFLA_BRPORT_HOLD_TIMER", "IFLA_BRPORT_FLUSH", "IFLA_BRPORT_MULTICAST_ROUTER",
    "IFLA_BRPORT_MCAST_FLOOD", "IFLA_BRPORT_MCAST_TO_UCAST", "IFLA_BRPORT_VLAN_TUNNEL", "IFLA_BRPORT_BCAST_FLOOD",
    "IFLA_BRPORT_GROUP_FWD_MASK", "IFLA_BRPORT_NEIGH_SUPPRESS", "IFLA_BRPORT_ISOLATED", "IFLA_BRPORT_BACKUP_PORT",
    "IFLA_BRPORT_MRP_RING_OPEN", "IFLA_BRPORT_MRP_IN_OPEN", "IFLA_BRPORT_MCAST_EHT_HOSTS_LIMIT",
    "IFLA_BRPORT_MCAST_EHT_HOSTS_CNT", "IFLA_BRPORT_LOCKED", "IFLA_BRPORT_MAB", "IFLA_BRPORT_MCAST_N_GROUPS",
    "IFLA_BRPORT_MCAST_MAX_GROUPS", "IFLA_BRPORT_NEIGH_VLAN_SUPPRESS", "IFLA_BRPORT_BACKUP_NHID",
    "IFLA_BRPORT_NEIGH_FORWARD_GRAT", "IFLA_VLAN_ID", "IFLA_VLAN_FLAGS", "IFLA_VLAN_EGRESS_QOS",
    "IFLA_VLAN_QOS_MAPPING", "IFLA_VLAN_INGRESS_QOS", "IFLA_VLAN_PROTOCOL", "IFLA_CAN_BITTIMING",
    "IFLA_CAN_BITTIMING_CONST", "IFLA_CAN_CLOCK", "IFLA_CAN_STATE", "IFLA_CAN_CTRLMODE", "IFLA_CAN_RESTART_MS",
    "IFLA_CAN_RESTART", "IFLA_CAN_BERR_COUNTER", "IFLA_CAN_DATA_BITTIMING", "IFLA_CAN_DATA_BITTIMING_CONST",
    "IFLA_CAN_TERMINATION", "IFLA_CAN_TERMINATION_CONST", "IFLA_CAN_BITRATE_CONST", "IFLA_CAN_DATA_BITRATE_CONST",
    "IFLA_CAN_BITRATE_MAX", "IFLA_CAN_TDC", "IFLA_CAN_TDC_TDCV_MIN", "IFLA_CAN_TDC_TDCV_MAX", "IFLA_CAN_TDC_TDCO_MIN",
    "IFLA_CAN_TDC_TDCO_MAX", "IFLA_CAN_TDC_TDCF_MIN", "IFLA_CAN_TDC_TDCF_MAX", "IFLA_CAN_TDC_TDCV",
    "IFLA_CAN_TDC_TDCO", "IFLA_CAN_TDC_TDCF", "IFLA_CAN_CTRLMODE_EXT", "IFLA_CAN_CTRLMODE_SUPPORTED",
    "IFLA_DSA_CONDUIT", "IFLA_HSR_SLAVE1", "IFLA_HSR_SLAVE2", "IFLA_HSR_MULTICAST_SPEC", "IFLA_HSR_SUPERVISION_ADDR",
    "IFLA_HSR_SEQ_NR", "IFLA_HSR_VERSION", "IFLA_HSR_PROTOCOL", "IFLA_HSR_INTERLINK", "IFLA_VXLAN_ID",
    "IFLA_VXLAN_GROUP", "IFLA_VXLAN_LINK", "IFLA_VXLAN_LOCAL", "IFLA_VXLAN_TTL", "IFLA_VXLAN_TOS",
    "IFLA_VXLAN_LEARNING", "IFLA_VXLAN_AGEING", "IFLA_VXLAN_LIMIT", "IFLA_VXLAN_PORT_RANGE", "IFLA_VXLAN_PROXY",
    "IFLA_VXLAN_RSC", "IFLA_VXLAN_L2MISS", "IFLA_VXLAN_L3MISS", "IFLA_VXLAN_PORT", "IFLA_VXLAN_GROUP6",
    "IFLA_VXLAN_LOCAL6", "IFLA_VXLAN_UDP_CSUM", "IFLA_VXLAN_UDP_ZERO_CSUM6_TX", "IFLA_VXLAN_UDP_ZERO_CSUM6_RX",
    "IFLA_VXLAN_REMCSUM_TX", "IFLA_VXLAN_REMCSUM_RX", "IFLA_VXLAN_GBP", "IFLA_VXLAN_REMCSUM_NOPARTIAL",
    "IFLA_VXLAN_COLLECT_METADATA", "IFLA_VXLAN_LABEL", "IFLA_VXLAN_GPE", "IFLA_VXLAN_TTL_INHERIT", "IFLA_VXLAN_DF",
    "IFLA_VXLAN_VNIFILTER", "IFLA_VXLAN_LOCALBYPASS", "IFLA_VXLAN_LABEL_POLICY", "IFLA_VXLAN_RESERVED_BITS",
    "IFLA_VXLAN_MC_ROUTE", "IFLA_ADDRESS", "IFLA_BROADCAST", "IFLA_IFNAME", "IFLA_MTU", "IFLA_LINK", "IFLA_QDISC",
    "IFLA_STATS", "IFLA_COST", "IFLA_PRIORITY", "IFLA_MASTER", "IFLA_WIRELESS", "IFLA_TXQLEN", "IFLA_MAP",
    "IFLA_WEIGHT", "IFLA_OPERSTATE", "IFLA_LINKMODE", "IFLA_LINKINFO", "IFLA_INFO_KIND", "IFLA_INFO_DATA",
    "IFLA_INFO_XSTATS", "IFLA_INFO_SLAVE_KIND", "IFLA_INFO_SLAVE_DATA", "IFLA_NET_NS_PID", "IFLA_IFALIAS",
    "IFLA_NUM_VF", "IFLA_VFINFO_LIST", "IFLA_STATS64", "IFLA_VF_PORTS", "IFLA_PORT_SELF", "IFLA_AF_SPEC", "IFLA_GROUP",
    "IFLA_NET_NS_FD", "IFLA_EXT_MASK", "IFLA_PROMISCUITY", "IFLA_NUM_TX_QUEUES", "IFLA_NUM_RX_QUEUES", "IFLA_CARRIER",
    "IFLA_PHYS_PORT_ID", "IFLA_CARRIER_CHANGES", "IFLA_PHYS_SWITCH_ID", "IFLA_LINK_NETNSID", "IFLA_PHYS_PORT_NAME",
    "IFLA_PROTO_DOWN", "IFLA_GSO_MAX_SEGS", "IFLA_GSO_MAX_SIZE", "IFLA_PAD", "IFLA_XDP", "IFLA_XDP_FD",
    "IFLA_XDP_ATTACHED", "IFLA_XDP_FLAGS", "IFLA_XDP_PROG_ID", "IFLA_XDP_DRV_PROG_ID", "IFLA_XDP_SKB_PROG_ID",
    "IFLA_XDP_HW_PROG_ID", "IFLA_XDP_EXPECTED_FD", "IFLA_EVENT", "IFLA_NEW_NETNSID", "IFLA_TARGET_NETNSID",
    "IFLA_CARRIER_UP_COUNT", "IFLA_CARRIER_DOWN_COUNT", "IFLA_NEW_IFINDEX", "IFLA_MIN_MTU", "IFLA_MAX_MTU",
    "IFLA_PROP_LIST", "IFLA_ALT_IFNAME", "IFLA_PERM_ADDRESS", "IFLA_PROTO_DOWN_REASON", "IFLA_PROTO_DOWN_REASON_MASK",
    "IFLA_PROTO_DOWN_REASON_VALUE", "IFLA_PARENT_DEV_NAME", "IFLA_PARENT_DEV_BUS_NAME", "IFLA_GRO_MAX_SIZE",
    "IFLA_TSO_MAX_SIZE", "IFLA_TSO_MAX_SEGS", "IFLA_ALLMULTI", "IFLA_DEVLINK_PORT", "DEVLINK_ATTR_BUS_NAME",
    "DEVLINK_ATTR_DEV_NAME", "DEVLINK_ATTR_PORT_INDEX", "IFLA_GSO_IPV4_MAX_SIZE", "IFLA_GRO_IPV4_MAX_SIZE",
    "IFLA_DPLL_PIN", "DPLL_A_PIN_ID", "IFLA_MAX_PACING_OFFLOAD_HORIZON", "IFLA_NETNS_IMMUTABLE", "IFLA_HEADROOM",
    "IFLA_TAILROOM", "AF_INET", "AF_INET6", "AF_MCTP", "IFLA_INET_CONF", "IFLA_INET6_FLAGS", "IFLA_INET6_CONF",
    "IFLA_INET6_STATS", "IFLA_INET6_MCAST", "IFLA_INET6_CACHEINFO", "IFLA_INET6_ICMP6STATS", "IFLA_INET6_TOKEN",
    "IFLA_INET6_ADDR_GEN_MODE", "IFLA_INET6_RA_MTU", "IFLA_MCTP_NET", "IFLA_MCTP_PHYS_BINDING", "NLMSGERR_ATTR_MSG",
    "NLMSGERR_ATTR_OFFS", "NLMSGERR_ATTR_COOKIE", "NLMSGERR_ATTR_POLICY", "NLMSGERR_ATTR_MISS_TYPE",
    "NLMSGERR_ATTR_MISS_NEST", "IFLA_GENEVE_ID", "IFLA_GENEVE_REMOTE", "IFLA_GENEVE_TTL", "IFLA_GENEVE_TOS",
    "IFLA_GENEVE_PORT", "IFLA_GENEVE_COLLECT_METADATA", "IFLA_GENEVE_REMOTE6", "IFLA_GENEVE_UDP_CSUM",
    "IFLA_GENEVE_UDP_ZERO_CSUM6_TX", "IFLA_GENEVE_UDP_ZERO_CSUM6_RX", "IFLA_GENEVE_LABEL", "IFLA_GENEVE_TTL_INHERIT",
    "IFLA_GENEVE_DF", "IFLA_GENEVE_INNER_PROTO_INHERIT", "IFLA_GENEVE_PORT_RANGE", "IFLA_VRF_TABLE",
    "IFLA_VRF_PORT_TABLE", "IFLA_TUN_OWNER", "IFLA_TUN_GROUP", "IFLA_TUN_TYPE", "IFLA_TUN_PI", "IFLA_TUN_VNET_HDR",
    "IFLA_TUN_PERSIST", "IFLA_TUN_MULTI_QUEUE", "IFLA_TUN_NUM_QUEUES", "IFLA_TUN_NUM_DISABLED_QUEUES",
    "IFLA_IPVLAN_MODE", "IFLA_IPVLAN_FLAGS", "IFLA_MACVLAN_MODE", "IFLA_MACVLAN_FLAGS", "IFLA_MACVLAN_MACADDR_MODE",
    "IFLA_MACVLAN_MACADDR", "IFLA_MACVLAN_MACADDR_DATA", "IFLA_MACVLAN_MACADDR_COUNT", "IFLA_MACVLAN_BC_QUEUE_LEN",
    "IFLA_MACVLAN_BC_QUEUE_LEN_USED", "IFLA_MACVLAN_BC_CUTOFF", "IFLA_NETKIT_PEER_INFO", "IFLA_NETKIT_PRIMARY",
    "IFLA_NETKIT_POLICY", "IFLA_NETKIT_PEER_POLICY", "IFLA_NETKIT_MODE", "IFLA_NETKIT_SCRUB", "IFLA_NETKIT_PEER_SCRUB",
    "IFLA_NETKIT_HEADROOM", "IFLA_NETKIT_TAILROOM", "VETH_INFO_PEER",
]  # fmt: skip
