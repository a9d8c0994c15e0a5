//! Attribute types as keys, and the enums and sets of flags of their values. Written by bindings/generate.py.
use crate::macros::{elements, families, flags, named, packed, scope};
use crate::*;
use std::net::{Ipv4Addr, Ipv6Addr};

/// `NLROUTE_VERSION` of the header.
pub(crate) const VERSION: u32 = 0x000300;

/// The numbers of `enum nlroute_form`.
pub(crate) mod form {
    pub const EMPTY: u8 = 1;
    pub const BOOL: u8 = 2;
    pub const UNSIGNED: u8 = 3;
    pub const SIGNED: u8 = 4;
    pub const NAMED: u8 = 5;
    pub const FLAGS: u8 = 6;
    pub const MASKED: u8 = 7;
    pub const MAC: u8 = 8;
    pub const IPV4: u8 = 9;
    pub const IPV6: u8 = 10;
    pub const BRIDGE_ID: u8 = 11;
    pub const VLAN_INFO: u8 = 12;
    pub const QOS_MAPPING: u8 = 13;
    pub const BERR_COUNTER: u8 = 14;
    pub const BITTIMING: u8 = 15;
    pub const BITTIMING_CONST: u8 = 16;
    pub const BYTES: u8 = 17;
    pub const LIST: u8 = 18;
    pub const UNKNOWN: u8 = 19;
    pub const TEXT: u8 = 20;
    pub const HELD: u8 = 21;
    pub const PEER: u8 = 22;
}

/// The numbers of `enum nlroute_unit`.
pub(crate) mod unit {
    pub const CLOCK_TICKS: u32 = 1;
    pub const MILLISECONDS: u32 = 2;
    pub const SECONDS: u32 = 3;
    pub const BITS_PER_SECOND: u32 = 4;
    pub const OHMS: u32 = 5;
    pub const NANOSECONDS: u32 = 6;
    pub const HERTZ: u32 = 7;
    pub const INTERFACE_INDEX: u32 = 8;
    pub const MASK: u32 = 9;
}

/// The numbers of `enum nlroute_refusal`.
pub(crate) mod refusal {
    pub const HAS_FAULT: isize = -1;
    pub const TOO_LONG: isize = -2;
    pub const NO_MEMORY: isize = -3;
    pub const NO_ROOM: isize = -4;
    pub const NO_FAMILY: isize = -5;
    pub const ABSENT: isize = -6;
    pub const BAD_FORM: isize = -7;
    pub const BAD_NUMBER: isize = -8;
    pub const BAD_ELEMENT: isize = -9;
    pub const BAD_OCTETS: isize = -10;
    pub const BAD_TYPE: isize = -11;
    pub const NO_INDEX: isize = -12;
    pub const BAD_NAME: isize = -13;
    pub const NO_SET: isize = -14;
    pub const BAD_DEPTH: isize = -15;
    pub const REPEATED: isize = -16;
}

/// The types of elements that are all alike.
pub(crate) mod item {
    pub const IFLA_VLAN_QOS_MAPPING: u16 = 1;
}

/// Returns the meaning of an error code, as `nlroute_refusal_text()`.
pub(crate) fn refusal_text(code: isize) -> &'static str {
    match code {
        refusal::HAS_FAULT => "the list is malformed",
        refusal::TOO_LONG => "a value does not fit in an attribute",
        refusal::NO_MEMORY => "an allocation failed",
        refusal::NO_ROOM => "the buffer is too small",
        refusal::NO_FAMILY => "no attribute set has this number",
        refusal::ABSENT => "there is no such attribute, element, field, name or error",
        refusal::BAD_FORM => "the value has another form",
        refusal::BAD_NUMBER => "the attribute cannot hold the number",
        refusal::BAD_ELEMENT => "an element does not follow its list",
        refusal::BAD_OCTETS => "the bytes of the value are not in the input, or have a wrong length",
        refusal::BAD_TYPE => "the message is not a request about links",
        refusal::NO_INDEX => "the index of the link is 0 or negative",
        refusal::BAD_NAME => "Linux does not take the name or kind",
        refusal::NO_SET => "no attribute set reads the list of these values",
        refusal::BAD_DEPTH => "the value has a wrong depth, or is not marked as one of the message",
        refusal::REPEATED => "the message has a second list of this type",
        _ => "unknown error",
    }
}

families! {
    /// Names `IFLA_AF_SPEC` in `AF_BRIDGE` messages.
    AfSpecBridge = 0, "af_spec_bridge";
    /// Names `IFLA_INFO_DATA` of bonds.
    Bond = 1, "bond";
    /// Names `IFLA_INFO_SLAVE_DATA` of bond ports.
    BondPort = 2, "bond_port";
    /// Names `IFLA_INFO_DATA` of bridges.
    Bridge = 3, "bridge";
    /// Names `IFLA_INFO_SLAVE_DATA` of bridge ports.
    BridgePort = 4, "bridge_port";
    /// Names `IFLA_INFO_DATA` of VLAN devices.
    Vlan = 5, "vlan";
    /// Names `IFLA_INFO_DATA` of CAN controllers.
    Can = 6, "can";
    /// Names `IFLA_INFO_DATA` of DSA ports.
    Dsa = 7, "dsa";
    /// Names `IFLA_INFO_DATA` of HSR and PRP devices.
    Hsr = 8, "hsr";
    /// Names `IFLA_PROTINFO` in `AF_BRIDGE` messages: attribute type 45 only.
    ProtoBridge = 9, "proto_bridge";
    /// Names `IFLA_INFO_DATA` of VXLAN devices.
    Vxlan = 10, "vxlan";
    /// Names messages about links.
    Link = 11, "link";
    /// Names `IFLA_AF_SPEC` in other messages than those of `AF_BRIDGE`.
    AfSpec = 12, "af_spec";
    /// Names `AF_INET` of a link for IPv4.
    Inet = 13, "inet";
    /// Names AF_INET6 of a link for IPv6.
    Inet6 = 14, "inet6";
    /// Names `AF_MCTP` of a link for MCTP.
    Mctp = 15, "mctp";
    /// Names replies to requests.
    Reply = 16, "reply";
    /// Names `IFLA_INFO_DATA` of GENEVE devices.
    Geneve = 17, "geneve";
    /// Names `IFLA_INFO_DATA` of VRF devices.
    Vrf = 18, "vrf";
    /// Names `IFLA_INFO_SLAVE_DATA` of VRF ports.
    VrfPort = 19, "vrf_port";
    /// Names `IFLA_INFO_DATA` of TUN and TAP devices.
    Tun = 20, "tun";
    /// Names `IFLA_INFO_DATA` of IPVLAN and IPVTAP devices.
    Ipvlan = 21, "ipvlan";
    /// Names `IFLA_INFO_DATA` of MACVLAN and MACVTAP devices.
    Macvlan = 22, "macvlan";
    /// Names `IFLA_INFO_DATA` of NETKIT devices.
    Netkit = 23, "netkit";
    /// Names `IFLA_INFO_DATA` of VETH and VXCAN devices.
    Veth = 24, "veth";
}

named! {
    /// Represents the number of [`IFLA_BRIDGE_FLAGS`]. Numbers without a name are kept.
    BridgeFlags: u16;
    MASTER = 1, "master";
    SELF = 2, "self";
}

named! {
    /// Represents the number of [`IFLA_BRIDGE_MODE`]. Numbers without a name are kept.
    BridgeMode: u16;
    VEB = 0, "veb";
    VEPA = 1, "vepa";
}

flags! {
    /// Represents flags of [`IFLA_BRIDGE_VLAN_INFO`], [`IFLA_BRIDGE_VLAN_TUNNEL_FLAGS`]. Bits without a name are
    /// kept.
    BridgeVlanFlags: u16;
    MASTER = 0;
    PVID = 1;
    UNTAGGED = 2;
    RANGE_BEGIN = 3;
    RANGE_END = 4;
    BRENTRY = 5;
    ONLY_OPTS = 6;
}

named! {
    /// Represents the number of [`IFLA_BOND_MODE`]. Numbers without a name are kept.
    BondMode: u8;
    BALANCE_RR = 0, "balance-rr";
    ACTIVE_BACKUP = 1, "active-backup";
    BALANCE_XOR = 2, "balance-xor";
    BROADCAST = 3, "broadcast";
    IEEE8023AD = 4, "802.3ad";
    BALANCE_TLB = 5, "balance-tlb";
    BALANCE_ALB = 6, "balance-alb";
}

named! {
    /// Represents the number of [`IFLA_BOND_ARP_VALIDATE`]. Numbers without a name are kept.
    BondArpValidate: u32;
    NONE = 0, "none";
    ACTIVE = 1, "active";
    BACKUP = 2, "backup";
    ALL = 3, "all";
    FILTER = 4, "filter";
    FILTER_ACTIVE = 5, "filter_active";
    FILTER_BACKUP = 6, "filter_backup";
}

named! {
    /// Represents the number of [`IFLA_BOND_ARP_ALL_TARGETS`]. Numbers without a name are kept.
    BondArpAllTargets: u32;
    ANY = 0, "any";
    ALL = 1, "all";
}

named! {
    /// Represents the number of [`IFLA_BOND_PRIMARY_RESELECT`]. Numbers without a name are kept.
    BondPrimaryReselect: u8;
    ALWAYS = 0, "always";
    BETTER = 1, "better";
    FAILURE = 2, "failure";
}

named! {
    /// Represents the number of [`IFLA_BOND_FAIL_OVER_MAC`]. Numbers without a name are kept.
    BondFailOverMac: u8;
    NONE = 0, "none";
    ACTIVE = 1, "active";
    FOLLOW = 2, "follow";
}

named! {
    /// Represents the number of [`IFLA_BOND_XMIT_HASH_POLICY`]. Numbers without a name are kept.
    BondXmitHashPolicy: u8;
    LAYER2 = 0, "layer2";
    LAYER3_4 = 1, "layer3+4";
    LAYER2_3 = 2, "layer2+3";
    ENCAP2_3 = 3, "encap2+3";
    ENCAP3_4 = 4, "encap3+4";
    VLAN_SRCMAC = 5, "vlan+srcmac";
}

named! {
    /// Represents the number of [`IFLA_BOND_ALL_SLAVES_ACTIVE`]. Numbers without a name are kept.
    BondAllPortsActive: u8;
    DROPPED = 0, "dropped";
    DELIVERED = 1, "delivered";
}

named! {
    /// Represents the number of [`IFLA_BOND_AD_LACP_RATE`]. Numbers without a name are kept.
    BondAdLacpRate: u8;
    SLOW = 0, "slow";
    FAST = 1, "fast";
}

named! {
    /// Represents the number of [`IFLA_BOND_AD_SELECT`]. Numbers without a name are kept.
    BondAdSelect: u8;
    STABLE = 0, "stable";
    BANDWIDTH = 1, "bandwidth";
    COUNT = 2, "count";
    ACTOR_PORT_PRIO = 3, "actor_port_prio";
}

named! {
    /// Represents the number of [`IFLA_BOND_SLAVE_STATE`]. Numbers without a name are kept.
    BondPortState: u8;
    ACTIVE = 0, "active";
    BACKUP = 1, "backup";
}

named! {
    /// Represents the number of [`IFLA_BOND_SLAVE_MII_STATUS`]. Numbers without a name are kept.
    MiiStatus: u8;
    UP = 0, "up";
    GOING_DOWN = 1, "going_down";
    DOWN = 2, "down";
    GOING_BACK = 3, "going_back";
}

flags! {
    /// Represents flags of [`IFLA_BOND_SLAVE_AD_ACTOR_OPER_PORT_STATE`],
    /// [`IFLA_BOND_SLAVE_AD_PARTNER_OPER_PORT_STATE`]. Bits without a name are kept.
    LacpState: u8;
    LACP_ACTIVITY = 0;
    LACP_TIMEOUT = 1;
    AGGREGATION = 2;
    SYNCHRONIZATION = 3;
    COLLECTING = 4;
    DISTRIBUTING = 5;
    DEFAULTED = 6;
    EXPIRED = 7;
}

named! {
    /// Represents the number of [`IFLA_BOND_SLAVE_AD_CHURN_ACTOR_STATE`],
    /// [`IFLA_BOND_SLAVE_AD_CHURN_PARTNER_STATE`]. Numbers without a name are kept.
    ChurnState: u8;
    MONITOR = 0, "monitor";
    CHURN = 1, "churn";
    NO_CHURN = 2, "no_churn";
}

named! {
    /// Represents the number of [`IFLA_BR_STP_STATE`]. Numbers without a name are kept.
    BridgeStpState: u32;
    NO = 0, "no";
    KERNEL_STP = 1, "kernel_stp";
    USER_STP = 2, "user_stp";
}

named! {
    /// Represents the number of [`IFLA_BR_VLAN_PROTOCOL`], [`IFLA_VLAN_PROTOCOL`]. Numbers without a name are kept.
    VlanProtocol: u16;
    IEEE8021Q = 33024, "802.1Q";
    IEEE8021AD = 34984, "802.1ad";
}

named! {
    /// Represents the number of [`IFLA_BR_MCAST_ROUTER`], [`IFLA_BRPORT_MULTICAST_ROUTER`]. Numbers without a name
    /// are kept.
    McastRouter: u8;
    DISABLED = 0, "disabled";
    AUTO = 1, "auto";
    PERMANENT = 2, "permanent";
    TEMP = 3, "temp";
}

flags! {
    /// Represents flags of [`IFLA_BR_MULTI_BOOLOPT`]. Bits without a name are kept.
    BridgeBoolOpt: u32;
    NO_LL_LEARN = 0;
    MCAST_VLAN_SNOOPING = 1;
    MST_ENABLE = 2;
    MDB_OFFLOAD_FAIL_NOTIFICATION = 3;
    FDB_LOCAL_VLAN_0 = 4;
}

named! {
    /// Represents the number of [`IFLA_BR_STP_MODE`]. Numbers without a name are kept.
    BridgeStpMode: u32;
    AUTO = 0, "auto";
    USER = 1, "user";
    KERNEL = 2, "kernel";
}

named! {
    /// Represents the number of [`IFLA_BRPORT_STATE`]. Numbers without a name are kept.
    BridgePortState: u8;
    DISABLED = 0, "disabled";
    LISTENING = 1, "listening";
    LEARNING = 2, "learning";
    FORWARDING = 3, "forwarding";
    BLOCKING = 4, "blocking";
}

flags! {
    /// Represents flags of [`IFLA_VLAN_FLAGS`]. Bits without a name are kept.
    VlanFlags: u32;
    REORDER_HDR = 0;
    GVRP = 1;
    LOOSE_BINDING = 2;
    MVRP = 3;
    BRIDGE_BINDING = 4;
}

named! {
    /// Represents the number of [`IFLA_CAN_STATE`]. Numbers without a name are kept.
    CanState: u32;
    ERROR_ACTIVE = 0, "ERROR-ACTIVE";
    ERROR_WARNING = 1, "ERROR-WARNING";
    ERROR_PASSIVE = 2, "ERROR-PASSIVE";
    BUS_OFF = 3, "BUS-OFF";
    STOPPED = 4, "STOPPED";
    SLEEPING = 5, "SLEEPING";
}

flags! {
    /// Represents flags of [`IFLA_CAN_CTRLMODE`], [`IFLA_CAN_CTRLMODE_SUPPORTED`]. Bits without a name are kept.
    CanCtrlMode: u32;
    LOOPBACK = 0;
    LISTENONLY = 1;
    TRIPLE_SAMPLES = 2, "3_SAMPLES";
    ONE_SHOT = 3;
    BERR_REPORTING = 4;
    FD = 5;
    PRESUME_ACK = 6;
    FD_NON_ISO = 7;
    CC_LEN8_DLC = 8;
    TDC_AUTO = 9;
    TDC_MANUAL = 10;
    RESTRICTED = 11;
    XL = 12;
    XL_TDC_AUTO = 13;
    XL_TDC_MANUAL = 14;
    XL_TMS = 15;
}

named! {
    /// Represents the number of [`IFLA_HSR_PROTOCOL`]. Numbers without a name are kept.
    HsrProtocol: u8;
    HSR = 0, "hsr";
    PRP = 1, "prp";
}

named! {
    /// Represents the number of [`IFLA_VXLAN_DF`], [`IFLA_GENEVE_DF`]. Numbers without a name are kept.
    VxlanDf: u8;
    UNSET = 0, "unset";
    SET = 1, "set";
    INHERIT = 2, "inherit";
}

named! {
    /// Represents the number of [`IFLA_VXLAN_LABEL_POLICY`]. Numbers without a name are kept.
    VxlanLabelPolicy: u32;
    FIXED = 0, "fixed";
    INHERIT = 1, "inherit";
}

named! {
    /// Represents the number of [`IFLA_OPERSTATE`]. Numbers without a name are kept.
    OperState: u8;
    UNKNOWN = 0, "UNKNOWN";
    NOTPRESENT = 1, "NOTPRESENT";
    DOWN = 2, "DOWN";
    LOWERLAYERDOWN = 3, "LOWERLAYERDOWN";
    TESTING = 4, "TESTING";
    DORMANT = 5, "DORMANT";
    UP = 6, "UP";
}

named! {
    /// Represents the number of [`IFLA_LINKMODE`]. Numbers without a name are kept.
    LinkMode: u8;
    DEFAULT = 0, "DEFAULT";
    DORMANT = 1, "DORMANT";
    TESTING = 2, "TESTING";
}

flags! {
    /// Represents flags of [`IFLA_EXT_MASK`]. Bits without a name are kept.
    ExtMask: u32;
    VF = 0;
    BRVLAN = 1;
    BRVLAN_COMPRESSED = 2;
    SKIP_STATS = 3;
    MRP = 4;
    CFM_CONFIG = 5;
    CFM_STATUS = 6;
    MST = 7;
}

named! {
    /// Represents the number of [`IFLA_XDP_ATTACHED`]. Numbers without a name are kept.
    XdpAttached: u8;
    NONE = 0, "none";
    XDP = 1, "xdp";
    XDPGENERIC = 2, "xdpgeneric";
    XDPOFFLOAD = 3, "xdpoffload";
    XDPMULTI = 4, "xdpmulti";
}

flags! {
    /// Represents flags of [`IFLA_XDP_FLAGS`]. Bits without a name are kept.
    XdpFlags: u32;
    UPDATE_IF_NOEXIST = 0;
    SKB_MODE = 1;
    DRV_MODE = 2;
    HW_MODE = 3;
    REPLACE = 4;
}

named! {
    /// Represents the number of [`IFLA_EVENT`]. Numbers without a name are kept.
    LinkEvent: u32;
    NONE = 0, "NONE";
    REBOOT = 1, "REBOOT";
    FEATURE_CHANGE = 2, "FEATURE CHANGE";
    BONDING_FAILOVER = 3, "BONDING FAILOVER";
    NOTIFY_PEERS = 4, "NOTIFY PEERS";
    RESEND_IGMP = 5, "RESEND IGMP";
    BONDING_OPTION = 6, "BONDING OPTION";
}

flags! {
    /// Represents flags of [`IFLA_INET6_FLAGS`]. Bits without a name are kept.
    Inet6Flags: u32;
    RS_SENT = 4;
    RA_RCVD = 5;
    RA_MANAGED = 6;
    RA_OTHERCONF = 7;
    READY = 31;
}

named! {
    /// Represents the number of [`IFLA_INET6_ADDR_GEN_MODE`]. Numbers without a name are kept.
    AddrGenMode: u8;
    EUI64 = 0, "eui64";
    NONE = 1, "none";
    STABLE_SECRET = 2, "stable_secret";
    RANDOM = 3, "random";
}

named! {
    /// Represents the number of [`IFLA_TUN_TYPE`]. Numbers without a name are kept.
    TunType: u8;
    TUN = 1, "tun";
    TAP = 2, "tap";
}

named! {
    /// Represents the number of [`IFLA_IPVLAN_MODE`]. Numbers without a name are kept.
    IpvlanMode: u16;
    L2 = 0, "l2";
    L3 = 1, "l3";
    L3S = 2, "l3s";
}

flags! {
    /// Represents flags of [`IFLA_IPVLAN_FLAGS`]. Bits without a name are kept.
    IpvlanFlags: u16;
    PRIVATE = 0;
    VEPA = 1;
}

named! {
    /// Represents the number of [`IFLA_MACVLAN_MODE`]. Numbers without a name are kept.
    MacvlanMode: u32;
    PRIVATE = 1, "private";
    VEPA = 2, "vepa";
    BRIDGE = 4, "bridge";
    PASSTHRU = 8, "passthru";
    SOURCE = 16, "source";
}

flags! {
    /// Represents flags of [`IFLA_MACVLAN_FLAGS`]. Bits without a name are kept.
    MacvlanFlags: u16;
    NOPROMISC = 0;
    NODST = 1;
}

named! {
    /// Represents the number of [`IFLA_MACVLAN_MACADDR_MODE`]. Numbers without a name are kept.
    MacvlanMacaddrMode: u32;
    ADD = 0, "add";
    DEL = 1, "del";
    FLUSH = 2, "flush";
    SET = 3, "set";
}

named! {
    /// Represents the number of [`IFLA_NETKIT_POLICY`], [`IFLA_NETKIT_PEER_POLICY`]. Numbers without a name are
    /// kept.
    NetkitPolicy: u32;
    FORWARD = 0, "forward";
    BLACKHOLE = 2, "blackhole";
}

named! {
    /// Represents the number of [`IFLA_NETKIT_MODE`]. Numbers without a name are kept.
    NetkitMode: u32;
    L2 = 0, "l2";
    L3 = 1, "l3";
}

named! {
    /// Represents the number of [`IFLA_NETKIT_SCRUB`], [`IFLA_NETKIT_PEER_SCRUB`]. Numbers without a name are kept.
    NetkitScrub: u32;
    NONE = 0, "none";
    DEFAULT = 1, "default";
}

packed! {
    /// Represents the bytes of [`IFLA_VXLAN_PORT_RANGE`], [`IFLA_GENEVE_PORT_RANGE`] by their fields. Convert it by
    /// `into`, to write it.
    PortRange: 4;
    low: u16 = 0, to_be_bytes, from_be_bytes;
    high: u16 = 2, to_be_bytes, from_be_bytes;
}

packed! {
    /// Represents the bytes of [`IFLA_VXLAN_RESERVED_BITS`] by their fields. Convert it by `into`, to write it.
    VxlanReservedBits: 8;
    vx_flags: u32 = 0, to_be_bytes, from_be_bytes;
    vx_vni: u32 = 4, to_be_bytes, from_be_bytes;
}

packed! {
    /// Represents the bytes of [`IFLA_MAP`] by their fields. Convert it by `into`, to write it.
    LinkMap: 32;
    mem_start: u64 = 0, to_ne_bytes, from_ne_bytes;
    mem_end: u64 = 8, to_ne_bytes, from_ne_bytes;
    base_addr: u64 = 16, to_ne_bytes, from_ne_bytes;
    irq: u16 = 24, to_ne_bytes, from_ne_bytes;
    dma: u8 = 26, to_ne_bytes, from_ne_bytes;
    port: u8 = 27, to_ne_bytes, from_ne_bytes;
}

packed! {
    /// Represents the bytes of [`IFLA_INET6_CACHEINFO`] by their fields. Convert it by `into`, to write it.
    Inet6CacheInfo: 16;
    max_reasm_len: u32 = 0, to_ne_bytes, from_ne_bytes;
    tstamp: u32 = 4, to_ne_bytes, from_ne_bytes;
    reachable_time: u32 = 8, to_ne_bytes, from_ne_bytes;
    retrans_time: u32 = 12, to_ne_bytes, from_ne_bytes;
}

scope! {
    /// Represents the attribute set [`Family::AfSpecBridge`] in types.
    AfSpecBridge;
}

/// Selects `IFLA_BRIDGE_FLAGS` of [`AfSpecBridge`] (`include/uapi/linux/if_bridge.h`).
pub const IFLA_BRIDGE_FLAGS: Key<AfSpecBridge, BridgeFlags> = Key::new(0, "IFLA_BRIDGE_FLAGS");
/// Selects `IFLA_BRIDGE_MODE` of [`AfSpecBridge`] (`include/uapi/linux/if_bridge.h`).
pub const IFLA_BRIDGE_MODE: Key<AfSpecBridge, BridgeMode> = Key::new(1, "IFLA_BRIDGE_MODE");
/// Selects `IFLA_BRIDGE_VLAN_INFO` of [`AfSpecBridge`] (`include/uapi/linux/if_bridge.h`).
pub const IFLA_BRIDGE_VLAN_INFO: Key<AfSpecBridge, VlanInfo> = Key::new(2, "IFLA_BRIDGE_VLAN_INFO");
elements! {
    /// Represents the elements of [`IFLA_BRIDGE_VLAN_TUNNEL_INFO`] in types.
    BridgeVlanTunnelInfo of AfSpecBridge = 3;
}
/// Selects `IFLA_BRIDGE_VLAN_TUNNEL_INFO` of [`AfSpecBridge`] (`include/uapi/linux/if_bridge.h`).
pub const IFLA_BRIDGE_VLAN_TUNNEL_INFO: Key<AfSpecBridge, Nested<BridgeVlanTunnelInfo>> =
    Key::new(3, "IFLA_BRIDGE_VLAN_TUNNEL_INFO");
/// Selects `IFLA_BRIDGE_VLAN_TUNNEL_ID` of [`IFLA_BRIDGE_VLAN_TUNNEL_INFO`] (`include/uapi/linux/if_bridge.h`).
pub const IFLA_BRIDGE_VLAN_TUNNEL_ID: Key<BridgeVlanTunnelInfo, u32> = Key::new(1, "IFLA_BRIDGE_VLAN_TUNNEL_ID");
/// Selects `IFLA_BRIDGE_VLAN_TUNNEL_VID` of [`IFLA_BRIDGE_VLAN_TUNNEL_INFO`] (`include/uapi/linux/if_bridge.h`).
pub const IFLA_BRIDGE_VLAN_TUNNEL_VID: Key<BridgeVlanTunnelInfo, u16> = Key::new(2, "IFLA_BRIDGE_VLAN_TUNNEL_VID");
/// Selects `IFLA_BRIDGE_VLAN_TUNNEL_FLAGS` of [`IFLA_BRIDGE_VLAN_TUNNEL_INFO`] (`include/uapi/linux/if_bridge.h`).
pub const IFLA_BRIDGE_VLAN_TUNNEL_FLAGS: Key<BridgeVlanTunnelInfo, BridgeVlanFlags> =
    Key::new(3, "IFLA_BRIDGE_VLAN_TUNNEL_FLAGS");

scope! {
    /// Represents the attribute set [`Family::Bond`] in types.
    Bond;
}

/// Selects `IFLA_BOND_MODE` of [`Bond`] (`include/uapi/linux/if_link.h`).
pub const IFLA_BOND_MODE: Key<Bond, BondMode> = Key::new(1, "IFLA_BOND_MODE");
/// Selects `IFLA_BOND_ACTIVE_SLAVE` of [`Bond`] (`include/uapi/linux/if_link.h`). 100 is printed as `ifindex 100`.
pub const IFLA_BOND_ACTIVE_SLAVE: Key<Bond, u32> = Key::new(2, "IFLA_BOND_ACTIVE_SLAVE");
/// Selects `IFLA_BOND_MIIMON` of [`Bond`] (`include/uapi/linux/if_link.h`). 100 is printed as `100 ms`.
pub const IFLA_BOND_MIIMON: Key<Bond, u32> = Key::new(3, "IFLA_BOND_MIIMON");
/// Selects `IFLA_BOND_UPDELAY` of [`Bond`] (`include/uapi/linux/if_link.h`). 100 is printed as `100 ms`.
pub const IFLA_BOND_UPDELAY: Key<Bond, u32> = Key::new(4, "IFLA_BOND_UPDELAY");
/// Selects `IFLA_BOND_DOWNDELAY` of [`Bond`] (`include/uapi/linux/if_link.h`). 100 is printed as `100 ms`.
pub const IFLA_BOND_DOWNDELAY: Key<Bond, u32> = Key::new(5, "IFLA_BOND_DOWNDELAY");
/// Selects `IFLA_BOND_USE_CARRIER` of [`Bond`] (`include/uapi/linux/if_link.h`).
pub const IFLA_BOND_USE_CARRIER: Key<Bond, bool> = Key::new(6, "IFLA_BOND_USE_CARRIER");
/// Selects `IFLA_BOND_ARP_INTERVAL` of [`Bond`] (`include/uapi/linux/if_link.h`). 100 is printed as `100 ms`.
pub const IFLA_BOND_ARP_INTERVAL: Key<Bond, u32> = Key::new(7, "IFLA_BOND_ARP_INTERVAL");
/// Selects `IFLA_BOND_ARP_IP_TARGET` of [`Bond`] (`include/uapi/linux/if_link.h`).
pub const IFLA_BOND_ARP_IP_TARGET: Key<Bond, Vec<Ipv4Addr>> = Key::new(8, "IFLA_BOND_ARP_IP_TARGET");
/// Selects `IFLA_BOND_ARP_VALIDATE` of [`Bond`] (`include/uapi/linux/if_link.h`).
pub const IFLA_BOND_ARP_VALIDATE: Key<Bond, BondArpValidate> = Key::new(9, "IFLA_BOND_ARP_VALIDATE");
/// Selects `IFLA_BOND_ARP_ALL_TARGETS` of [`Bond`] (`include/uapi/linux/if_link.h`).
pub const IFLA_BOND_ARP_ALL_TARGETS: Key<Bond, BondArpAllTargets> = Key::new(10, "IFLA_BOND_ARP_ALL_TARGETS");
/// Selects `IFLA_BOND_PRIMARY` of [`Bond`] (`include/uapi/linux/if_link.h`). 100 is printed as `ifindex 100`.
pub const IFLA_BOND_PRIMARY: Key<Bond, u32> = Key::new(11, "IFLA_BOND_PRIMARY");
/// Selects `IFLA_BOND_PRIMARY_RESELECT` of [`Bond`] (`include/uapi/linux/if_link.h`).
pub const IFLA_BOND_PRIMARY_RESELECT: Key<Bond, BondPrimaryReselect> = Key::new(12, "IFLA_BOND_PRIMARY_RESELECT");
/// Selects `IFLA_BOND_FAIL_OVER_MAC` of [`Bond`] (`include/uapi/linux/if_link.h`).
pub const IFLA_BOND_FAIL_OVER_MAC: Key<Bond, BondFailOverMac> = Key::new(13, "IFLA_BOND_FAIL_OVER_MAC");
/// Selects `IFLA_BOND_XMIT_HASH_POLICY` of [`Bond`] (`include/uapi/linux/if_link.h`).
pub const IFLA_BOND_XMIT_HASH_POLICY: Key<Bond, BondXmitHashPolicy> = Key::new(14, "IFLA_BOND_XMIT_HASH_POLICY");
/// Selects `IFLA_BOND_RESEND_IGMP` of [`Bond`] (`include/uapi/linux/if_link.h`).
pub const IFLA_BOND_RESEND_IGMP: Key<Bond, u32> = Key::new(15, "IFLA_BOND_RESEND_IGMP");
/// Selects `IFLA_BOND_NUM_PEER_NOTIF` of [`Bond`] (`include/uapi/linux/if_link.h`).
pub const IFLA_BOND_NUM_PEER_NOTIF: Key<Bond, u8> = Key::new(16, "IFLA_BOND_NUM_PEER_NOTIF");
/// Selects `IFLA_BOND_ALL_SLAVES_ACTIVE` of [`Bond`] (`include/uapi/linux/if_link.h`).
pub const IFLA_BOND_ALL_SLAVES_ACTIVE: Key<Bond, BondAllPortsActive> = Key::new(17, "IFLA_BOND_ALL_SLAVES_ACTIVE");
/// Selects `IFLA_BOND_MIN_LINKS` of [`Bond`] (`include/uapi/linux/if_link.h`).
pub const IFLA_BOND_MIN_LINKS: Key<Bond, u32> = Key::new(18, "IFLA_BOND_MIN_LINKS");
/// Selects `IFLA_BOND_LP_INTERVAL` of [`Bond`] (`include/uapi/linux/if_link.h`). 100 is printed as `100 s`.
pub const IFLA_BOND_LP_INTERVAL: Key<Bond, u32> = Key::new(19, "IFLA_BOND_LP_INTERVAL");
/// Selects `IFLA_BOND_PACKETS_PER_SLAVE` of [`Bond`] (`include/uapi/linux/if_link.h`).
pub const IFLA_BOND_PACKETS_PER_SLAVE: Key<Bond, u32> = Key::new(20, "IFLA_BOND_PACKETS_PER_SLAVE");
/// Selects `IFLA_BOND_AD_LACP_RATE` of [`Bond`] (`include/uapi/linux/if_link.h`).
pub const IFLA_BOND_AD_LACP_RATE: Key<Bond, BondAdLacpRate> = Key::new(21, "IFLA_BOND_AD_LACP_RATE");
/// Selects `IFLA_BOND_AD_SELECT` of [`Bond`] (`include/uapi/linux/if_link.h`).
pub const IFLA_BOND_AD_SELECT: Key<Bond, BondAdSelect> = Key::new(22, "IFLA_BOND_AD_SELECT");
elements! {
    /// Represents the elements of [`IFLA_BOND_AD_INFO`] in types.
    BondAdInfo of Bond = 23;
}
/// Selects `IFLA_BOND_AD_INFO` of [`Bond`] (`include/uapi/linux/if_link.h`).
pub const IFLA_BOND_AD_INFO: Key<Bond, Nested<BondAdInfo>> = Key::new(23, "IFLA_BOND_AD_INFO");
/// Selects `IFLA_BOND_AD_INFO_AGGREGATOR` of [`IFLA_BOND_AD_INFO`] (`include/uapi/linux/if_link.h`).
pub const IFLA_BOND_AD_INFO_AGGREGATOR: Key<BondAdInfo, u16> = Key::new(1, "IFLA_BOND_AD_INFO_AGGREGATOR");
/// Selects `IFLA_BOND_AD_INFO_NUM_PORTS` of [`IFLA_BOND_AD_INFO`] (`include/uapi/linux/if_link.h`).
pub const IFLA_BOND_AD_INFO_NUM_PORTS: Key<BondAdInfo, u16> = Key::new(2, "IFLA_BOND_AD_INFO_NUM_PORTS");
/// Selects `IFLA_BOND_AD_INFO_ACTOR_KEY` of [`IFLA_BOND_AD_INFO`] (`include/uapi/linux/if_link.h`).
pub const IFLA_BOND_AD_INFO_ACTOR_KEY: Key<BondAdInfo, u16> = Key::new(3, "IFLA_BOND_AD_INFO_ACTOR_KEY");
/// Selects `IFLA_BOND_AD_INFO_PARTNER_KEY` of [`IFLA_BOND_AD_INFO`] (`include/uapi/linux/if_link.h`).
pub const IFLA_BOND_AD_INFO_PARTNER_KEY: Key<BondAdInfo, u16> = Key::new(4, "IFLA_BOND_AD_INFO_PARTNER_KEY");
/// Selects `IFLA_BOND_AD_INFO_PARTNER_MAC` of [`IFLA_BOND_AD_INFO`] (`include/uapi/linux/if_link.h`).
pub const IFLA_BOND_AD_INFO_PARTNER_MAC: Key<BondAdInfo, Mac> = Key::new(5, "IFLA_BOND_AD_INFO_PARTNER_MAC");
/// Selects `IFLA_BOND_AD_ACTOR_SYS_PRIO` of [`Bond`] (`include/uapi/linux/if_link.h`).
pub const IFLA_BOND_AD_ACTOR_SYS_PRIO: Key<Bond, u16> = Key::new(24, "IFLA_BOND_AD_ACTOR_SYS_PRIO");
/// Selects `IFLA_BOND_AD_USER_PORT_KEY` of [`Bond`] (`include/uapi/linux/if_link.h`).
pub const IFLA_BOND_AD_USER_PORT_KEY: Key<Bond, u16> = Key::new(25, "IFLA_BOND_AD_USER_PORT_KEY");
/// Selects `IFLA_BOND_AD_ACTOR_SYSTEM` of [`Bond`] (`include/uapi/linux/if_link.h`).
pub const IFLA_BOND_AD_ACTOR_SYSTEM: Key<Bond, Mac> = Key::new(26, "IFLA_BOND_AD_ACTOR_SYSTEM");
/// Selects `IFLA_BOND_TLB_DYNAMIC_LB` of [`Bond`] (`include/uapi/linux/if_link.h`).
pub const IFLA_BOND_TLB_DYNAMIC_LB: Key<Bond, bool> = Key::new(27, "IFLA_BOND_TLB_DYNAMIC_LB");
/// Selects `IFLA_BOND_PEER_NOTIF_DELAY` of [`Bond`] (`include/uapi/linux/if_link.h`). 100 is printed as `100 ms`.
pub const IFLA_BOND_PEER_NOTIF_DELAY: Key<Bond, u32> = Key::new(28, "IFLA_BOND_PEER_NOTIF_DELAY");
/// Selects `IFLA_BOND_AD_LACP_ACTIVE` of [`Bond`] (`include/uapi/linux/if_link.h`).
pub const IFLA_BOND_AD_LACP_ACTIVE: Key<Bond, bool> = Key::new(29, "IFLA_BOND_AD_LACP_ACTIVE");
/// Selects `IFLA_BOND_MISSED_MAX` of [`Bond`] (`include/uapi/linux/if_link.h`).
pub const IFLA_BOND_MISSED_MAX: Key<Bond, u8> = Key::new(30, "IFLA_BOND_MISSED_MAX");
/// Selects `IFLA_BOND_NS_IP6_TARGET` of [`Bond`] (`include/uapi/linux/if_link.h`).
pub const IFLA_BOND_NS_IP6_TARGET: Key<Bond, Vec<Ipv6Addr>> = Key::new(31, "IFLA_BOND_NS_IP6_TARGET");
/// Selects `IFLA_BOND_COUPLED_CONTROL` of [`Bond`] (`include/uapi/linux/if_link.h`).
pub const IFLA_BOND_COUPLED_CONTROL: Key<Bond, bool> = Key::new(32, "IFLA_BOND_COUPLED_CONTROL");
/// Selects `IFLA_BOND_BROADCAST_NEIGH` of [`Bond`] (`include/uapi/linux/if_link.h`).
pub const IFLA_BOND_BROADCAST_NEIGH: Key<Bond, bool> = Key::new(33, "IFLA_BOND_BROADCAST_NEIGH");
/// Selects `IFLA_BOND_LACP_STRICT` of [`Bond`] (`include/uapi/linux/if_link.h`).
pub const IFLA_BOND_LACP_STRICT: Key<Bond, bool> = Key::new(34, "IFLA_BOND_LACP_STRICT");

scope! {
    /// Represents the attribute set [`Family::BondPort`] in types.
    BondPort;
}

/// Selects `IFLA_BOND_SLAVE_STATE` of [`BondPort`] (`include/uapi/linux/if_link.h`).
pub const IFLA_BOND_SLAVE_STATE: Key<BondPort, BondPortState> = Key::new(1, "IFLA_BOND_SLAVE_STATE");
/// Selects `IFLA_BOND_SLAVE_MII_STATUS` of [`BondPort`] (`include/uapi/linux/if_link.h`).
pub const IFLA_BOND_SLAVE_MII_STATUS: Key<BondPort, MiiStatus> = Key::new(2, "IFLA_BOND_SLAVE_MII_STATUS");
/// Selects `IFLA_BOND_SLAVE_LINK_FAILURE_COUNT` of [`BondPort`] (`include/uapi/linux/if_link.h`).
pub const IFLA_BOND_SLAVE_LINK_FAILURE_COUNT: Key<BondPort, u32> = Key::new(3, "IFLA_BOND_SLAVE_LINK_FAILURE_COUNT");
/// Selects `IFLA_BOND_SLAVE_PERM_HWADDR` of [`BondPort`] (`include/uapi/linux/if_link.h`).
pub const IFLA_BOND_SLAVE_PERM_HWADDR: Key<BondPort, Vec<u8>> = Key::new(4, "IFLA_BOND_SLAVE_PERM_HWADDR");
/// Selects `IFLA_BOND_SLAVE_QUEUE_ID` of [`BondPort`] (`include/uapi/linux/if_link.h`).
pub const IFLA_BOND_SLAVE_QUEUE_ID: Key<BondPort, u16> = Key::new(5, "IFLA_BOND_SLAVE_QUEUE_ID");
/// Selects `IFLA_BOND_SLAVE_AD_AGGREGATOR_ID` of [`BondPort`] (`include/uapi/linux/if_link.h`).
pub const IFLA_BOND_SLAVE_AD_AGGREGATOR_ID: Key<BondPort, u16> = Key::new(6, "IFLA_BOND_SLAVE_AD_AGGREGATOR_ID");
/// Selects `IFLA_BOND_SLAVE_AD_ACTOR_OPER_PORT_STATE` of [`BondPort`] (`include/uapi/linux/if_link.h`).
pub const IFLA_BOND_SLAVE_AD_ACTOR_OPER_PORT_STATE: Key<BondPort, LacpState> =
    Key::new(7, "IFLA_BOND_SLAVE_AD_ACTOR_OPER_PORT_STATE");
/// Selects `IFLA_BOND_SLAVE_AD_PARTNER_OPER_PORT_STATE` of [`BondPort`] (`include/uapi/linux/if_link.h`).
pub const IFLA_BOND_SLAVE_AD_PARTNER_OPER_PORT_STATE: Key<BondPort, LacpState> =
    Key::new(8, "IFLA_BOND_SLAVE_AD_PARTNER_OPER_PORT_STATE");
/// Selects `IFLA_BOND_SLAVE_PRIO` of [`BondPort`] (`include/uapi/linux/if_link.h`).
pub const IFLA_BOND_SLAVE_PRIO: Key<BondPort, i32> = Key::new(9, "IFLA_BOND_SLAVE_PRIO");
/// Selects `IFLA_BOND_SLAVE_ACTOR_PORT_PRIO` of [`BondPort`] (`include/uapi/linux/if_link.h`).
pub const IFLA_BOND_SLAVE_ACTOR_PORT_PRIO: Key<BondPort, u16> = Key::new(10, "IFLA_BOND_SLAVE_ACTOR_PORT_PRIO");
/// Selects `IFLA_BOND_SLAVE_AD_CHURN_ACTOR_STATE` of [`BondPort`] (`include/uapi/linux/if_link.h`).
pub const IFLA_BOND_SLAVE_AD_CHURN_ACTOR_STATE: Key<BondPort, ChurnState> =
    Key::new(11, "IFLA_BOND_SLAVE_AD_CHURN_ACTOR_STATE");
/// Selects `IFLA_BOND_SLAVE_AD_CHURN_PARTNER_STATE` of [`BondPort`] (`include/uapi/linux/if_link.h`).
pub const IFLA_BOND_SLAVE_AD_CHURN_PARTNER_STATE: Key<BondPort, ChurnState> =
    Key::new(12, "IFLA_BOND_SLAVE_AD_CHURN_PARTNER_STATE");

scope! {
    /// Represents the attribute set [`Family::Bridge`] in types.
    Bridge;
}

/// Selects `IFLA_BR_FORWARD_DELAY` of [`Bridge`] (`include/uapi/linux/if_link.h`). 100 is printed as `100 (1.00 s)`.
pub const IFLA_BR_FORWARD_DELAY: Key<Bridge, u32> = Key::new(1, "IFLA_BR_FORWARD_DELAY");
/// Selects `IFLA_BR_HELLO_TIME` of [`Bridge`] (`include/uapi/linux/if_link.h`). 100 is printed as `100 (1.00 s)`.
pub const IFLA_BR_HELLO_TIME: Key<Bridge, u32> = Key::new(2, "IFLA_BR_HELLO_TIME");
/// Selects `IFLA_BR_MAX_AGE` of [`Bridge`] (`include/uapi/linux/if_link.h`). 100 is printed as `100 (1.00 s)`.
pub const IFLA_BR_MAX_AGE: Key<Bridge, u32> = Key::new(3, "IFLA_BR_MAX_AGE");
/// Selects `IFLA_BR_AGEING_TIME` of [`Bridge`] (`include/uapi/linux/if_link.h`). 100 is printed as `100 (1.00 s)`.
pub const IFLA_BR_AGEING_TIME: Key<Bridge, u32> = Key::new(4, "IFLA_BR_AGEING_TIME");
/// Selects `IFLA_BR_STP_STATE` of [`Bridge`] (`include/uapi/linux/if_link.h`).
pub const IFLA_BR_STP_STATE: Key<Bridge, BridgeStpState> = Key::new(5, "IFLA_BR_STP_STATE");
/// Selects `IFLA_BR_PRIORITY` of [`Bridge`] (`include/uapi/linux/if_link.h`).
pub const IFLA_BR_PRIORITY: Key<Bridge, u16> = Key::new(6, "IFLA_BR_PRIORITY");
/// Selects `IFLA_BR_VLAN_FILTERING` of [`Bridge`] (`include/uapi/linux/if_link.h`).
pub const IFLA_BR_VLAN_FILTERING: Key<Bridge, bool> = Key::new(7, "IFLA_BR_VLAN_FILTERING");
/// Selects `IFLA_BR_VLAN_PROTOCOL` of [`Bridge`] (`include/uapi/linux/if_link.h`).
pub const IFLA_BR_VLAN_PROTOCOL: Key<Bridge, VlanProtocol> = Key::new(8, "IFLA_BR_VLAN_PROTOCOL");
/// Selects `IFLA_BR_GROUP_FWD_MASK` of [`Bridge`] (`include/uapi/linux/if_link.h`). 100 is printed as `100 (0x64)`.
pub const IFLA_BR_GROUP_FWD_MASK: Key<Bridge, u16> = Key::new(9, "IFLA_BR_GROUP_FWD_MASK");
/// Selects `IFLA_BR_ROOT_ID` of [`Bridge`] (`include/uapi/linux/if_link.h`).
pub const IFLA_BR_ROOT_ID: Key<Bridge, BridgeId> = Key::new(10, "IFLA_BR_ROOT_ID");
/// Selects `IFLA_BR_BRIDGE_ID` of [`Bridge`] (`include/uapi/linux/if_link.h`).
pub const IFLA_BR_BRIDGE_ID: Key<Bridge, BridgeId> = Key::new(11, "IFLA_BR_BRIDGE_ID");
/// Selects `IFLA_BR_ROOT_PORT` of [`Bridge`] (`include/uapi/linux/if_link.h`).
pub const IFLA_BR_ROOT_PORT: Key<Bridge, u16> = Key::new(12, "IFLA_BR_ROOT_PORT");
/// Selects `IFLA_BR_ROOT_PATH_COST` of [`Bridge`] (`include/uapi/linux/if_link.h`).
pub const IFLA_BR_ROOT_PATH_COST: Key<Bridge, u32> = Key::new(13, "IFLA_BR_ROOT_PATH_COST");
/// Selects `IFLA_BR_TOPOLOGY_CHANGE` of [`Bridge`] (`include/uapi/linux/if_link.h`).
pub const IFLA_BR_TOPOLOGY_CHANGE: Key<Bridge, u8> = Key::new(14, "IFLA_BR_TOPOLOGY_CHANGE");
/// Selects `IFLA_BR_TOPOLOGY_CHANGE_DETECTED` of [`Bridge`] (`include/uapi/linux/if_link.h`).
pub const IFLA_BR_TOPOLOGY_CHANGE_DETECTED: Key<Bridge, u8> = Key::new(15, "IFLA_BR_TOPOLOGY_CHANGE_DETECTED");
/// Selects `IFLA_BR_HELLO_TIMER` of [`Bridge`] (`include/uapi/linux/if_link.h`). 100 is printed as `100 (1.00 s)`.
pub const IFLA_BR_HELLO_TIMER: Key<Bridge, u64> = Key::new(16, "IFLA_BR_HELLO_TIMER");
/// Selects `IFLA_BR_TCN_TIMER` of [`Bridge`] (`include/uapi/linux/if_link.h`). 100 is printed as `100 (1.00 s)`.
pub const IFLA_BR_TCN_TIMER: Key<Bridge, u64> = Key::new(17, "IFLA_BR_TCN_TIMER");
/// Selects `IFLA_BR_TOPOLOGY_CHANGE_TIMER` of [`Bridge`] (`include/uapi/linux/if_link.h`). 100 is printed as `100
/// (1.00 s)`.
pub const IFLA_BR_TOPOLOGY_CHANGE_TIMER: Key<Bridge, u64> = Key::new(18, "IFLA_BR_TOPOLOGY_CHANGE_TIMER");
/// Selects `IFLA_BR_GC_TIMER` of [`Bridge`] (`include/uapi/linux/if_link.h`). 100 is printed as `100 (1.00 s)`.
pub const IFLA_BR_GC_TIMER: Key<Bridge, u64> = Key::new(19, "IFLA_BR_GC_TIMER");
/// Selects `IFLA_BR_GROUP_ADDR` of [`Bridge`] (`include/uapi/linux/if_link.h`).
pub const IFLA_BR_GROUP_ADDR: Key<Bridge, Mac> = Key::new(20, "IFLA_BR_GROUP_ADDR");
/// Selects `IFLA_BR_FDB_FLUSH` of [`Bridge`] (`include/uapi/linux/if_link.h`).
pub const IFLA_BR_FDB_FLUSH: Key<Bridge, ()> = Key::new(21, "IFLA_BR_FDB_FLUSH");
/// Selects `IFLA_BR_MCAST_ROUTER` of [`Bridge`] (`include/uapi/linux/if_link.h`).
pub const IFLA_BR_MCAST_ROUTER: Key<Bridge, McastRouter> = Key::new(22, "IFLA_BR_MCAST_ROUTER");
/// Selects `IFLA_BR_MCAST_SNOOPING` of [`Bridge`] (`include/uapi/linux/if_link.h`).
pub const IFLA_BR_MCAST_SNOOPING: Key<Bridge, bool> = Key::new(23, "IFLA_BR_MCAST_SNOOPING");
/// Selects `IFLA_BR_MCAST_QUERY_USE_IFADDR` of [`Bridge`] (`include/uapi/linux/if_link.h`).
pub const IFLA_BR_MCAST_QUERY_USE_IFADDR: Key<Bridge, bool> = Key::new(24, "IFLA_BR_MCAST_QUERY_USE_IFADDR");
/// Selects `IFLA_BR_MCAST_QUERIER` of [`Bridge`] (`include/uapi/linux/if_link.h`).
pub const IFLA_BR_MCAST_QUERIER: Key<Bridge, bool> = Key::new(25, "IFLA_BR_MCAST_QUERIER");
/// Selects `IFLA_BR_MCAST_HASH_ELASTICITY` of [`Bridge`] (`include/uapi/linux/if_link.h`).
pub const IFLA_BR_MCAST_HASH_ELASTICITY: Key<Bridge, u32> = Key::new(26, "IFLA_BR_MCAST_HASH_ELASTICITY");
/// Selects `IFLA_BR_MCAST_HASH_MAX` of [`Bridge`] (`include/uapi/linux/if_link.h`).
pub const IFLA_BR_MCAST_HASH_MAX: Key<Bridge, u32> = Key::new(27, "IFLA_BR_MCAST_HASH_MAX");
/// Selects `IFLA_BR_MCAST_LAST_MEMBER_CNT` of [`Bridge`] (`include/uapi/linux/if_link.h`).
pub const IFLA_BR_MCAST_LAST_MEMBER_CNT: Key<Bridge, u32> = Key::new(28, "IFLA_BR_MCAST_LAST_MEMBER_CNT");
/// Selects `IFLA_BR_MCAST_STARTUP_QUERY_CNT` of [`Bridge`] (`include/uapi/linux/if_link.h`).
pub const IFLA_BR_MCAST_STARTUP_QUERY_CNT: Key<Bridge, u32> = Key::new(29, "IFLA_BR_MCAST_STARTUP_QUERY_CNT");
/// Selects `IFLA_BR_MCAST_LAST_MEMBER_INTVL` of [`Bridge`] (`include/uapi/linux/if_link.h`). 100 is printed as `100
/// (1.00 s)`.
pub const IFLA_BR_MCAST_LAST_MEMBER_INTVL: Key<Bridge, u64> = Key::new(30, "IFLA_BR_MCAST_LAST_MEMBER_INTVL");
/// Selects `IFLA_BR_MCAST_MEMBERSHIP_INTVL` of [`Bridge`] (`include/uapi/linux/if_link.h`). 100 is printed as `100
/// (1.00 s)`.
pub const IFLA_BR_MCAST_MEMBERSHIP_INTVL: Key<Bridge, u64> = Key::new(31, "IFLA_BR_MCAST_MEMBERSHIP_INTVL");
/// Selects `IFLA_BR_MCAST_QUERIER_INTVL` of [`Bridge`] (`include/uapi/linux/if_link.h`). 100 is printed as `100
/// (1.00 s)`.
pub const IFLA_BR_MCAST_QUERIER_INTVL: Key<Bridge, u64> = Key::new(32, "IFLA_BR_MCAST_QUERIER_INTVL");
/// Selects `IFLA_BR_MCAST_QUERY_INTVL` of [`Bridge`] (`include/uapi/linux/if_link.h`). 100 is printed as `100 (1.00
/// s)`.
pub const IFLA_BR_MCAST_QUERY_INTVL: Key<Bridge, u64> = Key::new(33, "IFLA_BR_MCAST_QUERY_INTVL");
/// Selects `IFLA_BR_MCAST_QUERY_RESPONSE_INTVL` of [`Bridge`] (`include/uapi/linux/if_link.h`). 100 is printed as
/// `100 (1.00 s)`.
pub const IFLA_BR_MCAST_QUERY_RESPONSE_INTVL: Key<Bridge, u64> = Key::new(34, "IFLA_BR_MCAST_QUERY_RESPONSE_INTVL");
/// Selects `IFLA_BR_MCAST_STARTUP_QUERY_INTVL` of [`Bridge`] (`include/uapi/linux/if_link.h`). 100 is printed as
/// `100 (1.00 s)`.
pub const IFLA_BR_MCAST_STARTUP_QUERY_INTVL: Key<Bridge, u64> = Key::new(35, "IFLA_BR_MCAST_STARTUP_QUERY_INTVL");
/// Selects `IFLA_BR_NF_CALL_IPTABLES` of [`Bridge`] (`include/uapi/linux/if_link.h`).
pub const IFLA_BR_NF_CALL_IPTABLES: Key<Bridge, bool> = Key::new(36, "IFLA_BR_NF_CALL_IPTABLES");
/// Selects `IFLA_BR_NF_CALL_IP6TABLES` of [`Bridge`] (`include/uapi/linux/if_link.h`).
pub const IFLA_BR_NF_CALL_IP6TABLES: Key<Bridge, bool> = Key::new(37, "IFLA_BR_NF_CALL_IP6TABLES");
/// Selects `IFLA_BR_NF_CALL_ARPTABLES` of [`Bridge`] (`include/uapi/linux/if_link.h`).
pub const IFLA_BR_NF_CALL_ARPTABLES: Key<Bridge, bool> = Key::new(38, "IFLA_BR_NF_CALL_ARPTABLES");
/// Selects `IFLA_BR_VLAN_DEFAULT_PVID` of [`Bridge`] (`include/uapi/linux/if_link.h`).
pub const IFLA_BR_VLAN_DEFAULT_PVID: Key<Bridge, u16> = Key::new(39, "IFLA_BR_VLAN_DEFAULT_PVID");
/// Selects `IFLA_BR_VLAN_STATS_ENABLED` of [`Bridge`] (`include/uapi/linux/if_link.h`).
pub const IFLA_BR_VLAN_STATS_ENABLED: Key<Bridge, bool> = Key::new(41, "IFLA_BR_VLAN_STATS_ENABLED");
/// Selects `IFLA_BR_MCAST_STATS_ENABLED` of [`Bridge`] (`include/uapi/linux/if_link.h`).
pub const IFLA_BR_MCAST_STATS_ENABLED: Key<Bridge, bool> = Key::new(42, "IFLA_BR_MCAST_STATS_ENABLED");
/// Selects `IFLA_BR_MCAST_IGMP_VERSION` of [`Bridge`] (`include/uapi/linux/if_link.h`).
pub const IFLA_BR_MCAST_IGMP_VERSION: Key<Bridge, u8> = Key::new(43, "IFLA_BR_MCAST_IGMP_VERSION");
/// Selects `IFLA_BR_MCAST_MLD_VERSION` of [`Bridge`] (`include/uapi/linux/if_link.h`).
pub const IFLA_BR_MCAST_MLD_VERSION: Key<Bridge, u8> = Key::new(44, "IFLA_BR_MCAST_MLD_VERSION");
/// Selects `IFLA_BR_VLAN_STATS_PER_PORT` of [`Bridge`] (`include/uapi/linux/if_link.h`).
pub const IFLA_BR_VLAN_STATS_PER_PORT: Key<Bridge, bool> = Key::new(45, "IFLA_BR_VLAN_STATS_PER_PORT");
/// Selects `IFLA_BR_MULTI_BOOLOPT` of [`Bridge`] (`include/uapi/linux/if_link.h`).
pub const IFLA_BR_MULTI_BOOLOPT: Key<Bridge, Masked<BridgeBoolOpt>> = Key::new(46, "IFLA_BR_MULTI_BOOLOPT");
elements! {
    /// Represents the elements of [`IFLA_BR_MCAST_QUERIER_STATE`] in types.
    BrMcastQuerierState of Bridge = 47;
}
/// Selects `IFLA_BR_MCAST_QUERIER_STATE` of [`Bridge`] (`include/uapi/linux/if_link.h`).
pub const IFLA_BR_MCAST_QUERIER_STATE: Key<Bridge, Nested<BrMcastQuerierState>> =
    Key::new(47, "IFLA_BR_MCAST_QUERIER_STATE");
/// Selects `BRIDGE_QUERIER_IP_ADDRESS` of [`IFLA_BR_MCAST_QUERIER_STATE`] (`include/uapi/linux/if_bridge.h`).
pub const BRIDGE_QUERIER_IP_ADDRESS: Key<BrMcastQuerierState, Ipv4Addr> = Key::new(1, "BRIDGE_QUERIER_IP_ADDRESS");
/// Selects `BRIDGE_QUERIER_IP_PORT` of [`IFLA_BR_MCAST_QUERIER_STATE`] (`include/uapi/linux/if_bridge.h`). 100 is
/// printed as `ifindex 100`.
pub const BRIDGE_QUERIER_IP_PORT: Key<BrMcastQuerierState, u32> = Key::new(2, "BRIDGE_QUERIER_IP_PORT");
/// Selects `BRIDGE_QUERIER_IP_OTHER_TIMER` of [`IFLA_BR_MCAST_QUERIER_STATE`] (`include/uapi/linux/if_bridge.h`).
/// 100 is printed as `100 (1.00 s)`.
pub const BRIDGE_QUERIER_IP_OTHER_TIMER: Key<BrMcastQuerierState, u64> = Key::new(3, "BRIDGE_QUERIER_IP_OTHER_TIMER");
/// Selects `BRIDGE_QUERIER_IPV6_ADDRESS` of [`IFLA_BR_MCAST_QUERIER_STATE`] (`include/uapi/linux/if_bridge.h`).
pub const BRIDGE_QUERIER_IPV6_ADDRESS: Key<BrMcastQuerierState, Ipv6Addr> = Key::new(5, "BRIDGE_QUERIER_IPV6_ADDRESS");
/// Selects `BRIDGE_QUERIER_IPV6_PORT` of [`IFLA_BR_MCAST_QUERIER_STATE`] (`include/uapi/linux/if_bridge.h`). 100 is
/// printed as `ifindex 100`.
pub const BRIDGE_QUERIER_IPV6_PORT: Key<BrMcastQuerierState, u32> = Key::new(6, "BRIDGE_QUERIER_IPV6_PORT");
/// Selects `BRIDGE_QUERIER_IPV6_OTHER_TIMER` of [`IFLA_BR_MCAST_QUERIER_STATE`] (`include/uapi/linux/if_bridge.h`).
/// 100 is printed as `100 (1.00 s)`.
pub const BRIDGE_QUERIER_IPV6_OTHER_TIMER: Key<BrMcastQuerierState, u64> =
    Key::new(7, "BRIDGE_QUERIER_IPV6_OTHER_TIMER");
/// Selects `IFLA_BR_FDB_N_LEARNED` of [`Bridge`] (`include/uapi/linux/if_link.h`).
pub const IFLA_BR_FDB_N_LEARNED: Key<Bridge, u32> = Key::new(48, "IFLA_BR_FDB_N_LEARNED");
/// Selects `IFLA_BR_FDB_MAX_LEARNED` of [`Bridge`] (`include/uapi/linux/if_link.h`).
pub const IFLA_BR_FDB_MAX_LEARNED: Key<Bridge, u32> = Key::new(49, "IFLA_BR_FDB_MAX_LEARNED");
/// Selects `IFLA_BR_STP_MODE` of [`Bridge`] (`include/uapi/linux/if_link.h`).
pub const IFLA_BR_STP_MODE: Key<Bridge, BridgeStpMode> = Key::new(50, "IFLA_BR_STP_MODE");

scope! {
    /// Represents the attribute set [`Family::BridgePort`] in types.
    BridgePort;
}

/// Selects `IFLA_BRPORT_STATE` of [`BridgePort`] (`include/uapi/linux/if_link.h`).
pub const IFLA_BRPORT_STATE: Key<BridgePort, BridgePortState> = Key::new(1, "IFLA_BRPORT_STATE");
/// Selects `IFLA_BRPORT_PRIORITY` of [`BridgePort`] (`include/uapi/linux/if_link.h`).
pub const IFLA_BRPORT_PRIORITY: Key<BridgePort, u16> = Key::new(2, "IFLA_BRPORT_PRIORITY");
/// Selects `IFLA_BRPORT_COST` of [`BridgePort`] (`include/uapi/linux/if_link.h`).
pub const IFLA_BRPORT_COST: Key<BridgePort, u32> = Key::new(3, "IFLA_BRPORT_COST");
/// Selects `IFLA_BRPORT_MODE` of [`BridgePort`] (`include/uapi/linux/if_link.h`).
pub const IFLA_BRPORT_MODE: Key<BridgePort, bool> = Key::new(4, "IFLA_BRPORT_MODE");
/// Selects `IFLA_BRPORT_GUARD` of [`BridgePort`] (`include/uapi/linux/if_link.h`).
pub const IFLA_BRPORT_GUARD: Key<BridgePort, bool> = Key::new(5, "IFLA_BRPORT_GUARD");
/// Selects `IFLA_BRPORT_PROTECT` of [`BridgePort`] (`include/uapi/linux/if_link.h`).
pub const IFLA_BRPORT_PROTECT: Key<BridgePort, bool> = Key::new(6, "IFLA_BRPORT_PROTECT");
/// Selects `IFLA_BRPORT_FAST_LEAVE` of [`BridgePort`] (`include/uapi/linux/if_link.h`).
pub const IFLA_BRPORT_FAST_LEAVE: Key<BridgePort, bool> = Key::new(7, "IFLA_BRPORT_FAST_LEAVE");
/// Selects `IFLA_BRPORT_LEARNING` of [`BridgePort`] (`include/uapi/linux/if_link.h`).
pub const IFLA_BRPORT_LEARNING: Key<BridgePort, bool> = Key::new(8, "IFLA_BRPORT_LEARNING");
/// Selects `IFLA_BRPORT_UNICAST_FLOOD` of [`BridgePort`] (`include/uapi/linux/if_link.h`).
pub const IFLA_BRPORT_UNICAST_FLOOD: Key<BridgePort, bool> = Key::new(9, "IFLA_BRPORT_UNICAST_FLOOD");
/// Selects `IFLA_BRPORT_PROXYARP` of [`BridgePort`] (`include/uapi/linux/if_link.h`).
pub const IFLA_BRPORT_PROXYARP: Key<BridgePort, bool> = Key::new(10, "IFLA_BRPORT_PROXYARP");
/// Selects `IFLA_BRPORT_LEARNING_SYNC` of [`BridgePort`] (`include/uapi/linux/if_link.h`).
pub const IFLA_BRPORT_LEARNING_SYNC: Key<BridgePort, bool> = Key::new(11, "IFLA_BRPORT_LEARNING_SYNC");
/// Selects `IFLA_BRPORT_PROXYARP_WIFI` of [`BridgePort`] (`include/uapi/linux/if_link.h`).
pub const IFLA_BRPORT_PROXYARP_WIFI: Key<BridgePort, bool> = Key::new(12, "IFLA_BRPORT_PROXYARP_WIFI");
/// Selects `IFLA_BRPORT_ROOT_ID` of [`BridgePort`] (`include/uapi/linux/if_link.h`).
pub const IFLA_BRPORT_ROOT_ID: Key<BridgePort, BridgeId> = Key::new(13, "IFLA_BRPORT_ROOT_ID");
/// Selects `IFLA_BRPORT_BRIDGE_ID` of [`BridgePort`] (`include/uapi/linux/if_link.h`).
pub const IFLA_BRPORT_BRIDGE_ID: Key<BridgePort, BridgeId> = Key::new(14, "IFLA_BRPORT_BRIDGE_ID");
/// Selects `IFLA_BRPORT_DESIGNATED_PORT` of [`BridgePort`] (`include/uapi/linux/if_link.h`). 100 is printed as `100
/// (0x64)`.
pub const IFLA_BRPORT_DESIGNATED_PORT: Key<BridgePort, u16> = Key::new(15, "IFLA_BRPORT_DESIGNATED_PORT");
/// Selects `IFLA_BRPORT_DESIGNATED_COST` of [`BridgePort`] (`include/uapi/linux/if_link.h`).
pub const IFLA_BRPORT_DESIGNATED_COST: Key<BridgePort, u16> = Key::new(16, "IFLA_BRPORT_DESIGNATED_COST");
/// Selects `IFLA_BRPORT_ID` of [`BridgePort`] (`include/uapi/linux/if_link.h`). 100 is printed as `100 (0x64)`.
pub const IFLA_BRPORT_ID: Key<BridgePort, u16> = Key::new(17, "IFLA_BRPORT_ID");
/// Selects `IFLA_BRPORT_NO` of [`BridgePort`] (`include/uapi/linux/if_link.h`).
pub const IFLA_BRPORT_NO: Key<BridgePort, u16> = Key::new(18, "IFLA_BRPORT_NO");
/// Selects `IFLA_BRPORT_TOPOLOGY_CHANGE_ACK` of [`BridgePort`] (`include/uapi/linux/if_link.h`).
pub const IFLA_BRPORT_TOPOLOGY_CHANGE_ACK: Key<BridgePort, bool> = Key::new(19, "IFLA_BRPORT_TOPOLOGY_CHANGE_ACK");
/// Selects `IFLA_BRPORT_CONFIG_PENDING` of [`BridgePort`] (`include/uapi/linux/if_link.h`).
pub const IFLA_BRPORT_CONFIG_PENDING: Key<BridgePort, bool> = Key::new(20, "IFLA_BRPORT_CONFIG_PENDING");
/// Selects `IFLA_BRPORT_MESSAGE_AGE_TIMER` of [`BridgePort`] (`include/uapi/linux/if_link.h`). 100 is printed as
/// `100 (1.00 s)`.
pub const IFLA_BRPORT_MESSAGE_AGE_TIMER: Key<BridgePort, u64> = Key::new(21, "IFLA_BRPORT_MESSAGE_AGE_TIMER");
/// Selects `IFLA_BRPORT_FORWARD_DELAY_TIMER` of [`BridgePort`] (`include/uapi/linux/if_link.h`). 100 is printed as
/// `100 (1.00 s)`.
pub const IFLA_BRPORT_FORWARD_DELAY_TIMER: Key<BridgePort, u64> = Key::new(22, "IFLA_BRPORT_FORWARD_DELAY_TIMER");
/// Selects `IFLA_BRPORT_HOLD_TIMER` of [`BridgePort`] (`include/uapi/linux/if_link.h`). 100 is printed as `100 (1.00
/// s)`.
pub const IFLA_BRPORT_HOLD_TIMER: Key<BridgePort, u64> = Key::new(23, "IFLA_BRPORT_HOLD_TIMER");
/// Selects `IFLA_BRPORT_FLUSH` of [`BridgePort`] (`include/uapi/linux/if_link.h`).
pub const IFLA_BRPORT_FLUSH: Key<BridgePort, ()> = Key::new(24, "IFLA_BRPORT_FLUSH");
/// Selects `IFLA_BRPORT_MULTICAST_ROUTER` of [`BridgePort`] (`include/uapi/linux/if_link.h`).
pub const IFLA_BRPORT_MULTICAST_ROUTER: Key<BridgePort, McastRouter> = Key::new(25, "IFLA_BRPORT_MULTICAST_ROUTER");
/// Selects `IFLA_BRPORT_MCAST_FLOOD` of [`BridgePort`] (`include/uapi/linux/if_link.h`).
pub const IFLA_BRPORT_MCAST_FLOOD: Key<BridgePort, bool> = Key::new(27, "IFLA_BRPORT_MCAST_FLOOD");
/// Selects `IFLA_BRPORT_MCAST_TO_UCAST` of [`BridgePort`] (`include/uapi/linux/if_link.h`).
pub const IFLA_BRPORT_MCAST_TO_UCAST: Key<BridgePort, bool> = Key::new(28, "IFLA_BRPORT_MCAST_TO_UCAST");
/// Selects `IFLA_BRPORT_VLAN_TUNNEL` of [`BridgePort`] (`include/uapi/linux/if_link.h`).
pub const IFLA_BRPORT_VLAN_TUNNEL: Key<BridgePort, bool> = Key::new(29, "IFLA_BRPORT_VLAN_TUNNEL");
/// Selects `IFLA_BRPORT_BCAST_FLOOD` of [`BridgePort`] (`include/uapi/linux/if_link.h`).
pub const IFLA_BRPORT_BCAST_FLOOD: Key<BridgePort, bool> = Key::new(30, "IFLA_BRPORT_BCAST_FLOOD");
/// Selects `IFLA_BRPORT_GROUP_FWD_MASK` of [`BridgePort`] (`include/uapi/linux/if_link.h`). 100 is printed as `100
/// (0x64)`.
pub const IFLA_BRPORT_GROUP_FWD_MASK: Key<BridgePort, u16> = Key::new(31, "IFLA_BRPORT_GROUP_FWD_MASK");
/// Selects `IFLA_BRPORT_NEIGH_SUPPRESS` of [`BridgePort`] (`include/uapi/linux/if_link.h`).
pub const IFLA_BRPORT_NEIGH_SUPPRESS: Key<BridgePort, bool> = Key::new(32, "IFLA_BRPORT_NEIGH_SUPPRESS");
/// Selects `IFLA_BRPORT_ISOLATED` of [`BridgePort`] (`include/uapi/linux/if_link.h`).
pub const IFLA_BRPORT_ISOLATED: Key<BridgePort, bool> = Key::new(33, "IFLA_BRPORT_ISOLATED");
/// Selects `IFLA_BRPORT_BACKUP_PORT` of [`BridgePort`] (`include/uapi/linux/if_link.h`). 100 is printed as `ifindex
/// 100`.
pub const IFLA_BRPORT_BACKUP_PORT: Key<BridgePort, u32> = Key::new(34, "IFLA_BRPORT_BACKUP_PORT");
/// Selects `IFLA_BRPORT_MRP_RING_OPEN` of [`BridgePort`] (`include/uapi/linux/if_link.h`).
pub const IFLA_BRPORT_MRP_RING_OPEN: Key<BridgePort, bool> = Key::new(35, "IFLA_BRPORT_MRP_RING_OPEN");
/// Selects `IFLA_BRPORT_MRP_IN_OPEN` of [`BridgePort`] (`include/uapi/linux/if_link.h`).
pub const IFLA_BRPORT_MRP_IN_OPEN: Key<BridgePort, bool> = Key::new(36, "IFLA_BRPORT_MRP_IN_OPEN");
/// Selects `IFLA_BRPORT_MCAST_EHT_HOSTS_LIMIT` of [`BridgePort`] (`include/uapi/linux/if_link.h`).
pub const IFLA_BRPORT_MCAST_EHT_HOSTS_LIMIT: Key<BridgePort, u32> = Key::new(37, "IFLA_BRPORT_MCAST_EHT_HOSTS_LIMIT");
/// Selects `IFLA_BRPORT_MCAST_EHT_HOSTS_CNT` of [`BridgePort`] (`include/uapi/linux/if_link.h`).
pub const IFLA_BRPORT_MCAST_EHT_HOSTS_CNT: Key<BridgePort, u32> = Key::new(38, "IFLA_BRPORT_MCAST_EHT_HOSTS_CNT");
/// Selects `IFLA_BRPORT_LOCKED` of [`BridgePort`] (`include/uapi/linux/if_link.h`).
pub const IFLA_BRPORT_LOCKED: Key<BridgePort, bool> = Key::new(39, "IFLA_BRPORT_LOCKED");
/// Selects `IFLA_BRPORT_MAB` of [`BridgePort`] (`include/uapi/linux/if_link.h`).
pub const IFLA_BRPORT_MAB: Key<BridgePort, bool> = Key::new(40, "IFLA_BRPORT_MAB");
/// Selects `IFLA_BRPORT_MCAST_N_GROUPS` of [`BridgePort`] (`include/uapi/linux/if_link.h`).
pub const IFLA_BRPORT_MCAST_N_GROUPS: Key<BridgePort, u32> = Key::new(41, "IFLA_BRPORT_MCAST_N_GROUPS");
/// Selects `IFLA_BRPORT_MCAST_MAX_GROUPS` of [`BridgePort`] (`include/uapi/linux/if_link.h`).
pub const IFLA_BRPORT_MCAST_MAX_GROUPS: Key<BridgePort, u32> = Key::new(42, "IFLA_BRPORT_MCAST_MAX_GROUPS");
/// Selects `IFLA_BRPORT_NEIGH_VLAN_SUPPRESS` of [`BridgePort`] (`include/uapi/linux/if_link.h`).
pub const IFLA_BRPORT_NEIGH_VLAN_SUPPRESS: Key<BridgePort, bool> = Key::new(43, "IFLA_BRPORT_NEIGH_VLAN_SUPPRESS");
/// Selects `IFLA_BRPORT_BACKUP_NHID` of [`BridgePort`] (`include/uapi/linux/if_link.h`).
pub const IFLA_BRPORT_BACKUP_NHID: Key<BridgePort, u32> = Key::new(44, "IFLA_BRPORT_BACKUP_NHID");
/// Selects `IFLA_BRPORT_NEIGH_FORWARD_GRAT` of [`BridgePort`] (`include/uapi/linux/if_link.h`).
pub const IFLA_BRPORT_NEIGH_FORWARD_GRAT: Key<BridgePort, bool> = Key::new(45, "IFLA_BRPORT_NEIGH_FORWARD_GRAT");

scope! {
    /// Represents the attribute set [`Family::Vlan`] in types.
    Vlan;
}

/// Selects `IFLA_VLAN_ID` of [`Vlan`] (`include/uapi/linux/if_link.h`).
pub const IFLA_VLAN_ID: Key<Vlan, u16> = Key::new(1, "IFLA_VLAN_ID");
/// Selects `IFLA_VLAN_FLAGS` of [`Vlan`] (`include/uapi/linux/if_link.h`).
pub const IFLA_VLAN_FLAGS: Key<Vlan, Masked<VlanFlags>> = Key::new(2, "IFLA_VLAN_FLAGS");
/// Selects `IFLA_VLAN_EGRESS_QOS` of [`Vlan`] (`include/uapi/linux/if_link.h`).
pub const IFLA_VLAN_EGRESS_QOS: Key<Vlan, Vec<QosMapping>> = Key::new(3, "IFLA_VLAN_EGRESS_QOS");
/// Selects `IFLA_VLAN_INGRESS_QOS` of [`Vlan`] (`include/uapi/linux/if_link.h`).
pub const IFLA_VLAN_INGRESS_QOS: Key<Vlan, Vec<QosMapping>> = Key::new(4, "IFLA_VLAN_INGRESS_QOS");
/// Selects `IFLA_VLAN_PROTOCOL` of [`Vlan`] (`include/uapi/linux/if_link.h`).
pub const IFLA_VLAN_PROTOCOL: Key<Vlan, VlanProtocol> = Key::new(5, "IFLA_VLAN_PROTOCOL");

scope! {
    /// Represents the attribute set [`Family::Can`] in types.
    Can;
}

/// Selects `IFLA_CAN_BITTIMING` of [`Can`] (`include/uapi/linux/can/netlink.h`).
pub const IFLA_CAN_BITTIMING: Key<Can, CanBitTiming> = Key::new(1, "IFLA_CAN_BITTIMING");
/// Selects `IFLA_CAN_BITTIMING_CONST` of [`Can`] (`include/uapi/linux/can/netlink.h`).
pub const IFLA_CAN_BITTIMING_CONST: Key<Can, CanBitTimingConst> = Key::new(2, "IFLA_CAN_BITTIMING_CONST");
/// Selects `IFLA_CAN_CLOCK` of [`Can`] (`include/uapi/linux/can/netlink.h`). 100 is printed as `freq 100 Hz`.
pub const IFLA_CAN_CLOCK: Key<Can, u32> = Key::new(3, "IFLA_CAN_CLOCK");
/// Selects `IFLA_CAN_STATE` of [`Can`] (`include/uapi/linux/can/netlink.h`).
pub const IFLA_CAN_STATE: Key<Can, CanState> = Key::new(4, "IFLA_CAN_STATE");
/// Selects `IFLA_CAN_CTRLMODE` of [`Can`] (`include/uapi/linux/can/netlink.h`).
pub const IFLA_CAN_CTRLMODE: Key<Can, Masked<CanCtrlMode>> = Key::new(5, "IFLA_CAN_CTRLMODE");
/// Selects `IFLA_CAN_RESTART_MS` of [`Can`] (`include/uapi/linux/can/netlink.h`). 100 is printed as `100 ms`.
pub const IFLA_CAN_RESTART_MS: Key<Can, u32> = Key::new(6, "IFLA_CAN_RESTART_MS");
/// Selects `IFLA_CAN_RESTART` of [`Can`] (`include/uapi/linux/can/netlink.h`).
pub const IFLA_CAN_RESTART: Key<Can, u32> = Key::new(7, "IFLA_CAN_RESTART");
/// Selects `IFLA_CAN_BERR_COUNTER` of [`Can`] (`include/uapi/linux/can/netlink.h`).
pub const IFLA_CAN_BERR_COUNTER: Key<Can, BerrCounter> = Key::new(8, "IFLA_CAN_BERR_COUNTER");
/// Selects `IFLA_CAN_DATA_BITTIMING` of [`Can`] (`include/uapi/linux/can/netlink.h`).
pub const IFLA_CAN_DATA_BITTIMING: Key<Can, CanBitTiming> = Key::new(9, "IFLA_CAN_DATA_BITTIMING");
/// Selects `IFLA_CAN_DATA_BITTIMING_CONST` of [`Can`] (`include/uapi/linux/can/netlink.h`).
pub const IFLA_CAN_DATA_BITTIMING_CONST: Key<Can, CanBitTimingConst> = Key::new(10, "IFLA_CAN_DATA_BITTIMING_CONST");
/// Selects `IFLA_CAN_TERMINATION` of [`Can`] (`include/uapi/linux/can/netlink.h`). 100 is printed as `100 ohm`.
pub const IFLA_CAN_TERMINATION: Key<Can, u16> = Key::new(11, "IFLA_CAN_TERMINATION");
/// Selects `IFLA_CAN_TERMINATION_CONST` of [`Can`] (`include/uapi/linux/can/netlink.h`).
pub const IFLA_CAN_TERMINATION_CONST: Key<Can, Vec<u16>> = Key::new(12, "IFLA_CAN_TERMINATION_CONST");
/// Selects `IFLA_CAN_BITRATE_CONST` of [`Can`] (`include/uapi/linux/can/netlink.h`).
pub const IFLA_CAN_BITRATE_CONST: Key<Can, Vec<u32>> = Key::new(13, "IFLA_CAN_BITRATE_CONST");
/// Selects `IFLA_CAN_DATA_BITRATE_CONST` of [`Can`] (`include/uapi/linux/can/netlink.h`).
pub const IFLA_CAN_DATA_BITRATE_CONST: Key<Can, Vec<u32>> = Key::new(14, "IFLA_CAN_DATA_BITRATE_CONST");
/// Selects `IFLA_CAN_BITRATE_MAX` of [`Can`] (`include/uapi/linux/can/netlink.h`). 100 is printed as `100 bit/s`.
pub const IFLA_CAN_BITRATE_MAX: Key<Can, u32> = Key::new(15, "IFLA_CAN_BITRATE_MAX");
elements! {
    /// Represents the elements of [`IFLA_CAN_TDC`] in types.
    CanTdc of Can = 16;
}
/// Selects `IFLA_CAN_TDC` of [`Can`] (`include/uapi/linux/can/netlink.h`).
pub const IFLA_CAN_TDC: Key<Can, Nested<CanTdc>> = Key::new(16, "IFLA_CAN_TDC");
/// Selects `IFLA_CAN_TDC_TDCV_MIN` of [`IFLA_CAN_TDC`] (`include/uapi/linux/can/netlink.h`).
pub const IFLA_CAN_TDC_TDCV_MIN: Key<CanTdc, u32> = Key::new(1, "IFLA_CAN_TDC_TDCV_MIN");
/// Selects `IFLA_CAN_TDC_TDCV_MAX` of [`IFLA_CAN_TDC`] (`include/uapi/linux/can/netlink.h`).
pub const IFLA_CAN_TDC_TDCV_MAX: Key<CanTdc, u32> = Key::new(2, "IFLA_CAN_TDC_TDCV_MAX");
/// Selects `IFLA_CAN_TDC_TDCO_MIN` of [`IFLA_CAN_TDC`] (`include/uapi/linux/can/netlink.h`).
pub const IFLA_CAN_TDC_TDCO_MIN: Key<CanTdc, u32> = Key::new(3, "IFLA_CAN_TDC_TDCO_MIN");
/// Selects `IFLA_CAN_TDC_TDCO_MAX` of [`IFLA_CAN_TDC`] (`include/uapi/linux/can/netlink.h`).
pub const IFLA_CAN_TDC_TDCO_MAX: Key<CanTdc, u32> = Key::new(4, "IFLA_CAN_TDC_TDCO_MAX");
/// Selects `IFLA_CAN_TDC_TDCF_MIN` of [`IFLA_CAN_TDC`] (`include/uapi/linux/can/netlink.h`).
pub const IFLA_CAN_TDC_TDCF_MIN: Key<CanTdc, u32> = Key::new(5, "IFLA_CAN_TDC_TDCF_MIN");
/// Selects `IFLA_CAN_TDC_TDCF_MAX` of [`IFLA_CAN_TDC`] (`include/uapi/linux/can/netlink.h`).
pub const IFLA_CAN_TDC_TDCF_MAX: Key<CanTdc, u32> = Key::new(6, "IFLA_CAN_TDC_TDCF_MAX");
/// Selects `IFLA_CAN_TDC_TDCV` of [`IFLA_CAN_TDC`] (`include/uapi/linux/can/netlink.h`).
pub const IFLA_CAN_TDC_TDCV: Key<CanTdc, u32> = Key::new(7, "IFLA_CAN_TDC_TDCV");
/// Selects `IFLA_CAN_TDC_TDCO` of [`IFLA_CAN_TDC`] (`include/uapi/linux/can/netlink.h`).
pub const IFLA_CAN_TDC_TDCO: Key<CanTdc, u32> = Key::new(8, "IFLA_CAN_TDC_TDCO");
/// Selects `IFLA_CAN_TDC_TDCF` of [`IFLA_CAN_TDC`] (`include/uapi/linux/can/netlink.h`).
pub const IFLA_CAN_TDC_TDCF: Key<CanTdc, u32> = Key::new(9, "IFLA_CAN_TDC_TDCF");
elements! {
    /// Represents the elements of [`IFLA_CAN_CTRLMODE_EXT`] in types.
    CanCtrlmodeExt of Can = 17;
}
/// Selects `IFLA_CAN_CTRLMODE_EXT` of [`Can`] (`include/uapi/linux/can/netlink.h`).
pub const IFLA_CAN_CTRLMODE_EXT: Key<Can, Nested<CanCtrlmodeExt>> = Key::new(17, "IFLA_CAN_CTRLMODE_EXT");
/// Selects `IFLA_CAN_CTRLMODE_SUPPORTED` of [`IFLA_CAN_CTRLMODE_EXT`] (`include/uapi/linux/can/netlink.h`).
pub const IFLA_CAN_CTRLMODE_SUPPORTED: Key<CanCtrlmodeExt, CanCtrlMode> = Key::new(1, "IFLA_CAN_CTRLMODE_SUPPORTED");

scope! {
    /// Represents the attribute set [`Family::Dsa`] in types.
    Dsa;
}

/// Selects `IFLA_DSA_CONDUIT` of [`Dsa`] (`include/uapi/linux/if_link.h`). 100 is printed as `ifindex 100`.
pub const IFLA_DSA_CONDUIT: Key<Dsa, u32> = Key::new(1, "IFLA_DSA_CONDUIT");

scope! {
    /// Represents the attribute set [`Family::Hsr`] in types.
    Hsr;
}

/// Selects `IFLA_HSR_SLAVE1` of [`Hsr`] (`include/uapi/linux/if_link.h`). 100 is printed as `ifindex 100`.
pub const IFLA_HSR_SLAVE1: Key<Hsr, u32> = Key::new(1, "IFLA_HSR_SLAVE1");
/// Selects `IFLA_HSR_SLAVE2` of [`Hsr`] (`include/uapi/linux/if_link.h`). 100 is printed as `ifindex 100`.
pub const IFLA_HSR_SLAVE2: Key<Hsr, u32> = Key::new(2, "IFLA_HSR_SLAVE2");
/// Selects `IFLA_HSR_MULTICAST_SPEC` of [`Hsr`] (`include/uapi/linux/if_link.h`).
pub const IFLA_HSR_MULTICAST_SPEC: Key<Hsr, u8> = Key::new(3, "IFLA_HSR_MULTICAST_SPEC");
/// Selects `IFLA_HSR_SUPERVISION_ADDR` of [`Hsr`] (`include/uapi/linux/if_link.h`).
pub const IFLA_HSR_SUPERVISION_ADDR: Key<Hsr, Mac> = Key::new(4, "IFLA_HSR_SUPERVISION_ADDR");
/// Selects `IFLA_HSR_SEQ_NR` of [`Hsr`] (`include/uapi/linux/if_link.h`).
pub const IFLA_HSR_SEQ_NR: Key<Hsr, u16> = Key::new(5, "IFLA_HSR_SEQ_NR");
/// Selects `IFLA_HSR_VERSION` of [`Hsr`] (`include/uapi/linux/if_link.h`).
pub const IFLA_HSR_VERSION: Key<Hsr, u8> = Key::new(6, "IFLA_HSR_VERSION");
/// Selects `IFLA_HSR_PROTOCOL` of [`Hsr`] (`include/uapi/linux/if_link.h`).
pub const IFLA_HSR_PROTOCOL: Key<Hsr, HsrProtocol> = Key::new(7, "IFLA_HSR_PROTOCOL");
/// Selects `IFLA_HSR_INTERLINK` of [`Hsr`] (`include/uapi/linux/if_link.h`). 100 is printed as `ifindex 100`.
pub const IFLA_HSR_INTERLINK: Key<Hsr, u32> = Key::new(8, "IFLA_HSR_INTERLINK");

scope! {
    /// Represents the attribute set [`Family::ProtoBridge`] in types.
    ProtoBridge;
}

/// Has the keys of [`ProtoBridge`], of which other sets have some with the same names.
pub mod proto_bridge {
    use crate::*;

    /// Selects `IFLA_BRPORT_NEIGH_FORWARD_GRAT` of [`ProtoBridge`] (`include/uapi/linux/if_link.h`).
    pub const IFLA_BRPORT_NEIGH_FORWARD_GRAT: Key<ProtoBridge, bool> = Key::new(45, "IFLA_BRPORT_NEIGH_FORWARD_GRAT");
}

scope! {
    /// Represents the attribute set [`Family::Vxlan`] in types.
    Vxlan;
}

/// Selects `IFLA_VXLAN_ID` of [`Vxlan`] (`include/uapi/linux/if_link.h`).
pub const IFLA_VXLAN_ID: Key<Vxlan, u32> = Key::new(1, "IFLA_VXLAN_ID");
/// Selects `IFLA_VXLAN_GROUP` of [`Vxlan`] (`include/uapi/linux/if_link.h`).
pub const IFLA_VXLAN_GROUP: Key<Vxlan, Ipv4Addr> = Key::new(2, "IFLA_VXLAN_GROUP");
/// Selects `IFLA_VXLAN_LINK` of [`Vxlan`] (`include/uapi/linux/if_link.h`). 100 is printed as `ifindex 100`.
pub const IFLA_VXLAN_LINK: Key<Vxlan, u32> = Key::new(3, "IFLA_VXLAN_LINK");
/// Selects `IFLA_VXLAN_LOCAL` of [`Vxlan`] (`include/uapi/linux/if_link.h`).
pub const IFLA_VXLAN_LOCAL: Key<Vxlan, Ipv4Addr> = Key::new(4, "IFLA_VXLAN_LOCAL");
/// Selects `IFLA_VXLAN_TTL` of [`Vxlan`] (`include/uapi/linux/if_link.h`).
pub const IFLA_VXLAN_TTL: Key<Vxlan, u8> = Key::new(5, "IFLA_VXLAN_TTL");
/// Selects `IFLA_VXLAN_TOS` of [`Vxlan`] (`include/uapi/linux/if_link.h`). 100 is printed as `100 (0x64)`.
pub const IFLA_VXLAN_TOS: Key<Vxlan, u8> = Key::new(6, "IFLA_VXLAN_TOS");
/// Selects `IFLA_VXLAN_LEARNING` of [`Vxlan`] (`include/uapi/linux/if_link.h`).
pub const IFLA_VXLAN_LEARNING: Key<Vxlan, bool> = Key::new(7, "IFLA_VXLAN_LEARNING");
/// Selects `IFLA_VXLAN_AGEING` of [`Vxlan`] (`include/uapi/linux/if_link.h`). 100 is printed as `100 s`.
pub const IFLA_VXLAN_AGEING: Key<Vxlan, u32> = Key::new(8, "IFLA_VXLAN_AGEING");
/// Selects `IFLA_VXLAN_LIMIT` of [`Vxlan`] (`include/uapi/linux/if_link.h`).
pub const IFLA_VXLAN_LIMIT: Key<Vxlan, u32> = Key::new(9, "IFLA_VXLAN_LIMIT");
/// Selects `IFLA_VXLAN_PORT_RANGE` of [`Vxlan`] (`include/uapi/linux/if_link.h`).
pub const IFLA_VXLAN_PORT_RANGE: Key<Vxlan, Vec<u8>> = Key::new(10, "IFLA_VXLAN_PORT_RANGE");
/// Selects `IFLA_VXLAN_PROXY` of [`Vxlan`] (`include/uapi/linux/if_link.h`).
pub const IFLA_VXLAN_PROXY: Key<Vxlan, bool> = Key::new(11, "IFLA_VXLAN_PROXY");
/// Selects `IFLA_VXLAN_RSC` of [`Vxlan`] (`include/uapi/linux/if_link.h`).
pub const IFLA_VXLAN_RSC: Key<Vxlan, bool> = Key::new(12, "IFLA_VXLAN_RSC");
/// Selects `IFLA_VXLAN_L2MISS` of [`Vxlan`] (`include/uapi/linux/if_link.h`).
pub const IFLA_VXLAN_L2MISS: Key<Vxlan, bool> = Key::new(13, "IFLA_VXLAN_L2MISS");
/// Selects `IFLA_VXLAN_L3MISS` of [`Vxlan`] (`include/uapi/linux/if_link.h`).
pub const IFLA_VXLAN_L3MISS: Key<Vxlan, bool> = Key::new(14, "IFLA_VXLAN_L3MISS");
/// Selects `IFLA_VXLAN_PORT` of [`Vxlan`] (`include/uapi/linux/if_link.h`).
pub const IFLA_VXLAN_PORT: Key<Vxlan, u16> = Key::new(15, "IFLA_VXLAN_PORT");
/// Selects `IFLA_VXLAN_GROUP6` of [`Vxlan`] (`include/uapi/linux/if_link.h`).
pub const IFLA_VXLAN_GROUP6: Key<Vxlan, Ipv6Addr> = Key::new(16, "IFLA_VXLAN_GROUP6");
/// Selects `IFLA_VXLAN_LOCAL6` of [`Vxlan`] (`include/uapi/linux/if_link.h`).
pub const IFLA_VXLAN_LOCAL6: Key<Vxlan, Ipv6Addr> = Key::new(17, "IFLA_VXLAN_LOCAL6");
/// Selects `IFLA_VXLAN_UDP_CSUM` of [`Vxlan`] (`include/uapi/linux/if_link.h`).
pub const IFLA_VXLAN_UDP_CSUM: Key<Vxlan, bool> = Key::new(18, "IFLA_VXLAN_UDP_CSUM");
/// Selects `IFLA_VXLAN_UDP_ZERO_CSUM6_TX` of [`Vxlan`] (`include/uapi/linux/if_link.h`).
pub const IFLA_VXLAN_UDP_ZERO_CSUM6_TX: Key<Vxlan, bool> = Key::new(19, "IFLA_VXLAN_UDP_ZERO_CSUM6_TX");
/// Selects `IFLA_VXLAN_UDP_ZERO_CSUM6_RX` of [`Vxlan`] (`include/uapi/linux/if_link.h`).
pub const IFLA_VXLAN_UDP_ZERO_CSUM6_RX: Key<Vxlan, bool> = Key::new(20, "IFLA_VXLAN_UDP_ZERO_CSUM6_RX");
/// Selects `IFLA_VXLAN_REMCSUM_TX` of [`Vxlan`] (`include/uapi/linux/if_link.h`).
pub const IFLA_VXLAN_REMCSUM_TX: Key<Vxlan, bool> = Key::new(21, "IFLA_VXLAN_REMCSUM_TX");
/// Selects `IFLA_VXLAN_REMCSUM_RX` of [`Vxlan`] (`include/uapi/linux/if_link.h`).
pub const IFLA_VXLAN_REMCSUM_RX: Key<Vxlan, bool> = Key::new(22, "IFLA_VXLAN_REMCSUM_RX");
/// Selects `IFLA_VXLAN_GBP` of [`Vxlan`] (`include/uapi/linux/if_link.h`).
pub const IFLA_VXLAN_GBP: Key<Vxlan, ()> = Key::new(23, "IFLA_VXLAN_GBP");
/// Selects `IFLA_VXLAN_REMCSUM_NOPARTIAL` of [`Vxlan`] (`include/uapi/linux/if_link.h`).
pub const IFLA_VXLAN_REMCSUM_NOPARTIAL: Key<Vxlan, ()> = Key::new(24, "IFLA_VXLAN_REMCSUM_NOPARTIAL");
/// Selects `IFLA_VXLAN_COLLECT_METADATA` of [`Vxlan`] (`include/uapi/linux/if_link.h`).
pub const IFLA_VXLAN_COLLECT_METADATA: Key<Vxlan, bool> = Key::new(25, "IFLA_VXLAN_COLLECT_METADATA");
/// Selects `IFLA_VXLAN_LABEL` of [`Vxlan`] (`include/uapi/linux/if_link.h`). 100 is printed as `100 (0x64)`.
pub const IFLA_VXLAN_LABEL: Key<Vxlan, u32> = Key::new(26, "IFLA_VXLAN_LABEL");
/// Selects `IFLA_VXLAN_GPE` of [`Vxlan`] (`include/uapi/linux/if_link.h`).
pub const IFLA_VXLAN_GPE: Key<Vxlan, ()> = Key::new(27, "IFLA_VXLAN_GPE");
/// Selects `IFLA_VXLAN_TTL_INHERIT` of [`Vxlan`] (`include/uapi/linux/if_link.h`).
pub const IFLA_VXLAN_TTL_INHERIT: Key<Vxlan, bool> = Key::new(28, "IFLA_VXLAN_TTL_INHERIT");
/// Selects `IFLA_VXLAN_DF` of [`Vxlan`] (`include/uapi/linux/if_link.h`).
pub const IFLA_VXLAN_DF: Key<Vxlan, VxlanDf> = Key::new(29, "IFLA_VXLAN_DF");
/// Selects `IFLA_VXLAN_VNIFILTER` of [`Vxlan`] (`include/uapi/linux/if_link.h`).
pub const IFLA_VXLAN_VNIFILTER: Key<Vxlan, bool> = Key::new(30, "IFLA_VXLAN_VNIFILTER");
/// Selects `IFLA_VXLAN_LOCALBYPASS` of [`Vxlan`] (`include/uapi/linux/if_link.h`).
pub const IFLA_VXLAN_LOCALBYPASS: Key<Vxlan, bool> = Key::new(31, "IFLA_VXLAN_LOCALBYPASS");
/// Selects `IFLA_VXLAN_LABEL_POLICY` of [`Vxlan`] (`include/uapi/linux/if_link.h`).
pub const IFLA_VXLAN_LABEL_POLICY: Key<Vxlan, VxlanLabelPolicy> = Key::new(32, "IFLA_VXLAN_LABEL_POLICY");
/// Selects `IFLA_VXLAN_RESERVED_BITS` of [`Vxlan`] (`include/uapi/linux/if_link.h`).
pub const IFLA_VXLAN_RESERVED_BITS: Key<Vxlan, Vec<u8>> = Key::new(33, "IFLA_VXLAN_RESERVED_BITS");
/// Selects `IFLA_VXLAN_MC_ROUTE` of [`Vxlan`] (`include/uapi/linux/if_link.h`).
pub const IFLA_VXLAN_MC_ROUTE: Key<Vxlan, bool> = Key::new(34, "IFLA_VXLAN_MC_ROUTE");

scope! {
    /// Represents the attribute set [`Family::Link`] in types.
    Link;
}

/// Selects `IFLA_ADDRESS` of [`Link`] (`include/uapi/linux/if_link.h`).
pub const IFLA_ADDRESS: Key<Link, Vec<u8>> = Key::new(1, "IFLA_ADDRESS");
/// Selects `IFLA_BROADCAST` of [`Link`] (`include/uapi/linux/if_link.h`).
pub const IFLA_BROADCAST: Key<Link, Vec<u8>> = Key::new(2, "IFLA_BROADCAST");
/// Selects `IFLA_IFNAME` of [`Link`] (`include/uapi/linux/if_link.h`).
pub const IFLA_IFNAME: Key<Link, Text> = Key::new(3, "IFLA_IFNAME");
/// Selects `IFLA_MTU` of [`Link`] (`include/uapi/linux/if_link.h`).
pub const IFLA_MTU: Key<Link, u32> = Key::new(4, "IFLA_MTU");
/// Selects `IFLA_LINK` of [`Link`] (`include/uapi/linux/if_link.h`). 100 is printed as `ifindex 100`.
pub const IFLA_LINK: Key<Link, u32> = Key::new(5, "IFLA_LINK");
/// Selects `IFLA_QDISC` of [`Link`] (`include/uapi/linux/if_link.h`).
pub const IFLA_QDISC: Key<Link, Text> = Key::new(6, "IFLA_QDISC");
/// Selects `IFLA_STATS` of [`Link`] (`include/uapi/linux/if_link.h`).
pub const IFLA_STATS: Key<Link, Vec<u32>> = Key::new(7, "IFLA_STATS");
/// Selects `IFLA_COST` of [`Link`] (`include/uapi/linux/if_link.h`).
pub const IFLA_COST: Key<Link, Vec<u8>> = Key::new(8, "IFLA_COST");
/// Selects `IFLA_PRIORITY` of [`Link`] (`include/uapi/linux/if_link.h`).
pub const IFLA_PRIORITY: Key<Link, Vec<u8>> = Key::new(9, "IFLA_PRIORITY");
/// Selects `IFLA_MASTER` of [`Link`] (`include/uapi/linux/if_link.h`). 100 is printed as `ifindex 100`.
pub const IFLA_MASTER: Key<Link, u32> = Key::new(10, "IFLA_MASTER");
/// Selects `IFLA_WIRELESS` of [`Link`] (`include/uapi/linux/if_link.h`).
pub const IFLA_WIRELESS: Key<Link, Vec<u8>> = Key::new(11, "IFLA_WIRELESS");
/// Selects `IFLA_TXQLEN` of [`Link`] (`include/uapi/linux/if_link.h`).
pub const IFLA_TXQLEN: Key<Link, u32> = Key::new(13, "IFLA_TXQLEN");
/// Selects `IFLA_MAP` of [`Link`] (`include/uapi/linux/if_link.h`).
pub const IFLA_MAP: Key<Link, Vec<u8>> = Key::new(14, "IFLA_MAP");
/// Selects `IFLA_WEIGHT` of [`Link`] (`include/uapi/linux/if_link.h`).
pub const IFLA_WEIGHT: Key<Link, u32> = Key::new(15, "IFLA_WEIGHT");
/// Selects `IFLA_OPERSTATE` of [`Link`] (`include/uapi/linux/if_link.h`).
pub const IFLA_OPERSTATE: Key<Link, OperState> = Key::new(16, "IFLA_OPERSTATE");
/// Selects `IFLA_LINKMODE` of [`Link`] (`include/uapi/linux/if_link.h`).
pub const IFLA_LINKMODE: Key<Link, LinkMode> = Key::new(17, "IFLA_LINKMODE");
elements! {
    /// Represents the elements of [`IFLA_LINKINFO`] in types.
    LinkInfo of Link = 18;
}
/// Selects `IFLA_LINKINFO` of [`Link`] (`include/uapi/linux/if_link.h`).
pub const IFLA_LINKINFO: Key<Link, Nested<LinkInfo>> = Key::new(18, "IFLA_LINKINFO");
/// Selects `IFLA_INFO_KIND` of [`IFLA_LINKINFO`] (`include/uapi/linux/if_link.h`).
pub const IFLA_INFO_KIND: Key<LinkInfo, Text> = Key::new(1, "IFLA_INFO_KIND");
/// Selects `IFLA_INFO_DATA` of [`IFLA_LINKINFO`] (`include/uapi/linux/if_link.h`).
pub const IFLA_INFO_DATA: Key<LinkInfo, Held> = Key::new(2, "IFLA_INFO_DATA");
/// Selects `IFLA_INFO_XSTATS` of [`IFLA_LINKINFO`] (`include/uapi/linux/if_link.h`).
pub const IFLA_INFO_XSTATS: Key<LinkInfo, Vec<u8>> = Key::new(3, "IFLA_INFO_XSTATS");
/// Selects `IFLA_INFO_SLAVE_KIND` of [`IFLA_LINKINFO`] (`include/uapi/linux/if_link.h`).
pub const IFLA_INFO_SLAVE_KIND: Key<LinkInfo, Text> = Key::new(4, "IFLA_INFO_SLAVE_KIND");
/// Selects `IFLA_INFO_SLAVE_DATA` of [`IFLA_LINKINFO`] (`include/uapi/linux/if_link.h`).
pub const IFLA_INFO_SLAVE_DATA: Key<LinkInfo, Held> = Key::new(5, "IFLA_INFO_SLAVE_DATA");
/// Selects `IFLA_NET_NS_PID` of [`Link`] (`include/uapi/linux/if_link.h`).
pub const IFLA_NET_NS_PID: Key<Link, u32> = Key::new(19, "IFLA_NET_NS_PID");
/// Selects `IFLA_IFALIAS` of [`Link`] (`include/uapi/linux/if_link.h`).
pub const IFLA_IFALIAS: Key<Link, Text> = Key::new(20, "IFLA_IFALIAS");
/// Selects `IFLA_NUM_VF` of [`Link`] (`include/uapi/linux/if_link.h`).
pub const IFLA_NUM_VF: Key<Link, u32> = Key::new(21, "IFLA_NUM_VF");
/// Selects `IFLA_VFINFO_LIST` of [`Link`] (`include/uapi/linux/if_link.h`).
pub const IFLA_VFINFO_LIST: Key<Link, Held> = Key::new(22, "IFLA_VFINFO_LIST");
/// Selects `IFLA_STATS64` of [`Link`] (`include/uapi/linux/if_link.h`).
pub const IFLA_STATS64: Key<Link, Vec<u64>> = Key::new(23, "IFLA_STATS64");
/// Selects `IFLA_VF_PORTS` of [`Link`] (`include/uapi/linux/if_link.h`).
pub const IFLA_VF_PORTS: Key<Link, Held> = Key::new(24, "IFLA_VF_PORTS");
/// Selects `IFLA_PORT_SELF` of [`Link`] (`include/uapi/linux/if_link.h`).
pub const IFLA_PORT_SELF: Key<Link, Held> = Key::new(25, "IFLA_PORT_SELF");
/// Selects `IFLA_AF_SPEC` of [`Link`] (`include/uapi/linux/if_link.h`).
pub const IFLA_AF_SPEC: Key<Link, Held> = Key::new(26, "IFLA_AF_SPEC");
/// Selects `IFLA_GROUP` of [`Link`] (`include/uapi/linux/if_link.h`).
pub const IFLA_GROUP: Key<Link, u32> = Key::new(27, "IFLA_GROUP");
/// Selects `IFLA_NET_NS_FD` of [`Link`] (`include/uapi/linux/if_link.h`).
pub const IFLA_NET_NS_FD: Key<Link, u32> = Key::new(28, "IFLA_NET_NS_FD");
/// Selects `IFLA_EXT_MASK` of [`Link`] (`include/uapi/linux/if_link.h`).
pub const IFLA_EXT_MASK: Key<Link, ExtMask> = Key::new(29, "IFLA_EXT_MASK");
/// Selects `IFLA_PROMISCUITY` of [`Link`] (`include/uapi/linux/if_link.h`).
pub const IFLA_PROMISCUITY: Key<Link, u32> = Key::new(30, "IFLA_PROMISCUITY");
/// Selects `IFLA_NUM_TX_QUEUES` of [`Link`] (`include/uapi/linux/if_link.h`).
pub const IFLA_NUM_TX_QUEUES: Key<Link, u32> = Key::new(31, "IFLA_NUM_TX_QUEUES");
/// Selects `IFLA_NUM_RX_QUEUES` of [`Link`] (`include/uapi/linux/if_link.h`).
pub const IFLA_NUM_RX_QUEUES: Key<Link, u32> = Key::new(32, "IFLA_NUM_RX_QUEUES");
/// Selects `IFLA_CARRIER` of [`Link`] (`include/uapi/linux/if_link.h`).
pub const IFLA_CARRIER: Key<Link, bool> = Key::new(33, "IFLA_CARRIER");
/// Selects `IFLA_PHYS_PORT_ID` of [`Link`] (`include/uapi/linux/if_link.h`).
pub const IFLA_PHYS_PORT_ID: Key<Link, Vec<u8>> = Key::new(34, "IFLA_PHYS_PORT_ID");
/// Selects `IFLA_CARRIER_CHANGES` of [`Link`] (`include/uapi/linux/if_link.h`).
pub const IFLA_CARRIER_CHANGES: Key<Link, u32> = Key::new(35, "IFLA_CARRIER_CHANGES");
/// Selects `IFLA_PHYS_SWITCH_ID` of [`Link`] (`include/uapi/linux/if_link.h`).
pub const IFLA_PHYS_SWITCH_ID: Key<Link, Vec<u8>> = Key::new(36, "IFLA_PHYS_SWITCH_ID");
/// Selects `IFLA_LINK_NETNSID` of [`Link`] (`include/uapi/linux/if_link.h`).
pub const IFLA_LINK_NETNSID: Key<Link, i32> = Key::new(37, "IFLA_LINK_NETNSID");
/// Selects `IFLA_PHYS_PORT_NAME` of [`Link`] (`include/uapi/linux/if_link.h`).
pub const IFLA_PHYS_PORT_NAME: Key<Link, Text> = Key::new(38, "IFLA_PHYS_PORT_NAME");
/// Selects `IFLA_PROTO_DOWN` of [`Link`] (`include/uapi/linux/if_link.h`).
pub const IFLA_PROTO_DOWN: Key<Link, bool> = Key::new(39, "IFLA_PROTO_DOWN");
/// Selects `IFLA_GSO_MAX_SEGS` of [`Link`] (`include/uapi/linux/if_link.h`).
pub const IFLA_GSO_MAX_SEGS: Key<Link, u32> = Key::new(40, "IFLA_GSO_MAX_SEGS");
/// Selects `IFLA_GSO_MAX_SIZE` of [`Link`] (`include/uapi/linux/if_link.h`).
pub const IFLA_GSO_MAX_SIZE: Key<Link, u32> = Key::new(41, "IFLA_GSO_MAX_SIZE");
/// Selects `IFLA_PAD` of [`Link`] (`include/uapi/linux/if_link.h`).
pub const IFLA_PAD: Key<Link, ()> = Key::new(42, "IFLA_PAD");
elements! {
    /// Represents the elements of [`IFLA_XDP`] in types.
    Xdp of Link = 43;
}
/// Selects `IFLA_XDP` of [`Link`] (`include/uapi/linux/if_link.h`).
pub const IFLA_XDP: Key<Link, Nested<Xdp>> = Key::new(43, "IFLA_XDP");
/// Selects `IFLA_XDP_FD` of [`IFLA_XDP`] (`include/uapi/linux/if_link.h`).
pub const IFLA_XDP_FD: Key<Xdp, i32> = Key::new(1, "IFLA_XDP_FD");
/// Selects `IFLA_XDP_ATTACHED` of [`IFLA_XDP`] (`include/uapi/linux/if_link.h`).
pub const IFLA_XDP_ATTACHED: Key<Xdp, XdpAttached> = Key::new(2, "IFLA_XDP_ATTACHED");
/// Selects `IFLA_XDP_FLAGS` of [`IFLA_XDP`] (`include/uapi/linux/if_link.h`).
pub const IFLA_XDP_FLAGS: Key<Xdp, XdpFlags> = Key::new(3, "IFLA_XDP_FLAGS");
/// Selects `IFLA_XDP_PROG_ID` of [`IFLA_XDP`] (`include/uapi/linux/if_link.h`).
pub const IFLA_XDP_PROG_ID: Key<Xdp, u32> = Key::new(4, "IFLA_XDP_PROG_ID");
/// Selects `IFLA_XDP_DRV_PROG_ID` of [`IFLA_XDP`] (`include/uapi/linux/if_link.h`).
pub const IFLA_XDP_DRV_PROG_ID: Key<Xdp, u32> = Key::new(5, "IFLA_XDP_DRV_PROG_ID");
/// Selects `IFLA_XDP_SKB_PROG_ID` of [`IFLA_XDP`] (`include/uapi/linux/if_link.h`).
pub const IFLA_XDP_SKB_PROG_ID: Key<Xdp, u32> = Key::new(6, "IFLA_XDP_SKB_PROG_ID");
/// Selects `IFLA_XDP_HW_PROG_ID` of [`IFLA_XDP`] (`include/uapi/linux/if_link.h`).
pub const IFLA_XDP_HW_PROG_ID: Key<Xdp, u32> = Key::new(7, "IFLA_XDP_HW_PROG_ID");
/// Selects `IFLA_XDP_EXPECTED_FD` of [`IFLA_XDP`] (`include/uapi/linux/if_link.h`).
pub const IFLA_XDP_EXPECTED_FD: Key<Xdp, i32> = Key::new(8, "IFLA_XDP_EXPECTED_FD");
/// Selects `IFLA_EVENT` of [`Link`] (`include/uapi/linux/if_link.h`).
pub const IFLA_EVENT: Key<Link, LinkEvent> = Key::new(44, "IFLA_EVENT");
/// Selects `IFLA_NEW_NETNSID` of [`Link`] (`include/uapi/linux/if_link.h`).
pub const IFLA_NEW_NETNSID: Key<Link, i32> = Key::new(45, "IFLA_NEW_NETNSID");
/// Selects `IFLA_TARGET_NETNSID` of [`Link`] (`include/uapi/linux/if_link.h`).
pub const IFLA_TARGET_NETNSID: Key<Link, i32> = Key::new(46, "IFLA_TARGET_NETNSID");
/// Selects `IFLA_CARRIER_UP_COUNT` of [`Link`] (`include/uapi/linux/if_link.h`).
pub const IFLA_CARRIER_UP_COUNT: Key<Link, u32> = Key::new(47, "IFLA_CARRIER_UP_COUNT");
/// Selects `IFLA_CARRIER_DOWN_COUNT` of [`Link`] (`include/uapi/linux/if_link.h`).
pub const IFLA_CARRIER_DOWN_COUNT: Key<Link, u32> = Key::new(48, "IFLA_CARRIER_DOWN_COUNT");
/// Selects `IFLA_NEW_IFINDEX` of [`Link`] (`include/uapi/linux/if_link.h`). 100 is printed as `ifindex 100`.
pub const IFLA_NEW_IFINDEX: Key<Link, u32> = Key::new(49, "IFLA_NEW_IFINDEX");
/// Selects `IFLA_MIN_MTU` of [`Link`] (`include/uapi/linux/if_link.h`).
pub const IFLA_MIN_MTU: Key<Link, u32> = Key::new(50, "IFLA_MIN_MTU");
/// Selects `IFLA_MAX_MTU` of [`Link`] (`include/uapi/linux/if_link.h`).
pub const IFLA_MAX_MTU: Key<Link, u32> = Key::new(51, "IFLA_MAX_MTU");
elements! {
    /// Represents the elements of [`IFLA_PROP_LIST`] in types.
    PropList of Link = 52;
}
/// Selects `IFLA_PROP_LIST` of [`Link`] (`include/uapi/linux/if_link.h`).
pub const IFLA_PROP_LIST: Key<Link, Nested<PropList>> = Key::new(52, "IFLA_PROP_LIST");
/// Has the keys of [`IFLA_PROP_LIST`], of which its set has some with the same names.
pub mod prop_list {
    use crate::*;

    /// Selects `IFLA_ALT_IFNAME` of [`IFLA_PROP_LIST`] (`include/uapi/linux/if_link.h`).
    pub const IFLA_ALT_IFNAME: Key<PropList, Text> = Key::new(53, "IFLA_ALT_IFNAME");
}
/// Selects `IFLA_ALT_IFNAME` of [`Link`] (`include/uapi/linux/if_link.h`).
pub const IFLA_ALT_IFNAME: Key<Link, Text> = Key::new(53, "IFLA_ALT_IFNAME");
/// Selects `IFLA_PERM_ADDRESS` of [`Link`] (`include/uapi/linux/if_link.h`).
pub const IFLA_PERM_ADDRESS: Key<Link, Vec<u8>> = Key::new(54, "IFLA_PERM_ADDRESS");
elements! {
    /// Represents the elements of [`IFLA_PROTO_DOWN_REASON`] in types.
    ProtoDownReason of Link = 55;
}
/// Selects `IFLA_PROTO_DOWN_REASON` of [`Link`] (`include/uapi/linux/if_link.h`).
pub const IFLA_PROTO_DOWN_REASON: Key<Link, Nested<ProtoDownReason>> = Key::new(55, "IFLA_PROTO_DOWN_REASON");
/// Selects `IFLA_PROTO_DOWN_REASON_MASK` of [`IFLA_PROTO_DOWN_REASON`] (`include/uapi/linux/if_link.h`). 100 is
/// printed as `100 (0x64)`.
pub const IFLA_PROTO_DOWN_REASON_MASK: Key<ProtoDownReason, u32> = Key::new(1, "IFLA_PROTO_DOWN_REASON_MASK");
/// Selects `IFLA_PROTO_DOWN_REASON_VALUE` of [`IFLA_PROTO_DOWN_REASON`] (`include/uapi/linux/if_link.h`). 100 is
/// printed as `100 (0x64)`.
pub const IFLA_PROTO_DOWN_REASON_VALUE: Key<ProtoDownReason, u32> = Key::new(2, "IFLA_PROTO_DOWN_REASON_VALUE");
/// Selects `IFLA_PARENT_DEV_NAME` of [`Link`] (`include/uapi/linux/if_link.h`).
pub const IFLA_PARENT_DEV_NAME: Key<Link, Text> = Key::new(56, "IFLA_PARENT_DEV_NAME");
/// Selects `IFLA_PARENT_DEV_BUS_NAME` of [`Link`] (`include/uapi/linux/if_link.h`).
pub const IFLA_PARENT_DEV_BUS_NAME: Key<Link, Text> = Key::new(57, "IFLA_PARENT_DEV_BUS_NAME");
/// Selects `IFLA_GRO_MAX_SIZE` of [`Link`] (`include/uapi/linux/if_link.h`).
pub const IFLA_GRO_MAX_SIZE: Key<Link, u32> = Key::new(58, "IFLA_GRO_MAX_SIZE");
/// Selects `IFLA_TSO_MAX_SIZE` of [`Link`] (`include/uapi/linux/if_link.h`).
pub const IFLA_TSO_MAX_SIZE: Key<Link, u32> = Key::new(59, "IFLA_TSO_MAX_SIZE");
/// Selects `IFLA_TSO_MAX_SEGS` of [`Link`] (`include/uapi/linux/if_link.h`).
pub const IFLA_TSO_MAX_SEGS: Key<Link, u32> = Key::new(60, "IFLA_TSO_MAX_SEGS");
/// Selects `IFLA_ALLMULTI` of [`Link`] (`include/uapi/linux/if_link.h`).
pub const IFLA_ALLMULTI: Key<Link, u32> = Key::new(61, "IFLA_ALLMULTI");
elements! {
    /// Represents the elements of [`IFLA_DEVLINK_PORT`] in types.
    DevlinkPort of Link = 62;
}
/// Selects `IFLA_DEVLINK_PORT` of [`Link`] (`include/uapi/linux/if_link.h`).
pub const IFLA_DEVLINK_PORT: Key<Link, Nested<DevlinkPort>> = Key::new(62, "IFLA_DEVLINK_PORT");
/// Selects `DEVLINK_ATTR_BUS_NAME` of [`IFLA_DEVLINK_PORT`] (`include/uapi/linux/devlink.h`).
pub const DEVLINK_ATTR_BUS_NAME: Key<DevlinkPort, Text> = Key::new(1, "DEVLINK_ATTR_BUS_NAME");
/// Selects `DEVLINK_ATTR_DEV_NAME` of [`IFLA_DEVLINK_PORT`] (`include/uapi/linux/devlink.h`).
pub const DEVLINK_ATTR_DEV_NAME: Key<DevlinkPort, Text> = Key::new(2, "DEVLINK_ATTR_DEV_NAME");
/// Selects `DEVLINK_ATTR_PORT_INDEX` of [`IFLA_DEVLINK_PORT`] (`include/uapi/linux/devlink.h`).
pub const DEVLINK_ATTR_PORT_INDEX: Key<DevlinkPort, u32> = Key::new(3, "DEVLINK_ATTR_PORT_INDEX");
/// Selects `IFLA_GSO_IPV4_MAX_SIZE` of [`Link`] (`include/uapi/linux/if_link.h`).
pub const IFLA_GSO_IPV4_MAX_SIZE: Key<Link, u32> = Key::new(63, "IFLA_GSO_IPV4_MAX_SIZE");
/// Selects `IFLA_GRO_IPV4_MAX_SIZE` of [`Link`] (`include/uapi/linux/if_link.h`).
pub const IFLA_GRO_IPV4_MAX_SIZE: Key<Link, u32> = Key::new(64, "IFLA_GRO_IPV4_MAX_SIZE");
elements! {
    /// Represents the elements of [`IFLA_DPLL_PIN`] in types.
    DpllPin of Link = 65;
}
/// Selects `IFLA_DPLL_PIN` of [`Link`] (`include/uapi/linux/if_link.h`).
pub const IFLA_DPLL_PIN: Key<Link, Nested<DpllPin>> = Key::new(65, "IFLA_DPLL_PIN");
/// Selects `DPLL_A_PIN_ID` of [`IFLA_DPLL_PIN`] (`include/uapi/linux/dpll.h`).
pub const DPLL_A_PIN_ID: Key<DpllPin, u32> = Key::new(1, "DPLL_A_PIN_ID");
/// Selects `IFLA_MAX_PACING_OFFLOAD_HORIZON` of [`Link`] (`include/uapi/linux/if_link.h`).
pub const IFLA_MAX_PACING_OFFLOAD_HORIZON: Key<Link, Vec<u8>> = Key::new(66, "IFLA_MAX_PACING_OFFLOAD_HORIZON");
/// Selects `IFLA_NETNS_IMMUTABLE` of [`Link`] (`include/uapi/linux/if_link.h`).
pub const IFLA_NETNS_IMMUTABLE: Key<Link, bool> = Key::new(67, "IFLA_NETNS_IMMUTABLE");
/// Selects `IFLA_HEADROOM` of [`Link`] (`include/uapi/linux/if_link.h`).
pub const IFLA_HEADROOM: Key<Link, u16> = Key::new(68, "IFLA_HEADROOM");
/// Selects `IFLA_TAILROOM` of [`Link`] (`include/uapi/linux/if_link.h`).
pub const IFLA_TAILROOM: Key<Link, u16> = Key::new(69, "IFLA_TAILROOM");

scope! {
    /// Represents the attribute set [`Family::AfSpec`] in types.
    AfSpec;
}

/// Selects `AF_INET` of [`AfSpec`] (`include/linux/socket.h`).
pub const AF_INET: Key<AfSpec, Held> = Key::new(2, "AF_INET");
/// Selects `AF_INET6` of [`AfSpec`] (`include/linux/socket.h`).
pub const AF_INET6: Key<AfSpec, Held> = Key::new(10, "AF_INET6");
/// Selects `AF_MCTP` of [`AfSpec`] (`include/linux/socket.h`).
pub const AF_MCTP: Key<AfSpec, Held> = Key::new(45, "AF_MCTP");

scope! {
    /// Represents the attribute set [`Family::Inet`] in types.
    Inet;
}

/// Selects `IFLA_INET_CONF` of [`Inet`] (`include/uapi/linux/if_link.h`).
pub const IFLA_INET_CONF: Key<Inet, Vec<i32>> = Key::new(1, "IFLA_INET_CONF");

scope! {
    /// Represents the attribute set [`Family::Inet6`] in types.
    Inet6;
}

/// Selects `IFLA_INET6_FLAGS` of [`Inet6`] (`include/uapi/linux/if_link.h`).
pub const IFLA_INET6_FLAGS: Key<Inet6, Inet6Flags> = Key::new(1, "IFLA_INET6_FLAGS");
/// Selects `IFLA_INET6_CONF` of [`Inet6`] (`include/uapi/linux/if_link.h`).
pub const IFLA_INET6_CONF: Key<Inet6, Vec<i32>> = Key::new(2, "IFLA_INET6_CONF");
/// Selects `IFLA_INET6_STATS` of [`Inet6`] (`include/uapi/linux/if_link.h`).
pub const IFLA_INET6_STATS: Key<Inet6, Vec<u64>> = Key::new(3, "IFLA_INET6_STATS");
/// Selects `IFLA_INET6_MCAST` of [`Inet6`] (`include/uapi/linux/if_link.h`).
pub const IFLA_INET6_MCAST: Key<Inet6, Vec<u8>> = Key::new(4, "IFLA_INET6_MCAST");
/// Selects `IFLA_INET6_CACHEINFO` of [`Inet6`] (`include/uapi/linux/if_link.h`).
pub const IFLA_INET6_CACHEINFO: Key<Inet6, Vec<u8>> = Key::new(5, "IFLA_INET6_CACHEINFO");
/// Selects `IFLA_INET6_ICMP6STATS` of [`Inet6`] (`include/uapi/linux/if_link.h`).
pub const IFLA_INET6_ICMP6STATS: Key<Inet6, Vec<u64>> = Key::new(6, "IFLA_INET6_ICMP6STATS");
/// Selects `IFLA_INET6_TOKEN` of [`Inet6`] (`include/uapi/linux/if_link.h`).
pub const IFLA_INET6_TOKEN: Key<Inet6, Ipv6Addr> = Key::new(7, "IFLA_INET6_TOKEN");
/// Selects `IFLA_INET6_ADDR_GEN_MODE` of [`Inet6`] (`include/uapi/linux/if_link.h`).
pub const IFLA_INET6_ADDR_GEN_MODE: Key<Inet6, AddrGenMode> = Key::new(8, "IFLA_INET6_ADDR_GEN_MODE");
/// Selects `IFLA_INET6_RA_MTU` of [`Inet6`] (`include/uapi/linux/if_link.h`).
pub const IFLA_INET6_RA_MTU: Key<Inet6, u32> = Key::new(9, "IFLA_INET6_RA_MTU");

scope! {
    /// Represents the attribute set [`Family::Mctp`] in types.
    Mctp;
}

/// Selects `IFLA_MCTP_NET` of [`Mctp`] (`include/uapi/linux/if_link.h`).
pub const IFLA_MCTP_NET: Key<Mctp, u32> = Key::new(1, "IFLA_MCTP_NET");
/// Selects `IFLA_MCTP_PHYS_BINDING` of [`Mctp`] (`include/uapi/linux/if_link.h`).
pub const IFLA_MCTP_PHYS_BINDING: Key<Mctp, u8> = Key::new(2, "IFLA_MCTP_PHYS_BINDING");

scope! {
    /// Represents the attribute set [`Family::Reply`] in types.
    Reply;
}

/// Selects `NLMSGERR_ATTR_MSG` of [`Reply`] (`include/uapi/linux/netlink.h`).
pub const NLMSGERR_ATTR_MSG: Key<Reply, Text> = Key::new(1, "NLMSGERR_ATTR_MSG");
/// Selects `NLMSGERR_ATTR_OFFS` of [`Reply`] (`include/uapi/linux/netlink.h`).
pub const NLMSGERR_ATTR_OFFS: Key<Reply, u32> = Key::new(2, "NLMSGERR_ATTR_OFFS");
/// Selects `NLMSGERR_ATTR_COOKIE` of [`Reply`] (`include/uapi/linux/netlink.h`).
pub const NLMSGERR_ATTR_COOKIE: Key<Reply, Vec<u8>> = Key::new(3, "NLMSGERR_ATTR_COOKIE");
/// Selects `NLMSGERR_ATTR_POLICY` of [`Reply`] (`include/uapi/linux/netlink.h`).
pub const NLMSGERR_ATTR_POLICY: Key<Reply, Held> = Key::new(4, "NLMSGERR_ATTR_POLICY");
/// Selects `NLMSGERR_ATTR_MISS_TYPE` of [`Reply`] (`include/uapi/linux/netlink.h`).
pub const NLMSGERR_ATTR_MISS_TYPE: Key<Reply, u32> = Key::new(5, "NLMSGERR_ATTR_MISS_TYPE");
/// Selects `NLMSGERR_ATTR_MISS_NEST` of [`Reply`] (`include/uapi/linux/netlink.h`).
pub const NLMSGERR_ATTR_MISS_NEST: Key<Reply, u32> = Key::new(6, "NLMSGERR_ATTR_MISS_NEST");

scope! {
    /// Represents the attribute set [`Family::Geneve`] in types.
    Geneve;
}

/// Selects `IFLA_GENEVE_ID` of [`Geneve`] (`include/uapi/linux/if_link.h`).
pub const IFLA_GENEVE_ID: Key<Geneve, u32> = Key::new(1, "IFLA_GENEVE_ID");
/// Selects `IFLA_GENEVE_REMOTE` of [`Geneve`] (`include/uapi/linux/if_link.h`).
pub const IFLA_GENEVE_REMOTE: Key<Geneve, Ipv4Addr> = Key::new(2, "IFLA_GENEVE_REMOTE");
/// Selects `IFLA_GENEVE_TTL` of [`Geneve`] (`include/uapi/linux/if_link.h`).
pub const IFLA_GENEVE_TTL: Key<Geneve, u8> = Key::new(3, "IFLA_GENEVE_TTL");
/// Selects `IFLA_GENEVE_TOS` of [`Geneve`] (`include/uapi/linux/if_link.h`). 100 is printed as `100 (0x64)`.
pub const IFLA_GENEVE_TOS: Key<Geneve, u8> = Key::new(4, "IFLA_GENEVE_TOS");
/// Selects `IFLA_GENEVE_PORT` of [`Geneve`] (`include/uapi/linux/if_link.h`).
pub const IFLA_GENEVE_PORT: Key<Geneve, u16> = Key::new(5, "IFLA_GENEVE_PORT");
/// Selects `IFLA_GENEVE_COLLECT_METADATA` of [`Geneve`] (`include/uapi/linux/if_link.h`).
pub const IFLA_GENEVE_COLLECT_METADATA: Key<Geneve, ()> = Key::new(6, "IFLA_GENEVE_COLLECT_METADATA");
/// Selects `IFLA_GENEVE_REMOTE6` of [`Geneve`] (`include/uapi/linux/if_link.h`).
pub const IFLA_GENEVE_REMOTE6: Key<Geneve, Ipv6Addr> = Key::new(7, "IFLA_GENEVE_REMOTE6");
/// Selects `IFLA_GENEVE_UDP_CSUM` of [`Geneve`] (`include/uapi/linux/if_link.h`).
pub const IFLA_GENEVE_UDP_CSUM: Key<Geneve, bool> = Key::new(8, "IFLA_GENEVE_UDP_CSUM");
/// Selects `IFLA_GENEVE_UDP_ZERO_CSUM6_TX` of [`Geneve`] (`include/uapi/linux/if_link.h`).
pub const IFLA_GENEVE_UDP_ZERO_CSUM6_TX: Key<Geneve, bool> = Key::new(9, "IFLA_GENEVE_UDP_ZERO_CSUM6_TX");
/// Selects `IFLA_GENEVE_UDP_ZERO_CSUM6_RX` of [`Geneve`] (`include/uapi/linux/if_link.h`).
pub const IFLA_GENEVE_UDP_ZERO_CSUM6_RX: Key<Geneve, bool> = Key::new(10, "IFLA_GENEVE_UDP_ZERO_CSUM6_RX");
/// Selects `IFLA_GENEVE_LABEL` of [`Geneve`] (`include/uapi/linux/if_link.h`). 100 is printed as `100 (0x64)`.
pub const IFLA_GENEVE_LABEL: Key<Geneve, u32> = Key::new(11, "IFLA_GENEVE_LABEL");
/// Selects `IFLA_GENEVE_TTL_INHERIT` of [`Geneve`] (`include/uapi/linux/if_link.h`).
pub const IFLA_GENEVE_TTL_INHERIT: Key<Geneve, bool> = Key::new(12, "IFLA_GENEVE_TTL_INHERIT");
/// Selects `IFLA_GENEVE_DF` of [`Geneve`] (`include/uapi/linux/if_link.h`).
pub const IFLA_GENEVE_DF: Key<Geneve, VxlanDf> = Key::new(13, "IFLA_GENEVE_DF");
/// Selects `IFLA_GENEVE_INNER_PROTO_INHERIT` of [`Geneve`] (`include/uapi/linux/if_link.h`).
pub const IFLA_GENEVE_INNER_PROTO_INHERIT: Key<Geneve, ()> = Key::new(14, "IFLA_GENEVE_INNER_PROTO_INHERIT");
/// Selects `IFLA_GENEVE_PORT_RANGE` of [`Geneve`] (`include/uapi/linux/if_link.h`).
pub const IFLA_GENEVE_PORT_RANGE: Key<Geneve, Vec<u8>> = Key::new(15, "IFLA_GENEVE_PORT_RANGE");

scope! {
    /// Represents the attribute set [`Family::Vrf`] in types.
    Vrf;
}

/// Selects `IFLA_VRF_TABLE` of [`Vrf`] (`include/uapi/linux/if_link.h`).
pub const IFLA_VRF_TABLE: Key<Vrf, u32> = Key::new(1, "IFLA_VRF_TABLE");

scope! {
    /// Represents the attribute set [`Family::VrfPort`] in types.
    VrfPort;
}

/// Selects `IFLA_VRF_PORT_TABLE` of [`VrfPort`] (`include/uapi/linux/if_link.h`).
pub const IFLA_VRF_PORT_TABLE: Key<VrfPort, u32> = Key::new(1, "IFLA_VRF_PORT_TABLE");

scope! {
    /// Represents the attribute set [`Family::Tun`] in types.
    Tun;
}

/// Selects `IFLA_TUN_OWNER` of [`Tun`] (`include/uapi/linux/if_link.h`).
pub const IFLA_TUN_OWNER: Key<Tun, u32> = Key::new(1, "IFLA_TUN_OWNER");
/// Selects `IFLA_TUN_GROUP` of [`Tun`] (`include/uapi/linux/if_link.h`).
pub const IFLA_TUN_GROUP: Key<Tun, u32> = Key::new(2, "IFLA_TUN_GROUP");
/// Selects `IFLA_TUN_TYPE` of [`Tun`] (`include/uapi/linux/if_link.h`).
pub const IFLA_TUN_TYPE: Key<Tun, TunType> = Key::new(3, "IFLA_TUN_TYPE");
/// Selects `IFLA_TUN_PI` of [`Tun`] (`include/uapi/linux/if_link.h`).
pub const IFLA_TUN_PI: Key<Tun, bool> = Key::new(4, "IFLA_TUN_PI");
/// Selects `IFLA_TUN_VNET_HDR` of [`Tun`] (`include/uapi/linux/if_link.h`).
pub const IFLA_TUN_VNET_HDR: Key<Tun, bool> = Key::new(5, "IFLA_TUN_VNET_HDR");
/// Selects `IFLA_TUN_PERSIST` of [`Tun`] (`include/uapi/linux/if_link.h`).
pub const IFLA_TUN_PERSIST: Key<Tun, bool> = Key::new(6, "IFLA_TUN_PERSIST");
/// Selects `IFLA_TUN_MULTI_QUEUE` of [`Tun`] (`include/uapi/linux/if_link.h`).
pub const IFLA_TUN_MULTI_QUEUE: Key<Tun, bool> = Key::new(7, "IFLA_TUN_MULTI_QUEUE");
/// Selects `IFLA_TUN_NUM_QUEUES` of [`Tun`] (`include/uapi/linux/if_link.h`).
pub const IFLA_TUN_NUM_QUEUES: Key<Tun, u32> = Key::new(8, "IFLA_TUN_NUM_QUEUES");
/// Selects `IFLA_TUN_NUM_DISABLED_QUEUES` of [`Tun`] (`include/uapi/linux/if_link.h`).
pub const IFLA_TUN_NUM_DISABLED_QUEUES: Key<Tun, u32> = Key::new(9, "IFLA_TUN_NUM_DISABLED_QUEUES");

scope! {
    /// Represents the attribute set [`Family::Ipvlan`] in types.
    Ipvlan;
}

/// Selects `IFLA_IPVLAN_MODE` of [`Ipvlan`] (`include/uapi/linux/if_link.h`).
pub const IFLA_IPVLAN_MODE: Key<Ipvlan, IpvlanMode> = Key::new(1, "IFLA_IPVLAN_MODE");
/// Selects `IFLA_IPVLAN_FLAGS` of [`Ipvlan`] (`include/uapi/linux/if_link.h`).
pub const IFLA_IPVLAN_FLAGS: Key<Ipvlan, IpvlanFlags> = Key::new(2, "IFLA_IPVLAN_FLAGS");

scope! {
    /// Represents the attribute set [`Family::Macvlan`] in types.
    Macvlan;
}

/// Selects `IFLA_MACVLAN_MODE` of [`Macvlan`] (`include/uapi/linux/if_link.h`).
pub const IFLA_MACVLAN_MODE: Key<Macvlan, MacvlanMode> = Key::new(1, "IFLA_MACVLAN_MODE");
/// Selects `IFLA_MACVLAN_FLAGS` of [`Macvlan`] (`include/uapi/linux/if_link.h`).
pub const IFLA_MACVLAN_FLAGS: Key<Macvlan, MacvlanFlags> = Key::new(2, "IFLA_MACVLAN_FLAGS");
/// Selects `IFLA_MACVLAN_MACADDR_MODE` of [`Macvlan`] (`include/uapi/linux/if_link.h`).
pub const IFLA_MACVLAN_MACADDR_MODE: Key<Macvlan, MacvlanMacaddrMode> = Key::new(3, "IFLA_MACVLAN_MACADDR_MODE");
/// Selects `IFLA_MACVLAN_MACADDR` of [`Macvlan`] (`include/uapi/linux/if_link.h`).
pub const IFLA_MACVLAN_MACADDR: Key<Macvlan, Mac> = Key::new(4, "IFLA_MACVLAN_MACADDR");
elements! {
    /// Represents the elements of [`IFLA_MACVLAN_MACADDR_DATA`] in types.
    MacvlanMacaddrData of Macvlan = 5;
}
/// Selects `IFLA_MACVLAN_MACADDR_DATA` of [`Macvlan`] (`include/uapi/linux/if_link.h`).
pub const IFLA_MACVLAN_MACADDR_DATA: Key<Macvlan, Nested<MacvlanMacaddrData>> =
    Key::new(5, "IFLA_MACVLAN_MACADDR_DATA");
/// Has the keys of [`IFLA_MACVLAN_MACADDR_DATA`], of which its set has some with the same names.
pub mod macvlan_macaddr_data {
    use crate::*;

    /// Selects `IFLA_MACVLAN_MACADDR` of [`IFLA_MACVLAN_MACADDR_DATA`] (`include/uapi/linux/if_link.h`).
    pub const IFLA_MACVLAN_MACADDR: Key<MacvlanMacaddrData, Mac> = Key::new(4, "IFLA_MACVLAN_MACADDR");
}
/// Selects `IFLA_MACVLAN_MACADDR_COUNT` of [`Macvlan`] (`include/uapi/linux/if_link.h`).
pub const IFLA_MACVLAN_MACADDR_COUNT: Key<Macvlan, u32> = Key::new(6, "IFLA_MACVLAN_MACADDR_COUNT");
/// Selects `IFLA_MACVLAN_BC_QUEUE_LEN` of [`Macvlan`] (`include/uapi/linux/if_link.h`).
pub const IFLA_MACVLAN_BC_QUEUE_LEN: Key<Macvlan, u32> = Key::new(7, "IFLA_MACVLAN_BC_QUEUE_LEN");
/// Selects `IFLA_MACVLAN_BC_QUEUE_LEN_USED` of [`Macvlan`] (`include/uapi/linux/if_link.h`).
pub const IFLA_MACVLAN_BC_QUEUE_LEN_USED: Key<Macvlan, u32> = Key::new(8, "IFLA_MACVLAN_BC_QUEUE_LEN_USED");
/// Selects `IFLA_MACVLAN_BC_CUTOFF` of [`Macvlan`] (`include/uapi/linux/if_link.h`).
pub const IFLA_MACVLAN_BC_CUTOFF: Key<Macvlan, i32> = Key::new(9, "IFLA_MACVLAN_BC_CUTOFF");

scope! {
    /// Represents the attribute set [`Family::Netkit`] in types.
    Netkit;
}

/// Selects `IFLA_NETKIT_PEER_INFO` of [`Netkit`] (`include/uapi/linux/if_link.h`).
pub const IFLA_NETKIT_PEER_INFO: Key<Netkit, Peer> = Key::new(1, "IFLA_NETKIT_PEER_INFO");
/// Selects `IFLA_NETKIT_PRIMARY` of [`Netkit`] (`include/uapi/linux/if_link.h`).
pub const IFLA_NETKIT_PRIMARY: Key<Netkit, bool> = Key::new(2, "IFLA_NETKIT_PRIMARY");
/// Selects `IFLA_NETKIT_POLICY` of [`Netkit`] (`include/uapi/linux/if_link.h`).
pub const IFLA_NETKIT_POLICY: Key<Netkit, NetkitPolicy> = Key::new(3, "IFLA_NETKIT_POLICY");
/// Selects `IFLA_NETKIT_PEER_POLICY` of [`Netkit`] (`include/uapi/linux/if_link.h`).
pub const IFLA_NETKIT_PEER_POLICY: Key<Netkit, NetkitPolicy> = Key::new(4, "IFLA_NETKIT_PEER_POLICY");
/// Selects `IFLA_NETKIT_MODE` of [`Netkit`] (`include/uapi/linux/if_link.h`).
pub const IFLA_NETKIT_MODE: Key<Netkit, NetkitMode> = Key::new(5, "IFLA_NETKIT_MODE");
/// Selects `IFLA_NETKIT_SCRUB` of [`Netkit`] (`include/uapi/linux/if_link.h`).
pub const IFLA_NETKIT_SCRUB: Key<Netkit, NetkitScrub> = Key::new(6, "IFLA_NETKIT_SCRUB");
/// Selects `IFLA_NETKIT_PEER_SCRUB` of [`Netkit`] (`include/uapi/linux/if_link.h`).
pub const IFLA_NETKIT_PEER_SCRUB: Key<Netkit, NetkitScrub> = Key::new(7, "IFLA_NETKIT_PEER_SCRUB");
/// Selects `IFLA_NETKIT_HEADROOM` of [`Netkit`] (`include/uapi/linux/if_link.h`).
pub const IFLA_NETKIT_HEADROOM: Key<Netkit, u16> = Key::new(8, "IFLA_NETKIT_HEADROOM");
/// Selects `IFLA_NETKIT_TAILROOM` of [`Netkit`] (`include/uapi/linux/if_link.h`).
pub const IFLA_NETKIT_TAILROOM: Key<Netkit, u16> = Key::new(9, "IFLA_NETKIT_TAILROOM");

scope! {
    /// Represents the attribute set [`Family::Veth`] in types.
    Veth;
}

/// Selects `VETH_INFO_PEER` of [`Veth`] (`include/uapi/linux/veth.h`).
pub const VETH_INFO_PEER: Key<Veth, Peer> = Key::new(1, "VETH_INFO_PEER");

/// Has the places of the array [`IFLA_STATS`]: indices of its `Vec`.
pub mod link_stats {
    /// Is the place of `rx_packets`.
    pub const RX_PACKETS: usize = 0;
    /// Is the place of `tx_packets`.
    pub const TX_PACKETS: usize = 1;
    /// Is the place of `rx_bytes`.
    pub const RX_BYTES: usize = 2;
    /// Is the place of `tx_bytes`.
    pub const TX_BYTES: usize = 3;
    /// Is the place of `rx_errors`.
    pub const RX_ERRORS: usize = 4;
    /// Is the place of `tx_errors`.
    pub const TX_ERRORS: usize = 5;
    /// Is the place of `rx_dropped`.
    pub const RX_DROPPED: usize = 6;
    /// Is the place of `tx_dropped`.
    pub const TX_DROPPED: usize = 7;
    /// Is the place of `multicast`.
    pub const MULTICAST: usize = 8;
    /// Is the place of `collisions`.
    pub const COLLISIONS: usize = 9;
    /// Is the place of `rx_length_errors`.
    pub const RX_LENGTH_ERRORS: usize = 10;
    /// Is the place of `rx_over_errors`.
    pub const RX_OVER_ERRORS: usize = 11;
    /// Is the place of `rx_crc_errors`.
    pub const RX_CRC_ERRORS: usize = 12;
    /// Is the place of `rx_frame_errors`.
    pub const RX_FRAME_ERRORS: usize = 13;
    /// Is the place of `rx_fifo_errors`.
    pub const RX_FIFO_ERRORS: usize = 14;
    /// Is the place of `rx_missed_errors`.
    pub const RX_MISSED_ERRORS: usize = 15;
    /// Is the place of `tx_aborted_errors`.
    pub const TX_ABORTED_ERRORS: usize = 16;
    /// Is the place of `tx_carrier_errors`.
    pub const TX_CARRIER_ERRORS: usize = 17;
    /// Is the place of `tx_fifo_errors`.
    pub const TX_FIFO_ERRORS: usize = 18;
    /// Is the place of `tx_heartbeat_errors`.
    pub const TX_HEARTBEAT_ERRORS: usize = 19;
    /// Is the place of `tx_window_errors`.
    pub const TX_WINDOW_ERRORS: usize = 20;
    /// Is the place of `rx_compressed`.
    pub const RX_COMPRESSED: usize = 21;
    /// Is the place of `tx_compressed`.
    pub const TX_COMPRESSED: usize = 22;
    /// Is the place of `rx_nohandler`.
    pub const RX_NOHANDLER: usize = 23;
}

/// Has the places of the array [`IFLA_STATS64`]: indices of its `Vec`.
pub mod link_stats64 {
    /// Is the place of `rx_packets`.
    pub const RX_PACKETS: usize = 0;
    /// Is the place of `tx_packets`.
    pub const TX_PACKETS: usize = 1;
    /// Is the place of `rx_bytes`.
    pub const RX_BYTES: usize = 2;
    /// Is the place of `tx_bytes`.
    pub const TX_BYTES: usize = 3;
    /// Is the place of `rx_errors`.
    pub const RX_ERRORS: usize = 4;
    /// Is the place of `tx_errors`.
    pub const TX_ERRORS: usize = 5;
    /// Is the place of `rx_dropped`.
    pub const RX_DROPPED: usize = 6;
    /// Is the place of `tx_dropped`.
    pub const TX_DROPPED: usize = 7;
    /// Is the place of `multicast`.
    pub const MULTICAST: usize = 8;
    /// Is the place of `collisions`.
    pub const COLLISIONS: usize = 9;
    /// Is the place of `rx_length_errors`.
    pub const RX_LENGTH_ERRORS: usize = 10;
    /// Is the place of `rx_over_errors`.
    pub const RX_OVER_ERRORS: usize = 11;
    /// Is the place of `rx_crc_errors`.
    pub const RX_CRC_ERRORS: usize = 12;
    /// Is the place of `rx_frame_errors`.
    pub const RX_FRAME_ERRORS: usize = 13;
    /// Is the place of `rx_fifo_errors`.
    pub const RX_FIFO_ERRORS: usize = 14;
    /// Is the place of `rx_missed_errors`.
    pub const RX_MISSED_ERRORS: usize = 15;
    /// Is the place of `tx_aborted_errors`.
    pub const TX_ABORTED_ERRORS: usize = 16;
    /// Is the place of `tx_carrier_errors`.
    pub const TX_CARRIER_ERRORS: usize = 17;
    /// Is the place of `tx_fifo_errors`.
    pub const TX_FIFO_ERRORS: usize = 18;
    /// Is the place of `tx_heartbeat_errors`.
    pub const TX_HEARTBEAT_ERRORS: usize = 19;
    /// Is the place of `tx_window_errors`.
    pub const TX_WINDOW_ERRORS: usize = 20;
    /// Is the place of `rx_compressed`.
    pub const RX_COMPRESSED: usize = 21;
    /// Is the place of `tx_compressed`.
    pub const TX_COMPRESSED: usize = 22;
    /// Is the place of `rx_nohandler`.
    pub const RX_NOHANDLER: usize = 23;
    /// Is the place of `rx_otherhost_dropped`.
    pub const RX_OTHERHOST_DROPPED: usize = 24;
}

/// Has the places of the array [`IFLA_INET_CONF`]: indices of its `Vec`.
pub mod ipv4_conf {
    /// Is the place of `forwarding`.
    pub const FORWARDING: usize = 0;
    /// Is the place of `mc_forwarding`.
    pub const MC_FORWARDING: usize = 1;
    /// Is the place of `proxy_arp`.
    pub const PROXY_ARP: usize = 2;
    /// Is the place of `accept_redirects`.
    pub const ACCEPT_REDIRECTS: usize = 3;
    /// Is the place of `secure_redirects`.
    pub const SECURE_REDIRECTS: usize = 4;
    /// Is the place of `send_redirects`.
    pub const SEND_REDIRECTS: usize = 5;
    /// Is the place of `shared_media`.
    pub const SHARED_MEDIA: usize = 6;
    /// Is the place of `rp_filter`.
    pub const RP_FILTER: usize = 7;
    /// Is the place of `accept_source_route`.
    pub const ACCEPT_SOURCE_ROUTE: usize = 8;
    /// Is the place of `bootp_relay`.
    pub const BOOTP_RELAY: usize = 9;
    /// Is the place of `log_martians`.
    pub const LOG_MARTIANS: usize = 10;
    /// Is the place of `tag`.
    pub const TAG: usize = 11;
    /// Is the place of `arpfilter`.
    pub const ARPFILTER: usize = 12;
    /// Is the place of `medium_id`.
    pub const MEDIUM_ID: usize = 13;
    /// Is the place of `noxfrm`.
    pub const NOXFRM: usize = 14;
    /// Is the place of `nopolicy`.
    pub const NOPOLICY: usize = 15;
    /// Is the place of `force_igmp_version`.
    pub const FORCE_IGMP_VERSION: usize = 16;
    /// Is the place of `arp_announce`.
    pub const ARP_ANNOUNCE: usize = 17;
    /// Is the place of `arp_ignore`.
    pub const ARP_IGNORE: usize = 18;
    /// Is the place of `promote_secondaries`.
    pub const PROMOTE_SECONDARIES: usize = 19;
    /// Is the place of `arp_accept`.
    pub const ARP_ACCEPT: usize = 20;
    /// Is the place of `arp_notify`.
    pub const ARP_NOTIFY: usize = 21;
    /// Is the place of `accept_local`.
    pub const ACCEPT_LOCAL: usize = 22;
    /// Is the place of `src_vmark`.
    pub const SRC_VMARK: usize = 23;
    /// Is the place of `proxy_arp_pvlan`.
    pub const PROXY_ARP_PVLAN: usize = 24;
    /// Is the place of `route_localnet`.
    pub const ROUTE_LOCALNET: usize = 25;
    /// Is the place of `igmpv2_unsolicited_report_interval`.
    pub const IGMPV2_UNSOLICITED_REPORT_INTERVAL: usize = 26;
    /// Is the place of `igmpv3_unsolicited_report_interval`.
    pub const IGMPV3_UNSOLICITED_REPORT_INTERVAL: usize = 27;
    /// Is the place of `ignore_routes_with_linkdown`.
    pub const IGNORE_ROUTES_WITH_LINKDOWN: usize = 28;
    /// Is the place of `drop_unicast_in_l2_multicast`.
    pub const DROP_UNICAST_IN_L2_MULTICAST: usize = 29;
    /// Is the place of `drop_gratuitous_arp`.
    pub const DROP_GRATUITOUS_ARP: usize = 30;
    /// Is the place of `bc_forwarding`.
    pub const BC_FORWARDING: usize = 31;
    /// Is the place of `arp_evict_nocarrier`.
    pub const ARP_EVICT_NOCARRIER: usize = 32;
}

/// Has the places of the array [`IFLA_INET6_CONF`]: indices of its `Vec`.
pub mod ipv6_conf {
    /// Is the place of `forwarding`.
    pub const FORWARDING: usize = 0;
    /// Is the place of `hoplimit`.
    pub const HOPLIMIT: usize = 1;
    /// Is the place of `mtu6`.
    pub const MTU6: usize = 2;
    /// Is the place of `accept_ra`.
    pub const ACCEPT_RA: usize = 3;
    /// Is the place of `accept_redirects`.
    pub const ACCEPT_REDIRECTS: usize = 4;
    /// Is the place of `autoconf`.
    pub const AUTOCONF: usize = 5;
    /// Is the place of `dad_transmits`.
    pub const DAD_TRANSMITS: usize = 6;
    /// Is the place of `rtr_solicits`.
    pub const RTR_SOLICITS: usize = 7;
    /// Is the place of `rtr_solicit_interval`.
    pub const RTR_SOLICIT_INTERVAL: usize = 8;
    /// Is the place of `rtr_solicit_delay`.
    pub const RTR_SOLICIT_DELAY: usize = 9;
    /// Is the place of `use_tempaddr`.
    pub const USE_TEMPADDR: usize = 10;
    /// Is the place of `temp_valid_lft`.
    pub const TEMP_VALID_LFT: usize = 11;
    /// Is the place of `temp_prefered_lft`.
    pub const TEMP_PREFERED_LFT: usize = 12;
    /// Is the place of `regen_max_retry`.
    pub const REGEN_MAX_RETRY: usize = 13;
    /// Is the place of `max_desync_factor`.
    pub const MAX_DESYNC_FACTOR: usize = 14;
    /// Is the place of `max_addresses`.
    pub const MAX_ADDRESSES: usize = 15;
    /// Is the place of `force_mld_version`.
    pub const FORCE_MLD_VERSION: usize = 16;
    /// Is the place of `accept_ra_defrtr`.
    pub const ACCEPT_RA_DEFRTR: usize = 17;
    /// Is the place of `accept_ra_pinfo`.
    pub const ACCEPT_RA_PINFO: usize = 18;
    /// Is the place of `accept_ra_rtr_pref`.
    pub const ACCEPT_RA_RTR_PREF: usize = 19;
    /// Is the place of `rtr_probe_interval`.
    pub const RTR_PROBE_INTERVAL: usize = 20;
    /// Is the place of `accept_ra_rt_info_max_plen`.
    pub const ACCEPT_RA_RT_INFO_MAX_PLEN: usize = 21;
    /// Is the place of `proxy_ndp`.
    pub const PROXY_NDP: usize = 22;
    /// Is the place of `optimistic_dad`.
    pub const OPTIMISTIC_DAD: usize = 23;
    /// Is the place of `accept_source_route`.
    pub const ACCEPT_SOURCE_ROUTE: usize = 24;
    /// Is the place of `mc_forwarding`.
    pub const MC_FORWARDING: usize = 25;
    /// Is the place of `disable_ipv6`.
    pub const DISABLE_IPV6: usize = 26;
    /// Is the place of `accept_dad`.
    pub const ACCEPT_DAD: usize = 27;
    /// Is the place of `force_tllao`.
    pub const FORCE_TLLAO: usize = 28;
    /// Is the place of `ndisc_notify`.
    pub const NDISC_NOTIFY: usize = 29;
    /// Is the place of `mldv1_unsolicited_report_interval`.
    pub const MLDV1_UNSOLICITED_REPORT_INTERVAL: usize = 30;
    /// Is the place of `mldv2_unsolicited_report_interval`.
    pub const MLDV2_UNSOLICITED_REPORT_INTERVAL: usize = 31;
    /// Is the place of `suppress_frag_ndisc`.
    pub const SUPPRESS_FRAG_NDISC: usize = 32;
    /// Is the place of `accept_ra_from_local`.
    pub const ACCEPT_RA_FROM_LOCAL: usize = 33;
    /// Is the place of `use_optimistic`.
    pub const USE_OPTIMISTIC: usize = 34;
    /// Is the place of `accept_ra_mtu`.
    pub const ACCEPT_RA_MTU: usize = 35;
    /// Is the place of `stable_secret`.
    pub const STABLE_SECRET: usize = 36;
    /// Is the place of `use_oif_addrs_only`.
    pub const USE_OIF_ADDRS_ONLY: usize = 37;
    /// Is the place of `accept_ra_min_hop_limit`.
    pub const ACCEPT_RA_MIN_HOP_LIMIT: usize = 38;
    /// Is the place of `ignore_routes_with_linkdown`.
    pub const IGNORE_ROUTES_WITH_LINKDOWN: usize = 39;
    /// Is the place of `drop_unicast_in_l2_multicast`.
    pub const DROP_UNICAST_IN_L2_MULTICAST: usize = 40;
    /// Is the place of `drop_unsolicited_na`.
    pub const DROP_UNSOLICITED_NA: usize = 41;
    /// Is the place of `keep_addr_on_down`.
    pub const KEEP_ADDR_ON_DOWN: usize = 42;
    /// Is the place of `rtr_solicit_max_interval`.
    pub const RTR_SOLICIT_MAX_INTERVAL: usize = 43;
    /// Is the place of `seg6_enabled`.
    pub const SEG6_ENABLED: usize = 44;
    /// Is the place of `seg6_require_hmac`.
    pub const SEG6_REQUIRE_HMAC: usize = 45;
    /// Is the place of `enhanced_dad`.
    pub const ENHANCED_DAD: usize = 46;
    /// Is the place of `addr_gen_mode`.
    pub const ADDR_GEN_MODE: usize = 47;
    /// Is the place of `disable_policy`.
    pub const DISABLE_POLICY: usize = 48;
    /// Is the place of `accept_ra_rt_info_min_plen`.
    pub const ACCEPT_RA_RT_INFO_MIN_PLEN: usize = 49;
    /// Is the place of `ndisc_tclass`.
    pub const NDISC_TCLASS: usize = 50;
    /// Is the place of `rpl_seg_enabled`.
    pub const RPL_SEG_ENABLED: usize = 51;
    /// Is the place of `ra_defrtr_metric`.
    pub const RA_DEFRTR_METRIC: usize = 52;
    /// Is the place of `ioam6_enabled`.
    pub const IOAM6_ENABLED: usize = 53;
    /// Is the place of `ioam6_id`.
    pub const IOAM6_ID: usize = 54;
    /// Is the place of `ioam6_id_wide`.
    pub const IOAM6_ID_WIDE: usize = 55;
    /// Is the place of `ndisc_evict_nocarrier`.
    pub const NDISC_EVICT_NOCARRIER: usize = 56;
    /// Is the place of `accept_untracked_na`.
    pub const ACCEPT_UNTRACKED_NA: usize = 57;
    /// Is the place of `accept_ra_min_lft`.
    pub const ACCEPT_RA_MIN_LFT: usize = 58;
    /// Is the place of `force_forwarding`.
    pub const FORCE_FORWARDING: usize = 59;
}

/// Has the places of the array [`IFLA_INET6_STATS`]: indices of its `Vec`.
pub mod ipv6_stats {
    /// Is the place of `num`.
    pub const NUM: usize = 0;
    /// Is the place of `inpkts`.
    pub const INPKTS: usize = 1;
    /// Is the place of `inoctets`.
    pub const INOCTETS: usize = 2;
    /// Is the place of `indelivers`.
    pub const INDELIVERS: usize = 3;
}

/// Has the places of the array [`IFLA_INET6_ICMP6STATS`]: indices of its `Vec`.
pub mod icmp6_stats {
    /// Is the place of `num`.
    pub const NUM: usize = 0;
    /// Is the place of `inmsgs`.
    pub const INMSGS: usize = 1;
    /// Is the place of `inerrors`.
    pub const INERRORS: usize = 2;
    /// Is the place of `outmsgs`.
    pub const OUTMSGS: usize = 3;
    /// Is the place of `outerrors`.
    pub const OUTERRORS: usize = 4;
    /// Is the place of `csumerrors`.
    pub const CSUMERRORS: usize = 5;
    /// Is the place of `ratelimithost`.
    pub const RATELIMITHOST: usize = 6;
}

/// Calls a visitor for each key.
#[cfg(test)]
pub(crate) fn visit_keys(visitor: &mut impl crate::tests::Visitor) {
    visitor.attribute("IFLA_BRIDGE_FLAGS", IFLA_BRIDGE_FLAGS);
    visitor.attribute("IFLA_BRIDGE_MODE", IFLA_BRIDGE_MODE);
    visitor.attribute("IFLA_BRIDGE_VLAN_INFO", IFLA_BRIDGE_VLAN_INFO);
    visitor.attribute("IFLA_BRIDGE_VLAN_TUNNEL_INFO", IFLA_BRIDGE_VLAN_TUNNEL_INFO);
    visitor.element(IFLA_BRIDGE_VLAN_TUNNEL_INFO, "IFLA_BRIDGE_VLAN_TUNNEL_ID", IFLA_BRIDGE_VLAN_TUNNEL_ID);
    visitor.element(IFLA_BRIDGE_VLAN_TUNNEL_INFO, "IFLA_BRIDGE_VLAN_TUNNEL_VID", IFLA_BRIDGE_VLAN_TUNNEL_VID);
    visitor.element(IFLA_BRIDGE_VLAN_TUNNEL_INFO, "IFLA_BRIDGE_VLAN_TUNNEL_FLAGS", IFLA_BRIDGE_VLAN_TUNNEL_FLAGS);
    visitor.attribute("IFLA_BOND_MODE", IFLA_BOND_MODE);
    visitor.attribute("IFLA_BOND_ACTIVE_SLAVE", IFLA_BOND_ACTIVE_SLAVE);
    visitor.attribute("IFLA_BOND_MIIMON", IFLA_BOND_MIIMON);
    visitor.attribute("IFLA_BOND_UPDELAY", IFLA_BOND_UPDELAY);
    visitor.attribute("IFLA_BOND_DOWNDELAY", IFLA_BOND_DOWNDELAY);
    visitor.attribute("IFLA_BOND_USE_CARRIER", IFLA_BOND_USE_CARRIER);
    visitor.attribute("IFLA_BOND_ARP_INTERVAL", IFLA_BOND_ARP_INTERVAL);
    visitor.attribute("IFLA_BOND_ARP_IP_TARGET", IFLA_BOND_ARP_IP_TARGET);
    visitor.attribute("IFLA_BOND_ARP_VALIDATE", IFLA_BOND_ARP_VALIDATE);
    visitor.attribute("IFLA_BOND_ARP_ALL_TARGETS", IFLA_BOND_ARP_ALL_TARGETS);
    visitor.attribute("IFLA_BOND_PRIMARY", IFLA_BOND_PRIMARY);
    visitor.attribute("IFLA_BOND_PRIMARY_RESELECT", IFLA_BOND_PRIMARY_RESELECT);
    visitor.attribute("IFLA_BOND_FAIL_OVER_MAC", IFLA_BOND_FAIL_OVER_MAC);
    visitor.attribute("IFLA_BOND_XMIT_HASH_POLICY", IFLA_BOND_XMIT_HASH_POLICY);
    visitor.attribute("IFLA_BOND_RESEND_IGMP", IFLA_BOND_RESEND_IGMP);
    visitor.attribute("IFLA_BOND_NUM_PEER_NOTIF", IFLA_BOND_NUM_PEER_NOTIF);
    visitor.attribute("IFLA_BOND_ALL_SLAVES_ACTIVE", IFLA_BOND_ALL_SLAVES_ACTIVE);
    visitor.attribute("IFLA_BOND_MIN_LINKS", IFLA_BOND_MIN_LINKS);
    visitor.attribute("IFLA_BOND_LP_INTERVAL", IFLA_BOND_LP_INTERVAL);
    visitor.attribute("IFLA_BOND_PACKETS_PER_SLAVE", IFLA_BOND_PACKETS_PER_SLAVE);
    visitor.attribute("IFLA_BOND_AD_LACP_RATE", IFLA_BOND_AD_LACP_RATE);
    visitor.attribute("IFLA_BOND_AD_SELECT", IFLA_BOND_AD_SELECT);
    visitor.attribute("IFLA_BOND_AD_INFO", IFLA_BOND_AD_INFO);
    visitor.element(IFLA_BOND_AD_INFO, "IFLA_BOND_AD_INFO_AGGREGATOR", IFLA_BOND_AD_INFO_AGGREGATOR);
    visitor.element(IFLA_BOND_AD_INFO, "IFLA_BOND_AD_INFO_NUM_PORTS", IFLA_BOND_AD_INFO_NUM_PORTS);
    visitor.element(IFLA_BOND_AD_INFO, "IFLA_BOND_AD_INFO_ACTOR_KEY", IFLA_BOND_AD_INFO_ACTOR_KEY);
    visitor.element(IFLA_BOND_AD_INFO, "IFLA_BOND_AD_INFO_PARTNER_KEY", IFLA_BOND_AD_INFO_PARTNER_KEY);
    visitor.element(IFLA_BOND_AD_INFO, "IFLA_BOND_AD_INFO_PARTNER_MAC", IFLA_BOND_AD_INFO_PARTNER_MAC);
    visitor.attribute("IFLA_BOND_AD_ACTOR_SYS_PRIO", IFLA_BOND_AD_ACTOR_SYS_PRIO);
    visitor.attribute("IFLA_BOND_AD_USER_PORT_KEY", IFLA_BOND_AD_USER_PORT_KEY);
    visitor.attribute("IFLA_BOND_AD_ACTOR_SYSTEM", IFLA_BOND_AD_ACTOR_SYSTEM);
    visitor.attribute("IFLA_BOND_TLB_DYNAMIC_LB", IFLA_BOND_TLB_DYNAMIC_LB);
    visitor.attribute("IFLA_BOND_PEER_NOTIF_DELAY", IFLA_BOND_PEER_NOTIF_DELAY);
    visitor.attribute("IFLA_BOND_AD_LACP_ACTIVE", IFLA_BOND_AD_LACP_ACTIVE);
    visitor.attribute("IFLA_BOND_MISSED_MAX", IFLA_BOND_MISSED_MAX);
    visitor.attribute("IFLA_BOND_NS_IP6_TARGET", IFLA_BOND_NS_IP6_TARGET);
    visitor.attribute("IFLA_BOND_COUPLED_CONTROL", IFLA_BOND_COUPLED_CONTROL);
    visitor.attribute("IFLA_BOND_BROADCAST_NEIGH", IFLA_BOND_BROADCAST_NEIGH);
    visitor.attribute("IFLA_BOND_LACP_STRICT", IFLA_BOND_LACP_STRICT);
    visitor.attribute("IFLA_BOND_SLAVE_STATE", IFLA_BOND_SLAVE_STATE);
    visitor.attribute("IFLA_BOND_SLAVE_MII_STATUS", IFLA_BOND_SLAVE_MII_STATUS);
    visitor.attribute("IFLA_BOND_SLAVE_LINK_FAILURE_COUNT", IFLA_BOND_SLAVE_LINK_FAILURE_COUNT);
    visitor.attribute("IFLA_BOND_SLAVE_PERM_HWADDR", IFLA_BOND_SLAVE_PERM_HWADDR);
    visitor.attribute("IFLA_BOND_SLAVE_QUEUE_ID", IFLA_BOND_SLAVE_QUEUE_ID);
    visitor.attribute("IFLA_BOND_SLAVE_AD_AGGREGATOR_ID", IFLA_BOND_SLAVE_AD_AGGREGATOR_ID);
    visitor.attribute("IFLA_BOND_SLAVE_AD_ACTOR_OPER_PORT_STATE", IFLA_BOND_SLAVE_AD_ACTOR_OPER_PORT_STATE);
    visitor.attribute("IFLA_BOND_SLAVE_AD_PARTNER_OPER_PORT_STATE", IFLA_BOND_SLAVE_AD_PARTNER_OPER_PORT_STATE);
    visitor.attribute("IFLA_BOND_SLAVE_PRIO", IFLA_BOND_SLAVE_PRIO);
    visitor.attribute("IFLA_BOND_SLAVE_ACTOR_PORT_PRIO", IFLA_BOND_SLAVE_ACTOR_PORT_PRIO);
    visitor.attribute("IFLA_BOND_SLAVE_AD_CHURN_ACTOR_STATE", IFLA_BOND_SLAVE_AD_CHURN_ACTOR_STATE);
    visitor.attribute("IFLA_BOND_SLAVE_AD_CHURN_PARTNER_STATE", IFLA_BOND_SLAVE_AD_CHURN_PARTNER_STATE);
    visitor.attribute("IFLA_BR_FORWARD_DELAY", IFLA_BR_FORWARD_DELAY);
    visitor.attribute("IFLA_BR_HELLO_TIME", IFLA_BR_HELLO_TIME);
    visitor.attribute("IFLA_BR_MAX_AGE", IFLA_BR_MAX_AGE);
    visitor.attribute("IFLA_BR_AGEING_TIME", IFLA_BR_AGEING_TIME);
    visitor.attribute("IFLA_BR_STP_STATE", IFLA_BR_STP_STATE);
    visitor.attribute("IFLA_BR_PRIORITY", IFLA_BR_PRIORITY);
    visitor.attribute("IFLA_BR_VLAN_FILTERING", IFLA_BR_VLAN_FILTERING);
    visitor.attribute("IFLA_BR_VLAN_PROTOCOL", IFLA_BR_VLAN_PROTOCOL);
    visitor.attribute("IFLA_BR_GROUP_FWD_MASK", IFLA_BR_GROUP_FWD_MASK);
    visitor.attribute("IFLA_BR_ROOT_ID", IFLA_BR_ROOT_ID);
    visitor.attribute("IFLA_BR_BRIDGE_ID", IFLA_BR_BRIDGE_ID);
    visitor.attribute("IFLA_BR_ROOT_PORT", IFLA_BR_ROOT_PORT);
    visitor.attribute("IFLA_BR_ROOT_PATH_COST", IFLA_BR_ROOT_PATH_COST);
    visitor.attribute("IFLA_BR_TOPOLOGY_CHANGE", IFLA_BR_TOPOLOGY_CHANGE);
    visitor.attribute("IFLA_BR_TOPOLOGY_CHANGE_DETECTED", IFLA_BR_TOPOLOGY_CHANGE_DETECTED);
    visitor.attribute("IFLA_BR_HELLO_TIMER", IFLA_BR_HELLO_TIMER);
    visitor.attribute("IFLA_BR_TCN_TIMER", IFLA_BR_TCN_TIMER);
    visitor.attribute("IFLA_BR_TOPOLOGY_CHANGE_TIMER", IFLA_BR_TOPOLOGY_CHANGE_TIMER);
    visitor.attribute("IFLA_BR_GC_TIMER", IFLA_BR_GC_TIMER);
    visitor.attribute("IFLA_BR_GROUP_ADDR", IFLA_BR_GROUP_ADDR);
    visitor.attribute("IFLA_BR_FDB_FLUSH", IFLA_BR_FDB_FLUSH);
    visitor.attribute("IFLA_BR_MCAST_ROUTER", IFLA_BR_MCAST_ROUTER);
    visitor.attribute("IFLA_BR_MCAST_SNOOPING", IFLA_BR_MCAST_SNOOPING);
    visitor.attribute("IFLA_BR_MCAST_QUERY_USE_IFADDR", IFLA_BR_MCAST_QUERY_USE_IFADDR);
    visitor.attribute("IFLA_BR_MCAST_QUERIER", IFLA_BR_MCAST_QUERIER);
    visitor.attribute("IFLA_BR_MCAST_HASH_ELASTICITY", IFLA_BR_MCAST_HASH_ELASTICITY);
    visitor.attribute("IFLA_BR_MCAST_HASH_MAX", IFLA_BR_MCAST_HASH_MAX);
    visitor.attribute("IFLA_BR_MCAST_LAST_MEMBER_CNT", IFLA_BR_MCAST_LAST_MEMBER_CNT);
    visitor.attribute("IFLA_BR_MCAST_STARTUP_QUERY_CNT", IFLA_BR_MCAST_STARTUP_QUERY_CNT);
    visitor.attribute("IFLA_BR_MCAST_LAST_MEMBER_INTVL", IFLA_BR_MCAST_LAST_MEMBER_INTVL);
    visitor.attribute("IFLA_BR_MCAST_MEMBERSHIP_INTVL", IFLA_BR_MCAST_MEMBERSHIP_INTVL);
    visitor.attribute("IFLA_BR_MCAST_QUERIER_INTVL", IFLA_BR_MCAST_QUERIER_INTVL);
    visitor.attribute("IFLA_BR_MCAST_QUERY_INTVL", IFLA_BR_MCAST_QUERY_INTVL);
    visitor.attribute("IFLA_BR_MCAST_QUERY_RESPONSE_INTVL", IFLA_BR_MCAST_QUERY_RESPONSE_INTVL);
    visitor.attribute("IFLA_BR_MCAST_STARTUP_QUERY_INTVL", IFLA_BR_MCAST_STARTUP_QUERY_INTVL);
    visitor.attribute("IFLA_BR_NF_CALL_IPTABLES", IFLA_BR_NF_CALL_IPTABLES);
    visitor.attribute("IFLA_BR_NF_CALL_IP6TABLES", IFLA_BR_NF_CALL_IP6TABLES);
    visitor.attribute("IFLA_BR_NF_CALL_ARPTABLES", IFLA_BR_NF_CALL_ARPTABLES);
    visitor.attribute("IFLA_BR_VLAN_DEFAULT_PVID", IFLA_BR_VLAN_DEFAULT_PVID);
    visitor.attribute("IFLA_BR_VLAN_STATS_ENABLED", IFLA_BR_VLAN_STATS_ENABLED);
    visitor.attribute("IFLA_BR_MCAST_STATS_ENABLED", IFLA_BR_MCAST_STATS_ENABLED);
    visitor.attribute("IFLA_BR_MCAST_IGMP_VERSION", IFLA_BR_MCAST_IGMP_VERSION);
    visitor.attribute("IFLA_BR_MCAST_MLD_VERSION", IFLA_BR_MCAST_MLD_VERSION);
    visitor.attribute("IFLA_BR_VLAN_STATS_PER_PORT", IFLA_BR_VLAN_STATS_PER_PORT);
    visitor.attribute("IFLA_BR_MULTI_BOOLOPT", IFLA_BR_MULTI_BOOLOPT);
    visitor.attribute("IFLA_BR_MCAST_QUERIER_STATE", IFLA_BR_MCAST_QUERIER_STATE);
    visitor.element(IFLA_BR_MCAST_QUERIER_STATE, "BRIDGE_QUERIER_IP_ADDRESS", BRIDGE_QUERIER_IP_ADDRESS);
    visitor.element(IFLA_BR_MCAST_QUERIER_STATE, "BRIDGE_QUERIER_IP_PORT", BRIDGE_QUERIER_IP_PORT);
    visitor.element(IFLA_BR_MCAST_QUERIER_STATE, "BRIDGE_QUERIER_IP_OTHER_TIMER", BRIDGE_QUERIER_IP_OTHER_TIMER);
    visitor.element(IFLA_BR_MCAST_QUERIER_STATE, "BRIDGE_QUERIER_IPV6_ADDRESS", BRIDGE_QUERIER_IPV6_ADDRESS);
    visitor.element(IFLA_BR_MCAST_QUERIER_STATE, "BRIDGE_QUERIER_IPV6_PORT", BRIDGE_QUERIER_IPV6_PORT);
    visitor.element(IFLA_BR_MCAST_QUERIER_STATE, "BRIDGE_QUERIER_IPV6_OTHER_TIMER", BRIDGE_QUERIER_IPV6_OTHER_TIMER);
    visitor.attribute("IFLA_BR_FDB_N_LEARNED", IFLA_BR_FDB_N_LEARNED);
    visitor.attribute("IFLA_BR_FDB_MAX_LEARNED", IFLA_BR_FDB_MAX_LEARNED);
    visitor.attribute("IFLA_BR_STP_MODE", IFLA_BR_STP_MODE);
    visitor.attribute("IFLA_BRPORT_STATE", IFLA_BRPORT_STATE);
    visitor.attribute("IFLA_BRPORT_PRIORITY", IFLA_BRPORT_PRIORITY);
    visitor.attribute("IFLA_BRPORT_COST", IFLA_BRPORT_COST);
    visitor.attribute("IFLA_BRPORT_MODE", IFLA_BRPORT_MODE);
    visitor.attribute("IFLA_BRPORT_GUARD", IFLA_BRPORT_GUARD);
    visitor.attribute("IFLA_BRPORT_PROTECT", IFLA_BRPORT_PROTECT);
    visitor.attribute("IFLA_BRPORT_FAST_LEAVE", IFLA_BRPORT_FAST_LEAVE);
    visitor.attribute("IFLA_BRPORT_LEARNING", IFLA_BRPORT_LEARNING);
    visitor.attribute("IFLA_BRPORT_UNICAST_FLOOD", IFLA_BRPORT_UNICAST_FLOOD);
    visitor.attribute("IFLA_BRPORT_PROXYARP", IFLA_BRPORT_PROXYARP);
    visitor.attribute("IFLA_BRPORT_LEARNING_SYNC", IFLA_BRPORT_LEARNING_SYNC);
    visitor.attribute("IFLA_BRPORT_PROXYARP_WIFI", IFLA_BRPORT_PROXYARP_WIFI);
    visitor.attribute("IFLA_BRPORT_ROOT_ID", IFLA_BRPORT_ROOT_ID);
    visitor.attribute("IFLA_BRPORT_BRIDGE_ID", IFLA_BRPORT_BRIDGE_ID);
    visitor.attribute("IFLA_BRPORT_DESIGNATED_PORT", IFLA_BRPORT_DESIGNATED_PORT);
    visitor.attribute("IFLA_BRPORT_DESIGNATED_COST", IFLA_BRPORT_DESIGNATED_COST);
    visitor.attribute("IFLA_BRPORT_ID", IFLA_BRPORT_ID);
    visitor.attribute("IFLA_BRPORT_NO", IFLA_BRPORT_NO);
    visitor.attribute("IFLA_BRPORT_TOPOLOGY_CHANGE_ACK", IFLA_BRPORT_TOPOLOGY_CHANGE_ACK);
    visitor.attribute("IFLA_BRPORT_CONFIG_PENDING", IFLA_BRPORT_CONFIG_PENDING);
    visitor.attribute("IFLA_BRPORT_MESSAGE_AGE_TIMER", IFLA_BRPORT_MESSAGE_AGE_TIMER);
    visitor.attribute("IFLA_BRPORT_FORWARD_DELAY_TIMER", IFLA_BRPORT_FORWARD_DELAY_TIMER);
    visitor.attribute("IFLA_BRPORT_HOLD_TIMER", IFLA_BRPORT_HOLD_TIMER);
    visitor.attribute("IFLA_BRPORT_FLUSH", IFLA_BRPORT_FLUSH);
    visitor.attribute("IFLA_BRPORT_MULTICAST_ROUTER", IFLA_BRPORT_MULTICAST_ROUTER);
    visitor.attribute("IFLA_BRPORT_MCAST_FLOOD", IFLA_BRPORT_MCAST_FLOOD);
    visitor.attribute("IFLA_BRPORT_MCAST_TO_UCAST", IFLA_BRPORT_MCAST_TO_UCAST);
    visitor.attribute("IFLA_BRPORT_VLAN_TUNNEL", IFLA_BRPORT_VLAN_TUNNEL);
    visitor.attribute("IFLA_BRPORT_BCAST_FLOOD", IFLA_BRPORT_BCAST_FLOOD);
    visitor.attribute("IFLA_BRPORT_GROUP_FWD_MASK", IFLA_BRPORT_GROUP_FWD_MASK);
    visitor.attribute("IFLA_BRPORT_NEIGH_SUPPRESS", IFLA_BRPORT_NEIGH_SUPPRESS);
    visitor.attribute("IFLA_BRPORT_ISOLATED", IFLA_BRPORT_ISOLATED);
    visitor.attribute("IFLA_BRPORT_BACKUP_PORT", IFLA_BRPORT_BACKUP_PORT);
    visitor.attribute("IFLA_BRPORT_MRP_RING_OPEN", IFLA_BRPORT_MRP_RING_OPEN);
    visitor.attribute("IFLA_BRPORT_MRP_IN_OPEN", IFLA_BRPORT_MRP_IN_OPEN);
    visitor.attribute("IFLA_BRPORT_MCAST_EHT_HOSTS_LIMIT", IFLA_BRPORT_MCAST_EHT_HOSTS_LIMIT);
    visitor.attribute("IFLA_BRPORT_MCAST_EHT_HOSTS_CNT", IFLA_BRPORT_MCAST_EHT_HOSTS_CNT);
    visitor.attribute("IFLA_BRPORT_LOCKED", IFLA_BRPORT_LOCKED);
    visitor.attribute("IFLA_BRPORT_MAB", IFLA_BRPORT_MAB);
    visitor.attribute("IFLA_BRPORT_MCAST_N_GROUPS", IFLA_BRPORT_MCAST_N_GROUPS);
    visitor.attribute("IFLA_BRPORT_MCAST_MAX_GROUPS", IFLA_BRPORT_MCAST_MAX_GROUPS);
    visitor.attribute("IFLA_BRPORT_NEIGH_VLAN_SUPPRESS", IFLA_BRPORT_NEIGH_VLAN_SUPPRESS);
    visitor.attribute("IFLA_BRPORT_BACKUP_NHID", IFLA_BRPORT_BACKUP_NHID);
    visitor.attribute("IFLA_BRPORT_NEIGH_FORWARD_GRAT", IFLA_BRPORT_NEIGH_FORWARD_GRAT);
    visitor.attribute("IFLA_VLAN_ID", IFLA_VLAN_ID);
    visitor.attribute("IFLA_VLAN_FLAGS", IFLA_VLAN_FLAGS);
    visitor.attribute("IFLA_VLAN_EGRESS_QOS", IFLA_VLAN_EGRESS_QOS);
    visitor.attribute("IFLA_VLAN_INGRESS_QOS", IFLA_VLAN_INGRESS_QOS);
    visitor.attribute("IFLA_VLAN_PROTOCOL", IFLA_VLAN_PROTOCOL);
    visitor.attribute("IFLA_CAN_BITTIMING", IFLA_CAN_BITTIMING);
    visitor.attribute("IFLA_CAN_BITTIMING_CONST", IFLA_CAN_BITTIMING_CONST);
    visitor.attribute("IFLA_CAN_CLOCK", IFLA_CAN_CLOCK);
    visitor.attribute("IFLA_CAN_STATE", IFLA_CAN_STATE);
    visitor.attribute("IFLA_CAN_CTRLMODE", IFLA_CAN_CTRLMODE);
    visitor.attribute("IFLA_CAN_RESTART_MS", IFLA_CAN_RESTART_MS);
    visitor.attribute("IFLA_CAN_RESTART", IFLA_CAN_RESTART);
    visitor.attribute("IFLA_CAN_BERR_COUNTER", IFLA_CAN_BERR_COUNTER);
    visitor.attribute("IFLA_CAN_DATA_BITTIMING", IFLA_CAN_DATA_BITTIMING);
    visitor.attribute("IFLA_CAN_DATA_BITTIMING_CONST", IFLA_CAN_DATA_BITTIMING_CONST);
    visitor.attribute("IFLA_CAN_TERMINATION", IFLA_CAN_TERMINATION);
    visitor.attribute("IFLA_CAN_TERMINATION_CONST", IFLA_CAN_TERMINATION_CONST);
    visitor.attribute("IFLA_CAN_BITRATE_CONST", IFLA_CAN_BITRATE_CONST);
    visitor.attribute("IFLA_CAN_DATA_BITRATE_CONST", IFLA_CAN_DATA_BITRATE_CONST);
    visitor.attribute("IFLA_CAN_BITRATE_MAX", IFLA_CAN_BITRATE_MAX);
    visitor.attribute("IFLA_CAN_TDC", IFLA_CAN_TDC);
    visitor.element(IFLA_CAN_TDC, "IFLA_CAN_TDC_TDCV_MIN", IFLA_CAN_TDC_TDCV_MIN);
    visitor.element(IFLA_CAN_TDC, "IFLA_CAN_TDC_TDCV_MAX", IFLA_CAN_TDC_TDCV_MAX);
    visitor.element(IFLA_CAN_TDC, "IFLA_CAN_TDC_TDCO_MIN", IFLA_CAN_TDC_TDCO_MIN);
    visitor.element(IFLA_CAN_TDC, "IFLA_CAN_TDC_TDCO_MAX", IFLA_CAN_TDC_TDCO_MAX);
    visitor.element(IFLA_CAN_TDC, "IFLA_CAN_TDC_TDCF_MIN", IFLA_CAN_TDC_TDCF_MIN);
    visitor.element(IFLA_CAN_TDC, "IFLA_CAN_TDC_TDCF_MAX", IFLA_CAN_TDC_TDCF_MAX);
    visitor.element(IFLA_CAN_TDC, "IFLA_CAN_TDC_TDCV", IFLA_CAN_TDC_TDCV);
    visitor.element(IFLA_CAN_TDC, "IFLA_CAN_TDC_TDCO", IFLA_CAN_TDC_TDCO);
    visitor.element(IFLA_CAN_TDC, "IFLA_CAN_TDC_TDCF", IFLA_CAN_TDC_TDCF);
    visitor.attribute("IFLA_CAN_CTRLMODE_EXT", IFLA_CAN_CTRLMODE_EXT);
    visitor.element(IFLA_CAN_CTRLMODE_EXT, "IFLA_CAN_CTRLMODE_SUPPORTED", IFLA_CAN_CTRLMODE_SUPPORTED);
    visitor.attribute("IFLA_DSA_CONDUIT", IFLA_DSA_CONDUIT);
    visitor.attribute("IFLA_HSR_SLAVE1", IFLA_HSR_SLAVE1);
    visitor.attribute("IFLA_HSR_SLAVE2", IFLA_HSR_SLAVE2);
    visitor.attribute("IFLA_HSR_MULTICAST_SPEC", IFLA_HSR_MULTICAST_SPEC);
    visitor.attribute("IFLA_HSR_SUPERVISION_ADDR", IFLA_HSR_SUPERVISION_ADDR);
    visitor.attribute("IFLA_HSR_SEQ_NR", IFLA_HSR_SEQ_NR);
    visitor.attribute("IFLA_HSR_VERSION", IFLA_HSR_VERSION);
    visitor.attribute("IFLA_HSR_PROTOCOL", IFLA_HSR_PROTOCOL);
    visitor.attribute("IFLA_HSR_INTERLINK", IFLA_HSR_INTERLINK);
    visitor.attribute("IFLA_BRPORT_NEIGH_FORWARD_GRAT", proto_bridge::IFLA_BRPORT_NEIGH_FORWARD_GRAT);
    visitor.attribute("IFLA_VXLAN_ID", IFLA_VXLAN_ID);
    visitor.attribute("IFLA_VXLAN_GROUP", IFLA_VXLAN_GROUP);
    visitor.attribute("IFLA_VXLAN_LINK", IFLA_VXLAN_LINK);
    visitor.attribute("IFLA_VXLAN_LOCAL", IFLA_VXLAN_LOCAL);
    visitor.attribute("IFLA_VXLAN_TTL", IFLA_VXLAN_TTL);
    visitor.attribute("IFLA_VXLAN_TOS", IFLA_VXLAN_TOS);
    visitor.attribute("IFLA_VXLAN_LEARNING", IFLA_VXLAN_LEARNING);
    visitor.attribute("IFLA_VXLAN_AGEING", IFLA_VXLAN_AGEING);
    visitor.attribute("IFLA_VXLAN_LIMIT", IFLA_VXLAN_LIMIT);
    visitor.attribute("IFLA_VXLAN_PORT_RANGE", IFLA_VXLAN_PORT_RANGE);
    visitor.attribute("IFLA_VXLAN_PROXY", IFLA_VXLAN_PROXY);
    visitor.attribute("IFLA_VXLAN_RSC", IFLA_VXLAN_RSC);
    visitor.attribute("IFLA_VXLAN_L2MISS", IFLA_VXLAN_L2MISS);
    visitor.attribute("IFLA_VXLAN_L3MISS", IFLA_VXLAN_L3MISS);
    visitor.attribute("IFLA_VXLAN_PORT", IFLA_VXLAN_PORT);
    visitor.attribute("IFLA_VXLAN_GROUP6", IFLA_VXLAN_GROUP6);
    visitor.attribute("IFLA_VXLAN_LOCAL6", IFLA_VXLAN_LOCAL6);
    visitor.attribute("IFLA_VXLAN_UDP_CSUM", IFLA_VXLAN_UDP_CSUM);
    visitor.attribute("IFLA_VXLAN_UDP_ZERO_CSUM6_TX", IFLA_VXLAN_UDP_ZERO_CSUM6_TX);
    visitor.attribute("IFLA_VXLAN_UDP_ZERO_CSUM6_RX", IFLA_VXLAN_UDP_ZERO_CSUM6_RX);
    visitor.attribute("IFLA_VXLAN_REMCSUM_TX", IFLA_VXLAN_REMCSUM_TX);
    visitor.attribute("IFLA_VXLAN_REMCSUM_RX", IFLA_VXLAN_REMCSUM_RX);
    visitor.attribute("IFLA_VXLAN_GBP", IFLA_VXLAN_GBP);
    visitor.attribute("IFLA_VXLAN_REMCSUM_NOPARTIAL", IFLA_VXLAN_REMCSUM_NOPARTIAL);
    visitor.attribute("IFLA_VXLAN_COLLECT_METADATA", IFLA_VXLAN_COLLECT_METADATA);
    visitor.attribute("IFLA_VXLAN_LABEL", IFLA_VXLAN_LABEL);
    visitor.attribute("IFLA_VXLAN_GPE", IFLA_VXLAN_GPE);
    visitor.attribute("IFLA_VXLAN_TTL_INHERIT", IFLA_VXLAN_TTL_INHERIT);
    visitor.attribute("IFLA_VXLAN_DF", IFLA_VXLAN_DF);
    visitor.attribute("IFLA_VXLAN_VNIFILTER", IFLA_VXLAN_VNIFILTER);
    visitor.attribute("IFLA_VXLAN_LOCALBYPASS", IFLA_VXLAN_LOCALBYPASS);
    visitor.attribute("IFLA_VXLAN_LABEL_POLICY", IFLA_VXLAN_LABEL_POLICY);
    visitor.attribute("IFLA_VXLAN_RESERVED_BITS", IFLA_VXLAN_RESERVED_BITS);
    visitor.attribute("IFLA_VXLAN_MC_ROUTE", IFLA_VXLAN_MC_ROUTE);
    visitor.attribute("IFLA_ADDRESS", IFLA_ADDRESS);
    visitor.attribute("IFLA_BROADCAST", IFLA_BROADCAST);
    visitor.attribute("IFLA_IFNAME", IFLA_IFNAME);
    visitor.attribute("IFLA_MTU", IFLA_MTU);
    visitor.attribute("IFLA_LINK", IFLA_LINK);
    visitor.attribute("IFLA_QDISC", IFLA_QDISC);
    visitor.attribute("IFLA_STATS", IFLA_STATS);
    visitor.attribute("IFLA_COST", IFLA_COST);
    visitor.attribute("IFLA_PRIORITY", IFLA_PRIORITY);
    visitor.attribute("IFLA_MASTER", IFLA_MASTER);
    visitor.attribute("IFLA_WIRELESS", IFLA_WIRELESS);
    visitor.attribute("IFLA_TXQLEN", IFLA_TXQLEN);
    visitor.attribute("IFLA_MAP", IFLA_MAP);
    visitor.attribute("IFLA_WEIGHT", IFLA_WEIGHT);
    visitor.attribute("IFLA_OPERSTATE", IFLA_OPERSTATE);
    visitor.attribute("IFLA_LINKMODE", IFLA_LINKMODE);
    visitor.attribute("IFLA_LINKINFO", IFLA_LINKINFO);
    visitor.element(IFLA_LINKINFO, "IFLA_INFO_KIND", IFLA_INFO_KIND);
    visitor.element(IFLA_LINKINFO, "IFLA_INFO_DATA", IFLA_INFO_DATA);
    visitor.element(IFLA_LINKINFO, "IFLA_INFO_XSTATS", IFLA_INFO_XSTATS);
    visitor.element(IFLA_LINKINFO, "IFLA_INFO_SLAVE_KIND", IFLA_INFO_SLAVE_KIND);
    visitor.element(IFLA_LINKINFO, "IFLA_INFO_SLAVE_DATA", IFLA_INFO_SLAVE_DATA);
    visitor.attribute("IFLA_NET_NS_PID", IFLA_NET_NS_PID);
    visitor.attribute("IFLA_IFALIAS", IFLA_IFALIAS);
    visitor.attribute("IFLA_NUM_VF", IFLA_NUM_VF);
    visitor.attribute("IFLA_VFINFO_LIST", IFLA_VFINFO_LIST);
    visitor.attribute("IFLA_STATS64", IFLA_STATS64);
    visitor.attribute("IFLA_VF_PORTS", IFLA_VF_PORTS);
    visitor.attribute("IFLA_PORT_SELF", IFLA_PORT_SELF);
    visitor.attribute("IFLA_AF_SPEC", IFLA_AF_SPEC);
    visitor.attribute("IFLA_GROUP", IFLA_GROUP);
    visitor.attribute("IFLA_NET_NS_FD", IFLA_NET_NS_FD);
    visitor.attribute("IFLA_EXT_MASK", IFLA_EXT_MASK);
    visitor.attribute("IFLA_PROMISCUITY", IFLA_PROMISCUITY);
    visitor.attribute("IFLA_NUM_TX_QUEUES", IFLA_NUM_TX_QUEUES);
    visitor.attribute("IFLA_NUM_RX_QUEUES", IFLA_NUM_RX_QUEUES);
    visitor.attribute("IFLA_CARRIER", IFLA_CARRIER);
    visitor.attribute("IFLA_PHYS_PORT_ID", IFLA_PHYS_PORT_ID);
    visitor.attribute("IFLA_CARRIER_CHANGES", IFLA_CARRIER_CHANGES);
    visitor.attribute("IFLA_PHYS_SWITCH_ID", IFLA_PHYS_SWITCH_ID);
    visitor.attribute("IFLA_LINK_NETNSID", IFLA_LINK_NETNSID);
    visitor.attribute("IFLA_PHYS_PORT_NAME", IFLA_PHYS_PORT_NAME);
    visitor.attribute("IFLA_PROTO_DOWN", IFLA_PROTO_DOWN);
    visitor.attribute("IFLA_GSO_MAX_SEGS", IFLA_GSO_MAX_SEGS);
    visitor.attribute("IFLA_GSO_MAX_SIZE", IFLA_GSO_MAX_SIZE);
    visitor.attribute("IFLA_PAD", IFLA_PAD);
    visitor.attribute("IFLA_XDP", IFLA_XDP);
    visitor.element(IFLA_XDP, "IFLA_XDP_FD", IFLA_XDP_FD);
    visitor.element(IFLA_XDP, "IFLA_XDP_ATTACHED", IFLA_XDP_ATTACHED);
    visitor.element(IFLA_XDP, "IFLA_XDP_FLAGS", IFLA_XDP_FLAGS);
    visitor.element(IFLA_XDP, "IFLA_XDP_PROG_ID", IFLA_XDP_PROG_ID);
    visitor.element(IFLA_XDP, "IFLA_XDP_DRV_PROG_ID", IFLA_XDP_DRV_PROG_ID);
    visitor.element(IFLA_XDP, "IFLA_XDP_SKB_PROG_ID", IFLA_XDP_SKB_PROG_ID);
    visitor.element(IFLA_XDP, "IFLA_XDP_HW_PROG_ID", IFLA_XDP_HW_PROG_ID);
    visitor.element(IFLA_XDP, "IFLA_XDP_EXPECTED_FD", IFLA_XDP_EXPECTED_FD);
    visitor.attribute("IFLA_EVENT", IFLA_EVENT);
    visitor.attribute("IFLA_NEW_NETNSID", IFLA_NEW_NETNSID);
    visitor.attribute("IFLA_TARGET_NETNSID", IFLA_TARGET_NETNSID);
    visitor.attribute("IFLA_CARRIER_UP_COUNT", IFLA_CARRIER_UP_COUNT);
    visitor.attribute("IFLA_CARRIER_DOWN_COUNT", IFLA_CARRIER_DOWN_COUNT);
    visitor.attribute("IFLA_NEW_IFINDEX", IFLA_NEW_IFINDEX);
    visitor.attribute("IFLA_MIN_MTU", IFLA_MIN_MTU);
    visitor.attribute("IFLA_MAX_MTU", IFLA_MAX_MTU);
    visitor.attribute("IFLA_PROP_LIST", IFLA_PROP_LIST);
    visitor.element(IFLA_PROP_LIST, "IFLA_ALT_IFNAME", prop_list::IFLA_ALT_IFNAME);
    visitor.attribute("IFLA_ALT_IFNAME", IFLA_ALT_IFNAME);
    visitor.attribute("IFLA_PERM_ADDRESS", IFLA_PERM_ADDRESS);
    visitor.attribute("IFLA_PROTO_DOWN_REASON", IFLA_PROTO_DOWN_REASON);
    visitor.element(IFLA_PROTO_DOWN_REASON, "IFLA_PROTO_DOWN_REASON_MASK", IFLA_PROTO_DOWN_REASON_MASK);
    visitor.element(IFLA_PROTO_DOWN_REASON, "IFLA_PROTO_DOWN_REASON_VALUE", IFLA_PROTO_DOWN_REASON_VALUE);
    visitor.attribute("IFLA_PARENT_DEV_NAME", IFLA_PARENT_DEV_NAME);
    visitor.attribute("IFLA_PARENT_DEV_BUS_NAME", IFLA_PARENT_DEV_BUS_NAME);
    visitor.attribute("IFLA_GRO_MAX_SIZE", IFLA_GRO_MAX_SIZE);
    visitor.attribute("IFLA_TSO_MAX_SIZE", IFLA_TSO_MAX_SIZE);
    visitor.attribute("IFLA_TSO_MAX_SEGS", IFLA_TSO_MAX_SEGS);
    visitor.attribute("IFLA_ALLMULTI", IFLA_ALLMULTI);
    visitor.attribute("IFLA_DEVLINK_PORT", IFLA_DEVLINK_PORT);
    visitor.element(IFLA_DEVLINK_PORT, "DEVLINK_ATTR_BUS_NAME", DEVLINK_ATTR_BUS_NAME);
    visitor.element(IFLA_DEVLINK_PORT, "DEVLINK_ATTR_DEV_NAME", DEVLINK_ATTR_DEV_NAME);
    visitor.element(IFLA_DEVLINK_PORT, "DEVLINK_ATTR_PORT_INDEX", DEVLINK_ATTR_PORT_INDEX);
    visitor.attribute("IFLA_GSO_IPV4_MAX_SIZE", IFLA_GSO_IPV4_MAX_SIZE);
    visitor.attribute("IFLA_GRO_IPV4_MAX_SIZE", IFLA_GRO_IPV4_MAX_SIZE);
    visitor.attribute("IFLA_DPLL_PIN", IFLA_DPLL_PIN);
    visitor.element(IFLA_DPLL_PIN, "DPLL_A_PIN_ID", DPLL_A_PIN_ID);
    visitor.attribute("IFLA_MAX_PACING_OFFLOAD_HORIZON", IFLA_MAX_PACING_OFFLOAD_HORIZON);
    visitor.attribute("IFLA_NETNS_IMMUTABLE", IFLA_NETNS_IMMUTABLE);
    visitor.attribute("IFLA_HEADROOM", IFLA_HEADROOM);
    visitor.attribute("IFLA_TAILROOM", IFLA_TAILROOM);
    visitor.attribute("AF_INET", AF_INET);
    visitor.attribute("AF_INET6", AF_INET6);
    visitor.attribute("AF_MCTP", AF_MCTP);
    visitor.attribute("IFLA_INET_CONF", IFLA_INET_CONF);
    visitor.attribute("IFLA_INET6_FLAGS", IFLA_INET6_FLAGS);
    visitor.attribute("IFLA_INET6_CONF", IFLA_INET6_CONF);
    visitor.attribute("IFLA_INET6_STATS", IFLA_INET6_STATS);
    visitor.attribute("IFLA_INET6_MCAST", IFLA_INET6_MCAST);
    visitor.attribute("IFLA_INET6_CACHEINFO", IFLA_INET6_CACHEINFO);
    visitor.attribute("IFLA_INET6_ICMP6STATS", IFLA_INET6_ICMP6STATS);
    visitor.attribute("IFLA_INET6_TOKEN", IFLA_INET6_TOKEN);
    visitor.attribute("IFLA_INET6_ADDR_GEN_MODE", IFLA_INET6_ADDR_GEN_MODE);
    visitor.attribute("IFLA_INET6_RA_MTU", IFLA_INET6_RA_MTU);
    visitor.attribute("IFLA_MCTP_NET", IFLA_MCTP_NET);
    visitor.attribute("IFLA_MCTP_PHYS_BINDING", IFLA_MCTP_PHYS_BINDING);
    visitor.attribute("NLMSGERR_ATTR_MSG", NLMSGERR_ATTR_MSG);
    visitor.attribute("NLMSGERR_ATTR_OFFS", NLMSGERR_ATTR_OFFS);
    visitor.attribute("NLMSGERR_ATTR_COOKIE", NLMSGERR_ATTR_COOKIE);
    visitor.attribute("NLMSGERR_ATTR_POLICY", NLMSGERR_ATTR_POLICY);
    visitor.attribute("NLMSGERR_ATTR_MISS_TYPE", NLMSGERR_ATTR_MISS_TYPE);
    visitor.attribute("NLMSGERR_ATTR_MISS_NEST", NLMSGERR_ATTR_MISS_NEST);
    visitor.attribute("IFLA_GENEVE_ID", IFLA_GENEVE_ID);
    visitor.attribute("IFLA_GENEVE_REMOTE", IFLA_GENEVE_REMOTE);
    visitor.attribute("IFLA_GENEVE_TTL", IFLA_GENEVE_TTL);
    visitor.attribute("IFLA_GENEVE_TOS", IFLA_GENEVE_TOS);
    visitor.attribute("IFLA_GENEVE_PORT", IFLA_GENEVE_PORT);
    visitor.attribute("IFLA_GENEVE_COLLECT_METADATA", IFLA_GENEVE_COLLECT_METADATA);
    visitor.attribute("IFLA_GENEVE_REMOTE6", IFLA_GENEVE_REMOTE6);
    visitor.attribute("IFLA_GENEVE_UDP_CSUM", IFLA_GENEVE_UDP_CSUM);
    visitor.attribute("IFLA_GENEVE_UDP_ZERO_CSUM6_TX", IFLA_GENEVE_UDP_ZERO_CSUM6_TX);
    visitor.attribute("IFLA_GENEVE_UDP_ZERO_CSUM6_RX", IFLA_GENEVE_UDP_ZERO_CSUM6_RX);
    visitor.attribute("IFLA_GENEVE_LABEL", IFLA_GENEVE_LABEL);
    visitor.attribute("IFLA_GENEVE_TTL_INHERIT", IFLA_GENEVE_TTL_INHERIT);
    visitor.attribute("IFLA_GENEVE_DF", IFLA_GENEVE_DF);
    visitor.attribute("IFLA_GENEVE_INNER_PROTO_INHERIT", IFLA_GENEVE_INNER_PROTO_INHERIT);
    visitor.attribute("IFLA_GENEVE_PORT_RANGE", IFLA_GENEVE_PORT_RANGE);
    visitor.attribute("IFLA_VRF_TABLE", IFLA_VRF_TABLE);
    visitor.attribute("IFLA_VRF_PORT_TABLE", IFLA_VRF_PORT_TABLE);
    visitor.attribute("IFLA_TUN_OWNER", IFLA_TUN_OWNER);
    visitor.attribute("IFLA_TUN_GROUP", IFLA_TUN_GROUP);
    visitor.attribute("IFLA_TUN_TYPE", IFLA_TUN_TYPE);
    visitor.attribute("IFLA_TUN_PI", IFLA_TUN_PI);
    visitor.attribute("IFLA_TUN_VNET_HDR", IFLA_TUN_VNET_HDR);
    visitor.attribute("IFLA_TUN_PERSIST", IFLA_TUN_PERSIST);
    visitor.attribute("IFLA_TUN_MULTI_QUEUE", IFLA_TUN_MULTI_QUEUE);
    visitor.attribute("IFLA_TUN_NUM_QUEUES", IFLA_TUN_NUM_QUEUES);
    visitor.attribute("IFLA_TUN_NUM_DISABLED_QUEUES", IFLA_TUN_NUM_DISABLED_QUEUES);
    visitor.attribute("IFLA_IPVLAN_MODE", IFLA_IPVLAN_MODE);
    visitor.attribute("IFLA_IPVLAN_FLAGS", IFLA_IPVLAN_FLAGS);
    visitor.attribute("IFLA_MACVLAN_MODE", IFLA_MACVLAN_MODE);
    visitor.attribute("IFLA_MACVLAN_FLAGS", IFLA_MACVLAN_FLAGS);
    visitor.attribute("IFLA_MACVLAN_MACADDR_MODE", IFLA_MACVLAN_MACADDR_MODE);
    visitor.attribute("IFLA_MACVLAN_MACADDR", IFLA_MACVLAN_MACADDR);
    visitor.attribute("IFLA_MACVLAN_MACADDR_DATA", IFLA_MACVLAN_MACADDR_DATA);
    visitor.element(IFLA_MACVLAN_MACADDR_DATA, "IFLA_MACVLAN_MACADDR", macvlan_macaddr_data::IFLA_MACVLAN_MACADDR);
    visitor.attribute("IFLA_MACVLAN_MACADDR_COUNT", IFLA_MACVLAN_MACADDR_COUNT);
    visitor.attribute("IFLA_MACVLAN_BC_QUEUE_LEN", IFLA_MACVLAN_BC_QUEUE_LEN);
    visitor.attribute("IFLA_MACVLAN_BC_QUEUE_LEN_USED", IFLA_MACVLAN_BC_QUEUE_LEN_USED);
    visitor.attribute("IFLA_MACVLAN_BC_CUTOFF", IFLA_MACVLAN_BC_CUTOFF);
    visitor.attribute("IFLA_NETKIT_PEER_INFO", IFLA_NETKIT_PEER_INFO);
    visitor.attribute("IFLA_NETKIT_PRIMARY", IFLA_NETKIT_PRIMARY);
    visitor.attribute("IFLA_NETKIT_POLICY", IFLA_NETKIT_POLICY);
    visitor.attribute("IFLA_NETKIT_PEER_POLICY", IFLA_NETKIT_PEER_POLICY);
    visitor.attribute("IFLA_NETKIT_MODE", IFLA_NETKIT_MODE);
    visitor.attribute("IFLA_NETKIT_SCRUB", IFLA_NETKIT_SCRUB);
    visitor.attribute("IFLA_NETKIT_PEER_SCRUB", IFLA_NETKIT_PEER_SCRUB);
    visitor.attribute("IFLA_NETKIT_HEADROOM", IFLA_NETKIT_HEADROOM);
    visitor.attribute("IFLA_NETKIT_TAILROOM", IFLA_NETKIT_TAILROOM);
    visitor.attribute("VETH_INFO_PEER", VETH_INFO_PEER);
}
