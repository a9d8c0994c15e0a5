//! The attributes of each set, and the elements of each list, as enums. Written by bindings/generate.py.
use crate::macros::attributes;
use crate::*;
use std::net::{Ipv4Addr, Ipv6Addr};

attributes! {
    /// Holds an attribute of [`AfSpecBridge`], as a variant for its type.
    AfSpecBridgeAttribute of AfSpecBridge;
    /// Holds [`IFLA_BRIDGE_FLAGS`].
    Flags(BridgeFlags) = 0;
    /// Holds [`IFLA_BRIDGE_MODE`].
    Mode(BridgeMode) = 1;
    /// Holds [`IFLA_BRIDGE_VLAN_INFO`].
    VlanInfo(VlanInfo) = 2;
    /// Holds [`IFLA_BRIDGE_VLAN_TUNNEL_INFO`].
    VlanTunnelInfo(Nested<BridgeVlanTunnelInfo>) = 3;
}

attributes! {
    /// Holds an element of [`IFLA_BRIDGE_VLAN_TUNNEL_INFO`], as a variant for its type.
    BridgeVlanTunnelInfoAttribute of BridgeVlanTunnelInfo;
    /// Holds [`IFLA_BRIDGE_VLAN_TUNNEL_ID`].
    Id(u32) = 1;
    /// Holds [`IFLA_BRIDGE_VLAN_TUNNEL_VID`].
    Vid(u16) = 2;
    /// Holds [`IFLA_BRIDGE_VLAN_TUNNEL_FLAGS`].
    Flags(BridgeVlanFlags) = 3;
}

attributes! {
    /// Holds an attribute of [`Bond`], as a variant for its type.
    BondAttribute of Bond;
    /// Holds [`IFLA_BOND_MODE`].
    Mode(BondMode) = 1;
    /// Holds [`IFLA_BOND_ACTIVE_SLAVE`].
    ActivePort(u32) = 2;
    /// Holds [`IFLA_BOND_MIIMON`].
    MiiMon(u32) = 3;
    /// Holds [`IFLA_BOND_UPDELAY`].
    UpDelay(u32) = 4;
    /// Holds [`IFLA_BOND_DOWNDELAY`].
    DownDelay(u32) = 5;
    /// Holds [`IFLA_BOND_USE_CARRIER`].
    UseCarrier(bool) = 6;
    /// Holds [`IFLA_BOND_ARP_INTERVAL`].
    ArpInterval(u32) = 7;
    /// Holds [`IFLA_BOND_ARP_IP_TARGET`].
    ArpIpTarget(Vec<Ipv4Addr>) = 8;
    /// Holds [`IFLA_BOND_ARP_VALIDATE`].
    ArpValidate(BondArpValidate) = 9;
    /// Holds [`IFLA_BOND_ARP_ALL_TARGETS`].
    ArpAllTargets(BondArpAllTargets) = 10;
    /// Holds [`IFLA_BOND_PRIMARY`].
    Primary(u32) = 11;
    /// Holds [`IFLA_BOND_PRIMARY_RESELECT`].
    PrimaryReselect(BondPrimaryReselect) = 12;
    /// Holds [`IFLA_BOND_FAIL_OVER_MAC`].
    FailOverMac(BondFailOverMac) = 13;
    /// Holds [`IFLA_BOND_XMIT_HASH_POLICY`].
    XmitHashPolicy(BondXmitHashPolicy) = 14;
    /// Holds [`IFLA_BOND_RESEND_IGMP`].
    ResendIgmp(u32) = 15;
    /// Holds [`IFLA_BOND_NUM_PEER_NOTIF`].
    NumPeerNotif(u8) = 16;
    /// Holds [`IFLA_BOND_ALL_SLAVES_ACTIVE`].
    AllPortsActive(BondAllPortsActive) = 17;
    /// Holds [`IFLA_BOND_MIN_LINKS`].
    MinLinks(u32) = 18;
    /// Holds [`IFLA_BOND_LP_INTERVAL`].
    LpInterval(u32) = 19;
    /// Holds [`IFLA_BOND_PACKETS_PER_SLAVE`].
    PacketsPerPort(u32) = 20;
    /// Holds [`IFLA_BOND_AD_LACP_RATE`].
    AdLacpRate(BondAdLacpRate) = 21;
    /// Holds [`IFLA_BOND_AD_SELECT`].
    AdSelect(BondAdSelect) = 22;
    /// Holds [`IFLA_BOND_AD_INFO`].
    AdInfo(Nested<BondAdInfo>) = 23;
    /// Holds [`IFLA_BOND_AD_ACTOR_SYS_PRIO`].
    AdActorSysPrio(u16) = 24;
    /// Holds [`IFLA_BOND_AD_USER_PORT_KEY`].
    AdUserPortKey(u16) = 25;
    /// Holds [`IFLA_BOND_AD_ACTOR_SYSTEM`].
    AdActorSystem(Mac) = 26;
    /// Holds [`IFLA_BOND_TLB_DYNAMIC_LB`].
    TlbDynamicLb(bool) = 27;
    /// Holds [`IFLA_BOND_PEER_NOTIF_DELAY`].
    PeerNotifDelay(u32) = 28;
    /// Holds [`IFLA_BOND_AD_LACP_ACTIVE`].
    AdLacpActive(bool) = 29;
    /// Holds [`IFLA_BOND_MISSED_MAX`].
    MissedMax(u8) = 30;
    /// Holds [`IFLA_BOND_NS_IP6_TARGET`].
    NsIp6Target(Vec<Ipv6Addr>) = 31;
    /// Holds [`IFLA_BOND_COUPLED_CONTROL`].
    CoupledControl(bool) = 32;
    /// Holds [`IFLA_BOND_BROADCAST_NEIGH`].
    BroadcastNeigh(bool) = 33;
    /// Holds [`IFLA_BOND_LACP_STRICT`].
    LacpStrict(bool) = 34;
}

attributes! {
    /// Holds an element of [`IFLA_BOND_AD_INFO`], as a variant for its type.
    BondAdInfoAttribute of BondAdInfo;
    /// Holds [`IFLA_BOND_AD_INFO_AGGREGATOR`].
    Aggregator(u16) = 1;
    /// Holds [`IFLA_BOND_AD_INFO_NUM_PORTS`].
    NumPorts(u16) = 2;
    /// Holds [`IFLA_BOND_AD_INFO_ACTOR_KEY`].
    ActorKey(u16) = 3;
    /// Holds [`IFLA_BOND_AD_INFO_PARTNER_KEY`].
    PartnerKey(u16) = 4;
    /// Holds [`IFLA_BOND_AD_INFO_PARTNER_MAC`].
    PartnerMac(Mac) = 5;
}

attributes! {
    /// Holds an attribute of [`BondPort`], as a variant for its type.
    BondPortAttribute of BondPort;
    /// Holds [`IFLA_BOND_SLAVE_STATE`].
    BondPortState(BondPortState) = 1;
    /// Holds [`IFLA_BOND_SLAVE_MII_STATUS`].
    MiiStatus(MiiStatus) = 2;
    /// Holds [`IFLA_BOND_SLAVE_LINK_FAILURE_COUNT`].
    LinkFailureCount(u32) = 3;
    /// Holds [`IFLA_BOND_SLAVE_PERM_HWADDR`].
    PermHwaddr(Vec<u8>) = 4;
    /// Holds [`IFLA_BOND_SLAVE_QUEUE_ID`].
    QueueId(u16) = 5;
    /// Holds [`IFLA_BOND_SLAVE_AD_AGGREGATOR_ID`].
    AdAggregatorId(u16) = 6;
    /// Holds [`IFLA_BOND_SLAVE_AD_ACTOR_OPER_PORT_STATE`].
    AdActorOperPortState(LacpState) = 7;
    /// Holds [`IFLA_BOND_SLAVE_AD_PARTNER_OPER_PORT_STATE`].
    AdPartnerOperPortState(LacpState) = 8;
    /// Holds [`IFLA_BOND_SLAVE_PRIO`].
    Prio(i32) = 9;
    /// Holds [`IFLA_BOND_SLAVE_ACTOR_PORT_PRIO`].
    ActorPortPrio(u16) = 10;
    /// Holds [`IFLA_BOND_SLAVE_AD_CHURN_ACTOR_STATE`].
    AdChurnActorState(ChurnState) = 11;
    /// Holds [`IFLA_BOND_SLAVE_AD_CHURN_PARTNER_STATE`].
    AdChurnPartnerState(ChurnState) = 12;
}

attributes! {
    /// Holds an attribute of [`Bridge`], as a variant for its type.
    BridgeAttribute of Bridge;
    /// Holds [`IFLA_BR_FORWARD_DELAY`].
    ForwardDelay(u32) = 1;
    /// Holds [`IFLA_BR_HELLO_TIME`].
    HelloTime(u32) = 2;
    /// Holds [`IFLA_BR_MAX_AGE`].
    MaxAge(u32) = 3;
    /// Holds [`IFLA_BR_AGEING_TIME`].
    AgeingTime(u32) = 4;
    /// Holds [`IFLA_BR_STP_STATE`].
    StpState(BridgeStpState) = 5;
    /// Holds [`IFLA_BR_PRIORITY`].
    Priority(u16) = 6;
    /// Holds [`IFLA_BR_VLAN_FILTERING`].
    VlanFiltering(bool) = 7;
    /// Holds [`IFLA_BR_VLAN_PROTOCOL`].
    VlanProtocol(VlanProtocol) = 8;
    /// Holds [`IFLA_BR_GROUP_FWD_MASK`].
    GroupFwdMask(u16) = 9;
    /// Holds [`IFLA_BR_ROOT_ID`].
    RootId(BridgeId) = 10;
    /// Holds [`IFLA_BR_BRIDGE_ID`].
    BridgeId(BridgeId) = 11;
    /// Holds [`IFLA_BR_ROOT_PORT`].
    RootPort(u16) = 12;
    /// Holds [`IFLA_BR_ROOT_PATH_COST`].
    RootPathCost(u32) = 13;
    /// Holds [`IFLA_BR_TOPOLOGY_CHANGE`].
    TopologyChange(u8) = 14;
    /// Holds [`IFLA_BR_TOPOLOGY_CHANGE_DETECTED`].
    TopologyChangeDetected(u8) = 15;
    /// Holds [`IFLA_BR_HELLO_TIMER`].
    HelloTimer(u64) = 16;
    /// Holds [`IFLA_BR_TCN_TIMER`].
    TcnTimer(u64) = 17;
    /// Holds [`IFLA_BR_TOPOLOGY_CHANGE_TIMER`].
    TopologyChangeTimer(u64) = 18;
    /// Holds [`IFLA_BR_GC_TIMER`].
    GcTimer(u64) = 19;
    /// Holds [`IFLA_BR_GROUP_ADDR`].
    GroupAddr(Mac) = 20;
    /// Represents [`IFLA_BR_FDB_FLUSH`].
    FdbFlush = 21;
    /// Holds [`IFLA_BR_MCAST_ROUTER`].
    MulticastRouter(McastRouter) = 22;
    /// Holds [`IFLA_BR_MCAST_SNOOPING`].
    MulticastSnooping(bool) = 23;
    /// Holds [`IFLA_BR_MCAST_QUERY_USE_IFADDR`].
    MulticastQueryUseIfaddr(bool) = 24;
    /// Holds [`IFLA_BR_MCAST_QUERIER`].
    MulticastQuerier(bool) = 25;
    /// Holds [`IFLA_BR_MCAST_HASH_ELASTICITY`].
    MulticastHashElasticity(u32) = 26;
    /// Holds [`IFLA_BR_MCAST_HASH_MAX`].
    MulticastHashMax(u32) = 27;
    /// Holds [`IFLA_BR_MCAST_LAST_MEMBER_CNT`].
    MulticastLastMemberCount(u32) = 28;
    /// Holds [`IFLA_BR_MCAST_STARTUP_QUERY_CNT`].
    MulticastStartupQueryCount(u32) = 29;
    /// Holds [`IFLA_BR_MCAST_LAST_MEMBER_INTVL`].
    MulticastLastMemberInterval(u64) = 30;
    /// Holds [`IFLA_BR_MCAST_MEMBERSHIP_INTVL`].
    MulticastMembershipInterval(u64) = 31;
    /// Holds [`IFLA_BR_MCAST_QUERIER_INTVL`].
    MulticastQuerierInterval(u64) = 32;
    /// Holds [`IFLA_BR_MCAST_QUERY_INTVL`].
    MulticastQueryInterval(u64) = 33;
    /// Holds [`IFLA_BR_MCAST_QUERY_RESPONSE_INTVL`].
    MulticastQueryResponseInterval(u64) = 34;
    /// Holds [`IFLA_BR_MCAST_STARTUP_QUERY_INTVL`].
    MulticastStartupQueryInterval(u64) = 35;
    /// Holds [`IFLA_BR_NF_CALL_IPTABLES`].
    NfCallIpTables(bool) = 36;
    /// Holds [`IFLA_BR_NF_CALL_IP6TABLES`].
    NfCallIp6Tables(bool) = 37;
    /// Holds [`IFLA_BR_NF_CALL_ARPTABLES`].
    NfCallArpTables(bool) = 38;
    /// Holds [`IFLA_BR_VLAN_DEFAULT_PVID`].
    VlanDefaultPvid(u16) = 39;
    /// Holds [`IFLA_BR_VLAN_STATS_ENABLED`].
    VlanStatsEnabled(bool) = 41;
    /// Holds [`IFLA_BR_MCAST_STATS_ENABLED`].
    MulticastStatsEnabled(bool) = 42;
    /// Holds [`IFLA_BR_MCAST_IGMP_VERSION`].
    MulticastIgmpVersion(u8) = 43;
    /// Holds [`IFLA_BR_MCAST_MLD_VERSION`].
    MulticastMldVersion(u8) = 44;
    /// Holds [`IFLA_BR_VLAN_STATS_PER_PORT`].
    VlanStatsPerPort(bool) = 45;
    /// Holds [`IFLA_BR_MULTI_BOOLOPT`].
    MultiBoolOpt(Masked<BridgeBoolOpt>) = 46;
    /// Holds [`IFLA_BR_MCAST_QUERIER_STATE`].
    MulticastQuerierState(Nested<BrMcastQuerierState>) = 47;
    /// Holds [`IFLA_BR_FDB_N_LEARNED`].
    FdbNLearned(u32) = 48;
    /// Holds [`IFLA_BR_FDB_MAX_LEARNED`].
    FdbMaxLearned(u32) = 49;
    /// Holds [`IFLA_BR_STP_MODE`].
    StpMode(BridgeStpMode) = 50;
}

attributes! {
    /// Holds an element of [`IFLA_BR_MCAST_QUERIER_STATE`], as a variant for its type.
    BrMcastQuerierStateAttribute of BrMcastQuerierState;
    /// Holds [`BRIDGE_QUERIER_IP_ADDRESS`].
    Ipv4Address(Ipv4Addr) = 1;
    /// Holds [`BRIDGE_QUERIER_IP_PORT`].
    Ipv4Port(u32) = 2;
    /// Holds [`BRIDGE_QUERIER_IP_OTHER_TIMER`].
    Ipv4OtherTimer(u64) = 3;
    /// Holds [`BRIDGE_QUERIER_IPV6_ADDRESS`].
    Ipv6Address(Ipv6Addr) = 5;
    /// Holds [`BRIDGE_QUERIER_IPV6_PORT`].
    Ipv6Port(u32) = 6;
    /// Holds [`BRIDGE_QUERIER_IPV6_OTHER_TIMER`].
    Ipv6OtherTimer(u64) = 7;
}

attributes! {
    /// Holds an attribute of [`BridgePort`], as a variant for its type.
    BridgePortAttribute of BridgePort;
    /// Holds [`IFLA_BRPORT_STATE`].
    State(BridgePortState) = 1;
    /// Holds [`IFLA_BRPORT_PRIORITY`].
    Priority(u16) = 2;
    /// Holds [`IFLA_BRPORT_COST`].
    Cost(u32) = 3;
    /// Holds [`IFLA_BRPORT_MODE`].
    HairpinMode(bool) = 4;
    /// Holds [`IFLA_BRPORT_GUARD`].
    Guard(bool) = 5;
    /// Holds [`IFLA_BRPORT_PROTECT`].
    Protect(bool) = 6;
    /// Holds [`IFLA_BRPORT_FAST_LEAVE`].
    FastLeave(bool) = 7;
    /// Holds [`IFLA_BRPORT_LEARNING`].
    Learning(bool) = 8;
    /// Holds [`IFLA_BRPORT_UNICAST_FLOOD`].
    UnicastFlood(bool) = 9;
    /// Holds [`IFLA_BRPORT_PROXYARP`].
    ProxyARP(bool) = 10;
    /// Holds [`IFLA_BRPORT_LEARNING_SYNC`].
    LearningSync(bool) = 11;
    /// Holds [`IFLA_BRPORT_PROXYARP_WIFI`].
    ProxyARPWifi(bool) = 12;
    /// Holds [`IFLA_BRPORT_ROOT_ID`].
    RootId(BridgeId) = 13;
    /// Holds [`IFLA_BRPORT_BRIDGE_ID`].
    BridgeId(BridgeId) = 14;
    /// Holds [`IFLA_BRPORT_DESIGNATED_PORT`].
    DesignatedPort(u16) = 15;
    /// Holds [`IFLA_BRPORT_DESIGNATED_COST`].
    DesignatedCost(u16) = 16;
    /// Holds [`IFLA_BRPORT_ID`].
    PortId(u16) = 17;
    /// Holds [`IFLA_BRPORT_NO`].
    PortNumber(u16) = 18;
    /// Holds [`IFLA_BRPORT_TOPOLOGY_CHANGE_ACK`].
    TopologyChangeAck(bool) = 19;
    /// Holds [`IFLA_BRPORT_CONFIG_PENDING`].
    ConfigPending(bool) = 20;
    /// Holds [`IFLA_BRPORT_MESSAGE_AGE_TIMER`].
    MessageAgeTimer(u64) = 21;
    /// Holds [`IFLA_BRPORT_FORWARD_DELAY_TIMER`].
    ForwardDelayTimer(u64) = 22;
    /// Holds [`IFLA_BRPORT_HOLD_TIMER`].
    HoldTimer(u64) = 23;
    /// Represents [`IFLA_BRPORT_FLUSH`].
    Flush = 24;
    /// Holds [`IFLA_BRPORT_MULTICAST_ROUTER`].
    MulticastRouter(McastRouter) = 25;
    /// Holds [`IFLA_BRPORT_MCAST_FLOOD`].
    MulticastFlood(bool) = 27;
    /// Holds [`IFLA_BRPORT_MCAST_TO_UCAST`].
    MulticastToUnicast(bool) = 28;
    /// Holds [`IFLA_BRPORT_VLAN_TUNNEL`].
    VlanTunnel(bool) = 29;
    /// Holds [`IFLA_BRPORT_BCAST_FLOOD`].
    BroadcastFlood(bool) = 30;
    /// Holds [`IFLA_BRPORT_GROUP_FWD_MASK`].
    GroupFwdMask(u16) = 31;
    /// Holds [`IFLA_BRPORT_NEIGH_SUPPRESS`].
    NeighSupress(bool) = 32;
    /// Holds [`IFLA_BRPORT_ISOLATED`].
    Isolated(bool) = 33;
    /// Holds [`IFLA_BRPORT_BACKUP_PORT`].
    BackupPort(u32) = 34;
    /// Holds [`IFLA_BRPORT_MRP_RING_OPEN`].
    MrpRingOpen(bool) = 35;
    /// Holds [`IFLA_BRPORT_MRP_IN_OPEN`].
    MrpInOpen(bool) = 36;
    /// Holds [`IFLA_BRPORT_MCAST_EHT_HOSTS_LIMIT`].
    MulticastEhtHostsLimit(u32) = 37;
    /// Holds [`IFLA_BRPORT_MCAST_EHT_HOSTS_CNT`].
    MulticastEhtHostsCnt(u32) = 38;
    /// Holds [`IFLA_BRPORT_LOCKED`].
    Locked(bool) = 39;
    /// Holds [`IFLA_BRPORT_MAB`].
    Mab(bool) = 40;
    /// Holds [`IFLA_BRPORT_MCAST_N_GROUPS`].
    MulticastNGroups(u32) = 41;
    /// Holds [`IFLA_BRPORT_MCAST_MAX_GROUPS`].
    MulticastMaxGroups(u32) = 42;
    /// Holds [`IFLA_BRPORT_NEIGH_VLAN_SUPPRESS`].
    NeighVlanSuppress(bool) = 43;
    /// Holds [`IFLA_BRPORT_BACKUP_NHID`].
    BackupNextHopId(u32) = 44;
    /// Holds [`IFLA_BRPORT_NEIGH_FORWARD_GRAT`].
    NeighForwardGrat(bool) = 45;
}

attributes! {
    /// Holds an attribute of [`Vlan`], as a variant for its type.
    VlanAttribute of Vlan;
    /// Holds [`IFLA_VLAN_ID`].
    Id(u16) = 1;
    /// Holds [`IFLA_VLAN_FLAGS`].
    Flags(Masked<VlanFlags>) = 2;
    /// Holds [`IFLA_VLAN_EGRESS_QOS`].
    EgressQos(Vec<QosMapping>) = 3;
    /// Holds [`IFLA_VLAN_INGRESS_QOS`].
    IngressQos(Vec<QosMapping>) = 4;
    /// Holds [`IFLA_VLAN_PROTOCOL`].
    Protocol(VlanProtocol) = 5;
}

attributes! {
    /// Holds an attribute of [`Can`], as a variant for its type.
    CanAttribute of Can;
    /// Holds [`IFLA_CAN_BITTIMING`].
    BitTiming(CanBitTiming) = 1;
    /// Holds [`IFLA_CAN_BITTIMING_CONST`].
    BitTimingConst(CanBitTimingConst) = 2;
    /// Holds [`IFLA_CAN_CLOCK`].
    Clock(u32) = 3;
    /// Holds [`IFLA_CAN_STATE`].
    State(CanState) = 4;
    /// Holds [`IFLA_CAN_CTRLMODE`].
    CtrlMode(Masked<CanCtrlMode>) = 5;
    /// Holds [`IFLA_CAN_RESTART_MS`].
    RestartMs(u32) = 6;
    /// Holds [`IFLA_CAN_RESTART`].
    Restart(u32) = 7;
    /// Holds [`IFLA_CAN_BERR_COUNTER`].
    BerrCounter(BerrCounter) = 8;
    /// Holds [`IFLA_CAN_DATA_BITTIMING`].
    DataBitTiming(CanBitTiming) = 9;
    /// Holds [`IFLA_CAN_DATA_BITTIMING_CONST`].
    DataBitTimingConst(CanBitTimingConst) = 10;
    /// Holds [`IFLA_CAN_TERMINATION`].
    Termination(u16) = 11;
    /// Holds [`IFLA_CAN_TERMINATION_CONST`].
    TerminationConst(Vec<u16>) = 12;
    /// Holds [`IFLA_CAN_BITRATE_CONST`].
    BitrateConst(Vec<u32>) = 13;
    /// Holds [`IFLA_CAN_DATA_BITRATE_CONST`].
    DataBitrateConst(Vec<u32>) = 14;
    /// Holds [`IFLA_CAN_BITRATE_MAX`].
    BitrateMax(u32) = 15;
    /// Holds [`IFLA_CAN_TDC`].
    Tdc(Nested<CanTdc>) = 16;
    /// Holds [`IFLA_CAN_CTRLMODE_EXT`].
    CtrlModeExt(Nested<CanCtrlmodeExt>) = 17;
}

attributes! {
    /// Holds an element of [`IFLA_CAN_TDC`], as a variant for its type.
    CanTdcAttribute of CanTdc;
    /// Holds [`IFLA_CAN_TDC_TDCV_MIN`].
    TdcvMin(u32) = 1;
    /// Holds [`IFLA_CAN_TDC_TDCV_MAX`].
    TdcvMax(u32) = 2;
    /// Holds [`IFLA_CAN_TDC_TDCO_MIN`].
    TdcoMin(u32) = 3;
    /// Holds [`IFLA_CAN_TDC_TDCO_MAX`].
    TdcoMax(u32) = 4;
    /// Holds [`IFLA_CAN_TDC_TDCF_MIN`].
    TdcfMin(u32) = 5;
    /// Holds [`IFLA_CAN_TDC_TDCF_MAX`].
    TdcfMax(u32) = 6;
    /// Holds [`IFLA_CAN_TDC_TDCV`].
    Tdcv(u32) = 7;
    /// Holds [`IFLA_CAN_TDC_TDCO`].
    Tdco(u32) = 8;
    /// Holds [`IFLA_CAN_TDC_TDCF`].
    Tdcf(u32) = 9;
}

attributes! {
    /// Holds an element of [`IFLA_CAN_CTRLMODE_EXT`], as a variant for its type.
    CanCtrlmodeExtAttribute of CanCtrlmodeExt;
    /// Holds [`IFLA_CAN_CTRLMODE_SUPPORTED`].
    Supported(CanCtrlMode) = 1;
}

attributes! {
    /// Holds an attribute of [`Dsa`], as a variant for its type.
    DsaAttribute of Dsa;
    /// Holds [`IFLA_DSA_CONDUIT`].
    Conduit(u32) = 1;
}

attributes! {
    /// Holds an attribute of [`Hsr`], as a variant for its type.
    HsrAttribute of Hsr;
    /// Holds [`IFLA_HSR_SLAVE1`].
    Port1(u32) = 1;
    /// Holds [`IFLA_HSR_SLAVE2`].
    Port2(u32) = 2;
    /// Holds [`IFLA_HSR_MULTICAST_SPEC`].
    MulticastSpec(u8) = 3;
    /// Holds [`IFLA_HSR_SUPERVISION_ADDR`].
    SupervisionAddr(Mac) = 4;
    /// Holds [`IFLA_HSR_SEQ_NR`].
    SeqNr(u16) = 5;
    /// Holds [`IFLA_HSR_VERSION`].
    Version(u8) = 6;
    /// Holds [`IFLA_HSR_PROTOCOL`].
    Protocol(HsrProtocol) = 7;
    /// Holds [`IFLA_HSR_INTERLINK`].
    Interlink(u32) = 8;
}

attributes! {
    /// Holds an attribute of [`ProtoBridge`], as a variant for its type.
    ProtoBridgeAttribute of ProtoBridge;
    /// Holds [`IFLA_BRPORT_NEIGH_FORWARD_GRAT`](proto_bridge::IFLA_BRPORT_NEIGH_FORWARD_GRAT).
    NeighForwardGrat(bool) = 45;
}

attributes! {
    /// Holds an attribute of [`Vxlan`], as a variant for its type.
    VxlanAttribute of Vxlan;
    /// Holds [`IFLA_VXLAN_ID`].
    Id(u32) = 1;
    /// Holds [`IFLA_VXLAN_GROUP`].
    Group(Ipv4Addr) = 2;
    /// Holds [`IFLA_VXLAN_LINK`].
    Link(u32) = 3;
    /// Holds [`IFLA_VXLAN_LOCAL`].
    Local(Ipv4Addr) = 4;
    /// Holds [`IFLA_VXLAN_TTL`].
    Ttl(u8) = 5;
    /// Holds [`IFLA_VXLAN_TOS`].
    Tos(u8) = 6;
    /// Holds [`IFLA_VXLAN_LEARNING`].
    Learning(bool) = 7;
    /// Holds [`IFLA_VXLAN_AGEING`].
    Ageing(u32) = 8;
    /// Holds [`IFLA_VXLAN_LIMIT`].
    Limit(u32) = 9;
    /// Holds [`IFLA_VXLAN_PORT_RANGE`].
    PortRange(Vec<u8>) = 10;
    /// Holds [`IFLA_VXLAN_PROXY`].
    Proxy(bool) = 11;
    /// Holds [`IFLA_VXLAN_RSC`].
    Rsc(bool) = 12;
    /// Holds [`IFLA_VXLAN_L2MISS`].
    L2Miss(bool) = 13;
    /// Holds [`IFLA_VXLAN_L3MISS`].
    L3Miss(bool) = 14;
    /// Holds [`IFLA_VXLAN_PORT`].
    Port(u16) = 15;
    /// Holds [`IFLA_VXLAN_GROUP6`].
    Group6(Ipv6Addr) = 16;
    /// Holds [`IFLA_VXLAN_LOCAL6`].
    Local6(Ipv6Addr) = 17;
    /// Holds [`IFLA_VXLAN_UDP_CSUM`].
    UdpCsum(bool) = 18;
    /// Holds [`IFLA_VXLAN_UDP_ZERO_CSUM6_TX`].
    UdpZeroCsum6Tx(bool) = 19;
    /// Holds [`IFLA_VXLAN_UDP_ZERO_CSUM6_RX`].
    UdpZeroCsum6Rx(bool) = 20;
    /// Holds [`IFLA_VXLAN_REMCSUM_TX`].
    RemCsumTx(bool) = 21;
    /// Holds [`IFLA_VXLAN_REMCSUM_RX`].
    RemCsumRx(bool) = 22;
    /// Represents [`IFLA_VXLAN_GBP`].
    Gbp = 23;
    /// Represents [`IFLA_VXLAN_REMCSUM_NOPARTIAL`].
    RemCsumNoPartial = 24;
    /// Holds [`IFLA_VXLAN_COLLECT_METADATA`].
    CollectMetadata(bool) = 25;
    /// Holds [`IFLA_VXLAN_LABEL`].
    Label(u32) = 26;
    /// Represents [`IFLA_VXLAN_GPE`].
    Gpe = 27;
    /// Holds [`IFLA_VXLAN_TTL_INHERIT`].
    TtlInherit(bool) = 28;
    /// Holds [`IFLA_VXLAN_DF`].
    Df(VxlanDf) = 29;
    /// Holds [`IFLA_VXLAN_VNIFILTER`].
    VniFilter(bool) = 30;
    /// Holds [`IFLA_VXLAN_LOCALBYPASS`].
    LocalBypass(bool) = 31;
    /// Holds [`IFLA_VXLAN_LABEL_POLICY`].
    LabelPolicy(VxlanLabelPolicy) = 32;
    /// Holds [`IFLA_VXLAN_RESERVED_BITS`].
    ReservedBits(Vec<u8>) = 33;
    /// Holds [`IFLA_VXLAN_MC_ROUTE`].
    McRoute(bool) = 34;
}

attributes! {
    /// Holds an attribute of [`Link`], as a variant for its type.
    LinkAttribute of Link;
    /// Holds [`IFLA_ADDRESS`].
    Address(Vec<u8>) = 1;
    /// Holds [`IFLA_BROADCAST`].
    Broadcast(Vec<u8>) = 2;
    /// Holds [`IFLA_IFNAME`].
    IfName(Text) = 3;
    /// Holds [`IFLA_MTU`].
    Mtu(u32) = 4;
    /// Holds [`IFLA_LINK`].
    Link(u32) = 5;
    /// Holds [`IFLA_QDISC`].
    Qdisc(Text) = 6;
    /// Holds [`IFLA_STATS`].
    Stats(Vec<u32>) = 7;
    /// Holds [`IFLA_COST`].
    Cost(Vec<u8>) = 8;
    /// Holds [`IFLA_PRIORITY`].
    Priority(Vec<u8>) = 9;
    /// Holds [`IFLA_MASTER`].
    Controller(u32) = 10;
    /// Holds [`IFLA_WIRELESS`].
    Wireless(Vec<u8>) = 11;
    /// Holds [`IFLA_TXQLEN`].
    TxQueueLen(u32) = 13;
    /// Holds [`IFLA_MAP`].
    Map(Vec<u8>) = 14;
    /// Holds [`IFLA_WEIGHT`].
    Weight(u32) = 15;
    /// Holds [`IFLA_OPERSTATE`].
    OperState(OperState) = 16;
    /// Holds [`IFLA_LINKMODE`].
    LinkMode(LinkMode) = 17;
    /// Holds [`IFLA_LINKINFO`].
    LinkInfo(Nested<LinkInfo>) = 18;
    /// Holds [`IFLA_NET_NS_PID`].
    NetNsPid(u32) = 19;
    /// Holds [`IFLA_IFALIAS`].
    IfAlias(Text) = 20;
    /// Holds [`IFLA_NUM_VF`].
    NumVf(u32) = 21;
    /// Holds [`IFLA_VFINFO_LIST`].
    VfInfoList(Held) = 22;
    /// Holds [`IFLA_STATS64`].
    Stats64(Vec<u64>) = 23;
    /// Holds [`IFLA_VF_PORTS`].
    VfPorts(Held) = 24;
    /// Holds [`IFLA_PORT_SELF`].
    PortSelf(Held) = 25;
    /// Holds [`IFLA_AF_SPEC`].
    AfSpec(Held) = 26;
    /// Holds [`IFLA_GROUP`].
    Group(u32) = 27;
    /// Holds [`IFLA_NET_NS_FD`].
    NetNsFd(u32) = 28;
    /// Holds [`IFLA_EXT_MASK`].
    ExtMask(ExtMask) = 29;
    /// Holds [`IFLA_PROMISCUITY`].
    Promiscuity(u32) = 30;
    /// Holds [`IFLA_NUM_TX_QUEUES`].
    NumTxQueues(u32) = 31;
    /// Holds [`IFLA_NUM_RX_QUEUES`].
    NumRxQueues(u32) = 32;
    /// Holds [`IFLA_CARRIER`].
    Carrier(bool) = 33;
    /// Holds [`IFLA_PHYS_PORT_ID`].
    PhysPortId(Vec<u8>) = 34;
    /// Holds [`IFLA_CARRIER_CHANGES`].
    CarrierChanges(u32) = 35;
    /// Holds [`IFLA_PHYS_SWITCH_ID`].
    PhysSwitchId(Vec<u8>) = 36;
    /// Holds [`IFLA_LINK_NETNSID`].
    LinkNetnsId(i32) = 37;
    /// Holds [`IFLA_PHYS_PORT_NAME`].
    PhysPortName(Text) = 38;
    /// Holds [`IFLA_PROTO_DOWN`].
    ProtoDown(bool) = 39;
    /// Holds [`IFLA_GSO_MAX_SEGS`].
    GsoMaxSegs(u32) = 40;
    /// Holds [`IFLA_GSO_MAX_SIZE`].
    GsoMaxSize(u32) = 41;
    /// Represents [`IFLA_PAD`].
    Pad = 42;
    /// Holds [`IFLA_XDP`].
    Xdp(Nested<Xdp>) = 43;
    /// Holds [`IFLA_EVENT`].
    Event(LinkEvent) = 44;
    /// Holds [`IFLA_NEW_NETNSID`].
    NewNetnsId(i32) = 45;
    /// Holds [`IFLA_TARGET_NETNSID`].
    TargetNetnsId(i32) = 46;
    /// Holds [`IFLA_CARRIER_UP_COUNT`].
    CarrierUpCount(u32) = 47;
    /// Holds [`IFLA_CARRIER_DOWN_COUNT`].
    CarrierDownCount(u32) = 48;
    /// Holds [`IFLA_NEW_IFINDEX`].
    NewIfIndex(u32) = 49;
    /// Holds [`IFLA_MIN_MTU`].
    MinMtu(u32) = 50;
    /// Holds [`IFLA_MAX_MTU`].
    MaxMtu(u32) = 51;
    /// Holds [`IFLA_PROP_LIST`].
    PropList(Nested<PropList>) = 52;
    /// Holds [`IFLA_ALT_IFNAME`].
    AltIfName(Text) = 53;
    /// Holds [`IFLA_PERM_ADDRESS`].
    PermAddress(Vec<u8>) = 54;
    /// Holds [`IFLA_PROTO_DOWN_REASON`].
    ProtoDownReason(Nested<ProtoDownReason>) = 55;
    /// Holds [`IFLA_PARENT_DEV_NAME`].
    ParentDevName(Text) = 56;
    /// Holds [`IFLA_PARENT_DEV_BUS_NAME`].
    ParentDevBusName(Text) = 57;
    /// Holds [`IFLA_GRO_MAX_SIZE`].
    GroMaxSize(u32) = 58;
    /// Holds [`IFLA_TSO_MAX_SIZE`].
    TsoMaxSize(u32) = 59;
    /// Holds [`IFLA_TSO_MAX_SEGS`].
    TsoMaxSegs(u32) = 60;
    /// Holds [`IFLA_ALLMULTI`].
    AllMulti(u32) = 61;
    /// Holds [`IFLA_DEVLINK_PORT`].
    DevlinkPort(Nested<DevlinkPort>) = 62;
    /// Holds [`IFLA_GSO_IPV4_MAX_SIZE`].
    GsoIpv4MaxSize(u32) = 63;
    /// Holds [`IFLA_GRO_IPV4_MAX_SIZE`].
    GroIpv4MaxSize(u32) = 64;
    /// Holds [`IFLA_DPLL_PIN`].
    DpllPin(Nested<DpllPin>) = 65;
    /// Holds [`IFLA_MAX_PACING_OFFLOAD_HORIZON`].
    MaxPacingOffloadHorizon(Vec<u8>) = 66;
    /// Holds [`IFLA_NETNS_IMMUTABLE`].
    NetnsImmutable(bool) = 67;
    /// Holds [`IFLA_HEADROOM`].
    Headroom(u16) = 68;
    /// Holds [`IFLA_TAILROOM`].
    Tailroom(u16) = 69;
}

attributes! {
    /// Holds an element of [`IFLA_LINKINFO`], as a variant for its type.
    LinkInfoAttribute of LinkInfo;
    /// Holds [`IFLA_INFO_KIND`].
    Kind(Text) = 1;
    /// Holds [`IFLA_INFO_DATA`].
    Data(Held) = 2;
    /// Holds [`IFLA_INFO_XSTATS`].
    Xstats(Vec<u8>) = 3;
    /// Holds [`IFLA_INFO_SLAVE_KIND`].
    PortKind(Text) = 4;
    /// Holds [`IFLA_INFO_SLAVE_DATA`].
    PortData(Held) = 5;
}

attributes! {
    /// Holds an element of [`IFLA_XDP`], as a variant for its type.
    XdpAttribute of Xdp;
    /// Holds [`IFLA_XDP_FD`].
    Fd(i32) = 1;
    /// Holds [`IFLA_XDP_ATTACHED`].
    Attached(XdpAttached) = 2;
    /// Holds [`IFLA_XDP_FLAGS`].
    Flags(XdpFlags) = 3;
    /// Holds [`IFLA_XDP_PROG_ID`].
    ProgId(u32) = 4;
    /// Holds [`IFLA_XDP_DRV_PROG_ID`].
    DrvProgId(u32) = 5;
    /// Holds [`IFLA_XDP_SKB_PROG_ID`].
    SkbProgId(u32) = 6;
    /// Holds [`IFLA_XDP_HW_PROG_ID`].
    HwProgId(u32) = 7;
    /// Holds [`IFLA_XDP_EXPECTED_FD`].
    ExpectedFd(i32) = 8;
}

attributes! {
    /// Holds an element of [`IFLA_PROP_LIST`], as a variant for its type.
    PropListAttribute of PropList;
    /// Holds [`IFLA_ALT_IFNAME`](prop_list::IFLA_ALT_IFNAME).
    AltIfName(Text) = 53;
}

attributes! {
    /// Holds an element of [`IFLA_PROTO_DOWN_REASON`], as a variant for its type.
    ProtoDownReasonAttribute of ProtoDownReason;
    /// Holds [`IFLA_PROTO_DOWN_REASON_MASK`].
    Mask(u32) = 1;
    /// Holds [`IFLA_PROTO_DOWN_REASON_VALUE`].
    Value(u32) = 2;
}

attributes! {
    /// Holds an element of [`IFLA_DEVLINK_PORT`], as a variant for its type.
    DevlinkPortAttribute of DevlinkPort;
    /// Holds [`DEVLINK_ATTR_BUS_NAME`].
    BusName(Text) = 1;
    /// Holds [`DEVLINK_ATTR_DEV_NAME`].
    DevName(Text) = 2;
    /// Holds [`DEVLINK_ATTR_PORT_INDEX`].
    PortIndex(u32) = 3;
}

attributes! {
    /// Holds an element of [`IFLA_DPLL_PIN`], as a variant for its type.
    DpllPinAttribute of DpllPin;
    /// Holds [`DPLL_A_PIN_ID`].
    Id(u32) = 1;
}

attributes! {
    /// Holds an attribute of [`AfSpec`], as a variant for its type.
    AfSpecAttribute of AfSpec;
    /// Holds [`AF_INET`].
    Inet(Held) = 2;
    /// Holds [`AF_INET6`].
    Inet6(Held) = 10;
    /// Holds [`AF_MCTP`].
    Mctp(Held) = 45;
}

attributes! {
    /// Holds an attribute of [`Inet`], as a variant for its type.
    InetAttribute of Inet;
    /// Holds [`IFLA_INET_CONF`].
    Conf(Vec<i32>) = 1;
}

attributes! {
    /// Holds an attribute of [`Inet6`], as a variant for its type.
    Inet6Attribute of Inet6;
    /// Holds [`IFLA_INET6_FLAGS`].
    Flags(Inet6Flags) = 1;
    /// Holds [`IFLA_INET6_CONF`].
    Conf(Vec<i32>) = 2;
    /// Holds [`IFLA_INET6_STATS`].
    Stats(Vec<u64>) = 3;
    /// Holds [`IFLA_INET6_MCAST`].
    Mcast(Vec<u8>) = 4;
    /// Holds [`IFLA_INET6_CACHEINFO`].
    CacheInfo(Vec<u8>) = 5;
    /// Holds [`IFLA_INET6_ICMP6STATS`].
    Icmp6Stats(Vec<u64>) = 6;
    /// Holds [`IFLA_INET6_TOKEN`].
    Token(Ipv6Addr) = 7;
    /// Holds [`IFLA_INET6_ADDR_GEN_MODE`].
    AddrGenMode(AddrGenMode) = 8;
    /// Holds [`IFLA_INET6_RA_MTU`].
    RaMtu(u32) = 9;
}

attributes! {
    /// Holds an attribute of [`Mctp`], as a variant for its type.
    MctpAttribute of Mctp;
    /// Holds [`IFLA_MCTP_NET`].
    Net(u32) = 1;
    /// Holds [`IFLA_MCTP_PHYS_BINDING`].
    PhysBinding(u8) = 2;
}

attributes! {
    /// Holds an attribute of [`Reply`], as a variant for its type.
    ReplyAttribute of Reply;
    /// Holds [`NLMSGERR_ATTR_MSG`].
    Msg(Text) = 1;
    /// Holds [`NLMSGERR_ATTR_OFFS`].
    Offs(u32) = 2;
    /// Holds [`NLMSGERR_ATTR_COOKIE`].
    Cookie(Vec<u8>) = 3;
    /// Holds [`NLMSGERR_ATTR_POLICY`].
    Policy(Held) = 4;
    /// Holds [`NLMSGERR_ATTR_MISS_TYPE`].
    MissType(u32) = 5;
    /// Holds [`NLMSGERR_ATTR_MISS_NEST`].
    MissNest(u32) = 6;
}

attributes! {
    /// Holds an attribute of [`Geneve`], as a variant for its type.
    GeneveAttribute of Geneve;
    /// Holds [`IFLA_GENEVE_ID`].
    Id(u32) = 1;
    /// Holds [`IFLA_GENEVE_REMOTE`].
    Remote(Ipv4Addr) = 2;
    /// Holds [`IFLA_GENEVE_TTL`].
    Ttl(u8) = 3;
    /// Holds [`IFLA_GENEVE_TOS`].
    Tos(u8) = 4;
    /// Holds [`IFLA_GENEVE_PORT`].
    Port(u16) = 5;
    /// Represents [`IFLA_GENEVE_COLLECT_METADATA`].
    CollectMetadata = 6;
    /// Holds [`IFLA_GENEVE_REMOTE6`].
    Remote6(Ipv6Addr) = 7;
    /// Holds [`IFLA_GENEVE_UDP_CSUM`].
    UdpCsum(bool) = 8;
    /// Holds [`IFLA_GENEVE_UDP_ZERO_CSUM6_TX`].
    UdpZeroCsum6Tx(bool) = 9;
    /// Holds [`IFLA_GENEVE_UDP_ZERO_CSUM6_RX`].
    UdpZeroCsum6Rx(bool) = 10;
    /// Holds [`IFLA_GENEVE_LABEL`].
    Label(u32) = 11;
    /// Holds [`IFLA_GENEVE_TTL_INHERIT`].
    TtlInherit(bool) = 12;
    /// Holds [`IFLA_GENEVE_DF`].
    Df(VxlanDf) = 13;
    /// Represents [`IFLA_GENEVE_INNER_PROTO_INHERIT`].
    InnerProtoInherit = 14;
    /// Holds [`IFLA_GENEVE_PORT_RANGE`].
    PortRange(Vec<u8>) = 15;
}

attributes! {
    /// Holds an attribute of [`Vrf`], as a variant for its type.
    VrfAttribute of Vrf;
    /// Holds [`IFLA_VRF_TABLE`].
    TableId(u32) = 1;
}

attributes! {
    /// Holds an attribute of [`VrfPort`], as a variant for its type.
    VrfPortAttribute of VrfPort;
    /// Holds [`IFLA_VRF_PORT_TABLE`].
    TableId(u32) = 1;
}

attributes! {
    /// Holds an attribute of [`Tun`], as a variant for its type.
    TunAttribute of Tun;
    /// Holds [`IFLA_TUN_OWNER`].
    Owner(u32) = 1;
    /// Holds [`IFLA_TUN_GROUP`].
    Group(u32) = 2;
    /// Holds [`IFLA_TUN_TYPE`].
    Type(TunType) = 3;
    /// Holds [`IFLA_TUN_PI`].
    Pi(bool) = 4;
    /// Holds [`IFLA_TUN_VNET_HDR`].
    VnetHdr(bool) = 5;
    /// Holds [`IFLA_TUN_PERSIST`].
    Persist(bool) = 6;
    /// Holds [`IFLA_TUN_MULTI_QUEUE`].
    MultiQueue(bool) = 7;
    /// Holds [`IFLA_TUN_NUM_QUEUES`].
    NumQueues(u32) = 8;
    /// Holds [`IFLA_TUN_NUM_DISABLED_QUEUES`].
    NumDisabledQueues(u32) = 9;
}

attributes! {
    /// Holds an attribute of [`Ipvlan`], as a variant for its type.
    IpvlanAttribute of Ipvlan;
    /// Holds [`IFLA_IPVLAN_MODE`].
    Mode(IpvlanMode) = 1;
    /// Holds [`IFLA_IPVLAN_FLAGS`].
    Flags(IpvlanFlags) = 2;
}

attributes! {
    /// Holds an attribute of [`Macvlan`], as a variant for its type.
    MacvlanAttribute of Macvlan;
    /// Holds [`IFLA_MACVLAN_MODE`].
    Mode(MacvlanMode) = 1;
    /// Holds [`IFLA_MACVLAN_FLAGS`].
    Flags(MacvlanFlags) = 2;
    /// Holds [`IFLA_MACVLAN_MACADDR_MODE`].
    MacAddrMode(MacvlanMacaddrMode) = 3;
    /// Holds [`IFLA_MACVLAN_MACADDR`].
    MacAddr(Mac) = 4;
    /// Holds [`IFLA_MACVLAN_MACADDR_DATA`].
    MacAddrData(Nested<MacvlanMacaddrData>) = 5;
    /// Holds [`IFLA_MACVLAN_MACADDR_COUNT`].
    MacAddrCount(u32) = 6;
    /// Holds [`IFLA_MACVLAN_BC_QUEUE_LEN`].
    BcQueueLen(u32) = 7;
    /// Holds [`IFLA_MACVLAN_BC_QUEUE_LEN_USED`].
    BcQueueLenUsed(u32) = 8;
    /// Holds [`IFLA_MACVLAN_BC_CUTOFF`].
    BcCutoff(i32) = 9;
}

attributes! {
    /// Holds an element of [`IFLA_MACVLAN_MACADDR_DATA`], as a variant for its type.
    MacvlanMacaddrDataAttribute of MacvlanMacaddrData;
    /// Holds [`IFLA_MACVLAN_MACADDR`](macvlan_macaddr_data::IFLA_MACVLAN_MACADDR).
    MacAddr(Mac) = 4;
}

attributes! {
    /// Holds an attribute of [`Netkit`], as a variant for its type.
    NetkitAttribute of Netkit;
    /// Holds [`IFLA_NETKIT_PEER_INFO`].
    PeerInfo(Peer) = 1;
    /// Holds [`IFLA_NETKIT_PRIMARY`].
    Primary(bool) = 2;
    /// Holds [`IFLA_NETKIT_POLICY`].
    Policy(NetkitPolicy) = 3;
    /// Holds [`IFLA_NETKIT_PEER_POLICY`].
    PeerPolicy(NetkitPolicy) = 4;
    /// Holds [`IFLA_NETKIT_MODE`].
    Mode(NetkitMode) = 5;
    /// Holds [`IFLA_NETKIT_SCRUB`].
    Scrub(NetkitScrub) = 6;
    /// Holds [`IFLA_NETKIT_PEER_SCRUB`].
    PeerScrub(NetkitScrub) = 7;
    /// Holds [`IFLA_NETKIT_HEADROOM`].
    Headroom(u16) = 8;
    /// Holds [`IFLA_NETKIT_TAILROOM`].
    Tailroom(u16) = 9;
}

attributes! {
    /// Holds an attribute of [`Veth`], as a variant for its type.
    VethAttribute of Veth;
    /// Holds [`VETH_INFO_PEER`].
    Peer(Peer) = 1;
}
