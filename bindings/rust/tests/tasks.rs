//! The tasks of network managers and packet printers. The bytes are those of the kernel's headers: an attribute has its
//! length and its type (`struct nlattr`, two `u16`s), then the payload and zeros up to a multiple of four.

use nlroute::*;

/// `IFLA_BOND_MODE` (1) 802.3ad (4); `IFLA_BOND_ARP_IP_TARGET` (8): 10.0.0.1 and 10.0.0.2.
const BOND: [u8; 28] = [5, 0, 1, 0, 4, 0, 0, 0, 20, 0, 8, 0, 8, 0, 0, 0, 10, 0, 0, 1, 8, 0, 1, 0, 10, 0, 0, 2];
/// `IFLA_BR_FORWARD_DELAY` (1), 15 s in hundredths; `IFLA_BR_MCAST_QUERIER_STATE` (47): the address 10.0.0.1.
const BRIDGE: [u8; 20] = [8, 0, 1, 0, 0xdc, 5, 0, 0, 12, 0, 47, 0x80, 8, 0, 1, 0, 10, 0, 0, 1];

#[test]
fn a_bond_is_printed() -> Result<(), Fault> {
    let bond = List::<Bond>::read(&BOND)?;
    let expected = "IFLA_BOND_MODE 802.3ad (4)\nIFLA_BOND_ARP_IP_TARGET 10.0.0.1 10.0.0.2\n";
    assert_eq!(bond.to_string(), expected);
    let target = bond.iter().nth(1).expect("there are two attributes");
    assert_eq!((target.kind(), target.name().as_str(), target.text().as_str()), (8, "IFLA_BOND_ARP_IP_TARGET", ""));
    let texts: Vec<_> = target.elements().map(|it| (it.kind(), it.name(), it.text())).collect();
    assert_eq!(texts[1], (1, "[1]".to_string(), "10.0.0.2".to_string()));
    Ok(())
}

#[test]
fn a_bridge_is_read_changed_and_written() -> Result<(), Error> {
    let mut bridge = List::<Bridge>::read(&BRIDGE)?;
    assert_eq!(bridge.get(IFLA_BR_FORWARD_DELAY), Some(1500));
    bridge.set(IFLA_BR_FORWARD_DELAY, 700).push(IFLA_BR_VLAN_FILTERING, true);
    let expected = [8, 0, 1, 0, 0xbc, 2, 0, 0, 12, 0, 47, 0x80, 8, 0, 1, 0, 10, 0, 0, 1, 5, 0, 7, 0, 1, 0, 0, 0];
    assert_eq!(bridge.to_bytes()?, expected);
    Ok(())
}

#[test]
fn a_bond_is_made_from_nothing() -> Result<(), WriteError> {
    let bytes = List::<Bond>::new()
        .with(IFLA_BOND_MODE, BondMode::IEEE8023AD)
        .with(IFLA_BOND_ARP_IP_TARGET, vec![[10, 0, 0, 1].into(), [10, 0, 0, 2].into()])
        .to_bytes()?;
    assert_eq!(bytes, BOND);
    Ok(())
}

#[test]
fn an_error_is_explained() {
    let fault = List::<Bond>::read(&BOND[..27]).expect_err("it is cut off");
    assert_eq!(fault.to_string(), "error at 8: nla_len 20 exceeds the 19 bytes left");
    assert_eq!((fault.at(), fault.place(), fault.cause()), (8, Place::Frame, Cause::Overrun { nla_len: 20, left: 19 }));
}

#[test]
fn a_vlan_has_flags_with_a_mask_and_mappings() -> Result<(), Error> {
    // VLAN_FLAG_REORDER_HDR is bit 0 and VLAN_FLAG_GVRP bit 1 (include/uapi/linux/if_vlan.h)
    let flags = Masked { flags: VlanFlags::GVRP, mask: VlanFlags::GVRP | VlanFlags::REORDER_HDR };
    let vlan = List::<Vlan>::new()
        .with(IFLA_VLAN_ID, 100)
        .with(IFLA_VLAN_PROTOCOL, VlanProtocol::IEEE8021AD)
        .with(IFLA_VLAN_FLAGS, flags)
        .with(IFLA_VLAN_EGRESS_QOS, vec![QosMapping { from: 0, to: 1 }, QosMapping { from: 6, to: 7 }]);
    let bytes = vlan.to_bytes()?;
    let expected = [
        &[6, 0, 1, 0, 100, 0, 0, 0][..],
        &[6, 0, 5, 0, 0x88, 0xa8, 0, 0],
        &[12, 0, 2, 0, 2, 0, 0, 0, 3, 0, 0, 0],
        &[28, 0, 3, 0, 12, 0, 1, 0, 0, 0, 0, 0, 1, 0, 0, 0, 12, 0, 1, 0, 6, 0, 0, 0, 7, 0, 0, 0],
    ];
    assert_eq!(bytes, expected.concat());
    let read = List::<Vlan>::read(&bytes)?;
    assert_eq!(read.get(IFLA_VLAN_FLAGS), Some(flags));
    assert_eq!(format!("{:?}", flags.mask), "REORDER_HDR|GVRP");
    assert_eq!(read.get(IFLA_VLAN_EGRESS_QOS).map(|it| it[1]), Some(QosMapping { from: 6, to: 7 }));
    Ok(())
}

#[test]
fn a_can_controller_has_a_bit_timing_and_limits() -> Result<(), Error> {
    // struct can_bittiming: bitrate, sample_point, ..; struct can_bittiming_const: name, .. (linux/can/netlink.h)
    let mut bytes = vec![36, 0, 1, 0, 0x20, 0xa1, 7, 0, 0x6b, 3, 0, 0];
    bytes.resize(36, 0);
    bytes.extend(b"\x34\0\x02\0flexcan\0\0\0\0\0\0\0\0\0\x04\0\0\0\x10\0\0\0");
    bytes.resize(36 + 52, 0);
    let timing = find(&bytes, IFLA_CAN_BITTIMING)?.expect("the list has it");
    assert_eq!((timing.bitrate, timing.sample_point), (500_000, 875));
    let limits = find(&bytes, IFLA_CAN_BITTIMING_CONST)?.expect("the list has it");
    assert_eq!((limits.name().as_ref(), limits.tseg1_min, limits.tseg1_max, limits.brp_inc), ("flexcan", 4, 16, 0));

    // a struct that is replaced in a list that was read; another one still refers to the old bytes
    let mut can = List::<Can>::read(&bytes)?;
    can.set(IFLA_CAN_BITTIMING, CanBitTiming { bitrate: 250_000, ..timing });
    let written = can.to_bytes()?;
    assert_eq!(written[4..8], 250_000u32.to_le_bytes());
    assert_eq!([&written[..4], &written[8..]].concat(), [&bytes[..4], &bytes[8..]].concat());
    Ok(())
}

#[test]
fn an_element_is_looked_up() -> Result<(), Fault> {
    let querier = find_in(&BRIDGE, IFLA_BR_MCAST_QUERIER_STATE, BRIDGE_QUERIER_IP_ADDRESS)?;
    assert_eq!(querier, Some([10, 0, 0, 1].into()));
    assert_eq!(find_in(&BRIDGE, IFLA_BR_MCAST_QUERIER_STATE, BRIDGE_QUERIER_IP_PORT)?, None);
    let state = find(&BRIDGE, IFLA_BR_MCAST_QUERIER_STATE)?.expect("the list has it");
    assert_eq!(state.get(BRIDGE_QUERIER_IP_ADDRESS), querier);
    Ok(())
}

/// Returns the attributes of a link: `IFLA_IFNAME` (3), `IFLA_STATS64` (23), which are 25 numbers, and `IFLA_LINKINFO` (18).
/// This has the kind and, as `IFLA_INFO_DATA` (2), `IFLA_BR_FORWARD_DELAY` (1).
fn link() -> Vec<u8> {
    let mut stats = [0u64; 25];
    (stats[0], stats[2], stats[6]) = (12, 840, 3); // rx_packets, rx_bytes, rx_dropped of struct rtnl_link_stats64
    let mut bytes = b"\x08\0\x03\0br0\0\xcc\0\x17\0".to_vec();
    bytes.extend(stats.iter().flat_map(|number| number.to_le_bytes()));
    bytes.extend(b"\x1c\0\x12\0\x0b\0\x01\0bridge\0\0\x0c\0\x02\0\x08\0\x01\0\xdc\x05\0\0");
    bytes
}

#[test]
fn a_link_is_read_and_written() -> Result<(), Error> {
    let bytes = link();
    let link = List::<Link>::read(&bytes)?;
    assert_eq!(link.get(IFLA_IFNAME), Some("br0".into()));
    assert_eq!(link.get(IFLA_STATS64).map(|it| it[link_stats64::RX_DROPPED]), Some(3));
    let line = "IFLA_STATS64 rx_packets 12 rx_bytes 840 rx_dropped 3 (22 zero)";
    assert_eq!(link.to_string().lines().nth(1), Some(line));
    let kind = find_in(&bytes, IFLA_LINKINFO, IFLA_INFO_KIND)?.expect("the list has it");
    assert_eq!(Family::from_info_kind(kind.to_string().as_bytes()), Some(Family::Bridge));
    let data = find_in(&bytes, IFLA_LINKINFO, IFLA_INFO_DATA)?.expect("the list has it");
    let bridge = data.read::<Bridge>()?;
    assert_eq!(bridge.get(IFLA_BR_FORWARD_DELAY), Some(1500));
    assert_eq!(bridge.to_bytes()?, data.0);
    assert_eq!(link.to_bytes()?, bytes);
    Ok(())
}

#[test]
fn arrays_are_printed_by_the_names_of_their_places() {
    let text = |numbers: &[i32]| List::<Inet>::new().with(IFLA_INET_CONF, numbers.to_vec()).to_string();
    assert_eq!(text(&[1, -1]), "IFLA_INET_CONF forwarding 1 mc_forwarding -1\n");
    assert_eq!(text(&[0, 0]), "IFLA_INET_CONF (2 zero)\n");
    assert_eq!(text(&[]), "IFLA_INET_CONF (empty)\n");
    let mut more = [0; 36];
    more[33] = 7;
    assert_eq!(text(&more), "IFLA_INET_CONF [33] 7 (35 zero)\n");
    let counters = List::<Inet6>::new().with(IFLA_INET6_STATS, vec![5, 0, 0, 0, 7]);
    assert_eq!(counters.to_string(), "IFLA_INET6_STATS num 5 [4] 7 (3 zero)\n");
}

#[test]
fn a_request_for_a_bridge_is_made() -> Result<(), WriteError> {
    // as `ip link add br0 type bridge forward_delay 700 vlan_filtering 1 group_address 01:80:c2:00:00:04` sends it
    let bridge = List::<Bridge>::new()
        .with(IFLA_BR_FORWARD_DELAY, 700)
        .with(IFLA_BR_VLAN_FILTERING, true)
        .with(IFLA_BR_GROUP_ADDR, Mac([1, 0x80, 0xc2, 0, 0, 4]));
    let info = Nested::<LinkInfo>::new()
        .with(IFLA_INFO_KIND, Text(b"bridge".to_vec()))
        .with(IFLA_INFO_DATA, Held(bridge.to_bytes()?));
    let link = List::<Link>::new().with(IFLA_IFNAME, "br0".into()).with(IFLA_LINKINFO, info);
    let expected = [
        &b"\x08\0\x03\0br0\0\x30\0\x12\0\x0a\0\x01\0bridge\0\0\x20\0\x02\0"[..],
        &[8, 0, 1, 0, 0xbc, 2, 0, 0, 5, 0, 7, 0, 1, 0, 0, 0],
        &[10, 0, 20, 0, 1, 0x80, 0xc2, 0, 0, 4, 0, 0],
    ];
    assert_eq!(link.to_bytes()?, expected.concat());
    Ok(())
}

#[test]
fn structs_have_fields_by_name() -> Result<(), Error> {
    let address = Mac([2, 0, 0, 0, 0, 1]);
    let bytes = List::<Bridge>::new()
        .with(IFLA_BR_FORWARD_DELAY, 1500)
        .with(IFLA_BR_BRIDGE_ID, BridgeId { priority: 0x8000, address })
        .to_bytes()?;
    let bridge = List::<Bridge>::read(&bytes)?;
    let fields: Vec<Vec<_>> = bridge.iter().map(|value| value.fields().collect()).collect();
    assert!(fields[0].is_empty());
    assert_eq!(
        fields[1],
        [("prio".to_string(), Content::Unsigned(0x8000)), ("addr".to_string(), Content::Mac(address))]
    );
    let vlan = List::<AfSpecBridge>::read(&[8, 0, 2, 0, 6, 0, 10, 0])?;
    let fields: Vec<_> = vlan.iter().flat_map(|value| value.fields()).collect();
    assert_eq!(fields, [("vid".to_string(), Content::Unsigned(10)), ("flags".to_string(), Content::Flags(6))]);
    let timing = CanBitTiming { bitrate: 1, sample_point: 2, brp: 8, ..CanBitTiming::default() };
    let can = List::<Can>::new().with(IFLA_CAN_BITTIMING, timing);
    let fields: Vec<_> = can.iter().flat_map(|value| value.fields()).collect();
    assert_eq!((fields.len(), &fields[1]), (8, &("sample_point".to_string(), Content::Unsigned(2))));
    assert_eq!(fields[7], ("brp".to_string(), Content::Unsigned(8)));
    Ok(())
}
