//! What bad input gets. What does not compile is in the doctests of the crate.

use nlroute::*;
use std::net::Ipv4Addr;

fn fault_of<S: Set>(bytes: &[u8]) -> (usize, Place, Cause) {
    let fault = List::<S>::read(bytes).expect_err("the list is malformed");
    assert_eq!(List::read_any(fault_family::<S>(), bytes).err(), Some(fault));
    (fault.at(), fault.place(), fault.cause())
}

fn fault_family<S: Set>() -> Family {
    List::<S>::new().family()
}

#[test]
fn malformed_headers() {
    // after IFLA_BOND_MODE: one byte; nla_len 3; nla_len 8, but 4 bytes
    let after = |rest: &[u8]| fault_of::<Bond>(&[&[5, 0, 1, 0, 4, 0, 0, 0][..], rest].concat());
    assert_eq!(after(&[5]), (8, Place::Frame, Cause::ShortFrame { left: 1 }));
    assert_eq!(after(&[3, 0, 3, 0]), (8, Place::Frame, Cause::SmallLength { nla_len: 3 }));
    assert_eq!(after(&[8, 0, 3, 0]), (8, Place::Frame, Cause::Overrun { nla_len: 8, left: 4 }));
}

#[test]
fn malformed_payloads() {
    // IFLA_BR_HELLO_TIME (2) is a u32, and IFLA_BR_ROOT_ID (10) struct ifla_bridge_id of 8 bytes
    let wrong = Cause::WrongLength { expected: 4, actual: 3 };
    assert_eq!(fault_of::<Bridge>(&[7, 0, 2, 0, 1, 2, 3, 0]), (0, Place::Payload { kind: 2 }, wrong));
    let short = Cause::TooShort { least: 8, actual: 1 };
    assert_eq!(fault_of::<Bridge>(&[5, 0, 10, 0, 1, 0, 0, 0]), (0, Place::Payload { kind: 10 }, short));
    // IFLA_CAN_TERMINATION_CONST (12) is an array of u16
    let odd = Cause::WrongLength { expected: 2, actual: 1 };
    assert_eq!(fault_of::<Can>(&[5, 0, 12, 0, 120, 0, 0, 0]), (0, Place::Payload { kind: 12 }, odd));
}

#[test]
fn malformed_elements() {
    // IFLA_VLAN_EGRESS_QOS (3): nla_len 12 of IFLA_VLAN_QOS_MAPPING (1), but 4 bytes; then one of 7 bytes
    let frame = (0, Place::ElementFrame { kind: 3 }, Cause::Overrun { nla_len: 12, left: 4 });
    assert_eq!(fault_of::<Vlan>(&[8, 0, 3, 0, 12, 0, 1, 0]), frame);
    let payload = Place::ElementPayload { kind: 3, inner: 1 };
    let wrong = Cause::WrongLength { expected: 8, actual: 7 };
    let bytes = [15, 0, 3, 0, 11, 0, 1, 0, 1, 0, 0, 0, 2, 0, 0];
    assert_eq!(fault_of::<Vlan>(&bytes), (0, payload, wrong));
    assert_eq!(find(&bytes, IFLA_VLAN_ID).map_err(|fault| fault.place()), Err(payload));
    let tunnel = find_in(&[7, 0, 3, 0, 3, 0, 1], IFLA_BRIDGE_VLAN_TUNNEL_INFO, IFLA_BRIDGE_VLAN_TUNNEL_ID);
    assert_eq!(tunnel.map_err(|fault| fault.cause()), Err(Cause::ShortFrame { left: 3 }));
}

#[test]
fn an_attribute_that_is_not_there() -> Result<(), Fault> {
    let bytes = [5, 0, 1, 0, 4, 0, 0, 0];
    assert_eq!(List::<Bond>::read(&bytes)?.get(IFLA_BOND_MIIMON), None);
    assert_eq!(List::<Bond>::read(&bytes)?.get_all(IFLA_BOND_MIIMON).count(), 0);
    assert_eq!(find(&bytes, IFLA_BOND_MIIMON)?, None);
    assert_eq!(find(&[], IFLA_BOND_AD_INFO)?, None);
    assert_eq!(find_in(&bytes, IFLA_BOND_AD_INFO, IFLA_BOND_AD_INFO_AGGREGATOR)?, None);
    Ok(())
}

#[test]
fn a_number_without_a_name_is_kept() -> Result<(), Error> {
    let bytes = [5, 0, 1, 0, 77, 0, 0, 0];
    let bond = List::<Bond>::read(&bytes)?;
    let mode = bond.get(IFLA_BOND_MODE).expect("the list has it");
    assert_eq!((mode, mode.name(), mode.to_string().as_str()), (BondMode(77), None, "77"));
    assert_eq!(BondMode::from_name("802.3ad"), Some(BondMode(4)));
    assert_eq!(BondMode::from_name("802.3xx"), None);
    assert_eq!(format!("{mode:?} {:?}", BondMode::BALANCE_RR), "BondMode(77) BondMode(balance-rr)");
    assert_eq!(bond.to_bytes()?, bytes);
    Ok(())
}

#[test]
fn a_flag_without_a_name_is_kept() -> Result<(), Error> {
    let bytes = [12, 0, 2, 0, 0x42, 0, 0, 0, 0xff, 0xff, 0xff, 0xff];
    let vlan = List::<Vlan>::read(&bytes)?;
    let flags = vlan.get(IFLA_VLAN_FLAGS).expect("the list has it").flags;
    assert_eq!(format!("{flags:?} {:?}", VlanFlags::default()), "GVRP|0x40 0x0");
    assert!(flags.contains(VlanFlags::GVRP) && !flags.contains(VlanFlags::REORDER_HDR));
    assert_eq!(vlan.to_bytes()?, bytes);
    Ok(())
}

fn refused<S: Set>(list: &List<'_, S>) -> (usize, String, Code) {
    let error = list.to_bytes().expect_err("it cannot be written");
    assert_eq!(Error::from(error.clone()).to_string(), error.to_string());
    (error.index, error.name, error.code)
}

#[test]
fn a_vlan_protocol_that_is_none() {
    let list = List::<Vlan>::new().with(IFLA_VLAN_ID, 1).with(IFLA_VLAN_PROTOCOL, VlanProtocol(0x1234));
    assert_eq!(refused(&list), (1, "IFLA_VLAN_PROTOCOL".to_string(), Code::BadNumber));
}

#[test]
fn a_payload_that_is_too_long() {
    // nla_len is a u16, and four bytes are the header
    let fits = List::<BondPort>::new().with(IFLA_BOND_SLAVE_PERM_HWADDR, vec![1; 65_531]);
    assert_eq!(fits.to_bytes().map(|it| it.len()), Ok(65_536));
    let mut list = List::<BondPort>::new().with(IFLA_BOND_SLAVE_QUEUE_ID, 1);
    list.push(IFLA_BOND_SLAVE_PERM_HWADDR, vec![1; 65_532]);
    assert_eq!(refused(&list), (1, "IFLA_BOND_SLAVE_PERM_HWADDR".to_string(), Code::TooLong));
    let unknown = |length| {
        let mut list = List::<Vlan>::new();
        list.push_unknown(99, 0, &vec![1; length]);
        list
    };
    assert!(unknown(65_531).to_bytes().is_ok());
    assert_eq!(refused(&unknown(65_532)), (0, "type 99".to_string(), Code::TooLong));
}

#[test]
fn a_list_that_is_too_long() {
    // an address takes 8 bytes
    let targets = |count| vec![Ipv4Addr::LOCALHOST; count];
    let bond = List::<Bond>::new().with(IFLA_BOND_ARP_IP_TARGET, targets(2)).with(IFLA_BOND_MIIMON, 1);
    assert!(bond.clone().with(IFLA_BOND_ARP_IP_TARGET, targets(8191)).to_bytes().is_ok());
    let name = "IFLA_BOND_ARP_IP_TARGET".to_string();
    assert_eq!(refused(&bond.with(IFLA_BOND_ARP_IP_TARGET, targets(8192))), (2, name, Code::TooLong));
}

#[test]
fn a_type_that_is_known_as_unknown() {
    let mut bond = List::<Bond>::new();
    bond.push_unknown(1, 0, &[1]);
    assert_eq!(refused(&bond), (0, "IFLA_BOND_MODE".to_string(), Code::BadForm));
    assert_eq!(bond.get(IFLA_BOND_MODE), None);
}

#[test]
fn an_unknown_type_of_more_than_14_bits_or_with_other_flags() {
    for (kind, flags) in [(0x4000, 0), (99, 1)] {
        let mut bond = List::<Bond>::new();
        bond.push_unknown(kind, flags, &[1]);
        assert_eq!(refused(&bond).2, Code::BadNumber);
    }
}

#[test]
fn an_element_that_cannot_be_written() {
    let mut info = Nested::<BondAdInfo>::new();
    info.push(IFLA_BOND_AD_INFO_AGGREGATOR, 1).push_unknown(1, 0, &[1]);
    let bond = List::<Bond>::new().with(IFLA_BOND_MODE, BondMode::IEEE8023AD).with(IFLA_BOND_AD_INFO, info);
    assert_eq!(refused(&bond), (1, "IFLA_BOND_AD_INFO_AGGREGATOR".to_string(), Code::BadForm));
}

#[test]
fn texts_that_are_no_addresses() {
    assert_eq!("1:2:3:a:B:ff".parse(), Ok(Mac([1, 2, 3, 10, 11, 255])));
    for text in ["", "1:2:3:4:5", "1:2:3:4:5:6:7", "1:2:3:4:5:+6", "1:2:3:4:5:006", "1:2:3:4:5:g", "1:2:3:4:5:"] {
        assert!(text.parse::<Mac>().is_err(), "{text}");
    }
    assert!("10.0.0.256".parse::<Ipv4Addr>().is_err());
}

#[test]
fn names_of_controllers_that_are_long_or_not_utf_8() -> Result<(), Error> {
    let write = |name| {
        let limits = CanBitTimingConst { name, ..CanBitTimingConst::default() };
        List::<Can>::new().with(IFLA_CAN_BITTIMING_CONST, limits).to_bytes()
    };
    assert_eq!(write(*b"0123456789abcdef")?[4..20], *b"0123456789abcde\0");
    // U+FFFD is EF BF BD in UTF-8
    assert_eq!(write(*b"\x88\0the rest......")?[4..20], *b"\xef\xbf\xbd\0\0\0\0\0\0\0\0\0\0\0\0\0");
    // what is read has the bytes themselves
    let mut bytes = vec![52, 0, 2, 0, 0x88, b'a'];
    bytes.resize(52, 0);
    let limits = find(&bytes, IFLA_CAN_BITTIMING_CONST)?.expect("the list has it");
    assert_eq!((limits.name[0], limits.name().as_ref()), (0x88, "\u{fffd}a"));
    Ok(())
}

#[test]
fn errors_can_be_sent_to_threads() {
    fn is_error<T: std::error::Error + Send + Sync + 'static>() {}
    is_error::<Error>();
    is_error::<Fault>();
    is_error::<WriteError>();
    is_error::<ParseMacError>();
}
