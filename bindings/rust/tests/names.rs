//! Enums, flags, keys and attribute sets as values: what converts to them, compares them and names them.

use nlroute::*;
use std::collections::{HashMap, HashSet};

#[test]
fn enums_are_parsed_and_converted() {
    assert_eq!("802.3ad".parse(), Ok(BondMode::IEEE8023AD));
    assert_eq!("4".parse(), Ok(BondMode::IEEE8023AD));
    assert_eq!("255".parse(), Ok(BondMode(255)));
    for text in ["", "256", "-1", "+4", "4 ", "0x4", "802.3AD", "٤"] {
        let error = text.parse::<BondMode>().expect_err(text);
        let names = "balance-rr, active-backup, balance-xor, broadcast, 802.3ad, balance-tlb, balance-alb";
        assert_eq!(error.to_string(), format!("not a name or a number of BondMode: {names}"));
        assert_eq!(error.names().join(", "), names);
    }
    // what is printed is parsed again, also a number without a name
    for number in 0..=255 {
        let mode = BondMode::from(number);
        assert_eq!((mode.to_string().parse(), u8::from(mode)), (Ok(mode), number));
    }
    assert_eq!("802.1ad".parse::<VlanProtocol>().map(u16::from), Ok(0x88a8));
    assert_eq!(BondArpValidate::from(3), BondArpValidate::ALL);
    let error: Box<dyn std::error::Error> = "none".parse::<BondMode>().expect_err("it has no such name").into();
    assert!(error.is::<ParseNameError>());
}

#[test]
fn families_are_parsed_and_printed() {
    for family in Family::ALL {
        assert_eq!(family.to_string().parse(), Ok(family));
    }
    assert_eq!(format!("[{:>6}]", Family::Bond), "[  bond]");
    let error = "Bond".parse::<Family>().expect_err("names have small letters");
    let words = error.to_string();
    assert!(words.starts_with("not the name of an attribute set: af_spec_bridge, bond, bond_port, "), "{words}");
    assert_eq!(error.names().len(), Family::ALL.len());
}

#[test]
fn flags_have_operators() {
    let [a, b, unnamed] = [VlanFlags::REORDER_HDR, VlanFlags::GVRP, VlanFlags(0x80)];
    let all = a | b | unnamed;
    assert_eq!((all & (a | b), all - b, all & !b), (a | b, a | unnamed, a | unnamed));
    assert_eq!(!a, VlanFlags(!1));
    assert_eq!(!!all, all);
    assert!((a & b).is_empty() && !all.is_empty() && VlanFlags::default().is_empty());
    assert!(all.contains(a | unnamed) && !(all - a).contains(a));
    let mut flags = all;
    flags &= a | b;
    flags -= a;
    assert_eq!(flags, b);
    flags |= unnamed;
    assert_eq!((u32::from(flags), VlanFlags::from(0x82)), (0x82, flags));
    assert_eq!(u8::from(!LacpState::EXPIRED), 0x7f);
    assert_eq!(u16::from(BridgeVlanFlags::PVID), 2);
}

#[test]
fn flags_are_printed() {
    let flags = VlanFlags::REORDER_HDR | VlanFlags::GVRP;
    assert_eq!(flags.to_string(), "REORDER_HDR|GVRP");
    assert_eq!((flags | VlanFlags(0x80)).to_string(), "REORDER_HDR|GVRP|0x80");
    assert_eq!((VlanFlags(0x80).to_string(), VlanFlags::default().to_string()), ("0x80".to_string(), "0".to_string()));
    assert_eq!(format!("[{:>6}]", VlanFlags::GVRP), "[  GVRP]");
    assert_eq!(LinkFlags(0x41).to_string(), "UP|RUNNING");
    assert_eq!((MessageFlags::REQUEST | MessageFlags::DUMP).to_string(), "REQUEST|0x300");
    // a name that no constant can have
    let modes = CanCtrlMode::TRIPLE_SAMPLES | CanCtrlMode::LOOPBACK;
    assert_eq!(
        (modes.to_string(), format!("{modes:?}")),
        ("LOOPBACK|3_SAMPLES".to_string(), "LOOPBACK|TRIPLE_SAMPLES".to_string())
    );
    let list = List::<Can>::new().with(IFLA_CAN_CTRLMODE, Masked { flags: modes, mask: modes });
    assert!(list.to_string().contains(&modes.to_string()), "{list}");
}

/// The numbers in linux/netlink.h, rtnetlink.h, if.h and socket.h.
#[test]
fn numbers_of_headers_are_those_of_linux() {
    let types = [
        (MessageType::NLMSG_NOOP, 1, "NLMSG_NOOP"),
        (MessageType::NLMSG_ERROR, 2, "NLMSG_ERROR"),
        (MessageType::NLMSG_DONE, 3, "NLMSG_DONE"),
        (MessageType::NLMSG_OVERRUN, 4, "NLMSG_OVERRUN"),
        (MessageType::RTM_NEWLINK, 16, "RTM_NEWLINK"),
        (MessageType::RTM_DELLINK, 17, "RTM_DELLINK"),
        (MessageType::RTM_GETLINK, 18, "RTM_GETLINK"),
        (MessageType::RTM_SETLINK, 19, "RTM_SETLINK"),
        (MessageType::RTM_NEWLINKPROP, 108, "RTM_NEWLINKPROP"),
        (MessageType::RTM_DELLINKPROP, 109, "RTM_DELLINKPROP"),
        (MessageType::RTM_GETLINKPROP, 110, "RTM_GETLINKPROP"),
    ];
    for (it, number, name) in types {
        assert_eq!((it.0, it.to_string().as_str(), name.parse()), (number, name, Ok(it)));
    }
    assert_eq!(MessageType(20).to_string(), "20"); // RTM_NEWADDR
    let families = [
        (AddressFamily::UNSPEC, 0, "AF_UNSPEC"),
        (AddressFamily::INET, 2, "AF_INET"),
        (AddressFamily::BRIDGE, 7, "AF_BRIDGE"),
        (AddressFamily::INET6, 10, "AF_INET6"),
        (AddressFamily::PACKET, 17, "AF_PACKET"),
        (AddressFamily::MPLS, 28, "AF_MPLS"),
        (AddressFamily::MCTP, 45, "AF_MCTP"),
    ];
    for (it, number, name) in families {
        assert_eq!((it.0, it.to_string().as_str(), name.parse()), (number, name, Ok(it)));
    }
}

/// The bits in linux/netlink.h and if.h.
#[test]
fn flags_of_headers_are_those_of_linux() {
    use MessageFlags as Flags;
    let common = [Flags::REQUEST, Flags::MULTI, Flags::ACK, Flags::ECHO, Flags::DUMP_INTR, Flags::DUMP_FILTERED];
    assert_eq!(common.map(u16::from), [1, 2, 4, 8, 0x10, 0x20]);
    assert_eq!([Flags::ROOT, Flags::MATCH, Flags::ATOMIC, Flags::DUMP].map(u16::from), [0x100, 0x200, 0x400, 0x300]);
    let new = [Flags::REPLACE, Flags::EXCL, Flags::CREATE, Flags::APPEND];
    assert_eq!(new.map(u16::from), [0x100, 0x200, 0x400, 0x800]);
    assert_eq!(
        [Flags::NONREC, Flags::BULK, Flags::CAPPED, Flags::ACK_TLVS].map(u16::from),
        [0x100, 0x200, 0x100, 0x200]
    );
    assert_eq!(format!("{:?}", Flags::REQUEST | Flags::DUMP), "REQUEST|0x300");
    let texts = [16, 17, 18, 2, 20].map(|kind| Flags(0x605).text_in(MessageType(kind)));
    let names = ["EXCL|CREATE", "BULK|0x400", "MATCH|ATOMIC", "ACK_TLVS|0x400", "0x600"];
    assert_eq!(texts, names.map(|name| format!("REQUEST|ACK|{name}")));
    assert_eq!(Flags::default().text_in(MessageType::RTM_NEWLINK), "0");
    let names =
        "UP|BROADCAST|DEBUG|LOOPBACK|POINTOPOINT|NOTRAILERS|RUNNING|NOARP|PROMISC|ALLMULTI|MASTER|SLAVE|MULTICAST|\
                 PORTSEL|AUTOMEDIA|DYNAMIC|LOWER_UP|DORMANT|ECHO|0x80000";
    assert_eq!(format!("{:?}", LinkFlags((1 << 20) - 1)), names);
    assert_eq!(
        (LinkFlags::UP, LinkFlags::LOWER_UP, LinkFlags::ECHO),
        (LinkFlags(1), LinkFlags(0x10000), LinkFlags(0x40000))
    );
}

#[test]
fn keys_are_compared_and_hashed() {
    assert_eq!(IFLA_BOND_MIIMON, IFLA_BOND_MIIMON);
    assert_ne!(IFLA_BOND_MIIMON, IFLA_BOND_UPDELAY);
    assert_eq!((IFLA_BOND_MIIMON.name(), IFLA_BOND_MIIMON.kind()), ("IFLA_BOND_MIIMON", 3));
    assert_eq!(prop_list::IFLA_ALT_IFNAME.name(), "IFLA_ALT_IFNAME");
    assert_eq!(format!("{IFLA_BOND_MIIMON} {IFLA_BOND_MIIMON:?}"), "IFLA_BOND_MIIMON Key(IFLA_BOND_MIIMON: 3)");
    let limits = HashMap::from([(IFLA_BOND_UPDELAY, 200), (IFLA_BOND_DOWNDELAY, 100)]);
    assert_eq!((limits[&IFLA_BOND_UPDELAY], limits.get(&IFLA_BOND_MIIMON)), (200, None));
    let mut bond = List::<Bond>::new();
    for (&key, &value) in &limits {
        bond.push(key, value);
    }
    assert_eq!(bond.len(), 2);
    assert_eq!(HashSet::from([IFLA_BR_MAX_AGE, IFLA_BR_MAX_AGE]).len(), 1);
}
