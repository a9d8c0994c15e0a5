//! Messages. Expected values are worked out from the kernel's headers (linux/netlink.h, rtnetlink.h, if_link.h).

use nlroute::*;

/// An attribute: `nla_len` and `nla_type`, the payload, and padding.
fn attribute(kind: u16, payload: &[u8]) -> Vec<u8> {
    let mut bytes = [(4 + payload.len() as u16).to_ne_bytes(), kind.to_ne_bytes()].concat();
    bytes.extend(payload);
    bytes.resize((bytes.len() + 3) / 4 * 4, 0);
    bytes
}

/// A message with the sequence number 5 from port 7.
fn message(kind: u16, payload: &[u8]) -> Vec<u8> {
    let mut bytes = (16 + payload.len() as u32).to_ne_bytes().to_vec();
    bytes.extend([kind.to_ne_bytes(), 2u16.to_ne_bytes()].concat());
    bytes.extend([5u32.to_ne_bytes(), 7u32.to_ne_bytes()].concat());
    bytes.extend(payload);
    bytes
}

/// An RTM_NEWLINK (16) of the link 9, of ARPHRD_ETHER, which is up.
fn link(address_family: u8, attributes: &[Vec<u8>]) -> Vec<u8> {
    let mut body = vec![address_family, 0, 1, 0, 9, 0, 0, 0, 1, 0, 0, 0, 1, 0, 0, 0];
    body.extend(attributes.concat());
    message(16, &body)
}

/// An IFLA_LINKINFO (18) of a bond in a mode: IFLA_INFO_KIND (1) and IFLA_INFO_DATA (2) with IFLA_BOND_MODE (1).
fn info(mode: u8) -> Vec<u8> {
    attribute(18, &[attribute(1, b"bond\0"), attribute(2, &attribute(1, &[mode]))].concat())
}

/// An IFLA_AF_SPEC (26) with AF_INET6 (10) with IFLA_INET6_ADDR_GEN_MODE (8).
fn spec() -> Vec<u8> {
    attribute(26, &attribute(10, &attribute(8, &[1])))
}

fn only(bytes: &[u8]) -> Message<'_> {
    let found: Vec<_> = messages(bytes).collect();
    assert_eq!(found.len(), 1);
    found[0].expect("the message is well-formed")
}

#[test]
fn a_message_has_fields() {
    let first = link(0, &[attribute(3, b"b0\0")]);
    let bytes = [first.clone(), message(3, &[0; 4])].concat();
    let found: Vec<_> = messages(&bytes).map(|it| it.expect("it is well-formed")).collect();
    let it = found[0];
    assert_eq!((it.at(), it.sequence(), it.port()), (0, 5, 7));
    assert_eq!((it.message_type(), it.flags()), (MessageType::RTM_NEWLINK, MessageFlags::MULTI));
    assert_eq!((it.is_link(), it.index(), it.link_flags(), it.change()), (true, 9, LinkFlags::UP, LinkFlags::UP));
    assert_eq!((it.link_type(), it.address_family(), it.payload()), (1, AddressFamily::UNSPEC, &first[32..]));
    // also as numbers
    assert_eq!(it.message_type(), 16);
    assert_eq!(it.flags(), 2);
    assert_eq!(it.link_flags(), 1);
    assert_eq!(it.address_family(), 0);
    let it = found[1];
    assert_eq!((it.at(), it.message_type()), (first.len(), MessageType::NLMSG_DONE));
    assert_eq!((it.is_link(), it.payload()), (false, &[0; 4][..]));
    assert_eq!(it.attributes().map(|list| list.len()), Ok(0));
    assert_eq!((it.held::<Bond>(), it.lists().count()), (Ok(None), 0));
    assert_eq!(messages(&[]).count(), 0);
    assert!(format!("{it:?}").starts_with("Message { at: 40, message_type: MessageType(NLMSG_DONE), flags: MULTI"));
}

#[test]
fn an_index_is_that_of_a_request() -> Result<(), Error> {
    let bytes = link(0, &[]);
    // ifi_index is after the header, ifi_family, padding and ifi_type
    assert_eq!(Request::change(only(&bytes).index()).to_bytes()?[20..24], 9i32.to_ne_bytes());
    let mut bytes = bytes;
    bytes[20..24].copy_from_slice(&(-1i32).to_ne_bytes());
    assert_eq!(only(&bytes).index(), u32::MAX);
    assert_eq!(Request::change(u32::MAX).to_bytes().map_err(|error| error.code), Err(Code::NoIndex));
    Ok(())
}

#[test]
fn the_bonds_of_messages_are_printed() -> Result<(), Error> {
    let bytes = [link(0, &[info(4)]), link(0, &[spec()]), message(3, &[0; 4])].concat();
    let mut printed = String::new();
    for message in messages(&bytes) {
        if let Some(bond) = message?.held::<Bond>()? {
            printed += &bond.to_string();
        }
    }
    assert_eq!(printed, "IFLA_BOND_MODE 802.3ad (4)\n");
    Ok(())
}

#[test]
fn lists_are_in_the_order_of_the_message() -> Result<(), Fault> {
    let bytes = link(0, &[attribute(3, b"b0\0"), info(4), spec()]);
    let it = only(&bytes);
    let lists = it.lists().collect::<Result<Vec<_>, _>>()?;
    let families: Vec<_> = lists.iter().map(List::family).collect();
    assert_eq!(families, [Family::Link, Family::Bond, Family::AfSpec, Family::Inet6]);
    assert_eq!(lists[3].to_string(), "IFLA_INET6_ADDR_GEN_MODE none (1)\n");
    assert_eq!(it.attributes()?.get(IFLA_IFNAME), Some(Text::from("b0")));
    Ok(())
}

#[test]
fn the_last_list_of_a_set_counts() {
    // an IFLA_MTU (4) of a byte is malformed, and hides no list
    let bytes = link(0, &[info(4), attribute(4, &[1]), info(1), spec()]);
    let it = only(&bytes);
    let mode = |list: Option<List<'_, Bond>>| list.and_then(|list| list.get(IFLA_BOND_MODE));
    assert_eq!(it.held::<Bond>().map(mode), Ok(Some(BondMode(1))));
    assert_eq!(it.held::<Inet6>().map(|list| list.map(|list| list.len())), Ok(Some(1)));
    assert_eq!((it.held::<Bridge>(), it.held::<Link>()), (Ok(None), Ok(None)));
    let fault = it.attributes().expect_err("the MTU has one byte");
    // two headers of 16 bytes, and the first IFLA_LINKINFO
    assert_eq!(fault.to_string(), "error at 60: IFLA_MTU has 1 byte, expected 4");
    assert_eq!((fault.family(), fault.list_at(), fault.at()), (Family::Link, 32, 28));
    assert_eq!(it.lists().map(|list| list.is_ok()).collect::<Vec<_>>(), [false]);

    // a list that is malformed
    let data = attribute(2, &attribute(3, &[1]));
    let bytes = link(0, &[attribute(18, &[attribute(1, b"bond"), data].concat())]);
    let fault = only(&bytes).held::<Bond>().expect_err("IFLA_BOND_MIIMON has one byte");
    // two headers, that of IFLA_LINKINFO, 8 bytes of IFLA_INFO_KIND, and the header of IFLA_INFO_DATA
    assert_eq!(fault.to_string(), "error at 48: IFLA_BOND_MIIMON has 1 byte, expected 4");
    assert_eq!((fault.family(), fault.list_at(), fault.at()), (Family::Bond, 48, 0));
    assert_eq!(only(&bytes).lists().map(|list| list.is_ok()).collect::<Vec<_>>(), [true, false]);
}

#[test]
fn errors_have_the_offset_in_the_buffer() {
    // after a message of 40 bytes, a bond whose IFLA_BOND_MODE (1) has 4 bytes, and one whose first header is malformed
    let first = link(0, &[attribute(3, b"b0\0")]);
    let rows = [
        (
            [attribute(1, &[4]), attribute(1, &[0; 4])].concat(),
            8,
            "error at 96: IFLA_BOND_MODE has 4 bytes, expected 1",
        ),
        (vec![3, 0, 1, 0], 0, "error at 88: nla_len 3 is below 4"),
    ];
    for (data, at, words) in rows {
        let info = attribute(18, &[attribute(1, b"bond"), attribute(2, &data)].concat());
        let bytes = [first.clone(), link(0, &[info])].concat();
        let it = messages(&bytes).nth(1).and_then(Result::ok).expect("it is well-formed");
        let fault = it.held::<Bond>().expect_err("its data are malformed");
        assert_eq!((fault.to_string().as_str(), fault.at(), fault.list_at()), (words, at, 88));
        assert_eq!(it.lists().filter_map(Result::err).collect::<Vec<_>>(), [fault]);
        let alone = List::<Bond>::read(&data).expect_err("it is malformed");
        assert_eq!((alone.family(), alone.list_at(), alone.at()), (Family::Bond, 0, at));
    }
    // in the other end of a veth: an IFLA_MTU (4) of a byte
    let peer = [vec![0; 16], attribute(4, &[1])].concat();
    let info = [attribute(1, b"veth"), attribute(2, &attribute(1, &peer))].concat();
    let bytes = link(0, &[attribute(18, &info)]);
    let fault = only(&bytes).lists().find_map(Result::err).expect("the MTU is malformed");
    assert_eq!((fault.to_string().as_str(), fault.list_at()), ("error at 68: IFLA_MTU has 1 byte, expected 4", 68));
}

#[test]
fn the_address_family_selects_sets() {
    // IFLA_PROTINFO (12) with NLA_F_NESTED, and IFLA_AF_SPEC (26)
    let families = |address_family, bytes: &[Vec<u8>]| -> Vec<Family> {
        let bytes = link(address_family, bytes);
        only(&bytes).lists().map(|list| list.expect("it is well-formed").family()).collect()
    };
    let port = attribute(12 | 0x8000, &attribute(1, &[3]));
    let vlans = attribute(26, &attribute(2, &[6, 0, 10, 0]));
    assert_eq!(families(7, &[port.clone(), vlans]), [Family::Link, Family::BridgePort, Family::AfSpecBridge]);
    assert_eq!(families(7, &[attribute(12, &attribute(1, &[3]))]), [Family::Link]);
    assert_eq!(families(10, &[attribute(12, &attribute(8, &[1]))]), [Family::Link, Family::Inet6]);
    assert_eq!(families(0, &[port]), [Family::Link]);
}

#[test]
fn the_other_end_of_a_link_has_lists() {
    // the data of a veth: VETH_INFO_PEER (1) has a struct ifinfomsg of AF_BRIDGE, IFLA_IFNAME (3) and IFLA_AF_SPEC (26)
    let mut peer = vec![7, 0, 0, 0, 5, 0, 0, 0, 0, 0, 0, 0, 0, 0, 0, 0];
    peer.extend([attribute(3, b"v1\0"), attribute(26, &attribute(2, &[6, 0, 10, 0]))].concat());
    let data = attribute(2, &attribute(1, &peer));
    let bytes = link(0, &[attribute(18, &[attribute(1, b"veth"), data].concat())]);
    let it = only(&bytes);
    let families: Vec<_> = it.lists().map(|list| list.expect("it is well-formed").family()).collect();
    assert_eq!(families, [Family::Link, Family::Veth, Family::Link, Family::AfSpecBridge]);
    let name = it.held::<Link>().map(|list| list.and_then(|list| list.get(IFLA_IFNAME)));
    assert_eq!(name, Ok(Some(Text::from("v1"))));
}

#[test]
fn messages_about_properties_are_read() -> Result<(), Fault> {
    // `ip link property add dev p2 altname enp2s0f0np0`: IFLA_PROP_LIST (52) with NLA_F_NESTED and IFLA_ALT_IFNAME (53)
    let names = attribute(52 | 0x8000, &attribute(53, b"enp2s0f0np0\0"));
    let body = [vec![0, 0, 0, 0, 18, 0, 0, 0, 0, 0, 0, 0, 0, 0, 0, 0], names.clone()].concat();
    for kind in [108, 109, 110] {
        let bytes = message(kind, &body);
        let it = only(&bytes);
        assert_eq!((it.message_type(), it.is_link()), (MessageType(kind), true));
        assert_eq!((it.index(), it.payload()), (18, &names[..]));
        let lists = it.lists().collect::<Result<Vec<_>, _>>()?;
        assert_eq!(lists.len(), 1);
        assert_eq!(lists[0].to_string(), "IFLA_PROP_LIST\n  IFLA_ALT_IFNAME \"enp2s0f0np0\"\n");
        let found = it.attributes()?.get(IFLA_PROP_LIST).and_then(|list| list.get(prop_list::IFLA_ALT_IFNAME));
        assert_eq!(found, Some(Text::from("enp2s0f0np0")));
        let short = message(kind, &[0; 4]);
        let fault = messages(&short).next().map(|it| it.expect_err("it has no struct ifinfomsg").cause());
        assert_eq!(fault, Some(Cause::TooShort { least: 32, actual: 20 }));
    }
    assert!([107, 111].iter().all(|kind| !only(&message(*kind, &body)).is_link()));
    Ok(())
}

#[test]
fn malformed_messages_are_errors() {
    let good = message(3, &[0; 4]);
    let rows = [
        (
            good[..15].to_vec(),
            Cause::ShortFrame { left: 15 },
            "error at 0: 15 bytes left, too few for a message header",
        ),
        (vec![0; 16], Cause::SmallLength { nla_len: 0 }, "error at 0: nlmsg_len 0 is below 16"),
        (
            good[..19].to_vec(),
            Cause::Overrun { nla_len: 20, left: 19 },
            "error at 0: nlmsg_len 20 exceeds the 19 bytes left",
        ),
    ];
    for (bytes, cause, words) in rows {
        let found: Vec<_> = messages(&bytes).collect();
        let fault = found[0].expect_err("it is malformed");
        assert_eq!((found.len(), fault.at(), fault.cause(), fault.to_string().as_str()), (1, 0, cause, words));
        assert_eq!(Error::from(fault).to_string(), words);
    }
    // the messages after one that is too short for its type are read
    let bytes = [message(16, &[0; 5]), vec![0; 3], good].concat();
    let found: Vec<_> = messages(&bytes).collect();
    let fault = found[0].expect_err("it has no struct ifinfomsg");
    assert_eq!(fault.to_string(), "error at 0: 21 bytes, too few for a link message");
    assert_eq!(fault.cause(), Cause::TooShort { least: 32, actual: 21 });
    assert_eq!(found[1].map(|it| (it.at(), it.message_type())), Ok((24, MessageType::NLMSG_DONE)));
}
