//! How lists change.

use nlroute::*;
use std::net::Ipv4Addr;

fn targets(last: u8, count: usize) -> Vec<Ipv4Addr> {
    vec![[10, 0, 0, last].into(); count]
}

fn kinds<S>(list: &List<'_, S>) -> Vec<u16> {
    list.iter().map(|value| value.kind()).collect()
}

#[test]
fn set_replaces_all_values_at_the_place_of_the_first() {
    let list = || {
        List::<Bond>::new()
            .with(IFLA_BOND_MODE, BondMode(1))
            .with(IFLA_BOND_ARP_IP_TARGET, targets(1, 3))
            .with(IFLA_BOND_MIIMON, 1)
            .with(IFLA_BOND_ARP_IP_TARGET, targets(2, 1))
            .with(IFLA_BOND_MIIMON, 2)
            .with(IFLA_BOND_UPDELAY, 3)
    };
    let mut changed = list();
    changed.set(IFLA_BOND_ARP_IP_TARGET, targets(3, 2));
    assert_eq!(kinds(&changed), [1, 8, 3, 3, 4]);
    assert_eq!(changed.get(IFLA_BOND_ARP_IP_TARGET), Some(targets(3, 2)));
    assert_eq!(changed.get_all(IFLA_BOND_MIIMON).collect::<Vec<_>>(), [1, 2]);

    changed.set(IFLA_BOND_MIIMON, 9);
    assert_eq!(kinds(&changed), [1, 8, 3, 4]);
    changed.set(IFLA_BOND_MODE, BondMode(2)).set(IFLA_BOND_DOWNDELAY, 5);
    assert_eq!(kinds(&changed), [1, 8, 3, 4, 5]);
    changed.set(IFLA_BOND_ARP_IP_TARGET, Vec::new());
    let expected = "IFLA_BOND_MODE balance-xor (2)\nIFLA_BOND_ARP_IP_TARGET (empty)\nIFLA_BOND_MIIMON 9 ms\n\
                    IFLA_BOND_UPDELAY 3 ms\nIFLA_BOND_DOWNDELAY 5 ms\n";
    assert_eq!(changed.to_string(), expected);

    // a list without elements is one value, too
    changed.set(IFLA_BOND_ARP_IP_TARGET, targets(4, 2));
    assert_eq!(kinds(&changed), [1, 8, 3, 4, 5]);
    assert_eq!(changed.get(IFLA_BOND_ARP_IP_TARGET), Some(targets(4, 2)));

    let mut removed = list();
    removed.remove(IFLA_BOND_ARP_IP_TARGET).remove(IFLA_BOND_LP_INTERVAL);
    assert_eq!(kinds(&removed), [1, 3, 3, 4]);
    assert_eq!(removed.iter().map(|value| value.elements().count()).sum::<usize>(), 0);
}

#[test]
fn the_last_value_counts() -> Result<(), Error> {
    let mut bond = List::<Bond>::new();
    bond.push(IFLA_BOND_MIIMON, 1).push(IFLA_BOND_MODE, BondMode(0)).push(IFLA_BOND_MIIMON, 2);
    assert_eq!(bond.get(IFLA_BOND_MIIMON), Some(2));
    let bytes = bond.to_bytes()?;
    assert_eq!(bytes, [8, 0, 3, 0, 1, 0, 0, 0, 5, 0, 1, 0, 0, 0, 0, 0, 8, 0, 3, 0, 2, 0, 0, 0]);
    assert_eq!(List::<Bond>::read(&bytes)?.get(IFLA_BOND_MIIMON), Some(2));
    assert_eq!(find(&bytes, IFLA_BOND_MIIMON)?, Some(2));
    Ok(())
}

#[test]
fn nested_lists_change_like_others() -> Result<(), Error> {
    let mut info = Nested::<BondAdInfo>::new();
    info.push(IFLA_BOND_AD_INFO_NUM_PORTS, 1)
        .push(IFLA_BOND_AD_INFO_AGGREGATOR, 2)
        .push(IFLA_BOND_AD_INFO_NUM_PORTS, 3)
        .push_unknown(9, 0, &[1, 2, 3]);
    info.set(IFLA_BOND_AD_INFO_NUM_PORTS, 4);
    assert_eq!(kinds(&info), [2, 1, 9]);
    assert_eq!(info.to_string(), "IFLA_BOND_AD_INFO_NUM_PORTS 4\nIFLA_BOND_AD_INFO_AGGREGATOR 2\ntype 9 hex 010203\n");

    // the payload of type 9 is not at the start of the bytes of the outer list
    let mut bond = List::<Bond>::new();
    bond.push_unknown(99, 0, &[7; 5]).push(IFLA_BOND_AD_INFO, info.clone());
    let bytes = bond.to_bytes()?;
    let expected = [
        &[9, 0, 99, 0, 7, 7, 7, 7, 7, 0, 0, 0][..],
        &[28, 0, 23, 0x80, 6, 0, 2, 0, 4, 0, 0, 0, 6, 0, 1, 0, 2, 0, 0, 0, 7, 0, 9, 0, 1, 2, 3, 0],
    ];
    assert_eq!(bytes[..12], *expected[0]);
    assert_eq!(bytes[16..], expected[1][4..]);
    let mut again = List::<Bond>::read(&bytes)?;
    assert_eq!(again.get(IFLA_BOND_AD_INFO), Some(info.clone()));
    info.remove(IFLA_BOND_AD_INFO_AGGREGATOR);
    assert_eq!(kinds(&info), [2, 9]);
    again.set(IFLA_BOND_AD_INFO, info.clone());
    assert_eq!(find(&again.to_bytes()?, IFLA_BOND_AD_INFO)?, Some(info));
    Ok(())
}

#[test]
fn a_list_outlives_the_bytes_that_it_was_read_from() -> Result<(), Error> {
    fn read() -> Result<List<'static, BondPort>, Fault> {
        let bytes = vec![9, 0, 4, 0, 1, 2, 3, 4, 5];
        Ok(List::read(&bytes)?.into_owned())
    }
    let list = read()?;
    assert_eq!(list.get(IFLA_BOND_SLAVE_PERM_HWADDR), Some(vec![1, 2, 3, 4, 5]));
    let sent = std::thread::spawn(move || list.to_bytes()).join().expect("it does not panic")?;
    assert_eq!(sent, [9, 0, 4, 0, 1, 2, 3, 4, 5, 0, 0, 0]);
    Ok(())
}

#[test]
fn unknown_attributes_are_kept() -> Result<(), Error> {
    let bytes = [6, 0, 99, 0x80, 1, 2, 0, 0];
    let list = List::<Bond>::read(&bytes)?;
    let value = list.iter().next().expect("there is one");
    assert_eq!(value.content(), Content::Unknown { flags: 0x8000, payload: &[1, 2] });
    assert_eq!(value.to_string(), "type 99 NLA_F_NESTED hex 0102");
    assert_eq!(list.to_bytes()?, bytes);
    assert_eq!(*List::<Bond>::new().push_unknown(99, 0x8000, &[1, 2]), list);
    Ok(())
}

#[test]
fn contents_have_the_types_of_the_kernel() -> Result<(), Fault> {
    let bytes = [12, 0, 10, 0, 0x80, 0, 2, 0, 0, 0, 0, 1, 4, 0, 21, 0];
    let bridge = List::<Bridge>::read(&bytes)?;
    let contents: Vec<_> = bridge.iter().map(|value| value.content()).collect();
    let id = BridgeId { priority: 0x8000, address: Mac([2, 0, 0, 0, 0, 1]) };
    assert_eq!(contents, [Content::BridgeId(id), Content::Empty]);
    assert_eq!(format!("{bridge:?}").split(", IFLA").next().map(|it| it.starts_with("[IFLA_BR_ROOT_ID: ")), Some(true));
    assert_eq!(bridge.get(IFLA_BR_FDB_FLUSH), Some(()));
    Ok(())
}

#[test]
fn long_lists_need_more_than_the_first_guess() -> Result<(), Error> {
    // IFLA_CAN_TERMINATION_CONST: an element of an array has two bytes
    let numbers: Vec<u16> = (0..30_000).collect();
    let bytes = List::<Can>::new().with(IFLA_CAN_TERMINATION_CONST, numbers.clone()).to_bytes()?;
    assert_eq!(bytes.len(), 60_004);
    assert_eq!(find(&bytes, IFLA_CAN_TERMINATION_CONST)?, Some(numbers));
    Ok(())
}

#[test]
fn texts_of_any_length_are_whole() {
    // `hex ` and two digits for each byte: some have 255, 256 and 257 bytes
    for length in (120..135).chain([60_000]) {
        let mut list = List::<Vlan>::new();
        list.push_unknown(99, 0, &vec![0xab; length]);
        let text = list.iter().next().map(|value| value.text());
        assert_eq!(text, Some(format!("hex {}", "ab".repeat(length))), "{length}");
    }
    let port = List::<BondPort>::new().with(IFLA_BOND_SLAVE_PERM_HWADDR, vec![0xab; 86]);
    assert_eq!(port.to_string(), format!("IFLA_BOND_SLAVE_PERM_HWADDR {}\n", vec!["ab"; 86].join(":")));
}

#[test]
fn lists_can_be_used_by_several_threads() {
    fn is_shared<T: Send + Sync>() {}
    is_shared::<List<'static, Bond>>();
    is_shared::<Value<'static>>();
    is_shared::<Key<Bond, u32>>();
    assert!(List::<Bond>::default().is_empty());
}

#[test]
fn structs_are_written_by_their_fields() -> Result<(), Error> {
    // struct ifla_vxlan_port_range and struct vxlanhdr are big-endian; struct rtnl_link_ifmap and ifla_cacheinfo are not
    let ports = PortRange { low: 32768, high: 61000 };
    let vxlan = List::<Vxlan>::new().with(IFLA_VXLAN_PORT_RANGE, ports.into());
    assert_eq!(vxlan.to_bytes()?, [8, 0, 10, 0, 0x80, 0, 0xee, 0x48]);
    assert_eq!(vxlan.to_string(), "IFLA_VXLAN_PORT_RANGE low 32768 high 61000\n");
    assert_eq!(vxlan.get(IFLA_VXLAN_PORT_RANGE).and_then(|value| PortRange::read(&value)), Some(ports));
    let geneve = List::<Geneve>::new().with(IFLA_GENEVE_PORT_RANGE, ports.into());
    assert_eq!(geneve.to_bytes()?[4..], [0x80, 0, 0xee, 0x48]);
    let bits = VxlanReservedBits { vx_flags: 1 << 24, vx_vni: 255 };
    assert_eq!(Vec::from(bits), [1, 0, 0, 0, 0, 0, 0, 255]);
    let map = LinkMap { base_addr: 1 << 40, irq: 5, port: 7, ..LinkMap::default() };
    let expected =
        [vec![0; 16], (1u64 << 40).to_ne_bytes().to_vec(), 5u16.to_ne_bytes().to_vec(), vec![0, 7, 0, 0, 0, 0]];
    let link = List::<Link>::new().with(IFLA_MAP, map.into());
    assert_eq!(link.to_bytes()?[4..], expected.concat());
    let times = Inet6CacheInfo { tstamp: 9, ..Inet6CacheInfo::default() };
    assert_eq!(Vec::from(times), [[0; 4], 9u32.to_ne_bytes(), [0; 4], [0; 4]].concat());
    assert_eq!(
        (PortRange::read(&[1, 2, 3]), PortRange::read(&[0, 1, 0, 2, 9])),
        (None, Some(PortRange { low: 1, high: 2 }))
    );
    Ok(())
}
