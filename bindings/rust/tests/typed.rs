//! Attributes as enums, and iterators from both ends.

mod common;

use common::cases;
use nlroute::*;

/// `IFLA_BOND_MODE`, `IFLA_BOND_ARP_IP_TARGET` with two addresses, `IFLA_BOND_AD_INFO` with two elements, type 99.
fn bond() -> List<'static, Bond> {
    let info = Nested::new().with(IFLA_BOND_AD_INFO_NUM_PORTS, 2).with(IFLA_BOND_AD_INFO_AGGREGATOR, 1);
    let mut bond = List::new()
        .with(IFLA_BOND_MODE, BondMode::IEEE8023AD)
        .with(IFLA_BOND_ARP_IP_TARGET, vec![[10, 0, 0, 1].into(), [10, 0, 0, 2].into()])
        .with(IFLA_BOND_AD_INFO, info);
    bond.push_unknown(99, 0x8000, &[1, 2]);
    bond
}

#[test]
fn attributes_are_matched() {
    let bond = bond();
    let mut seen = Vec::new();
    for attribute in bond.typed() {
        seen.push(match attribute {
            BondAttribute::Mode(mode) => mode.to_string(),
            BondAttribute::ArpIpTarget(targets) => targets.iter().map(|it| format!("{it} ")).collect(),
            BondAttribute::AdInfo(info) => info
                .typed()
                .map(|element| match element {
                    BondAdInfoAttribute::NumPorts(ports) => format!("{ports} ports "),
                    other => format!("{other:?} "),
                })
                .collect(),
            BondAttribute::Other(value) => value.to_string(),
            other => panic!("{other:?}"),
        });
    }
    assert_eq!(seen, ["802.3ad", "10.0.0.1 10.0.0.2 ", "2 ports Aggregator(1) ", "type 99 NLA_F_NESTED hex 0102"]);
}

#[test]
fn keys_and_values_have_units() {
    assert_eq!(IFLA_BR_AGEING_TIME.unit(), Unit::ClockTicks);
    assert_eq!(IFLA_CAN_TERMINATION_CONST.unit(), Unit::Ohms);
    assert_eq!(BRIDGE_QUERIER_IP_OTHER_TIMER.unit(), Unit::ClockTicks);
    assert_eq!((IFLA_VLAN_ID.unit(), IFLA_GENEVE_TOS.unit()), (Unit::None, Unit::Mask));
    let can = List::<Can>::new().with(IFLA_CAN_TERMINATION_CONST, vec![120]);
    let value = can.iter().next().expect("there is one");
    let element = value.elements().next().expect("there is one");
    assert_eq!((value.unit(), element.unit()), (Unit::Ohms, Unit::Ohms));
    let mut unknown = List::<Bond>::new();
    unknown.push_unknown(99, 0, &[1]);
    assert_eq!(unknown.iter().next().map(|value| value.unit()), Some(Unit::None));
}

#[test]
fn a_value_of_another_set_or_list_is_other() {
    let vlan = List::<Vlan>::new().with(IFLA_VLAN_ID, 1);
    let value = vlan.iter().next().expect("there is one");
    assert_eq!(VlanAttribute::from(value), VlanAttribute::Id(1));
    assert_eq!(BondAttribute::from(value), BondAttribute::Other(value));
    let bond = bond();
    let element = bond.iter().nth(2).and_then(|it| it.elements().next()).expect("there is one");
    assert_eq!(BondAdInfoAttribute::from(element), BondAdInfoAttribute::NumPorts(2));
    assert_eq!(BondAttribute::from(element), BondAttribute::Other(element));
    let address = bond.iter().nth(1).and_then(|it| it.elements().next()).expect("there is one");
    assert_eq!(BondAdInfoAttribute::from(address), BondAdInfoAttribute::Other(address));
    // an attribute that was added with a payload for a type that is known
    let mut wrong = List::<Bond>::new();
    wrong.push_unknown(1, 0, &[1]);
    assert!(matches!(wrong.typed().next(), Some(BondAttribute::Other(_))));
}

#[test]
fn attributes_without_a_value_have_none() {
    let bridge = List::<Bridge>::new().with(IFLA_BR_FDB_FLUSH, ());
    assert!(bridge.typed().eq([BridgeAttribute::FdbFlush]));
}

#[test]
fn iterators_go_from_both_ends() {
    let bond = bond();
    assert_eq!((bond.len(), bond.iter().len(), bond.typed().len()), (4, 4, 4));
    let kinds: Vec<_> = bond.iter().rev().map(|value| value.kind()).collect();
    assert_eq!(kinds, [99, 23, 8, 1]);
    let info = bond.iter().rev().nth(1).expect("there are four");
    let names: Vec<_> = info.elements().rev().map(|element| element.name()).collect();
    assert_eq!(names, ["IFLA_BOND_AD_INFO_AGGREGATOR", "IFLA_BOND_AD_INFO_NUM_PORTS"]);
    let mut values = bond.iter();
    let found = [values.next(), values.next_back(), values.next_back(), values.next(), values.next()];
    assert_eq!(found.map(|it| it.map(|it| it.kind())), [Some(1), Some(99), Some(23), Some(8), None]);
    assert_eq!((values.next_back(), values.len()), (None, 0));
    assert!(matches!(bond.typed().next_back(), Some(BondAttribute::Other(value)) if value.kind() == 99));
    assert_eq!((List::<Bond>::new().len(), List::<Bond>::new().iter().next_back()), (0, None));
    assert!(bond.contains(IFLA_BOND_AD_INFO) && !bond.contains(IFLA_BOND_MIIMON));
    let twice = List::<Bond>::new().with(IFLA_BOND_MIIMON, 1).with(IFLA_BOND_MIIMON, 2);
    assert!(twice.get_all(IFLA_BOND_MIIMON).rev().eq([2, 1]));
}

#[test]
fn iterators_of_all_runs_agree() {
    for case in cases() {
        if let Ok(list) = List::read_any(case.family, &case.bytes) {
            let values: Vec<_> = list.iter().collect();
            assert_eq!((list.len(), list.is_empty()), (values.len(), values.is_empty()), "{}", case.place);
            let mut back: Vec<_> = list.iter().rev().collect();
            back.reverse();
            assert_eq!(back, values, "{}", case.place);
            for value in values {
                assert_eq!(value.elements().len(), value.elements().count(), "{}", case.place);
                assert!(value.elements().rev().all(|it| it.elements().len() == 0), "{}", case.place);
            }
        }
    }
}
