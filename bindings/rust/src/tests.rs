//! Tests of every key: its name, its number, and that a value of its type is written and read.

use crate::*;
use std::collections::HashMap;
use std::fmt::Debug;
use std::net::{Ipv4Addr, Ipv6Addr};

/// What is done for each key.
pub(crate) trait Visitor {
    fn attribute<S: Set, T: Field + Sample>(&mut self, name: &str, key: Key<S, T>);
    fn element<S: Set, E: Scope, T: Field + Sample>(&mut self, list: Key<S, Nested<E>>, name: &str, key: Key<E, T>);
}

/// A value of a type, the greatest if there is one, that each attribute of the type can have.
pub(crate) trait Sample: Clone + PartialEq + Debug {
    /// The number of bytes that a value takes, if its type says how many.
    const SIZE: Option<usize> = None;

    fn sample() -> Self;

    /// Returns a value that the attribute of this name can have.
    fn sample_for(_name: &str) -> Self {
        Self::sample()
    }
}

macro_rules! samples {
    ($($type:ty: $sample:expr $(, $size:expr)?;)*) => {$(
        impl Sample for $type {
            $(const SIZE: Option<usize> = Some($size);)?

            fn sample() -> Self {
                $sample
            }
        }
    )*};
}

samples! {
    (): (), 0;
    bool: true;
    u8: u8::MAX, 1;
    u16: u16::MAX, 2;
    u32: u32::MAX, 4;
    u64: u64::MAX, 8;
    i32: i32::MIN, 4;
    Mac: Mac([1, 2, 3, 4, 5, 6]);
    Ipv4Addr: Ipv4Addr::BROADCAST;
    Ipv6Addr: Ipv6Addr::LOCALHOST;
    BridgeId: BridgeId { priority: u16::MAX, address: Sample::sample() };
    VlanInfo: VlanInfo { vid: u16::MAX, flags: BridgeVlanFlags(u16::MAX) };
    QosMapping: QosMapping { from: u32::MAX, to: u32::MAX };
    BerrCounter: BerrCounter { txerr: u16::MAX, rxerr: u16::MAX };
    CanBitTiming: CanBitTiming {
        bitrate: 1, sample_point: 2, tq: 3, prop_seg: 4, phase_seg1: 5, phase_seg2: 6, sjw: 7, brp: 8,
    };
    CanBitTimingConst: CanBitTimingConst {
        name: *b"mcp251xfd\0\0\0\0\0\0\0", tseg1_min: 1, tseg1_max: 2, tseg2_min: 3, tseg2_max: 4, sjw_max: 5,
        brp_min: 6, brp_max: 7, brp_inc: 8,
    };
    Vec<u16>: vec![0, 1, u16::MAX];
    Vec<u32>: vec![0, 1, u32::MAX];
    Vec<i32>: vec![0, -1, i32::MAX, i32::MIN];
    Vec<u64>: vec![0, 1, u64::MAX];
    Text: Text(b"eth0\xff".to_vec());
    Held: Held(vec![5, 0, 1]);
    Peer: Peer { header: [1; 16], attributes: vec![5, 0, 1] };
    Vec<Ipv4Addr>: vec![Ipv4Addr::LOCALHOST, Ipv4Addr::BROADCAST];
    Vec<Ipv6Addr>: vec![Ipv6Addr::LOCALHOST, Ipv6Addr::UNSPECIFIED];
    Vec<QosMapping>: vec![QosMapping { from: 1, to: 2 }, Sample::sample()];
}

impl Sample for Vec<u8> {
    fn sample() -> Self {
        (1..=32).collect()
    }

    fn sample_for(name: &str) -> Self {
        // (the bytes of a struct are as many as it has)
        let size = match name {
            "IFLA_VXLAN_PORT_RANGE" | "IFLA_GENEVE_PORT_RANGE" => 4,
            "IFLA_INET6_CACHEINFO" => 16,
            "IFLA_MAP" => 32,
            _ => 8,
        };
        Self::sample()[..size].to_vec()
    }
}

impl<F: Sample> Sample for Masked<F> {
    const SIZE: Option<usize> = Some(8);

    fn sample() -> Self {
        Masked { flags: F::sample(), mask: F::sample() }
    }
}

impl<S: Scope> Sample for Nested<S> {
    fn sample() -> Self {
        let mut list = Self::new();
        list.push_unknown(0x3fff, 0xc000, &[1, 2]);
        list
    }
}

/// Returns the attribute types of nlroute_kinds.h, which is written from the tables that the proofs use.
fn kinds_of_header() -> HashMap<String, u16> {
    // (a package of a release has the header; in a clone, it is that of the C library)
    let folders = ["/include", "/../../crates/nlroute_ffi/include"];
    let read = |it| std::fs::read_to_string(format!("{}{it}/nlroute_kinds.h", env!("CARGO_MANIFEST_DIR"))).ok();
    let header = folders.iter().find_map(read).expect("the header is in this package or repository");
    // (places of arrays are not types)
    let types = header.split("/* Places of the array ").next().unwrap_or_default();
    let rows = types.lines().filter_map(|line| line.strip_prefix("    NLROUTE_")?.split_once(" = "));
    let number = |text: &str| text.split(|it: char| !it.is_ascii_digit()).next()?.parse().ok();
    rows.filter_map(|(name, rest)| Some((name.to_string(), number(rest)?))).collect()
}

struct AgainstHeader {
    kinds: HashMap<String, u16>,
    seen: Vec<String>,
}

impl AgainstHeader {
    fn compare<S, T>(&mut self, name: &str, key: Key<S, T>) {
        assert_eq!((self.kinds.get(name), key.name()), (Some(&key.kind()), name));
        self.seen.push(name.to_string());
    }
}

impl Visitor for AgainstHeader {
    fn attribute<S: Set, T: Field + Sample>(&mut self, name: &str, key: Key<S, T>) {
        self.compare(name, key);
    }

    fn element<S: Set, E: Scope, T: Field + Sample>(&mut self, _: Key<S, Nested<E>>, name: &str, key: Key<E, T>) {
        self.compare(name, key);
    }
}

#[test]
fn keys_are_those_of_the_header() {
    let mut visitor = AgainstHeader { kinds: kinds_of_header(), seen: Vec::new() };
    kinds::visit_keys(&mut visitor);
    let mut missing: Vec<_> = visitor.kinds.keys().filter(|name| !visitor.seen.contains(name)).collect();
    missing.sort();
    // A list of mappings is a Vec, without a key for its elements.
    assert_eq!(missing, ["IFLA_VLAN_QOS_MAPPING"]);
}

/// Checks that a list with one value has it as a variant, without its name: `Mode(BondMode(802.3ad))`.
fn check_typed<S: Scope, T: Debug>(list: &List<'_, S>, name: &str, value: &T) {
    let shown: Vec<_> = list.typed().map(|attribute| format!("{attribute:?}")).collect();
    let held = shown[0].split_once('(').map_or("()".to_string(), |(_, rest)| format!("({rest}"));
    let expected = if format!("{value:?}") == "()" { "()".to_string() } else { format!("({value:?})") };
    assert_eq!((shown.len(), held), (1, expected), "{name}");
    assert!(!shown[0].starts_with("Other("), "{name}");
}

struct RoundTrip;

impl Visitor for RoundTrip {
    fn attribute<S: Set, T: Field + Sample>(&mut self, name: &str, key: Key<S, T>) {
        let list = List::<S>::new().with(key, T::sample_for(name));
        assert_eq!(list.get(key), Some(T::sample_for(name)), "{name}, before it is written");
        check_typed(&list, name, &T::sample_for(name));
        let bytes = list.to_bytes().unwrap_or_else(|error| panic!("{error}"));
        assert_eq!(u16::from_le_bytes([bytes[2], bytes[3]]) & 0x3fff, key.kind(), "{name}");
        // the library writes as many bytes as the kernel's type has; of this u16, the low byte has the flags
        let size = usize::from(bytes[0]) - 4 - usize::from(name == "IFLA_BOND_SLAVE_AD_PARTNER_OPER_PORT_STATE");
        assert_eq!(T::SIZE.unwrap_or(size), size, "{name}");
        let read = List::<S>::read(&bytes).unwrap_or_else(|fault| panic!("{name}: {fault}"));
        assert_eq!(read, list, "{name}");
        assert_eq!(read.get(key), Some(T::sample_for(name)), "{name}");
        assert_eq!(find(&bytes, key), Ok(Some(T::sample_for(name))), "{name}");
        let first = read.iter().next().expect("it has an attribute");
        assert_eq!(first.name(), name);
        assert!(!matches!(first.content(), Content::Unknown { .. }), "{name}");
        assert_eq!(read.to_bytes(), Ok(bytes.clone()), "{name}");
    }

    fn element<S: Set, E: Scope, T: Field + Sample>(&mut self, list: Key<S, Nested<E>>, name: &str, key: Key<E, T>) {
        let nested = Nested::<E>::new().with(key, T::sample());
        assert_eq!(nested.get(key), Some(T::sample()), "{name}, before it is written");
        check_typed(&nested, name, &T::sample());
        let bytes = List::<S>::new().with(list, nested.clone()).to_bytes().unwrap_or_else(|error| panic!("{error}"));
        let size = usize::from(bytes[4]) - 4;
        assert_eq!(T::SIZE.unwrap_or(size), size, "{name}");
        assert_eq!(find(&bytes, list), Ok(Some(nested)), "{name}");
        assert_eq!(find_in(&bytes, list, key), Ok(Some(T::sample())), "{name}");
        let read = List::<S>::read(&bytes).unwrap_or_else(|fault| panic!("{name}: {fault}"));
        let elements = read.iter().next().expect("it has an attribute").elements();
        assert_eq!(elements.map(|element| element.name()).collect::<Vec<_>>(), [name]);
    }
}

#[test]
fn a_value_of_each_key_is_written_and_read() {
    kinds::visit_keys(&mut RoundTrip);
}

#[test]
fn families_have_the_names_of_the_library() {
    for family in Family::ALL {
        assert_eq!(Family::from_name(family.name()), Some(family));
    }
    assert_eq!(Family::from_name("zz9"), None);
    assert_eq!(Family::from_info_kind(b"bond"), Some(Family::Bond));
    assert_eq!(Family::from_port_kind(b"bond"), Some(Family::BondPort));
    assert_eq!((Family::from_info_kind(b"bond_port"), Family::from_port_kind(b"vlan")), (None, None));
}
