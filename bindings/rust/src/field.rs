//! The types that values can have, and how they are stored in the structs of the library.

use crate::kinds::{form, item};
use crate::list::{List, Nested};
use crate::sys::{self, Raw};
use crate::types::{
    BerrCounter, BridgeId, CanBitTiming, CanBitTimingConst, Held, Mac, Peer, QosMapping, Text, VlanInfo,
};
use crate::value::{payload, Value};
use crate::{BridgeVlanFlags, Scope};
use std::borrow::Cow;
use std::net::{Ipv4Addr, Ipv6Addr};

/// Marks the types that the value of an attribute can have. The [`Key`](crate::Key) of an attribute has its type.
pub trait Field: Stored {}

/// Loads a value from the structs of the library, and stores it in them. No other crate can implement it.
pub trait Stored: Sized {
    /// Returns a value, or `None` if it has another form.
    fn load(value: Value<'_>) -> Option<Self>;
    /// Appends the value as an attribute of this type.
    fn store(self, kind: u16, to: &mut Store<'_, '_>);
}

/// The values and the bytes of a list, to which values are appended.
#[derive(Debug)]
pub struct Store<'b, 'a> {
    pub(crate) values: &'b mut Vec<Raw>,
    pub(crate) bytes: &'b mut Cow<'a, [u8]>,
    /// The attribute type of the list, if elements are appended.
    pub(crate) list: Option<u16>,
}

impl<'a> Store<'_, 'a> {
    /// Appends a value, as an element if the store is that of a list.
    fn push(&mut self, value: Raw) {
        self.values.push(match self.list {
            None => value,
            Some(list) => Raw { kind: list, inner: value.kind, depth: 1, ..value },
        });
    }

    /// Appends a value that is one or two numbers.
    pub(crate) fn number(&mut self, kind: u16, form: u8, number: u64, second: u32) {
        self.push(Raw { kind, form, number, second, ..Raw::default() });
    }

    /// Appends a boolean. A flag that may have no payload is off only with one; of others, the length is not used.
    fn boolean(&mut self, kind: u16, on: bool) {
        self.push(Raw { kind, form: form::BOOL, number: on.into(), length: (!on).into(), ..Raw::default() });
    }

    /// Appends a value that is an address, with a number before it or without.
    fn address(&mut self, kind: u16, form: u8, number: u64, address: &[u8]) {
        let mut octets = [0; 16];
        octets[..address.len()].copy_from_slice(address);
        // A bridge ID has 8 bytes: the priority and the address.
        let length = if form == form::BRIDGE_ID { 8 } else { address.len() as u32 };
        self.push(Raw { kind, form, number, octets, length, ..Raw::default() });
    }

    /// Appends a value that refers to bytes, which are copied. No attribute can have more than 65,531, so a length of
    /// more than `u32::MAX` need not be kept: the value cannot be written.
    pub(crate) fn bytes(&mut self, kind: u16, form: u8, flags: u16, bytes: &[u8]) {
        let offset = self.keep(bytes);
        let length = u32::try_from(bytes.len()).unwrap_or(u32::MAX);
        self.push(Raw { kind, form, flags, offset, length, ..Raw::default() });
    }

    /// Appends elements of a list, with copies of the bytes that they refer to.
    pub(crate) fn copy(&mut self, elements: &[Raw], bytes: &[u8]) {
        for element in elements {
            let offset = match element.form {
                form::BITTIMING
                | form::BITTIMING_CONST
                | form::BYTES
                | form::TEXT
                | form::HELD
                | form::PEER
                | form::UNKNOWN => self.keep(payload(element, bytes)),
                _ => 0,
            };
            self.values.push(Raw { offset, ..*element });
        }
    }

    /// Copies bytes, and returns their offset.
    fn keep(&mut self, bytes: &[u8]) -> u64 {
        let offset = self.bytes.len() as u64;
        if !bytes.is_empty() {
            self.bytes.to_mut().extend_from_slice(bytes);
        }
        offset
    }

    /// Appends a list, and returns a store for its elements.
    fn list(&mut self, kind: u16) -> Store<'_, 'a> {
        self.push(Raw { kind, form: form::LIST, ..Raw::default() });
        Store { values: self.values, bytes: self.bytes, list: Some(kind) }
    }
}

/// Implements `Field` for types that are one value: how it is loaded, and how it is stored.
macro_rules! field {
    ($($type:ty: |$value:ident| $load:expr, |$self:ident, $kind:ident, $to:ident| $store:expr;)*) => {$(
        impl Field for $type {}
        impl Stored for $type {
            fn load($value: Value<'_>) -> Option<Self> {
                $load
            }

            fn store($self, $kind: u16, $to: &mut Store<'_, '_>) {
                $store
            }
        }
    )*};
}

field! {
    (): |value| value.has(form::EMPTY).then_some(()), |self, kind, to| to.number(kind, form::EMPTY, 0, 0);
    bool: |value| value.number::<u8>(form::BOOL).map(|it| it != 0),
        |self, kind, to| to.boolean(kind, self);
    u8: |value| value.number(form::UNSIGNED), |self, kind, to| to.number(kind, form::UNSIGNED, self.into(), 0);
    u16: |value| value.number(form::UNSIGNED), |self, kind, to| to.number(kind, form::UNSIGNED, self.into(), 0);
    u32: |value| value.number(form::UNSIGNED), |self, kind, to| to.number(kind, form::UNSIGNED, self.into(), 0);
    u64: |value| value.number(form::UNSIGNED), |self, kind, to| to.number(kind, form::UNSIGNED, self, 0);
    i32: |value| value.number::<u64>(form::SIGNED).and_then(|it| (it as i64).try_into().ok()),
        |self, kind, to| to.number(kind, form::SIGNED, i64::from(self) as u64, 0);
    Mac: |value| value.octets(form::MAC).map(Mac), |self, kind, to| to.address(kind, form::MAC, 0, &self.0);
    Ipv4Addr: |value| value.octets::<4>(form::IPV4).map(Ipv4Addr::from),
        |self, kind, to| to.address(kind, form::IPV4, 0, &self.octets());
    Ipv6Addr: |value| value.octets::<16>(form::IPV6).map(Ipv6Addr::from),
        |self, kind, to| to.address(kind, form::IPV6, 0, &self.octets());
    BridgeId: |value| Some(BridgeId {
            priority: value.number(form::BRIDGE_ID)?,
            address: Mac(value.octets(form::BRIDGE_ID)?),
        }),
        |self, kind, to| to.address(kind, form::BRIDGE_ID, self.priority.into(), &self.address.0);
    VlanInfo: |value| Some(VlanInfo {
            vid: value.number(form::VLAN_INFO)?,
            flags: BridgeVlanFlags(value.second()?),
        }),
        |self, kind, to| to.number(kind, form::VLAN_INFO, self.vid.into(), self.flags.0.into());
    QosMapping: |value| Some(QosMapping { from: value.number(form::QOS_MAPPING)?, to: value.second()? }),
        |self, kind, to| to.number(kind, form::QOS_MAPPING, self.from.into(), self.to);
    BerrCounter: |value| Some(BerrCounter { txerr: value.number(form::BERR_COUNTER)?, rxerr: value.second()? }),
        |self, kind, to| to.number(kind, form::BERR_COUNTER, self.txerr.into(), self.rxerr.into());
    CanBitTiming: |value| sys::can_bittiming(value.raw, value.bytes),
        |self, kind, to| to.bytes(kind, form::BITTIMING, 0, &self.payload());
    CanBitTimingConst: |value| sys::can_bittiming_const(value.raw, value.bytes),
        |self, kind, to| to.bytes(kind, form::BITTIMING_CONST, 0, &self.payload());
    Vec<u8>: |value| value.has(form::BYTES).then(|| value.payload().to_vec()),
        |self, kind, to| to.bytes(kind, form::BYTES, 0, &self);
    Text: |value| value.has(form::TEXT).then(|| Text(value.payload().to_vec())),
        |self, kind, to| to.bytes(kind, form::TEXT, 0, &self.0);
    Held: |value| value.has(form::HELD).then(|| Held(value.payload().to_vec())),
        |self, kind, to| to.bytes(kind, form::HELD, 0, &self.0);
    Peer: |value| value.has(form::PEER).then(|| Peer::of(value.payload())).flatten(),
        |self, kind, to| to.bytes(kind, form::PEER, 0, &self.payload());
}

/// Implements `Field` for lists whose elements are alike. An element has its own type or, if it has none, its index.
macro_rules! sequence {
    ($($type:ty: |$index:ident| $kind:expr;)*) => {$(
        impl Field for Vec<$type> {}
        impl Stored for Vec<$type> {
            fn load(value: Value<'_>) -> Option<Self> {
                value.has(form::LIST).then(|| value.elements().filter_map(<$type>::load).collect())
            }

            fn store(self, kind: u16, to: &mut Store<'_, '_>) {
                let mut elements = to.list(kind);
                for ($index, element) in self.into_iter().enumerate() {
                    element.store($kind, &mut elements);
                }
            }
        }
    )*};
}

// The library numbers addresses and numbers itself when it writes them.
sequence! {
    Ipv4Addr: |index| index as u16;
    Ipv6Addr: |index| index as u16;
    u16: |index| index as u16;
    u32: |index| index as u16;
    i32: |index| index as u16;
    u64: |index| index as u16;
    QosMapping: |_index| item::IFLA_VLAN_QOS_MAPPING;
}

impl<S: Scope> Field for Nested<S> {}
impl<S: Scope> Stored for Nested<S> {
    fn load(value: Value<'_>) -> Option<Self> {
        value.has(form::LIST).then(|| List::of_elements(value))
    }

    fn store(self, kind: u16, to: &mut Store<'_, '_>) {
        to.list(kind);
        self.copy_to(to);
    }
}
