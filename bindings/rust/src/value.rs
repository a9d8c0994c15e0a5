//! Values of attributes and elements.

use crate::field::Stored;
use crate::kinds::form;
use crate::scope::{Scope, Typed};
use crate::sys::{self, Raw};
use crate::types::{BerrCounter, BridgeId, CanBitTiming, CanBitTimingConst, Mac, Masked, QosMapping, VlanInfo};
use crate::Family;
use std::fmt;
use std::iter::FusedIterator;
use std::marker::PhantomData;
use std::net::{Ipv4Addr, Ipv6Addr};

/// Flags of `nla_type` (`linux/netlink.h`).
const NLA_F_NESTED: u16 = 0x8000;
const NLA_F_NET_BYTEORDER: u16 = 0x4000;
/// A place that no array has: an attribute has fewer bytes.
const LAST_PLACE: u16 = u16::MAX;

/// Refers to an attribute of a list, or to an element of an attribute that is a list.
///
/// `Display` writes the name and the value, as `nlshow` prints them: `IFLA_BOND_MODE 802.3ad (4)`. Addresses and
/// numbers of a list follow its name; other elements are lines of their own, indented by two blanks. Of a list of another
/// set, such as `IFLA_INFO_DATA`, `nlshow` prints the attributes, and `Display` the length. Two values are equal if their
/// types and contents are.
#[derive(Clone, Copy)]
pub struct Value<'a> {
    pub(crate) family: Family,
    pub(crate) raw: &'a Raw,
    /// The elements, if it is an attribute that is a list.
    pub(crate) elements: &'a [Raw],
    /// The bytes that values refer to.
    pub(crate) bytes: &'a [u8],
}

impl<'a> Value<'a> {
    /// Returns a value without elements.
    pub(crate) fn single(family: Family, raw: &'a Raw, bytes: &'a [u8]) -> Self {
        Value { family, raw, elements: &[], bytes }
    }

    /// Returns the attribute type (`nla_type` without flags). For an element this is its own type, or its index among
    /// addresses or numbers.
    pub fn kind(&self) -> u16 {
        if self.raw.depth == 0 {
            self.raw.kind
        } else {
            self.raw.inner
        }
    }

    /// Returns the kernel's constant, such as `IFLA_BOND_MODE`. It is `type 99` if the type is not known. For an address
    /// or a number of a list it is `[3]` or, if its place has a name, `rx_errors`.
    pub fn name(&self) -> String {
        sys::kind_name(self.family as u32, self.raw).to_string()
    }

    /// Returns the text of the value, with its unit: `802.3ad (4)`, `1500 (15.00 s)`. It is empty for a list.
    pub fn text(&self) -> String {
        sys::value_text(self.family as u32, self.raw, self.bytes).to_string()
    }

    /// Iterates over the fields of a struct: their names in the kernel's headers, and what they hold. There are none for
    /// other values. Every struct that [`text`](Value::text) prints by its fields has them, also one that is
    /// [`Content::Bytes`].
    ///
    /// ```
    /// use nlroute::*;
    ///
    /// let list = List::<Can>::read(&[8, 0, 8, 0, 1, 0, 2, 0])?; // IFLA_CAN_BERR_COUNTER
    /// let counters: Vec<_> = list.iter().flat_map(|value| value.fields()).collect();
    /// assert_eq!(counters, [("txerr".to_string(), Content::Unsigned(1)), ("rxerr".to_string(), Content::Unsigned(2))]);
    /// # Ok::<(), Fault>(())
    /// ```
    pub fn fields(&self) -> impl Iterator<Item = (String, Content<'a>)> {
        let value = *self;
        (0..).map_while(move |index| value.field(index))
    }

    fn field(&self, index: usize) -> Option<(String, Content<'a>)> {
        let field = sys::field(self.family as u32, self.raw, index, self.bytes)?;
        let name = field.name.split(|byte| *byte == 0).next().unwrap_or(&[]);
        let offset = self.raw.offset.saturating_add(field.offset);
        let content = match u8::try_from(field.form).ok()? {
            form::UNSIGNED => Content::Unsigned(field.number),
            form::SIGNED => Content::Signed(field.number as i64),
            form::NAMED => Content::Named(field.number.try_into().ok()?),
            form::FLAGS => Content::Flags(field.number.try_into().ok()?),
            form::MAC => Content::Mac(Mac(field.octets[..6].try_into().ok()?)),
            _ => Content::Bytes(payload(&Raw { offset, length: field.length, ..*self.raw }, self.bytes)),
        };
        Some((String::from_utf8_lossy(name).into_owned(), content))
    }

    /// Iterates over the elements of a list; there are none for other values.
    pub fn elements(&self) -> Iter<'a> {
        Iter { family: self.family, values: self.elements, bytes: self.bytes }
    }

    /// Returns the value.
    pub fn content(&self) -> Content<'a> {
        self.known().unwrap_or_else(|| Content::Unknown { flags: self.raw.flags, payload: self.payload() })
    }

    fn known(&self) -> Option<Content<'a>> {
        Some(match self.raw.form {
            form::EMPTY => Content::Empty,
            form::BOOL => Content::Bool(self.raw.number != 0),
            form::UNSIGNED => Content::Unsigned(self.raw.number),
            form::SIGNED => Content::Signed(self.raw.number as i64),
            form::NAMED => Content::Named(self.raw.number.try_into().ok()?),
            form::FLAGS => Content::Flags(self.raw.number.try_into().ok()?),
            form::MASKED => Content::Masked(Masked { flags: self.raw.number.try_into().ok()?, mask: self.raw.second }),
            form::MAC => Content::Mac(Mac::load(*self)?),
            form::IPV4 => Content::Ipv4(Ipv4Addr::load(*self)?),
            form::IPV6 => Content::Ipv6(Ipv6Addr::load(*self)?),
            form::BRIDGE_ID => Content::BridgeId(BridgeId::load(*self)?),
            form::VLAN_INFO => Content::VlanInfo(VlanInfo::load(*self)?),
            form::QOS_MAPPING => Content::QosMapping(QosMapping::load(*self)?),
            form::BERR_COUNTER => Content::BerrCounter(BerrCounter::load(*self)?),
            form::BITTIMING => Content::CanBitTiming(CanBitTiming::load(*self)?),
            form::BITTIMING_CONST => Content::CanBitTimingConst(CanBitTimingConst::load(*self)?),
            form::BYTES => Content::Bytes(self.payload()),
            form::TEXT => Content::Text(self.payload()),
            form::HELD => Content::Held(self.payload()),
            form::PEER => Content::Peer(self.payload()),
            form::LIST => Content::List(self.elements()),
            _ => return None,
        })
    }

    /// Returns whether it is an attribute or an element of a scope.
    pub(crate) fn is_of<S: Scope>(&self) -> bool {
        let list = if self.raw.depth == 0 { None } else { Some(self.raw.kind) };
        self.family == S::FAMILY && list == S::LIST
    }

    /// Returns whether the value has a form.
    pub(crate) fn has(&self, form: u8) -> bool {
        self.raw.form == form
    }

    /// Returns the number of a value that has a form.
    pub(crate) fn number<T: TryFrom<u64>>(&self, form: u8) -> Option<T> {
        if self.has(form) {
            self.raw.number.try_into().ok()
        } else {
            None
        }
    }

    /// Returns the second number of a value.
    pub(crate) fn second<T: TryFrom<u32>>(&self) -> Option<T> {
        self.raw.second.try_into().ok()
    }

    /// Returns the address of a value that has a form.
    pub(crate) fn octets<const N: usize>(&self, form: u8) -> Option<[u8; N]> {
        if self.has(form) {
            self.raw.octets.get(..N)?.try_into().ok()
        } else {
            None
        }
    }

    /// Returns the bytes that the value refers to.
    pub(crate) fn payload(&self) -> &'a [u8] {
        payload(self.raw, self.bytes)
    }
}

/// Returns the bytes that a value refers to. For one that the library has stored they exist.
pub(crate) fn payload<'a>(raw: &Raw, bytes: &'a [u8]) -> &'a [u8] {
    let start = usize::try_from(raw.offset).unwrap_or(usize::MAX);
    bytes.get(start..).and_then(|rest| rest.get(..raw.length as usize)).unwrap_or(&[])
}

impl PartialEq for Value<'_> {
    fn eq(&self, other: &Self) -> bool {
        self.kind() == other.kind() && self.content() == other.content()
    }
}

impl Eq for Value<'_> {}

impl fmt::Debug for Value<'_> {
    fn fmt(&self, f: &mut fmt::Formatter<'_>) -> fmt::Result {
        write!(f, "{}: {:?}", sys::kind_name(self.family as u32, self.raw), self.content())
    }
}

impl fmt::Display for Value<'_> {
    fn fmt(&self, f: &mut fmt::Formatter<'_>) -> fmt::Result {
        sys::kind_name(self.family as u32, self.raw).fmt(f)?;
        f.write_str(match self.raw.flags {
            0 => "",
            NLA_F_NESTED => " NLA_F_NESTED",
            NLA_F_NET_BYTEORDER => " NLA_F_NET_BYTEORDER",
            _ => " NLA_F_NET_BYTEORDER|NLA_F_NESTED",
        })?;
        let text = sys::value_text(self.family as u32, self.raw, self.bytes);
        if !text.is_empty() {
            write!(f, " {text}")
        } else if self.has(form::EMPTY) {
            Ok(())
        } else if self.elements.is_empty() {
            f.write_str(" (empty)")
        } else if !self.is_array() {
            self.elements().try_for_each(|element| write!(f, "\n  {element}"))
        } else if self.elements().take(1).all(|element| element.name().starts_with('[')) {
            self.write_items(f)
        } else {
            self.write_named(f)
        }
    }
}

impl Value<'_> {
    /// Writes the addresses or numbers of a list, with the unit of numbers after the last one.
    fn write_items(&self, f: &mut fmt::Formatter<'_>) -> fmt::Result {
        let mut items = self.elements();
        while let Some(item) = items.next() {
            let text = item.text();
            let number = text.split(' ').next().unwrap_or("");
            write!(f, " {}", if items.values.is_empty() { &text } else { number })?;
        }
        Ok(())
    }

    /// Returns whether the elements are addresses or numbers: these have places, of which the last one has no name.
    fn is_array(&self) -> bool {
        let last = Raw { kind: self.raw.kind, inner: LAST_PLACE, depth: 1, ..Raw::default() };
        sys::kind_name(self.family as u32, &last).to_string().starts_with('[')
    }

    /// Writes the numbers of an array whose places have names: those that are not 0, then how many are.
    fn write_named(&self, f: &mut fmt::Formatter<'_>) -> fmt::Result {
        let (zero, named): (Vec<_>, Vec<_>) = self.elements().partition(|item| item.raw.number == 0);
        named.iter().try_for_each(|item| write!(f, " {item}"))?;
        if zero.is_empty() {
            Ok(())
        } else {
            write!(f, " ({} zero)", zero.len())
        }
    }
}

/// Iterates over the attributes of a list, or over the elements of an attribute. It knows how many are left, and goes
/// from both ends.
#[derive(Clone, Copy)]
pub struct Iter<'a> {
    pub(crate) family: Family,
    pub(crate) values: &'a [Raw],
    pub(crate) bytes: &'a [u8],
}

impl<'a> Iterator for Iter<'a> {
    type Item = Value<'a>;

    fn next(&mut self) -> Option<Value<'a>> {
        let (raw, rest) = self.values.split_first()?;
        // The elements of a list follow it.
        let count = if raw.form == form::LIST { rest.iter().take_while(|it| it.depth > raw.depth).count() } else { 0 };
        let (elements, rest) = rest.split_at(count);
        self.values = rest;
        Some(Value { family: self.family, raw, elements, bytes: self.bytes })
    }

    fn size_hint(&self) -> (usize, Option<usize>) {
        let depth = self.depth();
        let length = self.values.iter().filter(|raw| raw.depth <= depth).count();
        (length, Some(length))
    }
}

impl DoubleEndedIterator for Iter<'_> {
    fn next_back(&mut self) -> Option<Self::Item> {
        let depth = self.depth();
        let at = self.values.iter().rposition(|raw| raw.depth <= depth)?;
        let (rest, last) = self.values.split_at(at);
        self.values = rest;
        Iter { values: last, ..*self }.next()
    }
}

impl ExactSizeIterator for Iter<'_> {}
impl FusedIterator for Iter<'_> {}

impl Iter<'_> {
    /// Returns the depth of the values; that of their elements is greater.
    fn depth(&self) -> u8 {
        self.values.first().map_or(0, |raw| raw.depth)
    }
}

impl PartialEq for Iter<'_> {
    /// Compares the values that are left.
    fn eq(&self, other: &Self) -> bool {
        Iterator::eq(*self, *other)
    }
}

impl Eq for Iter<'_> {}

impl fmt::Debug for Iter<'_> {
    fn fmt(&self, f: &mut fmt::Formatter<'_>) -> fmt::Result {
        f.debug_list().entries(*self).finish()
    }
}

/// Iterates over the attributes of a list, each as an enum. [`List::typed`](crate::List::typed) returns it.
pub struct TypedIter<'a, S> {
    pub(crate) values: Iter<'a>,
    pub(crate) of: PhantomData<S>,
}

impl<'a, S: Typed<'a>> Iterator for TypedIter<'a, S> {
    type Item = S::Attribute;

    fn next(&mut self) -> Option<S::Attribute> {
        self.values.next().map(S::Attribute::from)
    }

    fn size_hint(&self) -> (usize, Option<usize>) {
        self.values.size_hint()
    }
}

impl<'a, S: Typed<'a>> DoubleEndedIterator for TypedIter<'a, S> {
    fn next_back(&mut self) -> Option<S::Attribute> {
        self.values.next_back().map(S::Attribute::from)
    }
}

impl<'a, S: Typed<'a>> ExactSizeIterator for TypedIter<'a, S> {}
impl<'a, S: Typed<'a>> FusedIterator for TypedIter<'a, S> {}

impl<S> Clone for TypedIter<'_, S> {
    fn clone(&self) -> Self {
        TypedIter { values: self.values, of: PhantomData }
    }
}

impl<S> fmt::Debug for TypedIter<'_, S> {
    fn fmt(&self, f: &mut fmt::Formatter<'_>) -> fmt::Result {
        self.values.fmt(f)
    }
}

/// Holds a value of a type that is not known when compiling.
#[derive(Clone, Copy, Debug, PartialEq, Eq)]
#[non_exhaustive]
pub enum Content<'a> {
    /// Represents an attribute without a value.
    Empty,
    /// Holds a boolean.
    Bool(bool),
    /// Holds a number.
    Unsigned(u64),
    /// Holds a signed number.
    Signed(i64),
    /// Holds a number of an enum; [`Value::text`] has its name.
    Named(u32),
    /// Holds a set of flags; [`Value::text`] has their names.
    Flags(u32),
    /// Holds a set of flags with a mask.
    Masked(Masked<u32>),
    /// Holds a MAC address.
    Mac(Mac),
    /// Holds an IPv4 address.
    Ipv4(Ipv4Addr),
    /// Holds an IPv6 address.
    Ipv6(Ipv6Addr),
    /// Holds a bridge ID.
    BridgeId(BridgeId),
    /// Holds a VLAN of a bridge port.
    VlanInfo(VlanInfo),
    /// Holds a mapping of priorities.
    QosMapping(QosMapping),
    /// Holds counters of bus errors.
    BerrCounter(BerrCounter),
    /// Holds a bit timing.
    CanBitTiming(CanBitTiming),
    /// Holds limits of bit timings.
    CanBitTimingConst(CanBitTimingConst),
    /// Holds bytes.
    Bytes(&'a [u8]),
    /// Holds a text, with the NUL at its end if it has one.
    Text(&'a [u8]),
    /// Holds a list of attributes of another set, as bytes.
    Held(&'a [u8]),
    /// Holds a header of 16 bytes (`struct ifinfomsg`), then a list of attributes of a link, as bytes.
    Peer(&'a [u8]),
    /// Holds the elements of a list.
    List(Iter<'a>),
    /// Holds an attribute whose type is not known.
    Unknown {
        /// Holds `NLA_F_NESTED` and `NLA_F_NET_BYTEORDER` of `nla_type`.
        flags: u16,
        /// Holds the payload.
        payload: &'a [u8],
    },
}
