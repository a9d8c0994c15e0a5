//! Folds the contents of attributes into a number, so that the compiler can leave none out.

use link_base::Attribute;
use link_base::classes::flag_or_bool::flag_is_on;
use link_base::rows::form::ArrayOf;
use link_base::views::attribute_set::{AttributeSet, ElementSet, Set};
use link_base::views::content::Content;
use link_base::views::view::{Value, View};

/// An attribute whose nested list, if it has one, is folded too.
trait Nested {
    /// Returns the sum of the contents of the nested list's attributes.
    fn folded_elements(&self) -> u64;
}

impl<'a, F: Attribute> Nested for Value<'a, Set<F>> {
    #[inline(always)]
    fn folded_elements(&self) -> u64 {
        match self.elements() {
            Some(elements) => folded_list(elements),
            None => 0,
        }
    }
}

impl<'a, F: Attribute> Nested for Value<'a, ElementSet<F>> {
    #[inline(always)]
    fn folded_elements(&self) -> u64 {
        0
    }
}

/// Returns the sum of the contents of a list's attributes.
#[inline(always)]
pub(crate) fn folded_list<'a, S: AttributeSet>(view: View<'a, S>) -> u64
where
    Value<'a, S>: Nested,
{
    let mut sum = 0u64;
    for value in view {
        sum = sum.wrapping_add(folded(&value, value.content()));
    }
    sum
}

/// Returns a number that depends on the content: of a list or an array, on each element.
#[inline(always)]
fn folded<N: Nested>(attribute: &N, content: Content<'_>) -> u64 {
    match content {
        Content::Nothing => 0,
        Content::Bool(flag) => u64::from(flag),
        Content::FlagOrBool(flag) => u64::from(flag_is_on(flag)),
        Content::Number { number, .. } => number,
        Content::Signed(number) => u64::from(number.cast_unsigned()),
        Content::LowFlags(bits) => u64::from(bits),
        Content::MaskedFlags { flags, mask } => u64::from(flags).wrapping_add(u64::from(mask)),
        Content::Pair(first, second) => u64::from(first).wrapping_add(u64::from(second)),
        Content::Protocol(protocol) => u64::from(u16::from(protocol)),
        Content::Mac([a, b, c, d, e, f]) => u64::from_le_bytes([a, b, c, d, e, f, 0, 0]),
        Content::Ipv4(address) => u64::from(address.to_bits()),
        Content::Ipv6(address) => folded_words(&address.octets()),
        Content::Bytes { bytes, .. } => folded_bytes(bytes),
        Content::Struct { bytes, .. } => folded_bytes(bytes),
        Content::Numbers {
            of: ArrayOf::U16,
            bytes,
        } => folded_halves(bytes),
        Content::Numbers { bytes, .. } => folded_words(bytes),
        Content::Limits { name, numbers } => {
            folded_bytes(name).wrapping_add(folded_words(numbers))
        }
        Content::Addresses { list, size: 16 } => folded_ipv6(list),
        Content::Addresses { list, .. } => folded_ipv4(list),
        Content::List { .. } => attribute.folded_elements(),
        Content::Other(bytes) => folded_bytes(bytes),
    }
}

/// Returns the length plus the first byte.
#[inline(always)]
fn folded_bytes(bytes: &[u8]) -> u64 {
    match bytes.first() {
        Some(first) => (bytes.len() as u64).wrapping_add(u64::from(*first)),
        None => 0,
    }
}

/// Returns the sum of `u16`s.
fn folded_halves(bytes: &[u8]) -> u64 {
    let mut sum = 0u64;
    for it in bytes.chunks_exact(2) {
        sum = sum.wrapping_add(u64::from(u16::from_le_bytes([it[0], it[1]])));
    }
    sum
}

/// Returns the sum of `u32`s, or of the halves of `u64`s.
fn folded_words(bytes: &[u8]) -> u64 {
    let mut sum = 0u64;
    for it in bytes.chunks_exact(4) {
        sum = sum.wrapping_add(u64::from(u32::from_le_bytes([it[0], it[1], it[2], it[3]])));
    }
    sum
}

/// Returns the sum of IPv4 addresses, each after its header.
fn folded_ipv4(list: &[u8]) -> u64 {
    let mut sum = 0u64;
    for it in list.chunks_exact(8) {
        sum = sum.wrapping_add(u64::from(u32::from_be_bytes([it[4], it[5], it[6], it[7]])));
    }
    sum
}

/// Returns the sum of the halves of IPv6 addresses, each after its header.
fn folded_ipv6(list: &[u8]) -> u64 {
    let mut sum = 0u64;
    for it in list.chunks_exact(20) {
        let high = [it[4], it[5], it[6], it[7], it[8], it[9], it[10], it[11]];
        let low = [
            it[12], it[13], it[14], it[15], it[16], it[17], it[18], it[19],
        ];
        sum = sum.wrapping_add(u64::from_be_bytes(high));
        sum = sum.wrapping_add(u64::from_be_bytes(low));
    }
    sum
}
