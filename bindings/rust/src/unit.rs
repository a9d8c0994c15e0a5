//! What numbers count.

use crate::kinds::unit;
use crate::scope::{Key, Scope};
use crate::sys::{self, Raw};
use crate::value::Value;

/// Tells what a number counts. [`Value::text`] has the unit, as in `100 ms`.
#[derive(Clone, Copy, Debug, PartialEq, Eq, Hash)]
#[non_exhaustive]
pub enum Unit {
    /// Is nothing: the value is a count, a priority, a number of an enum, or no number at all.
    None,
    /// Is 1/100 s (`USER_HZ`).
    ClockTicks,
    /// Is 1 ms.
    Milliseconds,
    /// Is 1 s.
    Seconds,
    /// Is 1 bit/s.
    BitsPerSecond,
    /// Is 1 ohm.
    Ohms,
    /// Is 1 ns.
    Nanoseconds,
    /// Is 1 Hz.
    Hertz,
    /// Is nothing: the number is the index of a link.
    InterfaceIndex,
    /// Is nothing: the number is a bit mask or has several parts, as a TOS. Texts show it in hex.
    Mask,
}

impl Unit {
    /// Returns the unit with a number of `enum nlroute_unit`.
    fn of(number: u32) -> Unit {
        match number {
            unit::CLOCK_TICKS => Unit::ClockTicks,
            unit::MILLISECONDS => Unit::Milliseconds,
            unit::SECONDS => Unit::Seconds,
            unit::BITS_PER_SECOND => Unit::BitsPerSecond,
            unit::OHMS => Unit::Ohms,
            unit::NANOSECONDS => Unit::Nanoseconds,
            unit::HERTZ => Unit::Hertz,
            unit::INTERFACE_INDEX => Unit::InterfaceIndex,
            unit::MASK => Unit::Mask,
            _ => Unit::None,
        }
    }
}

impl<S: Scope, T> Key<S, T> {
    /// Returns what the numbers of this attribute type count.
    ///
    /// ```
    /// use nlroute::{Unit, IFLA_BOND_AD_INFO_AGGREGATOR, IFLA_BOND_MIIMON};
    ///
    /// assert_eq!(IFLA_BOND_MIIMON.unit(), Unit::Milliseconds);
    /// assert_eq!(IFLA_BOND_AD_INFO_AGGREGATOR.unit(), Unit::None);
    /// ```
    pub fn unit(self) -> Unit {
        let (kind, inner, depth) = match S::LIST {
            None => (self.kind(), 0, 0),
            Some(list) => (list, self.kind(), 1),
        };
        Unit::of(sys::unit(S::FAMILY as u32, &Raw { kind, inner, depth, ..Raw::default() }))
    }
}

impl Value<'_> {
    /// Returns what the number of the value counts or, of a list of numbers, each of them.
    pub fn unit(&self) -> Unit {
        Unit::of(sys::unit(self.family as u32, self.raw))
    }
}
