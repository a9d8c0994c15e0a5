//! Attribute sets as types, and keys.

use crate::value::Value;
use crate::Family;
use std::fmt;
use std::hash::{Hash, Hasher};
use std::marker::PhantomData;

/// Describes a scope to the crate. No other crate can implement it.
pub trait Described {
    /// The attribute set.
    const FAMILY: Family;
    /// The attribute type of the list whose elements these are, unless they are attributes of the set.
    const LIST: Option<u16>;
}

/// Marks types that represent attribute types which belong together: those of a set, such as [`Bond`](crate::Bond), or
/// the elements of a nested list, such as [`BondAdInfo`](crate::BondAdInfo). Such a type has no values.
pub trait Scope: Described + Copy + for<'a> Typed<'a> {}

/// Gives the attributes of a scope an enum: for [`Bond`](crate::Bond), [`BondAttribute`](crate::BondAttribute).
/// [`List::typed`](crate::List::typed) iterates over them.
pub trait Typed<'a> {
    /// Is the enum. Its last variant, `Other`, holds a value of a type that it does not know.
    type Attribute: From<Value<'a>> + Clone + PartialEq + fmt::Debug;
}

/// Marks types that represent a whole attribute set: a list of it can be read and written.
pub trait Set: Scope {}

/// Represents a set that is known at run time only, in `List<Any>`. Such a list can be read, walked, printed and
/// written.
#[derive(Clone, Copy, Debug)]
pub enum Any {}

/// Selects an attribute type of the scope `S`, whose values have the type `T`.
///
/// Keys are constants of this crate, by the kernel's names: [`IFLA_BR_FORWARD_DELAY`](crate::IFLA_BR_FORWARD_DELAY) is
/// a `Key<Bridge, u32>`. `Display` writes the name.
///
/// ```
/// use nlroute::{IFLA_BR_FORWARD_DELAY, IFLA_BR_HELLO_TIME};
///
/// assert_ne!(IFLA_BR_FORWARD_DELAY, IFLA_BR_HELLO_TIME);
/// assert_eq!((IFLA_BR_HELLO_TIME.name(), IFLA_BR_HELLO_TIME.kind()), ("IFLA_BR_HELLO_TIME", 2));
/// ```
pub struct Key<S, T> {
    kind: u16,
    name: &'static str,
    of: PhantomData<fn(S) -> T>,
}

impl<S, T> Key<S, T> {
    pub(crate) const fn new(kind: u16, name: &'static str) -> Self {
        Key { kind, name, of: PhantomData }
    }

    /// Returns the kernel's constant, such as `IFLA_BOND_MODE`.
    pub const fn name(self) -> &'static str {
        self.name
    }

    /// Returns the attribute type (`nla_type` without flags).
    pub const fn kind(self) -> u16 {
        self.kind
    }
}

impl<S, T> Clone for Key<S, T> {
    fn clone(&self) -> Self {
        *self
    }
}

impl<S, T> Copy for Key<S, T> {}

impl<S, T> fmt::Debug for Key<S, T> {
    fn fmt(&self, f: &mut fmt::Formatter<'_>) -> fmt::Result {
        write!(f, "Key({}: {})", self.name, self.kind)
    }
}

impl<S, T> fmt::Display for Key<S, T> {
    fn fmt(&self, f: &mut fmt::Formatter<'_>) -> fmt::Result {
        f.pad(self.name)
    }
}

impl<S, T> PartialEq for Key<S, T> {
    fn eq(&self, other: &Self) -> bool {
        self.kind == other.kind
    }
}

impl<S, T> Eq for Key<S, T> {}

impl<S, T> Hash for Key<S, T> {
    fn hash<H: Hasher>(&self, state: &mut H) {
        self.kind.hash(state);
    }
}
