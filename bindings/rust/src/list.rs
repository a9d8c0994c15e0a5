//! Lists of attributes, and searches in them.

use crate::error::{Fault, WriteError};
use crate::field::{Field, Store};
use crate::kinds::form;
use crate::scope::{Any, Key, Scope, Set};
use crate::sys::{self, Raw};
use crate::value::{Iter, TypedIter, Value};
use crate::Family;
use std::borrow::Cow;
use std::fmt;
use std::marker::PhantomData;

/// Holds the attributes of a set `S`, in order, or the elements of a nested list.
///
/// A list that was read borrows the bytes. It copies them when a value is added that has bytes itself, such as
/// [`CanBitTiming`](crate::CanBitTiming); [`into_owned`](List::into_owned) also copies them. Attributes may repeat, and
/// those whose type is not known are kept. `Display` writes a line for each value, as `nlshow` prints it.
///
/// ```
/// use nlroute::*;
///
/// let list = List::<Vlan>::new()
///     .with(IFLA_VLAN_ID, 100)
///     .with(IFLA_VLAN_FLAGS, Masked { flags: VlanFlags::GVRP, mask: VlanFlags::GVRP | VlanFlags::REORDER_HDR });
/// assert_eq!(list.to_bytes()?, [6, 0, 1, 0, 100, 0, 0, 0, 12, 0, 2, 0, 2, 0, 0, 0, 3, 0, 0, 0]);
/// # Ok::<(), nlroute::WriteError>(())
/// ```
pub struct List<'a, S> {
    family: Family,
    values: Vec<Raw>,
    /// The bytes that values refer to.
    bytes: Cow<'a, [u8]>,
    of: PhantomData<S>,
}

/// Holds the elements of a nested list. This is the type of values such as that of
/// [`IFLA_BOND_AD_INFO`](crate::IFLA_BOND_AD_INFO).
///
/// ```
/// use nlroute::*;
///
/// let info = Nested::<BondAdInfo>::new().with(IFLA_BOND_AD_INFO_AGGREGATOR, 3);
/// let bond = List::<Bond>::new().with(IFLA_BOND_AD_INFO, info);
/// assert_eq!(bond.to_string(), "IFLA_BOND_AD_INFO\n  IFLA_BOND_AD_INFO_AGGREGATOR 3\n");
/// ```
pub type Nested<S> = List<'static, S>;

/// Looks up the last attribute of a type in a list, as Linux does. Returns `None` if the list has none.
///
/// The whole list is checked. This does not allocate, unless the value is a list or has bytes. To look up several
/// attributes, read the list.
///
/// # Errors
///
/// Returns the first error of a list that is malformed.
///
/// ```
/// use nlroute::*;
///
/// let bytes = [8, 0, 1, 0, 220, 5, 0, 0];
/// assert_eq!(find(&bytes, IFLA_BR_FORWARD_DELAY)?, Some(1500)); // 15 s
/// assert_eq!(find(&bytes, IFLA_BR_HELLO_TIME)?, None);
/// # Ok::<(), Fault>(())
/// ```
pub fn find<S: Set, T: Field>(bytes: &[u8], key: Key<S, T>) -> Result<Option<T>, Fault> {
    let family = S::FAMILY;
    match sys::find(family as u32, bytes, key.kind()) {
        // The elements of a list are not stored.
        Ok(Some(raw)) if raw.form == form::LIST => Ok(List::<S>::read(bytes)?.get(key)),
        Ok(found) => Ok(found.and_then(|raw| T::load(Value::single(family, &raw, bytes)))),
        Err(fault) => Err(Fault::new(family, fault)),
    }
}

/// Looks up the last element of a type in the last nested list of a type. Returns `None` if there is none.
///
/// The whole list is checked. This does not allocate, unless the value has bytes.
///
/// # Errors
///
/// Returns the first error of a list that is malformed.
///
/// ```
/// use nlroute::*;
///
/// let bytes = [12, 0, 47, 0x80, 8, 0, 1, 0, 10, 0, 0, 1];
/// let querier = find_in(&bytes, IFLA_BR_MCAST_QUERIER_STATE, BRIDGE_QUERIER_IP_ADDRESS)?;
/// assert_eq!(querier, Some([10, 0, 0, 1].into()));
/// # Ok::<(), Fault>(())
/// ```
pub fn find_in<S: Set, E: Scope, T: Field>(
    bytes: &[u8],
    list: Key<S, Nested<E>>,
    key: Key<E, T>,
) -> Result<Option<T>, Fault> {
    let family = S::FAMILY;
    match sys::find_in(family as u32, bytes, list.kind(), key.kind()) {
        Ok(found) => Ok(found.and_then(|raw| T::load(Value::single(family, &raw, bytes)))),
        Err(fault) => Err(Fault::new(family, fault)),
    }
}

impl<'a, S: Set> List<'a, S> {
    /// Reads a list, which it borrows.
    ///
    /// # Errors
    ///
    /// Returns the first error of a list that is malformed.
    ///
    /// ```
    /// use nlroute::*;
    ///
    /// let fault = List::<Bridge>::read(&[8, 0, 1, 0, 220, 5, 0, 0, 7, 0, 2, 0, 1, 2, 3, 0]).unwrap_err();
    /// assert_eq!(fault.to_string(), "error at 8: IFLA_BR_HELLO_TIME has 3 bytes, expected 4");
    /// assert_eq!(fault.at(), 8);
    /// assert_eq!(fault.cause(), Cause::WrongLength { expected: 4, actual: 3 });
    /// ```
    pub fn read(bytes: &'a [u8]) -> Result<Self, Fault> {
        read(S::FAMILY, bytes)
    }
}

impl<'a> List<'a, Any> {
    /// Reads a list of an attribute set that is known at run time only.
    ///
    /// # Errors
    ///
    /// Returns the first error of a list that is malformed.
    ///
    /// ```
    /// use nlroute::*;
    ///
    /// if let Some(family) = Family::from_name("dsa") {
    ///     let list = List::read_any(family, &[8, 0, 1, 0, 42, 0, 0, 0])?;
    ///     assert_eq!(list.to_string(), "IFLA_DSA_CONDUIT ifindex 42\n");
    /// }
    /// # Ok::<(), Fault>(())
    /// ```
    pub fn read_any(family: Family, bytes: &'a [u8]) -> Result<Self, Fault> {
        read(family, bytes)
    }

    /// Writes the list. Padding is zero, and each value has its only encoding, so the bytes may differ from those read.
    ///
    /// # Errors
    ///
    /// Returns the first value that cannot be written.
    pub fn to_bytes(&self) -> Result<Vec<u8>, WriteError> {
        self.write()
    }
}

fn read<S>(family: Family, bytes: &[u8]) -> Result<List<'_, S>, Fault> {
    match sys::values(family as u32, bytes) {
        Ok(values) => Ok(List { family, values, bytes: Cow::Borrowed(bytes), of: PhantomData }),
        Err(fault) => Err(Fault::new(family, fault)),
    }
}

impl<S: Set> List<'_, S> {
    /// Writes the list. Padding is zero, and each value has its only encoding, so the bytes may differ from those read.
    ///
    /// # Errors
    ///
    /// Returns the first value that cannot be written: see [`Code`](crate::Code).
    ///
    /// ```
    /// use nlroute::*;
    ///
    /// let error = List::<Vlan>::new().with(IFLA_VLAN_PROTOCOL, VlanProtocol(0x1234)).to_bytes().unwrap_err();
    /// assert_eq!(error.to_string(), "IFLA_VLAN_PROTOCOL: the attribute cannot hold the number");
    /// assert_eq!((error.index, error.code), (0, Code::BadNumber));
    /// ```
    pub fn to_bytes(&self) -> Result<Vec<u8>, WriteError> {
        self.write()
    }
}

impl<S> List<'_, S> {
    /// Returns the attribute set.
    pub fn family(&self) -> Family {
        self.family
    }

    /// Returns how many attributes the list has; elements of nested lists do not count.
    pub fn len(&self) -> usize {
        self.iter().len()
    }

    /// Returns whether the list has no attributes.
    pub fn is_empty(&self) -> bool {
        self.values.is_empty()
    }

    /// Iterates over the attributes in order.
    pub fn iter(&self) -> Iter<'_> {
        Iter { family: self.family, values: &self.values, bytes: &self.bytes }
    }

    /// Returns the values as the library stored them.
    pub(crate) fn raw(&self) -> &[Raw] {
        &self.values
    }

    /// Copies the bytes that the list borrows, if it does. So the list can outlive them.
    pub fn into_owned(self) -> List<'static, S> {
        let bytes = Cow::Owned(self.bytes.into_owned());
        List { family: self.family, values: self.values, bytes, of: PhantomData }
    }

    /// Returns the values, and the bytes that they refer to.
    pub(crate) fn parts(&self) -> (&[Raw], &[u8]) {
        (&self.values, &self.bytes)
    }

    fn write(&self) -> Result<Vec<u8>, WriteError> {
        sys::write(self.family as u32, &self.values, &self.bytes).map_err(|(at, code)| {
            let before = self.values.iter().take(at + 1);
            let name =
                self.values.get(at).map_or_else(String::new, |raw| sys::kind_name(self.family as u32, raw).to_string());
            let index = before.filter(|raw| raw.depth == 0).count().saturating_sub(1);
            WriteError { index, name, code: code.into() }
        })
    }
}

impl<'a, S: Scope> List<'a, S> {
    /// Makes an empty list.
    pub fn new() -> Self {
        List { family: S::FAMILY, values: Vec::new(), bytes: Cow::Borrowed(&[]), of: PhantomData }
    }

    /// Iterates over the attributes in order, each as a variant of an enum, to `match` on. Elements of nested lists have
    /// their own enums.
    ///
    /// ```
    /// use nlroute::*;
    ///
    /// let info = Nested::<BondAdInfo>::new().with(IFLA_BOND_AD_INFO_NUM_PORTS, 2);
    /// let bond = List::<Bond>::new().with(IFLA_BOND_MODE, BondMode::IEEE8023AD).with(IFLA_BOND_AD_INFO, info);
    /// for attribute in bond.typed() {
    ///     match attribute {
    ///         BondAttribute::Mode(mode) => assert_eq!(mode, BondMode::IEEE8023AD),
    ///         BondAttribute::AdInfo(info) => {
    ///             assert!(info.typed().eq([BondAdInfoAttribute::NumPorts(2)]));
    ///         }
    ///         other => panic!("{other:?}"),
    ///     }
    /// }
    /// ```
    pub fn typed(&self) -> TypedIter<'_, S> {
        TypedIter { values: self.iter(), of: PhantomData }
    }

    /// Returns whether the list has an attribute of a type.
    pub fn contains<T>(&self, key: Key<S, T>) -> bool {
        self.iter().any(|value| value.kind() == key.kind())
    }

    /// Returns the last value of a type, which is the one that Linux takes, or `None`.
    pub fn get<T: Field>(&self, key: Key<S, T>) -> Option<T> {
        self.iter().rev().find(|value| value.kind() == key.kind()).and_then(T::load)
    }

    /// Returns all values of a type, in order.
    pub fn get_all<'b, T: Field + 'b>(&'b self, key: Key<S, T>) -> impl DoubleEndedIterator<Item = T> + 'b {
        self.iter().filter(move |value| value.kind() == key.kind()).filter_map(T::load)
    }

    /// Replaces all values of a type by one, which takes the place of the first. Appends it if there is none.
    pub fn set<T: Field>(&mut self, key: Key<S, T>, value: T) -> &mut Self {
        let old = self.values.len();
        self.push(key, value);
        let is_replaced = |raw: &Raw| kind_in::<S>(raw) == key.kind();
        let (before, new) = self.values.split_at(old);
        let replaced = before.iter().filter(|raw| is_replaced(raw)).count();
        let added = new.len();
        if let Some(at) = before.iter().position(is_replaced) {
            if (replaced, added) == (1, 1) {
                self.values.swap_remove(at);
            } else {
                let mut index = 0..;
                self.values.retain(|raw| index.next() >= Some(old) || !is_replaced(raw));
                self.values[at..].rotate_right(added);
            }
        }
        self
    }

    /// Appends a value. Values of the same type are kept.
    pub fn push<T: Field>(&mut self, key: Key<S, T>, value: T) -> &mut Self {
        value.store(key.kind(), &mut self.end());
        self
    }

    /// Appends a value, and returns the list: to write a whole list as one expression.
    #[must_use]
    pub fn with<T: Field>(mut self, key: Key<S, T>, value: T) -> Self {
        self.push(key, value);
        self
    }

    /// Appends an attribute whose type the library does not know. `flags` are `NLA_F_NESTED` (0x8000) and
    /// `NLA_F_NET_BYTEORDER` (0x4000).
    ///
    /// If the type is known, has more than 14 bits, or has other flags, [`to_bytes`](List::to_bytes) returns an error.
    pub fn push_unknown(&mut self, kind: u16, flags: u16, payload: &[u8]) -> &mut Self {
        self.end().bytes(kind, form::UNKNOWN, flags, payload);
        self
    }

    /// Removes all values of a type.
    pub fn remove<T>(&mut self, key: Key<S, T>) -> &mut Self {
        self.values.retain(|raw| kind_in::<S>(raw) != key.kind());
        self
    }

    /// Returns the store that appends values to the list.
    fn end(&mut self) -> Store<'_, 'a> {
        Store { values: &mut self.values, bytes: &mut self.bytes, list: S::LIST }
    }
}

impl<S: Scope> Nested<S> {
    /// Copies the elements of a value.
    pub(crate) fn of_elements(value: Value<'_>) -> Self {
        let mut list = Self::new();
        list.end().copy(value.elements, value.bytes);
        list
    }

    /// Appends copies of the elements.
    pub(crate) fn copy_to(&self, to: &mut Store<'_, '_>) {
        to.copy(&self.values, &self.bytes);
    }
}

/// Returns the type of a value in a scope: of the attribute itself, which its elements have too, or of the element.
fn kind_in<S: Scope>(raw: &Raw) -> u16 {
    if S::LIST.is_some() {
        raw.inner
    } else {
        raw.kind
    }
}

impl<S: Scope> Default for List<'_, S> {
    fn default() -> Self {
        Self::new()
    }
}

impl<S> Clone for List<'_, S> {
    fn clone(&self) -> Self {
        List { family: self.family, values: self.values.clone(), bytes: self.bytes.clone(), of: PhantomData }
    }
}

impl<S> PartialEq for List<'_, S> {
    /// Compares the values, not the bytes that they were read from.
    fn eq(&self, other: &Self) -> bool {
        self.family == other.family && self.iter().eq(other.iter())
    }
}

impl<S> Eq for List<'_, S> {}

impl<S> fmt::Debug for List<'_, S> {
    fn fmt(&self, f: &mut fmt::Formatter<'_>) -> fmt::Result {
        f.debug_list().entries(self).finish()
    }
}

impl<S> fmt::Display for List<'_, S> {
    /// Writes a line for each attribute, and indented below it one for each of its elements. Of a list of another set, it
    /// writes the length.
    fn fmt(&self, f: &mut fmt::Formatter<'_>) -> fmt::Result {
        self.iter().try_for_each(|value| writeln!(f, "{value}"))
    }
}

impl<'b, S> IntoIterator for &'b List<'_, S> {
    type Item = Value<'b>;
    type IntoIter = Iter<'b>;

    fn into_iter(self) -> Iter<'b> {
        self.iter()
    }
}
