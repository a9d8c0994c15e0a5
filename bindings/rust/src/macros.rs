//! Macros by which kinds.rs and headers.rs define attribute sets, enums, sets of flags and scopes.

/// Defines the attribute sets, with their numbers in the library.
macro_rules! families {
    ($($(#[$doc:meta])* $family:ident = $number:literal, $name:literal;)*) => {
        /// Names an attribute set at run time.
        ///
        /// The kind of a link (`IFLA_INFO_KIND`) and the attribute that holds the list determine it. A type implements
        /// [`Set`] for each, of the same name.
        #[derive(Clone, Copy, Debug, PartialEq, Eq, Hash, PartialOrd, Ord)]
        #[non_exhaustive]
        pub enum Family {
            $($(#[$doc])* $family = $number,)*
        }

        impl Family {
            /// Lists all attribute sets.
            pub const ALL: [Family; [$($number),*].len()] = [$(Family::$family),*];

            /// Returns the name that `nlshow` uses, such as `bond_port`.
            pub fn name(self) -> &'static str {
                match self {
                    $(Family::$family => $name,)*
                }
            }

            /// Returns the attribute set that has a [`name`](Family::name), or `None`.
            pub fn from_name(name: &str) -> Option<Family> {
                Family::ALL.into_iter().find(|family| family.name() == name)
            }

            /// Returns the attribute set of the devices of a kind (`IFLA_INFO_KIND`), such as `bond`, or `None`. It is the
            /// set of their `IFLA_INFO_DATA`. `kind` has no NUL at its end.
            pub fn from_info_kind(kind: &[u8]) -> Option<Family> {
                Family::from_number($crate::sys::from_info_kind(kind)?)
            }

            /// Returns the attribute set of the ports of a kind (`IFLA_INFO_SLAVE_KIND`), such as `bond`, or `None`. It is
            /// the set of their `IFLA_INFO_SLAVE_DATA`. `kind` has no NUL at its end.
            pub fn from_port_kind(kind: &[u8]) -> Option<Family> {
                Family::from_number($crate::sys::from_port_kind(kind)?)
            }

            pub(crate) fn from_number(number: u32) -> Option<Family> {
                Family::ALL.into_iter().find(|&family| family as u32 == number)
            }
        }

        impl std::fmt::Display for Family {
            /// Writes the [`name`](Family::name).
            fn fmt(&self, f: &mut std::fmt::Formatter<'_>) -> std::fmt::Result {
                f.pad(self.name())
            }
        }

        impl std::str::FromStr for Family {
            type Err = $crate::ParseNameError;

            /// Parses a [`name`](Family::name).
            fn from_str(text: &str) -> Result<Family, $crate::ParseNameError> {
                let error = $crate::ParseNameError { reason: "not the name of an attribute set", names: &[$($name),*] };
                Family::from_name(text).ok_or(error)
            }
        }
    };
}

/// Defines an enum of the kernel: a number, of which some have names.
macro_rules! names {
    ($(#[$doc:meta])* $type:ident: $number:ty; $($name:ident = $value:literal, $text:literal;)*) => {
        $(#[$doc])*
        #[derive(Clone, Copy, PartialEq, Eq, Hash, PartialOrd, Ord, Default)]
        pub struct $type(
            /// Is the number.
            pub $number,
        );

        impl $type {
            $(
                #[doc = concat!("Is ", $value, ", named `", $text, "`.")]
                pub const $name: $type = $type($value);
            )*

            /// Returns the name of the number, as `ip` and `nlshow` print it, or `None` if it has none.
            pub fn name(self) -> Option<&'static str> {
                match self.0 {
                    $($value => Some($text),)*
                    _ => None,
                }
            }

            /// Returns the number that has a name, or `None`.
            pub fn from_name(name: &str) -> Option<$type> {
                match name {
                    $($text => Some($type::$name),)*
                    _ => None,
                }
            }
        }

        impl From<$number> for $type {
            /// Returns the number as one of the enum. It need not have a name.
            fn from(number: $number) -> $type {
                $type(number)
            }
        }

        impl From<$type> for $number {
            fn from(value: $type) -> $number {
                value.0
            }
        }

        impl std::str::FromStr for $type {
            type Err = $crate::ParseNameError;

            /// Parses what `Display` writes: a name, in the same case, or a decimal number.
            fn from_str(text: &str) -> Result<$type, $crate::ParseNameError> {
                let reason = concat!("not a name or a number of ", stringify!($type));
                let error = $crate::ParseNameError { reason, names: &[$($text),*] };
                $type::from_name(text).or_else(|| $crate::types::decimal(text).map($type)).ok_or(error)
            }
        }

        impl std::fmt::Display for $type {
            /// Writes the name or, if there is none, the number.
            fn fmt(&self, f: &mut std::fmt::Formatter<'_>) -> std::fmt::Result {
                match self.name() {
                    Some(name) => f.pad(name),
                    None => std::fmt::Display::fmt(&self.0, f),
                }
            }
        }

        impl std::fmt::Debug for $type {
            fn fmt(&self, f: &mut std::fmt::Formatter<'_>) -> std::fmt::Result {
                write!(f, "{}({})", stringify!($type), self)
            }
        }

        #[cfg(test)]
        impl $crate::tests::Sample for $type {
            const SIZE: Option<usize> = Some(std::mem::size_of::<$number>());

            fn sample() -> Self {
                *[$($type::$name),*].last().expect("it has a name")
            }
        }
    };
}

/// Defines an enum that values of attributes have.
macro_rules! named {
    ($(#[$doc:meta])* $type:ident: $number:ty; $($rows:tt)*) => {
        $crate::macros::names! {
            $(#[$doc])*
            $type: $number;
            $($rows)*
        }

        impl $crate::field::Field for $type {}
        impl $crate::field::Stored for $type {
            fn load(value: $crate::value::Value<'_>) -> Option<Self> {
                value.number($crate::kinds::form::NAMED).map($type)
            }

            fn store(self, kind: u16, to: &mut $crate::field::Store<'_, '_>) {
                to.number(kind, $crate::kinds::form::NAMED, self.0.into(), 0);
            }
        }
    };
}

/// Defines a set of flags of the kernel: a number, some of whose bits have names.
macro_rules! bits {
    ($(#[$doc:meta])* $type:ident: $number:ty; $($name:ident = $bit:literal $(, $text:literal)?;)*) => {
        $(#[$doc])*
        #[derive(Clone, Copy, PartialEq, Eq, Hash, Default)]
        pub struct $type(
            /// Is the number whose bits are the flags.
            pub $number,
        );

        impl $type {
            $(
                #[doc = concat!("Is bit ", $bit, ".")]
                pub const $name: $type = $type(1 << $bit);
            )*

            /// Returns whether all flags of the other set are in this one.
            pub const fn contains(self, other: $type) -> bool {
                self.0 & other.0 == other.0
            }

            /// Returns whether no bit is set.
            pub const fn is_empty(self) -> bool {
                self.0 == 0
            }
        }

        impl From<$number> for $type {
            /// Returns the bits of a number as a set. They need not have names.
            fn from(number: $number) -> $type {
                $type(number)
            }
        }

        impl From<$type> for $number {
            fn from(flags: $type) -> $number {
                flags.0
            }
        }

        impl std::ops::Not for $type {
            type Output = $type;

            /// Returns all other bits, also those without a name.
            fn not(self) -> $type {
                $type(!self.0)
            }
        }

        $crate::macros::operator!($type, BitAnd::bitand, BitAndAssign::bitand_assign, |a, b| a & b);
        $crate::macros::operator!($type, BitOr::bitor, BitOrAssign::bitor_assign, |a, b| a | b);
        $crate::macros::operator!($type, Sub::sub, SubAssign::sub_assign, |a, b| a & !b);

        impl std::fmt::Debug for $type {
            /// Writes the names, and in hexadecimal the bits that have none: `GVRP|0x40`.
            fn fmt(&self, f: &mut std::fmt::Formatter<'_>) -> std::fmt::Result {
                f.write_str(&$crate::types::flags_text(self.0.into(), &[$(($bit, stringify!($name))),*], "0x0"))
            }
        }

        impl std::fmt::Display for $type {
            /// Writes the names, as `nlshow` does, and in hexadecimal the bits that have none: `GVRP|0x40`. The empty set is
            /// `0`.
            fn fmt(&self, f: &mut std::fmt::Formatter<'_>) -> std::fmt::Result {
                let names = [$(($bit, [$($text,)? stringify!($name)][0])),*];
                f.pad(&$crate::types::flags_text(self.0.into(), &names, "0"))
            }
        }

        #[cfg(test)]
        impl $crate::tests::Sample for $type {
            const SIZE: Option<usize> = Some(std::mem::size_of::<$number>());

            fn sample() -> Self {
                $type(<$number>::MAX)
            }
        }
    };
}

/// Defines a set of flags that values of attributes have.
macro_rules! flags {
    ($(#[$doc:meta])* $type:ident: $number:ty; $($rows:tt)*) => {
        $crate::macros::bits! {
            $(#[$doc])*
            $type: $number;
            $($rows)*
        }

        impl $crate::field::Field for $type {}
        impl $crate::field::Stored for $type {
            fn load(value: $crate::value::Value<'_>) -> Option<Self> {
                value.number($crate::kinds::form::FLAGS).map($type)
            }

            fn store(self, kind: u16, to: &mut $crate::field::Store<'_, '_>) {
                to.number(kind, $crate::kinds::form::FLAGS, self.0.into(), 0);
            }
        }

        impl $crate::field::Field for $crate::types::Masked<$type> {}
        impl $crate::field::Stored for $crate::types::Masked<$type> {
            fn load(value: $crate::value::Value<'_>) -> Option<Self> {
                let flags = $type(value.number($crate::kinds::form::MASKED)?);
                let mask = $type(value.second()?);
                Some($crate::types::Masked { flags, mask })
            }

            fn store(self, kind: u16, to: &mut $crate::field::Store<'_, '_>) {
                to.number(kind, $crate::kinds::form::MASKED, self.flags.0.into(), self.mask.0.into());
            }
        }
    };
}

/// Implements an operator of sets of flags, and the one that assigns its result.
macro_rules! operator {
    ($type:ident, $name:ident::$call:ident, $assign:ident::$assign_call:ident, |$a:ident, $b:ident| $result:expr) => {
        impl std::ops::$name for $type {
            type Output = $type;

            fn $call(self, other: $type) -> $type {
                let ($a, $b) = (self.0, other.0);
                $type($result)
            }
        }

        impl std::ops::$assign for $type {
            fn $assign_call(&mut self, other: $type) {
                *self = std::ops::$name::$call(*self, other);
            }
        }
    };
}

/// Defines a struct of the kernel whose attributes have bytes as values: its size, and the offset and byte order of each field.
macro_rules! packed {
    (
        $(#[$doc:meta])* $type:ident: $size:literal;
        $($field:ident: $number:ident = $offset:literal, $to_bytes:ident, $from_bytes:ident;)*
    ) => {
        $(#[$doc])*
        #[derive(Clone, Copy, Debug, PartialEq, Eq, Hash, Default)]
        pub struct $type {
            $(
                #[doc = concat!("Holds `", stringify!($field), "`.")]
                pub $field: $number,
            )*
        }

        impl $type {
            /// Returns the struct that a value has, or `None` if the value has fewer bytes. Bytes after the struct are skipped.
            pub fn read(value: &[u8]) -> Option<$type> {
                let value = value.get(..$size)?;
                Some($type {
                    $($field: $number::$from_bytes(value[$offset..][..$number::BITS as usize / 8].try_into().ok()?),)*
                })
            }
        }

        impl From<$type> for Vec<u8> {
            /// Returns the value of an attribute. Padding is zero.
            fn from(fields: $type) -> Vec<u8> {
                let mut value = vec![0; $size];
                $(value[$offset..][..$number::BITS as usize / 8].copy_from_slice(&fields.$field.$to_bytes());)*
                value
            }
        }
    };
}

/// Lets enums and sets of flags be compared with their numbers.
macro_rules! compared {
    ($($type:ident: $number:ty;)*) => {$(
        impl PartialEq<$number> for $type {
            fn eq(&self, other: &$number) -> bool {
                self.0 == *other
            }
        }
    )*};
}

/// Defines the type of an attribute set.
macro_rules! scope {
    ($(#[$doc:meta])* $type:ident;) => {
        $(#[$doc])*
        #[derive(Clone, Copy, Debug)]
        pub enum $type {}

        impl $crate::scope::Described for $type {
            const FAMILY: $crate::Family = $crate::Family::$type;
            const LIST: Option<u16> = None;
        }
        impl $crate::Scope for $type {}
        impl $crate::Set for $type {}
    };
}

/// Defines the type of the elements of a list.
macro_rules! elements {
    ($(#[$doc:meta])* $type:ident of $set:ident = $kind:literal;) => {
        $(#[$doc])*
        #[derive(Clone, Copy, Debug)]
        pub enum $type {}

        impl $crate::scope::Described for $type {
            const FAMILY: $crate::Family = $crate::Family::$set;
            const LIST: Option<u16> = Some($kind);
        }
        impl $crate::Scope for $type {}
    };
}

/// Defines the enum of the attributes of a scope: a variant for each type that it knows.
macro_rules! attributes {
    (@load $value:ident $enum:ident $variant:ident) => {
        <() as $crate::field::Stored>::load($value).map(|()| $enum::$variant)
    };
    (@load $value:ident $enum:ident $variant:ident $type:ty) => {
        <$type as $crate::field::Stored>::load($value).map($enum::$variant)
    };
    (
        $(#[$doc:meta])* $enum:ident of $scope:ident;
        $($(#[$row:meta])* $variant:ident $(($type:ty))? = $kind:literal;)*
    ) => {
        $(#[$doc])*
        #[derive(Clone, Debug, PartialEq, Eq)]
        #[non_exhaustive]
        pub enum $enum<'a> {
            $($(#[$row])* $variant $(($type))?,)*
            /// Holds a value of any other type.
            Other($crate::Value<'a>),
        }

        impl<'a> From<$crate::Value<'a>> for $enum<'a> {
            /// Returns the variant of the attribute type, or `Other`. Values of other sets and lists are `Other` too.
            fn from(value: $crate::Value<'a>) -> Self {
                let known = match value.kind() {
                    _ if !value.is_of::<$scope>() => None,
                    $($kind => attributes!(@load value $enum $variant $($type)?),)*
                    _ => None,
                };
                known.unwrap_or($enum::Other(value))
            }
        }

        impl<'a> $crate::Typed<'a> for $scope {
            type Attribute = $enum<'a>;
        }
    };
}

pub(crate) use {attributes, bits, compared, elements, families, flags, named, names, operator, packed, scope};
