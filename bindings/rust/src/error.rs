//! Errors of reading and writing.

use crate::kinds::{refusal, refusal_text};
use crate::sys::{self, RawFault};
use crate::{Family, MessageFault};
use std::fmt;

/// Reports why a list or a message cannot be read, or a list not be written. The other errors convert to it, so `?` serves
/// in a function that does several of these.
#[derive(Clone, Debug, PartialEq, Eq)]
#[non_exhaustive]
pub enum Error {
    /// Reports a list that is malformed.
    Read(Fault),
    /// Reports a message that is malformed.
    Message(MessageFault),
    /// Reports a value that cannot be written.
    Write(WriteError),
}

/// Reports the first error of a list that is malformed.
///
/// `Display` writes what `nlshow` prints: `error at 8: IFLA_BR_HELLO_TIME has 3 bytes, expected 4`. Of a list in a message,
/// the offset counts from the start of the buffer that has the message.
#[derive(Clone, Copy, PartialEq, Eq, Hash)]
pub struct Fault {
    family: Family,
    raw: RawFault,
    list_at: usize,
}

/// Locates an error. `kind` and `inner` are attribute types without flags.
#[derive(Clone, Copy, Debug, PartialEq, Eq, Hash)]
#[non_exhaustive]
pub enum Place {
    /// Locates it in the header or the length of an attribute.
    Frame,
    /// Locates it in the payload of an attribute.
    Payload {
        /// Holds the type of the attribute.
        kind: u16,
    },
    /// Locates it in the header or the length of an element of a list.
    ElementFrame {
        /// Holds the type of the list.
        kind: u16,
    },
    /// Locates it in the payload of an element of a list.
    ElementPayload {
        /// Holds the type of the list.
        kind: u16,
        /// Holds the type of the element.
        inner: u16,
    },
}

/// Tells what is wrong. All numbers are in bytes. Of a [`MessageFault`], `nla_len` is `nlmsg_len`.
#[derive(Clone, Copy, Debug, PartialEq, Eq, Hash)]
#[non_exhaustive]
pub enum Cause {
    /// Tells that fewer bytes are left than a header has: four, or 16 of a message.
    ShortFrame {
        /// Holds how many are left.
        left: u64,
    },
    /// Tells that `nla_len` is less than that.
    SmallLength {
        /// Holds that `nla_len`.
        nla_len: u64,
    },
    /// Tells that `nla_len` is greater than what is left.
    Overrun {
        /// Holds that `nla_len`.
        nla_len: u64,
        /// Holds how many bytes are left.
        left: u64,
    },
    /// Tells that a payload has a wrong length.
    WrongLength {
        /// Holds the correct length or, for an array of numbers, the size of one, which divides a correct length.
        expected: u64,
        /// Holds the length of the payload.
        actual: u64,
    },
    /// Tells that a payload is too short.
    TooShort {
        /// Holds the least length.
        least: u64,
        /// Holds the length of the payload.
        actual: u64,
    },
    /// Holds the number of a cause that this version of the crate does not know.
    Other(u32),
}

impl Fault {
    pub(crate) fn new(family: Family, raw: RawFault) -> Self {
        Fault { family, raw, list_at: 0 }
    }

    /// Returns the error as one of a list at an offset of a buffer.
    pub(crate) fn within(self, list_at: usize) -> Self {
        Fault { list_at, ..self }
    }

    /// Returns the attribute set of the list.
    pub fn family(&self) -> Family {
        self.family
    }

    /// Returns the offset, in bytes, of the list in the buffer of [`messages`](crate::messages). It is 0 for a list that is in
    /// none.
    pub fn list_at(&self) -> usize {
        self.list_at
    }

    /// Returns the offset in the list, in bytes, of the attribute that has the error.
    pub fn at(&self) -> usize {
        usize::try_from(self.raw.at).unwrap_or(usize::MAX)
    }

    /// Returns the part that is malformed.
    pub fn place(&self) -> Place {
        let [kind, inner] = [self.raw.kind, self.raw.inner].map(|it| it as u16); // attribute types have 14 bits
        match self.raw.place {
            1 => Place::Payload { kind },
            2 => Place::ElementFrame { kind },
            3 => Place::ElementPayload { kind, inner },
            _ => Place::Frame,
        }
    }

    /// Returns what is wrong with it.
    pub fn cause(&self) -> Cause {
        Cause::of(&self.raw)
    }
}

impl Cause {
    pub(crate) fn of(raw: &RawFault) -> Self {
        let RawFault { first, second, .. } = *raw;
        match raw.cause {
            1 => Cause::ShortFrame { left: first },
            2 => Cause::SmallLength { nla_len: first },
            3 => Cause::Overrun { nla_len: first, left: second },
            4 => Cause::WrongLength { expected: first, actual: second },
            5 => Cause::TooShort { least: first, actual: second },
            other => Cause::Other(other),
        }
    }
}

impl fmt::Display for Fault {
    fn fmt(&self, f: &mut fmt::Formatter<'_>) -> fmt::Result {
        let at = self.raw.at.saturating_add(self.list_at as u64);
        sys::fault_text(self.family as u32, &RawFault { at, ..self.raw }).fmt(f)
    }
}

impl fmt::Debug for Fault {
    fn fmt(&self, f: &mut fmt::Formatter<'_>) -> fmt::Result {
        f.debug_struct("Fault")
            .field("family", &self.family)
            .field("list_at", &self.list_at)
            .field("at", &self.at())
            .field("place", &self.place())
            .field("cause", &self.cause())
            .finish()
    }
}

/// Reports the first value that cannot be written.
///
/// `Display` writes its name and the reason: `IFLA_VLAN_PROTOCOL: the attribute cannot hold the number`.
#[derive(Clone, Debug, PartialEq, Eq, Hash)]
#[non_exhaustive]
pub struct WriteError {
    /// Holds the zero-based index in the list of the attribute, or of the attribute that has the element.
    pub index: usize,
    /// Holds the kernel's constant for the attribute or the element, or `type 99`.
    pub name: String,
    /// Holds the reason.
    pub code: Code,
}

/// Tells why a value cannot be written.
#[derive(Clone, Copy, Debug, PartialEq, Eq, Hash)]
#[non_exhaustive]
pub enum Code {
    /// Tells that the payload would have more than 65,531 bytes.
    TooLong,
    /// Tells that a value of [`push_unknown`](crate::List::push_unknown) has a type that is known.
    BadForm,
    /// Tells that the attribute cannot hold the number, such as a VLAN protocol that is neither 0x8100 nor 0x88A8.
    BadNumber,
    /// Tells that an element does not follow its list. The types of this crate exclude it.
    BadElement,
    /// Tells that bytes of a value are missing. The types of this crate exclude it.
    BadOctets,
    /// Tells that a [`Request`](crate::Request) has no type of requests about links.
    BadType,
    /// Tells that a request changes or deletes a link, and its index is 0 or more than 2^31 - 1.
    NoIndex,
    /// Tells that Linux does not take the name or kind.
    BadName,
    /// Tells that a [`Request`](crate::Request) has no place for options of this attribute set, or not beside its kind or its
    /// other options.
    NoSet,
    /// Tells that a value has a wrong depth. The types of this crate exclude it.
    BadDepth,
    /// Tells that a request has a second `IFLA_LINKINFO`, `IFLA_AF_SPEC` or `IFLA_PROTINFO`. Linux takes one of each.
    Repeated,
    /// Holds another error code of the C library: -3 if an allocation failed.
    Other(isize),
}

impl From<isize> for Code {
    /// Converts an error code of the C library.
    fn from(code: isize) -> Self {
        match code {
            refusal::TOO_LONG => Code::TooLong,
            refusal::BAD_FORM => Code::BadForm,
            refusal::BAD_NUMBER => Code::BadNumber,
            refusal::BAD_ELEMENT => Code::BadElement,
            refusal::BAD_OCTETS => Code::BadOctets,
            refusal::BAD_TYPE => Code::BadType,
            refusal::NO_INDEX => Code::NoIndex,
            refusal::BAD_NAME => Code::BadName,
            refusal::NO_SET => Code::NoSet,
            refusal::BAD_DEPTH => Code::BadDepth,
            refusal::REPEATED => Code::Repeated,
            other => Code::Other(other),
        }
    }
}

impl fmt::Display for Code {
    fn fmt(&self, f: &mut fmt::Formatter<'_>) -> fmt::Result {
        f.write_str(refusal_text(match *self {
            Code::TooLong => refusal::TOO_LONG,
            Code::BadForm => refusal::BAD_FORM,
            Code::BadNumber => refusal::BAD_NUMBER,
            Code::BadElement => refusal::BAD_ELEMENT,
            Code::BadOctets => refusal::BAD_OCTETS,
            Code::BadType => refusal::BAD_TYPE,
            Code::NoIndex => refusal::NO_INDEX,
            Code::BadName => refusal::BAD_NAME,
            Code::NoSet => refusal::NO_SET,
            Code::BadDepth => refusal::BAD_DEPTH,
            Code::Repeated => refusal::REPEATED,
            Code::Other(code) => code,
        }))
    }
}

impl fmt::Display for WriteError {
    fn fmt(&self, f: &mut fmt::Formatter<'_>) -> fmt::Result {
        write!(f, "{}: {}", self.name, self.code)
    }
}

impl fmt::Display for Error {
    fn fmt(&self, f: &mut fmt::Formatter<'_>) -> fmt::Result {
        match self {
            Error::Read(fault) => fault.fmt(f),
            Error::Message(fault) => fault.fmt(f),
            Error::Write(error) => error.fmt(f),
        }
    }
}

impl std::error::Error for Fault {}
impl std::error::Error for WriteError {}
impl std::error::Error for Error {}

impl From<Fault> for Error {
    fn from(fault: Fault) -> Self {
        Error::Read(fault)
    }
}

impl From<MessageFault> for Error {
    fn from(fault: MessageFault) -> Self {
        Error::Message(fault)
    }
}

impl From<WriteError> for Error {
    fn from(error: WriteError) -> Self {
        Error::Write(error)
    }
}

/// Reports a string that is not a MAC address.
#[derive(Clone, Debug, PartialEq, Eq)]
pub struct ParseMacError(pub(crate) ());

impl fmt::Display for ParseMacError {
    fn fmt(&self, f: &mut fmt::Formatter<'_>) -> fmt::Result {
        f.write_str("a MAC address has six numbers of one or two hexadecimal digits, separated by colons")
    }
}

impl std::error::Error for ParseMacError {}

/// Reports a string that is not a name or a number of an enum, such as [`BondMode`](crate::BondMode), or not the name of
/// a [`Family`].
///
/// `Display` writes which names there are: `not a name or a number of ChurnState: monitor, churn, no_churn`.
#[derive(Clone, Debug, PartialEq, Eq)]
pub struct ParseNameError {
    pub(crate) reason: &'static str,
    pub(crate) names: &'static [&'static str],
}

impl ParseNameError {
    /// Returns the names that would be parsed.
    ///
    /// ```
    /// let error = "rx".parse::<nlroute::BondFailOverMac>().unwrap_err();
    /// assert_eq!(error.names(), ["none", "active", "follow"]);
    /// ```
    pub fn names(&self) -> &'static [&'static str] {
        self.names
    }
}

impl fmt::Display for ParseNameError {
    fn fmt(&self, f: &mut fmt::Formatter<'_>) -> fmt::Result {
        write!(f, "{}: {}", self.reason, self.names.join(", "))
    }
}

impl std::error::Error for ParseNameError {}
