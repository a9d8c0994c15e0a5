//! The messages of a buffer.

use crate::kinds::form;
use crate::scope::{Any, Set};
use crate::sys::{self, RawFault, RawMessage};
use crate::{AddressFamily, Cause, Family, Fault, Link, LinkFlags, List, MessageFlags, MessageType};
use std::fmt;

/// How many levels of lists are opened below the attributes of a message.
const LEVELS: usize = 6;

/// The length of the header in a [`Peer`](crate::Peer), `struct ifinfomsg`.
const PEER_HEADER: usize = 16;

/// Iterates over the messages of a buffer, such as `recv` fills.
///
/// A message whose `struct ifinfomsg` is cut off is an error, and the following messages are still read. An error in the
/// length of a message is the last item.
///
/// ```
/// use nlroute::*;
///
/// // an RTM_NEWLINK of a bond in mode 802.3ad
/// let bytes = [
///     56, 0, 0, 0, 16, 0, 2, 0, 1, 0, 0, 0, 0, 0, 0, 0, 0, 0, 1, 0, 9, 0, 0, 0, 0, 0, 0, 0, 0, 0, 0, 0, // headers
///     24, 0, 18, 0, 8, 0, 1, 0, b'b', b'o', b'n', b'd', 12, 0, 2, 0, 5, 0, 1, 0, 4, 0, 0, 0, // IFLA_LINKINFO
/// ];
/// for message in messages(&bytes) {
///     let message = message?;
///     if let Some(bond) = message.held::<Bond>()? {
///         assert_eq!((message.index(), bond.get(IFLA_BOND_MODE)), (9, Some(BondMode::IEEE8023AD)));
///     }
/// }
/// # Ok::<(), Error>(())
/// ```
pub fn messages(bytes: &[u8]) -> Messages<'_> {
    Messages { bytes, at: 0 }
}

/// Iterates over the messages of a buffer: see [`messages`].
#[derive(Clone, Debug)]
pub struct Messages<'a> {
    bytes: &'a [u8],
    /// The offset of the next message.
    at: usize,
}

impl<'a> Iterator for Messages<'a> {
    type Item = Result<Message<'a>, MessageFault>;

    fn next(&mut self) -> Option<Self::Item> {
        match sys::message(self.bytes, self.at) {
            Ok(None) => None,
            Ok(Some(raw)) => {
                let at = std::mem::replace(&mut self.at, raw.next as usize);
                Some(Ok(Message { bytes: self.bytes, at, raw }))
            }
            Err(raw) => {
                let fault = MessageFault { raw };
                self.at = match fault.cause() {
                    Cause::TooShort { actual, .. } => self.at + (actual as usize + 3) / 4 * 4,
                    _ => self.bytes.len(),
                };
                Some(Err(fault))
            }
        }
    }
}

impl std::iter::FusedIterator for Messages<'_> {}

/// Holds a message of a buffer, which it borrows.
///
/// The fields of the `struct ifinfomsg`, from [`index`](Message::index) on, are 0 if it has none: if
/// [`is_link`](Message::is_link) is false.
#[derive(Clone, Copy)]
pub struct Message<'a> {
    bytes: &'a [u8],
    at: usize,
    raw: RawMessage,
}

impl<'a> Message<'a> {
    /// Returns the offset of the message in the buffer, in bytes.
    pub fn at(&self) -> usize {
        self.at
    }

    /// Returns `nlmsg_type`.
    pub fn message_type(&self) -> MessageType {
        MessageType(self.raw.kind)
    }

    /// Returns `nlmsg_flags`.
    pub fn flags(&self) -> MessageFlags {
        MessageFlags(self.raw.flags)
    }

    /// Returns `nlmsg_seq`.
    pub fn sequence(&self) -> u32 {
        self.raw.sequence
    }

    /// Returns `nlmsg_pid`, the port ID of the sender.
    pub fn port(&self) -> u32 {
        self.raw.port
    }

    /// Returns whether the message is about a link: RTM_NEWLINK, RTM_DELLINK, RTM_GETLINK, RTM_SETLINK, RTM_NEWLINKPROP,
    /// RTM_DELLINKPROP or RTM_GETLINKPROP. It then has a `struct ifinfomsg`.
    pub fn is_link(&self) -> bool {
        self.raw.is_link != 0
    }

    /// Returns `ifi_index`, the interface index: a number that [`Request::change`](crate::Request::change) takes.
    ///
    /// Those of links are below 2<sup>31</sup>. A negative `ifi_index` is the number with the same bits.
    pub fn index(&self) -> u32 {
        self.raw.index as u32
    }

    /// Returns `ifi_flags`.
    pub fn link_flags(&self) -> LinkFlags {
        LinkFlags(self.raw.link_flags)
    }

    /// Returns `ifi_change`, the flags that a request changes.
    pub fn change(&self) -> LinkFlags {
        LinkFlags(self.raw.change)
    }

    /// Returns `ifi_type`, the type of the device, `ARPHRD_..`.
    pub fn link_type(&self) -> u16 {
        self.raw.link_type
    }

    /// Returns `ifi_family`.
    pub fn address_family(&self) -> AddressFamily {
        AddressFamily(self.raw.address_family)
    }

    /// Returns the bytes of the attributes; of a message that is not about a link, the payload.
    pub fn payload(&self) -> &'a [u8] {
        &self.bytes[self.start()..][..self.raw.length as usize]
    }

    /// Returns the offset of the payload in the buffer.
    fn start(&self) -> usize {
        self.raw.list as usize
    }

    /// Returns the bytes of the attributes; none, if the message is not about a link.
    fn list(&self) -> &'a [u8] {
        if self.is_link() {
            self.payload()
        } else {
            &[]
        }
    }

    /// Reads the attributes. A message that is not about a link has none.
    ///
    /// # Errors
    ///
    /// Returns the first error in them.
    pub fn attributes(&self) -> Result<List<'a, Link>, Fault> {
        List::read(self.list()).map_err(|fault| fault.within(self.start()))
    }

    /// Reads the list of a set that an attribute holds, at any depth: that in an `IFLA_INFO_DATA` of a bond, for example. Of
    /// several, it is the last. Returns `None` if there is none.
    ///
    /// # Errors
    ///
    /// Returns the first error in this list. Errors in other attributes do not count.
    pub fn held<S: Set>(&self) -> Result<Option<List<'a, S>>, Fault> {
        let list = self.list();
        let held = sys::held(list, self.raw.address_family, S::FAMILY as u32);
        let read = |(offset, length): (usize, usize)| {
            List::read(&list[offset..offset + length]).map_err(|fault| fault.within(self.start() + offset))
        };
        held.map(read).transpose()
    }

    /// Reads the attributes, and each list that one of them holds, followed by those in it. They are in the order of the
    /// message.
    ///
    /// # Errors
    ///
    /// Items are the first error of a list that is malformed. The lists in it are left out.
    ///
    /// ```
    /// # use nlroute::*;
    /// # let bytes = [32, 0, 0, 0, 16, 0, 0, 0, 0, 0, 0, 0, 0, 0, 0, 0, 0, 0, 0, 0, 0, 0, 0, 0, 0, 0, 0, 0, 0, 0, 0, 0];
    /// for message in messages(&bytes).flatten() {
    ///     for list in message.lists() {
    ///         let list = list?;
    ///         println!("{}", list.family().name());
    ///         print!("{list}");
    ///     }
    /// }
    /// # Ok::<(), Fault>(())
    /// ```
    pub fn lists(&self) -> impl Iterator<Item = Result<List<'a, Any>, Fault>> {
        let mut found = Vec::new();
        if self.is_link() {
            add_lists(&mut found, LEVELS, self.raw.address_family, Family::Link, self.payload(), self.start());
        }
        found.into_iter()
    }
}

/// Adds a list, which begins at `start` of the buffer, and those in it, through `depth` levels.
fn add_lists<'a>(
    found: &mut Vec<Result<List<'a, Any>, Fault>>,
    depth: usize,
    address_family: u8,
    family: Family,
    bytes: &'a [u8],
    start: usize,
) {
    let list = match List::read_any(family, bytes) {
        Ok(list) => list,
        Err(fault) => return found.push(Err(fault.within(start))),
    };
    found.push(Ok(list.clone()));
    for value in list.raw().iter().filter(|_| depth > 0) {
        let set = sys::opens(family as u32, address_family, value, bytes).and_then(Family::from_number);
        if let Some(set) = set {
            let at = value.offset as usize;
            let held = &bytes[at..][..value.length as usize];
            let (inner, skipped) = if value.form == form::PEER { (held[0], PEER_HEADER) } else { (address_family, 0) };
            add_lists(found, depth - 1, inner, set, &held[skipped..], start + at + skipped);
        }
    }
}

impl fmt::Debug for Message<'_> {
    fn fmt(&self, f: &mut fmt::Formatter<'_>) -> fmt::Result {
        f.debug_struct("Message")
            .field("at", &self.at)
            .field("message_type", &self.message_type())
            .field("flags", &self.flags())
            .field("sequence", &self.sequence())
            .field("port", &self.port())
            .field("index", &self.is_link().then(|| self.index()))
            .field("payload", &self.payload())
            .finish()
    }
}

/// Reports a message that is malformed.
///
/// `Display` writes what `nlshow` prints: `error at 0: nlmsg_len 8 is below 16`.
#[derive(Clone, Copy, PartialEq, Eq, Hash)]
pub struct MessageFault {
    raw: RawFault,
}

impl MessageFault {
    /// Returns the offset of the message in the buffer, in bytes.
    pub fn at(&self) -> usize {
        usize::try_from(self.raw.at).unwrap_or(usize::MAX)
    }

    /// Returns what is wrong with it. The lengths are those of the message, with its header; `TooShort` is a message about a
    /// link that is shorter than its headers.
    pub fn cause(&self) -> Cause {
        Cause::of(&self.raw)
    }
}

impl fmt::Display for MessageFault {
    fn fmt(&self, f: &mut fmt::Formatter<'_>) -> fmt::Result {
        sys::fault_text(Family::Link as u32, &self.raw).fmt(f)
    }
}

impl fmt::Debug for MessageFault {
    fn fmt(&self, f: &mut fmt::Formatter<'_>) -> fmt::Result {
        f.debug_struct("MessageFault").field("at", &self.at()).field("cause", &self.cause()).finish()
    }
}

impl std::error::Error for MessageFault {}
