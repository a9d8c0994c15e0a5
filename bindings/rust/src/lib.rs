//! Reads, prints and writes lists of netlink link attributes, such as the payload of `IFLA_INFO_DATA`. Reads messages about
//! links, and writes requests.
//!
//! The work is done by the C library nlroute, whose functions are proved in builds that say `proved` ([`build`]); this
//! crate is only tested. It adds types: a [`Key`] knows its attribute set and the type of its values, so a wrong one does
//! not compile.
//!
//! ```
//! use nlroute::*;
//!
//! // IFLA_BOND_MODE 4 and IFLA_BOND_MIIMON 100, as Linux sends them
//! let bytes = [5, 0, 1, 0, 4, 0, 0, 0, 8, 0, 3, 0, 100, 0, 0, 0];
//! let mut bond = List::<Bond>::read(&bytes)?;
//! assert_eq!(bond.get(IFLA_BOND_MODE), Some(BondMode::IEEE8023AD));
//!
//! bond.set(IFLA_BOND_MIIMON, 200);
//! assert_eq!(bond.to_string(), "IFLA_BOND_MODE 802.3ad (4)\nIFLA_BOND_MIIMON 200 ms\n");
//! assert_eq!(bond.to_bytes()?, [5, 0, 1, 0, 4, 0, 0, 0, 8, 0, 3, 0, 200, 0, 0, 0]);
//! # Ok::<(), nlroute::Error>(())
//! ```
//!
//! To look up one attribute, [`find`] does not allocate:
//!
//! ```
//! # use nlroute::*;
//! # let bytes = [5, 0, 1, 0, 4, 0, 0, 0, 8, 0, 3, 0, 100, 0, 0, 0];
//! assert_eq!(find(&bytes, IFLA_BOND_MIIMON)?, Some(100));
//! # Ok::<(), nlroute::Fault>(())
//! ```
//!
//! To visit all attributes, [`List::typed`] gives each as a variant of an enum:
//!
//! ```
//! # use nlroute::*;
//! # let bytes = [5, 0, 1, 0, 4, 0, 0, 0, 8, 0, 3, 0, 100, 0, 0, 0];
//! for attribute in List::<Bond>::read(&bytes)?.typed() {
//!     match attribute {
//!         BondAttribute::Mode(mode) => assert_eq!(mode.name(), Some("802.3ad")),
//!         BondAttribute::MiiMon(interval) => assert_eq!(interval, 100),
//!         other => println!("{other:?}"),
//!     }
//! }
//! # Ok::<(), nlroute::Fault>(())
//! ```
//!
//! To read messages, [`messages`] iterates over those of a buffer. [`Message::held`] finds the list of a set in one:
//!
//! ```
//! # use nlroute::*;
//! # let bytes = [];
//! for message in messages(&bytes) {
//!     if let Some(bond) = message?.held::<Bond>()? {
//!         print!("{bond}");
//!     }
//! }
//! # Ok::<(), nlroute::Error>(())
//! ```
//!
//! # What does not compile
//!
//! A value of another type (`IFLA_BOND_MIIMON` is a `u32`):
//!
//! ```compile_fail,E0308
//! # use nlroute::*;
//! List::<Bond>::new().set(IFLA_BOND_MIIMON, true);
//! ```
//!
//! A key of another attribute set:
//!
//! ```compile_fail,E0308
//! # use nlroute::*;
//! List::<Bond>::new().set(IFLA_BR_FORWARD_DELAY, 700);
//! ```
//!
//! A key of an element, outside of the list that has it:
//!
//! ```compile_fail,E0308
//! # use nlroute::*;
//! List::<Bond>::new().get(IFLA_BOND_AD_INFO_AGGREGATOR);
//! ```
//!
//! A number of another width:
//!
//! ```compile_fail,E0308
//! # use nlroute::*;
//! # let number = 1u64 << 40;
//! List::<Bond>::new().set(IFLA_BOND_MIIMON, number);
//! ```
//!
//! # Threads
//!
//! The library has no state, and all types are plain data: they are `Send` and `Sync`.

#![deny(unsafe_code)]
#![warn(missing_docs, missing_debug_implementations)]

mod attributes;
mod error;
mod field;
mod headers;
mod kinds;
mod list;
mod macros;
mod message;
mod request;
mod scope;
#[allow(unsafe_code)]
mod sys;
#[cfg(test)]
mod tests;
mod types;
mod unit;
mod value;

pub use attributes::*;
pub use error::{Cause, Code, Error, Fault, ParseMacError, ParseNameError, Place, WriteError};
pub use field::Field;
pub use headers::{AddressFamily, LinkFlags, MessageFlags, MessageType};
pub use kinds::*;
pub use list::{find, find_in, List, Nested};
pub use message::{messages, Message, MessageFault, Messages};
pub use request::Request;
pub use scope::{Any, Key, Scope, Set, Typed};
pub use types::{
    BerrCounter, BridgeId, CanBitTiming, CanBitTimingConst, Held, Mac, Masked, Peer, QosMapping, Text, VlanInfo,
};
pub use unit::Unit;
pub use value::{Content, Iter, TypedIter, Value};

/// Returns the mark of the library that is linked: version, `proved` or `unproved`, commit and toolchain.
///
/// The mark is added when the library is built. It is a label, not evidence.
///
/// ```
/// assert!(nlroute::build().contains("proved, commit "));
/// ```
pub fn build() -> &'static str {
    sys::build()
}

/// Returns whether the library that is linked has the version of this crate.
///
/// With a shared library this is always so, since its name has the version. A static library may be of another one.
///
/// ```
/// assert!(nlroute::is_compatible());
/// ```
pub fn is_compatible() -> bool {
    sys::version() >> 8 == kinds::VERSION >> 8
}
