//! Types of values that are structs of the kernel or addresses.

use crate::error::{ParseMacError, WriteError};
use crate::{BridgeVlanFlags, Fault, Link, List, Set};
use std::borrow::Cow;
use std::fmt;
use std::str::FromStr;

/// Represents a MAC address (`ETH_ALEN` bytes).
///
/// ```
/// let address: nlroute::Mac = "01:80:c2:00:00:0e".parse()?;
/// assert_eq!(address, nlroute::Mac([1, 0x80, 0xc2, 0, 0, 0xe]));
/// assert_eq!(address.to_string(), "01:80:c2:00:00:0e");
/// # Ok::<(), nlroute::ParseMacError>(())
/// ```
#[derive(Clone, Copy, PartialEq, Eq, Hash, PartialOrd, Ord, Default)]
pub struct Mac(
    /// Is the address, in the order of transmission.
    pub [u8; 6],
);

impl fmt::Display for Mac {
    fn fmt(&self, f: &mut fmt::Formatter<'_>) -> fmt::Result {
        let [a, b, c, d, e, last] = self.0;
        write!(f, "{a:02x}:{b:02x}:{c:02x}:{d:02x}:{e:02x}:{last:02x}")
    }
}

impl fmt::Debug for Mac {
    fn fmt(&self, f: &mut fmt::Formatter<'_>) -> fmt::Result {
        fmt::Display::fmt(self, f)
    }
}

impl FromStr for Mac {
    type Err = ParseMacError;

    /// Parses six numbers of one or two hexadecimal digits, separated by colons.
    ///
    /// # Errors
    ///
    /// Returns [`ParseMacError`] for any other string.
    fn from_str(text: &str) -> Result<Mac, ParseMacError> {
        let mut octets = [0; 6];
        let mut parts = text.split(':');
        for octet in &mut octets {
            *octet = parts.next().and_then(octet_of).ok_or(ParseMacError(()))?;
        }
        match parts.next() {
            None => Ok(Mac(octets)),
            Some(_) => Err(ParseMacError(())),
        }
    }
}

/// Returns the number of one or two hexadecimal digits.
fn octet_of(digits: &str) -> Option<u8> {
    let is_number = matches!(digits.len(), 1 | 2) && digits.bytes().all(|digit| digit.is_ascii_hexdigit());
    is_number.then(|| u8::from_str_radix(digits, 16).ok()).flatten()
}

/// Holds a text: its bytes, and the NUL at their end if the attribute has one.
///
/// ```
/// use nlroute::Text;
///
/// let name = Text::from("eth0");
/// assert_eq!((name.0.as_slice(), name.to_string().as_str()), (b"eth0\0".as_slice(), "eth0"));
/// assert_eq!(Text(b"eth0".to_vec()).to_str(), name.to_str());
/// ```
#[derive(Clone, PartialEq, Eq, Hash, PartialOrd, Ord, Default)]
pub struct Text(
    /// Holds the bytes.
    pub Vec<u8>,
);

impl Text {
    /// Returns the text without a NUL at its end, or `None` if it is not UTF-8.
    pub fn to_str(&self) -> Option<&str> {
        std::str::from_utf8(without_nul(&self.0)).ok()
    }
}

impl From<&str> for Text {
    /// Returns the text with a NUL at its end, as the kernel sends most texts.
    fn from(text: &str) -> Text {
        Text([text.as_bytes(), &[0]].concat())
    }
}

impl fmt::Display for Text {
    /// Writes the text without a NUL at its end. Bytes that are not UTF-8 are written as U+FFFD.
    fn fmt(&self, f: &mut fmt::Formatter<'_>) -> fmt::Result {
        f.pad(&String::from_utf8_lossy(without_nul(&self.0)))
    }
}

impl fmt::Debug for Text {
    fn fmt(&self, f: &mut fmt::Formatter<'_>) -> fmt::Result {
        fmt::Debug::fmt(&String::from_utf8_lossy(&self.0), f)
    }
}

/// Returns the bytes without a NUL at their end.
fn without_nul(bytes: &[u8]) -> &[u8] {
    bytes.strip_suffix(&[0]).unwrap_or(bytes)
}

/// Holds a list of attributes of another set, as bytes.
///
/// ```
/// use nlroute::*;
///
/// let vlan = List::<Vlan>::new().with(IFLA_VLAN_ID, 5).to_bytes()?;
/// let held = Held(vlan);
/// assert_eq!(held.read::<Vlan>()?.get(IFLA_VLAN_ID), Some(5));
/// # Ok::<(), Box<dyn std::error::Error>>(())
/// ```
#[derive(Clone, Debug, PartialEq, Eq, Hash, Default)]
pub struct Held(
    /// Holds the bytes.
    pub Vec<u8>,
);

impl Held {
    /// Reads the list, as one of a set.
    ///
    /// # Errors
    ///
    /// Returns the first error of a list that is malformed.
    pub fn read<S: Set>(&self) -> Result<List<'_, S>, Fault> {
        List::read(&self.0)
    }
}

/// Holds the other end of a link, in a request that makes both (`VETH_INFO_PEER`, `IFLA_NETKIT_PEER_INFO`).
///
/// ```
/// use nlroute::*;
///
/// let name = List::<Link>::new().with(IFLA_IFNAME, Text::from("e1"));
/// let veth = List::<Veth>::new().with(VETH_INFO_PEER, Peer::new(&name)?);
/// let bytes = Request::create("e0").options(&veth).to_bytes()?; // ip link add e0 type veth peer name e1
/// assert_eq!(bytes[bytes.len() - 8..], *b"\x07\0\x03\0e1\0\0");
/// # Ok::<(), WriteError>(())
/// ```
#[derive(Clone, Debug, PartialEq, Eq, Hash, Default)]
pub struct Peer {
    /// Holds the header (`struct ifinfomsg`).
    pub header: [u8; 16],
    /// Holds the list of attributes of a link.
    pub attributes: Vec<u8>,
}

impl Peer {
    /// Makes a peer with these attributes, and with zeros as header.
    ///
    /// # Errors
    ///
    /// Returns the first attribute that cannot be written.
    pub fn new(attributes: &List<'_, Link>) -> Result<Peer, WriteError> {
        Ok(Peer { header: [0; 16], attributes: attributes.to_bytes()? })
    }

    /// Sets the interface index (`ifi_index`) that the link gets. If it is 0, Linux chooses one.
    #[must_use]
    pub fn with_index(mut self, index: u32) -> Peer {
        self.header[4..8].copy_from_slice(&index.to_ne_bytes());
        self
    }

    /// Returns the interface index (`ifi_index`).
    pub fn index(&self) -> u32 {
        let [_, _, _, _, a, b, c, d, ..] = self.header;
        u32::from_ne_bytes([a, b, c, d])
    }

    /// Returns the peer in a payload.
    pub(crate) fn of(payload: &[u8]) -> Option<Peer> {
        let header = payload.get(..16)?.try_into().ok()?;
        Some(Peer { header, attributes: payload[16..].to_vec() })
    }

    /// Returns the payload.
    pub(crate) fn payload(&self) -> Vec<u8> {
        [&self.header, &self.attributes[..]].concat()
    }

    /// Reads the list.
    ///
    /// # Errors
    ///
    /// Returns the first error of a list that is malformed.
    pub fn read(&self) -> Result<List<'_, Link>, Fault> {
        List::read(&self.attributes)
    }
}

/// Holds flags, and a mask of those that a request sets or clears (`struct ifla_vlan_flags`, `struct can_ctrlmode`,
/// `struct br_boolopt_multi`).
#[derive(Clone, Copy, Debug, PartialEq, Eq, Hash, Default)]
pub struct Masked<F> {
    /// Holds the flags.
    pub flags: F,
    /// Holds the flags that count.
    pub mask: F,
}

/// Identifies a bridge (`struct ifla_bridge_id`).
#[derive(Clone, Copy, Debug, PartialEq, Eq, Hash, Default)]
pub struct BridgeId {
    /// Holds the priority, which is compared first; lower is better.
    pub priority: u16,
    /// Holds the MAC address.
    pub address: Mac,
}

/// Describes a VLAN of a bridge or its port (`struct bridge_vlan_info`).
#[derive(Clone, Copy, Debug, PartialEq, Eq, Hash, Default)]
pub struct VlanInfo {
    /// Holds the VLAN ID.
    pub vid: u16,
    /// Holds the flags.
    pub flags: BridgeVlanFlags,
}

/// Maps a priority of packets to one of VLAN headers, or the reverse (`struct ifla_vlan_qos_mapping`).
///
/// A list of mappings is a `Vec`. Elements of other types are not in it; [`Value::elements`](crate::Value::elements)
/// has them too.
#[derive(Clone, Copy, Debug, PartialEq, Eq, Hash, Default)]
pub struct QosMapping {
    /// Holds the priority that is mapped.
    pub from: u32,
    /// Holds the priority that it is mapped to.
    pub to: u32,
}

/// Counts bus errors of a CAN controller (`struct can_berr_counter`).
#[derive(Clone, Copy, Debug, PartialEq, Eq, Hash, Default)]
pub struct BerrCounter {
    /// Counts errors when transmitting.
    pub txerr: u16,
    /// Counts errors when receiving.
    pub rxerr: u16,
}

/// Holds the bit timing of a CAN controller (`struct can_bittiming` of `linux/can/netlink.h`).
#[repr(C)]
#[derive(Clone, Copy, Debug, PartialEq, Eq, Hash, Default)]
pub struct CanBitTiming {
    /// Holds the bit rate, in bits per second.
    pub bitrate: u32,
    /// Holds the sample point, in tenths of a percent.
    pub sample_point: u32,
    /// Holds the time quantum, in nanoseconds.
    pub tq: u32,
    /// Holds the propagation segment, in time quanta.
    pub prop_seg: u32,
    /// Holds the first phase buffer segment, in time quanta.
    pub phase_seg1: u32,
    /// Holds the second phase buffer segment, in time quanta.
    pub phase_seg2: u32,
    /// Holds the synchronization jump width, in time quanta.
    pub sjw: u32,
    /// Holds the prescaler of the bit rate.
    pub brp: u32,
}

impl CanBitTiming {
    /// Returns the payload of the attribute.
    pub(crate) fn payload(&self) -> Vec<u8> {
        let numbers = [
            self.bitrate,
            self.sample_point,
            self.tq,
            self.prop_seg,
            self.phase_seg1,
            self.phase_seg2,
            self.sjw,
            self.brp,
        ];
        numbers.iter().flat_map(|number| number.to_le_bytes()).collect()
    }
}

/// Holds the limits of the bit timing of a CAN controller (`struct can_bittiming_const` of `linux/can/netlink.h`).
///
/// A name of more than 16 bytes does not compile:
///
/// ```compile_fail,E0308
/// # use nlroute::CanBitTimingConst;
/// CanBitTimingConst { name: *b"seventeen bytes..", ..CanBitTimingConst::default() };
/// ```
#[repr(C)]
#[derive(Clone, Copy, Debug, PartialEq, Eq, Hash, Default)]
pub struct CanBitTimingConst {
    /// Holds the name of the controller, up to the first NUL. When written, what is not UTF-8 becomes U+FFFD, and the
    /// result is truncated to 15 bytes.
    pub name: [u8; 16],
    /// Holds the minimum of the first time segment, in time quanta.
    pub tseg1_min: u32,
    /// Holds the maximum of the first time segment, in time quanta.
    pub tseg1_max: u32,
    /// Holds the minimum of the second time segment, in time quanta.
    pub tseg2_min: u32,
    /// Holds the maximum of the second time segment, in time quanta.
    pub tseg2_max: u32,
    /// Holds the maximum of the synchronization jump width, in time quanta.
    pub sjw_max: u32,
    /// Holds the minimum of the prescaler.
    pub brp_min: u32,
    /// Holds the maximum of the prescaler.
    pub brp_max: u32,
    /// Holds the steps of the prescaler.
    pub brp_inc: u32,
}

impl CanBitTimingConst {
    /// Returns the name of the controller, with U+FFFD in place of what is not UTF-8.
    pub fn name(&self) -> Cow<'_, str> {
        let end = self.name.iter().position(|&byte| byte == 0).unwrap_or(self.name.len());
        String::from_utf8_lossy(&self.name[..end])
    }

    /// Returns the payload of the attribute.
    pub(crate) fn payload(&self) -> Vec<u8> {
        let numbers = [
            self.tseg1_min,
            self.tseg1_max,
            self.tseg2_min,
            self.tseg2_max,
            self.sjw_max,
            self.brp_min,
            self.brp_max,
            self.brp_inc,
        ];
        self.name.into_iter().chain(numbers.iter().flat_map(|number| number.to_le_bytes())).collect()
    }
}

/// Returns the number of decimal digits.
pub(crate) fn decimal<T: FromStr>(text: &str) -> Option<T> {
    let is_number = text.bytes().all(|digit| digit.is_ascii_digit());
    is_number.then(|| text.parse().ok()).flatten()
}

/// Returns the names of flags, and in hexadecimal the bits that have none. `empty` is the text of the empty set.
pub(crate) fn flags_text(flags: u32, names: &[(u32, &str)], empty: &str) -> String {
    let mut words = Vec::new();
    let mut rest = flags;
    for (bit, name) in names.iter().filter(|(bit, _)| flags >> bit & 1 == 1) {
        words.push(name.to_string());
        rest &= !(1 << bit);
    }
    if rest != 0 {
        words.push(format!("{rest:#x}"));
    }
    if flags == 0 {
        words.push(empty.to_string());
    }
    words.join("|")
}
