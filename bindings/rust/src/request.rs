//! Requests about links.

use crate::error::{Code, WriteError};
use crate::field::Field;
use crate::kinds::{
    form, refusal, Link, LinkInfo, IFLA_ADDRESS, IFLA_AF_SPEC, IFLA_IFNAME, IFLA_INFO_DATA, IFLA_INFO_KIND,
    IFLA_INFO_SLAVE_DATA, IFLA_INFO_SLAVE_KIND, IFLA_LINK, IFLA_LINKINFO, IFLA_MASTER, IFLA_MTU,
};
use crate::list::List;
use crate::scope::{Key, Set};
use crate::sys::{self, Raw, RawHead};
use crate::types::{Held, Mac, Text};
use crate::value::Iter;
use crate::{AddressFamily, Family, LinkFlags, MessageFlags, MessageType};
use std::fmt;

/// The offset of a value after which the values of its list follow.
const INLINE: u64 = u64::MAX;
/// The field `inner` of a value that is an attribute of the message.
const OF_MESSAGE: u16 = u16::MAX;
const IFLA_PROTINFO: u16 = 12;
/// The flags of a request that makes something.
const CREATED: MessageFlags = MessageFlags(MessageFlags::ACK.0 | MessageFlags::CREATE.0 | MessageFlags::EXCL.0);

/// Builds a request about a link: a whole rtnetlink message, such as the one that makes a bond.
///
/// The message asks for an acknowledgement (NLM_F_ACK), unless it asks for links. Send the bytes on a socket of
/// NETLINK_ROUTE.
///
/// ```
/// use nlroute::*;
///
/// let options = List::<Bond>::new().with(IFLA_BOND_MODE, BondMode::IEEE8023AD).with(IFLA_BOND_MIIMON, 100);
/// let bytes = Request::create("bond0").options(&options).to_bytes()?;
/// assert_eq!(bytes.len(), 76);
///
/// let bytes = Request::change(3).master(7).up().to_bytes()?; // 3 becomes a port of 7
/// assert_eq!(bytes[32..], [8, 0, 10, 0, 7, 0, 0, 0]);
/// # Ok::<(), WriteError>(())
/// ```
#[derive(Clone, PartialEq, Eq)]
#[must_use]
pub struct Request {
    head: RawHead,
    attributes: List<'static, Link>,
    kind: Option<Vec<u8>>,
    options: Vec<Options>,
}

impl fmt::Debug for Request {
    /// Writes the fields of the headers, those from `address_family` on unless they are 0; then the attributes, the kind and the
    /// options, if there are any.
    fn fmt(&self, f: &mut fmt::Formatter<'_>) -> fmt::Result {
        let RawHead { kind, flags, index, .. } = self.head;
        let mut text = f.debug_struct("Request");
        let flags = MessageFlags(flags).text_in(MessageType(kind));
        text.field("message_type", &MessageType(kind)).field("flags", &format_args!("{flags}")).field("index", &index);
        if self.head.address_family != 0 {
            text.field("address_family", &AddressFamily(self.head.address_family));
        }
        if self.head.sequence != 0 {
            text.field("sequence", &self.head.sequence);
        }
        if self.head.change != 0 {
            text.field("link_flags", &LinkFlags(self.head.link_flags)).field("change", &LinkFlags(self.head.change));
        }
        if !self.attributes.is_empty() {
            text.field("attributes", &self.attributes);
        }
        if let Some(kind) = &self.kind {
            text.field("kind", &String::from_utf8_lossy(kind));
        }
        for options in &self.options {
            text.field(options.family.name(), options);
        }
        text.finish()
    }
}

/// A list of options.
#[derive(Clone, PartialEq, Eq)]
struct Options {
    family: Family,
    values: Vec<Raw>,
    bytes: Vec<u8>,
}

impl fmt::Debug for Options {
    fn fmt(&self, f: &mut fmt::Formatter<'_>) -> fmt::Result {
        Iter { family: self.family, values: &self.values, bytes: &self.bytes }.fmt(f)
    }
}

impl Options {
    fn parts(&self) -> (&[Raw], &[u8]) {
        (&self.values, &self.bytes)
    }
}

/// What holds options.
#[derive(Clone, Copy, PartialEq, Eq)]
enum Holder {
    /// The message itself.
    Message,
    /// An attribute of this type.
    Attribute(u16),
    /// An element of the IFLA_LINKINFO.
    Info(Key<LinkInfo, Held>),
}

impl Request {
    /// Makes a link with this name: RTM_NEWLINK with NLM_F_CREATE and NLM_F_EXCL.
    pub fn create(name: &str) -> Request {
        Request::new(MessageType::RTM_NEWLINK, CREATED, 0).named(name)
    }

    /// Changes the link with this index: RTM_NEWLINK.
    pub fn change(index: u32) -> Request {
        Request::new(MessageType::RTM_NEWLINK, MessageFlags::ACK, index)
    }

    /// Deletes the link with this index: RTM_DELLINK.
    pub fn delete(index: u32) -> Request {
        Request::new(MessageType::RTM_DELLINK, MessageFlags::ACK, index)
    }

    /// Asks for the link with this name: RTM_GETLINK.
    pub fn get(name: &str) -> Request {
        Request::get_index(0).named(name)
    }

    /// Asks for the link with this index: RTM_GETLINK.
    pub fn get_index(index: u32) -> Request {
        Request::new(MessageType::RTM_GETLINK, MessageFlags::default(), index)
    }

    /// Asks for all links: RTM_GETLINK with NLM_F_DUMP.
    pub fn dump() -> Request {
        Request::new(MessageType::RTM_GETLINK, MessageFlags::DUMP, 0)
    }

    /// Sets VLANs and port options of the bridge or bridge port with this index: RTM_SETLINK of AF_BRIDGE. Its options
    /// are lists of [`AfSpecBridge`](crate::AfSpecBridge) and [`BridgePort`](crate::BridgePort).
    pub fn bridge(index: u32) -> Request {
        Request::new(MessageType::RTM_SETLINK, MessageFlags::ACK, index).address_family(AddressFamily::BRIDGE)
    }

    /// Deletes VLANs of the bridge or bridge port with this index: RTM_DELLINK of AF_BRIDGE. The link stays.
    pub fn bridge_delete(index: u32) -> Request {
        Request::new(MessageType::RTM_DELLINK, MessageFlags::ACK, index).address_family(AddressFamily::BRIDGE)
    }

    /// Adds properties to the link with this index: RTM_NEWLINKPROP with NLM_F_CREATE, NLM_F_EXCL and NLM_F_APPEND. They are in
    /// an `IFLA_PROP_LIST`.
    ///
    /// ```
    /// use nlroute::*;
    ///
    /// let names = Nested::<PropList>::new().with(prop_list::IFLA_ALT_IFNAME, Text::from("uplink"));
    /// let bytes = Request::property(3).with(IFLA_PROP_LIST, names).to_bytes()?; // 3 gets an alternative name
    /// assert_eq!(bytes[32..], *b"\x10\0\x34\x80\x0b\0\x35\0uplink\0\0");
    /// # Ok::<(), WriteError>(())
    /// ```
    pub fn property(index: u32) -> Request {
        Request::new(MessageType::RTM_NEWLINKPROP, CREATED | MessageFlags::APPEND, index)
    }

    /// Deletes properties of the link with this index: RTM_DELLINKPROP.
    pub fn property_delete(index: u32) -> Request {
        Request::new(MessageType::RTM_DELLINKPROP, MessageFlags::ACK, index)
    }

    /// Makes a request of this type (`nlmsg_type`) with these flags (`nlmsg_flags`), to which NLM_F_REQUEST is added, and
    /// with this interface index.
    pub fn new(kind: impl Into<MessageType>, flags: impl Into<MessageFlags>, index: u32) -> Request {
        let (kind, flags) = (kind.into().0, flags.into().0);
        let head = RawHead { kind, flags, index: index as i32, ..RawHead::default() };
        Request { head, attributes: List::new(), kind: None, options: Vec::new() }
    }

    /// Sets the sequence number (`nlmsg_seq`), which the replies repeat. It is 0 otherwise.
    pub fn sequence(mut self, sequence: u32) -> Request {
        self.head.sequence = sequence;
        self
    }

    /// Sets the address family (`ifi_family`).
    pub fn address_family(mut self, address_family: impl Into<AddressFamily>) -> Request {
        self.head.address_family = address_family.into().0;
        self
    }

    /// Sets the link up (IFF_UP).
    pub fn up(mut self) -> Request {
        self.head.link_flags |= LinkFlags::UP.0;
        self.head.change |= LinkFlags::UP.0;
        self
    }

    /// Sets the link down.
    pub fn down(mut self) -> Request {
        self.head.link_flags &= !LinkFlags::UP.0;
        self.head.change |= LinkFlags::UP.0;
        self
    }

    /// Sets the name (IFLA_IFNAME) that the link gets.
    pub fn named(self, name: &str) -> Request {
        self.with(IFLA_IFNAME, Text::from(name))
    }

    /// Sets the MTU in bytes (IFLA_MTU).
    pub fn mtu(self, mtu: u32) -> Request {
        self.with(IFLA_MTU, mtu)
    }

    /// Sets the hardware address (IFLA_ADDRESS).
    pub fn address(self, address: Mac) -> Request {
        self.with(IFLA_ADDRESS, address.0.to_vec())
    }

    /// Sets the index of the link that a VLAN device and the like is on (IFLA_LINK).
    pub fn link(self, index: u32) -> Request {
        self.with(IFLA_LINK, index)
    }

    /// Makes the link a port of the bond or bridge with this index (IFLA_MASTER); 0 ends that.
    pub fn master(self, index: u32) -> Request {
        self.with(IFLA_MASTER, index)
    }

    /// Appends an attribute of the message.
    ///
    /// A message has one `IFLA_LINKINFO`, one `IFLA_AF_SPEC` and one `IFLA_PROTINFO`: each is an attribute that is appended, or
    /// made from options and kind. A second one is [`Code::Repeated`].
    pub fn with<T: Field>(mut self, key: Key<Link, T>, value: T) -> Request {
        self.attributes.push(key, value);
        self
    }

    /// Sets the kind of the device (IFLA_INFO_KIND), such as `dummy`. Options have a kind of their own: set it for another one
    /// with the same options, such as `macvtap`, or `bridge_slave` for those of a port. Options of another set than that of the
    /// kind are [`Code::NoSet`].
    pub fn kind(mut self, kind: &str) -> Request {
        self.kind = Some(kind.as_bytes().to_vec());
        self
    }

    /// Sets options: of a device, of a port or, for [`bridge`](Request::bridge), of AF_BRIDGE. The attribute set tells which.
    ///
    /// Lists of the same set are joined, in order. Options of a device and options of a port are beside each other; those of
    /// two devices' sets, or of two ports' sets, are [`Code::NoSet`]. So are they in AF_BRIDGE, where Linux ignores them. An
    /// empty list of a device's options sets its kind only.
    ///
    /// ```
    /// use nlroute::*;
    ///
    /// let request = Request::change(3)
    ///     .options(&List::<Bond>::new().with(IFLA_BOND_MIIMON, 200))
    ///     .options(&List::<BridgePort>::new().with(IFLA_BRPORT_COST, 44))
    ///     .options(&List::<Bond>::new().with(IFLA_BOND_RESEND_IGMP, 2));
    /// let bytes = request.to_bytes()?;
    /// assert_eq!(bytes[44..64], [20, 0, 2, 0, 8, 0, 3, 0, 200, 0, 0, 0, 8, 0, 15, 0, 2, 0, 0, 0]); // IFLA_INFO_DATA
    /// # Ok::<(), WriteError>(())
    /// ```
    pub fn options<S: Set>(mut self, list: &List<'_, S>) -> Request {
        let (values, bytes) = list.parts();
        self.options.push(Options { family: list.family(), values: values.to_vec(), bytes: bytes.to_vec() });
        self
    }

    /// Writes the message.
    ///
    /// # Errors
    ///
    /// Returns the first attribute or element that cannot be written, with its index: that of options in the list that was
    /// passed, that of other attributes in the message. Of an error in the header, the name is that of the field, such as
    /// `ifi_index`.
    ///
    /// ```
    /// use nlroute::*;
    ///
    /// let error = Request::create("a b").kind("dummy").to_bytes().unwrap_err();
    /// assert_eq!((error.name.as_str(), error.index, error.code), ("IFLA_IFNAME", 0, Code::BadName));
    /// assert_eq!(Request::delete(0).to_bytes().unwrap_err().code, Code::NoIndex);
    /// ```
    pub fn to_bytes(&self) -> Result<Vec<u8>, WriteError> {
        let mut parts = Parts::default();
        parts.list(Family::Link, 0, self.attributes.parts());
        for options in &self.options {
            let holder = self.holder(options.family).ok_or_else(|| no_set(options.family))?;
            match holder {
                Holder::Message => parts.list(options.family, 0, options.parts()),
                Holder::Attribute(kind) if !parts.holds(kind) && !options.values.is_empty() => {
                    parts.held(Raw { kind, ..Raw::default() }, &self.held(holder));
                }
                Holder::Info(_) if !parts.holds(IFLA_LINKINFO.kind()) => self.put_info(&mut parts)?,
                // They are empty, or joined with the first options of their list.
                _ => {}
            }
        }
        if self.kind.is_some() && !parts.holds(IFLA_LINKINFO.kind()) {
            self.put_info(&mut parts)?;
        }
        sys::request(&self.head, &parts.values, &parts.bytes).map_err(|(at, code)| parts.error(at, code))
    }

    /// Returns what holds the options of a set, or `None` if the request has no place for them.
    fn holder(&self, family: Family) -> Option<Holder> {
        let is_bridge = self.head.address_family == AddressFamily::BRIDGE.0;
        match family {
            Family::Link => Some(Holder::Message),
            Family::AfSpecBridge if is_bridge => Some(Holder::Attribute(IFLA_AF_SPEC.kind())),
            Family::AfSpec if !is_bridge => Some(Holder::Attribute(IFLA_AF_SPEC.kind())),
            Family::BridgePort if is_bridge => Some(Holder::Attribute(IFLA_PROTINFO)),
            _ if is_bridge => None,
            family if is_device(family) => Some(Holder::Info(IFLA_INFO_DATA)),
            family => port_kind(family).map(|_| Holder::Info(IFLA_INFO_SLAVE_DATA)),
        }
    }

    /// Returns the lists of options that are joined in a holder.
    fn held(&self, holder: Holder) -> Vec<&Options> {
        self.options.iter().filter(|options| self.holder(options.family) == Some(holder)).collect()
    }

    /// Appends the IFLA_LINKINFO: kind and data of the device, then those of the port.
    fn put_info(&self, parts: &mut Parts) -> Result<(), WriteError> {
        let data = self.held(Holder::Info(IFLA_INFO_DATA));
        let port_data = self.held(Holder::Info(IFLA_INFO_SLAVE_DATA));
        let own = self.kind.as_deref();
        parts.push(Raw { kind: IFLA_LINKINFO.kind(), form: form::LIST, ..Raw::default() });
        if let Some(kind) = own.or_else(|| data.first().map(|it| it.family.name().as_bytes())) {
            parts.kind(IFLA_INFO_KIND, kind);
            let reader = Family::from_info_kind(without_nul(kind));
            // A kind that has no set may have options without values.
            let of_none = data.first().filter(|_| are_empty(&data)).map(|it| it.family);
            self.put_data(IFLA_INFO_DATA, reader.or(of_none), &data, parts)?;
        }
        if let Some(first) = port_data.first() {
            let announced = own.and_then(announced_port_set);
            // A kind that was set is enough if it announces the set, or if there are no data.
            let is_enough = announced.is_some() || own.is_some() && are_empty(&port_data);
            if let (false, Some(kind)) = (is_enough, port_kind(first.family)) {
                parts.kind(IFLA_INFO_SLAVE_KIND, kind.as_bytes());
            }
            self.put_data(IFLA_INFO_SLAVE_DATA, announced.or(Some(first.family)), &port_data, parts)?;
        }
        Ok(())
    }

    /// Appends an element of the IFLA_LINKINFO with the values of lists, which a set reads, if it is that of all of them.
    fn put_data(
        &self,
        key: Key<LinkInfo, Held>,
        reader: Option<Family>,
        lists: &[&Options],
        parts: &mut Parts,
    ) -> Result<(), WriteError> {
        if lists.iter().all(|options| Some(options.family) == reader) {
            parts.held(element(key), lists);
            return Ok(());
        }
        // A value before the lists may have an error.
        sys::request(&self.head, &parts.values, &parts.bytes).map_err(|(at, code)| parts.error(at, code))?;
        let index = parts.attributes.saturating_sub(1);
        Err(WriteError { index, name: key.name().to_string(), code: Code::NoSet })
    }
}

/// Returns whether a set is that of the devices of a kind, which has its name.
fn is_device(family: Family) -> bool {
    Family::from_info_kind(family.name().as_bytes()) == Some(family)
}

/// Returns the kind of the ports that have a set.
fn port_kind(family: Family) -> Option<&'static str> {
    let kind = family.name().strip_suffix("_port")?;
    Family::from_port_kind(kind.as_bytes()).filter(|of| *of == family).map(|_| kind)
}

/// Returns the set of the port data that an IFLA_INFO_KIND announces. With these two kinds, iproute2 sends no
/// IFLA_INFO_SLAVE_KIND.
fn announced_port_set(kind: &[u8]) -> Option<Family> {
    match without_nul(kind) {
        b"bond_slave" => Some(Family::BondPort),
        b"bridge_slave" => Some(Family::BridgePort),
        _ => None,
    }
}

/// Returns whether lists have no values.
fn are_empty(lists: &[&Options]) -> bool {
    lists.iter().all(|options| options.values.is_empty())
}

/// Returns a kind without the NUL at its end, if it has one.
fn without_nul(kind: &[u8]) -> &[u8] {
    kind.strip_suffix(&[0]).unwrap_or(kind)
}

/// Returns an element of the IFLA_LINKINFO.
fn element<T>(key: Key<LinkInfo, T>) -> Raw {
    Raw { kind: IFLA_LINKINFO.kind(), inner: key.kind(), depth: 1, ..Raw::default() }
}

/// Returns the error for options that the request has no place for.
fn no_set(family: Family) -> WriteError {
    WriteError { index: 0, name: family.name().to_string(), code: Code::NoSet }
}

/// Returns a value as it is in a request: an attribute of the message has a mark.
fn placed(raw: Raw) -> Raw {
    Raw { inner: if raw.depth == 0 { OF_MESSAGE } else { raw.inner }, ..raw }
}

/// The values of a request, and what each is, for errors.
#[derive(Default)]
struct Parts {
    values: Vec<Raw>,
    bytes: Vec<u8>,
    /// Of each value the set, the depth of its list, and its index in it.
    owners: Vec<(Family, u8, usize)>,
    attributes: usize,
    /// The types of the attributes of the message that hold options.
    holders: Vec<u16>,
}

impl Parts {
    /// Appends the values of a list at this depth.
    fn list(&mut self, family: Family, depth: u8, (values, bytes): (&[Raw], &[u8])) {
        let start = self.bytes.len() as u64;
        self.bytes.extend_from_slice(bytes);
        let mut index = if depth == 0 { self.attributes } else { 0 };
        for raw in values {
            index += usize::from(raw.depth == 0);
            self.values.push(placed(Raw { depth: raw.depth + depth, offset: raw.offset + start, ..*raw }));
            self.owners.push((family, depth, index.saturating_sub(1)));
        }
        if depth == 0 {
            self.attributes = index;
        }
    }

    /// Appends a value of the message.
    fn push(&mut self, raw: Raw) {
        if raw.depth == 0 {
            self.attributes += 1;
            self.holders.push(raw.kind);
        }
        self.values.push(placed(raw));
        self.owners.push((Family::Link, 0, self.attributes.saturating_sub(1)));
    }

    /// Returns whether an attribute of the message of this type holds options.
    fn holds(&self, kind: u16) -> bool {
        self.holders.contains(&kind)
    }

    /// Appends an attribute or element with the values of lists, if there are any.
    fn held(&mut self, raw: Raw, lists: &[&Options]) {
        if !are_empty(lists) {
            self.push(Raw { form: form::HELD, offset: INLINE, ..raw });
            lists.iter().for_each(|options| self.list(options.family, raw.depth + 1, options.parts()));
        }
    }

    /// Appends a kind to the IFLA_LINKINFO.
    fn kind(&mut self, key: Key<LinkInfo, Text>, kind: &[u8]) {
        let (offset, length) = (self.bytes.len() as u64, u32::try_from(kind.len()).unwrap_or(u32::MAX));
        self.bytes.extend_from_slice(kind);
        self.push(Raw { form: form::TEXT, offset, length, ..element(key) });
    }

    /// Returns the error of the value at this index or, if there is none, of the header.
    #[cold]
    fn error(&self, at: usize, code: isize) -> WriteError {
        let code_name = match code {
            refusal::BAD_TYPE => "nlmsg_type",
            refusal::NO_INDEX => "ifi_index",
            _ => "nlmsg_len",
        };
        let (index, name) = match (self.owners.get(at), self.values.get(at)) {
            (Some(&(family, depth, index)), Some(raw)) => {
                let own = Raw { depth: raw.depth - depth, ..*raw };
                let name = match own {
                    // The library has no name for it.
                    Raw { kind: IFLA_PROTINFO, form: form::HELD, depth: 0, .. } => "IFLA_PROTINFO".to_string(),
                    _ => sys::kind_name(family as u32, &own).to_string(),
                };
                (index, name)
            }
            _ => (0, code_name.to_string()),
        };
        WriteError { index, name, code: code.into() }
    }
}
