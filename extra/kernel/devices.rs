//! Does what run.py says with the Rust crate. run.py writes the function `rows`, with a call of `row` for each.

use nlroute::*;
use std::fs::File;
use std::io::{self, Read, Write};
use std::net::Ipv4Addr;
use std::os::raw::{c_char, c_int, c_uint};
use std::os::unix::io::FromRawFd;

extern "C" {
    fn socket(domain: c_int, kind: c_int, protocol: c_int) -> c_int;
    fn if_nametoindex(name: *const c_char) -> c_uint;
}


/// Makes a value of its text.
trait Told: Sized {
    fn told(text: &str) -> Option<Self>;
}

macro_rules! told {
    ($($type:ty: |$text:ident| $value:expr;)*) => {$(
        impl Told for $type {
            fn told($text: &str) -> Option<Self> {
                $value
            }
        }
    )*};
}
macro_rules! parsed {
    ($($type:ty)*) => { told! { $($type: |text| text.parse().ok();)* } };
}

parsed! { u8 u16 i32 Mac Ipv4Addr VlanProtocol BondMode HsrProtocol IpvlanMode MacvlanMode NetkitMode NetkitPolicy }
told! {
    u32: |text| text.strip_prefix('@').map(index).or_else(|| text.parse().ok());
    bool: |text| ["off", "on"].iter().position(|it| *it == text).map(|it| it == 1);
    Text: |text| Some(text.into());
    IpvlanFlags: |text| text.parse().ok().map(IpvlanFlags);
    MacvlanFlags: |text| text.parse().ok().map(MacvlanFlags);
    Masked<VlanFlags>: |text| two(text).map(|(flags, mask)| Masked { flags: VlanFlags(flags), mask: VlanFlags(mask) });
    VlanInfo: |text| two(text).map(|(vid, flags)| VlanInfo { vid, flags: BridgeVlanFlags(flags) });
    QosMapping: |text| two(text).map(|(from, to)| QosMapping { from, to });
    Peer: |text| Peer::new(&List::new().with(IFLA_IFNAME, text.into())).ok();
}

impl<T: Told> Told for Vec<T> {
    fn told(text: &str) -> Option<Self> {
        Some(vec![T::told(text.strip_prefix('[')?.strip_suffix(']')?)?])
    }
}

fn two<T: std::str::FromStr>(text: &str) -> Option<(T, T)> {
    let (first, second) = text.split_once('/')?;
    Some((first.parse().ok()?, second.parse().ok()?))
}

fn told<T: Told>(text: &str) -> T {
    T::told(text).expect(text)
}

/// Returns the index of a link, or 0 if there is none.
fn index(name: &str) -> u32 {
    // SAFETY: the pointer is that of a string with a NUL.
    unsafe { if_nametoindex(format!("{name}\0").as_ptr().cast()) }
}

struct Netlink {
    file: File,
    sequence: u32,
}

impl Netlink {
    /// Sends a request, prints why it is refused, and returns the messages of the reply.
    fn ask(&mut self, request: Request) -> io::Result<Vec<u8>> {
        self.sequence += 1;
        let (mut reply, mut buffer) = (Vec::new(), vec![0; 1 << 17]);
        match request.sequence(self.sequence).to_bytes() {
            Ok(bytes) => self.file.write_all(&bytes)?,
            Err(error) => {
                println!("refused 0 {error}");
                return Ok(reply);
            }
        }
        loop {
            let length = self.file.read(&mut buffer)?;
            reply.extend_from_slice(&buffer[..length]);
            for message in messages(&buffer[..length]) {
                let message = message.expect("a message");
                let is_error = message.message_type() == MessageType::NLMSG_ERROR;
                if is_error && message.payload()[..4] != [0; 4] {
                    let error = i32::from_ne_bytes(message.payload()[..4].try_into().expect("four bytes"));
                    println!("refused {}", -error);
                }
                let is_last = is_error || message.message_type() == MessageType::NLMSG_DONE;
                if is_last || !message.flags().contains(MessageFlags::MULTI) {
                    return Ok(reply);
                }
            }
        }
    }

    /// Sends the request of a row, if it has one. Then prints the link and its lists.
    fn row(&mut self, name: &str, in_bridge: bool, request: Option<Request>) -> io::Result<()> {
        if let Some(request) = request {
            self.ask(request)?;
        }
        let all = Request::dump().address_family(AddressFamily::BRIDGE).with(IFLA_EXT_MASK, ExtMask::BRVLAN);
        let reply = self.ask(if in_bridge { all } else { Request::get(name) })?;
        for link in messages(&reply).flatten().filter(|it| it.is_link() && it.index() == index(name)) {
            println!("index {}", link.index());
            for list in link.lists() {
                let list = list.expect("a list");
                print!("list {}\n{list}", list.family());
            }
        }
        println!("end");
        Ok(())
    }
}

include!(env!("ROWS"));

fn main() -> io::Result<()> {
    // SAFETY: the call takes no pointers.
    let descriptor = unsafe { socket(16, 3, 0) }; // AF_NETLINK, SOCK_RAW, NETLINK_ROUTE
    assert!(descriptor >= 0);
    // SAFETY: the descriptor is new, and nothing else closes it.
    rows(Netlink { file: unsafe { File::from_raw_fd(descriptor) }, sequence: 0 })
}
