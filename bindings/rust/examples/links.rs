//! Prints the attributes of the machine's links: of bonds, bridges, VLANs and so on, and of bond and bridge ports. Any
//! user may run it. With a file as argument, it prints the links of the messages in that instead.

use nlroute::{messages, Family, Fault, Message, MessageType, IFLA_IFNAME};
use std::fs::{self, File};
use std::io::{self, Read, Write};
use std::os::raw::c_int;
use std::os::unix::io::{FromRawFd, OwnedFd};

extern "C" {
    fn socket(domain: c_int, kind: c_int, protocol: c_int) -> c_int;
}

// linux/socket.h, linux/netlink.h, linux/rtnetlink.h
const AF_NETLINK: c_int = 16;
const SOCK_RAW: c_int = 3;
const SOCK_CLOEXEC: c_int = 0o2_000_000;
const NETLINK_ROUTE: c_int = 0;
const RTM_GETLINK: u16 = 18;
const NLM_F_REQUEST_DUMP: u16 = 0x301;
const HEADERS: usize = 32; // struct nlmsghdr and struct ifinfomsg

/// Prints a link: its name, and the lists that its attributes hold, but not those of its address families.
fn print_link(message: &Message<'_>) -> Result<(), Fault> {
    let name = message.attributes()?.get(IFLA_IFNAME);
    println!("{}: {}", message.index(), name.map_or_else(String::new, |name| name.to_string()));
    for list in message.lists().skip(1) {
        let list = list?;
        if !matches!(list.family(), Family::AfSpec | Family::Inet | Family::Inet6 | Family::Mctp) {
            println!("  {}", list.family());
            list.to_string().lines().for_each(|line| println!("    {line}"));
        }
    }
    Ok(())
}

/// Prints the links of the messages in a buffer. Returns whether more messages follow.
fn print_links(buffer: &[u8]) -> bool {
    for message in messages(buffer) {
        match message {
            Ok(message) if message.message_type() == MessageType::RTM_NEWLINK => {
                print_link(&message).unwrap_or_else(|fault| println!("    {fault}"));
            }
            Ok(message) if matches!(message.message_type(), MessageType::NLMSG_DONE | MessageType::NLMSG_ERROR) => {
                return false
            }
            Ok(_) => {}
            Err(fault) => println!("{fault}"),
        }
    }
    true
}

/// Asks the kernel for all links.
fn request() -> io::Result<File> {
    // SAFETY: the call takes no pointers.
    let descriptor = unsafe { socket(AF_NETLINK, SOCK_RAW | SOCK_CLOEXEC, NETLINK_ROUTE) };
    if descriptor < 0 {
        return Err(io::Error::last_os_error());
    }
    // SAFETY: the descriptor is new, and nothing else closes it.
    let mut netlink = File::from(unsafe { OwnedFd::from_raw_fd(descriptor) });
    let mut message = [0; HEADERS];
    message[..4].copy_from_slice(&(HEADERS as u32).to_ne_bytes());
    message[4..6].copy_from_slice(&RTM_GETLINK.to_ne_bytes());
    message[6..8].copy_from_slice(&NLM_F_REQUEST_DUMP.to_ne_bytes());
    netlink.write_all(&message)?;
    Ok(netlink)
}

fn main() -> io::Result<()> {
    if let Some(file) = std::env::args_os().nth(1) {
        print_links(&fs::read(file)?);
        return Ok(());
    }
    let mut netlink = request()?;
    let mut buffer = vec![0; 1 << 16];
    loop {
        let length = netlink.read(&mut buffer)?;
        if length == 0 || !print_links(&buffer[..length]) {
            return Ok(());
        }
    }
}
