//! Numbers and flags of message headers, by the kernel's names.

use crate::macros::{bits, compared, names};
use crate::types::flags_text;

names! {
    /// Represents the type of a message, `nlmsg_type` (`include/uapi/linux/netlink.h`, `rtnetlink.h`). Numbers without a name are
    /// kept.
    MessageType: u16;
    NLMSG_NOOP = 1, "NLMSG_NOOP";
    NLMSG_ERROR = 2, "NLMSG_ERROR";
    NLMSG_DONE = 3, "NLMSG_DONE";
    NLMSG_OVERRUN = 4, "NLMSG_OVERRUN";
    RTM_NEWLINK = 16, "RTM_NEWLINK";
    RTM_DELLINK = 17, "RTM_DELLINK";
    RTM_GETLINK = 18, "RTM_GETLINK";
    RTM_SETLINK = 19, "RTM_SETLINK";
    RTM_NEWLINKPROP = 108, "RTM_NEWLINKPROP";
    RTM_DELLINKPROP = 109, "RTM_DELLINKPROP";
    RTM_GETLINKPROP = 110, "RTM_GETLINKPROP";
}

bits! {
    /// Represents `nlmsg_flags`, without `NLM_F_` (`include/uapi/linux/netlink.h`). Bits without a name are kept.
    ///
    /// The meaning of bits 8 to 11 depends on the type of the message. So they have several names, and none in texts but
    /// those of [`text_in`](MessageFlags::text_in).
    MessageFlags: u16;
    REQUEST = 0;
    MULTI = 1;
    ACK = 2;
    ECHO = 3;
    DUMP_INTR = 4;
    DUMP_FILTERED = 5;
}

impl MessageFlags {
    /// Returns the names of the flags in a message of a type, as `nlshow` prints them.
    ///
    /// ```
    /// use nlroute::{MessageFlags, MessageType};
    ///
    /// assert_eq!(MessageFlags(0x605).text_in(MessageType::RTM_NEWLINK), "REQUEST|ACK|EXCL|CREATE");
    /// ```
    pub fn text_in(self, message_type: MessageType) -> String {
        let own: &[&str] = match message_type {
            MessageType::RTM_NEWLINK | MessageType::RTM_SETLINK | MessageType::RTM_NEWLINKPROP => {
                &["REPLACE", "EXCL", "CREATE", "APPEND"]
            }
            MessageType::RTM_DELLINK | MessageType::RTM_DELLINKPROP => &["NONREC", "BULK"],
            MessageType::RTM_GETLINK | MessageType::RTM_GETLINKPROP => &["ROOT", "MATCH", "ATOMIC"],
            MessageType::NLMSG_ERROR | MessageType::NLMSG_DONE => &["CAPPED", "ACK_TLVS"],
            _ => &[],
        };
        let common = ["REQUEST", "MULTI", "ACK", "ECHO", "DUMP_INTR", "DUMP_FILTERED"];
        let names: Vec<_> = (0..).zip(common).chain((8..).zip(own.iter().copied())).collect();
        flags_text(self.0.into(), &names, "0")
    }

    /// Is bit 8 in a request that gets something.
    pub const ROOT: MessageFlags = MessageFlags(0x100);
    /// Is bit 9 in a request that gets something.
    pub const MATCH: MessageFlags = MessageFlags(0x200);
    /// Is bit 10 in a request that gets something.
    pub const ATOMIC: MessageFlags = MessageFlags(0x400);
    /// Is `ROOT` and `MATCH`: a request for all.
    pub const DUMP: MessageFlags = MessageFlags(0x300);
    /// Is bit 8 in a request that makes or changes something.
    pub const REPLACE: MessageFlags = MessageFlags(0x100);
    /// Is bit 9 in a request that makes or changes something.
    pub const EXCL: MessageFlags = MessageFlags(0x200);
    /// Is bit 10 in a request that makes or changes something.
    pub const CREATE: MessageFlags = MessageFlags(0x400);
    /// Is bit 11 in a request that makes or changes something.
    pub const APPEND: MessageFlags = MessageFlags(0x800);
    /// Is bit 8 in a request that deletes something.
    pub const NONREC: MessageFlags = MessageFlags(0x100);
    /// Is bit 9 in a request that deletes something.
    pub const BULK: MessageFlags = MessageFlags(0x200);
    /// Is bit 8 in a reply.
    pub const CAPPED: MessageFlags = MessageFlags(0x100);
    /// Is bit 9 in a reply.
    pub const ACK_TLVS: MessageFlags = MessageFlags(0x200);
}

bits! {
    /// Represents flags of a link, `ifi_flags` and `ifi_change`, without `IFF_` (`include/uapi/linux/if.h`). Bits without a name
    /// are kept.
    LinkFlags: u32;
    UP = 0;
    BROADCAST = 1;
    DEBUG = 2;
    LOOPBACK = 3;
    POINTOPOINT = 4;
    NOTRAILERS = 5;
    RUNNING = 6;
    NOARP = 7;
    PROMISC = 8;
    ALLMULTI = 9;
    MASTER = 10;
    SLAVE = 11;
    MULTICAST = 12;
    PORTSEL = 13;
    AUTOMEDIA = 14;
    DYNAMIC = 15;
    LOWER_UP = 16;
    DORMANT = 17;
    ECHO = 18;
}

names! {
    /// Represents an address family, as `ifi_family` has it (`include/linux/socket.h`). Numbers without a name are kept.
    AddressFamily: u8;
    UNSPEC = 0, "AF_UNSPEC";
    INET = 2, "AF_INET";
    BRIDGE = 7, "AF_BRIDGE";
    INET6 = 10, "AF_INET6";
    PACKET = 17, "AF_PACKET";
    MPLS = 28, "AF_MPLS";
    MCTP = 45, "AF_MCTP";
}

compared! {
    MessageType: u16;
    MessageFlags: u16;
    LinkFlags: u32;
    AddressFamily: u8;
}
