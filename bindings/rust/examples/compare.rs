//! Reads lists as bindings/compare.py gives them, changes some, writes them again, and prints what the crate returns.
//! compare.py describes the lines.

use nlroute::*;
use std::io::{self, BufRead, Write};
use std::net::Ipv4Addr;

type Printed = io::Result<()>;

/// What a line of the input has.
struct Input {
    family: Family,
    changes: bool,
    number: u32,
    bytes: Vec<u8>,
}

fn parse(line: &str) -> Option<Input> {
    let mut words = line.split(' ');
    let family = *Family::ALL.get(words.next()?.parse::<usize>().ok()?)?;
    let changes = words.next()? == "1";
    let number = words.next()?.parse().ok()?;
    let digits = words.next()?.strip_prefix('=')?;
    let bytes = (0..digits.len() / 2).map(|at| u8::from_str_radix(&digits[2 * at..2 * at + 2], 16).ok());
    Some(Input { family, changes, number, bytes: bytes.collect::<Option<_>>()? })
}

fn hex(bytes: &[u8]) -> String {
    bytes.iter().map(|byte| format!("{byte:02x}")).collect()
}

fn content(value: &Value<'_>) -> String {
    match value.content() {
        Content::Empty => "empty".to_string(),
        Content::Bool(is) => format!("bool {}", u8::from(is)),
        Content::Unsigned(number) => format!("unsigned {number}"),
        Content::Signed(number) => format!("signed {number}"),
        Content::Named(number) => format!("named {number}"),
        Content::Flags(flags) => format!("flags {flags}"),
        Content::Masked(Masked { flags, mask }) => format!("masked {flags} {mask}"),
        Content::Mac(Mac(octets)) => format!("mac {}", hex(&octets)),
        Content::Ipv4(address) => format!("ipv4 {}", hex(&address.octets())),
        Content::Ipv6(address) => format!("ipv6 {}", hex(&address.octets())),
        Content::BridgeId(id) => format!("bridge_id {} {}", id.priority, hex(&id.address.0)),
        Content::VlanInfo(info) => format!("vlan_info {} {}", info.vid, info.flags.0),
        Content::QosMapping(it) => format!("qos_mapping {} {}", it.from, it.to),
        Content::BerrCounter(it) => format!("berr_counter {} {}", it.txerr, it.rxerr),
        Content::CanBitTiming(it) => format!("bittiming {}", timing(&it)),
        Content::CanBitTimingConst(it) => limits(&it),
        Content::Bytes(bytes) => format!("bytes {}", hex(bytes)),
        Content::Text(bytes) => format!("text {}", hex(bytes)),
        Content::Held(bytes) => format!("held {}", hex(bytes)),
        Content::Peer(bytes) => format!("peer {}", hex(bytes)),
        Content::List(elements) => format!("list {}", elements.count()),
        Content::Unknown { flags, payload } => format!("unknown {flags} {}", hex(payload)),
        other => format!("{other:?}"),
    }
}

fn timing(it: &CanBitTiming) -> String {
    let first = format!("{} {} {} {}", it.bitrate, it.sample_point, it.tq, it.prop_seg);
    format!("{first} {} {} {} {}", it.phase_seg1, it.phase_seg2, it.sjw, it.brp)
}

fn limits(it: &CanBitTimingConst) -> String {
    let name: Vec<u8> = it.name.iter().copied().take(15).take_while(|&byte| byte != 0).collect();
    let first = format!("{} {} {} {}", it.tseg1_min, it.tseg1_max, it.tseg2_min, it.tseg2_max);
    format!("bittiming_const {} {first} {} {} {} {}", hex(&name), it.sjw_max, it.brp_min, it.brp_max, it.brp_inc)
}

fn print_value(out: &mut impl Write, depth: usize, value: &Value<'_>) -> Printed {
    writeln!(out, "value {depth} {} {} {}", value.kind(), value.name(), content(value))?;
    value.elements().try_for_each(|element| print_value(out, depth + 1, &element))
}

fn print_fault(out: &mut impl Write, fault: &Fault) -> Printed {
    let (place, kind, inner) = match fault.place() {
        Place::Frame => (0, 0, 0),
        Place::Payload { kind } => (1, kind, 0),
        Place::ElementFrame { kind } => (2, kind, 0),
        Place::ElementPayload { kind, inner } => (3, kind, inner),
        _ => (9, 0, 0),
    };
    let (cause, first, second) = match fault.cause() {
        Cause::ShortFrame { left } => (1, left, 0),
        Cause::SmallLength { nla_len } => (2, nla_len, 0),
        Cause::Overrun { nla_len, left } => (3, nla_len, left),
        Cause::WrongLength { expected, actual } => (4, expected, actual),
        Cause::TooShort { least, actual } => (5, least, actual),
        _ => (9, 0, 0),
    };
    writeln!(out, "fault {} {place} {cause} {kind} {inner} {first} {second}\ntext {fault}", fault.at())
}

fn code(code: Code) -> isize {
    match code {
        Code::TooLong => -2,
        Code::BadForm => -7,
        Code::BadNumber => -8,
        Code::BadElement => -9,
        Code::BadOctets => -10,
        Code::Other(number) => number,
        _ => 0,
    }
}

fn print_written(out: &mut impl Write, written: &Result<Vec<u8>, WriteError>) -> Printed {
    match written {
        Ok(bytes) => writeln!(out, "bytes {}", hex(bytes)),
        Err(it) => writeln!(out, "rejected {} {} {} {}", it.index, it.name, code(it.code), it.code),
    }
}

/// Prints the values of a list as it was read, and what is written.
fn print_list(out: &mut impl Write, input: &Input) -> Printed {
    match List::read_any(input.family, &input.bytes) {
        Err(fault) => print_fault(out, &fault),
        Ok(list) => {
            list.iter().try_for_each(|value| print_value(out, 0, &value))?;
            list.to_string().lines().try_for_each(|line| writeln!(out, "text {line}"))?;
            match (input.changes, written(input)) {
                (true, Ok(written)) => print_written(out, &written),
                _ => print_written(out, &list.to_bytes()),
            }
        }
    }
}

/// Returns what is written of a list after it was changed as compare.py describes it.
fn written(input: &Input) -> Result<Result<Vec<u8>, WriteError>, Fault> {
    let number = input.number;
    match input.family {
        Family::Bond => changed::<Bond>(input, |list| {
            let info = Nested::new()
                .with(IFLA_BOND_AD_INFO_AGGREGATOR, number as u16)
                .with(IFLA_BOND_AD_INFO_PARTNER_MAC, Mac([2, 0, 0, 0, 0, 1]));
            list.set(IFLA_BOND_MIIMON, number)
                .set(IFLA_BOND_ARP_IP_TARGET, vec![Ipv4Addr::new(10, 0, 0, 1), Ipv4Addr::new(10, 0, 0, 2)])
                .push(IFLA_BOND_AD_INFO, info);
        }),
        Family::Bridge => changed::<Bridge>(input, |list| {
            list.set(IFLA_BR_FORWARD_DELAY, number).push(IFLA_BR_MCAST_HASH_MAX, 512).remove(IFLA_BR_PRIORITY);
        }),
        Family::Vlan => changed::<Vlan>(input, |list| {
            list.set(IFLA_VLAN_FLAGS, Masked { flags: VlanFlags(number), mask: VlanFlags(number) })
                .set(IFLA_VLAN_PROTOCOL, VlanProtocol(number as u16))
                .push(IFLA_VLAN_EGRESS_QOS, vec![QosMapping { from: number, to: 1 }]);
        }),
        Family::Can => changed::<Can>(input, |list| {
            let timing = CanBitTiming { bitrate: number, sample_point: 875, ..CanBitTiming::default() };
            list.set(IFLA_CAN_BITTIMING, timing).push(IFLA_CAN_RESTART_MS, number);
        }),
        family => {
            let mut bytes = input.bytes.clone();
            bytes.resize((bytes.len() + 3) / 4 * 4, 0);
            bytes.extend([8, 0, 99, 0x80]);
            bytes.extend(number.to_le_bytes());
            Ok(List::read_any(family, &bytes)?.to_bytes())
        }
    }
}

fn changed<S: Set>(input: &Input, change: impl Fn(&mut List<'_, S>)) -> Result<Result<Vec<u8>, WriteError>, Fault> {
    let mut list = List::<S>::read(&input.bytes)?;
    change(&mut list);
    list.push_unknown(99, 0x8000, &input.number.to_le_bytes());
    Ok(list.to_bytes())
}

fn main() -> Printed {
    let mut out = io::BufWriter::new(io::stdout());
    for line in io::stdin().lock().lines() {
        let input = parse(&line?).ok_or_else(|| io::Error::new(io::ErrorKind::InvalidData, "a malformed line"))?;
        print_list(&mut out, &input)?;
        writeln!(out, "end")?;
    }
    out.flush()
}
