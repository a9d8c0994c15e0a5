//! Requests about links, byte for byte as iproute2 6.1 sends them, and requests that cannot be written.

use nlroute::*;

/// The requests of iproute2, with the command of each.
const REQUESTS: &str = include_str!("../../requests.tsv");

/// Returns the bytes of the request of a command.
fn sent(command: &str) -> Vec<u8> {
    let hex = REQUESTS.lines().find_map(|line| line.strip_prefix(command)?.strip_prefix('\t')).expect(command);
    (0..hex.len() / 2).map(|at| u8::from_str_radix(&hex[2 * at..2 * at + 2], 16).expect("hex digits")).collect()
}

/// Returns the request that makes a link whose name follows other attributes.
fn unnamed() -> Request {
    Request::new(16, 0x604, 0)
}

/// An attribute: `nla_len` and `nla_type`, the payload in parts, and padding.
fn attribute(kind: u16, parts: &[&[u8]]) -> Vec<u8> {
    let payload = parts.concat();
    let mut bytes = [(4 + payload.len() as u16).to_ne_bytes(), kind.to_ne_bytes()].concat();
    bytes.extend(payload);
    bytes.resize((bytes.len() + 3) / 4 * 4, 0);
    bytes
}

/// An attribute that is a u32.
fn number(kind: u16, value: u32) -> Vec<u8> {
    attribute(kind, &[&value.to_ne_bytes()])
}

/// The attributes of a request that can be written.
fn attributes(request: &Request) -> Vec<u8> {
    request.to_bytes().expect("the request can be written").split_off(32)
}

/// Checks that a request cannot be written, and why.
fn refuse(request: &Request, name: &str, index: usize, code: Code) {
    let error = request.to_bytes().expect_err(name);
    assert_eq!((error.name.as_str(), error.index, error.code), (name, index, code));
}

fn bond() -> List<'static, Bond> {
    List::new().with(IFLA_BOND_MIIMON, 150)
}

fn port() -> List<'static, BridgePort> {
    List::new().with(IFLA_BRPORT_COST, 44)
}

/// An IFLA_LINKINFO (18) of the bond, which is the bridge port: its elements are of types 1, 2, 4 and 5.
fn both() -> Vec<u8> {
    let (data, port_data) = (attribute(2, &[&number(3, 150)]), attribute(5, &[&number(3, 44)]));
    attribute(18, &[&attribute(1, &[b"bond"]), &data, &attribute(4, &[b"bridge"]), &port_data])
}

#[test]
fn requests_are_those_of_iproute2() {
    let bond = List::<Bond>::new()
        .with(IFLA_BOND_MODE, BondMode::IEEE8023AD)
        .with(IFLA_BOND_MIIMON, 100)
        .with(IFLA_BOND_AD_LACP_RATE, BondAdLacpRate::from(1))
        .with(IFLA_BOND_XMIT_HASH_POLICY, BondXmitHashPolicy::from(1))
        .with(IFLA_BOND_AD_SELECT, BondAdSelect::from(1));
    let gvrp = VlanFlags::GVRP | VlanFlags::LOOSE_BINDING;
    let vlan = List::<Vlan>::new()
        .with(IFLA_VLAN_PROTOCOL, VlanProtocol(0x88A8))
        .with(IFLA_VLAN_ID, 6)
        .with(IFLA_VLAN_INGRESS_QOS, vec![QosMapping { from: 1, to: 2 }, QosMapping { from: 3, to: 4 }])
        .with(IFLA_VLAN_EGRESS_QOS, vec![QosMapping { from: 5, to: 6 }])
        .with(IFLA_VLAN_FLAGS, Masked { flags: gvrp, mask: gvrp });
    let timing = CanBitTiming { bitrate: 500_000, ..CanBitTiming::default() };
    let modes = CanCtrlMode::LOOPBACK | CanCtrlMode::ONE_SHOT | CanCtrlMode::FD;
    let can = List::<Can>::new()
        .with(IFLA_CAN_RESTART_MS, 100)
        .with(IFLA_CAN_TERMINATION, 120)
        .with(IFLA_CAN_BITTIMING, timing)
        .with(IFLA_CAN_DATA_BITTIMING, CanBitTiming { bitrate: 2_000_000, ..timing })
        .with(IFLA_CAN_CTRLMODE, Masked { flags: modes, mask: modes });
    let port = List::<BondPort>::new().with(IFLA_BOND_SLAVE_QUEUE_ID, 3).with(IFLA_BOND_SLAVE_PRIO, -1);
    let vlans = |flags, vid| VlanInfo { vid, flags: BridgeVlanFlags(flags) };
    let range = List::<AfSpecBridge>::new()
        .with(IFLA_BRIDGE_VLAN_INFO, vlans(8, 100))
        .with(IFLA_BRIDGE_VLAN_INFO, vlans(16, 200));
    let name = |name| Nested::<PropList>::new().with(prop_list::IFLA_ALT_IFNAME, Text::from(name));
    let two_names = name("second").with(prop_list::IFLA_ALT_IFNAME, Text::from("third"));
    let mac = |last| Mac([2, 0, 0, 0, 0, last]);
    let peer = List::<Link>::new()
        .with(IFLA_MTU, 1300)
        .with(IFLA_ADDRESS, mac(1).0.to_vec())
        .with(IFLA_IFNAME, Text::from("e1"));
    let peer = Peer::new(&peer).expect("the list can be written");
    let rows = [
        ("ip link add br0 type bridge", Request::create("br0").options(&List::<Bridge>::new())),
        ("ip link add br0 type bridge", Request::create("br0").kind("bridge")),
        (
            "ip link add bond0 type bond mode 802.3ad miimon 100 lacp_rate fast xmit_hash_policy layer3+4 ad_select bandwidth",
            Request::create("bond0").options(&bond),
        ),
        (
            "ip link add link lo name v6 type vlan proto 802.1ad id 6 gvrp on loose_binding on ingress-qos-map 1:2 3:4 egress-qos-map 5:6",
            unnamed().link(1).named("v6").options(&vlan),
        ),
        (
            "ip link add can9 type can bitrate 500000 dbitrate 2000000 fd on loopback on one-shot on restart-ms 100 termination 120",
            Request::create("can9").options(&can),
        ),
        ("ip link set va master br0", Request::change(3).master(4)),
        ("ip link set va type bond_slave queue_id 3 prio -1", Request::change(3).kind("bond_slave").options(&port)),
        ("ip link set va down", Request::change(3).down()),
        (
            "ip link set va up mtu 9000 address 02:00:00:00:00:01",
            Request::change(3).up().mtu(9000).address(mac(1)),
        ),
        ("ip link set va name vx", Request::change(3).named("vx")),
        ("ip link set va alias upstream", Request::change(3).with(IFLA_IFALIAS, Text(b"upstream".to_vec()))),
        ("ip link del va", Request::delete(3)),
        ("ip link del br0 type bridge", Request::delete(4).kind("bridge")),
        ("ip link property add dev va altname another", Request::property(3).with(IFLA_PROP_LIST, name("another"))),
        (
            "ip link property add dev p2 altname enp2s0f0np0",
            Request::property(18).with(IFLA_PROP_LIST, name("enp2s0f0np0")),
        ),
        (
            "ip link property add dev p2 altname second altname third",
            Request::property(18).with(IFLA_PROP_LIST, two_names),
        ),
        (
            "ip link property del dev p2 altname enp2s0f0np0",
            Request::property_delete(18).with(IFLA_PROP_LIST, name("enp2s0f0np0")),
        ),
        (
            "ip link add e0 mtu 1400 type veth peer name e1 mtu 1300 address 02:00:00:00:00:01",
            unnamed().mtu(1400).named("e0").options(&List::<Veth>::new().with(VETH_INFO_PEER, peer)),
        ),
        ("bridge vlan add dev va vid 100-200", Request::bridge(3).options(&range)),
        ("bridge link show", Request::dump().address_family(7)),
        ("ip link show dev va", Request::get_index(2).with(IFLA_EXT_MASK, ExtMask(9))),
    ];
    for (command, request) in rows {
        assert_eq!(request.sequence(1).to_bytes().expect(command), sent(command), "{command}");
    }
}

#[test]
fn first_error_is_found() {
    let bond = List::<Bond>::new().with(IFLA_BOND_MODE, BondMode::IEEE8023AD).with(IFLA_BOND_MIIMON, 100);
    let vlan = List::<Vlan>::new().with(IFLA_VLAN_ID, 5).with(IFLA_VLAN_PROTOCOL, VlanProtocol(1));
    let rows = [
        (Request::create("a").options(&vlan), "IFLA_VLAN_PROTOCOL", 1, Code::BadNumber),
        (Request::create("a").mtu(9).named("a b").options(&vlan), "IFLA_IFNAME", 2, Code::BadName),
        (Request::create("sixteen-bytes-xx"), "IFLA_IFNAME", 0, Code::BadName),
        (Request::create("a").kind(""), "IFLA_INFO_KIND", 1, Code::BadName),
        (Request::create("a").kind("zz9").options(&bond), "IFLA_INFO_DATA", 1, Code::NoSet),
        (Request::create("a").options(&List::<Inet6>::new()), "inet6", 0, Code::NoSet),
        (Request::delete(0), "ifi_index", 0, Code::NoIndex),
        (Request::change(u32::MAX), "ifi_index", 0, Code::NoIndex),
        (Request::new(MessageType(20), MessageFlags::ACK, 1), "nlmsg_type", 0, Code::BadType),
    ];
    for (request, name, index, code) in rows {
        let error = request.to_bytes().expect_err(name);
        assert_eq!((error.name.as_str(), error.index, error.code), (name, index, code));
    }
}

#[test]
fn data_of_device_and_port_are_beside_each_other() {
    let none = List::<Bond>::new();
    for request in [
        Request::change(3).options(&bond()).options(&port()),
        Request::change(3).options(&port()).options(&bond()),
        Request::change(3).kind("bond").options(&bond()).options(&port()),
        Request::change(3).options(&port()).options(&bond()).options(&none).options(&List::<BridgePort>::new()),
    ] {
        assert_eq!(attributes(&request), both());
    }
    let kind = |kind: &[u8]| attribute(1, &[kind]);
    let [port_kind, port_data] = [attribute(4, &[b"bridge"]), attribute(5, &[&number(3, 44)])];
    let macvlan = List::<Macvlan>::new().with(IFLA_MACVLAN_MODE, MacvlanMode::from(4));
    let no_port = List::<BridgePort>::new();
    let rows: [(Request, &[&[u8]]); 11] = [
        // a kind of a device without data
        (Request::change(3).kind("dummy").options(&port()), &[&kind(b"dummy"), &port_kind, &port_data]),
        (Request::change(3).kind("bridge").options(&port()), &[&kind(b"bridge"), &port_kind, &port_data]),
        (Request::change(3).options(&none).options(&port()), &[&kind(b"bond"), &port_kind, &port_data]),
        // another kind with the same set
        (
            Request::change(3).kind("macvtap").options(&port()).options(&macvlan),
            &[&kind(b"macvtap"), &attribute(2, &[&number(1, 4)]), &port_kind, &port_data],
        ),
        // a kind that announces the set of port data
        (Request::change(3).kind("bridge_slave").options(&port()), &[&kind(b"bridge_slave"), &port_data]),
        // a port without data
        (Request::change(3).options(&no_port), &[&port_kind]),
        (
            Request::change(3).options(&bond()).options(&no_port),
            &[&kind(b"bond"), &attribute(2, &[&number(3, 150)]), &port_kind],
        ),
        (Request::change(3).kind("bridge_slave").options(&no_port), &[&kind(b"bridge_slave")]),
        (Request::change(3).kind("dummy").options(&no_port), &[&kind(b"dummy")]),
        // a kind that has no set, and options without values
        (Request::change(3).kind("dummy").options(&none), &[&kind(b"dummy")]),
        (Request::change(3).kind("dummy").options(&none).options(&port()), &[&kind(b"dummy"), &port_kind, &port_data]),
    ];
    for (request, parts) in rows {
        assert_eq!(attributes(&request), attribute(18, parts), "{request:?}");
    }
}

#[test]
fn lists_of_a_set_are_joined() {
    let igmp = List::<Bond>::new().with(IFLA_BOND_RESEND_IGMP, 2);
    let priority = List::<BridgePort>::new().with(IFLA_BRPORT_PRIORITY, 3);
    let vlan =
        |vid| List::<AfSpecBridge>::new().with(IFLA_BRIDGE_VLAN_INFO, VlanInfo { vid, flags: BridgeVlanFlags(6) });
    let inet = List::<AfSpec>::new().with(AF_INET, Held(vec![]));
    let inet6 = List::<AfSpec>::new().with(AF_INET6, Held(attribute(8, &[&[1]])));
    let kind = attribute(1, &[b"bond"]);
    let data = attribute(2, &[&number(3, 150), &number(15, 2), &number(3, 150)]);
    let ports = [number(3, 44), attribute(2, &[&[3, 0]])].concat();
    let port_data = [attribute(4, &[b"bridge"]), attribute(5, &[&ports])].concat();
    let vlans = [attribute(2, &[&[6, 0, 10, 0]]), attribute(2, &[&[6, 0, 20, 0]])].concat();
    let mtu = List::<Link>::new().with(IFLA_MTU, 9);
    let rows = [
        (Request::change(3).options(&bond()).options(&igmp).options(&bond()), attribute(18, &[&kind, &data])),
        (Request::change(3).options(&port()).options(&priority), attribute(18, &[&port_data])),
        (
            Request::change(3).options(&bond()).options(&port()).options(&igmp).options(&priority).options(&bond()),
            attribute(18, &[&kind, &data, &port_data]),
        ),
        (
            Request::change(3).options(&List::<Bond>::new()).options(&bond()),
            attribute(18, &[&kind, &attribute(2, &[&number(3, 150)])]),
        ),
        (
            Request::change(3).options(&inet).options(&inet6),
            attribute(26, &[&attribute(2, &[]), &attribute(10, &[&attribute(8, &[&[1]])])]),
        ),
        (
            Request::bridge(3).options(&vlan(10)).options(&port()).options(&vlan(20)).options(&priority),
            [attribute(26, &[&vlans]), attribute(12 | 0x8000, &[&ports])].concat(),
        ),
        // other attributes stay where they are; a list without values has no place
        (
            Request::change(3).options(&List::<AfSpec>::new()).options(&bond()).options(&mtu).options(&inet).mtu(8),
            [
                number(4, 8),
                attribute(18, &[&kind, &attribute(2, &[&number(3, 150)])]),
                number(4, 9),
                attribute(26, &[&attribute(2, &[])]),
            ]
            .concat(),
        ),
    ];
    for (request, expected) in rows {
        assert_eq!(attributes(&request), expected, "{request:?}");
    }
}

#[test]
fn options_of_other_sets_are_refused() {
    let vlan = List::<Vlan>::new().with(IFLA_VLAN_ID, 5);
    let geneve = List::<Geneve>::new().with(IFLA_GENEVE_ID, 5);
    let macvlan = List::<Macvlan>::new().with(IFLA_MACVLAN_MODE, MacvlanMode::from(4));
    let bond_port = List::<BondPort>::new().with(IFLA_BOND_SLAVE_PRIO, 1);
    let change = || Request::change(3);
    let (data, port_data) = ("IFLA_INFO_DATA", "IFLA_INFO_SLAVE_DATA");
    let rows = [
        // of two devices, or two ports
        (change().options(&bond()).options(&vlan), data, 0),
        (change().options(&vlan).mtu(9).options(&bond()), data, 1),
        (change().options(&bond()).options(&List::<Vlan>::new()), data, 0),
        (change().options(&bond()).options(&port()).options(&vlan), data, 0),
        (change().options(&port()).options(&bond_port), port_data, 0),
        (change().options(&bond_port).options(&bond()).options(&List::<BridgePort>::new()), port_data, 0),
        (change().mtu(9).kind("bridge_slave").options(&port()).options(&bond_port), port_data, 1),
        (Request::bridge(3).options(&port()).options(&bond()).options(&vlan), "bond", 0),
        (Request::bridge(3).options(&port()).options(&bond_port), "bond_port", 0),
        // of another kind
        (change().kind("vxlan").options(&geneve), data, 0),
        (change().options(&geneve).kind("vxlan"), data, 0),
        (change().kind("vxlan").options(&List::<Geneve>::new()), data, 0),
        (change().kind("dummy").options(&bond()), data, 0),
        (change().kind("dummy").options(&List::<Bond>::new()).options(&bond()), data, 0),
        (change().kind("dummy").options(&List::<Bond>::new()).options(&List::<Vlan>::new()), data, 0),
        (change().kind("bond_port").options(&bond()), data, 0),
        (change().kind("macvtap").options(&macvlan).options(&bond()), data, 0),
        (change().kind("bridge_slave").options(&bond()).options(&port()), data, 0),
        (change().kind("bond_slave").options(&port()), port_data, 0),
        (change().kind("bond_slave").options(&List::<BridgePort>::new()), port_data, 0),
        (change().kind("bridge_slave").options(&bond_port), port_data, 0),
    ];
    for (request, name, index) in rows {
        refuse(&request, name, index, Code::NoSet);
    }
    for (kind, request) in [
        ("geneve", change().options(&geneve)),
        ("macvtap", change().options(&macvlan)),
        ("bond\0", change().options(&bond())),
        ("vxcan", change().options(&List::<Veth>::new().with(VETH_INFO_PEER, Peer::default()))),
    ] {
        assert_eq!(
            attributes(&request.kind(kind))[4..][..4 + kind.len()],
            attribute(1, &[kind.as_bytes()])[..4 + kind.len()]
        );
    }
}

#[test]
fn a_message_has_one_of_each_list() {
    let kind = Nested::<LinkInfo>::new().with(IFLA_INFO_KIND, Text::from("bond"));
    let info = List::<Link>::new().with(IFLA_LINKINFO, kind.clone());
    let mut protinfo = List::<Link>::new();
    protinfo.push_unknown(12, 0x8000, &[]);
    let spec = List::<AfSpec>::new().with(AF_INET, Held(vec![]));
    let vlans = List::<AfSpecBridge>::new().with(IFLA_BRIDGE_VLAN_INFO, VlanInfo::default());
    let held = || Held(vec![]);
    let (change, bridge) = (|| Request::change(3), || Request::bridge(3));
    let rows = [
        (change().with(IFLA_LINKINFO, kind.clone()).options(&bond()), "IFLA_LINKINFO", 1),
        (change().options(&bond()).with(IFLA_LINKINFO, kind.clone()), "IFLA_LINKINFO", 1),
        (change().mtu(9).with(IFLA_LINKINFO, Nested::new()).options(&port()), "IFLA_LINKINFO", 2),
        (change().with(IFLA_LINKINFO, kind.clone()).kind("bond"), "IFLA_LINKINFO", 1),
        (change().with(IFLA_LINKINFO, kind.clone()).with(IFLA_LINKINFO, kind), "IFLA_LINKINFO", 1),
        (change().options(&bond()).options(&info), "IFLA_LINKINFO", 1),
        (change().options(&info).kind("dummy"), "IFLA_LINKINFO", 1),
        (change().with(IFLA_AF_SPEC, held()).options(&spec), "IFLA_AF_SPEC", 1),
        (change().options(&spec).options(&List::new().with(IFLA_MTU, 9).with(IFLA_AF_SPEC, held())), "IFLA_AF_SPEC", 2),
        (bridge().with(IFLA_AF_SPEC, held()).options(&vlans), "IFLA_AF_SPEC", 1),
        (bridge().options(&protinfo).options(&port()), "IFLA_PROTINFO", 1),
        (bridge().options(&port()).options(&protinfo), "type 12", 1),
        (change().options(&protinfo).options(&protinfo), "type 12", 1),
    ];
    for (request, name, index) in rows {
        refuse(&request, name, index, Code::Repeated);
    }
    // options without values need no attribute
    let request = change().with(IFLA_AF_SPEC, held()).options(&List::<AfSpec>::new());
    assert_eq!(attributes(&request), attribute(26, &[]));
    let request = bridge().options(&protinfo).options(&List::<BridgePort>::new());
    assert_eq!(attributes(&request), attribute(12 | 0x8000, &[]));
    assert_eq!(Code::Repeated.to_string(), "the message has a second list of this type");
}

#[test]
fn first_error_is_found_in_the_list_that_was_passed() {
    let wrong = List::<Vlan>::new().with(IFLA_VLAN_ID, 5).with(IFLA_VLAN_PROTOCOL, VlanProtocol(1));
    let right = List::<Vlan>::new().with(IFLA_VLAN_ID, 5);
    let wrong_name = List::<Link>::new().with(IFLA_IFNAME, Text::from("a b"));
    let mut long = List::<BridgePort>::new();
    long.push_unknown(999, 0, &[0; 40_000]);
    let change = || Request::change(3);
    let protocol = ("IFLA_VLAN_PROTOCOL", 1, Code::BadNumber);
    let rows = [
        (change().options(&right).options(&wrong), protocol),
        (change().options(&wrong).options(&right), protocol),
        (change().options(&port()).options(&right).options(&port()).options(&wrong), protocol),
        (change().mtu(9).options(&wrong_name), ("IFLA_IFNAME", 1, Code::BadName)),
        // the two lists are too long together
        (change().mtu(9).options(&long).options(&long), ("IFLA_INFO_SLAVE_DATA", 1, Code::TooLong)),
        (Request::bridge(3).options(&long).options(&long), ("IFLA_PROTINFO", 0, Code::TooLong)),
        // what is before a contradiction
        (Request::delete(0).kind("vxlan").options(&bond()), ("ifi_index", 0, Code::NoIndex)),
        (Request::create("a b").kind("vxlan").options(&bond()), ("IFLA_IFNAME", 0, Code::BadName)),
        (change().kind("").options(&bond()), ("IFLA_INFO_KIND", 0, Code::BadName)),
        (change().options(&wrong).options(&port()).options(&List::<VrfPort>::new()), protocol),
        // and after it
        (change().options(&wrong).options(&bond()), ("IFLA_INFO_DATA", 0, Code::NoSet)),
    ];
    for (request, (name, index, code)) in rows {
        refuse(&request, name, index, code);
    }
}

#[test]
fn attributes_of_the_message_are_set_and_sent_again() -> Result<(), Error> {
    // a number, a name, bytes, a struct, an array of numbers, an enum, a signed number, flags, a boolean, and lists
    let names = Nested::<PropList>::new().with(prop_list::IFLA_ALT_IFNAME, Text::from("second"));
    let reason = Nested::<ProtoDownReason>::new().with(IFLA_PROTO_DOWN_REASON_MASK, 1);
    let mut unknown = List::<Link>::new();
    unknown.push_unknown(999, 0x8000, &[1, 2]);
    let request = Request::change(3)
        .with(IFLA_TXQLEN, 1000)
        .with(IFLA_IFALIAS, Text(b"upstream".to_vec()))
        .with(IFLA_BROADCAST, vec![0xFF; 6])
        .with(IFLA_MAP, vec![7; 32])
        .with(IFLA_STATS64, vec![1, 2])
        .with(IFLA_LINKMODE, LinkMode::from(1))
        .with(IFLA_LINK_NETNSID, -1)
        .with(IFLA_EXT_MASK, ExtMask(9))
        .with(IFLA_PROTO_DOWN, true)
        .with(IFLA_PROP_LIST, names)
        .with(IFLA_PROTO_DOWN_REASON, reason)
        .options(&bond())
        .options(&port())
        .options(&List::<AfSpec>::new().with(AF_INET6, Held(attribute(8, &[&[1]]))))
        .options(&unknown);
    let bytes = request.to_bytes()?;
    let message = messages(&bytes).next().expect("there is a message")?;
    let list = message.attributes()?;
    assert_eq!((list.len(), list.get(IFLA_TXQLEN), list.get(IFLA_LINK_NETNSID)), (14, Some(1000), Some(-1)));
    assert_eq!(message.held::<Bond>()?.map(|list| list.get(IFLA_BOND_MIIMON)), Some(Some(150)));
    assert_eq!(Request::change(3).options(&list).to_bytes()?, bytes);
    let names = list.get(IFLA_PROP_LIST).expect("it was set");
    assert_eq!(attributes(&Request::change(3).with(IFLA_PROP_LIST, names)).len(), 4 + 12);
    // of AF_BRIDGE
    let bytes = Request::bridge(3).options(&port()).mtu(9).to_bytes()?;
    let message = messages(&bytes).next().expect("there is a message")?;
    assert_eq!(Request::bridge(3).options(&message.attributes()?).to_bytes()?, bytes);
    Ok(())
}

#[test]
fn a_request_is_printed_for_debugging() {
    let bond = List::<Bond>::new().with(IFLA_BOND_MODE, BondMode::IEEE8023AD).with(IFLA_BOND_MIIMON, 100);
    let request = Request::change(3).master(7).up().options(&bond);
    let head = "Request { message_type: MessageType(RTM_NEWLINK), flags: ACK, index: 3, ";
    let rest = "link_flags: UP, change: UP, attributes: [IFLA_MASTER: Unsigned(7)], \
                bond: [IFLA_BOND_MODE: Named(4), IFLA_BOND_MIIMON: Unsigned(100)] }";
    assert_eq!(format!("{request:?}"), format!("{head}{rest}"));
    let words = format!("{:?}", Request::create("d0").kind("dummy").sequence(5));
    assert!(words.starts_with(
        "Request { message_type: MessageType(RTM_NEWLINK), flags: ACK|EXCL|CREATE, index: 0, sequence: 5, "
    ));
    assert!(words.ends_with("kind: \"dummy\" }"), "{words}");
    let words = format!("{:?}", Request::bridge(3));
    let bridge = "Request { message_type: MessageType(RTM_SETLINK), flags: ACK, index: 3, address_family: AddressFamily(AF_BRIDGE) }";
    assert_eq!(words, bridge);
}

#[test]
fn a_peer_has_a_header_and_attributes() -> Result<(), WriteError> {
    // struct ifinfomsg: ifi_family, padding, ifi_type, ifi_index, ifi_flags, ifi_change; then an IFLA_MTU (4)
    let attributes = List::<Link>::new().with(IFLA_MTU, 1300);
    let peer = Peer::new(&attributes)?.with_index(5);
    let header = [vec![0; 4], 5u32.to_ne_bytes().to_vec(), vec![0; 8]].concat();
    let netkit = List::<Netkit>::new().with(IFLA_NETKIT_PEER_INFO, peer.clone());
    assert_eq!(netkit.to_bytes()?, attribute(1, &[&header, &number(4, 1300)]));
    assert_eq!((peer.index(), peer.read()), (5, Ok(attributes)));
    let long = List::<Link>::new().with(IFLA_IFALIAS, Text(vec![b'a'; 65532]));
    let error = Peer::new(&long).expect_err("the alias is too long");
    assert_eq!((error.name.as_str(), error.code), ("IFLA_IFALIAS", Code::TooLong));
    Ok(())
}
