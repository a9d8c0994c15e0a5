//! Prints the requests of a network manager: it makes a bond with two ports, a VLAN device on it, and a bridge that filters
//! VLANs, with this device as its port; then it changes the bond and the VLAN device, and deletes all three.
//!
//! It opens no socket. A manager sends each request after the acknowledgement of the one before, and reads the indexes of new
//! links from the kernel.

use nlroute::*;

// Interface indexes.
const ETH1: u32 = 3;
const ETH2: u32 = 4;
const BOND: u32 = 10;
const VLAN: u32 = 11;
const BRIDGE: u32 = 12;

/// Returns what the manager does, and the request for it.
fn requests() -> Vec<(&'static str, Request)> {
    let bond = List::<Bond>::new()
        .with(IFLA_BOND_MODE, BondMode::IEEE8023AD)
        .with(IFLA_BOND_MIIMON, 100)
        .with(IFLA_BOND_XMIT_HASH_POLICY, BondXmitHashPolicy::LAYER3_4);
    let vlan = List::<Vlan>::new().with(IFLA_VLAN_ID, 100);
    let loose = Masked { flags: VlanFlags::LOOSE_BINDING, mask: VlanFlags::LOOSE_BINDING };
    let binding = List::<Vlan>::new().with(IFLA_VLAN_FLAGS, loose);
    let bridge = List::<Bridge>::new()
        .with(IFLA_BR_VLAN_FILTERING, true)
        .with(IFLA_BR_VLAN_DEFAULT_PVID, 0)
        .with(IFLA_BR_STP_STATE, BridgeStpState::NO);
    let port = List::<BridgePort>::new().with(IFLA_BRPORT_COST, 44);
    let untagged = VlanInfo { vid: 100, flags: BridgeVlanFlags::PVID | BridgeVlanFlags::UNTAGGED };
    let vlans = List::<AfSpecBridge>::new().with(IFLA_BRIDGE_VLAN_INFO, untagged);
    let interval = List::<Bond>::new().with(IFLA_BOND_MIIMON, 200);
    let resend = List::<Bond>::new().with(IFLA_BOND_RESEND_IGMP, 2);
    vec![
        ("make bond0", Request::create("bond0").options(&bond)),
        // a bond takes no port that is up, and sets it up itself
        ("set eth1 down", Request::change(ETH1).down()),
        ("make eth1 a port of bond0", Request::change(ETH1).master(BOND)),
        ("set eth2 down", Request::change(ETH2).down()),
        ("make eth2 a port of bond0", Request::change(ETH2).master(BOND)),
        ("set bond0 up", Request::change(BOND).up()),
        ("make bond0.100", Request::create("bond0.100").link(BOND).options(&vlan).up()),
        ("make br0", Request::create("br0").options(&bridge).up()),
        ("make bond0.100 a port of br0", Request::change(VLAN).master(BRIDGE)),
        ("add VLAN 100 to bond0.100", Request::bridge(VLAN).options(&vlans)),
        // options of the same set are joined
        ("change bond0", Request::change(BOND).options(&interval).options(&resend)),
        // those of the VLAN device and of the bridge port, which it is by now, are side by side
        ("change bond0.100 and its port", Request::change(VLAN).options(&binding).options(&port)),
        ("delete br0", Request::delete(BRIDGE)),
        ("delete bond0.100", Request::delete(VLAN)),
        ("delete bond0", Request::delete(BOND)),
    ]
}

fn main() -> Result<(), WriteError> {
    for (sequence, (title, request)) in (1..).zip(requests()) {
        let bytes = request.sequence(sequence).to_bytes()?;
        let hex: String = bytes.iter().map(|byte| format!("{byte:02x}")).collect();
        println!("{title}: {hex}");
    }
    Ok(())
}
