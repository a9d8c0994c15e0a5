//! Visits the attributes of a bond, each as a variant of an enum, and changes what a configuration names.

use nlroute::*;

/// Prints what a bond does. The kernel may send more attributes than this knows.
fn print_bond(bond: &List<'_, Bond>) {
    println!("{} attributes", bond.len());
    for attribute in bond.typed() {
        match attribute {
            BondAttribute::Mode(mode) => println!("mode {mode}"),
            BondAttribute::MiiMon(interval) => println!("checks its links each {interval} ms"),
            BondAttribute::ArpIpTarget(targets) => println!("asks {targets:?}"),
            BondAttribute::AdInfo(info) => info.typed().for_each(print_aggregator),
            BondAttribute::Other(value) => println!("unknown: {value}"),
            other => println!("{other:?}"),
        }
    }
}

fn print_aggregator(element: BondAdInfoAttribute<'_>) {
    match element {
        BondAdInfoAttribute::NumPorts(ports) => println!("{ports} ports are aggregated"),
        BondAdInfoAttribute::PartnerMac(partner) => println!("with {partner}"),
        _ => {}
    }
}

fn main() -> Result<(), Box<dyn std::error::Error>> {
    let bytes = [
        &[5, 0, 1, 0, 4, 0, 0, 0, 8, 0, 3, 0, 100, 0, 0, 0][..], // IFLA_BOND_MODE 4, IFLA_BOND_MIIMON 100
        &[24, 0, 23, 0x80, 6, 0, 2, 0, 2, 0, 0, 0, 10, 0, 5, 0, 2, 0, 0, 0, 0, 9, 0, 0], // IFLA_BOND_AD_INFO
        &[5, 0, 16, 0, 1, 0, 0, 0, 5, 0, 99, 0, 7, 0, 0, 0],     // IFLA_BOND_NUM_PEER_NOTIF, and type 99
    ]
    .concat();
    let mut bond = List::<Bond>::read(&bytes)?;
    print_bond(&bond);

    // names as `ip` prints them, and flags
    let (set, mode): (Family, BondMode) = ("bond".parse()?, "active-backup".parse()?);
    bond.set(IFLA_BOND_MODE, mode).remove(IFLA_BOND_AD_INFO);
    assert!(set == bond.family() && !bond.contains(IFLA_BOND_AD_INFO));
    println!("{} is {mode} ({})", IFLA_BOND_MODE, u8::from(mode));
    let vlan = VlanFlags::REORDER_HDR | VlanFlags::GVRP;
    println!("{:?}", vlan - VlanFlags::GVRP);
    Ok(())
}
