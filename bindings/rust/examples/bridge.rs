//! Reads and prints the attributes of a bridge, and makes a request that changes two.

use nlroute::{Bridge, List, IFLA_BR_FORWARD_DELAY, IFLA_BR_VLAN_FILTERING};

fn main() -> Result<(), nlroute::Error> {
    // IFLA_BR_FORWARD_DELAY and IFLA_BR_GROUP_ADDR, as Linux sends them in IFLA_INFO_DATA
    let bytes = [8, 0, 1, 0, 0xDC, 5, 0, 0, 10, 0, 20, 0, 1, 0x80, 0xC2, 0, 0, 0, 0, 0];
    let bridge = List::<Bridge>::read(&bytes)?;
    print!("{bridge}");
    println!("{:?}", bridge.get(IFLA_BR_FORWARD_DELAY));

    let request = List::<Bridge>::new().with(IFLA_BR_FORWARD_DELAY, 700).with(IFLA_BR_VLAN_FILTERING, true);
    println!("a request of {} bytes", request.to_bytes()?.len());
    Ok(())
}
