//! Writes the request that makes a bond, and prints the bonds in a buffer of messages: here, in this request.

use nlroute::{messages, Bond, BondMode, List, Request, IFLA_BOND_MIIMON, IFLA_BOND_MODE};

fn main() -> Result<(), nlroute::Error> {
    let options = List::<Bond>::new().with(IFLA_BOND_MODE, BondMode::IEEE8023AD).with(IFLA_BOND_MIIMON, 100);
    let request = Request::create("bond0").options(&options).to_bytes()?;
    for message in messages(&request) {
        if let Some(bond) = message?.held::<Bond>()? {
            print!("{bond}");
        }
    }
    Ok(())
}
