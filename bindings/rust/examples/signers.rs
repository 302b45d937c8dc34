//! Prints the signers of the message in the file named: the algorithms of each, and how many octets its signature covers.

use std::error::Error;

fn main() -> Result<(), Box<dyn Error>> {
    let name = std::env::args().nth(1).ok_or("usage: signers MESSAGE")?;
    let input = std::fs::read(name)?;
    for signer in cms_canon::read(&input)?.signers() {
        let octets = signer.covered(None)?.len();
        println!("{} with {} over {octets} octets", signer.digest_algorithm.oid, signer.signature_algorithm.oid);
    }
    Ok(())
}
