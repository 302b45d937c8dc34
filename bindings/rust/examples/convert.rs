//! Converts the message in the first file named to DER, and writes it to the second.

use std::error::Error;

fn main() -> Result<(), Box<dyn Error>> {
    let mut names = std::env::args_os().skip(1);
    let (Some(message), Some(output), None) = (names.next(), names.next(), names.next()) else {
        return Err("usage: convert MESSAGE DER".into());
    };
    let der = cms_canon::convert(&std::fs::read(message)?)?;
    std::fs::write(output, der)?;
    Ok(())
}
