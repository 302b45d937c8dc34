//! Messages that tests put together, and refusals as texts.

use cms_canon::Error;

pub fn octets(digits: &str) -> Vec<u8> {
    (0..digits.len()).step_by(2).map(|at| u8::from_str_radix(&digits[at..at + 2], 16).unwrap()).collect()
}

pub fn element(identifier: u8, contents: &[&[u8]]) -> Vec<u8> {
    let contents = contents.concat();
    let length = u16::try_from(contents.len()).unwrap().to_be_bytes();
    [&[identifier, 0x82], &length[..], &contents].concat()
}

/// A signed message around these fields of EncapsulatedContentInfo and these signers.
pub fn signed_message(encapsulated: &[u8], signers: &[&[u8]]) -> Vec<u8> {
    let fields = [&octets("0201033100")[..], &element(0x30, &[encapsulated]), &element(0x31, signers)];
    element(0x30, &[&octets("06092a864886f70d010702"), &element(0xa0, &[&element(0x30, &fields)])])
}

pub const DATA: &str = "06092a864886f70d010701";
pub const TOKEN: &str = "060b2a864886f70d0109100104";
pub const TST_INFO: &str =
    "304f02010106032a03043031300d060960864801650304020105000420ba7816bf8f01cfea414140de5dae2223b00361a396177a9cb4\
    10ff61f20015ad020105180f32303234303232393132303030305a";

pub fn refusal_of<T>(result: Result<T, Error>) -> String {
    match result {
        Ok(_) => "no refusal".to_owned(),
        Err(Error::Refused(refused)) => format!("{} {:?} {} {:?}", refused.reason(), refused.at(), refused, refused.message()),
        Err(Error::OutOfMemory) => "out of memory".to_owned(),
    }
}
