//! Certificates, as far as they are looked at: which a signer names (RFC 5280, section 4.1).

use crate::elements::{elements, Element};
use crate::records::SignerInfo;

const SUBJECT_KEY_IDENTIFIER: &[u8] = b"\x55\x1d\x0e"; // 2.5.29.14
const MOST_FIELDS: usize = 10; // of a TBSCertificate
const BOOLEAN: u8 = 0x01;
const INTEGER: u8 = 0x02;
const BIT_STRING: u8 = 0x03;
const OCTET_STRING: u8 = 0x04;
const OBJECT_IDENTIFIER: u8 = 0x06;
const SEQUENCE: u8 = 0x30;
const VERSION: u8 = 0xa0;
const UNIQUE_IDENTIFIERS: [u8; 2] = [0x81, 0x82];
const EXTENSIONS: u8 = 0xa3;

/// What is read of a certificate.
struct Certificate<'a> {
    issuer: &'a [u8],
    serial_number: &'a [u8],
    extensions: Option<&'a [u8]>,
}

/// Returns whether these octets are a certificate in DER that a signer names, by issuer and serial number or by the key identifier.
/// Issuers are compared octet for octet.
pub(crate) fn is_named(octets: &[u8], signer: &SignerInfo<'_>) -> bool {
    let Some(certificate) = certificate_in(octets) else {
        return false;
    };
    match (&signer.subject_key_identifier, signer.serial_number) {
        (Some(identifier), _) => certificate.extensions.and_then(key_identifier_in) == Some(&identifier[..]),
        (None, Some(number)) => certificate.serial_number == number.contents() && signer.issuer == Some(certificate.issuer),
        (None, None) => false,
    }
}

/// Returns the members of a SEQUENCE, of which there are at most so many.
fn members(octets: &[u8], most: usize) -> Option<Vec<Element<'_>>> {
    let found: Option<Vec<_>> = elements(Element::only(octets)?.contents_if(SEQUENCE)?).take(most + 1).collect();
    found.filter(|it| it.len() <= most)
}

fn certificate_in(octets: &[u8]) -> Option<Certificate<'_>> {
    let parts = members(octets, 3)?;
    let [signed, algorithm, signature] = parts[..] else {
        return None;
    };
    let is_one = algorithm.identifier == SEQUENCE && signature.identifier == BIT_STRING;
    is_one.then(|| members(signed.octets, MOST_FIELDS)).flatten().and_then(|fields| certificate_of(&fields))
}

/// Returns the certificate with these fields, of which the version, the unique identifiers and the extensions are optional.
fn certificate_of<'a>(fields: &[Element<'a>]) -> Option<Certificate<'a>> {
    let (version, fields) = split_if(fields, VERSION);
    if !version.map_or(true, |it| is_version(it.contents)) || fields.len() < 6 {
        return None;
    }
    let (due, optional) = fields.split_at(6);
    let serial_number = due[0].contents_if(INTEGER).filter(|it| is_shortest(it))?;
    let optional = UNIQUE_IDENTIFIERS.iter().fold(optional, |left, it| split_if(left, *it).1);
    let (extensions, left) = split_if(optional, EXTENSIONS);
    let is_one = left.is_empty() && due[1..].iter().all(|it| it.identifier == SEQUENCE);
    is_one.then_some(Certificate { issuer: due[2].octets, serial_number, extensions: extensions.map(|it| it.contents) })
}

/// Returns the first element if it has this identifier, and the others.
fn split_if<'a, 'e>(elements: &'e [Element<'a>], identifier: u8) -> (Option<Element<'a>>, &'e [Element<'a>]) {
    match elements.split_first() {
        Some((first, others)) if first.identifier == identifier => (Some(*first), others),
        _ => (None, elements),
    }
}

/// Returns whether this is a version that is not the default, which is absent in DER.
fn is_version(octets: &[u8]) -> bool {
    let number = Element::only(octets).and_then(|it| it.contents_if(INTEGER));
    number.is_some_and(|it| is_shortest(it) && it != [0])
}

/// Returns whether these are the contents of an INTEGER in the fewest octets (X.690, section 8.3.2).
fn is_shortest(contents: &[u8]) -> bool {
    !matches!(contents, [] | [0x00, 0x00..=0x7f, ..] | [0xff, 0x80..=0xff, ..])
}

/// Returns the key identifier that extensions have; none if they have none, or two, or one of them cannot be read.
fn key_identifier_in(octets: &[u8]) -> Option<&[u8]> {
    let mut found = None;
    for extension in elements(Element::only(octets)?.contents_if(SEQUENCE)?) {
        let (identifier, value) = extension_in(extension?.octets)?;
        if identifier == SUBJECT_KEY_IDENTIFIER {
            let value = Element::only(value)?;
            if found.replace(value).is_some() {
                return None;
            }
        }
    }
    found?.contents_if(OCTET_STRING)
}

/// Returns the identifier and the value of an Extension in DER, in which `critical` is absent if it is FALSE.
fn extension_in(octets: &[u8]) -> Option<(&[u8], &[u8])> {
    let parts = members(octets, 3)?;
    let (first, others) = parts.split_first()?;
    let (critical, others) = split_if(others, BOOLEAN);
    let [value] = others else {
        return None;
    };
    let identifier = first.contents_if(OBJECT_IDENTIFIER).filter(|it| is_identifier(it))?;
    let is_one = critical.map_or(true, |it| it.contents == [0xff]);
    is_one.then_some((identifier, value.contents_if(OCTET_STRING)?))
}

/// Returns whether these are the contents of an OBJECT IDENTIFIER (X.690, section 8.19).
fn is_identifier(contents: &[u8]) -> bool {
    let is_ended = contents.last().is_some_and(|it| *it < 0x80);
    is_ended && contents.split_inclusive(|it| *it < 0x80).all(|it| it[0] != 0x80)
}
