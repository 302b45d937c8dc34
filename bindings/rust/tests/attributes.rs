//! What a signer says by its signed attributes, and which certificate it names.

#[allow(dead_code)] // other tests use the rest
mod messages;

use cms_canon::{Error, Message};
use messages::{element, octets, DATA};

const DIGEST: &str = "2a864886f70d010904";
const TIME: &str = "2a864886f70d010905";

/// An attribute of this type with these values.
fn attribute(oid: &str, values: &[&[u8]]) -> Vec<u8> {
    let mut values = values.to_vec();
    values.sort();
    der(0x30, &[&der(0x06, &[&octets(oid)]), &der(0x31, &values)])
}

/// An element in DER of less than 128 octets.
fn der(identifier: u8, contents: &[&[u8]]) -> Vec<u8> {
    let contents = contents.concat();
    [&[identifier, u8::try_from(contents.len()).ok().filter(|it| *it < 0x80).unwrap()], &contents[..]].concat()
}

/// A message of one signer that is named so and has these signed attributes, with these certificates.
fn message(certificates: &[Vec<u8>], identifier: &[u8], attributes: &[Vec<u8>]) -> Vec<u8> {
    let mut attributes: Vec<&[u8]> = attributes.iter().map(Vec::as_slice).collect();
    attributes.sort();
    let signed = if attributes.is_empty() { Vec::new() } else { der(0xa0, &attributes) };
    let algorithm = octets("300506032a0304");
    let signer = element(0x30, &[&octets("020101"), identifier, &algorithm, &signed, &algorithm, &octets("0401bb")]);
    let certificates = element(0xa0, &certificates.iter().map(Vec::as_slice).collect::<Vec<_>>());
    let fields = [&octets("0201033100")[..], &element(0x30, &[&octets(DATA)]), &certificates, &element(0x31, &[&signer])];
    element(0x30, &[&octets("06092a864886f70d010702"), &element(0xa0, &[&element(0x30, &fields)])])
}

fn with_signer<T>(attributes: &[Vec<u8>], ask: impl Fn(&cms_canon::SignerInfo<'_>) -> T) -> T {
    let octets = message(&[], b"\x80\x01\x33", attributes);
    let message = cms_canon::read(&octets).unwrap();
    let signer = message.signer(0).unwrap();
    ask(signer.info())
}

#[test]
fn signing_times() {
    let time = |value: Vec<u8>| with_signer(&[attribute(TIME, &[&value])], |it| it.signing_time());
    let utc = |text: &str| time(der(0x17, &[text.as_bytes()]));
    let generalized = |text: &str| time(der(0x18, &[text.as_bytes()]));
    assert_eq!(utc("240229120001Z"), Some(1_709_208_001));
    assert_eq!(utc("500101000000Z"), Some(-631_152_000));
    assert_eq!(utc("491231235959Z"), Some(2_524_607_999));
    assert_eq!(generalized("20500101000000Z"), Some(2_524_608_000));
    assert_eq!(generalized("99991231235959Z"), Some(253_402_300_799));
    for text in [
        "2402291200Z",
        "230229120000Z",
        "240229120060Z",
        "240229120000",
        "240229120000+0100",
        "20240229120000Z",
        "24022912000 Z",
        "",
    ] {
        assert_eq!(utc(text), None, "{text}");
    }
    for text in [
        "240229120000Z",
        "20240229120000.5Z",
        "00000101000000Z",
        "20241301000000Z",
        "20240001000000Z",
        "20240100000000Z",
        "2024010\u{b2}000000Z",
    ] {
        assert_eq!(generalized(text), None, "{text}");
    }
    let (one, other) = (der(0x17, &[b"240229120001Z"]), der(0x17, &[b"240229120002Z"]));
    for attributes in [
        vec![],
        vec![attribute(TIME, &[&one, &other])],
        vec![attribute(TIME, &[])],
        vec![attribute(TIME, &[&one]), attribute(TIME, &[&other])],
    ] {
        assert_eq!(with_signer(&attributes, |it| it.signing_time()), None);
    }
    assert_eq!(time(octets("0500")), None);
}

#[test]
fn message_digests() {
    let digest = |attributes: &[Vec<u8>]| with_signer(attributes, |it| it.message_digest().map(<[u8]>::to_vec));
    assert_eq!(digest(&[attribute(DIGEST, &[&octets("0403616263")])]), Some(b"abc".to_vec()));
    assert_eq!(digest(&[attribute(DIGEST, &[&octets("0400")])]), Some(Vec::new()));
    for values in [vec![], vec![octets("0500")], vec![octets("0400"), octets("040161")]] {
        assert_eq!(digest(&[attribute(DIGEST, &values.iter().map(Vec::as_slice).collect::<Vec<_>>())]), None);
    }
    assert_eq!(digest(&[attribute(TIME, &[&octets("0400")])]), None);
}

#[test]
fn attributes_by_name() {
    let attributes = [attribute(DIGEST, &[b"\x04\0"]), attribute(TIME, &[b"\x05\0"]), attribute(TIME, &[b"\x04\0"])];
    with_signer(&attributes, |signer| {
        assert_eq!(signer.signed_attribute("messageDigest").unwrap().values, [b"\x04\0"]);
        assert_eq!(signer.signed_attribute("1.2.840.113549.1.9.4"), signer.signed_attribute("messageDigest"));
        for name in ["signingTime", "contentType", "", "1.2.840.113549.1.9"] {
            assert_eq!(signer.signed_attribute(name), None);
        }
    });
}

/// A certificate of this serial number, by its framing alone, with this key identifier.
fn certificate(serial: u8, identifier: Option<&[u8]>, name: &[u8]) -> Vec<u8> {
    let extensions = identifier.map_or(Vec::new(), |it| {
        der(0xa3, &[&der(0x30, &[&der(0x30, &[&octets("0603551d0e"), &der(0x04, &[&der(0x04, &[it])])])])])
    });
    let empty = octets("3000");
    let fields = [&octets("a003020102"), &der(0x02, &[&[serial]]), &empty, name, &empty, &empty, &empty, &extensions];
    der(0x30, &[&der(0x30, &fields), &empty, &octets("030100")])
}

#[test]
fn certificates() {
    let empty: &[u8] = b"\x30\0";
    let (of_issuer, of_key): (&[u8], &[u8]) = (b"\x30\x05\x30\0\x02\x01\x05", b"\x80\x02ab");
    let (one, other) = (certificate(5, None, empty), certificate(6, None, empty));
    let (keyed, named) = (certificate(5, Some(b"ab"), empty), certificate(5, None, b"\x30\x02\x31\0"));
    let others = certificate(7, Some(b"ac"), empty);
    let (no_sequence, attributes) = (octets("30020500"), octets("a100"));
    for (certificates, identifier, wanted) in [
        (vec![&one, &other], of_issuer, Some(&one)),
        (vec![&other], of_issuer, None),
        (vec![&one, &one], of_issuer, Some(&one)),
        (vec![&one, &keyed], of_issuer, None),
        (vec![&named, &one], of_issuer, Some(&one)),
        (vec![&one, &keyed, &other], of_key, Some(&keyed)),
        (vec![&one, &others], of_key, None),
        (vec![&no_sequence, &attributes, &keyed], of_key, Some(&keyed)),
        (vec![], of_key, None),
    ] {
        let octets = message(&certificates.into_iter().cloned().collect::<Vec<_>>(), identifier, &[]);
        let message = cms_canon::read(&octets).unwrap();
        let signer = message.signer(0).unwrap();
        assert_eq!(message.certificate_of(signer.info()), wanted.map(Vec::as_slice));
    }
}

/// No octet of a certificate that is changed, and none that is cut, ends in anything but another answer.
#[test]
fn changed_certificates() {
    let keyed = certificate(5, Some(b"ab"), b"\x30\0");
    for at in 0..keyed.len() {
        for octet in 0..=255 {
            let changed = [&keyed[..at], &[octet], &keyed[at + 1..]].concat();
            let octets = message(std::slice::from_ref(&changed), b"\x80\x02ab", &[]);
            let Ok(message) = cms_canon::read(&octets) else {
                continue;
            };
            let found = message.certificate_of(message.signer(0).unwrap().info());
            assert!(found.map_or(true, |it| it == changed), "{changed:?}");
        }
    }
}

#[test]
fn what_main_prints_of_an_error() {
    let error = cms_canon::read(&[0x30]).map(|_: Message<'_>| ()).unwrap_err();
    assert_eq!(format!("{error:?}"), "refused E1 Truncated at 1");
    assert_eq!(format!("{:?}", Error::OutOfMemory), "out of memory");
}
