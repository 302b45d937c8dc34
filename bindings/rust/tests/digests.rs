//! Digests that messages ask for, and findings by them.

mod messages;

use cms_canon::DigestAlgorithm::{self, Sha1, Sha224, Sha256, Sha384, Sha512, Sha512_224, Sha512_256};
use cms_canon::{ContentAsked, Digest, DigestsAsked, Finding, Limit};
use messages::{element, octets, refusal_of, signed_message, DATA, TOKEN, TST_INFO};

const CONTENT: &[u8] = b"abc";

/// The algorithms in the order of their numbers: the contents of the OBJECT IDENTIFIER of each, how many octets a digest has, and
/// the digest of `abc` (FIPS 180-4).
const ALGORITHMS: [(DigestAlgorithm, &str, usize, &str); 7] = [
    (Sha1, "2b0e03021a", 20, "a9993e364706816aba3e25717850c26c9cd0d89d"),
    (Sha224, "608648016503040204", 28, "23097d223405d8228642a477bda255b32aadbce4bda0b3f7e36c9da7"),
    (Sha256, "608648016503040201", 32, "ba7816bf8f01cfea414140de5dae2223b00361a396177a9cb410ff61f20015ad"),
    (
        Sha384,
        "608648016503040202",
        48,
        "cb00753f45a35e8bb5a03d699ac65007272c32ab0eded1631a8b605a43ff5bed8086072ba1e7cc2358baeca134c825a7",
    ),
    (
        Sha512,
        "608648016503040203",
        64,
        "ddaf35a193617abacc417349ae20413112e6fa4e89a97ea20a9eeee64b55d39a2192992a274fc1a836ba3c23a3feebbd454d4423643ce80e2a9a\
        c94fa54ca49f",
    ),
    (Sha512_224, "608648016503040205", 28, "4634270f707b6a54daae7530460842e20e37ed265ceee9a43e8924aa"),
    (Sha512_256, "608648016503040206", 32, "53048e2681941ef99b2e29b76b4c7dabe4c2d0c634fc6d46e0e2f13107e7af23"),
];

/// The digests of `abc`.
fn digests() -> Vec<Digest> {
    ALGORITHMS.iter().map(|it| Digest::new(it.0, &octets(it.3)).unwrap()).collect()
}

/// The digest of `abc` by SHA-256.
fn sha_256() -> Digest {
    digests()[2]
}

/// The same digest with one bit changed, in this octet.
fn changed(digest: &Digest, at: usize) -> Digest {
    let mut octets = digest.octets().to_vec();
    octets[at] ^= 1;
    Digest::new(digest.algorithm(), &octets).unwrap()
}

/// An element whose length is the shortest, as signed attributes must have it.
fn short(identifier: u8, contents: &[&[u8]]) -> Vec<u8> {
    let contents = contents.concat();
    let length = u8::try_from(contents.len()).unwrap();
    assert!(length < 0x80);
    [&[identifier, length], &contents[..]].concat()
}

fn algorithm(contents: &str) -> Vec<u8> {
    short(0x30, &[&short(0x06, &[&octets(contents)])])
}

/// A signer with the attributes content-type and message-digest.
fn signer(oid: &str, digest: &str) -> Vec<u8> {
    let content_type = short(0x30, &[&octets("06092a864886f70d010903"), &short(0x31, &[&octets(DATA)])]);
    let value = short(0x31, &[&short(0x04, &[&octets(digest)])]);
    let message_digest = short(0x30, &[&octets("06092a864886f70d010904"), &value]);
    let attributes = short(0xa0, &[&content_type, &message_digest]);
    element(0x30, &[&octets("020103800101"), &algorithm(oid), &attributes, &octets("300506032a03040401aa")])
}

/// A message whose content is detached, with a signer for each algorithm, from the last one to the first.
fn detached() -> Vec<u8> {
    let signers: Vec<_> = ALGORITHMS.iter().rev().map(|it| signer(it.1, it.3)).collect();
    signed_message(&octets(DATA), &[&signers.concat()])
}

/// A request for a time-stamp of `abc`, by SHA-256.
fn request() -> Vec<u8> {
    let (_, oid, _, digest) = ALGORITHMS[2];
    element(0x30, &[&octets("020101"), &short(0x30, &[&algorithm(oid), &short(0x04, &[&octets(digest)])])])
}

/// A token whose content is detached.
fn detached_token() -> Vec<u8> {
    signed_message(&octets(TOKEN), &[&signer(ALGORITHMS[2].1, ALGORITHMS[2].3)])
}

fn codes(findings: &[Finding]) -> Vec<u32> {
    findings.iter().map(Finding::code).collect()
}

fn nothing() -> ContentAsked {
    ContentAsked::Digests(Vec::new())
}

/// Returns what a message asks for of the content and of the data.
fn asked(message: &[u8]) -> (ContentAsked, Option<DigestAlgorithm>) {
    let DigestsAsked { content, data, .. } = cms_canon::digests_asked(message).unwrap();
    (content, data)
}

/// The findings by digests are those with the octets, which are `abc` if they are given.
fn assert_same(message: &[u8], has_content: bool, has_data: bool) -> Vec<u32> {
    let wanted = cms_canon::check(message, has_content.then_some(CONTENT), has_data.then_some(CONTENT)).unwrap();
    let all = digests();
    let (content, data) = (has_content.then_some(&all[..]), has_data.then_some(&all[..]));
    assert_eq!(cms_canon::check_digests(message, content, data).unwrap(), wanted);
    codes(&wanted)
}

#[test]
fn digests_have_the_octets_of_their_algorithm() {
    for (algorithm, _, length, digest) in ALGORITHMS {
        assert_eq!(algorithm.octets(), length);
        for wrong in [0, 1, length - 1, length + 1, 64 + usize::from(length == 64), 1 << 20] {
            assert_eq!(Digest::new(algorithm, &vec![0; wrong]), None, "{algorithm:?} of {wrong} octets");
        }
        let made = Digest::new(algorithm, &octets(digest)).unwrap();
        assert_eq!((made.algorithm(), made.octets()), (algorithm, &octets(digest)[..]));
    }
}

#[test]
fn messages_ask_for_digests_of_what_is_not_attached() {
    let all: Vec<_> = ALGORITHMS.iter().map(|it| it.0).collect();
    assert_eq!(asked(&detached()), (ContentAsked::Digests(all), None));
    assert_eq!(asked(&request()), (nothing(), Some(Sha256)));
    assert_eq!(asked(&detached_token()), (ContentAsked::Itself, None));
    let content = element(0xa0, &[&element(0x04, &[&octets(TST_INFO)])]);
    let token = signed_message(&[octets(TOKEN), content].concat(), &[&signer(ALGORITHMS[0].1, ALGORITHMS[0].3)]);
    assert_eq!(asked(&token), (nothing(), Some(Sha256)));
    let digest = ALGORITHMS[3].3;
    let twice = [signer(ALGORITHMS[3].1, digest), signer("2a0304", digest), signer(ALGORITHMS[3].1, digest)].concat();
    assert_eq!(asked(&signed_message(&octets(DATA), &[&twice])), (ContentAsked::Digests(vec![Sha384]), None));
    assert_eq!(asked(&signed_message(&octets(DATA), &[])), (nothing(), None));
}

#[test]
fn findings_are_those_of_check() {
    let attached = [octets(DATA), element(0xa0, &[&element(0x04, &[b"abd"])])].concat();
    let signers: Vec<_> = ALGORITHMS.iter().map(|it| signer(it.1, it.3)).collect();
    for (message, wanted) in [(detached(), 0), (signed_message(&attached, &[&signers.concat()]), 7), (request(), 0)] {
        for (has_content, has_data) in [(false, false), (true, false), (false, true), (true, true)] {
            let found = assert_same(&message, has_content, has_data);
            assert_eq!(found.iter().filter(|it| **it == 7).count(), wanted, "{found:?}");
        }
    }
    assert!(assert_same(&detached(), false, false).contains(&9));
    assert!(assert_same(&detached(), true, true).contains(&11));
    assert_eq!(assert_same(&request(), false, true), []);
}

#[test]
fn wrong_digests_are_found() {
    let signers = ALGORITHMS.len();
    for (number, right) in digests().iter().enumerate() {
        for at in [0, right.octets().len() - 1] {
            let mut given = digests();
            given[number] = changed(right, at);
            let found = cms_canon::check_digests(&detached(), Some(&given), None).unwrap();
            let differ: Vec<_> = found.iter().filter(|it| it.code() == 7).map(Finding::signer).collect();
            assert_eq!(differ, [Some((signers - 1 - number) as u64)]);
        }
    }
    let found = cms_canon::check_digests(&request(), None, Some(&[changed(&sha_256(), 31)])).unwrap();
    assert_eq!(codes(&found), [14]);
}

#[test]
fn the_first_digest_by_an_algorithm_counts() {
    let (right, wrong) = (sha_256(), changed(&sha_256(), 0));
    assert_eq!(codes(&cms_canon::check_digests(&request(), None, Some(&[right, wrong])).unwrap()), []);
    assert_eq!(codes(&cms_canon::check_digests(&request(), None, Some(&[wrong, right])).unwrap()), [14]);
    let reversed: Vec<_> = digests().into_iter().rev().chain([wrong]).collect();
    let wanted = cms_canon::check(&detached(), Some(CONTENT), None).unwrap();
    assert_eq!(cms_canon::check_digests(&detached(), Some(&reversed), None).unwrap(), wanted);
}

#[test]
fn a_digest_that_is_not_given_is_a_refusal() {
    let missing = "106 None refused: digest not given None";
    for number in 0..ALGORITHMS.len() {
        let mut given = digests();
        given.remove(number);
        assert_eq!(refusal_of(cms_canon::check_digests(&detached(), Some(&given), None)), missing);
    }
    assert_eq!(refusal_of(cms_canon::check_digests(&detached(), Some(&[]), None)), missing);
    assert_eq!(refusal_of(cms_canon::check_digests(&request(), None, Some(&[]))), missing);
    assert_eq!(refusal_of(cms_canon::check_digests(&request(), None, Some(&digests()[3..]))), missing);
}

#[test]
fn a_tst_info_is_needed_itself() {
    let token = detached_token();
    let needed = "107 None refused: needs the content None";
    assert_eq!(refusal_of(cms_canon::check_digests(&token, Some(&digests()), None)), needed);
    assert_eq!(refusal_of(cms_canon::check_digests(&token, Some(&[]), Some(&digests()))), needed);
    let wanted = cms_canon::check(&token, None, Some(CONTENT)).unwrap();
    assert_eq!(cms_canon::check_digests(&token, None, Some(&[])).unwrap(), wanted);
}

#[test]
fn refusals_are_those_of_check() {
    let message = detached();
    for end in 0..message.len() {
        let wanted = refusal_of(cms_canon::check(&message[..end], None, None));
        assert!(wanted.starts_with("1 Some("), "{wanted}");
        assert_eq!(refusal_of(cms_canon::digests_asked(&message[..end])), wanted);
        assert_eq!(refusal_of(cms_canon::check_digests(&message[..end], Some(&[]), Some(&[]))), wanted);
    }
    for limit in [0, message.len() as u64 - 1] {
        let wanted = refusal_of(Limit::of(limit).check(&message, None, None));
        assert!(wanted.starts_with("2 Some("), "{wanted}");
        assert_eq!(refusal_of(Limit::of(limit).digests_asked(&message)), wanted);
        assert_eq!(refusal_of(Limit::of(limit).check_digests(&message, Some(&digests()), None)), wanted);
    }
    let enough = Limit::of(message.len() as u64);
    assert_eq!(enough.digests_asked(&message), cms_canon::digests_asked(&message));
    assert_eq!(enough.check_digests(&message, Some(&digests()), None), cms_canon::check_digests(&message, Some(&digests()), None));
}
