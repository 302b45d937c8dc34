//! Calls on messages that are put together here.

mod messages;

use cms_canon::{Limit, Message, Verdict};
use messages::{element, octets, refusal_of, signed_message, DATA, TOKEN, TST_INFO};

/// A message with two signers, whose content is detached and whose algorithms are not known.
const TWO_SIGNERS: &str =
    "306606092a864886f70d010702a05930570201033100300b06092a864886f70d01070131433028020103800111300506032a0304300506032a03\
    040401aaa10f300d06032a030531060201070201083017020103800122300506032a0304300506032a03040401bb";
const REQUEST: &str = "3013020101300b300506032a03040402aabb0101ff";

/// A signer with this key identifier and this signature, one element, and what follows it.
fn signer(key: u8, signature: &[u8], unsigned: &[u8]) -> Vec<u8> {
    element(0x30, &[&octets("0201038001"), &[key], &octets("300506032a0304300506032a0304"), signature, unsigned])
}

/// An unsigned attribute of this type with these values.
fn unsigned_attribute(oid: &str, values: &[&[u8]]) -> Vec<u8> {
    element(0xa1, &[&element(0x30, &[&octets(oid), &element(0x31, values)])])
}

const COUNTERSIGNATURE: &str = "06092a864886f70d010906";

/// A message in segments whose signer has a signature in segments, which two countersignatures sign; the second one is signed in
/// turn.
fn countersigned() -> Vec<u8> {
    let third = signer(4, &octets("0401dd"), &[]);
    let second = signer(3, &octets("0401cc"), &unsigned_attribute(COUNTERSIGNATURE, &[&third]));
    let first = signer(2, &octets("0401bb"), &[]);
    let signature = octets("24060401a10401a2");
    let signed = signer(1, &signature, &unsigned_attribute(COUNTERSIGNATURE, &[&first, &second]));
    let content = [octets(DATA), element(0xa0, &[&octets("24080402010204020304")])].concat();
    signed_message(&content, &[&signed])
}

#[test]
fn refusals_are_those_of_convert() {
    let message = octets(TWO_SIGNERS);
    for end in 0..message.len() {
        let wanted = format!("1 Some({end}) refused E1 Truncated at {end} None");
        assert_eq!(refusal_of(cms_canon::read(&message[..end])), wanted);
        assert_eq!(refusal_of(cms_canon::convert(&message[..end])), wanted);
    }
    let twice = [&message[..], &message].concat();
    let wanted = format!("18 Some({0}) refused E18 Trailing at {0} None", message.len() + 1);
    assert_eq!(refusal_of(cms_canon::read(&twice)), wanted);
}

#[test]
fn changes_are_those_of_the_text() {
    let message = countersigned();
    let (der, changes) = (cms_canon::convert(&message).unwrap(), cms_canon::changes(&message).unwrap());
    let text = cms_canon::list_changes(&message, false).unwrap();
    let lines: Vec<String> = changes.iter().map(ToString::to_string).collect();
    assert_eq!(lines, text.lines().take(changes.len()).collect::<Vec<_>>());
    assert!(text.ends_with(&format!(", {} changes\n", changes.len())), "{text}");
    let mut kinds: Vec<&str> = changes.iter().map(|it| it.kind).collect();
    kinds.dedup();
    assert!(kinds.contains(&"segments joined") && changes.iter().all(|it| it.set.is_none()), "{kinds:?}");
    for it in &changes {
        assert!(it.place + it.length <= message.len() as u64 && it.der_place + it.der_length <= der.len() as u64, "{it}");
    }
    assert!(cms_canon::list_changes(&message, true).unwrap().starts_with("{\"changes\": [{\"change\": \""));
    assert_eq!(
        (cms_canon::changes(&der).unwrap(), cms_canon::list_changes(&der, false).unwrap().as_str()),
        (vec![], "no change\n")
    );
    assert_eq!(refusal_of(cms_canon::changes(&der[1..])), refusal_of(cms_canon::convert(&der[1..])));
    assert_eq!(refusal_of(Limit::of(3).changes(&der)), refusal_of(Limit::of(3).convert(&der)));
}

#[test]
fn a_member_that_moves_says_its_set() {
    let (one, other) = (octets("300506032a0304"), octets("300506032a0303"));
    let fields = [&octets("020103")[..], &element(0x31, &[&one, &other]), &element(0x30, &[&octets(DATA)]), &octets("3100")];
    let message = element(0x30, &[&octets("06092a864886f70d010702"), &element(0xa0, &[&element(0x30, &fields)])]);
    let changes = cms_canon::changes(&message).unwrap();
    let moved: Vec<_> = changes.iter().filter(|it| it.kind == "moved").map(|it| (it.first, it.second, it.set)).collect();
    assert_eq!(moved, [(0, 1, Some("digestAlgorithms")), (1, 0, Some("digestAlgorithms"))]);
}

#[test]
fn refusals_of_two_and_of_many_messages_say_which() {
    let message = octets(TWO_SIGNERS);
    assert_eq!(refusal_of(cms_canon::same(&[], &message)), "1 Some(0) first: refused E1 Truncated at 0 Some(1)");
    assert_eq!(refusal_of(cms_canon::same(&message, &[0x30])), "1 Some(1) second: refused E1 Truncated at 1 Some(2)");
    let many = cms_canon::convert_many(&[&message[..], &[0x30]].concat()).unwrap();
    let der = cms_canon::convert(&message).unwrap();
    assert_eq!((many.der, many.messages, many.read), (der, 1, message.len() as u64));
    assert_eq!(many.refused.unwrap().to_string(), "message 1: refused E1 Truncated at 1");
    let none = cms_canon::convert_many(&[]).unwrap();
    assert_eq!((none.der.len(), none.messages, none.read, none.refused), (0, 0, 0, None));
}

#[test]
fn limits() {
    let message = octets(TWO_SIGNERS);
    let length = message.len() as u64;
    assert!(Limit::of(length).read(&message).is_ok());
    assert!(Limit::of(u64::MAX).read(&message).is_ok());
    for limit in [0, length - 1] {
        let refusal = refusal_of(Limit::of(limit).read(&message));
        assert!(refusal.starts_with("2 Some("), "{limit}: {refusal}");
        assert_eq!(refusal, refusal_of(Limit::of(limit).convert(&message)));
        assert!(refusal_of(Limit::of(limit).check_with(&message, None, None, |_| Verdict::Good)).starts_with("2 "));
    }
}

#[test]
fn limits_of_more_than_2_to_the_40_are_2_to_the_40() {
    let most = 1 << 40;
    for (octets, wanted) in [(0, 0), (most - 1, most - 1), (most, most), (most + 1, most), (1 << 50, most), (u64::MAX, most)] {
        assert_eq!(Limit::of(octets).octets(), wanted);
    }
    assert_eq!(Limit::of(1 << 41), Limit::of(1 << 42));
}

#[test]
fn octets_lie_in_the_input_or_are_joined() {
    let message = countersigned();
    let place = message.as_ptr_range();
    let read = cms_canon::read(&message).unwrap();
    assert_eq!(read.content(), Some(&[1, 2, 3, 4][..]));
    let signer = read.signer(0).unwrap();
    assert_eq!(*signer.signature, [0xa1, 0xa2]);
    assert!(!place.contains(&signer.signature.as_ptr()));
    assert!(place.contains(&signer.digest_algorithm.oid.contents().as_ptr()));
    let below = signer.countersignatures().next().unwrap();
    assert!(place.contains(&below.signature.as_ptr()));
}

#[test]
fn covers_are_those_of_cover() {
    let message = countersigned();
    let read = cms_canon::read(&message).unwrap();
    let signer = read.signer(0).unwrap();
    let below: Vec<_> = signer.countersignatures().collect();
    let lowest = below[1].countersignatures().next().unwrap();
    let paths: [(&[u64], _, &[u8]); 4] = [
        (&[0], signer, &[1, 2, 3, 4]),
        (&[0, 0], below[0], &[0xa1, 0xa2]),
        (&[0, 1], below[1], &[0xa1, 0xa2]),
        (&[0, 1, 0], lowest, &[0xcc]),
    ];
    for (path, it, wanted) in paths {
        assert_eq!(it.covered(Some(b"not used")).unwrap(), wanted);
        assert_eq!(cms_canon::cover(&message, path, Some(b"not used")).unwrap(), wanted);
    }
    assert_eq!(refusal_of(cms_canon::cover(&message, &[], None)), "102 None refused: no such signer None");
    assert_eq!(refusal_of(cms_canon::cover(&message, &[0, 2], None)), "102 None refused: no such signer None");
}

#[test]
fn signers_have_what_they_sign() {
    let message = countersigned();
    let read = cms_canon::read(&message).unwrap();
    let signers: Vec<_> = read.signers().collect();
    assert_eq!(signers, [read.signer(0).unwrap()]);
    assert_eq!(signers[0].content(), Some(&[1, 2, 3, 4][..]));
    assert_eq!(signers[0].info(), &read.signed_data().unwrap().signers[0]);
    assert!(signers[0].countersignatures().all(|it| it.content() == Some(&[0xa1, 0xa2])));
    assert_eq!(signers[0].countersignatures().count(), 2);
}

#[test]
fn detached_content_is_covered() {
    let message = octets(TWO_SIGNERS);
    let read = cms_canon::read(&message).unwrap();
    assert_eq!(read.content(), None);
    let signer = read.signer(1).unwrap();
    assert_eq!((signer.content(), read.signer(2)), (None, None));
    assert_eq!(signer.covered(Some(b"")).unwrap(), &b""[..]);
    assert_eq!(signer.covered(Some(b"abc")).unwrap(), &b"abc"[..]);
    assert_eq!(refusal_of(signer.covered(None)), "103 None refused: no content None");
}

fn verdicts(verifier: impl FnMut(&cms_canon::Job<'_>) -> Verdict) -> Vec<(u32, Option<u64>)> {
    let found = cms_canon::check_with(&octets(TWO_SIGNERS), Some(b"abc"), None, verifier).unwrap();
    found.iter().map(|it| (it.code(), it.signer())).filter(|it| it.0 == 17 || it.0 == 18).collect()
}

#[test]
fn verdicts_take_the_place_of_f18() {
    assert_eq!(verdicts(|_| Verdict::Unknown), [(18, Some(0)), (18, Some(1))]);
    assert_eq!(verdicts(|_| Verdict::Good), []);
    assert_eq!(verdicts(|job| if job.number() == 0 { Verdict::Good } else { Verdict::Bad }), [(17, Some(1))]);
    assert_eq!(cms_canon::check(&octets(TWO_SIGNERS), Some(b"abc"), None).unwrap().iter().filter(|it| it.code() == 18).count(), 2);
}

#[test]
fn a_verifier_is_handed_the_signer() {
    let mut asked = Vec::new();
    verdicts(|job| {
        let signer = job.signer();
        asked.push((job.number(), signer.signature.to_vec(), job.covered().unwrap().to_vec(), job.certificates().len()));
        Verdict::Good
    });
    assert_eq!(asked, [(0, vec![0xaa], b"abc".to_vec(), 0), (1, vec![0xbb], b"abc".to_vec(), 0)]);
}

#[test]
fn findings_have_the_lines_of_the_command() {
    let findings = cms_canon::check(&octets(TWO_SIGNERS), None, None).unwrap();
    let lines: Vec<_> = findings.iter().map(ToString::to_string).collect();
    let of_signers = [0, 1]
        .map(|it| [format!("F8 signer {it} digest algorithm unknown"), format!("F10 signer {it} digest algorithm not listed")]);
    assert_eq!(lines, [&["F9 no content".to_owned()][..], &of_signers.concat()].concat());
}

#[test]
fn a_request_has_no_signed_data() {
    let message = octets(REQUEST);
    let read = cms_canon::read(&message).unwrap();
    let Message::Request(request) = &read else { panic!("{read:?}") };
    assert!(request.cert_req && request.policy.is_none());
    assert!(read.signer(0).is_none() && read.content().is_none() && read.signed_data().is_none());
    assert_eq!(read.signers().len(), 0);
    assert_eq!(read.tst_info(), Ok(None));
}

/// A signed message of this type of its content, with the content.
fn with_content(content_type: &str, content: &[u8]) -> Vec<u8> {
    signed_message(&[octets(content_type), element(0xa0, &[&element(0x04, &[content])])].concat(), &[])
}

#[test]
fn a_tst_info_is_read_if_the_content_is_called_one() {
    let content = octets(TST_INFO);
    let token = with_content(TOKEN, &content);
    let read = cms_canon::read(&token).unwrap();
    let info = read.tst_info().unwrap().unwrap();
    assert_eq!((info.gen_time.as_str(), info.gen_time.unix_seconds()), ("20240229120000Z", 1_709_208_000));
    assert_eq!(cms_canon::tst_info(&content), Ok(info));
    assert_eq!(cms_canon::read(&with_content(DATA, &content)).unwrap().tst_info(), Ok(None));
    let detached = signed_message(&octets(TOKEN), &[]);
    assert_eq!(cms_canon::read(&detached).unwrap().tst_info(), Ok(None));
}

#[test]
fn what_is_no_tst_info_is_refused() {
    let wanted = "105 None refused: not a TSTInfo in DER None";
    assert_eq!(refusal_of(cms_canon::tst_info(&[])), wanted);
    assert_eq!(refusal_of(cms_canon::read(&with_content(TOKEN, b"abc")).unwrap().tst_info()), wanted);
}

#[test]
fn more_rows_than_the_first_room_are_read() {
    let value = octets("0500");
    let values = vec![&value[..]; 16_000];
    let attribute = unsigned_attribute("06032a0305", &values);
    let signers: Vec<_> = (0..5).map(|key| signer(key, &octets("0401aa"), &attribute)).collect();
    let message = long_message(&signers.concat());
    let read = cms_canon::read(&message).unwrap();
    assert_eq!(read.signers().map(|it| it.unsigned_attributes[0].values.len()).sum::<usize>(), 80_000);
}

/// A message with indefinite lengths around these signers, which may have more octets than two octets of length say.
fn long_message(signers: &[u8]) -> Vec<u8> {
    let head = octets("308006092a864886f70d010702a08030800201033100300b06092a864886f70d0107013180");
    [&head[..], signers, &[0; 8]].concat()
}

#[test]
fn messages_go_to_other_threads() {
    fn is_shared<T: Send + Sync>(_: &T) {}
    let message = countersigned();
    is_shared(&cms_canon::read(&message).unwrap());
    is_shared(&cms_canon::read(&[]).unwrap_err());
}
