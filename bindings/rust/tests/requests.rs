//! Calls what the requests ask for that `tests/test_rust.py` makes from the vectors and from messages made at random, as the callers of
//! the other languages do, and compares findings by digests with those by the octets. `CMS_CANON_REQUESTS` names the file of the
//! requests, in which each is followed by the result that is wanted, a line each.

use std::{env, fs};

use cms_canon::DigestAlgorithm::{Sha1, Sha224, Sha256, Sha384, Sha512, Sha512_224, Sha512_256};
use cms_canon::{ContentAsked, Digest, Error, Finding, Job, Limit, Verdict};

/// Returns the octets of a word, or none of the word for those that are absent.
fn octets(word: &str) -> Option<Vec<u8>> {
    let octet = |at: usize| u8::from_str_radix(&word[at..at + 2], 16).unwrap();
    (word != "-").then(|| (0..word.len()).step_by(2).map(octet).collect())
}

fn hex(octets: &[u8]) -> String {
    octets.iter().map(|it| format!("{it:02x}")).collect()
}

fn word(octets: Option<&[u8]>) -> String {
    octets.map_or_else(|| "-".to_owned(), hex)
}

fn path(word: &str) -> Vec<u64> {
    word.split_terminator(',').map(|it| it.parse().unwrap()).collect()
}

fn many(limit: Limit, input: &[u8]) -> Result<String, Error> {
    let many = limit.convert_many(input)?;
    let ders = format!("{} {}", many.messages, hex(&many.der));
    Ok(many.refused.map_or_else(|| format!("0 {ders}"), |refused| format!("3 {ders} {refused}")))
}

fn verdict(word: &str) -> Verdict {
    match word {
        "good" => Verdict::Good,
        "bad" => Verdict::Bad,
        _ => Verdict::Unknown,
    }
}

fn check(limit: Limit, input: &[u8], words: &[&str]) -> Result<String, Error> {
    let verdict = verdict(words[2]);
    let findings = limit.check_with(input, octets(words[0]).as_deref(), octets(words[1]).as_deref(), |_| verdict)?;
    Ok(shown_findings(&findings, Verdict::Unknown))
}

/// Returns the findings with this verdict in place of F18.
fn shown_findings(findings: &[Finding], verdict: Verdict) -> String {
    let judged = |it: &&Finding| it.code() != 18 || verdict != Verdict::Good;
    let code = |it: &Finding| if it.code() == 18 && verdict == Verdict::Bad { 17 } else { it.code() };
    let shown = |it: &Finding| format!(" F{}{}", code(it), it.signer().map_or_else(String::new, |it| format!(":{it}")));
    format!("0{}", findings.iter().filter(judged).map(shown).collect::<String>())
}

fn lines(limit: Limit, input: &[u8], words: &[&str]) -> Result<String, Error> {
    let findings = limit.check(input, octets(words[0]).as_deref(), octets(words[1]).as_deref())?;
    Ok(format!("0 {}", findings.iter().map(ToString::to_string).collect::<Vec<_>>().join("; ")))
}

/// Returns the digests of a word, which has the octets of `struct cms_canon_digest`; none of the word for those that are absent.
fn digests_in(word: &str) -> Option<Vec<Digest>> {
    let algorithms = [Sha1, Sha224, Sha256, Sha384, Sha512, Sha512_224, Sha512_256];
    let digest = |it: &[u8]| {
        let number = u32::from_ne_bytes(it[..4].try_into().unwrap());
        let algorithm = algorithms[number as usize - 1];
        Digest::new(algorithm, &it[4..][..algorithm.octets()]).unwrap()
    };
    octets(word).map(|it| it.chunks(68).map(digest).collect())
}

/// As `check`, by digests.
fn digests(limit: Limit, input: &[u8], words: &[&str]) -> Result<String, Error> {
    let findings = limit.check_digests(input, digests_in(words[0]).as_deref(), digests_in(words[1]).as_deref())?;
    Ok(shown_findings(&findings, verdict(words[2])))
}

/// Compares the findings with content and data with those by their digests. If the content is needed itself, digests of it have to
/// be refused.
fn compare(limit: Limit, input: &[u8], words: &[&str]) -> Result<String, Error> {
    let (content, data) = (octets(words[0]), octets(words[1]));
    let wanted = match limit.digests_asked(input)?.content {
        ContentAsked::Itself if content.is_some() => "3 refused: needs the content".to_owned(),
        _ => format!("{:?}", limit.check(input, content.as_deref(), data.as_deref())?),
    };
    let found = limit.check_digests(input, digests_in(words[2]).as_deref(), digests_in(words[3]).as_deref());
    let came = found.map_or_else(|fault| format!("3 {fault}"), |it| format!("{it:?}"));
    Ok(if came == wanted { "same".to_owned() } else { format!("{came}, and {wanted} by the octets") })
}

/// Returns the parts of what a verifier is asked. A serial number is decimal, and of any length.
fn shown(job: &Job<'_>) -> String {
    let signer = job.signer();
    let number = signer.serial_number.map_or_else(|| "-".to_owned(), |it| decimal(it.contents()));
    let algorithms = [&signer.signature_algorithm, &signer.digest_algorithm];
    let mut words = vec![hex(&job.covered().unwrap()), hex(&signer.signature)];
    words.extend(algorithms.iter().flat_map(|it| [it.oid.to_string(), word(it.parameters)]));
    words.extend([word(signer.issuer), number, word(signer.subject_key_identifier.as_deref())]);
    words.extend(job.certificates().iter().map(|it| hex(it)));
    words.join(":")
}

/// Returns the decimal digits of an INTEGER.
fn decimal(contents: &[u8]) -> String {
    let is_negative = contents[0] >= 0x80;
    let mut digits = vec![0u32];
    let magnitude = contents.iter().map(|it| if is_negative { !it } else { *it });
    for octet in magnitude {
        append(&mut digits, 256, octet.into());
    }
    if is_negative {
        append(&mut digits, 1, 1);
    }
    let text: String = digits.iter().rev().map(|it| char::from_digit(*it, 10).unwrap()).collect();
    format!("{}{text}", if is_negative { "-" } else { "" })
}

/// Multiplies a number, by its digits from the lowest one, and adds to it.
fn append(digits: &mut Vec<u32>, factor: u32, mut carry: u32) {
    for digit in digits.iter_mut() {
        carry += *digit * factor;
        *digit = carry % 10;
        carry /= 10;
    }
    while carry > 0 {
        digits.push(carry % 10);
        carry /= 10;
    }
}

fn jobs(limit: Limit, input: &[u8], content: &str) -> Result<String, Error> {
    let mut asked = "0".to_owned();
    limit.check_with(input, octets(content).as_deref(), None, |job| {
        asked += " ";
        asked += &shown(job);
        Verdict::Unknown
    })?;
    Ok(asked)
}

fn called(request: &str) -> Result<String, Error> {
    let words: Vec<_> = request.split(' ').collect();
    let (limit, input) = (Limit::of(words[1].parse().unwrap()), octets(words[2]).unwrap());
    match words[0] {
        "convert" => Ok(format!("0 {}", hex(&limit.convert(&input)?))),
        "many" => many(limit, &input),
        "read" => Ok(limit.convert_many(&input)?.read.to_string()),
        "cover" => Ok(format!("0 {}", hex(&limit.cover(&input, &path(words[3]), octets(words[4]).as_deref())?))),
        "show" => Ok(format!("0 {}", hex(limit.show(&input)?.as_bytes()))),
        "same" => Ok(if limit.same(&input, &octets(words[3]).unwrap())? { "0" } else { "1" }.to_owned()),
        "check" => check(limit, &input, &words[3..]),
        "lines" => lines(limit, &input, &words[3..]),
        "digests" => digests(limit, &input, &words[3..]),
        "compare" => compare(limit, &input, &words[3..]),
        "jobs" => jobs(limit, &input, words[3]),
        call => panic!("there is no call {call}"),
    }
}

#[test]
fn results_are_those_wanted() {
    let Some(file) = env::var_os("CMS_CANON_REQUESTS") else {
        return eprintln!("CMS_CANON_REQUESTS names no file: tests/test_rust.py makes one");
    };
    let text = fs::read_to_string(file).unwrap();
    let lines: Vec<_> = text.lines().collect();
    assert!(!lines.is_empty() && lines.len() % 2 == 0, "{} lines", lines.len());
    for it in lines.chunks(2) {
        let result = called(it[0]).unwrap_or_else(|fault| format!("3 {fault}"));
        assert_eq!(result.trim_end(), it[1].trim_end(), "{}", it[0]);
    }
}
