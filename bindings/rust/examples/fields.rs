//! Prints the fields of a message, a line for each: its name, and its value, octets as hexadecimal digits and `-` if it is absent.
//!
//!     fields MESSAGE [CONTENT]
//!
//! MESSAGE is the file of the message, and CONTENT the file of the content of a detached signature. A message that is refused has
//! its line on the standard error, and the status 3.

use std::error::Error;
use std::io::{self, BufWriter, Write};
use std::process::ExitCode;
use std::{env, fs};

use cms_canon::{
    Accuracy, AlgorithmIdentifier, Attribute, Integer, Message, MessageImprint, NamedBits, SignedData, Signer, TimeStampReq,
    TimeStampResp, TstInfo,
};

type Printed = Result<(), Box<dyn Error>>;

const TST_INFO: &str = "1.2.840.113549.1.9.16.1.4"; // the content type of a time-stamp token

fn main() -> Result<ExitCode, Box<dyn Error>> {
    let mut words = env::args_os().skip(1);
    let input = fs::read(words.next().ok_or("usage: fields MESSAGE [CONTENT]")?)?;
    let detached = words.next().map(fs::read).transpose()?;
    match cms_canon::read(&input) {
        Ok(message) => print(&mut BufWriter::new(io::stdout().lock()), &message, detached.as_deref())?,
        Err(cms_canon::Error::Refused(refused)) => {
            eprintln!("{refused}");
            return Ok(ExitCode::from(3));
        }
        Err(fault) => return Err(fault.into()),
    }
    Ok(ExitCode::SUCCESS)
}

fn print(to: &mut impl Write, message: &Message, detached: Option<&[u8]>) -> Printed {
    match message {
        Message::SignedData(_) => writeln!(to, "signed-data")?,
        Message::Request(request) => print_request(to, request)?,
        Message::Response(response) => print_response(to, response)?,
        _ => writeln!(to, "unknown")?,
    }
    if let Some(signed) = message.signed_data() {
        print_signed_data(to, signed)?;
        print_signers(to, message, detached)?;
        if signed.content_type.to_string() == TST_INFO {
            match message.tst_info() {
                Ok(Some(info)) => print_tst_info(to, &info)?,
                Ok(None) => writeln!(to, "tst-info -")?,
                Err(cms_canon::Error::Refused(refused)) => writeln!(to, "tst-info {refused}")?,
                Err(fault) => return Err(fault.into()),
            }
        }
    }
    to.flush()?;
    Ok(())
}

fn print_request(to: &mut impl Write, request: &TimeStampReq) -> Printed {
    writeln!(to, "request\nversion {}\nimprint {}", integer(request.version), imprint(&request.imprint))?;
    writeln!(to, "policy {}\nnonce {}", or_dash(request.policy), or_dash(request.nonce.map(integer)))?;
    writeln!(to, "cert-req {}\nextensions {}", request.cert_req, or_dash(request.extensions.map(hex)))?;
    Ok(())
}

fn print_response(to: &mut impl Write, response: &TimeStampResp) -> Printed {
    writeln!(to, "response\nstatus {}", integer(response.status))?;
    writeln!(to, "status-string {}", or_dash(response.status_string.map(hex)))?;
    writeln!(to, "fail-info {}", or_dash(response.fail_info.map(bits)))?;
    Ok(())
}

fn print_signed_data(to: &mut impl Write, signed: &SignedData) -> Printed {
    writeln!(to, "version {}", integer(signed.version))?;
    for it in &signed.digest_algorithms {
        writeln!(to, "digest-algorithm {}", algorithm(it))?;
    }
    writeln!(to, "content-type {}", signed.content_type)?;
    writeln!(to, "content {}", or_dash(signed.content.as_deref().map(hex)))?;
    print_members(to, "certificate", signed.certificates.as_deref())?;
    print_members(to, "crl", signed.crls.as_deref())
}

fn print_signers(to: &mut impl Write, message: &Message, detached: Option<&[u8]>) -> Printed {
    for (number, it) in message.signers().enumerate() {
        print_signer(to, &format!("signer {number}"), it, detached)?;
    }
    Ok(())
}

fn print_members(to: &mut impl Write, name: &str, members: Option<&[&[u8]]>) -> Printed {
    writeln!(to, "{name}s {}", or_dash(members.map(<[_]>::len)))?;
    for it in members.unwrap_or_default() {
        writeln!(to, "{name} {}", hex(it))?;
    }
    Ok(())
}

fn print_signer(to: &mut impl Write, name: &str, it: Signer, detached: Option<&[u8]>) -> Printed {
    writeln!(to, "{name} version {}", integer(it.version))?;
    writeln!(to, "{name} issuer {}", or_dash(it.issuer.map(hex)))?;
    writeln!(to, "{name} serial-number {}", or_dash(it.serial_number.map(integer)))?;
    writeln!(to, "{name} subject-key-identifier {}", or_dash(it.subject_key_identifier.as_deref().map(hex)))?;
    writeln!(to, "{name} digest-algorithm {}", algorithm(&it.digest_algorithm))?;
    print_attributes(to, &format!("{name} signed-attribute"), &it.signed_attributes)?;
    writeln!(to, "{name} signature-algorithm {}", algorithm(&it.signature_algorithm))?;
    writeln!(to, "{name} signature {}", hex(&it.signature))?;
    match it.covered(detached) {
        Ok(octets) => writeln!(to, "{name} covered {}", hex(&octets))?,
        Err(cms_canon::Error::Refused(refused)) => writeln!(to, "{name} covered {refused}")?,
        Err(fault) => return Err(fault.into()),
    }
    print_attributes(to, &format!("{name} unsigned-attribute"), &it.unsigned_attributes)?;
    for (number, below) in it.countersignatures().enumerate() {
        print_signer(to, &format!("{name},{number}"), below, detached)?;
    }
    Ok(())
}

fn print_attributes(to: &mut impl Write, name: &str, attributes: &[Attribute]) -> Printed {
    for it in attributes {
        write!(to, "{name} {}", it.oid)?;
        if name.ends_with(" unsigned-attribute") && it.oid.to_string() == COUNTERSIGNATURE {
            write!(to, " countersignatures {}", it.countersignatures.len())?;
        }
        it.values.iter().try_for_each(|value| write!(to, " {}", hex(value)))?;
        writeln!(to)?;
    }
    Ok(())
}

const COUNTERSIGNATURE: &str = "1.2.840.113549.1.9.6"; // the type of an unsigned attribute

fn print_tst_info(to: &mut impl Write, info: &TstInfo) -> Printed {
    writeln!(to, "tst-version {}\ntst-policy {}", integer(info.version), info.policy)?;
    writeln!(to, "tst-imprint {}\ntst-serial-number {}", imprint(&info.imprint), integer(info.serial_number))?;
    writeln!(to, "tst-gen-time {}\ntst-accuracy {}", info.gen_time, or_dash(info.accuracy.map(accuracy)))?;
    writeln!(to, "tst-ordering {}\ntst-nonce {}", info.ordering, or_dash(info.nonce.map(integer)))?;
    writeln!(to, "tst-tsa {}\ntst-extensions {}", or_dash(info.tsa.map(hex)), or_dash(info.extensions.map(hex)))?;
    Ok(())
}

fn accuracy(it: Accuracy) -> String {
    format!("{} {} {}", or_dash(it.seconds.map(integer)), or_dash(it.millis), or_dash(it.micros))
}

fn imprint(it: &MessageImprint) -> String {
    format!("{} {}", algorithm(&it.hash_algorithm), hex(&it.hashed_message))
}

fn algorithm(it: &AlgorithmIdentifier) -> String {
    format!("{} {}", it.oid, or_dash(it.parameters.map(hex)))
}

fn integer(it: Integer) -> String {
    hex(it.contents())
}

fn bits(it: NamedBits) -> String {
    let set = (0..8 * it.contents().len()).filter(|number| it.is_set(*number)).map(|number| number.to_string());
    format!("bits {}", set.collect::<Vec<_>>().join(","))
}

fn hex(octets: &[u8]) -> String {
    octets.iter().map(|it| format!("{it:02x}")).collect()
}

fn or_dash(value: Option<impl ToString>) -> String {
    value.map_or_else(|| "-".to_owned(), |it| it.to_string())
}
