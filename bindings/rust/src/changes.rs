//! What conversion changes in a message.

use std::fmt;

use crate::change_names::{KINDS, SETS};
use crate::error::Error;
use crate::ffi::{self, ChangeRow};

/// A change from a message to its DER. Places are in octets, from 0. Its text is the line of the command `changes`, as
/// `at 0 length made definite: 30 80 -> 30 23`.
#[derive(Clone, Debug, PartialEq, Eq)]
#[non_exhaustive]
pub struct Change {
    /// What is changed, as `length made definite`; docs/FORMATS.md has all kinds.
    pub kind: &'static str,
    /// Where what is changed begins in the message.
    pub place: u64,
    /// How many octets it has there.
    pub length: u64,
    /// Where it begins in the DER; if it is left out, where it would.
    pub der_place: u64,
    /// How many octets it has there: 0 if it is left out.
    pub der_length: u64,
    /// A number, by the kind: what it was, or where; of segments that are joined, how many there are.
    pub first: u64,
    /// Another number, by the kind: what it is now; of segments, how many octets are in them.
    pub second: u64,
    /// The set whose member is moved, as `digestAlgorithms`; none for another kind.
    pub set: Option<&'static str>,
    text: String,
}

impl fmt::Display for Change {
    fn fmt(&self, to: &mut fmt::Formatter<'_>) -> fmt::Result {
        to.write_str(&self.text)
    }
}

/// Returns the changes with their lines.
pub(crate) fn changes(input: &[u8], limit: u64) -> Result<Vec<Change>, Error> {
    let rows = ffi::changes(input, limit)?;
    let text = if rows.is_empty() { String::new() } else { listing(input, false, limit)? };
    Ok(rows.iter().zip(text.lines()).map(|(row, line)| change(row, line)).collect())
}

/// Returns the text, which is in ASCII.
pub(crate) fn listing(input: &[u8], json: bool, limit: u64) -> Result<String, Error> {
    let text = ffi::list_changes(input, json, limit)?;
    Ok(String::from_utf8(text).expect("the library writes ASCII"))
}

fn change(&ChangeRow([kind, place, length, der_place, der_length, first, second, set]): &ChangeRow, line: &str) -> Change {
    let name =
        |names: &[&'static str], number: u64| number.checked_sub(1).and_then(|it| names.get(usize::try_from(it).ok()?).copied());
    let kind = name(&KINDS, kind).expect("the library gives the kinds of its header");
    Change { kind, place, length, der_place, der_length, first, second, set: name(&SETS, set), text: line.to_owned() }
}
