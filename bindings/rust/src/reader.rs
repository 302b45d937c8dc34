//! Messages from their rows.

use crate::error::Error;
use crate::kinds;
use crate::message::Message;
use crate::records::TstInfo;
use crate::rows::Rows;

/// Returns the message with these rows.
pub(crate) fn message<'a>(mut rows: Rows<'a, '_>) -> Result<Message<'a>, Error> {
    let message = if rows.has(kinds::REQUEST, 0) {
        Message::Request(rows.read(kinds::REQUEST, 0)?)
    } else if rows.has(kinds::RESPONSE, 0) {
        Message::Response(rows.read(kinds::RESPONSE, 0)?)
    } else {
        Message::SignedData(rows.read(kinds::SIGNED_DATA, 0)?)
    };
    rows.end();
    Ok(message)
}

/// Returns the TSTInfo with these rows.
pub(crate) fn whole_tst_info<'a>(mut rows: Rows<'a, '_>) -> Result<TstInfo<'a>, Error> {
    let info = rows.read(kinds::TST_INFO, 0)?;
    rows.end();
    Ok(info)
}

#[cfg(test)]
mod tests {
    use std::panic;

    use super::*;
    use crate::ffi::Row;

    /// The rows of a message with one signer, none of which may be absent, each with its level.
    const ROWS: [(u32, u32); 9] = [
        (kinds::SIGNED_DATA, 0),
        (kinds::VERSION, 1),
        (kinds::CONTENT_TYPE, 1),
        (kinds::SIGNER, 1),
        (kinds::SIGNER_VERSION, 2),
        (kinds::SUBJECT_KEY_IDENTIFIER, 2),
        (kinds::SIGNER_DIGEST_ALGORITHM, 2),
        (kinds::SIGNATURE_ALGORITHM, 2),
        (kinds::SIGNATURE, 2),
    ];

    /// Returns the signature that is read from these rows, of which each has one octet: its number.
    fn signature(rows: &[(u32, u32)]) -> Option<Vec<u8>> {
        let input: Vec<_> = (0..).take(rows.len()).collect();
        let rows: Vec<_> = (0..).zip(rows).map(|(start, &(kind, level))| Row { start, length: 1, kind, level }).collect();
        let message = message(Rows::new(&input, &rows)).unwrap();
        message.signer(0).map(|it| it.signature.to_vec())
    }

    #[test]
    fn a_row_too_few_is_a_panic() {
        assert_eq!(signature(&ROWS), Some(vec![8]));
        for (index, row) in ROWS.iter().enumerate() {
            let left = [&ROWS[..index], &ROWS[index + 1..]].concat();
            assert!(panic::catch_unwind(|| signature(&left)).is_err(), "without {row:x?}");
        }
    }

    #[test]
    fn a_row_too_many_is_a_panic() {
        assert_eq!(signature(&[&ROWS[..], &[(kinds::SIGNATURE, 2)]].concat()), Some(vec![8, 9]));
        for row in [(kinds::SIGNATURE, 1), (kinds::SIGNER_VERSION, 2), (kinds::CONTENT, 1), (kinds::SIGNED_DATA, 0), (0, 0)] {
            let more = [&ROWS[..], &[row]].concat();
            assert!(panic::catch_unwind(|| signature(&more)).is_err(), "with {row:x?}");
        }
    }
}
