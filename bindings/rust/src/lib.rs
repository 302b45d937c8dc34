//! The one DER encoding of a CMS signed message (RFC 5652), or of a request or a response of time-stamping (RFC 3161), and what is
//! in it.
//!
//! ```
//! # fn main() -> Result<(), cms_canon::Error> {
//! # let input: &[u8] = include_bytes!("../examples/message.ber");
//! let der = cms_canon::convert(input)?;
//! assert!(cms_canon::same(input, &der)?);
//! let message = cms_canon::read(input)?;
//! for signer in message.signers() {
//!     println!("{} over {} octets", signer.signature_algorithm.oid, signer.covered(None)?.len());
//! }
//! # Ok(())
//! # }
//! ```
//!
//! The calls run the proved code of the C library, which is linked into the program. Any number of threads may call at once.
#![deny(unsafe_code, unsafe_op_in_unsafe_fn, missing_docs)]

mod attributes;
mod certificates;
mod change_names;
mod changes;
mod check;
mod digests;
mod elements;
mod error;
#[allow(unsafe_code)]
mod ffi;
mod kinds;
mod message;
mod names;
mod reader;
mod records;
mod rows;
mod texts;
mod values;

pub use changes::Change;
pub use check::{Finding, Job, Verdict};
pub use digests::{ContentAsked, Digest, DigestAlgorithm, DigestsAsked};
pub use error::{Error, Refused};
pub use message::{Message, Signer};
pub use records::{
    Accuracy, AlgorithmIdentifier, Attribute, MessageImprint, SignedData, SignerInfo, TimeStampReq, TimeStampResp, TstInfo,
};
pub use values::{GeneralizedTime, Integer, NamedBits, Oid};

use rows::Rows;

/// How many octets a message and its DER may have. Each call is here too, under the limit.
///
/// ```
/// let limit = cms_canon::Limit::of(3);
/// assert_eq!(limit.convert(&[0x30, 0x80]).unwrap_err().to_string(), "refused E1 Truncated at 2");
/// ```
#[derive(Clone, Copy, Debug, PartialEq, Eq)]
pub struct Limit(u64);

impl Limit {
    /// 256 MiB, the limit of the command, and of the calls that have none of their own.
    pub const DEFAULT: Limit = Limit(256 * 1024 * 1024);

    const MOST: u64 = 1 << 40;

    /// Returns a limit of so many octets, or of 2^40 if they are more.
    #[must_use]
    pub const fn of(octets: u64) -> Self {
        Limit(if octets < Self::MOST { octets } else { Self::MOST })
    }

    /// Returns how many octets the limit is.
    #[must_use]
    pub const fn octets(self) -> u64 {
        self.0
    }

    /// As [`convert`].
    pub fn convert(self, input: &[u8]) -> Result<Vec<u8>, Error> {
        ffi::convert(input, self.0)
    }

    /// As [`convert_many`].
    pub fn convert_many(self, input: &[u8]) -> Result<Many, Error> {
        ffi::convert_many(input, self.0)
    }

    /// As [`changes`].
    pub fn changes(self, input: &[u8]) -> Result<Vec<Change>, Error> {
        changes::changes(input, self.0)
    }

    /// As [`list_changes`].
    pub fn list_changes(self, input: &[u8], json: bool) -> Result<String, Error> {
        changes::listing(input, json, self.0)
    }

    /// As [`show`].
    pub fn show(self, input: &[u8]) -> Result<String, Error> {
        let text = ffi::show(input, self.0)?;
        Ok(String::from_utf8(text).expect("a listing is UTF-8"))
    }

    /// As [`same`].
    pub fn same(self, first: &[u8], second: &[u8]) -> Result<bool, Error> {
        ffi::same(first, second, self.0)
    }

    /// As [`cover`].
    pub fn cover(self, input: &[u8], path: &[u64], content: Option<&[u8]>) -> Result<Vec<u8>, Error> {
        ffi::cover(input, path, content, self.0)
    }

    /// As [`read`].
    pub fn read(self, input: &[u8]) -> Result<Message<'_>, Error> {
        reader::message(Rows::new(input, &ffi::fields(input, self.0)?))
    }
}

/// What became of messages one after another.
#[derive(Clone, Debug, PartialEq, Eq)]
#[non_exhaustive]
pub struct Many {
    /// The DER of each message that is accepted, one after another.
    pub der: Vec<u8>,
    /// How many messages these are, and so also the number of the one that is refused, from 0.
    pub messages: u64,
    /// How many octets of the input they have, and so also where the one that is refused begins.
    pub read: u64,
    /// Why the next message is refused, with a text as `message 1: refused E1 Truncated at 1`; none if there is no octet more.
    pub refused: Option<Refused>,
}

/// Returns the DER of the one message in `input`. Neither may have more octets than the limit.
pub fn convert(input: &[u8]) -> Result<Vec<u8>, Error> {
    Limit::DEFAULT.convert(input)
}

/// Returns the DER of the messages in `input`, which come one right after the other. There may be none. If one of them is refused,
/// the result has the DER of those before it, and says why. The limit is for each message and its DER.
///
/// If it is refused by E1, `input` ends inside it: a caller that then gets more octets calls again with those from `read` on, and
/// the new ones.
pub fn convert_many(input: &[u8]) -> Result<Many, Error> {
    Limit::DEFAULT.convert_many(input)
}

/// Returns what [`convert`] changes in the one message in `input`, in its order; empty if it is its own DER.
pub fn changes(input: &[u8]) -> Result<Vec<Change>, Error> {
    Limit::DEFAULT.changes(input)
}

/// Returns the same as the command `changes` writes it: a line for each change, and one that counts them and the octets; or one object of
/// JSON, if `json` is true.
pub fn list_changes(input: &[u8], json: bool) -> Result<String, Error> {
    Limit::DEFAULT.list_changes(input, json)
}

/// Returns the listing of the one message in `input`, as the command `show` writes it: a line for each of its parts.
pub fn show(input: &[u8]) -> Result<String, Error> {
    Limit::DEFAULT.show(input)
}

/// Returns the rules of the standards that the one message in `input` breaks, as the command `check` lists them. Those for the
/// message come first, and then those for each signer in the order read; both are ordered by their codes. No signature is verified:
/// there is F18 for each that covers anything.
///
/// `content` is the content of a detached signature. It is not used if the message has content of its own. `data` are the data that
/// were time-stamped: the message then has to be a time-stamp token for them, a response with such a token, or a request for one.
/// Neither is limited; if they do not fit into memory, [`check_digests`] takes digests of them.
pub fn check(input: &[u8], content: Option<&[u8]>, data: Option<&[u8]>) -> Result<Vec<Finding>, Error> {
    Limit::DEFAULT.check(input, content, data)
}

/// As [`check`], with a verifier, which is asked once for each signer whose signature covers anything, in the order read. If it
/// says good, there is no finding for the signature; if bad, F17; if unknown, F18.
pub fn check_with(
    input: &[u8],
    content: Option<&[u8]>,
    data: Option<&[u8]>,
    verifier: impl FnMut(&Job<'_>) -> Verdict,
) -> Result<Vec<Finding>, Error> {
    Limit::DEFAULT.check_with(input, content, data, verifier)
}

/// Returns which digests the one message in `input` asks for of octets that are not attached to it: what [`check_digests`] needs.
pub fn digests_asked(input: &[u8]) -> Result<DigestsAsked, Error> {
    Limit::DEFAULT.digests_asked(input)
}

/// As [`check`], by digests of the content and of the data in place of their octets. So a document of any length takes no memory:
/// the caller asks [`digests_asked`] which digests are needed, reads the document in pieces, and digests them by a crate of its
/// choice. The findings are those of [`check`] with any octets that have these digests: a digest that is not of the document is
/// believed.
///
/// More digests may be given than are asked for, in any order. The first one by an algorithm counts.
///
/// # Errors
///
/// A digest that is asked for is not given (106), or the content is needed itself, and digests of it are given (107); or as of
/// [`check`].
///
/// ```
/// use cms_canon::{ContentAsked, Digest, DigestAlgorithm, Error};
///
/// /// Checks a message whose content is detached; `digest` returns the octets of the content's digest.
/// fn check(input: &[u8], digest: impl Fn(DigestAlgorithm) -> Vec<u8>) -> Result<Vec<cms_canon::Finding>, Error> {
///     let digests: Vec<_> = match cms_canon::digests_asked(input)?.content {
///         ContentAsked::Digests(all) => all.into_iter().filter_map(|it| Digest::new(it, &digest(it))).collect(),
///         ContentAsked::Itself => Vec::new(), // the call then refuses
///     };
///     cms_canon::check_digests(input, Some(&digests), None)
/// }
/// # assert_eq!(check(&[0x30], |_| unreachable!()).unwrap_err().to_string(), "refused E1 Truncated at 1");
/// ```
pub fn check_digests(input: &[u8], content: Option<&[Digest]>, data: Option<&[Digest]>) -> Result<Vec<Finding>, Error> {
    Limit::DEFAULT.check_digests(input, content, data)
}

/// Returns whether the message in `first` and the one in `second` are the same: whether they have the same DER.
pub fn same(first: &[u8], second: &[u8]) -> Result<bool, Error> {
    Limit::DEFAULT.same(first, second)
}

/// Returns the octets that the signature of a signer or of a countersignature covers in the one message in `input` (RFC 5652,
/// sections 5.4 and 11.4).
///
/// `path` is the number of the signer, and after it that of a countersignature of the one before, and so on, each from 0 in the
/// order read. `content` is the content of a detached signature. It is not used if the signer has signed attributes, or if the
/// message has content of its own.
///
/// If the signer has signed attributes, the signature covers these and not the content. A verifier must also compare the digest of
/// the content with the attribute message-digest; `cover` does not do it, and `check` does.
pub fn cover(input: &[u8], path: &[u64], content: Option<&[u8]>) -> Result<Vec<u8>, Error> {
    Limit::DEFAULT.cover(input, path, content)
}

/// Returns all fields of the one message in `input`. The library is called once, or twice if there are more than 65,536 fields.
pub fn read(input: &[u8]) -> Result<Message<'_>, Error> {
    Limit::DEFAULT.read(input)
}

/// Returns what a time-stamp token says, which is its content: for a token whose content is detached. It is not limited.
///
/// # Errors
///
/// The content is no TSTInfo in DER (105).
pub fn tst_info(content: &[u8]) -> Result<TstInfo<'_>, Error> {
    reader::whole_tst_info(Rows::new(content, &ffi::tst_info_fields(content)?))
}

#[cfg(doctest)]
#[doc = include_str!("../README.md")]
struct Readme;
