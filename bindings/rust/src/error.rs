//! Why a call fails.

use std::collections::TryReserveError;
use std::{error, fmt};

const NO_SIGNED_DATA: u32 = 101; // the first of the reasons that are none of E1 to E19
const NO_CONTENT: u32 = 103;

/// Why a call fails.
#[derive(Clone, PartialEq, Eq)]
pub enum Error {
    /// A message is refused, or does not have what is asked for, or digests do not suffice.
    Refused(Refused),
    /// There is not enough memory.
    OutOfMemory,
}

/// Why a message is refused, or that it does not have what is asked for, or that digests do not suffice. Its text is the line of
/// the command, as `refused E6 Overrun at 4`.
#[derive(Clone, PartialEq, Eq)]
pub struct Refused {
    reason: u32,
    at: u64,
    name: [u8; 24],
    which: Which,
}

/// Which message of a call is refused.
#[derive(Clone, Copy, Debug, PartialEq, Eq)]
pub(crate) enum Which {
    Only,
    First,
    Second,
    Number(u64),
}

impl Refused {
    pub(crate) fn new(reason: u32, at: u64, name: [u8; 24], which: Which) -> Self {
        Refused { reason, at, name, which }
    }

    /// There is no content.
    pub(crate) fn no_content() -> Self {
        const NAME: &[u8] = b"no content";
        let mut name = [0; 24];
        name[..NAME.len()].copy_from_slice(NAME);
        Refused::new(NO_CONTENT, 0, name, Which::Only)
    }

    /// Returns 1 to 19 for E1 to E19. 101: no signed data. 102: no such signer. 103: no content. 105: not a TSTInfo in DER.
    /// 106: digest not given. 107: needs the content.
    #[must_use]
    pub fn reason(&self) -> u32 {
        self.reason
    }

    /// Returns the name of the reason, as `Overrun` or `no such signer`.
    #[must_use]
    pub fn name(&self) -> &str {
        let end = self.name.iter().position(|it| *it == 0).unwrap_or(self.name.len());
        std::str::from_utf8(&self.name[..end]).unwrap_or_default()
    }

    /// Returns how many octets of the message were read when it was refused by one of E1 to E19; none for the other reasons.
    #[must_use]
    pub fn at(&self) -> Option<u64> {
        (self.reason < NO_SIGNED_DATA).then_some(self.at)
    }

    /// Returns which message is refused: of [`same`](crate::same) 1 or 2, of [`convert_many`](crate::convert_many) its number from
    /// 0; none if there is but one.
    #[must_use]
    pub fn message(&self) -> Option<u64> {
        match self.which {
            Which::Only => None,
            Which::First => Some(1),
            Which::Second => Some(2),
            Which::Number(number) => Some(number),
        }
    }
}

impl fmt::Display for Refused {
    fn fmt(&self, to: &mut fmt::Formatter<'_>) -> fmt::Result {
        match self.which {
            Which::Only => Ok(()),
            Which::First => to.write_str("first: "),
            Which::Second => to.write_str("second: "),
            Which::Number(number) => write!(to, "message {number}: "),
        }?;
        match self.at() {
            Some(at) => write!(to, "refused E{} {} at {at}", self.reason, self.name()),
            None => write!(to, "refused: {}", self.name()),
        }
    }
}

/// The same text, which is what `main` prints of an error that it returns.
impl fmt::Debug for Refused {
    fn fmt(&self, to: &mut fmt::Formatter<'_>) -> fmt::Result {
        fmt::Display::fmt(self, to)
    }
}

impl error::Error for Refused {}

impl fmt::Display for Error {
    fn fmt(&self, to: &mut fmt::Formatter<'_>) -> fmt::Result {
        match self {
            Error::Refused(refused) => refused.fmt(to),
            Error::OutOfMemory => to.write_str("out of memory"),
        }
    }
}

/// The same text, which is what `main` prints of an error that it returns.
impl fmt::Debug for Error {
    fn fmt(&self, to: &mut fmt::Formatter<'_>) -> fmt::Result {
        fmt::Display::fmt(self, to)
    }
}

impl error::Error for Error {}

impl From<Refused> for Error {
    fn from(refused: Refused) -> Self {
        Error::Refused(refused)
    }
}

impl From<TryReserveError> for Error {
    fn from(_: TryReserveError) -> Self {
        Error::OutOfMemory
    }
}
