//! The rules of the standards that a message breaks, with the verdicts of a verifier.

use std::borrow::Cow;
use std::fmt;

use crate::error::Error;
use crate::ffi;
use crate::message::{Message, Signer};
use crate::texts::FINDINGS;
use crate::Limit;

const BAD: u32 = 17; // the findings that are the verdicts of a verifier
const UNKNOWN: u32 = 18;

/// A rule of the standards that a message breaks: `struct cms_canon_finding`. Its text is the line of the command, as
/// `F7 signer 0 message digest differs`.
#[repr(C)]
#[derive(Clone, Copy, Debug, PartialEq, Eq, Hash)]
pub struct Finding {
    signer: u64,
    code: u32,
    has_signer: u32,
}

impl Finding {
    /// Returns 1 to 19 for F1 to F19.
    #[must_use]
    pub fn code(&self) -> u32 {
        self.code
    }

    /// Returns the number of the signer that breaks it, in the order read, from 0; none for a rule for the message.
    #[must_use]
    pub fn signer(&self) -> Option<u64> {
        (self.has_signer != 0).then_some(self.signer)
    }
}

impl fmt::Display for Finding {
    fn fmt(&self, to: &mut fmt::Formatter<'_>) -> fmt::Result {
        write!(to, "F{}", self.code)?;
        if let Some(signer) = self.signer() {
            write!(to, " signer {signer}")?;
        }
        let text = self.code.checked_sub(1).and_then(|it| FINDINGS.get(it as usize));
        text.map_or(Ok(()), |it| write!(to, " {it}"))
    }
}

/// What a verifier says of a signature.
#[derive(Clone, Copy, Debug, PartialEq, Eq)]
pub enum Verdict {
    /// It is right.
    Good,
    /// It is wrong.
    Bad,
    /// The verifier cannot tell, for example because it has no key or does not know an algorithm.
    Unknown,
}

/// What a verifier is asked: whether a signature is right for the octets that it covers (RFC 5652, section 5.6).
#[derive(Clone, Copy, Debug)]
pub struct Job<'j> {
    number: u64,
    signer: Signer<'j>,
    message: &'j Message<'j>,
    content: Option<&'j [u8]>,
}

impl<'j> Job<'j> {
    /// Returns the number of the signer in the order read, from 0.
    #[must_use]
    pub fn number(&self) -> u64 {
        self.number
    }

    /// Returns the signer.
    #[must_use]
    pub fn signer(&self) -> Signer<'j> {
        self.signer
    }

    /// Returns the certificates of the message in the order read, each one element: a Certificate (RFC 5280) if it begins with 30.
    #[must_use]
    pub fn certificates(&self) -> &'j [&'j [u8]] {
        self.message.signed_data().and_then(|it| it.certificates.as_deref()).unwrap_or_default()
    }

    /// Returns the octets that the signature covers. If the signer has signed attributes, they are these and not the content.
    ///
    /// # Errors
    ///
    /// There is not enough memory.
    pub fn covered(&self) -> Result<Cow<'j, [u8]>, Error> {
        self.signer.covered(self.content)
    }
}

impl Limit {
    /// As [`check`](crate::check).
    pub fn check(self, input: &[u8], content: Option<&[u8]>, data: Option<&[u8]>) -> Result<Vec<Finding>, Error> {
        ffi::check(input, content, data, self.octets())
    }

    /// As [`check_with`](crate::check_with).
    pub fn check_with(
        self,
        input: &[u8],
        content: Option<&[u8]>,
        data: Option<&[u8]>,
        mut verifier: impl FnMut(&Job<'_>) -> Verdict,
    ) -> Result<Vec<Finding>, Error> {
        let mut findings = self.check(input, content, data)?;
        let message = self.read(input)?;
        findings.retain_mut(|finding| {
            if finding.code != UNKNOWN {
                return true;
            }
            let signer = message.signer(finding.signer as usize).expect("a finding has the number of a signer");
            let verdict = verifier(&Job { number: finding.signer, signer, message: &message, content });
            if verdict == Verdict::Bad {
                finding.code = BAD;
            }
            verdict != Verdict::Good
        });
        Ok(findings)
    }
}
