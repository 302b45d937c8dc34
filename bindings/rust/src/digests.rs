//! Which digests a message asks for of octets that are not attached to it, and the digests that it is given.

use crate::error::Error;
use crate::ffi::{self, DigestAsked};
use crate::{Finding, Limit};

const OF_CONTENT: u32 = 1; // what a digest is asked for
const OF_DATA: u32 = 2;
const ITSELF: u32 = 0; // in place of an algorithm

/// A digest algorithm that the library knows (FIPS 180-4).
#[repr(u32)]
#[derive(Clone, Copy, Debug, PartialEq, Eq, PartialOrd, Ord, Hash)]
#[non_exhaustive]
pub enum DigestAlgorithm {
    /// SHA-1, of 20 octets.
    Sha1 = 1,
    /// SHA-224, of 28 octets.
    Sha224 = 2,
    /// SHA-256, of 32 octets.
    Sha256 = 3,
    /// SHA-384, of 48 octets.
    Sha384 = 4,
    /// SHA-512, of 64 octets.
    Sha512 = 5,
    /// SHA-512/224, of 28 octets.
    Sha512_224 = 6,
    /// SHA-512/256, of 32 octets.
    Sha512_256 = 7,
}

impl DigestAlgorithm {
    const ALL: [Self; 7] = [Self::Sha1, Self::Sha224, Self::Sha256, Self::Sha384, Self::Sha512, Self::Sha512_224, Self::Sha512_256];

    /// Returns how many octets a digest has.
    #[must_use]
    pub const fn octets(self) -> usize {
        match self {
            Self::Sha1 => 20,
            Self::Sha224 | Self::Sha512_224 => 28,
            Self::Sha256 | Self::Sha512_256 => 32,
            Self::Sha384 => 48,
            Self::Sha512 => 64,
        }
    }

    /// Returns the algorithm with this number. Another number is a fault of the library, and a panic.
    fn numbered(number: u32) -> Self {
        let known = Self::ALL.into_iter().find(|it| *it as u32 == number);
        known.unwrap_or_else(|| panic!("the library asks for a digest by the algorithm {number}"))
    }
}

/// A digest, of as many octets as its algorithm has: `struct cms_canon_digest`.
#[repr(C)]
#[derive(Clone, Copy, Debug, PartialEq, Eq, Hash)]
pub struct Digest {
    algorithm: DigestAlgorithm,
    all: [u8; 64], // the octets, and zeros after them
}

impl Digest {
    /// Returns the digest with these octets; none if the algorithm has another number of them.
    #[must_use]
    pub fn new(algorithm: DigestAlgorithm, octets: &[u8]) -> Option<Self> {
        let mut all = [0; 64];
        (octets.len() == algorithm.octets()).then(|| {
            all[..octets.len()].copy_from_slice(octets);
            Digest { algorithm, all }
        })
    }

    /// Returns its algorithm.
    #[must_use]
    pub fn algorithm(&self) -> DigestAlgorithm {
        self.algorithm
    }

    /// Returns its octets.
    #[must_use]
    pub fn octets(&self) -> &[u8] {
        &self.all[..self.algorithm.octets()]
    }
}

/// What a message asks for of octets that are not attached to it.
#[derive(Clone, Debug, PartialEq, Eq)]
#[non_exhaustive]
pub struct DigestsAsked {
    /// What it asks for of its content.
    pub content: ContentAsked,
    /// The algorithm of the digest of the data that were time-stamped, or are to be; none if it asks for no digest of them.
    pub data: Option<DigestAlgorithm>,
}

/// What a message asks for of its content.
#[derive(Clone, Debug, PartialEq, Eq)]
pub enum ContentAsked {
    /// Its digests by these algorithms, each once. There are none if the message has content of its own, or if no signer has
    /// signed attributes that do not break F6, and an algorithm that the library knows.
    Digests(Vec<DigestAlgorithm>),
    /// The content itself, which is the TSTInfo of a time-stamp token: [`check`](crate::check) takes it, and the data as octets.
    Itself,
}

impl DigestsAsked {
    /// Those of the rows that the library gives. Rows that the header does not allow are a fault of the library, and a panic.
    fn new(rows: &[DigestAsked]) -> Result<Self, Error> {
        if let [DigestAsked { of: OF_CONTENT, algorithm: ITSELF }] = rows {
            return Ok(DigestsAsked { content: ContentAsked::Itself, data: None });
        }
        let (mut content, mut data) = (Vec::new(), None);
        content.try_reserve_exact(rows.len())?;
        for row in rows {
            let algorithm = DigestAlgorithm::numbered(row.algorithm);
            match row.of {
                OF_CONTENT => content.push(algorithm),
                OF_DATA => assert!(data.replace(algorithm).is_none(), "the library asks for two digests of the data"),
                of => panic!("the library asks for a digest of {of}"),
            }
        }
        Ok(DigestsAsked { content: ContentAsked::Digests(content), data })
    }
}

impl Limit {
    /// As [`digests_asked`](crate::digests_asked).
    pub fn digests_asked(self, input: &[u8]) -> Result<DigestsAsked, Error> {
        DigestsAsked::new(&ffi::digests_asked(input, self.octets())?)
    }

    /// As [`check_digests`](crate::check_digests).
    pub fn check_digests(self, input: &[u8], content: Option<&[Digest]>, data: Option<&[Digest]>) -> Result<Vec<Finding>, Error> {
        ffi::check_digests(input, content, data, self.octets())
    }
}

#[cfg(test)]
mod tests {
    use super::*;

    fn asked(rows: &[(u32, u32)]) -> DigestsAsked {
        let rows: Vec<_> = rows.iter().map(|it| DigestAsked { of: it.0, algorithm: it.1 }).collect();
        DigestsAsked::new(&rows).unwrap()
    }

    #[test]
    fn rows_are_what_is_asked_for() {
        let by = |algorithms: &[DigestAlgorithm]| ContentAsked::Digests(algorithms.to_vec());
        assert_eq!(asked(&[]), DigestsAsked { content: by(&[]), data: None });
        assert_eq!(asked(&[(1, 0)]), DigestsAsked { content: ContentAsked::Itself, data: None });
        let rows: Vec<_> = (1..=7).map(|number| (1, number)).chain([(2, 7)]).collect();
        assert_eq!(asked(&rows), DigestsAsked { content: by(&DigestAlgorithm::ALL), data: Some(DigestAlgorithm::Sha512_256) });
    }

    #[test]
    fn wrong_rows_are_faults_of_the_library() {
        let wrong: [&[(u32, u32)]; 7] =
            [&[(1, 8)], &[(2, 0)], &[(2, u32::MAX)], &[(0, 1)], &[(3, 1)], &[(1, 0), (2, 1)], &[(2, 1), (2, 1)]];
        for rows in wrong {
            assert!(std::panic::catch_unwind(|| asked(rows)).is_err(), "{rows:?}");
        }
    }
}
