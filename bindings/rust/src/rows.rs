//! Rows, which are taken in their order. A row that is not the one asked for is a fault of the library, and a panic.

use std::borrow::Cow;

use crate::error::Error;
use crate::ffi::Row;
use crate::values::{GeneralizedTime, Integer, NamedBits, Oid};

/// The rows of a message that were not taken yet.
pub(crate) struct Rows<'a, 'r> {
    input: &'a [u8],
    left: &'r [Row],
}

impl<'a, 'r> Rows<'a, 'r> {
    pub(crate) fn new(input: &'a [u8], rows: &'r [Row]) -> Self {
        Rows { input, left: rows }
    }

    /// Returns whether the next row is of this kind and level.
    pub(crate) fn has(&self, kind: u32, level: u32) -> bool {
        self.left.first().is_some_and(|it| (it.kind, it.level) == (kind, level))
    }

    /// Takes the next row, which has to be of this kind and level.
    pub(crate) fn take(&mut self, kind: u32, level: u32) -> &'a [u8] {
        assert!(self.has(kind, level), "no row of kind {kind:#x} at level {level} comes, but {:?}", self.left.first());
        let row = self.left[0];
        self.left = &self.left[1..];
        &self.input[row.start as usize..][..row.length as usize]
    }

    /// Has to be called after the last row was taken.
    pub(crate) fn end(&self) {
        assert!(self.left.is_empty(), "more rows come: {:?}", self.left.first());
    }

    /// Returns the octets of the next row, which is not taken; none if it is of another kind or level.
    pub(crate) fn peek(&self, kind: u32, level: u32) -> Option<&'a [u8]> {
        Rows { input: self.input, left: self.left }.optional(kind, level)
    }

    fn optional(&mut self, kind: u32, level: u32) -> Option<&'a [u8]> {
        self.has(kind, level).then(|| self.take(kind, level))
    }

    /// Reads a value, whose first row has to be of this kind and level.
    pub(crate) fn read<T: Read<'a>>(&mut self, kind: u32, level: u32) -> Result<T, Error> {
        T::read(self, kind, level)
    }

    /// Reads a value that is there if this is so.
    pub(crate) fn read_if<T: Read<'a>>(&mut self, is_there: bool, kind: u32, level: u32) -> Result<Option<T>, Error> {
        is_there.then(|| self.read(kind, level)).transpose()
    }

    /// Reads values from rows of a kind, `member`, one level below the next row; none if that is of another kind or level.
    pub(crate) fn below<T: Read<'a>>(&mut self, kind: u32, level: u32, member: u32) -> Result<Option<Vec<T>>, Error> {
        self.optional(kind, level).map(|_| self.read(member, level + 1)).transpose()
    }
}

/// What is read from rows.
pub(crate) trait Read<'a>: Sized {
    /// Reads a value, whose first row has to be of this kind and level.
    fn read(rows: &mut Rows<'a, '_>, kind: u32, level: u32) -> Result<Self, Error>;
}

/// A value that may be absent: it is if the next row is of another kind or level.
impl<'a, T: Read<'a>> Read<'a> for Option<T> {
    fn read(rows: &mut Rows<'a, '_>, kind: u32, level: u32) -> Result<Self, Error> {
        rows.read_if(rows.has(kind, level), kind, level)
    }
}

/// Values as long as the next row is of this kind and level.
impl<'a, T: Read<'a>> Read<'a> for Vec<T> {
    fn read(rows: &mut Rows<'a, '_>, kind: u32, level: u32) -> Result<Self, Error> {
        let mut found = Vec::new();
        while rows.has(kind, level) {
            found.try_reserve(1)?;
            found.push(rows.read(kind, level)?);
        }
        Ok(found)
    }
}

/// The octets of an OCTET STRING, of all its segments.
impl<'a> Read<'a> for Cow<'a, [u8]> {
    fn read(rows: &mut Rows<'a, '_>, kind: u32, level: u32) -> Result<Self, Error> {
        let first = rows.take(kind, level);
        let others: Vec<&[u8]> = rows.read(kind, level)?;
        if others.is_empty() {
            return Ok(Cow::Borrowed(first));
        }
        let mut joined = Vec::new();
        joined.try_reserve_exact(first.len() + others.iter().map(|it| it.len()).sum::<usize>())?;
        joined.extend_from_slice(first);
        others.iter().for_each(|it| joined.extend_from_slice(it));
        Ok(Cow::Owned(joined))
    }
}

/// What is read from one row.
macro_rules! read_from_octets {
    ($($what:ty, $made:expr;)*) => {
        $(impl<'a> Read<'a> for $what {
            fn read(rows: &mut Rows<'a, '_>, kind: u32, level: u32) -> Result<Self, Error> {
                Ok($made(rows.take(kind, level)))
            }
        })*
    };
}

read_from_octets! {
    &'a [u8], std::convert::identity;
    Integer<'a>, Integer::new;
    Oid<'a>, Oid::new;
    NamedBits<'a>, NamedBits::new;
    GeneralizedTime<'a>, GeneralizedTime::new;
    u16, thousandths;
}

fn thousandths(contents: &[u8]) -> u16 {
    let number = Integer::new(contents).to_u64();
    number.and_then(|it| it.try_into().ok()).expect("a number from 1 to 999")
}

/// A BOOLEAN that is false if it is absent.
impl<'a> Read<'a> for bool {
    fn read(rows: &mut Rows<'a, '_>, kind: u32, level: u32) -> Result<Self, Error> {
        Ok(rows.optional(kind, level).is_some())
    }
}
