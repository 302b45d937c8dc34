//! Elements in DER, as far as they are looked into here.

use std::iter;

/// An element whose identifier is one octet.
#[derive(Clone, Copy)]
pub(crate) struct Element<'a> {
    pub(crate) identifier: u8,
    pub(crate) contents: &'a [u8],
    /// All its octets.
    pub(crate) octets: &'a [u8],
}

impl<'a> Element<'a> {
    /// Returns the one element that these octets are, if they are one.
    pub(crate) fn only(octets: &'a [u8]) -> Option<Self> {
        let (element, rest) = first(octets)?;
        rest.is_empty().then_some(element)
    }

    /// Returns the contents, if the identifier is this one.
    pub(crate) fn contents_if(self, identifier: u8) -> Option<&'a [u8]> {
        (self.identifier == identifier).then_some(self.contents)
    }
}

/// Gives the elements that octets are, one after another, and none in the place of one that is not in DER.
pub(crate) fn elements(octets: &[u8]) -> impl Iterator<Item = Option<Element<'_>>> {
    let mut left = Some(octets);
    iter::from_fn(move || {
        let octets = left.take().filter(|it| !it.is_empty())?;
        let found = first(octets);
        left = found.map(|(_, rest)| rest);
        Some(found.map(|(element, _)| element))
    })
}

/// Returns the element that octets begin with, and the octets after it.
fn first(octets: &[u8]) -> Option<(Element<'_>, &[u8])> {
    let identifier = *octets.first()?;
    let (begin, length) = length_at(octets)?;
    let end = begin.checked_add(length).filter(|it| *it <= octets.len())?;
    let element = Element { identifier, contents: &octets[begin..end], octets: &octets[..end] };
    (identifier & 0x1f != 0x1f).then_some((element, &octets[end..]))
}

/// Returns where the contents begin, and how many octets they have, in the fewest octets (X.690, section 10.1).
fn length_at(octets: &[u8]) -> Option<(usize, usize)> {
    let first = *octets.get(1)?;
    if first < 0x80 {
        return Some((2, first.into()));
    }
    let begin = 2 + usize::from(first - 0x80);
    let digits = octets.get(2..begin)?;
    let length = digits.iter().try_fold(0usize, |length, it| length.checked_mul(0x100)?.checked_add((*it).into()))?;
    (digits.first() != Some(&0) && length >= 0x80).then_some((begin, length))
}
