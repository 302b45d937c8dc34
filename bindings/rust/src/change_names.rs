//! What changes and sets are called, by their numbers in `bindings/c/cms_canon.h` from 1 on. `scripts/generate` writes this file.

#[rustfmt::skip]
pub(crate) const KINDS: [&str; 9] = [
    "length made definite",
    "length in fewest octets",
    "length of what is inside",
    "segments joined",
    "moved",
    "BOOLEAN",
    "default omitted",
    "trailing zero bits removed",
    "unused bits set to zero",
];

#[rustfmt::skip]
pub(crate) const SETS: [&str; 6] = [
    "digestAlgorithms",
    "certificates",
    "crls",
    "signerInfos",
    "unsignedAttrs",
    "attrValues",
];
