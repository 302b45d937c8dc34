"""What changes and sets are called, by their numbers in bindings/c/cms_canon.h. scripts/generate writes this file."""

KINDS = (
    None,
    "length made definite",
    "length in fewest octets",
    "length of what is inside",
    "segments joined",
    "moved",
    "BOOLEAN",
    "default omitted",
    "trailing zero bits removed",
    "unused bits set to zero",
)
SETS = (
    None,
    "digestAlgorithms",
    "certificates",
    "crls",
    "signerInfos",
    "unsignedAttrs",
    "attrValues",
)
