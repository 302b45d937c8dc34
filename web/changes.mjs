// What changes and sets are called, by their numbers in bindings/c/cms_canon.h. scripts/generate writes this file.

export const KINDS = [null, "length made definite", "length in fewest octets", "length of what is inside", "segments joined", "moved", "BOOLEAN", "default omitted", "trailing zero bits removed", "unused bits set to zero"];
export const SETS = [null, "digestAlgorithms", "certificates", "crls", "signerInfos", "unsignedAttrs", "attrValues"];
