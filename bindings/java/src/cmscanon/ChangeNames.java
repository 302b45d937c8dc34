package cmscanon;

import java.util.List;

/** What changes and sets are called, by their numbers in `bindings/c/cms_canon.h`. `scripts/generate` writes this file. */
final class ChangeNames {
    static final List<String> KINDS = List.of(
            "",
            "length made definite",
            "length in fewest octets",
            "length of what is inside",
            "segments joined",
            "moved",
            "BOOLEAN",
            "default omitted",
            "trailing zero bits removed",
            "unused bits set to zero");

    static final List<String> SETS = List.of(
            "",
            "digestAlgorithms",
            "certificates",
            "crls",
            "signerInfos",
            "unsignedAttrs",
            "attrValues");

    private ChangeNames() {}
}
