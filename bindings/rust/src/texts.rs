//! The texts of findings, from `docs/texts/`. `scripts/generate` writes this file.

pub(crate) const FINDINGS: [&str; 19] = [
    "version does not follow the version rule",
    "version does not fit the signer identifier",
    "signed attributes missing",
    "content-type attribute not once with one value",
    "content-type attribute names another type",
    "message-digest attribute not once with one octet string",
    "message digest differs",
    "digest algorithm unknown",
    "no content",
    "digest algorithm not listed",
    "not a time-stamp token",
    "token has not one signer",
    "content is not a TSTInfo in DER",
    "imprint differs",
    "no signing-certificate attribute",
    "no certificate has the hash",
    "verifier says bad",
    "verifier says unknown",
    "token does not fit the status",
];
