package cmscanon;

import java.util.Map;

/** The names of object identifiers of `crates/cms_scalars/src/names.rt`. `scripts/generate` writes this file. */
final class Names {
    private Names() {}

    /** The object identifiers by their names. */
    static final Map<String, String> OF = Map.ofEntries(
            Map.entry("data", "1.2.840.113549.1.7.1"),
            Map.entry("signedData", "1.2.840.113549.1.7.2"),
            Map.entry("contentType", "1.2.840.113549.1.9.3"),
            Map.entry("messageDigest", "1.2.840.113549.1.9.4"),
            Map.entry("signingTime", "1.2.840.113549.1.9.5"),
            Map.entry("countersignature", "1.2.840.113549.1.9.6"),
            Map.entry("tSTInfo", "1.2.840.113549.1.9.16.1.4"),
            Map.entry("signingCertificate", "1.2.840.113549.1.9.16.2.12"),
            Map.entry("signingCertificateV2", "1.2.840.113549.1.9.16.2.47"),
            Map.entry("sha1", "1.3.14.3.2.26"),
            Map.entry("sha256", "2.16.840.1.101.3.4.2.1"),
            Map.entry("sha384", "2.16.840.1.101.3.4.2.2"),
            Map.entry("sha512", "2.16.840.1.101.3.4.2.3"),
            Map.entry("sha224", "2.16.840.1.101.3.4.2.4"),
            Map.entry("sha512-224", "2.16.840.1.101.3.4.2.5"),
            Map.entry("sha512-256", "2.16.840.1.101.3.4.2.6"));
}
