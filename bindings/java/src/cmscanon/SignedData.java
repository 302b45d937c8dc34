// scripts/generate writes this file from bindings/records.toml, but for its end.
package cmscanon;

import java.math.BigInteger;
import java.util.List;
import java.util.Objects;

/**
 * A SignedData (RFC 5652, section 5.1).
 *
 * @param version any INTEGER, as received. Whether it fits the rest is a finding of {@code check}, F1
 * @param digestAlgorithms digestAlgorithms in the order read
 * @param contentType eContentType, as {@code 1.2.840.113549.1.7.1}; written as {@link AlgorithmIdentifier#oid}
 * @param content eContent, a part of what was read, or a copy if it came in several segments; null if it is detached
 * @param certificates the certificates in the order read, each one element: a Certificate (RFC 5280) if it begins with 30; null if
 *     the field is absent, which is not the same as an empty one
 * @param crls the revocation information in the order read, each one element: a CertificateList (RFC 5280) if it begins with 30;
 *     null if the field is absent
 * @param signers signerInfos in the order read
 */
public record SignedData(
        BigInteger version,
        List<AlgorithmIdentifier> digestAlgorithms,
        String contentType,
        @Nullable Octets content,
        @Nullable List<Octets> certificates,
        @Nullable List<Octets> crls,
        List<SignerInfo> signers) {
    /**
     * Copies the lists. Refuses null for what is never absent.
     *
     * @param version {@link #version}
     * @param digestAlgorithms {@link #digestAlgorithms}
     * @param contentType {@link #contentType}
     * @param content {@link #content}
     * @param certificates {@link #certificates}
     * @param crls {@link #crls}
     * @param signers {@link #signers}
     */
    public SignedData {
        Objects.requireNonNull(version);
        Objects.requireNonNull(contentType);
        digestAlgorithms = List.copyOf(digestAlgorithms);
        certificates = certificates == null ? null : List.copyOf(certificates);
        crls = crls == null ? null : List.copyOf(crls);
        signers = List.copyOf(signers);
    }

    // What follows is written by hand.
    private static final String TST_INFO = "1.2.840.113549.1.9.16.1.4"; // id-ct-TSTInfo (RFC 3161, section 2.4.2)

    /**
     * {@return what the token says; null if this is no time-stamp token, or if its content is detached}
     *
     * @throws CmsCanon.Refused with the reason 105, if the content is no TSTInfo in DER
     */
    @Nullable
    public TstInfo tstInfo() throws CmsCanon.Refused {
        return content == null || !contentType.equals(TST_INFO) ? null : CmsCanon.tstInfo(content.toArray());
    }
}
