// scripts/generate writes this file from bindings/records.toml.
package cmscanon;

import java.math.BigInteger;
import java.util.Objects;

/**
 * A request for a time-stamp (RFC 3161, section 2.4.1).
 *
 * @param version any INTEGER, as received: 1 by RFC 3161
 * @param imprint messageImprint: the digest of the data to be time-stamped
 * @param policy reqPolicy, written as {@link AlgorithmIdentifier#oid}; null if it is absent
 * @param nonce the number that the token is to have too; null if it is absent
 * @param certReq whether the certificate of the authority is asked for
 * @param extensions one element, which begins with A0; null if they are absent
 */
public record TimeStampReq(
        BigInteger version,
        MessageImprint imprint,
        @Nullable String policy,
        @Nullable BigInteger nonce,
        boolean certReq,
        @Nullable Octets extensions) {
    /**
     * Refuses null for what is never absent.
     *
     * @param version {@link #version}
     * @param imprint {@link #imprint}
     * @param policy {@link #policy}
     * @param nonce {@link #nonce}
     * @param certReq {@link #certReq}
     * @param extensions {@link #extensions}
     */
    public TimeStampReq {
        Objects.requireNonNull(version);
        Objects.requireNonNull(imprint);
    }
}
