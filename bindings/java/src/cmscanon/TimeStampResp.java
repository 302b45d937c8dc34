// scripts/generate writes this file from bindings/records.toml.
package cmscanon;

import java.math.BigInteger;
import java.util.Objects;

/**
 * A response to a request for a time-stamp (RFC 3161, section 2.4.2).
 *
 * @param status PKIStatus, as received. Whether it fits that there is a token is a finding of {@code check}, F19
 * @param statusString PKIFreeText, one element; null if it is absent
 * @param failInfo failInfo, a PKIFailureInfo; null if it is absent
 * @param token the SignedData of timeStampToken; null if there is no token
 */
public record TimeStampResp(
        BigInteger status,
        @Nullable Octets statusString,
        @Nullable NamedBits failInfo,
        @Nullable SignedData token) {
    /**
     * Refuses null for what is never absent.
     *
     * @param status {@link #status}
     * @param statusString {@link #statusString}
     * @param failInfo {@link #failInfo}
     * @param token {@link #token}
     */
    public TimeStampResp {
        Objects.requireNonNull(status);
    }
}
