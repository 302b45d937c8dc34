// scripts/generate writes this file from bindings/records.toml.
package cmscanon;

import java.math.BigInteger;
import java.util.Objects;

/**
 * What a time-stamp token says (RFC 3161, section 2.4.2).
 *
 * @param version any INTEGER, as received: 1 by RFC 3161
 * @param policy the policy under which the token was made, written as {@link AlgorithmIdentifier#oid}
 * @param imprint messageImprint: the digest of the data that were time-stamped
 * @param serialNumber the number of the token, which no other of the authority has
 * @param genTime genTime, in UTC
 * @param accuracy by how much the time may be off; null if the token does not say it
 * @param ordering whether any two tokens of this authority are in the order of their times, however little these differ
 * @param nonce that of the request; null if it has none
 * @param tsa the name of the authority, one element, which begins with A0; null if it is absent
 * @param extensions one element, which begins with A1; null if they are absent
 */
public record TstInfo(
        BigInteger version,
        String policy,
        MessageImprint imprint,
        BigInteger serialNumber,
        GeneralizedTime genTime,
        @Nullable Accuracy accuracy,
        boolean ordering,
        @Nullable BigInteger nonce,
        @Nullable Octets tsa,
        @Nullable Octets extensions) {
    /**
     * Refuses null for what is never absent.
     *
     * @param version {@link #version}
     * @param policy {@link #policy}
     * @param imprint {@link #imprint}
     * @param serialNumber {@link #serialNumber}
     * @param genTime {@link #genTime}
     * @param accuracy {@link #accuracy}
     * @param ordering {@link #ordering}
     * @param nonce {@link #nonce}
     * @param tsa {@link #tsa}
     * @param extensions {@link #extensions}
     */
    public TstInfo {
        Objects.requireNonNull(version);
        Objects.requireNonNull(policy);
        Objects.requireNonNull(imprint);
        Objects.requireNonNull(serialNumber);
        Objects.requireNonNull(genTime);
    }
}
