// scripts/generate writes this file from bindings/records.toml.
package cmscanon;

import java.util.Objects;

/**
 * The digest of the data that are time-stamped (RFC 3161, section 2.4.1).
 *
 * @param hashAlgorithm hashAlgorithm: the algorithm of the digest
 * @param hashedMessage hashedMessage: the octets of the digest
 */
public record MessageImprint(AlgorithmIdentifier hashAlgorithm, Octets hashedMessage) {
    /**
     * Refuses null for what is never absent.
     *
     * @param hashAlgorithm {@link #hashAlgorithm}
     * @param hashedMessage {@link #hashedMessage}
     */
    public MessageImprint {
        Objects.requireNonNull(hashAlgorithm);
        Objects.requireNonNull(hashedMessage);
    }
}
