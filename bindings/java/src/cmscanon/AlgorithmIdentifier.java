// scripts/generate writes this file from bindings/records.toml.
package cmscanon;

import java.util.Objects;

/**
 * An algorithm with its parameters (RFC 5652, section 10.1).
 *
 * @param oid the OBJECT IDENTIFIER, written as {@code 2.16.840.1.101.3.4.2.1}; or as {@code hex:} and its contents octets if a
 *     subidentifier has more than 64 bits
 * @param parameters the parameters, one element; null if they are absent. NULL is not absent: it is {@code 05 00}
 */
public record AlgorithmIdentifier(String oid, @Nullable Octets parameters) {
    /**
     * Refuses null for what is never absent.
     *
     * @param oid {@link #oid}
     * @param parameters {@link #parameters}
     */
    public AlgorithmIdentifier {
        Objects.requireNonNull(oid);
    }
}
