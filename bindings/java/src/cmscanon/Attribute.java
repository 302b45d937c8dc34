// scripts/generate writes this file from bindings/records.toml.
package cmscanon;

import java.util.List;
import java.util.Objects;

/**
 * An attribute (RFC 5652, section 5.3).
 *
 * @param oid attrType, as {@code 1.2.840.113549.1.9.4}; written as {@link AlgorithmIdentifier#oid}
 * @param values attrValues in the order read, each one element. An unsigned attribute countersignature has none here
 * @param countersignatures the values of an unsigned attribute countersignature in the order read (section 11.4); else empty
 */
public record Attribute(String oid, List<Octets> values, List<SignerInfo> countersignatures) {
    /**
     * Copies the lists. Refuses null for what is never absent.
     *
     * @param oid {@link #oid}
     * @param values {@link #values}
     * @param countersignatures {@link #countersignatures}
     */
    public Attribute {
        Objects.requireNonNull(oid);
        values = List.copyOf(values);
        countersignatures = List.copyOf(countersignatures);
    }
}
