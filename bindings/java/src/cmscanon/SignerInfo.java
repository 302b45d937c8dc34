// scripts/generate writes this file from bindings/records.toml, but for its end.
package cmscanon;

import java.math.BigInteger;
import java.util.List;
import java.util.Objects;

/**
 * A signer of a message, or a countersignature, as it was received (RFC 5652, sections 5.3 and 11.4).
 *
 * @param version any INTEGER, as received. Whether it fits the rest is a finding of {@code check}, F2
 * @param issuer the name of the issuer of the signer's certificate, one element; null if the signer is named by a key identifier
 * @param serialNumber the serial number of the signer's certificate; null if the signer is named by a key identifier
 * @param subjectKeyIdentifier the key identifier of the signer's certificate; null if the signer is named by issuer and serial
 *     number
 * @param digestAlgorithm digestAlgorithm: the algorithm that the content and the signed attributes are digested with
 * @param signedAttributes signedAttrs in the order read; empty if they are absent
 * @param signedAttributesElement signedAttrs, one element, which begins with A0; null if they are absent
 * @param signatureAlgorithm signatureAlgorithm: the algorithm of the signature
 * @param signature the octets of the signature
 * @param unsignedAttributes unsignedAttrs in the order read; empty if they are absent
 * @param content what is signed: the content of the message, null if it is detached; of a countersignature the octets of the
 *     signature that it signs
 */
public record SignerInfo(
        BigInteger version,
        @Nullable Octets issuer,
        @Nullable BigInteger serialNumber,
        @Nullable Octets subjectKeyIdentifier,
        AlgorithmIdentifier digestAlgorithm,
        List<Attribute> signedAttributes,
        @Nullable Octets signedAttributesElement,
        AlgorithmIdentifier signatureAlgorithm,
        Octets signature,
        List<Attribute> unsignedAttributes,
        @Nullable Octets content) {
    /**
     * Copies the lists. Refuses null for what is never absent.
     *
     * @param version {@link #version}
     * @param issuer {@link #issuer}
     * @param serialNumber {@link #serialNumber}
     * @param subjectKeyIdentifier {@link #subjectKeyIdentifier}
     * @param digestAlgorithm {@link #digestAlgorithm}
     * @param signedAttributes {@link #signedAttributes}
     * @param signedAttributesElement {@link #signedAttributesElement}
     * @param signatureAlgorithm {@link #signatureAlgorithm}
     * @param signature {@link #signature}
     * @param unsignedAttributes {@link #unsignedAttributes}
     * @param content {@link #content}
     */
    public SignerInfo {
        Objects.requireNonNull(version);
        Objects.requireNonNull(digestAlgorithm);
        Objects.requireNonNull(signatureAlgorithm);
        Objects.requireNonNull(signature);
        signedAttributes = List.copyOf(signedAttributes);
        unsignedAttributes = List.copyOf(unsignedAttributes);
    }

    // What follows is written by hand.
    private static final byte SET_OF = 0x31;
    private static final int OCTET_STRING = 0x04;

    /**
     * {@return the signed attribute of this name, or of this OBJECT IDENTIFIER; null if there is none, or more than one}
     *
     * @param name as {@code messageDigest}, or as {@code 1.2.840.113549.1.9.4}
     */
    @Nullable
    public Attribute signedAttribute(String name) {
        String oid = Names.OF.getOrDefault(name, name);
        List<Attribute> found = signedAttributes.stream().filter(it -> it.oid().equals(oid)).toList();
        return found.size() == 1 ? found.get(0) : null;
    }

    /**
     * {@return the octets of the attribute message-digest (RFC 5652, section 11.2); null if there is none, or none that has one value
     * which is an OCTET STRING} Whether it is the digest of the content, {@link CmsCanon#check(byte[])} says.
     */
    @Nullable
    public Octets messageDigest() {
        Element value = signedValue("messageDigest");
        return value != null && value.identifier() == OCTET_STRING ? Octets.copyOf(value.contents()) : null;
    }

    /**
     * {@return when the signer says that it signed (RFC 5652, section 11.3); null if it does not say so, or not as it should} Nobody
     * vouches for it.
     */
    @Nullable
    public java.time.Instant signingTime() {
        Element value = signedValue("signingTime");
        return value == null ? null : SigningTime.in(value);
    }

    /** The one value of the one signed attribute of this name; null if there is none. */
    private Element signedValue(String name) {
        Attribute attribute = signedAttribute(name);
        try {
            return attribute == null || attribute.values().size() != 1 ? null : Element.only(attribute.values().get(0).toArray());
        } catch (Element.NoElement none) {
            return null;
        }
    }

    /** {@return the countersignatures of the signer, of all its countersignature attributes, in the order read} */
    public List<SignerInfo> countersignatures() {
        return unsignedAttributes.stream().flatMap(it -> it.countersignatures().stream()).toList();
    }

    /**
     * {@return the octets that the signature covers (RFC 5652, sections 5.4 and 11.4), as {@link CmsCanon#cover(byte[], long[],
     * byte[], long)} does} If the signer has signed attributes, the signature covers these and not the content.
     *
     * @param detached the content of a detached signature, or null; not used if the signer has signed attributes, or if there is
     *     content already
     * @throws CmsCanon.Refused with the reason 103, if the signer has no signed attributes and there is no content
     */
    public byte[] covered(@Nullable byte[] detached) throws CmsCanon.Refused {
        if (signedAttributesElement != null) {
            byte[] attributes = signedAttributesElement.toArray();
            attributes[0] = SET_OF; // in place of [0] IMPLICIT
            return attributes;
        }
        if (content != null) {
            return content.toArray();
        }
        if (detached != null) {
            return detached.clone();
        }
        throw CmsCanon.Refused.noContent();
    }
}
