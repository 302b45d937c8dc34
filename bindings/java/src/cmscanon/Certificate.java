package cmscanon;

import java.math.BigInteger;
import java.util.Arrays;
import java.util.List;

/**
 * What is read of a certificate (RFC 5280, section 4.1): how a signer may name it.
 *
 * @param issuer the name of the issuer, one element
 * @param serialNumber the serial number
 * @param extensions the extensions, one element; null if there are none
 */
record Certificate(byte[] issuer, BigInteger serialNumber, byte[] extensions) {
    private static final int BOOLEAN = 0x01;
    private static final int INTEGER = 0x02;
    private static final int BIT_STRING = 0x03;
    private static final int OCTET_STRING = 0x04;
    private static final int OBJECT_IDENTIFIER = 0x06;
    private static final int SEQUENCE = 0x30;
    private static final int VERSION = 0xa0;
    private static final int EXTENSIONS = 0xa3;
    private static final List<Integer> UNIQUE_IDENTIFIERS = List.of(0x81, 0x82);
    private static final int MOST_FIELDS = 10;
    private static final int FIELDS = 6; // that are not optional
    private static final int ISSUER = 2;
    private static final byte[] SUBJECT_KEY_IDENTIFIER = {0x55, 0x1d, 0x0e}; // 2.5.29.14

    /** Whether octets are a certificate in DER that a signer names. Issuers are compared octet for octet. */
    static boolean isNamed(byte[] octets, SignerInfo signer) {
        try {
            Certificate found = in(octets);
            if (signer.subjectKeyIdentifier() != null) {
                return Arrays.equals(found.keyIdentifier(), signer.subjectKeyIdentifier().toArray());
            }
            return found.serialNumber.equals(signer.serialNumber()) && Arrays.equals(found.issuer, signer.issuer().toArray());
        } catch (Element.NoElement none) {
            return false;
        }
    }

    /** The certificate that octets are. */
    private static Certificate in(byte[] octets) throws Element.NoElement {
        List<Element> parts = members(octets, 3);
        if (parts.size() != 3) {
            throw new Element.NoElement();
        }
        parts.get(1).contentsIf(SEQUENCE);
        parts.get(2).contentsIf(BIT_STRING);
        List<Element> fields = members(parts.get(0).octets(), MOST_FIELDS);
        int begin = isAt(fields, 0, VERSION) ? 1 : 0;
        if (fields.size() < begin + FIELDS || (begin == 1 && integerIn(Element.only(fields.get(0).contents())).signum() == 0)) {
            throw new Element.NoElement(); // also if the version is the default, which is absent in DER
        }
        for (Element field : fields.subList(begin + 1, begin + FIELDS)) {
            field.contentsIf(SEQUENCE);
        }
        int at = begin + FIELDS;
        for (int identifier : UNIQUE_IDENTIFIERS) {
            at += isAt(fields, at, identifier) ? 1 : 0;
        }
        byte[] extensions = isAt(fields, at, EXTENSIONS) ? fields.get(at).contents() : null;
        if (fields.size() != at + (extensions == null ? 0 : 1)) {
            throw new Element.NoElement();
        }
        return new Certificate(fields.get(begin + ISSUER).octets(), integerIn(fields.get(begin)), extensions);
    }

    private static boolean isAt(List<Element> elements, int at, int identifier) {
        return at < elements.size() && elements.get(at).identifier() == identifier;
    }

    private static List<Element> members(byte[] octets, int most) throws Element.NoElement {
        return Element.elements(Element.only(octets).contentsIf(SEQUENCE), most);
    }

    /** An INTEGER in the fewest octets (X.690, section 8.3.2). */
    private static BigInteger integerIn(Element element) throws Element.NoElement {
        byte[] contents = element.contentsIf(INTEGER);
        boolean isLonger = contents.length > 1 && (contents[0] == 0 && contents[1] >= 0 || contents[0] == -1 && contents[1] < 0);
        if (contents.length == 0 || isLonger) {
            throw new Element.NoElement();
        }
        return new BigInteger(contents);
    }

    /** The key identifier; null if there is none. Of two, or of extensions that cannot be read, there is none that is known. */
    private byte[] keyIdentifier() throws Element.NoElement {
        byte[] found = null;
        if (extensions == null) {
            return found;
        }
        for (Element extension : members(extensions, Integer.MAX_VALUE)) {
            byte[] value = valueIfKeyIdentifier(extension);
            if (value != null && found != null) {
                throw new Element.NoElement();
            }
            found = value == null ? found : value;
        }
        return found == null ? null : Element.only(found).contentsIf(OCTET_STRING);
    }

    /** The value of an Extension, in which {@code critical} is absent if it is FALSE; null if it is another one. */
    private static byte[] valueIfKeyIdentifier(Element extension) throws Element.NoElement {
        List<Element> parts = members(extension.octets(), 3);
        boolean hasCritical = isAt(parts, 1, BOOLEAN);
        if (parts.size() != (hasCritical ? 3 : 2)) {
            throw new Element.NoElement();
        }
        if (hasCritical && !Arrays.equals(parts.get(1).contents(), new byte[] {-1})) {
            throw new Element.NoElement();
        }
        byte[] identifier = parts.get(0).contentsIf(OBJECT_IDENTIFIER);
        byte[] value = parts.get(parts.size() - 1).contentsIf(OCTET_STRING);
        checkIdentifier(identifier);
        return Arrays.equals(identifier, SUBJECT_KEY_IDENTIFIER) ? value : null;
    }

    /** Refuses what is not the contents of an OBJECT IDENTIFIER (X.690, section 8.19). */
    private static void checkIdentifier(byte[] contents) throws Element.NoElement {
        boolean isFirst = true;
        for (byte octet : contents) {
            if (isFirst && octet == Byte.MIN_VALUE) {
                throw new Element.NoElement();
            }
            isFirst = octet >= 0;
        }
        if (contents.length == 0 || !isFirst) {
            throw new Element.NoElement();
        }
    }
}
