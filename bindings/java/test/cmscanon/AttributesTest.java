package cmscanon;

import static cmscanon.Samples.DATA;
import static cmscanon.Samples.octets;
import static org.junit.jupiter.api.Assertions.assertEquals;
import static org.junit.jupiter.api.Assertions.assertNull;
import static org.junit.jupiter.api.Assertions.assertTrue;

import java.nio.charset.StandardCharsets;
import java.time.Instant;
import java.util.Arrays;
import java.util.HexFormat;
import java.util.List;
import org.junit.jupiter.api.Test;

/** What a signer says by its signed attributes, and which certificate it names. */
final class AttributesTest {
    private static final String DIGEST = "06092a864886f70d010904";
    private static final String TIME = "06092a864886f70d010905";
    private static final String OF_ISSUER = "30053000020105";
    private static final String OF_KEY = "80026162";

    /** The digits of an element in DER. */
    private static String der(String identifier, String... contents) {
        String joined = String.join("", contents);
        return identifier + (joined.length() < 0x100 ? String.format("%02x", joined.length() / 2) : String.format("82%04x", joined.length() / 2)) + joined;
    }

    private static String attribute(String oid, String... values) {
        return der("30", oid, der("31", Arrays.stream(values).sorted().toArray(String[]::new)));
    }

    private static Message message(List<String> certificates, String sid, String... attributes) throws CmsCanon.Refused {
        String signed = attributes.length == 0 ? "" : der("a0", Arrays.stream(attributes).sorted().toArray(String[]::new));
        String signer = der("30", "020101", sid, "300506032a0304", signed, "300506032a0304", "0401bb");
        String fields = der("30", "0201033100", der("30", DATA), der("a0", certificates.toArray(String[]::new)), der("31", signer));
        return CmsCanon.read(octets(der("30", "06092a864886f70d010702", der("a0", fields))));
    }

    private static SignerInfo signer(String... attributes) throws CmsCanon.Refused {
        return message(List.of(), "800133", attributes).signers().get(0);
    }

    private static String text(String identifier, String characters) {
        return der(identifier, HexFormat.of().formatHex(characters.getBytes(StandardCharsets.ISO_8859_1)));
    }

    private static Instant timeOf(String value) throws CmsCanon.Refused {
        return signer(attribute(TIME, value)).signingTime();
    }

    @Test
    void signingTimes() throws CmsCanon.Refused {
        assertEquals(Instant.parse("2024-02-29T12:00:01Z"), timeOf(text("17", "240229120001Z")));
        assertEquals(Instant.parse("1950-01-01T00:00:00Z"), timeOf(text("17", "500101000000Z")));
        assertEquals(Instant.parse("2049-12-31T23:59:59Z"), timeOf(text("17", "491231235959Z")));
        assertEquals(Instant.parse("2050-01-01T00:00:00Z"), timeOf(text("18", "20500101000000Z")));
        for (String bad : List.of("2402291200Z", "230229120000Z", "240229120060Z", "240229120000", "240229120000+0100", "20240229120000Z", "24022912000 Z", "")) {
            assertNull(timeOf(text("17", bad)), bad);
        }
        for (String bad : List.of("240229120000Z", "20240229120000.5Z", "00000101000000Z", "20241301000000Z", "20240100000000Z", "2024022912000\u00b2Z")) {
            assertNull(timeOf(text("18", bad)), bad);
        }
        String one = text("17", "240229120001Z");
        String other = text("17", "240229120002Z");
        for (SignerInfo signer : List.of(signer(), signer(attribute(TIME, one, other)), signer(attribute(TIME)), signer(attribute(TIME, one), attribute(TIME, other)))) {
            assertNull(signer.signingTime());
        }
        assertNull(timeOf("0500"));
    }

    @Test
    void messageDigests() throws CmsCanon.Refused {
        assertEquals(Octets.copyOf(octets("616263")), signer(attribute(DIGEST, "0403616263")).messageDigest());
        assertEquals(0, signer(attribute(DIGEST, "0400")).messageDigest().length());
        for (SignerInfo signer : List.of(signer(attribute(DIGEST)), signer(attribute(DIGEST, "0500")), signer(attribute(DIGEST, "0400", "040161")), signer(attribute(TIME, "0400")))) {
            assertNull(signer.messageDigest());
        }
    }

    @Test
    void attributesByName() throws CmsCanon.Refused {
        SignerInfo signer = signer(attribute(DIGEST, "0400"), attribute(TIME, "0500"), attribute(TIME, "0400"));
        assertEquals("[0400]", signer.signedAttribute("messageDigest").values().stream().map(Octets::toHex).toList().toString());
        assertEquals(signer.signedAttribute("messageDigest"), signer.signedAttribute("1.2.840.113549.1.9.4"));
        for (String name : List.of("signingTime", "contentType", "", "1.2.840.113549.1.9")) {
            assertNull(signer.signedAttribute(name));
        }
    }

    /** A certificate of this serial number, by its framing alone, with this key identifier and this issuer. */
    private static String certificate(int serial, String identifier, String issuer) {
        String extension = identifier.isEmpty() ? "" : der("a3", der("30", der("30", "0603551d0e", der("04", der("04", identifier)))));
        String fields = der("30", "a003020102", String.format("0201%02x", serial), "3000", issuer, "300030003000", extension);
        return der("30", fields, "3000", "030100");
    }

    private static void check(String wanted, String sid, String... certificates) throws CmsCanon.Refused {
        Message message = message(List.of(certificates), sid);
        Octets found = message.certificateOf(message.signers().get(0));
        assertEquals(wanted, found == null ? null : found.toHex());
    }

    @Test
    void certificates() throws CmsCanon.Refused {
        String one = certificate(5, "", "3000");
        String other = certificate(6, "", "3000");
        String keyed = certificate(5, "6162", "3000");
        check(one, OF_ISSUER, one, other);
        check(null, OF_ISSUER, other);
        check(one, OF_ISSUER, one, one);
        check(null, OF_ISSUER, one, keyed);
        check(one, OF_ISSUER, certificate(5, "", "30023100"), one);
        check(keyed, OF_KEY, one, keyed, other);
        check(null, OF_KEY, one, certificate(7, "6163", "3000"));
        check(keyed, OF_KEY, "30020500", "a100", keyed);
        check(null, OF_KEY);
    }

    /** No octet of a certificate that is changed ends in anything but another answer. */
    @Test
    void changedCertificates() throws CmsCanon.Refused {
        byte[] keyed = octets(certificate(5, "6162", "3000"));
        for (int at = 0; at < keyed.length; at++) {
            for (int octet = 0; octet < 0x100; octet++) {
                byte[] changed = keyed.clone();
                changed[at] = (byte) octet;
                Message message;
                try {
                    message = message(List.of(HexFormat.of().formatHex(changed)), OF_KEY);
                } catch (CmsCanon.Refused refused) {
                    continue;
                }
                Octets found = message.certificateOf(message.signers().get(0));
                assertTrue(found == null || found.equals(Octets.copyOf(changed)));
            }
        }
    }
}
