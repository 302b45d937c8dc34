package cmscanon;

import java.io.ByteArrayOutputStream;
import java.util.HexFormat;
import java.util.concurrent.Callable;

/** Messages for tests, and what calls return or throw as texts. */
final class Samples {
    /** The octets before the signers of a message whose lengths are indefinite, and those after them. */
    private static final String HEAD = "308006092a864886f70d010702a080308002010331003080";
    private static final String TAIL = "000000000000";

    static final String DATA = "06092a864886f70d010701";

    private Samples() {}

    /** What a call returns, or what it throws, as a text. */
    static String cameOf(Callable<?> call) {
        try {
            return String.valueOf(call.call());
        } catch (CmsCanon.Refused refused) {
            return refused.reason + " " + refused.at + " " + refused.getMessage();
        } catch (Exception thrown) {
            return thrown.toString();
        }
    }

    static byte[] octets(String digits) {
        return HexFormat.of().parseHex(digits);
    }

    /** The digits of an element whose contents have these digits. */
    static String element(String identifier, String... contents) {
        String joined = String.join("", contents);
        return identifier + String.format("84%08x", joined.length() / 2) + joined;
    }

    /** A message with this type of its content and the content, and what follows these. */
    static byte[] message(String content, String... after) {
        ByteArrayOutputStream octets = new ByteArrayOutputStream();
        octets.writeBytes(octets(HEAD + content + "0000"));
        for (String it : after) {
            octets.writeBytes(octets(it));
        }
        octets.writeBytes(octets(TAIL));
        return octets.toByteArray();
    }

    /** A signer with this key identifier and this signature, one element, and what follows it. */
    static String signer(int key, String signature, String... unsigned) {
        return element("30", "020103", String.format("8004%08x", key), "300506032a0304", "300506032a0304", signature,
                String.join("", unsigned));
    }

    /** Unsigned attributes: one of this type with these values. */
    static String unsigned(String oid, String... values) {
        return element("a1", element("30", oid, element("31", values)));
    }
}
