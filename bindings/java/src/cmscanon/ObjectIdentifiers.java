package cmscanon;

import java.util.HexFormat;

/** The texts of OBJECT IDENTIFIERs. */
final class ObjectIdentifiers {
    private static final int ROOM = 57; // bits: a number of more has none for seven bits more

    private ObjectIdentifiers() {}

    /** The text of an OBJECT IDENTIFIER with these contents octets (X.690, section 8.19), as in a listing. */
    static String dotted(byte[] contents) {
        StringBuilder text = new StringBuilder();
        long number = 0; // unsigned
        for (byte octet : contents) {
            if (number >>> ROOM != 0) {
                return "hex:" + HexFormat.of().formatHex(contents);
            }
            number = number << 7 | octet & 0x7f;
            if (octet >= 0) {
                text.append(text.length() == 0 ? firstTwo(number) : "." + Long.toUnsignedString(number));
                number = 0;
            }
        }
        return text.toString();
    }

    /** The first two numbers, which one stands for. */
    private static String firstTwo(long number) {
        long first = number >= 0 && number < 80 ? number / 40 : 2;
        return first + "." + Long.toUnsignedString(number - 40 * first);
    }
}
