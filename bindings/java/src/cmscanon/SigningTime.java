package cmscanon;

import java.nio.charset.StandardCharsets;
import java.time.DateTimeException;
import java.time.Instant;
import java.util.regex.Pattern;

/** Times as the attribute signing-time has them (RFC 5652, section 11.3): to the second, in UTC. */
final class SigningTime {
    private static final int UTC_TIME = 0x17;
    private static final int GENERALIZED_TIME = 0x18;
    private static final Pattern OF_UTC = Pattern.compile("[0-9]{12}Z");
    private static final Pattern GENERALIZED = Pattern.compile("(?!0000)[0-9]{14}Z");
    private static final String FIRST_OF_1900 = "50"; // the years before it are those of 2000

    private SigningTime() {}

    /** The time that an element is; null if it is none, or in the year 0000. */
    static Instant in(Element element) {
        String text = new String(element.contents(), StandardCharsets.ISO_8859_1);
        if (element.identifier() == UTC_TIME && OF_UTC.matcher(text).matches()) {
            text = (text.compareTo(FIRST_OF_1900) >= 0 ? "19" : "20") + text;
        } else if (element.identifier() != GENERALIZED_TIME || !GENERALIZED.matcher(text).matches()) {
            return null;
        }
        try {
            return new GeneralizedTime(text).toInstant();
        } catch (DateTimeException none) {
            return null;
        }
    }
}
