package cmscanon;

import java.time.Instant;
import java.time.LocalDateTime;
import java.time.ZoneOffset;
import java.util.regex.Pattern;

/**
 * A GeneralizedTime in DER (X.690, section 11.7): a time in UTC, in a year from 0000 to 9999, with a fraction of any length.
 *
 * @param text as {@code 20240229235959.125Z}
 */
public record GeneralizedTime(String text) {
    private static final Pattern FORM = Pattern.compile("\\d{14}(\\.\\d*[1-9])?Z");
    private static final int SECONDS_END = 14; // of YYYYMMDDhhmmss
    private static final int NANOSECONDS = 9; // digits

    /**
     * Refuses a text of another form, by {@link IllegalArgumentException}.
     *
     * @param text {@link #text}
     */
    public GeneralizedTime {
        if (!FORM.matcher(text).matches()) {
            throw new IllegalArgumentException("not the form of a GeneralizedTime in DER");
        }
    }

    /** {@return the digits of the fraction of a second; empty if there is none} */
    public String fraction() {
        return text.charAt(SECONDS_END) == '.' ? text.substring(SECONDS_END + 1, text.length() - 1) : "";
    }

    /** {@return whether {@link #toInstant} is this time, and not the nanosecond that it is in} */
    public boolean isWholeNanoseconds() {
        return fraction().length() <= NANOSECONDS;
    }

    /**
     * {@return the time, without what is finer than a nanosecond}
     *
     * @throws java.time.DateTimeException if there is no such date or time of day. That does not happen to a time of a message
     */
    public Instant toInstant() {
        String digits = (fraction() + "0".repeat(NANOSECONDS)).substring(0, NANOSECONDS);
        return LocalDateTime.of(number(0, 4), number(4, 6), number(6, 8), number(8, 10), number(10, 12), number(12, SECONDS_END),
                Integer.parseInt(digits)).toInstant(ZoneOffset.UTC);
    }

    private int number(int begin, int end) {
        return Integer.parseInt(text, begin, end, 10);
    }
}
