package cmscanon;

/**
 * A BIT STRING with named bits (X.680, section 22).
 *
 * @param contents its contents octets, as they were received: how many bits of the last octet are not used, and the octets of the
 *     bits. Octets that differ may stand for the same bits
 */
public record NamedBits(Octets contents) {
    /**
     * Refuses contents that are those of no BIT STRING, by {@link IllegalArgumentException}.
     *
     * @param contents {@link #contents}
     */
    public NamedBits {
        if (contents.length() == 0 || contents.at(0) < 0 || contents.at(0) > 7) {
            throw new IllegalArgumentException("the first octet of a BIT STRING is from 0 to 7");
        }
    }

    /**
     * {@return whether the bit with this number is set, from 0 for the first one} A bit past the end is not set.
     *
     * @param number the number of the bit, from 0
     */
    public boolean isSet(int number) {
        long bits = 8L * (contents.length() - 1) - contents.at(0);
        return number >= 0 && number < bits && (contents.at(1 + number / 8) & 0x80 >>> number % 8) != 0;
    }
}
