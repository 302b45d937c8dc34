package cmscanon;

/**
 * A change from a message to its DER: {@link CmsCanon#changes(byte[])}. Places are in octets, from 0.
 *
 * @param kind what is changed, as {@code length made definite}; docs/FORMATS.md has all kinds
 * @param place where what is changed begins in the message
 * @param length how many octets it has there
 * @param derPlace where it begins in the DER; if it is left out, where it would
 * @param derLength how many octets it has there: 0 if it is left out
 * @param first a number, by the kind: what it was, or where; of segments that are joined, how many there are
 * @param second another number, by the kind: what it is now; of segments, how many octets are in them
 * @param set the set whose member is moved, as {@code digestAlgorithms}; null for another kind
 * @param text the line of the command {@code changes}, as {@code at 0 length made definite: 30 80 -> 30 23}
 */
public record Change(
        String kind,
        long place,
        long length,
        long derPlace,
        long derLength,
        long first,
        long second,
        @Nullable String set,
        String text) {
    static final int WORDS = 8; // of 64 bits, which a change has

    /** The change with these words from {@code at} on. */
    static Change in(long[] words, int at, String text) {
        String set = words[at + 7] == 0 ? null : ChangeNames.SETS.get((int) words[at + 7]);
        return new Change(ChangeNames.KINDS.get((int) words[at]), words[at + 1], words[at + 2], words[at + 3], words[at + 4],
                words[at + 5], words[at + 6], set, text);
    }

    @Override
    public String toString() {
        return text;
    }
}
