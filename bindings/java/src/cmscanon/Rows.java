package cmscanon;

import java.io.ByteArrayOutputStream;
import java.math.BigInteger;
import java.util.ArrayList;
import java.util.List;
import java.util.Objects;

/**
 * The rows of a message, which are taken in their order. A row that is not the one asked for is a fault of the library, and an
 * {@link IllegalStateException}.
 */
final class Rows {
    /** What reads a value, whose first row has to be of this kind and level. */
    interface Reading<T> {
        T read(int kind, int level);
    }

    /** The words of 64 bits that a row has: start; length; kind, and the level in the upper half. */
    static final int WORDS = 3;

    private final byte[] octets;
    private final long[] words;
    private int next; // the index of the first word of the row that comes next

    Rows(byte[] octets, long[] words) {
        this.octets = octets;
        this.words = words;
    }

    /** Whether the next row is of this kind and level. */
    boolean has(int kind, int level) {
        return next < words.length && words[next + 2] == (kind | (long) level << 32); // the processor puts the lower half first
    }

    /** Takes the next row, which has to be of this kind and level. */
    Octets take(int kind, int level) {
        if (!has(kind, level)) {
            throw new IllegalStateException("no row of kind " + kind + " at level " + level + " comes at " + next / WORDS);
        }
        int start = Math.toIntExact(words[next]);
        int length = Math.toIntExact(words[next + 1]);
        Objects.checkFromIndexSize(start, length, octets.length);
        next += WORDS;
        return new Octets(octets, start, length);
    }

    /** Has to be called after the last row was taken. */
    void end() {
        if (next != words.length) {
            throw new IllegalStateException("more rows come at " + next / WORDS);
        }
    }

    /** Whether the next row is of this kind and level. It is taken if it is. */
    boolean takesHead(int kind, int level) {
        boolean comes = has(kind, level);
        if (comes) {
            take(kind, level);
        }
        return comes;
    }

    /** The octets of the next row, which is not taken; null if it is of another kind or level. */
    Octets peek(int kind, int level) {
        int before = next;
        Octets found = has(kind, level) ? take(kind, level) : null;
        next = before;
        return found;
    }

    /** What is read as long as the next row is of this kind and level. */
    <T> List<T> all(int kind, int level, Reading<T> reading) {
        List<T> found = new ArrayList<>();
        while (has(kind, level)) {
            found.add(reading.read(kind, level));
        }
        return found;
    }

    /** What is read from rows of a kind, the member's, one level below the next row; null if that is of another kind or level. */
    <T> List<T> below(int kind, int level, int member, Reading<T> reading) {
        return takesHead(kind, level) ? all(member, level + 1, reading) : null;
    }

    /** A list; an empty one for null. */
    static <T> List<T> orEmpty(List<T> list) {
        return list == null ? List.of() : list;
    }

    /** The octets of an OCTET STRING, of all its segments. */
    Octets string(int kind, int level) {
        Octets first = take(kind, level);
        if (!has(kind, level)) {
            return first;
        }
        ByteArrayOutputStream joined = new ByteArrayOutputStream();
        joined.writeBytes(first.toArray());
        all(kind, level, this::take).forEach(it -> joined.writeBytes(it.toArray()));
        return new Octets(joined.toByteArray(), 0, joined.size());
    }

    /** An INTEGER. */
    BigInteger integer(int kind, int level) {
        return new BigInteger(take(kind, level).toArray());
    }

    /** An INTEGER from 1 to 999. */
    int thousandths(int kind, int level) {
        return integer(kind, level).intValueExact();
    }

    /** The text of an OBJECT IDENTIFIER. */
    String oid(int kind, int level) {
        return ObjectIdentifiers.dotted(take(kind, level).toArray());
    }

    /** A BIT STRING with named bits. */
    NamedBits namedBits(int kind, int level) {
        return new NamedBits(take(kind, level));
    }

    /** A GeneralizedTime. */
    GeneralizedTime time(int kind, int level) {
        return new GeneralizedTime(take(kind, level).toAscii());
    }
}
