package cmscanon;

import java.nio.ByteBuffer;
import java.nio.charset.StandardCharsets;
import java.util.Arrays;
import java.util.HexFormat;

/**
 * Octets that nobody can change, such as those of a field of a message. Two are equal if they have the same octets.
 *
 * <p>Those of a {@link Message} are a part of the copy of the input that it keeps, and have no copy of their own. Only an OCTET STRING
 * that was received in several segments is put together.
 */
public final class Octets {
    private static final int SHOWN = 32; // octets, of more that would make a text too long to read

    private final byte[] array;
    private final int start;
    private final int length;

    Octets(byte[] array, int start, int length) {
        this.array = array;
        this.start = start;
        this.length = length;
    }

    /**
     * {@return these octets, copied}
     *
     * @param octets what is copied
     */
    public static Octets copyOf(byte[] octets) {
        return new Octets(octets.clone(), 0, octets.length);
    }

    /** {@return how many octets there are} */
    public int length() {
        return length;
    }

    /**
     * {@return the octet with this number, from 0}
     *
     * @param index the number of the octet, from 0
     * @throws IndexOutOfBoundsException if there is no such octet
     */
    public byte at(int index) {
        if (index < 0 || index >= length) {
            throw new IndexOutOfBoundsException("octet " + index + " of " + length);
        }
        return array[start + index];
    }

    /** {@return a copy of the octets} */
    public byte[] toArray() {
        return Arrays.copyOfRange(array, start, start + length);
    }

    /** {@return a new buffer over the octets, without a copy, which cannot be written to} */
    public ByteBuffer asByteBuffer() {
        return ByteBuffer.wrap(array, start, length).slice().asReadOnlyBuffer();
    }

    /** {@return the octets as hexadecimal digits} */
    public String toHex() {
        return HexFormat.of().formatHex(array, start, start + length);
    }

    /** The text that the octets are in ASCII. */
    String toAscii() {
        return new String(array, start, length, StandardCharsets.US_ASCII);
    }

    @Override
    public boolean equals(Object other) {
        return other instanceof Octets && asByteBuffer().equals(((Octets) other).asByteBuffer());
    }

    @Override
    public int hashCode() {
        return asByteBuffer().hashCode();
    }

    /** Returns the octets as hexadecimal digits; of more than 32, the first 32 and how many there are. */
    @Override
    public String toString() {
        return length <= SHOWN ? toHex() : HexFormat.of().formatHex(array, start, start + SHOWN) + "... (" + length + " octets)";
    }
}
