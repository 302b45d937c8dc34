package cmscanon;

import java.nio.ByteBuffer;
import java.nio.ByteOrder;
import java.nio.charset.StandardCharsets;

/** What became of a call: {@code struct cms_canon_outcome}, or {@code struct cms_canon_many}, as words of 64 bits. */
final class Outcome {
    private static final int DONE = 0;
    private static final int DIFFERENT = 1;
    private static final int REFUSED = 3;
    private static final int OUT_OF_MEMORY = 5;
    private static final int ROOM_TOO_SMALL = 6;

    /** The words, which a call writes to: status and reason; at; octets; three of the name; and messages and read of many. */
    final long[] words = new long[8];

    private int status() {
        return (int) words[0]; // the processor puts the lower half first
    }

    boolean isDone() {
        return status() == DONE;
    }

    boolean isDifferent() {
        return status() == DIFFERENT;
    }

    boolean isRoomTooSmall() {
        return status() == ROOM_TOO_SMALL;
    }

    long octets() {
        return words[2];
    }

    long messages() {
        return words[6];
    }

    long read() {
        return words[7];
    }

    /**
     * The refusal, of the message with this number if there are two. If there is none, memory ran out; another status is a fault of
     * the library.
     */
    CmsCanon.Refused refusal(String which, int message) {
        if (status() == REFUSED) {
            return new CmsCanon.Refused(which, (int) (words[0] >>> 32), name(), words[1], message);
        }
        if (status() == OUT_OF_MEMORY) {
            throw new OutOfMemoryError("out of memory");
        }
        throw new IllegalStateException("the library gives the status " + status());
    }

    private String name() {
        ByteBuffer octets = ByteBuffer.allocate(24).order(ByteOrder.LITTLE_ENDIAN);
        octets.asLongBuffer().put(words, 3, 3);
        return new String(octets.array(), StandardCharsets.US_ASCII).replace("\0", "");
    }
}
