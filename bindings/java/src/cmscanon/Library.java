package cmscanon;

import com.sun.jna.Native;
import com.sun.jna.Platform;
import java.io.IOException;
import java.util.Arrays;

/**
 * The calls of {@code libcms_canon.so}, and the arrays that they write to.
 *
 * <p>A {@code bool} is a {@code byte} here, since JNA passes a {@code boolean} as -1. Records and the outcome are arrays of
 * {@code long}: JNA passes no array of structures in calls that are registered, a {@code byte[]} need not be aligned, and to copy a
 * structure takes twice the time of a conversion.
 */
final class Library {
    private static final int MAX_ARRAY = Integer.MAX_VALUE - 8; // the longest array that every virtual machine makes
    private static final String NAME = "cms_canon";

    static {
        Native.register(Library.class, nameOrPath());
    }

    private Library() {}

    /**
     * Returns the path of the library in the jar, once it is unpacked, or else its name. JNA by itself would take a library of the
     * system first, which may be of another version than the jar; only a folder that the caller names comes before the jar's own.
     */
    private static String nameOrPath() {
        String packed = "/" + Platform.RESOURCE_PREFIX + "/" + System.mapLibraryName(NAME);
        if (System.getProperty("jna.library.path") != null || Library.class.getResource(packed) == null) {
            return NAME;
        }
        try {
            return Native.extractFromResourcePath(packed, Library.class.getClassLoader()).getPath();
        } catch (IOException cause) {
            throw (UnsatisfiedLinkError) new UnsatisfiedLinkError("the library in the jar cannot be unpacked: " + cause.getMessage())
                    .initCause(cause);
        }
    }

    /** A call that writes octets. */
    interface OfOctets {
        void into(byte[] output, long[] outcome);
    }

    /** A call that writes records of some words of 64 bits each, and has room for so many records. */
    interface OfRecords {
        void into(long[] records, long room, long[] outcome);
    }

    // The calls of the header: scripts/generate writes these.
    static native void cms_canon_convert(
            byte[] input, long inputLength, long limit, byte[] output, long outputRoom, long[] outcome);

    static native void cms_canon_convert_many(
            byte[] input, long inputLength, long limit, byte[] output, long outputRoom, long[] many);

    static native void cms_canon_extent(
            byte[] input, long inputLength, long limit, long[] extent);

    static native void cms_canon_cover(
            byte[] input, long inputLength, long[] path, long pathLength, byte[] content, long contentLength, byte hasContent,
            long limit, byte[] output, long outputRoom, long[] outcome);

    static native void cms_canon_show(
            byte[] input, long inputLength, long limit, byte[] output, long outputRoom, long[] outcome);

    static native void cms_canon_check(
            byte[] input, long inputLength, byte[] content, long contentLength, byte hasContent, byte[] data, long dataLength,
            byte hasData, long limit, long[] findings, long findingsRoom, long[] outcome);

    static native void cms_canon_digests_asked(
            byte[] input, long inputLength, long limit, int[] asked, long askedRoom, long[] outcome);

    static native void cms_canon_check_digests(
            byte[] input, long inputLength, int[] content, long contentCount, byte hasContent, int[] data, long dataCount,
            byte hasData, long limit, long[] findings, long findingsRoom, long[] outcome);

    static native void cms_canon_same(
            byte[] first, long firstLength, byte[] second, long secondLength, long limit, long[] outcome);

    static native void cms_canon_fields(
            byte[] input, long inputLength, long limit, long[] fields, long fieldsRoom, long[] outcome);

    static native void cms_canon_tst_info_fields(
            byte[] content, long contentLength, long[] fields, long fieldsRoom, long[] outcome);

    static native void cms_canon_pieces(
            byte[] input, long inputLength, long limit, long[] pieces, long piecesRoom, long[] outcome);

    static native void cms_canon_changes(
            byte[] input, long inputLength, long limit, long[] changes, long changesRoom, long[] outcome);

    static native void cms_canon_list_changes(
            byte[] input, long inputLength, byte json, long limit, byte[] output, long outputRoom, long[] outcome);
    // The end of the calls.

    /** Calls with room for so many octets, and once more if they are too few. */
    static byte[] octets(long room, OfOctets call) throws CmsCanon.Refused {
        Outcome outcome = new Outcome();
        byte[] output = new byte[firstRoom(room)];
        call.into(output, outcome.words);
        if (outcome.isRoomTooSmall()) {
            output = new byte[lengthOfArray(outcome.octets())];
            call.into(output, outcome.words);
        }
        if (!outcome.isDone()) {
            throw outcome.refusal("", 0);
        }
        return outcome.octets() == output.length ? output : Arrays.copyOf(output, (int) outcome.octets());
    }

    /** Calls with room for so many records of so many words, and once more if they are too few. Returns the words of all. */
    static long[] records(int words, int room, OfRecords call) throws CmsCanon.Refused {
        Outcome outcome = new Outcome();
        long[] records = new long[room * words];
        call.into(records, room, outcome.words);
        if (outcome.isRoomTooSmall()) {
            records = new long[lengthOfArray(outcome.octets() * words)];
            call.into(records, outcome.octets(), outcome.words);
        }
        if (!outcome.isDone()) {
            throw outcome.refusal("", 0);
        }
        return Arrays.copyOf(records, (int) outcome.octets() * words);
    }

    /** The length of the array for a first call, which need not hold all. JNA might pass an array without members as NULL. */
    static int firstRoom(long octets) {
        return (int) Math.max(1, Math.min(octets, MAX_ARRAY));
    }

    /** The length of the array for all of a result. */
    static int lengthOfArray(long length) {
        if (length > MAX_ARRAY) {
            throw new IllegalArgumentException(
                    "the result would be an array of " + length + ", and none has more than " + MAX_ARRAY);
        }
        return (int) length;
    }
}
