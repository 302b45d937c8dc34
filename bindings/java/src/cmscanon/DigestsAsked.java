package cmscanon;

import java.io.IOException;
import java.io.InputStream;
import java.nio.ByteBuffer;
import java.nio.ByteOrder;
import java.nio.IntBuffer;
import java.security.MessageDigest;
import java.util.ArrayList;
import java.util.Arrays;
import java.util.List;

/** Which digests a message asks for of octets that are not attached to it, and these digests of streams. */
final class DigestsAsked {
    private static final int ROOM = 8; // rows, which the header says always suffices
    private static final int WORDS = 2; // of 32 bits, which a row has: of what; the algorithm
    private static final int OF_CONTENT = 1;
    private static final int OF_DATA = 2;
    private static final int ITSELF = 0; // in place of an algorithm
    private static final int PIECE = 65_536; // octets that are read at once, at most
    private static final int DIGEST = 17; // words of 32 bits of struct cms_canon_digest: the algorithm; 64 octets of the digest

    private final boolean needsContent;
    private final List<DigestAlgorithm> ofContent = new ArrayList<>();
    private final List<DigestAlgorithm> ofData = new ArrayList<>();

    /** Those of the rows that the library gives. */
    DigestsAsked(int... rows) {
        needsContent = Arrays.equals(rows, new int[] {OF_CONTENT, ITSELF});
        for (int i = 0; i < rows.length && !needsContent; i += WORDS) {
            asked(rows[i]).add(DigestAlgorithm.numbered(rows[i + 1]));
        }
    }

    private List<DigestAlgorithm> asked(int of) {
        if (of != OF_CONTENT && of != OF_DATA) {
            throw new IllegalStateException("the library asks for a digest of " + of);
        }
        return of == OF_CONTENT ? ofContent : ofData;
    }

    /** What a message asks for. */
    static DigestsAsked by(byte[] data, long limit) throws CmsCanon.Refused {
        int[] rows = new int[ROOM * WORDS];
        Outcome outcome = new Outcome();
        Library.cms_canon_digests_asked(data, data.length, limit, rows, ROOM, outcome.words);
        if (!outcome.isDone()) {
            throw outcome.refusal("", 0);
        }
        return new DigestsAsked(Arrays.copyOf(rows, (int) outcome.octets() * WORDS));
    }

    /** Whether the content is needed itself. It is then that of a time-stamp token. */
    boolean needsContent() {
        return needsContent;
    }

    /** The digests of the content, as the library takes them; null of null. */
    int[] ofContent(InputStream content) throws IOException {
        return content == null ? null : digests(content, ofContent);
    }

    /** The digests of the data that were time-stamped, as the library takes them; null of null. */
    int[] ofData(InputStream stamped) throws IOException {
        return stamped == null ? null : digests(stamped, ofData);
    }

    /** How many digests there are in an array of them. */
    static int count(int[] digests) {
        return digests.length / DIGEST;
    }

    /** The digests of a stream, which is read to its end if there is an algorithm. */
    private static int[] digests(InputStream stream, List<DigestAlgorithm> algorithms) throws IOException {
        List<MessageDigest> digests = algorithms.stream().map(DigestAlgorithm::begin).toList();
        if (!digests.isEmpty()) {
            digest(stream, digests);
        }
        int[] words = new int[DIGEST * digests.size()];
        for (int i = 0; i < digests.size(); i++) {
            DigestAlgorithm algorithm = algorithms.get(i);
            words[DIGEST * i] = algorithm.number();
            IntBuffer octets = ByteBuffer.wrap(algorithm.end(digests.get(i))).order(ByteOrder.nativeOrder()).asIntBuffer();
            octets.get(words, DIGEST * i + 1, octets.remaining());
        }
        return words;
    }

    private static void digest(InputStream stream, List<MessageDigest> digests) throws IOException {
        byte[] piece = new byte[PIECE];
        for (int read = stream.read(piece); read != -1; read = stream.read(piece)) { // update refuses a number that cannot be
            for (MessageDigest digest : digests) {
                digest.update(piece, 0, read);
            }
        }
    }
}
