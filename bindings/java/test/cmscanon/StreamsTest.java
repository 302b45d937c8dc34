package cmscanon;

import static cmscanon.Samples.DATA;
import static cmscanon.Samples.cameOf;
import static cmscanon.Samples.element;
import static cmscanon.Samples.message;
import static cmscanon.Samples.octets;
import static cmscanon.Samples.signer;
import static org.junit.jupiter.api.Assertions.assertEquals;
import static org.junit.jupiter.api.Assertions.assertFalse;
import static org.junit.jupiter.api.Assertions.assertThrows;
import static org.junit.jupiter.api.Assertions.assertTrue;

import java.io.ByteArrayInputStream;
import java.io.IOException;
import java.io.InputStream;
import java.nio.charset.StandardCharsets;
import java.security.MessageDigest;
import java.security.NoSuchAlgorithmException;
import java.security.Provider;
import java.security.Security;
import java.util.ArrayList;
import java.util.Arrays;
import java.util.HexFormat;
import java.util.List;
import java.util.concurrent.Callable;
import org.junit.jupiter.api.Test;

/**
 * {@link CmsCanon#checkStreams}: its findings are those of {@link CmsCanon#check}; what it reads; and streams, providers and a
 * library that misbehave.
 */
final class StreamsTest {
    /** The contents of the OBJECT IDENTIFIER of each digest algorithm, in the order of {@link DigestAlgorithm}. */
    private static final List<String> OIDS = List.of("2b0e03021a", "608648016503040204", "608648016503040201", "608648016503040202",
            "608648016503040203", "608648016503040205", "608648016503040206");
    private static final List<String> NAMES =
            List.of("SHA-1", "SHA-224", "SHA-256", "SHA-384", "SHA-512", "SHA-512/224", "SHA-512/256");
    private static final int SHA_256 = 2; // the number of its name, from 0
    private static final String TOKEN = "060b2a864886f70d0109100104";
    private static final int PIECE = 65_536;
    private static final byte[] CONTENT = new byte[2 * PIECE + 7];
    private static final byte[] OTHER = CONTENT.clone();

    static {
        for (int i = 0; i < CONTENT.length; i++) {
            CONTENT[i] = (byte) (i * i >>> 3);
        }
        System.arraycopy(CONTENT, 0, OTHER, 0, CONTENT.length - 1); // the last octet differs
    }

    // ---- messages

    private static MessageDigest sha(int name) {
        try {
            return MessageDigest.getInstance(NAMES.get(name));
        } catch (NoSuchAlgorithmException missing) {
            throw new AssertionError(missing);
        }
    }

    /** An element whose length is the shortest, as signed attributes must have it. */
    private static String shortElement(String identifier, String... contents) {
        String joined = String.join("", contents);
        return identifier + String.format("%02x", joined.length() / 2) + joined;
    }

    private static String algorithm(int name) {
        return shortElement("30", shortElement("06", OIDS.get(name)));
    }

    /** A signer with the attributes content-type and message-digest. */
    private static String signerBy(int name, byte[] digest) {
        String type = shortElement("30", "06092a864886f70d010903", shortElement("31", DATA));
        String octets = shortElement("04", HexFormat.of().formatHex(digest));
        String attributes = shortElement("30", "06092a864886f70d010904", shortElement("31", octets));
        return element("30", "020103", "800101", algorithm(name), shortElement("a0", type, attributes), "300506032a0304", "0401aa");
    }

    /** A message without content whose signers have digests of {@link #CONTENT} by these algorithms, and with another signer. */
    private static byte[] detached(String other, int... names) {
        StringBuilder signers = new StringBuilder();
        for (int name : names) {
            signers.append(signerBy(name, sha(name).digest(CONTENT)));
        }
        return message(DATA, element("31", signers + other));
    }

    private static byte[] byAll() {
        return detached("", 6, 5, 4, 3, 2, 1, 0, 3);
    }

    private static String imprint(byte[] data) {
        return element("30", algorithm(SHA_256), shortElement("04", HexFormat.of().formatHex(sha(SHA_256).digest(data))));
    }

    private static byte[] request(byte[] data) {
        return octets(element("30", "020101", imprint(data)));
    }

    /** A time-stamp token for {@link #CONTENT} without its content. */
    private static byte[] detachedToken() {
        return message(TOKEN, element("31", signer(1, "0401aa")));
    }

    private static byte[] tstInfo() {
        String digest = HexFormat.of().formatHex(sha(SHA_256).digest(CONTENT));
        String imprint = shortElement("30", "300d06096086480165030402010500", shortElement("04", digest));
        return octets(shortElement("30", "020101", "06032a0304", imprint, "020105", "180f32303234303232393132303030305a"));
    }

    // ---- streams

    /** What a stream does when it is asked for octets. */
    private interface Reading {
        int read(byte[] to, int start, int length) throws IOException;
    }

    /** A stream that is asked for several octets at once. */
    private static InputStream reading(Reading reading) {
        return new InputStream() {
            @Override
            public int read() {
                throw new AssertionError("octets are read one by one");
            }

            @Override
            public int read(byte[] to, int start, int length) throws IOException {
                return reading.read(to, start, length);
            }
        };
    }

    private static InputStream unread() {
        return reading((to, start, length) -> {
            throw new AssertionError("the stream is read");
        });
    }

    /** A stream of octets, so many at a time at most, which remembers how it was used. */
    private static final class Watched extends ByteArrayInputStream {
        private final int most;
        private int longest;
        private int ends;
        private boolean isClosed;

        Watched(byte[] octets, int most) {
            super(octets);
            this.most = most;
        }

        @Override
        public int read(byte[] to, int start, int length) {
            longest = Math.max(longest, length);
            int read = super.read(to, start, Math.min(length, most));
            ends += read == -1 ? 1 : 0;
            return read;
        }

        @Override
        public void close() {
            isClosed = true;
        }

        String use() {
            return longest + " at a time, " + ends + " ends" + (isClosed ? ", closed" : "");
        }
    }

    private static List<CmsCanon.Finding> checked(byte[] data, InputStream content, InputStream stamped)
            throws CmsCanon.Refused, IOException {
        return CmsCanon.checkStreams(data, content, stamped, null, CmsCanon.LIMIT);
    }

    private static InputStream stream(byte[] octets, int most) {
        return octets == null ? null : new Watched(octets, most);
    }

    // ---- checks

    /** The findings are those with arrays, whether or not there is a verifier, and however few octets a stream gives at a time. */
    private static String sameFindings(String what, byte[] data, byte[] content, byte[] stamped)
            throws CmsCanon.Refused, IOException {
        CmsCanon.Verifier bad = job -> job.covered().length > 0 ? CmsCanon.Verdict.BAD : CmsCanon.Verdict.UNKNOWN;
        String wanted = "";
        for (CmsCanon.Verifier verifier : new CmsCanon.Verifier[] {bad, null}) {
            wanted = CmsCanon.check(data, content, stamped, verifier, CmsCanon.LIMIT).toString();
            for (int most : new int[] {1, 1000, PIECE, Integer.MAX_VALUE}) {
                InputStream first = stream(content, most);
                InputStream second = stream(stamped, most);
                Object came = CmsCanon.checkStreams(data, first, second, verifier, CmsCanon.LIMIT);
                assertEquals(wanted, came.toString(), what + ", " + most + " octets at a time, verifier " + verifier);
            }
        }
        return wanted;
    }

    @Test
    void content() throws CmsCanon.Refused, IOException {
        String right = sameFindings("the content", byAll(), CONTENT, null);
        String wrong = sameFindings("other content", byAll(), OTHER, null);
        assertEquals(0, right.split("F7 ", -1).length - 1, "no digest differs");
        assertEquals(8, wrong.split("F7 ", -1).length - 1, "each digest differs");
        assertTrue(sameFindings("no content", byAll(), null, null).contains("F9 "), "no content");
        sameFindings("empty content", byAll(), new byte[0], null);
        for (int name = 0; name < NAMES.size(); name++) {
            sameFindings("content by " + NAMES.get(name), detached("", name), CONTENT, null);
            sameFindings("other content by " + NAMES.get(name), detached("", name), OTHER, null);
        }
        sameFindings("no signers", message(DATA, "3100"), CONTENT, null);
        sameFindings("an algorithm that is not known", message(DATA, element("31", signer(1, "0401aa"))), CONTENT, null);
        sameFindings("no signed attributes", detached(signer(2, "0401bb"), 0, SHA_256), OTHER, null);
    }

    @Test
    void stamped() throws CmsCanon.Refused, IOException {
        byte[] request = request(CONTENT);
        assertEquals("[]", sameFindings("the data", request, null, CONTENT), "the data");
        assertEquals("[F14 imprint differs]", sameFindings("other data", request, null, OTHER), "other data");
        assertTrue(sameFindings("data of no token", byAll(), CONTENT, CONTENT).contains("F11 "), "data of no token");
        String right = sameFindings("a detached token", detachedToken(), tstInfo(), CONTENT);
        String wrong = sameFindings("a detached token, other data", detachedToken(), tstInfo(), OTHER);
        assertEquals(List.of(false, true), List.of(right.contains("F14 "), wrong.contains("F14 ")), "a detached token");
        sameFindings("a detached token, no TSTInfo", detachedToken(), CONTENT, CONTENT);
        sameFindings("a detached token, no content", detachedToken(), null, CONTENT);
        sameFindings("a detached token, no data", detachedToken(), tstInfo(), null);
    }

    /** How the stream of the content is used. */
    private static void checkUse(String what, String wanted, byte[] data, byte[] content, CmsCanon.Verifier verifier)
            throws CmsCanon.Refused, IOException {
        Watched stream = new Watched(content, Integer.MAX_VALUE);
        CmsCanon.checkStreams(data, stream, null, verifier, CmsCanon.LIMIT);
        assertEquals(wanted, stream.use(), what);
    }

    @Test
    void uses() throws CmsCanon.Refused, IOException {
        CmsCanon.Verifier good = job -> CmsCanon.Verdict.GOOD;
        String once = PIECE + " at a time, 1 ends";
        String never = "0 at a time, 0 ends";
        String whole = "8192 at a time, 1 ends"; // as what is kept in memory is read
        byte[] covering = detached(signer(2, "0401bb"), SHA_256);
        checkUse("seven digests", once, byAll(), CONTENT, null);
        checkUse("a verifier that needs no content", once, byAll(), CONTENT, good);
        checkUse("a verifier that needs the content", whole, covering, CONTENT, good);
        checkUse("a signature over the content that is not verified", once, covering, CONTENT, null);
        checkUse("a TSTInfo", whole, detachedToken(), tstInfo(), null);
        String signers = element("31", signer(1, "0401aa"));
        checkUse("content that is attached", never, message(DATA + "a0050403616263", signers), CONTENT, good);
        checkUse("no digest", never, message(DATA, signers), CONTENT, null);
        Watched stamped = new Watched(CONTENT, Integer.MAX_VALUE);
        checked(request(CONTENT), null, stamped);
        assertEquals(once, stamped.use(), "data");
    }

    @Test
    void covered() throws CmsCanon.Refused, IOException {
        List<String> covered = new ArrayList<>();
        byte[] content = "covered".getBytes(StandardCharsets.US_ASCII);
        CmsCanon.checkStreams(detached(signer(2, "0401bb"), SHA_256), new Watched(content, 3), null, job -> {
            covered.add(job.signer == 1 ? new String(job.covered(), StandardCharsets.US_ASCII) : "attributes");
            return CmsCanon.Verdict.GOOD;
        }, CmsCanon.LIMIT);
        assertEquals(List.of("attributes", "covered"), covered, "what signatures cover");
    }

    /** A stream that is read into memory may have as many octets as the limit. */
    @Test
    void limitsOfMemory() throws CmsCanon.Refused, IOException {
        CmsCanon.Verifier good = job -> CmsCanon.Verdict.GOOD;
        byte[] covering = detached(signer(2, "0401bb"), SHA_256);
        for (int limit : new int[] {1000, CONTENT.length - 1, CONTENT.length, CONTENT.length + 1}) {
            String refused = "2 " + (limit + 1) + " refused E2 TooLarge at " + (limit + 1);
            String ofContent = cameOf(() -> CmsCanon.check(covering, CONTENT, null, good, limit));
            assertEquals(limit < CONTENT.length ? refused : ofContent,
                    cameOf(() -> CmsCanon.checkStreams(covering, stream(CONTENT, 1000), null, good, limit)),
                    "covered content under the limit " + limit);
            String ofData = cameOf(() -> CmsCanon.check(detachedToken(), tstInfo(), CONTENT, null, limit));
            assertEquals(limit < CONTENT.length ? refused : ofData,
                    cameOf(() -> CmsCanon.checkStreams(detachedToken(), stream(tstInfo(), 7), stream(CONTENT, 1000), null, limit)),
                    "data of a detached token under the limit " + limit);
        }
        assertEquals(CmsCanon.check(covering, CONTENT, null, good, CmsCanon.LIMIT),
                CmsCanon.checkStreams(covering, stream(CONTENT, 1000), null, good, 1L << 40), "the largest limit");
        assertEquals(CmsCanon.check(covering, CONTENT, null, null, 1000),
                CmsCanon.checkStreams(covering, stream(CONTENT, 1000), null, null, 1000),
                "content that is digested under a small limit");
        InputStream endless = reading((to, start, length) -> length);
        assertEquals("2 1001 refused E2 TooLarge at 1001",
                cameOf(() -> CmsCanon.checkStreams(covering, endless, null, good, 1000)), "covered content without an end");
    }

    /** A stream that is longer than the memory of this program; the test gives it little. */
    @Test
    void longContent() throws CmsCanon.Refused, IOException {
        byte[] zeros = new byte[PIECE];
        long pieces = Runtime.getRuntime().maxMemory() / PIECE + 1;
        MessageDigest digest = sha(SHA_256);
        for (long i = 0; i < pieces; i++) {
            digest.update(zeros);
        }
        byte[] data = message(DATA, element("31", signerBy(SHA_256, digest.digest())));
        for (long length : new long[] {pieces, pieces + 1}) {
            long[] left = {length};
            String came = checked(data, reading((to, start, most) -> {
                Arrays.fill(to, start, start + most, (byte) 0);
                return left[0]-- > 0 ? most : -1;
            }), null).toString();
            assertEquals(length != pieces, came.contains("F7 "), "content of " + length + " pieces");
        }
    }

    /** A stream whose reads give octets of the content, and in the end something else. */
    private static InputStream ending(Reading end) {
        InputStream first = new Watched(Arrays.copyOf(CONTENT, PIECE + 1), 1000);
        return reading((to, start, length) -> {
            int read = first.read(to, start, length);
            return read == -1 ? end.read(to, start, length) : read;
        });
    }

    @Test
    void streamsThatMisbehave() {
        IOException fault = new IOException("of the stream");
        Reading failing = (to, start, length) -> {
            throw fault;
        };
        String wanted = fault.toString();
        assertEquals(wanted, cameOf(() -> checked(byAll(), reading(failing), null)), "content that fails at once");
        assertEquals(wanted, cameOf(() -> checked(byAll(), ending(failing), null)), "content that fails");
        assertEquals(wanted, cameOf(() -> checked(request(CONTENT), null, ending(failing))), "data that fail");
        assertEquals(wanted, cameOf(() -> checked(detachedToken(), ending(failing), null)), "a TSTInfo that fails");
        assertEquals(wanted, cameOf(() -> checked(detachedToken(), stream(tstInfo(), 7), ending(failing))),
                "data of a detached token that fail");
        assertEquals(wanted,
                cameOf(() -> CmsCanon.checkStreams( detached(signer(2, "0401bb"), SHA_256), ending(failing), null, job -> CmsCanon.Verdict.GOOD, CmsCanon.LIMIT)),
                "covered content that fails");
        byte[] covering = detached(signer(2, "0401bb"), SHA_256);
        for (byte[] data : new byte[][] {byAll(), detachedToken(), covering}) {
            assertThrows(RuntimeException.class,
                    () -> CmsCanon.checkStreams( data, ending((to, start, length) -> length + 1), null, job -> CmsCanon.Verdict.GOOD, CmsCanon.LIMIT),
                    "a number of octets that is too large");
            assertThrows(RuntimeException.class,
                    () -> CmsCanon.checkStreams( data, ending((to, start, length) -> -2), null, job -> CmsCanon.Verdict.GOOD, CmsCanon.LIMIT),
                    "a negative number of octets");
        }
    }

    @Test
    void streamWithEmptyReads() throws CmsCanon.Refused, IOException {
        int[] asked = new int[1];
        InputStream all = new Watched(CONTENT, 1000);
        InputStream sometimes = reading((to, start, length) -> asked[0]++ % 2 == 0 ? 0 : all.read(to, start, length));
        List<CmsCanon.Finding> wanted = CmsCanon.check(byAll(), CONTENT, null, null, CmsCanon.LIMIT);
        assertEquals(wanted, checked(byAll(), sometimes, null), "empty reads");
    }

    @Test
    void callers() {
        byte[] data = byAll();
        for (int length = 0; length < data.length; length++) {
            byte[] cut = Arrays.copyOf(data, length);
            String wanted = cameOf(() -> CmsCanon.convert(cut));
            assertEquals(wanted, cameOf(() -> checked(cut, unread(), unread())), "cut to " + length);
        }
        String small = cameOf(() -> CmsCanon.checkStreams(data, unread(), unread(), null, 9));
        assertEquals("2", small.split(" ")[0], "a limit that is too small");
        for (long limit : new long[] {-1, (1L << 40) + 1}) {
            assertThrows(IllegalArgumentException.class, () -> CmsCanon.checkStreams(data, unread(), null, null, limit),
                    "the limit " + limit);
        }
        assertThrows(NullPointerException.class, () -> checked(null, unread(), null), "no message");
        InputStream both = unread();
        assertThrows(IllegalArgumentException.class, () -> checked(data, both, both), "one stream for both");
        byte[] changed = data.clone();
        Reading changing = (to, start, length) -> {
            Arrays.fill(changed, (byte) 0);
            return -1;
        };
        assertEquals(cameOf(() -> checked(data, stream(new byte[0], 1), null)),
                cameOf(() -> checked(changed, reading(changing), null)), "a message that is changed");
    }

    // ---- providers and a library that misbehave

    /** What a call does while SHA-256 is this class of digests, or is missing if there is none. */
    private static String withSha256(Class<? extends MessageDigest> digests, Callable<?> call) {
        Provider usual = sha(SHA_256).getProvider();
        Security.removeProvider(usual.getName());
        Security.addProvider(new Provider("Test", "1", "") {
            private static final long serialVersionUID = 1;

            {
                if (digests != null) {
                    put("MessageDigest.SHA-256", digests.getName());
                }
            }
        });
        try {
            return cameOf(call);
        } finally {
            Security.removeProvider("Test");
            Security.insertProviderAt(usual, 1);
        }
    }

    /** A digest of 31 octets. */
    public static final class ShortDigest extends MessageDigest {
        /** As a provider makes it. */
        public ShortDigest() {
            super("SHA-256");
        }

        @Override
        protected void engineUpdate(byte input) {}

        @Override
        protected void engineUpdate(byte[] input, int start, int length) {}

        @Override
        protected byte[] engineDigest() {
            return new byte[31];
        }

        @Override
        protected void engineReset() {}
    }

    @Test
    void providers() {
        byte[] data = detached("", SHA_256);
        String usual = cameOf(() -> checked(data, stream(CONTENT, 1000), null));
        String missing = "java.lang.UnsupportedOperationException: no security provider has SHA-256";
        assertEquals(missing, withSha256(null, () -> checked(data, unread(), null)), "no provider of SHA-256");
        String wrong = "java.lang.IllegalStateException: a digest by SHA-256 has 32 octets, and that of Test version 1 has 31";
        Callable<?> check = () -> checked(data, stream(CONTENT, 1000), null);
        assertEquals(wrong, withSha256(ShortDigest.class, check), "a digest that is too short");
        assertEquals(usual, cameOf(check), "the usual provider");
    }

    private static String byDigests(byte[] data, int[] content, int[] stamped) {
        return cameOf(() -> CmsCanon.findingsByDigests(data, content, stamped, CmsCanon.LIMIT));
    }

    @Test
    void digestsThatAreMissing() throws CmsCanon.Refused, IOException {
        int[] all = DigestsAsked.by(byAll(), CmsCanon.LIMIT).ofContent(stream(CONTENT, 1000));
        String wanted = CmsCanon.check(byAll(), CONTENT, null, null, CmsCanon.LIMIT).toString();
        assertEquals(NAMES.size(), DigestsAsked.count(all), "how many digests");
        assertEquals(wanted, byDigests(byAll(), all, null), "all digests");
        String missing = "106 0 refused: digest not given";
        int digest = all.length / NAMES.size();
        assertEquals(missing, byDigests(byAll(), Arrays.copyOf(all, all.length - digest), null), "the last digest missing");
        assertEquals(missing, byDigests(byAll(), Arrays.copyOfRange(all, digest, all.length), null),
                "the first digest missing");
        assertEquals(missing, byDigests(byAll(), new int[0], null), "no digest");
        assertEquals(missing, byDigests(request(CONTENT), null, new int[0]), "no digest of the data");
        assertEquals("107 0 refused: needs the content", byDigests(detachedToken(), all, null), "digests of a TSTInfo");
    }

    @Test
    void wrongRows() {
        Class<? extends Throwable> wanted = IllegalStateException.class;
        assertTrue(new DigestsAsked(1, 0).needsContent(), "the content itself");
        assertFalse(new DigestsAsked().needsContent(), "no rows");
        assertThrows(wanted, () -> new DigestsAsked(1, 8), "an algorithm that is not known");
        assertThrows(wanted, () -> new DigestsAsked(2, -1), "a negative algorithm");
        assertThrows(wanted, () -> new DigestsAsked(2, 0), "the data themselves");
        assertThrows(wanted, () -> new DigestsAsked(1, 0, 2, 3), "the content itself, and a digest");
        assertThrows(wanted, () -> new DigestsAsked(3, 1), "a digest of neither");
        Outcome small = new Outcome();
        small.words[0] = 6;
        assertThrows(wanted, () -> small.refusal("", 0), "more rows than there is room for");
    }
}
