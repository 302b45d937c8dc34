package cmscanon;

import java.io.ByteArrayInputStream;
import java.io.ByteArrayOutputStream;
import java.io.IOException;
import java.io.InputStream;
import java.math.BigInteger;
import java.nio.charset.StandardCharsets;
import java.nio.file.Files;
import java.nio.file.Path;
import java.util.AbstractList;
import java.util.ArrayList;
import java.util.Arrays;
import java.util.List;
import java.util.Objects;
import java.util.OptionalLong;
import java.util.stream.IntStream;

/**
 * The one DER encoding of a CMS signed message (RFC 5652), or of a request or a response of time-stamping (RFC 3161), and what is
 * in it.
 *
 * <pre>
 *     byte[] der = CmsCanon.convert(message);
 *     CmsCanon.Many many = CmsCanon.convertMany(messages);
 *     String text = CmsCanon.show(message);
 *     boolean isSame = CmsCanon.same(message, der);
 *     List&lt;CmsCanon.Finding&gt; findings = CmsCanon.check(message);
 *     List&lt;CmsCanon.Finding&gt; detached = CmsCanon.checkStreams(message, content, null, null, CmsCanon.LIMIT);
 *     byte[] covered = CmsCanon.cover(message, 0);
 *     Message fields = CmsCanon.read(message);
 * </pre>
 *
 * <p>The calls run in this process, by the library {@code libcms_canon.so}: that in the folder of the property
 * {@code jna.library.path} if it is set, else that in the jar, which JNA unpacks into the folder of the property {@code jna.tmpdir},
 * else that of the system. Any number of threads may call at once. The arrays that are passed are not kept; they must not be
 * changed during a call. If a result would be longer than an array can be, the call throws {@link IllegalArgumentException}, and
 * if memory runs out, {@link OutOfMemoryError}.
 */
public final class CmsCanon {
    /** How many octets a message and its DER may have if no other limit is given: 256 MiB, the limit of the command. */
    public static final long LIMIT = 256L * 1024 * 1024;

    private static final int TOO_LARGE = 2; // E2
    private static final int NO_SIGNED_DATA = 101; // the first of the reasons that are none of E1 to E19
    private static final int NO_CONTENT = 103;

    private static final int LISTING = 8192; // the room of a first call: for octets, and the most for findings or rows
    private static final int RECORDS = 65_536;
    private static final int WORDS = 2; // of 64 bits, which a finding has: the signer; the code, and whether there is a signer
    private static final int BAD = 17; // the findings that are the verdicts of a verifier
    private static final int UNKNOWN = 18;

    private CmsCanon() {}

    /**
     * A message is refused, no octets are covered, a content is no TSTInfo, or digests do not suffice. Its text is the line of the
     * command, as {@code refused E6 Overrun at 4}.
     */
    public static final class Refused extends Exception {
        private static final long serialVersionUID = 2;

        /**
         * 1 to 19 for E1 to E19. 101: no signed data. 102: no such signer. 103: no content. 105: not a TSTInfo in DER.
         * 106: digest not given. 107: needs the content. {@code checkStreams} does not give the last two: it digests all that a
         * message asks for, and takes the content itself if that is needed.
         */
        public final int reason;

        /** The name of the reason, as {@code Overrun} or {@code no such signer}. */
        public final String name;

        /** How many octets of the message were read when it was refused by one of E1 to E19; else 0. */
        public final long at;

        /** Which message {@code same} refuses, 1 or 2, so that the text begins with {@code first:} or {@code second:}; else 0. */
        public final int message;

        Refused(String which, int reason, String name, long at, int message) {
            super(reason < NO_SIGNED_DATA ? which + "refused E" + reason + " " + name + " at " + at : "refused: " + name);
            this.reason = reason;
            this.name = name;
            this.at = at;
            this.message = message;
        }

        static Refused tooLarge(long limit) {
            return new Refused("", TOO_LARGE, "TooLarge", limit + 1, 0);
        }

        static Refused noContent() {
            return new Refused("", NO_CONTENT, "no content", 0, 0);
        }
    }

    /** What became of messages one after another. */
    public static final class Many {
        /** The DER of each message that is accepted, one after another. */
        public final byte[] der;

        /** How many messages these are, and so also the number of the one that is refused, from 0. */
        public final long messages;

        /** How many octets they have in what was passed, and so also where the one that is refused begins. */
        public final long read;

        /**
         * Why the next message is refused, with a text as {@code message 1: refused E1 Truncated at 1}; null if there is no octet
         * more.
         */
        @Nullable
        public final Refused refused;

        Many(byte[] der, long messages, long read, Refused refused) {
            this.der = der;
            this.messages = messages;
            this.read = read;
            this.refused = refused;
        }
    }

    /** A rule of the standards that a message breaks. */
    public static final class Finding {
        /** 1 to 19 for F1 to F19. */
        public final int code;

        /** The number of the signer that breaks it, in the order read, from 0; empty for a rule for the message. */
        public final OptionalLong signer;

        Finding(int code, OptionalLong signer) {
            this.code = code;
            this.signer = signer;
        }

        /** Returns the line of the command, as {@code F7 signer 0 message digest differs}. */
        @Override
        public String toString() {
            String text = code >= 1 && code <= Texts.FINDINGS.length ? " " + Texts.FINDINGS[code - 1] : ""; // no rule of this version has another code
            return "F" + code + (signer.isPresent() ? " signer " + signer.getAsLong() : "") + text;
        }

        @Override
        public boolean equals(Object other) {
            return other instanceof Finding && code == ((Finding) other).code && signer.equals(((Finding) other).signer);
        }

        @Override
        public int hashCode() {
            return Objects.hash(code, signer);
        }
    }

    /** What a verifier says of a signature. */
    public enum Verdict {
        /** It is right. */
        GOOD,
        /** It is wrong. */
        BAD,
        /** The verifier cannot tell, for example because it has no key or does not know an algorithm. */
        UNKNOWN
    }

    /** Says whether signatures are right. */
    @FunctionalInterface
    public interface Verifier {
        /**
         * {@return whether the signature of the job is right for the octets that it covers} {@code null} counts as {@link
         * Verdict#UNKNOWN}: only {@link Verdict#GOOD} drops F18. What it throws passes through {@code check}.
         *
         * @param job the signature, and what it covers
         */
        @Nullable
        Verdict verify(Job job);
    }

    /**
     * What a verifier is asked: whether a signature is right for the octets that it covers (RFC 5652, section 5.6).
     *
     * <p>What the message says is there as it was received. All jobs of a check come from one reading of the message.
     */
    public static final class Job {
        /** The number of the signer in the order read, from 0. */
        public final long signer;

        private final SignerInfo info;
        private final byte[] content;
        private final List<byte[]> certificates;

        Job(long signer, SignerInfo info, byte[] content, List<byte[]> certificates) {
            this.signer = signer;
            this.info = info;
            this.content = content;
            this.certificates = certificates;
        }

        /**
         * {@return the octets that the signature covers} If the signer has signed attributes, they are these and not the content.
         */
        public byte[] covered() {
            try {
                return info.covered(content);
            } catch (Refused refusal) {
                throw new AssertionError("the signature covers something", refusal);
            }
        }

        /** {@return the octets of the signature} */
        public byte[] signature() {
            return info.signature().toArray();
        }

        /** {@return signatureAlgorithm} */
        public AlgorithmIdentifier signatureAlgorithm() {
            return info.signatureAlgorithm();
        }

        /** {@return digestAlgorithm: the algorithm that the content and the signed attributes are digested with} */
        public AlgorithmIdentifier digestAlgorithm() {
            return info.digestAlgorithm();
        }

        /**
         * {@return the name of the issuer of the signer's certificate, one element; null if the signer is named by a key
         * identifier}
         */
        @Nullable
        public byte[] issuer() {
            return orNull(info.issuer());
        }

        /** {@return the serial number of the signer's certificate; null if the signer is named by a key identifier} */
        @Nullable
        public BigInteger serialNumber() {
            return info.serialNumber();
        }

        /** {@return the key identifier of the signer's certificate; null if the signer is named by issuer and serial number} */
        @Nullable
        public byte[] subjectKeyIdentifier() {
            return orNull(info.subjectKeyIdentifier());
        }

        /**
         * {@return the certificates of the message in the order read, each one element: a Certificate (RFC 5280) if it begins
         * with 30} All jobs of a check return the same list, which cannot be changed; it makes a new array each time that it
         * is asked for a certificate.
         */
        public List<byte[]> certificates() {
            return certificates;
        }
    }

    /**
     * {@return the DER of the one message in {@code data}} Neither may have more than {@link #LIMIT} octets.
     *
     * @param data the octets of the message
     * @throws Refused if it is no such message
     */
    public static byte[] convert(byte[] data) throws Refused {
        return convert(data, LIMIT);
    }

    /**
     * {@return the DER of the one message that a stream gives} It is read to its end, or to the octet after {@link #LIMIT}, and not closed.
     *
     * @param data gives the octets of the message
     * @throws IOException if it throws that
     * @throws Refused if it is no such message
     */
    public static byte[] convert(InputStream data) throws IOException, Refused {
        return convert(octetsOf(data));
    }

    /**
     * {@return the DER of the one message in a file}
     *
     * @param file the file with the message
     * @throws IOException if it cannot be read
     * @throws Refused if it is no such message
     */
    public static byte[] convert(Path file) throws IOException, Refused {
        try (InputStream data = Files.newInputStream(file)) {
            return convert(data);
        }
    }

    /**
     * {@return the DER of the one message in {@code data}} Neither may have more than {@code limit} octets.
     *
     * @param data the octets of the message
     * @param limit how many octets the message and its DER may have
     * @throws Refused if it is no such message
     */
    public static byte[] convert(byte[] data, long limit) throws Refused {
        checkLimit(limit);
        return Library.octets(Math.min(data.length + 64L, limit), (output, outcome) ->
                Library.cms_canon_convert(data, data.length, limit, output, output.length, outcome));
    }

    /**
     * {@return the DER of the messages in {@code data}}
     *
     * @param data the octets of the messages
     * @see #convertMany(byte[], long)
     */
    public static Many convertMany(byte[] data) {
        return convertMany(data, LIMIT);
    }

    /**
     * {@return the DER of the messages in {@code data}, which come one right after the other} There may be none. If one of them
     * is refused, the result has the DER of those before it, and says why.
     *
     * <p>If it is refused by E1, {@code data} ends inside it: a caller that then gets more octets calls again with those from
     * {@code read} on, and the new ones.
     *
     * @param data the octets of the messages
     * @param limit how many octets each message and its DER may have
     */
    public static Many convertMany(byte[] data, long limit) {
        checkLimit(limit);
        Outcome many = new Outcome();
        byte[] output = new byte[Library.firstRoom(data.length + 64L)];
        Library.cms_canon_convert_many(data, data.length, limit, output, output.length, many.words);
        if (many.isRoomTooSmall()) {
            output = new byte[Library.lengthOfArray(many.octets())];
            Library.cms_canon_convert_many(data, data.length, limit, output, output.length, many.words);
        }
        Refused refused = many.isDone() ? null : many.refusal("message " + many.messages() + ": ", 0);
        return new Many(Arrays.copyOf(output, (int) many.octets()), many.messages(), many.read(), refused);
    }

    /**
     * {@return the listing of the one message in {@code data}, as the command {@code show} writes it}
     *
     * @param data the octets of the message
     * @throws Refused if it is no such message
     */
    public static String show(byte[] data) throws Refused {
        return show(data, LIMIT);
    }

    /**
     * {@return the listing of the one message that a stream gives} It is read to its end, or to the octet after {@link #LIMIT}, and not closed.
     *
     * @param data gives the octets of the message
     * @throws IOException if it throws that
     * @throws Refused if it is no such message
     */
    public static String show(InputStream data) throws IOException, Refused {
        return show(octetsOf(data));
    }

    /**
     * {@return the listing of the one message in a file}
     *
     * @param file the file with the message
     * @throws IOException if it cannot be read
     * @throws Refused if it is no such message
     */
    public static String show(Path file) throws IOException, Refused {
        try (InputStream data = Files.newInputStream(file)) {
            return show(data);
        }
    }

    /**
     * {@return the listing of the one message in {@code data}, as the command {@code show} writes it: a line for each of its
     * parts}
     *
     * @param data the octets of the message
     * @param limit how many octets the message and its DER may have
     * @throws Refused if it is no such message
     */
    public static String show(byte[] data, long limit) throws Refused {
        checkLimit(limit);
        byte[] text = Library.octets(LISTING, (output, outcome) ->
                Library.cms_canon_show(data, data.length, limit, output, output.length, outcome));
        return new String(text, StandardCharsets.UTF_8);
    }

    /**
     * {@return what {@code convert} changes in a message, in its order; empty if it is its own DER}
     *
     * @param data the octets of the message
     * @throws Refused if it is no such message
     */
    public static List<Change> changes(byte[] data) throws Refused {
        return changes(data, LIMIT);
    }

    /**
     * {@return what {@code convert} changes in the one message in {@code data}, in its order; empty if it is its own DER}
     *
     * @param data the octets of the message
     * @param limit how many octets the message and its DER may have
     * @throws Refused if it is no such message
     */
    public static List<Change> changes(byte[] data, long limit) throws Refused {
        checkLimit(limit);
        byte[] own = data.clone();
        long[] words = Library.records(Change.WORDS, firstRecords(own), (changes, room, outcome) ->
                Library.cms_canon_changes(own, own.length, limit, changes, room, outcome));
        String[] lines = words.length == 0 ? new String[0] : listChanges(own, false, limit).split("\n");
        return IntStream.range(0, words.length / Change.WORDS).mapToObj(it -> Change.in(words, it * Change.WORDS, lines[it])).toList();
    }

    /**
     * {@return what {@code convert} changes in the one message in {@code data}, as the command {@code changes} writes it: a line for each
     * change, and one that counts them and the octets; or one object of JSON}
     *
     * @param data the octets of the message
     * @param json whether it is JSON
     * @param limit how many octets the message and its DER may have
     * @throws Refused if it is no such message
     */
    public static String listChanges(byte[] data, boolean json, long limit) throws Refused {
        checkLimit(limit);
        byte[] text = Library.octets(LISTING, (output, outcome) ->
                Library.cms_canon_list_changes(data, data.length, (byte) (json ? 1 : 0), limit, output, output.length, outcome));
        return new String(text, StandardCharsets.UTF_8);
    }

    /**
     * {@return whether two messages are the same: whether they have the same DER}
     *
     * @param first the octets of a message
     * @param second the octets of another one
     * @throws Refused if one of the two is no such message; it says which
     */
    public static boolean same(byte[] first, byte[] second) throws Refused {
        return same(first, second, LIMIT);
    }

    /**
     * {@return whether the message in {@code first} and the one in {@code second} are the same: whether they have the same DER}
     *
     * @param first the octets of a message
     * @param second the octets of another one
     * @param limit how many octets each message and its DER may have
     * @throws Refused if one of the two is no such message; it says which
     */
    public static boolean same(byte[] first, byte[] second, long limit) throws Refused {
        checkLimit(limit);
        Outcome outcome = new Outcome();
        Library.cms_canon_same(first, first.length, second, second.length, limit, outcome.words);
        if (outcome.isDone() || outcome.isDifferent()) {
            return outcome.isDone();
        }
        throw outcome.refusal(outcome.octets() == 1 ? "first: " : "second: ", (int) outcome.octets());
    }

    /**
     * {@return the rules of the standards that a message breaks, without content or a verifier}
     *
     * @param data the octets of the message
     * @throws Refused if it is no such message
     * @see #check(byte[], byte[], byte[], Verifier, long)
     */
    public static List<Finding> check(byte[] data) throws Refused {
        return check(data, null, null, null, LIMIT);
    }

    /**
     * {@return the rules that the one message that a stream gives breaks, without content or a verifier} It is read to its end, or to the octet after {@link #LIMIT}, and not closed.
     *
     * @param data gives the octets of the message
     * @throws IOException if it throws that
     * @throws Refused if it is no such message
     */
    public static List<Finding> check(InputStream data) throws IOException, Refused {
        return check(octetsOf(data));
    }

    /**
     * {@return the rules that the one message in a file breaks, without content or a verifier}
     *
     * @param file the file with the message
     * @throws IOException if it cannot be read
     * @throws Refused if it is no such message
     */
    public static List<Finding> check(Path file) throws IOException, Refused {
        try (InputStream data = Files.newInputStream(file)) {
            return check(data);
        }
    }

    /**
     * {@return the rules of the standards that the one message in {@code data} breaks, as the command {@code check} lists them}
     * Those for the message come first, and then those for each signer in the order read; both are ordered by their codes.
     *
     * @param data the octets of the message
     * @param content the content of a detached signature, or null; not used if the message has content of its own
     * @param stamped the data that were time-stamped, or null; if they are given, the message has to be a time-stamp token for
     *     them, a response with such a token, or a request for one
     * @param verifier asked once for each signer whose signature covers anything, in the order read: if it says good there is no
     *     finding for the signature, if bad F17, and if unknown or {@code null} F18. If the verifier itself is null there is F18
     *     for each
     * @param limit how many octets the message and its DER may have; {@code content} and {@code stamped} are not limited
     * @throws Refused if it is no such message
     * @see #checkStreams(byte[], InputStream, InputStream, Verifier, long)
     */
    public static List<Finding> check(
            byte[] data, @Nullable byte[] content, @Nullable byte[] stamped, @Nullable Verifier verifier, long limit) throws Refused {
        checkLimit(limit);
        if (verifier == null) {
            return findings(data, content, stamped, limit);
        }
        byte[] own = data.clone();
        List<Finding> findings = findings(own, content, stamped, limit);
        return judged(findings, readUnchanged(own, limit), content, verifier);
    }

    /**
     * {@return the rules of the standards that the one message in {@code data} breaks, as {@link #check(byte[], byte[], byte[],
     * Verifier, long)} does, of content and data that need not fit into memory}
     *
     * <p>A stream is read to its end once, in pieces of at most 64 KiB, which are digested by {@link java.security.MessageDigest}.
     * It is not closed. A stream of which no digest is needed is not read at all: for example {@code content}, if the message has
     * content of its own. A caller whose other end waits until all is read has to read such a stream itself.
     *
     * <p>Streams are read into memory in two cases, and may then have at most {@code limit} octets each. If the message is a
     * time-stamp token, or a response with one, and its content is detached, then both streams are, since the content is the
     * TSTInfo. If there is a verifier, and the content is detached and a signer has no signed attributes, then {@code content} is,
     * since the signature covers it.
     *
     * @param data the octets of the message
     * @param content the content of a detached signature, or null; not read if the message has content of its own
     * @param stamped the data that were time-stamped, or null; if they are given, the message has to be a time-stamp token for
     *     them, a response with such a token, or a request for one
     * @param verifier as for {@code check} with arrays, or null
     * @param limit how many octets the message and its DER may have, and a stream that is read into memory
     * @throws Refused if it is no such message; then no stream is read. By E2 also if a stream that is read into memory has more
     *     than {@code limit} octets
     * @throws IOException if a stream throws it
     * @throws UnsupportedOperationException if no security provider has a digest algorithm that the message asks for; the stream
     *     is then not read, and {@code check} with arrays is the way
     * @throws IllegalArgumentException if both streams are the same one
     */
    public static List<Finding> checkStreams(
            byte[] data, @Nullable InputStream content, @Nullable InputStream stamped, @Nullable Verifier verifier, long limit)
            throws Refused, IOException {
        checkLimit(limit);
        if (content != null && content == stamped) {
            throw new IllegalArgumentException("one stream is not both the content and the data that were time-stamped");
        }
        byte[] own = data.clone();
        DigestsAsked asked = DigestsAsked.by(own, limit);
        if (content != null && asked.needsContent()) {
            return check(own, inMemory(content, limit), inMemory(stamped, limit), verifier, limit);
        }
        Message message = verifier == null ? null : readUnchanged(own, limit);
        byte[] covered = message != null && coversDetached(message) ? inMemory(content, limit) : null;
        InputStream digested = covered == null ? content : new ByteArrayInputStream(covered);
        List<Finding> findings = findingsByDigests(own, asked.ofContent(digested), asked.ofData(stamped), limit);
        return message == null ? findings : judged(findings, message, covered, verifier);
    }

    /** The octets of a stream, of which there may be so many; null of null. */
    private static byte[] inMemory(InputStream stream, long limit) throws Refused, IOException {
        if (stream == null) {
            return null;
        }
        ByteArrayOutputStream octets = new ByteArrayOutputStream();
        byte[] piece = new byte[8192];
        for (int read = stream.read(piece); read != -1; read = stream.read(piece)) { // write refuses a number that cannot be
            octets.write(piece, 0, read);
            if (octets.size() > limit) {
                throw Refused.tooLarge(limit);
            }
        }
        return octets.toByteArray();
    }

    /** Whether a signature covers detached content itself, and not only signed attributes. */
    private static boolean coversDetached(Message message) {
        return message.content() == null && message.signers().stream().anyMatch(it -> it.signedAttributesElement() == null);
    }

    /** The findings with the verdicts of a verifier in place of those that stand for one. */
    private static List<Finding> judged(List<Finding> findings, Message message, byte[] content, Verifier verifier) {
        List<byte[]> certificates = arrays(message.certificates() == null ? List.of() : message.certificates());
        List<Finding> found = new ArrayList<>();
        for (Finding finding : findings) {
            Verdict verdict = Verdict.UNKNOWN;
            if (finding.code == UNKNOWN) {
                long signer = finding.signer.getAsLong();
                SignerInfo info = message.signers().get(Math.toIntExact(signer));
                verdict = verifier.verify(new Job(signer, info, content, certificates));
            }
            if (verdict != Verdict.GOOD) {
                found.add(verdict == Verdict.BAD ? new Finding(BAD, finding.signer) : finding);
            }
        }
        return found;
    }

    /** The rules that a message breaks, as the library gives them: no signature is verified. */
    private static List<Finding> findings(byte[] data, byte[] content, byte[] stamped, long limit) throws Refused {
        byte[] given = orEmpty(content);
        byte[] stamps = orEmpty(stamped);
        return findings(Library.records(WORDS, firstRecords(data), (findings, room, outcome) ->
                Library.cms_canon_check(data, data.length, given, given.length, isGiven(content), stamps, stamps.length,
                        isGiven(stamped), limit, findings, room, outcome)));
    }

    /** The same by digests, as {@link DigestsAsked} has them, of the content and of the data that were time-stamped. */
    static List<Finding> findingsByDigests(byte[] data, int[] content, int[] stamped, long limit) throws Refused {
        int[] given = content == null ? new int[0] : content;
        int[] stamps = stamped == null ? new int[0] : stamped;
        return findings(Library.records(WORDS, firstRecords(data), (findings, room, outcome) ->
                Library.cms_canon_check_digests(data, data.length, given, DigestsAsked.count(given), isGiven(content), stamps,
                        DigestsAsked.count(stamps), isGiven(stamped), limit, findings, room, outcome)));
    }

    /** The findings of records. */
    private static List<Finding> findings(long[] words) {
        List<Finding> found = new ArrayList<>();
        for (int i = 0; i < words.length; i += WORDS) {
            boolean hasSigner = words[i + 1] >>> 32 != 0; // the processor puts the lower half first
            found.add(new Finding((int) words[i + 1], hasSigner ? OptionalLong.of(words[i]) : OptionalLong.empty()));
        }
        return found;
    }

    /**
     * {@return all fields of the one message in {@code data}} Neither it nor its DER may have more than {@link #LIMIT} octets.
     *
     * @param data the octets of the message
     * @throws Refused if it is no such message
     */
    public static Message read(byte[] data) throws Refused {
        return read(data, LIMIT);
    }

    /**
     * {@return all fields of the one message that a stream gives} It is read to its end, or to the octet after {@link #LIMIT}, and not closed.
     *
     * @param data gives the octets of the message
     * @throws IOException if it throws that
     * @throws Refused if it is no such message
     */
    public static Message read(InputStream data) throws IOException, Refused {
        return read(octetsOf(data));
    }

    /**
     * {@return all fields of the one message in a file}
     *
     * @param file the file with the message
     * @throws IOException if it cannot be read
     * @throws Refused if it is no such message
     */
    public static Message read(Path file) throws IOException, Refused {
        try (InputStream data = Files.newInputStream(file)) {
            return read(data);
        }
    }

    /**
     * {@return all fields of the one message in {@code data}} The library is called once, or twice if there are more than 65,536
     * fields.
     *
     * @param data the octets of the message
     * @param limit how many octets the message and its DER may have
     * @throws Refused if it is no such message
     */
    public static Message read(byte[] data, long limit) throws Refused {
        checkLimit(limit);
        return readUnchanged(data.clone(), limit);
    }

    /** Reads a message from an array that is not changed afterwards. */
    private static Message readUnchanged(byte[] data, long limit) throws Refused {
        long[] words = Library.records(Rows.WORDS, firstRecords(data), (fields, room, outcome) ->
                Library.cms_canon_fields(data, data.length, limit, fields, room, outcome));
        return MessageReader.message(new Rows(data, words));
    }

    /**
     * {@return what a time-stamp token says, which is its content (RFC 3161, section 2.4.2): for a token whose content is
     * detached}
     *
     * @param content the content of a token. It is not limited
     * @throws Refused with the reason 105, if it is no TSTInfo in DER
     * @see Message#tstInfo()
     */
    public static TstInfo tstInfo(byte[] content) throws Refused {
        byte[] own = content.clone();
        long[] words = Library.records(Rows.WORDS, firstRecords(own), (fields, room, outcome) ->
                Library.cms_canon_tst_info_fields(own, own.length, fields, room, outcome));
        return MessageReader.tstInfo(new Rows(own, words));
    }

    /** The room for findings or rows of a first call. A long message that is mostly content or certificates has few of them. */
    private static int firstRecords(byte[] data) {
        return Math.min(data.length / 2 + 1, RECORDS);
    }

    /**
     * {@return what the signature of a signer covers, if it has signed attributes or the message has its content itself}
     *
     * @param data the octets of the message
     * @param signer the number of the signer in the order read, from 0
     * @throws Refused if it is no such message, or if the signature covers nothing in it
     * @see #cover(byte[], long, byte[], long)
     */
    public static byte[] cover(byte[] data, long signer) throws Refused {
        return cover(data, signer, null, LIMIT);
    }

    /**
     * {@return what the signature of a signer covers, with the content of a detached signature}
     *
     * @param data the octets of the message
     * @param signer the number of the signer in the order read, from 0
     * @param content the content of a detached signature, or null
     * @throws Refused if it is no such message, or if the signature covers nothing in it
     * @see #cover(byte[], long, byte[], long)
     */
    public static byte[] cover(byte[] data, long signer, @Nullable byte[] content) throws Refused {
        return cover(data, signer, content, LIMIT);
    }

    /**
     * {@return the octets that a signature covers in the one message in {@code data} (RFC 5652, section 5.4)}
     *
     * <p>If the signer has signed attributes, the signature covers these and not the content. A verifier must also compare the
     * digest of the content with the attribute message-digest; {@code cover} does not do it, and {@code check} does.
     *
     * @param data the octets of the message
     * @param signer the number of the signer in the order read, from 0; of a response of time-stamping, in its token
     * @param content the content of a detached signature, or null; not used if the signer has signed attributes, or if the
     *     message has content of its own
     * @param limit how many octets the message and its DER may have; the content is not limited
     * @throws Refused if it is no such message, or if the signature covers nothing in it
     * @throws IllegalArgumentException if the number is negative
     */
    public static byte[] cover(byte[] data, long signer, @Nullable byte[] content, long limit) throws Refused {
        return cover(data, new long[] {signer}, content, limit);
    }

    /**
     * {@return the octets that the signature of a signer or of a countersignature covers in the one message in {@code data} (RFC
     * 5652, sections 5.4 and 11.4)} A countersignature without signed attributes covers the value octets of the signature
     * that it signs.
     *
     * @param data the octets of the message
     * @param path the number of the signer, and after it that of a countersignature of the one before, and so on, each from 0 in
     *     the order read, through all countersignature attributes of the one before: {@code {0, 1}} is the second
     *     countersignature of the first signer. An empty path is refused as one that leads to no signer
     * @param content the content of a detached signature, or null; not used if the signer has signed attributes, or if the
     *     message has content of its own
     * @param limit how many octets the message and its DER may have; the content is not limited
     * @throws Refused if it is no such message, or if the signature covers nothing in it
     * @throws IllegalArgumentException if a number is negative
     */
    public static byte[] cover(byte[] data, long[] path, @Nullable byte[] content, long limit) throws Refused {
        checkLimit(limit);
        checkPath(path);
        long[] numbers = Arrays.copyOf(path, path.length + 1); // JNA might pass an array without members as NULL
        byte[] given = orEmpty(content);
        return Library.octets(Math.max(data.length, given.length), (output, outcome) ->
                Library.cms_canon_cover(data, data.length, numbers, path.length, given, given.length, isGiven(content), limit,
                        output, output.length, outcome));
    }

    private static byte[] orEmpty(byte[] octets) {
        return octets == null ? new byte[0] : octets;
    }

    /** The octets that a stream gives, or one more than the limit, by which they are refused. */
    private static byte[] octetsOf(InputStream data) throws IOException {
        return data.readNBytes((int) LIMIT + 1);
    }

    private static byte[] orNull(Octets octets) {
        return octets == null ? null : octets.toArray();
    }

    /** Whether octets are given, as the library takes it: JNA would pass a boolean as -1. */
    private static byte isGiven(Object octets) {
        return (byte) (octets == null ? 0 : 1);
    }

    private static void checkLimit(long limit) {
        if (limit < 0 || limit > 1L << 40) {
            throw new IllegalArgumentException("a limit is from 0 to 2^40");
        }
    }

    private static void checkPath(long[] path) {
        if (Arrays.stream(path).anyMatch(number -> number < 0)) {
            throw new IllegalArgumentException("a signer or a countersignature has a number from 0");
        }
    }

    /** A list of the octets that makes a new array each time that it is asked for one. */
    private static List<byte[]> arrays(List<Octets> octets) {
        return new AbstractList<>() {
            @Override
            public byte[] get(int index) {
                return octets.get(index).toArray();
            }

            @Override
            public int size() {
                return octets.size();
            }
        };
    }
}
