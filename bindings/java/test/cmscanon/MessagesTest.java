package cmscanon;

import static cmscanon.Samples.DATA;
import static cmscanon.Samples.cameOf;
import static cmscanon.Samples.element;
import static cmscanon.Samples.message;
import static cmscanon.Samples.octets;
import static cmscanon.Samples.signer;
import static cmscanon.Samples.unsigned;
import static org.junit.jupiter.api.Assertions.assertEquals;
import static org.junit.jupiter.api.Assertions.assertFalse;
import static org.junit.jupiter.api.Assertions.assertThrows;
import static org.junit.jupiter.api.Assertions.assertTrue;

import java.math.BigInteger;
import java.nio.ByteBuffer;
import java.nio.ReadOnlyBufferException;
import java.util.ArrayList;
import java.util.Arrays;
import java.util.Collections;
import java.util.HexFormat;
import java.util.List;
import org.junit.jupiter.api.Test;

/** What {@link Message} and what is in it do that the vectors do not try. */
final class MessagesTest {
    private static final String COUNTERSIGNATURE = "06092a864886f70d010906";
    private static final String REQUEST = "3013020101300b300506032a03040402aabb0101ff";
    private static final String TOKEN_TYPE = "060b2a864886f70d0109100104";
    private static final String TST_INFO = "304f02010106032a03043031300d060960864801650304020105000420ba7816bf8f01cfea414140de5dae2223b003"
            + "61a396177a9cb410ff61f20015ad020105180f32303234303232393132303030305a";

    /** A message in segments whose signer has a signature in segments, which two countersignatures sign; one signs the second. */
    private static byte[] countersigned() {
        String third = signer(4, "0401dd");
        String first = signer(2, "0401bb");
        String second = signer(3, "0401cc", unsigned(COUNTERSIGNATURE, third));
        String signed = signer(1, "24060401a10401a2", unsigned(COUNTERSIGNATURE, first, second));
        return message(DATA + "a00a24080402010204020304", element("31", signed));
    }

    /** A signed message with two certificates, a signed attribute, and content that is attached. */
    private static byte[] attached() {
        String attributes = "a009" + "3007" + "06032a0305" + "3100";
        String signer = element("30", "020103", "800111", "300506032a0304", attributes, "300506032a0304", "0401aa");
        return message(DATA + "a0050403616263", element("a0", "3000", "3002" + "0500"), element("31", signer));
    }

    @Test
    void changes() throws CmsCanon.Refused {
        byte[] data = countersigned();
        byte[] der = CmsCanon.convert(data);
        List<Change> changes = CmsCanon.changes(data);
        String text = CmsCanon.listChanges(data, false, CmsCanon.LIMIT);
        assertEquals(Arrays.asList(text.split("\n")).subList(0, changes.size()), changes.stream().map(Change::toString).toList());
        assertTrue(text.endsWith(", " + changes.size() + " changes\n"), text);
        assertTrue(changes.stream().anyMatch(it -> it.kind().equals("segments joined") && it.set() == null));
        for (Change it : changes) {
            assertTrue(it.place() + it.length() <= data.length && it.derPlace() + it.derLength() <= der.length, it.text());
        }
        assertTrue(CmsCanon.listChanges(data, true, CmsCanon.LIMIT).startsWith("{\"changes\": [{\"change\": \""));
        assertEquals(List.of(), CmsCanon.changes(der));
        assertEquals("no change\n", CmsCanon.listChanges(der, false, CmsCanon.LIMIT));
        byte[] unsorted = message(DATA, element("31"));
        assertThrows(CmsCanon.Refused.class, () -> CmsCanon.changes(Arrays.copyOf(unsorted, unsorted.length - 1)));
    }

    @Test
    void covers() throws CmsCanon.Refused {
        byte[] data = countersigned();
        SignerInfo signer = CmsCanon.read(data).signers().get(0);
        List<SignerInfo> below = signer.countersignatures();
        SignerInfo lowest = below.get(1).countersignatures().get(0);
        checkCover("01020304", signer, data, 0);
        checkCover("a1a2", below.get(0), data, 0, 0);
        checkCover("a1a2", below.get(1), data, 0, 1);
        checkCover("cc", lowest, data, 0, 1, 0);
        byte[] attached = attached();
        checkCover("310930070603" + "2a03053100", CmsCanon.read(attached).signers().get(0), attached, 0);
    }

    private static void checkCover(String wanted, SignerInfo signer, byte[] data, long... path) throws CmsCanon.Refused {
        byte[] other = {99};
        assertEquals(wanted, HexFormat.of().formatHex(signer.covered(other)), "covered " + Arrays.toString(path));
        assertEquals(wanted, HexFormat.of().formatHex(CmsCanon.cover(data, path, other, 1000)),
                "cover " + Arrays.toString(path));
    }

    @Test
    void detached() throws CmsCanon.Refused {
        SignerInfo signer = CmsCanon.read(message(DATA, element("31", signer(1, "0401aa")))).signers().get(0);
        byte[] content = {1, 2};
        byte[] covered = signer.covered(content);
        assertEquals("[1, 2]", Arrays.toString(covered), "detached content");
        assertFalse(covered == content, "detached content is copied");
        assertEquals("[]", Arrays.toString(signer.covered(new byte[0])), "empty content");
        assertEquals("103 0 refused: no content", cameOf(() -> signer.covered(null)), "no content");
    }

    @Test
    void refusals() {
        byte[] data = attached();
        for (int length = 0; length <= data.length; length++) {
            byte[] cut = Arrays.copyOf(data, length);
            String wanted = length < data.length ? "1 " + length + " refused E1 Truncated at " + length : "read";
            assertEquals(wanted, cameOf(() -> CmsCanon.read(cut) == null ? "null" : "read"), "cut to " + length);
            assertEquals(wanted, cameOf(() -> CmsCanon.convert(cut) == null ? "null" : "read"), "converted, cut to " + length);
        }
        byte[] longer = Arrays.copyOf(data, data.length + 1);
        assertEquals(cameOf(() -> CmsCanon.convert(longer)), cameOf(() -> CmsCanon.read(longer)), "an octet after it");
    }

    @Test
    void limits() throws CmsCanon.Refused {
        byte[] data = attached();
        assertEquals(CmsCanon.read(data), CmsCanon.read(data, data.length), "a limit that suffices");
        assertEquals(CmsCanon.read(data), CmsCanon.read(data, 1L << 40), "the largest limit");
        for (long limit : new long[] {0, 1, data.length - 1}) {
            String refused = cameOf(() -> CmsCanon.convert(data, limit));
            assertEquals("2", refused.split(" ")[0], "E2 by the limit " + limit);
            assertEquals(refused, cameOf(() -> CmsCanon.read(data, limit)), "the limit " + limit);
        }
        for (long limit : new long[] {-1, Long.MIN_VALUE, (1L << 40) + 1}) {
            assertThrows(IllegalArgumentException.class, () -> CmsCanon.read(data, limit), "the limit " + limit);
        }
    }

    @Test
    void nulls() throws CmsCanon.Refused {
        Message message = CmsCanon.read(attached());
        SignerInfo signer = message.signers().get(0);
        assertThrows(NullPointerException.class, () -> CmsCanon.read((byte[]) null), "no message");
        assertThrows(NullPointerException.class, () -> CmsCanon.tstInfo(null), "no content of a token");
        assertThrows(NullPointerException.class, () -> Octets.copyOf(null), "no octets");
        assertThrows(NullPointerException.class, () -> new Attribute(null, List.of(), List.of()), "no type");
        assertThrows(NullPointerException.class, () -> new Attribute("1.2", null, List.of()), "no values");
        assertThrows(NullPointerException.class, () -> new Attribute("1.2", Collections.singletonList(null), List.of()),
                "no value");
        assertThrows(NullPointerException.class,
                () -> new SignerInfo(signer.version(), null, null, null, signer.digestAlgorithm(), List.of(), null, signer.signatureAlgorithm(), null, List.of(), null),
                "no signature");
    }

    /** Nothing that is handed out changes the message, and neither does a change of the input. */
    @Test
    void frozen() throws CmsCanon.Refused {
        byte[] data = attached();
        Message message = CmsCanon.read(data);
        Arrays.fill(data, (byte) 0);
        Message same = CmsCanon.read(attached());
        assertEquals(same, message, "the input changed");
        SignerInfo signer = message.signers().get(0);
        Arrays.fill(message.content().toArray(), (byte) 0);
        Arrays.fill(signer.covered(null), (byte) 0);
        ByteBuffer buffer = message.content().asByteBuffer();
        assertThrows(ReadOnlyBufferException.class, () -> buffer.put((byte) 0), "a buffer written to");
        assertFalse(buffer.hasArray(), "a buffer with its array");
        buffer.position(2);
        for (List<?> list : List.of(message.signers(), message.certificates(), message.digestAlgorithms(),
                signer.signedAttributes(), signer.signedAttributes().get(0).values(), signer.countersignatures())) {
            assertThrows(UnsupportedOperationException.class, () -> list.add(null), "a list changed");
        }
        assertEquals(same, message, "what was handed out changed");
        List<Octets> values = new ArrayList<>(List.of(Octets.copyOf(new byte[1])));
        Attribute attribute = new Attribute("1.2", values, List.of());
        values.clear();
        assertEquals(1, attribute.values().size(), "a list changed that was handed in");
    }

    @Test
    void octetsAndTheirTexts() throws CmsCanon.Refused {
        Octets content = CmsCanon.read(attached()).content();
        assertEquals(Octets.copyOf(octets("616263")), content, "octets are equal");
        assertEquals(Octets.copyOf(octets("616263")).hashCode(), content.hashCode(), "their hashes are");
        assertFalse(content.equals(Octets.copyOf(octets("616264"))), "others are not equal");
        assertEquals(ByteBuffer.wrap(octets("616263")), content.asByteBuffer(), "a buffer");
        assertEquals((byte) 0x63, content.at(2), "the last octet");
        for (int index : new int[] {-1, 3, Integer.MAX_VALUE}) {
            assertThrows(IndexOutOfBoundsException.class, () -> content.at(index), "octet " + index);
        }
        assertEquals("616263", content.toString(), "a text");
        assertEquals("00".repeat(32) + "... (33 octets)", Octets.copyOf(new byte[33]).toString(), "a long text");
    }

    @Test
    void times() {
        GeneralizedTime fine = new GeneralizedTime("20240229235959.1234567891Z");
        assertEquals("1234567891", fine.fraction(), "a fine fraction");
        assertEquals("2024-02-29T23:59:59.123456789Z", fine.toInstant().toString(), "its nanosecond");
        assertFalse(fine.isWholeNanoseconds(), "it is not whole");
        GeneralizedTime first = new GeneralizedTime("00000101000000.000000001Z");
        assertEquals("0000-01-01T00:00:00.000000001Z", first.toInstant().toString(), "the first year");
        assertTrue(first.isWholeNanoseconds(), "it is whole");
        assertEquals(253402300799L, new GeneralizedTime("99991231235959Z").toInstant().getEpochSecond(), "the last second");
        assertEquals("", new GeneralizedTime("99991231235959Z").fraction(), "no fraction");
        for (String text : new String[] {"", "2024022923595Z", "20240229235959", "20240229235959.Z", "20240229235959.10Z"}) {
            assertThrows(IllegalArgumentException.class, () -> new GeneralizedTime(text), "the time " + text);
        }
    }

    @Test
    void namedBits() {
        NamedBits bits = new NamedBits(Octets.copyOf(octets("0600" + "00" + "ff"))); // two bits of the last octet are used
        assertEquals("[false, true, true, false, false]",
                Arrays.stream(new int[] {15, 16, 17, 18, 23}).mapToObj(bits::isSet).toList().toString(), "bits");
        assertEquals("[false, false, false]",
                Arrays.stream(new int[] {-1, 24, Integer.MAX_VALUE}).mapToObj(bits::isSet).toList().toString(),
                "bits out of range");
        assertFalse(new NamedBits(Octets.copyOf(octets("00"))).isSet(0), "no bits");
        for (String contents : new String[] {"", "08", "ff"}) {
            assertThrows(IllegalArgumentException.class, () -> new NamedBits(Octets.copyOf(octets(contents))),
                    "bits " + contents);
        }
    }

    @Test
    void tstInfos() throws CmsCanon.Refused {
        Message request = CmsCanon.read(octets(REQUEST));
        assertEquals("true [] [] null",
                request.request().certReq() + " " + request.signers() + " " + request.digestAlgorithms() + " " + request.signedData(),
                "a request");
        for (Object absent : Arrays.asList(request.version(), request.contentType(), request.content(), request.certificates(),
                request.crls(), request.tstInfo())) {
            assertEquals("null", String.valueOf(absent), "of a request");
        }
        assertEquals("null", String.valueOf(CmsCanon.read(message(TOKEN_TYPE, "3100")).tstInfo()), "of no content");
        String wanted = "105 0 refused: not a TSTInfo in DER";
        Message other = CmsCanon.read(message(TOKEN_TYPE + "a0050403616263", "3100"));
        assertEquals(wanted, cameOf(other::tstInfo), "of other content");
        assertEquals(wanted, cameOf(() -> CmsCanon.tstInfo(new byte[0])), "of no octets");
        checkTstInfo();
    }

    /** A TSTInfo is read if the content is called one, and not if it is called something else. */
    private static void checkTstInfo() throws CmsCanon.Refused {
        String content = element("a0", "0451" + TST_INFO);
        TstInfo info = CmsCanon.read(message(TOKEN_TYPE + content, "3100")).tstInfo();
        assertEquals("2024-02-29T12:00:00Z", info.genTime().toInstant().toString(), "its time");
        assertEquals(info, CmsCanon.tstInfo(octets(TST_INFO)), "the same of the octets alone");
        assertEquals("null", String.valueOf(CmsCanon.read(message(DATA + content, "3100")).tstInfo()), "of data");
    }

    @Test
    void manyRows() throws CmsCanon.Refused {
        String[] values = new String[40_000];
        Arrays.fill(values, "0500");
        String signed = signer(1, "0401aa", unsigned("06032a0305", values)) + signer(2, "0401aa", unsigned("06032a0305", values));
        Message message = CmsCanon.read(message(DATA, element("31", signed)));
        for (SignerInfo signer : message.signers()) {
            assertEquals(40_000, signer.unsignedAttributes().get(0).values().size(), "values");
        }
    }

    /** Rows as no library gives them: nothing is made of them. */
    @Test
    void wrongRows() {
        long head = Kind.SIGNED_DATA;
        long version = Kind.VERSION | 1L << 32;
        checkWrongRows("no rows", IllegalStateException.class);
        checkWrongRows("an unknown kind", IllegalStateException.class, 0, 0, 0x7f);
        checkWrongRows("a head alone", IllegalStateException.class, 0, 0, head);
        checkWrongRows("another level", IllegalStateException.class, 0, 0, head, 0, 1, Kind.VERSION | 2L << 32);
        checkWrongRows("past the end", IndexOutOfBoundsException.class, 0, 0, head, 3, 2, version);
        checkWrongRows("far past the end", ArithmeticException.class, 0, 0, head, 1L << 32, 2, version);
        Rows rows = new Rows(new byte[4], new long[] {0, 1, version, 0, 1, version});
        assertEquals(BigInteger.ZERO, rows.integer(Kind.VERSION, 1), "a number");
        assertThrows(IllegalStateException.class, rows::end, "rows left");
    }

    private static void checkWrongRows(String what, Class<? extends Throwable> wanted, long... words) {
        assertThrows(wanted, () -> MessageReader.message(new Rows(new byte[4], words)), what);
    }

    @Test
    void jobs() throws CmsCanon.Refused {
        byte[] data = message(DATA, element("a0", "3000", "30020500"), element("31", signer(1, "0401aa"), signer(2, "0401bb")));
        List<CmsCanon.Job> jobs = new ArrayList<>();
        CmsCanon.check(data, new byte[1], null, job -> {
            jobs.add(job);
            Arrays.fill(job.certificates().get(1), (byte) 0);
            return CmsCanon.Verdict.GOOD;
        }, CmsCanon.LIMIT);
        assertEquals(2, jobs.size(), "jobs");
        List<byte[]> certificates = jobs.get(0).certificates();
        assertTrue(certificates == jobs.get(1).certificates(), "one list");
        assertEquals(2, certificates.size(), "its size");
        assertEquals("30020500", HexFormat.of().formatHex(certificates.get(1)), "an array changed");
        assertThrows(UnsupportedOperationException.class, () -> certificates.remove(0), "the list changed");
        assertThrows(UnsupportedOperationException.class, () -> certificates.set(0, new byte[0]), "the list changed");
    }
}
