package cmscanon;

import static org.junit.jupiter.api.Assertions.assertArrayEquals;
import static org.junit.jupiter.api.Assertions.assertEquals;
import static org.junit.jupiter.api.Assertions.assertSame;
import static org.junit.jupiter.api.Assertions.assertThrows;

import java.io.ByteArrayInputStream;
import java.io.IOException;
import java.io.InputStream;
import java.io.SequenceInputStream;
import java.nio.file.Files;
import java.nio.file.NoSuchFileException;
import java.nio.file.Path;
import java.util.HexFormat;
import java.util.List;
import java.util.OptionalLong;
import java.util.stream.Collectors;
import org.junit.jupiter.api.Test;
import org.junit.jupiter.api.io.TempDir;
import org.junit.jupiter.params.ParameterizedTest;
import org.junit.jupiter.params.provider.CsvSource;
import org.junit.jupiter.params.provider.ValueSource;

/**
 * What {@link CmsCanon} does that the vectors do not try: verdicts, what a verifier throws, texts of findings, and lengths of
 * arrays.
 */
final class CallsTest {
    /** A message with two signers, whose content is detached and whose algorithms are not known. */
    private static final byte[] TWO_SIGNERS = HexFormat.of().parseHex(
            "306606092a864886f70d010702a05930570201033100300b06092a864886f70d01070131433028020103800111300506032a0304300506032a0304"
            + "0401aaa10f300d06032a030531060201070201083017020103800122300506032a0304300506032a03040401bb");

    /** The findings of a verifier's verdicts: F17 and F18 by the signer. */
    private static String verdicts(CmsCanon.Verifier verifier) throws CmsCanon.Refused {
        List<CmsCanon.Finding> found = CmsCanon.check(TWO_SIGNERS, new byte[0], null, verifier, CmsCanon.LIMIT);
        return found.stream().filter(it -> it.code == 17 || it.code == 18).map(it -> "F" + it.code + ":" + it.signer.getAsLong())
                .collect(Collectors.joining(" "));
    }

    @ParameterizedTest
    @CsvSource({
        "00, 0.0", "27, 0.39", "28, 1.0", "4f, 1.39", "50, 2.0", "2a0304, 1.2.3.4", "810081ff7f, 2.48.32767",
        "81ffffffffffffffff7f, 2.18446744073709551535", "82808080808080808000, hex:82808080808080808000",
        "2a82808080808080808000, hex:2a82808080808080808000", "2a81ffffffffffffffff7f, 1.2.18446744073709551615",
    })
    void textsOfObjectIdentifiers(String contents, String text) {
        assertEquals(text, ObjectIdentifiers.dotted(Samples.octets(contents)));
    }

    @Test
    void verdictsOfAVerifier() throws CmsCanon.Refused {
        assertEquals("F18:0 F18:1", verdicts(null), "no verifier");
        assertEquals("F18:0", verdicts(job -> job.signer == 1 ? CmsCanon.Verdict.GOOD : CmsCanon.Verdict.UNKNOWN), "good");
        assertEquals("F18:0 F17:1", verdicts(job -> job.signer == 1 ? CmsCanon.Verdict.BAD : CmsCanon.Verdict.UNKNOWN), "bad");
        assertEquals("F18:0 F18:1", verdicts(job -> null), "null");
    }

    @Test
    void streamsAndFiles(@TempDir Path folder) throws CmsCanon.Refused, IOException {
        Path file = Files.write(folder.resolve("message"), TWO_SIGNERS);
        assertArrayEquals(CmsCanon.convert(TWO_SIGNERS), CmsCanon.convert(file));
        assertArrayEquals(CmsCanon.convert(TWO_SIGNERS), CmsCanon.convert(new ByteArrayInputStream(TWO_SIGNERS)));
        assertEquals(CmsCanon.show(TWO_SIGNERS), CmsCanon.show(file));
        assertEquals(CmsCanon.show(TWO_SIGNERS), CmsCanon.show(new ByteArrayInputStream(TWO_SIGNERS)));
        assertEquals(CmsCanon.check(TWO_SIGNERS).toString(), CmsCanon.check(file).toString());
        assertEquals(CmsCanon.read(TWO_SIGNERS), CmsCanon.read(new ByteArrayInputStream(TWO_SIGNERS)));
        assertThrows(NoSuchFileException.class, () -> CmsCanon.convert(folder.resolve("none")));
        assertThrows(CmsCanon.Refused.class, () -> CmsCanon.read(new ByteArrayInputStream(new byte[] {0x30})));
        InputStream failing = new SequenceInputStream(new ByteArrayInputStream(TWO_SIGNERS), new InputStream() {
            @Override
            public int read() throws IOException {
                throw new IOException("of the stream");
            }
        });
        assertThrows(IOException.class, () -> CmsCanon.convert(failing));
    }

    @Test
    void whatAVerifierThrows() {
        RuntimeException exception = new ArithmeticException("of the verifier");
        Error error = new AssertionError("of the verifier");
        assertSame(exception, assertThrows(ArithmeticException.class, () -> verdicts(job -> {
            throw exception;
        })));
        assertSame(error, assertThrows(AssertionError.class, () -> verdicts(job -> {
            throw error;
        })));
    }

    @Test
    void textOfAFinding() {
        assertEquals("F19 token does not fit the status", new CmsCanon.Finding(19, OptionalLong.empty()).toString());
    }

    @ParameterizedTest
    @ValueSource(ints = {-1, 0, 20, Integer.MAX_VALUE})
    void textsOfUnknownCodes(int code) {
        assertEquals("F" + code, new CmsCanon.Finding(code, OptionalLong.empty()).toString());
        assertEquals("F" + code + " signer 3", new CmsCanon.Finding(code, OptionalLong.of(3)).toString());
    }

    private static String refusalOf(long length) {
        try {
            return "an array of " + Library.lengthOfArray(length);
        } catch (IllegalArgumentException refused) {
            return refused.getMessage();
        }
    }

    @Test
    void lengthsOfArrays() {
        int longest = Integer.MAX_VALUE - 8;
        assertEquals(1350, Library.firstRoom(1350), "the first room");
        assertEquals(1, Library.firstRoom(0), "no first room");
        for (long octets : new long[] {longest, longest + 1L, Integer.MAX_VALUE + 64L, 2L * Integer.MAX_VALUE}) {
            assertEquals(longest, Library.firstRoom(octets), "the first room for " + octets);
        }
        for (long length : new long[] {0, 1, longest}) {
            assertEquals("an array of " + length, refusalOf(length), "the room for " + length);
        }
        for (long length : new long[] {longest + 1L, Integer.MAX_VALUE + 1L, 1L << 32, 1L << 40}) {
            String refusal = "the result would be an array of " + length + ", and none has more than " + longest;
            assertEquals(refusal, refusalOf(length), "the room for " + length);
        }
    }
}
