package cmscanon;

import static cmscanon.Samples.DATA;
import static cmscanon.Samples.element;
import static cmscanon.Samples.message;
import static cmscanon.Samples.signer;
import static org.junit.jupiter.api.Assertions.assertEquals;

import com.sun.jna.NativeLibrary;
import java.io.ByteArrayInputStream;
import java.io.IOException;
import java.util.stream.Collectors;
import java.util.stream.IntStream;
import org.junit.jupiter.api.Test;

/** A verifier is handed all signers by one reading, with bindings/java/test/counting.c in front of the library. */
final class CallCountsTest {
    private static long counted(String calls) {
        return (Long) NativeLibrary.getInstance("cms_canon").getFunction("counted_" + calls).invoke(Long.class, new Object[0]);
    }

    /** How many calls of check, fields and cover were made so far. */
    private static String counts() {
        return counted("checks") + " " + counted("fields") + " " + counted("covers");
    }

    private static void askForAll(int signers) throws CmsCanon.Refused {
        String members = IntStream.range(0, signers).mapToObj(it -> signer(it, "0401aa")).collect(Collectors.joining());
        byte[] data = message(DATA, element("a0", "3000"), element("31", members));
        int[] asked = new int[1];
        CmsCanon.check(data, new byte[1], null, job -> {
            asked[0] += job.covered().length + job.signature().length + job.certificates().size();
            Object[] parts = {job.signatureAlgorithm(), job.digestAlgorithm(), job.issuer(), job.serialNumber(),
                job.subjectKeyIdentifier()};
            return parts[0] == null ? CmsCanon.Verdict.BAD : CmsCanon.Verdict.GOOD;
        }, CmsCanon.LIMIT);
        assertEquals(3 * signers, asked[0], "what " + signers + " signers have");
    }

    @Test
    void countsOfCalls() throws CmsCanon.Refused, IOException {
        assertEquals("0 0 0", counts(), "no calls");
        askForAll(1);
        assertEquals("1 1 0", counts(), "one signer");
        askForAll(4000);
        assertEquals("2 2 0", counts(), "many signers");
        CmsCanon.check(message(DATA, "3100"));
        assertEquals("3 2 0", counts(), "no verifier");
        CmsCanon.cover(message(DATA, element("31", signer(1, "0401aa"))), 0, new byte[1]);
        assertEquals("3 2 1", counts(), "a cover");
        byte[] detached = message(DATA, element("31", signer(1, "0401aa")));
        CmsCanon.checkStreams(detached, new ByteArrayInputStream(new byte[1]), null, null, CmsCanon.LIMIT);
        assertEquals("3 2 1", counts(), "streams");
        CmsCanon.checkStreams(detached, new ByteArrayInputStream(new byte[1]), null, job -> CmsCanon.Verdict.GOOD, CmsCanon.LIMIT);
        assertEquals("3 3 1", counts(), "streams and a verifier");
    }
}
