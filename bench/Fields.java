import cmscanon.CmsCanon;
import java.nio.file.Files;
import java.nio.file.Path;

/**
 * Prints the least seconds of many calls with the message in a file: {@code convert FILE}, {@code read FILE}, or {@code verify
 * FILE}, where a verifier asks for all parts of each signer and for each certificate.
 */
public final class Fields {
    private static final double SECONDS = 3;

    private interface Call {
        void run() throws CmsCanon.Refused;
    }

    private static CmsCanon.Verdict verdict(CmsCanon.Job job) {
        Object[] parts = {job.covered(), job.signature(), job.signatureAlgorithm(), job.digestAlgorithm(), job.issuer(),
            job.serialNumber(), job.subjectKeyIdentifier()};
        if (job.signer == 0) {
            job.certificates().forEach(java.util.Objects::requireNonNull);
        }
        return parts[0] == null ? CmsCanon.Verdict.BAD : CmsCanon.Verdict.GOOD;
    }

    private static Call call(String name, byte[] message) {
        switch (name) {
            case "convert":
                return () -> CmsCanon.convert(message);
            case "read":
                return () -> CmsCanon.read(message);
            default:
                return () -> CmsCanon.check(message, new byte[0], null, Fields::verdict, CmsCanon.LIMIT);
        }
    }

    public static void main(String[] words) throws Exception {
        Call call = call(words[0], Files.readAllBytes(Path.of(words[1])));
        long least = Long.MAX_VALUE;
        long end = System.nanoTime() + (long) (SECONDS * 1e9);
        for (long began = System.nanoTime(); began < end; began = System.nanoTime()) {
            call.run();
            least = Math.min(least, System.nanoTime() - began);
        }
        System.out.println(least / 1e9);
    }
}
