import cmscanon.AlgorithmIdentifier;
import cmscanon.CmsCanon;
import cmscanon.Octets;
import java.io.BufferedReader;
import java.io.ByteArrayInputStream;
import java.io.IOException;
import java.io.InputStream;
import java.io.InputStreamReader;
import java.nio.charset.StandardCharsets;
import java.util.ArrayList;
import java.util.Arrays;
import java.util.HexFormat;
import java.util.List;
import java.util.stream.Collectors;
import java.util.stream.Stream;

/**
 * Answers requests by {@link CmsCanon}, as bindings/python/tests/answer.py does by the package: one request and one answer a line. Then four
 * threads make the same calls at once, and the last line says how many of their answers differ.
 */
public final class Answer {
    private static final HexFormat HEX = HexFormat.of();
    private static final int THREADS = 4;
    private static final int LONGEST = 10_000; // of the requests that the threads make

    private static byte[] octets(String word) {
        return word.equals("-") ? null : HEX.parseHex(word);
    }

    private static long[] path(String word) {
        return word.isEmpty() ? new long[0] : Arrays.stream(word.split(",")).mapToLong(Long::parseUnsignedLong).toArray();
    }

    private static String finding(CmsCanon.Finding finding) {
        return " F" + finding.code + (finding.signer.isPresent() ? ":" + finding.signer.getAsLong() : "");
    }

    private static String shown(Object part) {
        if (part instanceof Octets) {
            return ((Octets) part).toHex();
        }
        return part == null ? "-" : part instanceof byte[] ? HEX.formatHex((byte[]) part) : part.toString();
    }

    /** The parts of what a verifier is asked. */
    private static String shown(CmsCanon.Job job) {
        AlgorithmIdentifier signing = job.signatureAlgorithm();
        AlgorithmIdentifier digest = job.digestAlgorithm();
        Stream<Object> parts = Stream.of(job.covered(), job.signature(), signing.oid(), signing.parameters(), digest.oid(),
                digest.parameters(), job.issuer(), job.serialNumber(), job.subjectKeyIdentifier());
        return Stream.concat(parts, job.certificates().stream()).map(Answer::shown).collect(Collectors.joining(":"));
    }

    private static String jobs(byte[] data, byte[] content, long limit) throws CmsCanon.Refused {
        StringBuilder asked = new StringBuilder("0");
        CmsCanon.check(data, content, null, job -> {
            asked.append(' ').append(shown(job));
            return CmsCanon.Verdict.UNKNOWN;
        }, limit);
        return asked.toString();
    }

    private static String shown(List<CmsCanon.Finding> findings) {
        return findings.stream().map(Answer::finding).collect(Collectors.joining("", "0", ""));
    }

    private static CmsCanon.Verifier verifier(String word) {
        CmsCanon.Verdict verdict = CmsCanon.Verdict.valueOf(word.toUpperCase());
        return job -> verdict;
    }

    private static InputStream stream(String word) {
        return word.equals("-") ? null : new ByteArrayInputStream(octets(word));
    }

    private static List<CmsCanon.Finding> pieces(
            byte[] data, InputStream content, InputStream stamped, CmsCanon.Verifier verifier, long limit) throws CmsCanon.Refused {
        try {
            return CmsCanon.checkStreams(data, content, stamped, verifier, limit);
        } catch (IOException thrown) {
            throw new AssertionError("no array throws", thrown);
        }
    }

    private static String called(String[] words) throws CmsCanon.Refused {
        long limit = Long.parseLong(words[1]);
        byte[] data = HEX.parseHex(words[2]);
        switch (words[0]) {
            case "convert":
                return "0 " + HEX.formatHex(CmsCanon.convert(data, limit));
            case "many":
                CmsCanon.Many many = CmsCanon.convertMany(data, limit);
                String ders = many.messages + " " + HEX.formatHex(many.der);
                return many.refused == null ? "0 " + ders : "3 " + ders + " " + many.refused.getMessage();
            case "read":
                return Long.toString(CmsCanon.convertMany(data, limit).read);
            case "cover":
                return "0 " + HEX.formatHex(CmsCanon.cover(data, path(words[3]), octets(words[4]), limit));
            case "show":
                return "0 " + HEX.formatHex(CmsCanon.show(data, limit).getBytes(StandardCharsets.UTF_8));
            case "same":
                return CmsCanon.same(data, HEX.parseHex(words[3]), limit) ? "0" : "1";
            case "check":
                return shown(CmsCanon.check(data, octets(words[3]), octets(words[4]), verifier(words[5]), limit));
            case "pieces":
                return shown(pieces(data, stream(words[3]), stream(words[4]), verifier(words[5]), limit));
            case "lines":
                return CmsCanon.check(data, octets(words[3]), octets(words[4]), null, limit).stream()
                        .map(CmsCanon.Finding::toString).collect(Collectors.joining("; ", "0 ", ""));
            case "fields":
                return "0 " + String.join("; ", FieldLines.of(CmsCanon.read(data, limit), octets(words[3])));
            default:
                return jobs(data, octets(words[3]), limit);
        }
    }

    private static String answer(String request) {
        try {
            return called(request.split(" ", -1));
        } catch (CmsCanon.Refused refusal) {
            return "3 " + refusal.getMessage();
        }
    }

    public static void main(String[] words) throws IOException, InterruptedException {
        BufferedReader input = new BufferedReader(new InputStreamReader(System.in, StandardCharsets.US_ASCII));
        List<String> requests = new ArrayList<>();
        List<String> answers = new ArrayList<>();
        for (String line = input.readLine(); line != null; line = input.readLine()) {
            String answer = answer(line);
            System.out.println(answer);
            if (line.length() <= LONGEST) {
                requests.add(line);
                answers.add(answer);
            }
        }
        int[] differ = new int[THREADS];
        Thread[] threads = new Thread[THREADS];
        for (int i = 0; i < THREADS; i++) {
            int own = i;
            threads[i] = new Thread(() -> {
                for (int k = 0; k < requests.size(); k++) {
                    differ[own] += answer(requests.get(k)).equals(answers.get(k)) ? 0 : 1;
                }
            });
            threads[i].start();
        }
        for (Thread thread : threads) {
            thread.join();
        }
        System.out.println("threads: " + Arrays.stream(differ).sum() + " differ");
    }
}
