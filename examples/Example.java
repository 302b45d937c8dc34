import cmscanon.CmsCanon;
import java.nio.file.Files;
import java.nio.file.Path;

/** Converts the message in the first file named to DER, and writes it to the second. */
class Example {
    public static void main(String[] words) throws Exception {
        byte[] message = Files.readAllBytes(Path.of(words[0]));
        Files.write(Path.of(words[1]), CmsCanon.convert(message));
    }
}
