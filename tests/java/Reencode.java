import java.nio.file.Files;
import java.nio.file.Path;
import org.bouncycastle.asn1.ASN1Primitive;
import org.bouncycastle.asn1.cms.ContentInfo;

/** Writes the message in the first file named to the second, in DER by BouncyCastle: <code>Reencode MESSAGE DER</code>. */
public final class Reencode {
    private Reencode() {}

    public static void main(String[] words) throws Exception {
        byte[] message = Files.readAllBytes(Path.of(words[0]));
        Files.write(Path.of(words[1]), ContentInfo.getInstance(ASN1Primitive.fromByteArray(message)).getEncoded("DER"));
    }
}
