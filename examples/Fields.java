import cmscanon.CmsCanon;
import cmscanon.Message;
import cmscanon.SignerInfo;
import java.nio.file.Files;
import java.nio.file.Path;

/** Prints the signers of the message in the file named: the serial number of each one's certificate, and what its signature covers. */
class Fields {
    public static void main(String[] words) throws Exception {
        Message message = CmsCanon.read(Files.readAllBytes(Path.of(words[0])));
        for (SignerInfo signer : message.signers()) {
            System.out.println(signer.serialNumber() + " over " + signer.covered(null).length + " octets");
        }
    }
}
