import cmscanon.CmsCanon;
import cmscanon.Message;
import cmscanon.Octets;
import cmscanon.SignerInfo;
import java.io.IOException;
import java.nio.file.Path;
import java.security.GeneralSecurityException;
import java.security.Signature;
import java.security.cert.X509Certificate;
import java.util.Locale;
import org.bouncycastle.cert.X509CertificateHolder;
import org.bouncycastle.cert.jcajce.JcaX509CertificateConverter;
import org.bouncycastle.cms.CMSException;
import org.bouncycastle.cms.CMSSignedData;
import org.bouncycastle.jce.provider.BouncyCastleProvider;

/**
 * Verifies the signatures of a message with BouncyCastle, over the octets that cms-canon says each of them covers, and has BouncyCastle read the DER.
 *
 * <p>The certificates are those in the message: whether they are to be trusted is not judged here.
 */
public final class VerifyWithBouncyCastle {
    private VerifyWithBouncyCastle() {}

    private static boolean isRight(SignerInfo signer, Octets certificate, byte[] content)
            throws CmsCanon.Refused, GeneralSecurityException, IOException {
        X509Certificate known = new JcaX509CertificateConverter().getCertificate(new X509CertificateHolder(certificate.toArray()));
        String key = known.getPublicKey().getAlgorithm().equals("EC") ? "ECDSA" : "RSA";
        Signature signature = Signature.getInstance("SHA256with" + key, new BouncyCastleProvider());
        signature.initVerify(known);
        signature.update(signer.covered(content));
        return signature.verify(signer.signature().toArray());
    }

    public static void main(String[] words) throws CmsCanon.Refused, GeneralSecurityException, IOException, CMSException {
        Message message = CmsCanon.read(Path.of(words[0]));
        for (SignerInfo signer : message.signers()) {
            boolean isRight = isRight(signer, message.certificateOf(signer), null);
            System.out.println(String.format(Locale.ROOT, "%s %s", isRight ? "right" : "wrong", signer.signingTime()));
        }
        CMSSignedData read = new CMSSignedData(CmsCanon.convert(Path.of(words[0])));
        System.out.println("BouncyCastle reads " + read.getSignerInfos().size() + " signer in the DER");
    }
}
