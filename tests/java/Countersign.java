import java.io.BufferedReader;
import java.io.InputStreamReader;
import java.io.Reader;
import java.nio.charset.StandardCharsets;
import java.nio.file.Files;
import java.nio.file.Path;
import java.security.PrivateKey;
import java.util.ArrayDeque;
import java.util.ArrayList;
import java.util.Collection;
import java.util.Deque;
import java.util.HashMap;
import java.util.HexFormat;
import java.util.Hashtable;
import java.util.List;
import java.util.Map;
import org.bouncycastle.asn1.DERPrintableString;
import org.bouncycastle.asn1.cms.AttributeTable;
import org.bouncycastle.asn1.pkcs.PKCSObjectIdentifiers;
import org.bouncycastle.asn1.pkcs.PrivateKeyInfo;
import org.bouncycastle.asn1.x509.SubjectKeyIdentifier;
import org.bouncycastle.cert.X509CertificateHolder;
import org.bouncycastle.cms.CMSException;
import org.bouncycastle.cms.CMSProcessableByteArray;
import org.bouncycastle.cms.CMSSignedData;
import org.bouncycastle.cms.CMSSignedDataGenerator;
import org.bouncycastle.cms.SignerInfoGenerator;
import org.bouncycastle.cms.SignerInformation;
import org.bouncycastle.cms.SignerInformationStore;
import org.bouncycastle.cms.jcajce.JcaSignerInfoGeneratorBuilder;
import org.bouncycastle.cms.jcajce.JcaSimpleSignerInfoVerifierBuilder;
import org.bouncycastle.openssl.PEMParser;
import org.bouncycastle.openssl.jcajce.JcaPEMKeyConverter;
import org.bouncycastle.operator.ContentSigner;
import org.bouncycastle.operator.jcajce.JcaContentSignerBuilder;
import org.bouncycastle.operator.jcajce.JcaDigestCalculatorProviderBuilder;

/**
 * Makes and verifies messages with countersignatures, by BouncyCastle: <code>Countersign make|verify FOLDER KEY..</code>, with
 * one request and one answer a line. The folder has a file <code>content</code>, and <code>KEY.pem</code> with the certificate
 * and the private key of each KEY.
 *
 * <p>A request to make a message is <code>attached</code> or <code>detached</code> and its signers, as in
 * <code>attached rsa+ ( ec | ec#+ ) ec</code>: each is a KEY, then <code>+</code> if it has signed attributes, <code>#</code> if
 * its certificate is named by the key identifier, and <code>*</code> if it has an unsigned attribute of another type. Its
 * countersignatures follow in parentheses, with <code>|</code> between those of one attribute and of the next. The answer is the
 * message in hexadecimal.
 *
 * <p>A request to verify a message is <code>attached</code> or <code>detached</code> and the message in hexadecimal. The answer
 * is <code>right N</code>, N signers and countersignatures, or <code>wrong PATH</code> for the first that is wrong.
 */
public final class Countersign {
    private static final HexFormat HEX = HexFormat.of();

    private final CMSProcessableByteArray content;
    private final Map<String, X509CertificateHolder> certificates = new HashMap<>();
    private final Map<String, PrivateKey> keys = new HashMap<>();

    private Countersign(Path folder, List<String> names) throws Exception {
        content = new CMSProcessableByteArray(Files.readAllBytes(folder.resolve("content")));
        for (String name : names) {
            try (Reader file = Files.newBufferedReader(folder.resolve(name + ".pem")); PEMParser pem = new PEMParser(file)) {
                certificates.put(name, (X509CertificateHolder) pem.readObject());
                keys.put(name, new JcaPEMKeyConverter().getPrivateKey((PrivateKeyInfo) pem.readObject()));
            }
        }
    }

    /** Makes one signature with a generator that has one signer. */
    private interface Signing {
        SignerInformationStore by(CMSSignedDataGenerator generator) throws CMSException;
    }

    // ---- making

    private CMSSignedDataGenerator generator(String signer) throws Exception {
        String name = signer.replaceAll("[^a-z]", "");
        X509CertificateHolder certificate = certificates.get(name);
        PrivateKey key = keys.get(name);
        String algorithm = key.getAlgorithm().equals("RSA") ? "SHA256withRSA" : "SHA256withECDSA";
        ContentSigner by = new JcaContentSignerBuilder(algorithm).build(key);
        JcaSignerInfoGeneratorBuilder builder = new JcaSignerInfoGeneratorBuilder(new JcaDigestCalculatorProviderBuilder().build());
        builder.setDirectSignature(!signer.contains("+"));
        byte[] identifier = SubjectKeyIdentifier.fromExtensions(certificate.getExtensions()).getKeyIdentifier();
        SignerInfoGenerator one = signer.contains("#") ? builder.build(by, identifier) : builder.build(by, certificate);
        CMSSignedDataGenerator generator = new CMSSignedDataGenerator();
        generator.addSignerInfoGenerator(one);
        return generator;
    }

    private static SignerInformation withName(SignerInformation signer) {
        AttributeTable unsigned = signer.getUnsignedAttributes();
        AttributeTable others = unsigned == null ? new AttributeTable(new Hashtable<>()) : unsigned;
        DERPrintableString name = new DERPrintableString("A name");
        AttributeTable all = others.add(PKCSObjectIdentifiers.pkcs_9_at_unstructuredName, name);
        return SignerInformation.replaceUnsignedAttributes(signer, all);
    }

    /** Takes the signers up to the end of the attribute, or of all, and makes their signatures and countersignatures. */
    private SignerInformationStore signers(Deque<String> words, Signing signing) throws Exception {
        List<SignerInformation> made = new ArrayList<>();
        while (!words.isEmpty() && !words.peek().equals("|") && !words.peek().equals(")")) {
            String word = words.remove();
            SignerInformation signer = signing.by(generator(word)).iterator().next();
            if (!words.isEmpty() && words.peek().equals("(")) {
                SignerInformation signed = signer;
                do {
                    words.remove();
                    SignerInformationStore added = signers(words, generator -> generator.generateCounterSigners(signed));
                    signer = SignerInformation.addCounterSigners(signer, added);
                } while (words.peek().equals("|"));
                words.remove();
            }
            made.add(word.contains("*") ? withName(signer) : signer);
        }
        return new SignerInformationStore(made);
    }

    private String made(boolean isAttached, String signers) throws Exception {
        CMSSignedDataGenerator generator = new CMSSignedDataGenerator();
        for (X509CertificateHolder certificate : certificates.values()) {
            generator.addCertificate(certificate);
        }
        Deque<String> words = new ArrayDeque<>(List.of(signers.split(" ")));
        generator.addSigners(signers(words, by -> by.generate(content, isAttached).getSignerInfos()));
        return HEX.formatHex(generator.generate(content, isAttached).getEncoded());
    }

    // ---- verifying

    /** The signer or countersignature with this path is wrong. */
    private static final class Wrong extends Exception {
        private static final long serialVersionUID = 1;

        Wrong(String path) {
            super(path);
        }
    }

    private static boolean isRight(SignerInformation signer, Collection<X509CertificateHolder> all) throws Exception {
        for (X509CertificateHolder certificate : all) {
            if (signer.getSID().match(certificate)) {
                try {
                    return signer.verify(new JcaSimpleSignerInfoVerifierBuilder().build(certificate));
                } catch (CMSException e) {
                    return false;
                }
            }
        }
        return false;
    }

    /** Returns how many were verified. Each is verified before its countersignatures. */
    private static int verified(SignerInformationStore signers, Collection<X509CertificateHolder> all, String path)
            throws Exception {
        int verified = 0;
        int number = 0;
        for (SignerInformation signer : signers) {
            String here = path + number;
            if (!isRight(signer, all)) {
                throw new Wrong(here);
            }
            verified += 1 + verified(signer.getCounterSignatures(), all, here + ".");
            number++;
        }
        return verified;
    }

    private String verified(boolean isAttached, String hex) throws Exception {
        byte[] octets = HEX.parseHex(hex);
        try {
            CMSSignedData message = isAttached ? new CMSSignedData(octets) : new CMSSignedData(content, octets);
            return "right " + verified(message.getSignerInfos(), message.getCertificates().getMatches(null), "");
        } catch (Wrong wrong) {
            return "wrong " + wrong.getMessage();
        }
    }

    public static void main(String[] words) throws Exception {
        Countersign countersign = new Countersign(Path.of(words[1]), List.of(words).subList(2, words.length));
        BufferedReader input = new BufferedReader(new InputStreamReader(System.in, StandardCharsets.US_ASCII));
        for (String line = input.readLine(); line != null; line = input.readLine()) {
            String[] request = line.split(" ", 2);
            boolean isAttached = request[0].equals("attached");
            boolean makes = words[0].equals("make");
            System.out.println(makes ? countersign.made(isAttached, request[1]) : countersign.verified(isAttached, request[1]));
        }
    }
}
