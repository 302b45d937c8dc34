import cmscanon.Accuracy;
import cmscanon.AlgorithmIdentifier;
import cmscanon.Attribute;
import cmscanon.CmsCanon;
import cmscanon.Message;
import cmscanon.MessageImprint;
import cmscanon.MessageKind;
import cmscanon.NamedBits;
import cmscanon.Octets;
import cmscanon.SignerInfo;
import cmscanon.TimeStampReq;
import cmscanon.TimeStampResp;
import cmscanon.TstInfo;
import java.math.BigInteger;
import java.util.ArrayList;
import java.util.Arrays;
import java.util.HexFormat;
import java.util.List;
import java.util.stream.Collectors;
import java.util.stream.IntStream;

/** The fields of a message, a line for each, as tests/support/field_lines.py has them. */
final class FieldLines {
    private static final HexFormat HEX = HexFormat.of();
    private static final String TST_INFO = "1.2.840.113549.1.9.16.1.4"; // the content type of a time-stamp token
    private static final String COUNTERSIGNATURE = "1.2.840.113549.1.9.6"; // the type of an unsigned attribute

    private final List<String> lines = new ArrayList<>();
    private final byte[] detached;

    private FieldLines(byte[] detached) {
        this.detached = detached;
    }

    /** The lines of a message, whose content is detached. */
    static List<String> of(Message message, byte[] detached) {
        FieldLines fields = new FieldLines(detached);
        fields.add(message.kind() == MessageKind.SIGNED_DATA ? "signed-data" : message.kind().name().toLowerCase());
        if (message.request() != null) {
            fields.addRequest(message.request());
        }
        if (message.response() != null) {
            fields.addResponse(message.response());
        }
        if (message.contentType() != null) {
            fields.addSignedData(message);
        }
        return fields.lines;
    }

    private void add(String name, Object... values) {
        lines.add(values.length == 0 ? name : name + " " + Arrays.stream(values).map(FieldLines::word)
                .collect(Collectors.joining(" ")));
    }

    private static String word(Object value) {
        if (value instanceof Octets octets) {
            return octets.toHex();
        }
        if (value instanceof BigInteger number) {
            return HEX.formatHex(number.toByteArray());
        }
        if (value instanceof AlgorithmIdentifier algorithm) {
            return algorithm.oid() + " " + word(algorithm.parameters());
        }
        if (value instanceof MessageImprint imprint) {
            return word(imprint.hashAlgorithm()) + " " + word(imprint.hashedMessage());
        }
        if (value instanceof Accuracy accuracy) {
            return word(accuracy.seconds()) + " " + word(accuracy.millis()) + " " + word(accuracy.micros());
        }
        if (value instanceof NamedBits bits) {
            return "bits " + IntStream.range(0, 8 * bits.contents().length()).filter(bits::isSet).mapToObj(Integer::toString)
                    .collect(Collectors.joining(","));
        }
        return value == null ? "-" : value.toString();
    }

    private void addRequest(TimeStampReq request) {
        add("version", request.version());
        add("imprint", request.imprint());
        add("policy", request.policy());
        add("nonce", request.nonce());
        add("cert-req", request.certReq());
        add("extensions", request.extensions());
    }

    private void addResponse(TimeStampResp response) {
        add("status", response.status());
        add("status-string", response.statusString());
        add("fail-info", response.failInfo());
    }

    private void addSignedData(Message message) {
        add("version", message.version());
        message.digestAlgorithms().forEach(it -> add("digest-algorithm", it));
        add("content-type", message.contentType());
        add("content", message.content());
        addMembers("certificate", message.certificates());
        addMembers("crl", message.crls());
        for (int i = 0; i < message.signers().size(); i++) {
            addSigner("signer " + i, message.signers().get(i));
        }
        if (message.contentType().equals(TST_INFO)) {
            addTstInfo(message);
        }
    }

    private void addMembers(String name, List<Octets> members) {
        add(name + "s", members == null ? null : members.size());
        if (members != null) {
            members.forEach(it -> add(name, it));
        }
    }

    private void addSigner(String name, SignerInfo signer) {
        add(name + " version", signer.version());
        add(name + " issuer", signer.issuer());
        add(name + " serial-number", signer.serialNumber());
        add(name + " subject-key-identifier", signer.subjectKeyIdentifier());
        add(name + " digest-algorithm", signer.digestAlgorithm());
        signer.signedAttributes().forEach(it -> addAttribute(name + " signed-attribute", it, false));
        add(name + " signature-algorithm", signer.signatureAlgorithm());
        add(name + " signature", signer.signature());
        try {
            add(name + " covered", HEX.formatHex(signer.covered(detached)));
        } catch (CmsCanon.Refused refused) {
            add(name + " covered", refused.getMessage());
        }
        for (Attribute it : signer.unsignedAttributes()) {
            addAttribute(name + " unsigned-attribute", it, it.oid().equals(COUNTERSIGNATURE));
        }
        for (int i = 0; i < signer.countersignatures().size(); i++) {
            addSigner(name + "," + i, signer.countersignatures().get(i));
        }
    }

    private void addAttribute(String name, Attribute attribute, boolean hasCountersignatures) {
        List<Object> words = new ArrayList<>(attribute.values());
        if (hasCountersignatures) {
            words.add("countersignatures " + attribute.countersignatures().size());
        }
        add(name + " " + attribute.oid(), words.toArray());
    }

    private void addTstInfo(Message message) {
        TstInfo info;
        try {
            info = message.tstInfo();
        } catch (CmsCanon.Refused refused) {
            add("tst-info", refused.getMessage());
            return;
        }
        if (info == null) {
            add("tst-info", info);
            return;
        }
        add("tst-version", info.version());
        add("tst-policy", info.policy());
        add("tst-imprint", info.imprint());
        add("tst-serial-number", info.serialNumber());
        add("tst-gen-time", info.genTime().text());
        add("tst-accuracy", info.accuracy());
        add("tst-ordering", info.ordering());
        add("tst-nonce", info.nonce());
        add("tst-tsa", info.tsa());
        add("tst-extensions", info.extensions());
    }
}
