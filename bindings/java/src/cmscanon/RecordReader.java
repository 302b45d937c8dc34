// scripts/generate writes this file from bindings/records.toml.
package cmscanon;

import java.math.BigInteger;
import java.util.List;

/** Makes records of rows. The first row of a record is of the kind and the level that a method takes. */
final class RecordReader {
    private final Rows rows;

    RecordReader(Rows rows) {
        this.rows = rows;
    }

    SignedData signedData(int kind, int level) {
        rows.take(kind, level);
        int inner = level + 1;
        BigInteger version = rows.integer(Kind.VERSION, inner);
        List<AlgorithmIdentifier> digestAlgorithms =
                rows.all(Kind.DIGEST_ALGORITHM, inner, (row, at) -> algorithmIdentifier(row, at));
        String contentType = rows.oid(Kind.CONTENT_TYPE, inner);
        Octets content = rows.has(Kind.CONTENT, inner) ? rows.string(Kind.CONTENT, inner) : null;
        List<Octets> certificates = rows.below(Kind.CERTIFICATES, inner, Kind.CERTIFICATE, (row, at) -> rows.take(row, at));
        List<Octets> crls = rows.below(Kind.CRLS, inner, Kind.CRL, (row, at) -> rows.take(row, at));
        List<SignerInfo> signers = rows.all(Kind.SIGNER, inner, (row, at) -> signerInfo(row, at, content));
        return new SignedData(version, digestAlgorithms, contentType, content, certificates, crls, signers);
    }

    SignerInfo signerInfo(int kind, int level, Octets signed) {
        rows.take(kind, level);
        int inner = level + 1;
        BigInteger version = rows.integer(Kind.SIGNER_VERSION, inner);
        Octets issuer = rows.has(Kind.ISSUER, inner) ? rows.take(Kind.ISSUER, inner) : null;
        BigInteger serialNumber = issuer != null ? rows.integer(Kind.SERIAL_NUMBER, inner) : null;
        Octets subjectKeyIdentifier = issuer == null ? rows.string(Kind.SUBJECT_KEY_IDENTIFIER, inner) : null;
        AlgorithmIdentifier digestAlgorithm = algorithmIdentifier(Kind.SIGNER_DIGEST_ALGORITHM, inner);
        Octets signedAttributesElement = rows.peek(Kind.SIGNED_ATTRIBUTES, inner);
        List<Attribute> signedAttributes =
                Rows.orEmpty(rows.below(Kind.SIGNED_ATTRIBUTES, inner, Kind.ATTRIBUTE, (row, at) -> attribute(row, at, null)));
        AlgorithmIdentifier signatureAlgorithm = algorithmIdentifier(Kind.SIGNATURE_ALGORITHM, inner);
        Octets signature = rows.string(Kind.SIGNATURE, inner);
        List<Attribute> unsignedAttributes =
                Rows.orEmpty(rows.below(Kind.UNSIGNED_ATTRIBUTES, inner, Kind.ATTRIBUTE, (row, at) -> attribute(row, at, signature)));
        Octets content = signed;
        return new SignerInfo(version, issuer, serialNumber, subjectKeyIdentifier, digestAlgorithm, signedAttributes,
                signedAttributesElement, signatureAlgorithm, signature, unsignedAttributes, content);
    }

    Attribute attribute(int kind, int level, Octets signed) {
        int inner = level + 1;
        String oid = rows.oid(kind, level);
        List<Octets> values = rows.all(Kind.VALUE, inner, (row, at) -> rows.take(row, at));
        List<SignerInfo> countersignatures = rows.all(Kind.COUNTERSIGNATURE, inner, (row, at) -> signerInfo(row, at, signed));
        return new Attribute(oid, values, countersignatures);
    }

    AlgorithmIdentifier algorithmIdentifier(int kind, int level) {
        int inner = level + 1;
        String oid = rows.oid(kind, level);
        Octets parameters = rows.has(Kind.PARAMETERS, inner) ? rows.take(Kind.PARAMETERS, inner) : null;
        return new AlgorithmIdentifier(oid, parameters);
    }

    MessageImprint messageImprint(int kind, int level) {
        AlgorithmIdentifier hashAlgorithm = algorithmIdentifier(kind, level);
        Octets hashedMessage = rows.string(Kind.HASHED_MESSAGE, level);
        return new MessageImprint(hashAlgorithm, hashedMessage);
    }

    TimeStampReq timeStampReq(int kind, int level) {
        rows.take(kind, level);
        int inner = level + 1;
        BigInteger version = rows.integer(Kind.REQUEST_VERSION, inner);
        MessageImprint imprint = messageImprint(Kind.HASH_ALGORITHM, inner);
        String policy = rows.has(Kind.REQUEST_POLICY, inner) ? rows.oid(Kind.REQUEST_POLICY, inner) : null;
        BigInteger nonce = rows.has(Kind.REQUEST_NONCE, inner) ? rows.integer(Kind.REQUEST_NONCE, inner) : null;
        boolean certReq = rows.takesHead(Kind.CERT_REQ, inner);
        Octets extensions = rows.has(Kind.REQUEST_EXTENSIONS, inner) ? rows.take(Kind.REQUEST_EXTENSIONS, inner) : null;
        return new TimeStampReq(version, imprint, policy, nonce, certReq, extensions);
    }

    TimeStampResp timeStampResp(int kind, int level) {
        rows.take(kind, level);
        int inner = level + 1;
        BigInteger status = rows.integer(Kind.STATUS, inner);
        Octets statusString = rows.has(Kind.STATUS_STRING, inner) ? rows.take(Kind.STATUS_STRING, inner) : null;
        NamedBits failInfo = rows.has(Kind.FAIL_INFO, inner) ? rows.namedBits(Kind.FAIL_INFO, inner) : null;
        SignedData token = rows.has(Kind.SIGNED_DATA, inner) ? signedData(Kind.SIGNED_DATA, inner) : null;
        return new TimeStampResp(status, statusString, failInfo, token);
    }

    TstInfo tstInfo(int kind, int level) {
        rows.take(kind, level);
        int inner = level + 1;
        BigInteger version = rows.integer(Kind.TST_VERSION, inner);
        String policy = rows.oid(Kind.TST_POLICY, inner);
        MessageImprint imprint = messageImprint(Kind.HASH_ALGORITHM, inner);
        BigInteger serialNumber = rows.integer(Kind.TST_SERIAL_NUMBER, inner);
        GeneralizedTime genTime = rows.time(Kind.GEN_TIME, inner);
        Accuracy accuracy = rows.has(Kind.ACCURACY, inner) ? accuracy(Kind.ACCURACY, inner) : null;
        boolean ordering = rows.takesHead(Kind.ORDERING, inner);
        BigInteger nonce = rows.has(Kind.TST_NONCE, inner) ? rows.integer(Kind.TST_NONCE, inner) : null;
        Octets tsa = rows.has(Kind.TSA, inner) ? rows.take(Kind.TSA, inner) : null;
        Octets extensions = rows.has(Kind.TST_EXTENSIONS, inner) ? rows.take(Kind.TST_EXTENSIONS, inner) : null;
        return new TstInfo(version, policy, imprint, serialNumber, genTime, accuracy, ordering, nonce, tsa, extensions);
    }

    Accuracy accuracy(int kind, int level) {
        rows.take(kind, level);
        int inner = level + 1;
        BigInteger seconds = rows.has(Kind.SECONDS, inner) ? rows.integer(Kind.SECONDS, inner) : null;
        Integer millis = rows.has(Kind.MILLIS, inner) ? rows.thousandths(Kind.MILLIS, inner) : null;
        Integer micros = rows.has(Kind.MICROS, inner) ? rows.thousandths(Kind.MICROS, inner) : null;
        return new Accuracy(seconds, millis, micros);
    }
}
