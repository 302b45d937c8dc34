package cmscanon;

/** The kinds of fields of `bindings/c/cms_canon.h`. `scripts/generate` writes this file. */
final class Kind {
    private Kind() {}

    /** element: parameters of the AlgorithmIdentifier one level above. */
    static final int PARAMETERS = 0x01;

    /** contents: attrType. The attrValues are one level below. */
    static final int ATTRIBUTE = 0x02;

    /** element: AttributeValue. */
    static final int VALUE = 0x03;

    /** contents: hashAlgorithm of a MessageImprint. */
    static final int HASH_ALGORITHM = 0x04;

    /** segments: hashedMessage of a MessageImprint. */
    static final int HASHED_MESSAGE = 0x05;

    /** none: SignedData ::= SEQUENCE. */
    static final int SIGNED_DATA = 0x10;

    /** contents: version CMSVersion, an INTEGER. */
    static final int VERSION = 0x11;

    /** contents: a member of digestAlgorithms SET OF AlgorithmIdentifier. */
    static final int DIGEST_ALGORITHM = 0x12;

    /** contents: eContentType OBJECT IDENTIFIER. */
    static final int CONTENT_TYPE = 0x13;

    /** segments: eContent [0] EXPLICIT OCTET STRING OPTIONAL. */
    static final int CONTENT = 0x14;

    /** none: certificates [0] IMPLICIT CertificateSet OPTIONAL. */
    static final int CERTIFICATES = 0x15;

    /** element: CertificateChoices. One that begins with 30 is a Certificate (RFC 5280). */
    static final int CERTIFICATE = 0x16;

    /** none: crls [1] IMPLICIT RevocationInfoChoices OPTIONAL. */
    static final int CRLS = 0x17;

    /** element: RevocationInfoChoice. One that begins with 30 is a CRL (RFC 5280). */
    static final int CRL = 0x18;

    /** none: a member of signerInfos SET OF SignerInfo. */
    static final int SIGNER = 0x20;

    /** none: Countersignature ::= SignerInfo, one level below its ATTRIBUTE. */
    static final int COUNTERSIGNATURE = 0x21;

    /** contents: version CMSVersion, an INTEGER. */
    static final int SIGNER_VERSION = 0x22;

    /** element: issuer Name, of IssuerAndSerialNumber. */
    static final int ISSUER = 0x23;

    /** contents: serialNumber INTEGER, of IssuerAndSerialNumber. */
    static final int SERIAL_NUMBER = 0x24;

    /** segments: subjectKeyIdentifier [0] IMPLICIT OCTET STRING. */
    static final int SUBJECT_KEY_IDENTIFIER = 0x25;

    /** contents: digestAlgorithm AlgorithmIdentifier. */
    static final int SIGNER_DIGEST_ALGORITHM = 0x26;

    /** element: signedAttrs [0] IMPLICIT SET OF Attribute OPTIONAL. */
    static final int SIGNED_ATTRIBUTES = 0x27;

    /** contents: signatureAlgorithm AlgorithmIdentifier. */
    static final int SIGNATURE_ALGORITHM = 0x28;

    /** segments: signature OCTET STRING. */
    static final int SIGNATURE = 0x29;

    /** none: unsignedAttrs [1] IMPLICIT SET OF Attribute OPTIONAL. */
    static final int UNSIGNED_ATTRIBUTES = 0x2a;

    /** none: TimeStampReq ::= SEQUENCE. */
    static final int REQUEST = 0x30;

    /** contents: version INTEGER. */
    static final int REQUEST_VERSION = 0x31;

    /** contents: reqPolicy OBJECT IDENTIFIER OPTIONAL. */
    static final int REQUEST_POLICY = 0x32;

    /** contents: nonce INTEGER OPTIONAL. */
    static final int REQUEST_NONCE = 0x33;

    /** none: certReq BOOLEAN DEFAULT FALSE, if it is TRUE. */
    static final int CERT_REQ = 0x34;

    /** element: extensions [0] IMPLICIT Extensions OPTIONAL. */
    static final int REQUEST_EXTENSIONS = 0x35;

    /** none: TimeStampResp ::= SEQUENCE. The SignedData of its token is one level below. */
    static final int RESPONSE = 0x40;

    /** contents: status INTEGER, of PKIStatusInfo. */
    static final int STATUS = 0x41;

    /** element: statusString PKIFreeText OPTIONAL, a SEQUENCE. */
    static final int STATUS_STRING = 0x42;

    /** contents: failInfo BIT STRING OPTIONAL, as received. */
    static final int FAIL_INFO = 0x43;

    /** none: TSTInfo ::= SEQUENCE. */
    static final int TST_INFO = 0x50;

    /** contents: version INTEGER. */
    static final int TST_VERSION = 0x51;

    /** contents: policy OBJECT IDENTIFIER. */
    static final int TST_POLICY = 0x52;

    /** contents: serialNumber INTEGER. */
    static final int TST_SERIAL_NUMBER = 0x53;

    /** contents: genTime GeneralizedTime. */
    static final int GEN_TIME = 0x54;

    /** none: accuracy Accuracy OPTIONAL, a SEQUENCE. */
    static final int ACCURACY = 0x55;

    /** contents: seconds INTEGER OPTIONAL, one level below. */
    static final int SECONDS = 0x56;

    /** contents: millis [0] INTEGER (1..999) OPTIONAL. */
    static final int MILLIS = 0x57;

    /** contents: micros [1] INTEGER (1..999) OPTIONAL. */
    static final int MICROS = 0x58;

    /** none: ordering BOOLEAN DEFAULT FALSE, if it is TRUE. */
    static final int ORDERING = 0x59;

    /** contents: nonce INTEGER OPTIONAL. */
    static final int TST_NONCE = 0x5a;

    /** element: tsa [0] GeneralName OPTIONAL. */
    static final int TSA = 0x5b;

    /** element: extensions [1] IMPLICIT Extensions OPTIONAL. */
    static final int TST_EXTENSIONS = 0x5c;
}
