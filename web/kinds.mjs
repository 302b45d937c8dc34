// The kinds of fields of bindings/c/cms_canon.h, `enum cms_canon_kind`. scripts/generate writes this file.

/** element: parameters of the AlgorithmIdentifier one level above. */
export const PARAMETERS = 0x01;
/** contents: attrType. The attrValues are one level below. */
export const ATTRIBUTE = 0x02;
/** element: AttributeValue. */
export const VALUE = 0x03;
/** contents: hashAlgorithm of a MessageImprint. */
export const HASH_ALGORITHM = 0x04;
/** segments: hashedMessage of a MessageImprint. */
export const HASHED_MESSAGE = 0x05;
/** none: SignedData ::= SEQUENCE. */
export const SIGNED_DATA = 0x10;
/** contents: version CMSVersion, an INTEGER. */
export const VERSION = 0x11;
/** contents: a member of digestAlgorithms SET OF AlgorithmIdentifier. */
export const DIGEST_ALGORITHM = 0x12;
/** contents: eContentType OBJECT IDENTIFIER. */
export const CONTENT_TYPE = 0x13;
/** segments: eContent [0] EXPLICIT OCTET STRING OPTIONAL. */
export const CONTENT = 0x14;
/** none: certificates [0] IMPLICIT CertificateSet OPTIONAL. */
export const CERTIFICATES = 0x15;
/** element: CertificateChoices. One that begins with 30 is a Certificate (RFC 5280). */
export const CERTIFICATE = 0x16;
/** none: crls [1] IMPLICIT RevocationInfoChoices OPTIONAL. */
export const CRLS = 0x17;
/** element: RevocationInfoChoice. One that begins with 30 is a CRL (RFC 5280). */
export const CRL = 0x18;
/** none: a member of signerInfos SET OF SignerInfo. */
export const SIGNER = 0x20;
/** none: Countersignature ::= SignerInfo, one level below its ATTRIBUTE. */
export const COUNTERSIGNATURE = 0x21;
/** contents: version CMSVersion, an INTEGER. */
export const SIGNER_VERSION = 0x22;
/** element: issuer Name, of IssuerAndSerialNumber. */
export const ISSUER = 0x23;
/** contents: serialNumber INTEGER, of IssuerAndSerialNumber. */
export const SERIAL_NUMBER = 0x24;
/** segments: subjectKeyIdentifier [0] IMPLICIT OCTET STRING. */
export const SUBJECT_KEY_IDENTIFIER = 0x25;
/** contents: digestAlgorithm AlgorithmIdentifier. */
export const SIGNER_DIGEST_ALGORITHM = 0x26;
/** element: signedAttrs [0] IMPLICIT SET OF Attribute OPTIONAL. */
export const SIGNED_ATTRIBUTES = 0x27;
/** contents: signatureAlgorithm AlgorithmIdentifier. */
export const SIGNATURE_ALGORITHM = 0x28;
/** segments: signature OCTET STRING. */
export const SIGNATURE = 0x29;
/** none: unsignedAttrs [1] IMPLICIT SET OF Attribute OPTIONAL. */
export const UNSIGNED_ATTRIBUTES = 0x2a;
/** none: TimeStampReq ::= SEQUENCE. */
export const REQUEST = 0x30;
/** contents: version INTEGER. */
export const REQUEST_VERSION = 0x31;
/** contents: reqPolicy OBJECT IDENTIFIER OPTIONAL. */
export const REQUEST_POLICY = 0x32;
/** contents: nonce INTEGER OPTIONAL. */
export const REQUEST_NONCE = 0x33;
/** none: certReq BOOLEAN DEFAULT FALSE, if it is TRUE. */
export const CERT_REQ = 0x34;
/** element: extensions [0] IMPLICIT Extensions OPTIONAL. */
export const REQUEST_EXTENSIONS = 0x35;
/** none: TimeStampResp ::= SEQUENCE. The SignedData of its token is one level below. */
export const RESPONSE = 0x40;
/** contents: status INTEGER, of PKIStatusInfo. */
export const STATUS = 0x41;
/** element: statusString PKIFreeText OPTIONAL, a SEQUENCE. */
export const STATUS_STRING = 0x42;
/** contents: failInfo BIT STRING OPTIONAL, as received. */
export const FAIL_INFO = 0x43;
/** none: TSTInfo ::= SEQUENCE. */
export const TST_INFO = 0x50;
/** contents: version INTEGER. */
export const TST_VERSION = 0x51;
/** contents: policy OBJECT IDENTIFIER. */
export const TST_POLICY = 0x52;
/** contents: serialNumber INTEGER. */
export const TST_SERIAL_NUMBER = 0x53;
/** contents: genTime GeneralizedTime. */
export const GEN_TIME = 0x54;
/** none: accuracy Accuracy OPTIONAL, a SEQUENCE. */
export const ACCURACY = 0x55;
/** contents: seconds INTEGER OPTIONAL, one level below. */
export const SECONDS = 0x56;
/** contents: millis [0] INTEGER (1..999) OPTIONAL. */
export const MILLIS = 0x57;
/** contents: micros [1] INTEGER (1..999) OPTIONAL. */
export const MICROS = 0x58;
/** none: ordering BOOLEAN DEFAULT FALSE, if it is TRUE. */
export const ORDERING = 0x59;
/** contents: nonce INTEGER OPTIONAL. */
export const TST_NONCE = 0x5a;
/** element: tsa [0] GeneralName OPTIONAL. */
export const TSA = 0x5b;
/** element: extensions [1] IMPLICIT Extensions OPTIONAL. */
export const TST_EXTENSIONS = 0x5c;
