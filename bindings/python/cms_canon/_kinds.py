"""The kinds of fields of bindings/c/cms_canon.h, `enum cms_canon_kind`. scripts/generate writes this file."""

PARAMETERS = 0x01  # element: parameters of the AlgorithmIdentifier one level above
ATTRIBUTE = 0x02  # contents: attrType. The attrValues are one level below
VALUE = 0x03  # element: AttributeValue
HASH_ALGORITHM = 0x04  # contents: hashAlgorithm of a MessageImprint
HASHED_MESSAGE = 0x05  # segments: hashedMessage of a MessageImprint
SIGNED_DATA = 0x10  # none: SignedData ::= SEQUENCE
VERSION = 0x11  # contents: version CMSVersion, an INTEGER
DIGEST_ALGORITHM = 0x12  # contents: a member of digestAlgorithms SET OF AlgorithmIdentifier
CONTENT_TYPE = 0x13  # contents: eContentType OBJECT IDENTIFIER
CONTENT = 0x14  # segments: eContent [0] EXPLICIT OCTET STRING OPTIONAL
CERTIFICATES = 0x15  # none: certificates [0] IMPLICIT CertificateSet OPTIONAL
CERTIFICATE = 0x16  # element: CertificateChoices. One that begins with 30 is a Certificate (RFC 5280)
CRLS = 0x17  # none: crls [1] IMPLICIT RevocationInfoChoices OPTIONAL
CRL = 0x18  # element: RevocationInfoChoice. One that begins with 30 is a CRL (RFC 5280)
SIGNER = 0x20  # none: a member of signerInfos SET OF SignerInfo
COUNTERSIGNATURE = 0x21  # none: Countersignature ::= SignerInfo, one level below its ATTRIBUTE
SIGNER_VERSION = 0x22  # contents: version CMSVersion, an INTEGER
ISSUER = 0x23  # element: issuer Name, of IssuerAndSerialNumber
SERIAL_NUMBER = 0x24  # contents: serialNumber INTEGER, of IssuerAndSerialNumber
SUBJECT_KEY_IDENTIFIER = 0x25  # segments: subjectKeyIdentifier [0] IMPLICIT OCTET STRING
SIGNER_DIGEST_ALGORITHM = 0x26  # contents: digestAlgorithm AlgorithmIdentifier
SIGNED_ATTRIBUTES = 0x27  # element: signedAttrs [0] IMPLICIT SET OF Attribute OPTIONAL
SIGNATURE_ALGORITHM = 0x28  # contents: signatureAlgorithm AlgorithmIdentifier
SIGNATURE = 0x29  # segments: signature OCTET STRING
UNSIGNED_ATTRIBUTES = 0x2a  # none: unsignedAttrs [1] IMPLICIT SET OF Attribute OPTIONAL
REQUEST = 0x30  # none: TimeStampReq ::= SEQUENCE
REQUEST_VERSION = 0x31  # contents: version INTEGER
REQUEST_POLICY = 0x32  # contents: reqPolicy OBJECT IDENTIFIER OPTIONAL
REQUEST_NONCE = 0x33  # contents: nonce INTEGER OPTIONAL
CERT_REQ = 0x34  # none: certReq BOOLEAN DEFAULT FALSE, if it is TRUE
REQUEST_EXTENSIONS = 0x35  # element: extensions [0] IMPLICIT Extensions OPTIONAL
RESPONSE = 0x40  # none: TimeStampResp ::= SEQUENCE. The SignedData of its token is one level below
STATUS = 0x41  # contents: status INTEGER, of PKIStatusInfo
STATUS_STRING = 0x42  # element: statusString PKIFreeText OPTIONAL, a SEQUENCE
FAIL_INFO = 0x43  # contents: failInfo BIT STRING OPTIONAL, as received
TST_INFO = 0x50  # none: TSTInfo ::= SEQUENCE
TST_VERSION = 0x51  # contents: version INTEGER
TST_POLICY = 0x52  # contents: policy OBJECT IDENTIFIER
TST_SERIAL_NUMBER = 0x53  # contents: serialNumber INTEGER
GEN_TIME = 0x54  # contents: genTime GeneralizedTime
ACCURACY = 0x55  # none: accuracy Accuracy OPTIONAL, a SEQUENCE
SECONDS = 0x56  # contents: seconds INTEGER OPTIONAL, one level below
MILLIS = 0x57  # contents: millis [0] INTEGER (1..999) OPTIONAL
MICROS = 0x58  # contents: micros [1] INTEGER (1..999) OPTIONAL
ORDERING = 0x59  # none: ordering BOOLEAN DEFAULT FALSE, if it is TRUE
TST_NONCE = 0x5a  # contents: nonce INTEGER OPTIONAL
TSA = 0x5b  # element: tsa [0] GeneralName OPTIONAL
TST_EXTENSIONS = 0x5c  # element: extensions [1] IMPLICIT Extensions OPTIONAL
