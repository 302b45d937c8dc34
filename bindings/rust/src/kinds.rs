//! The kinds of fields of `bindings/c/cms_canon.h`. `scripts/generate` writes this file.

/// element: parameters of the AlgorithmIdentifier one level above.
pub(crate) const PARAMETERS: u32 = 0x01;

/// contents: attrType. The attrValues are one level below.
pub(crate) const ATTRIBUTE: u32 = 0x02;

/// element: AttributeValue.
pub(crate) const VALUE: u32 = 0x03;

/// contents: hashAlgorithm of a MessageImprint.
pub(crate) const HASH_ALGORITHM: u32 = 0x04;

/// segments: hashedMessage of a MessageImprint.
pub(crate) const HASHED_MESSAGE: u32 = 0x05;

/// none: SignedData ::= SEQUENCE.
pub(crate) const SIGNED_DATA: u32 = 0x10;

/// contents: version CMSVersion, an INTEGER.
pub(crate) const VERSION: u32 = 0x11;

/// contents: a member of digestAlgorithms SET OF AlgorithmIdentifier.
pub(crate) const DIGEST_ALGORITHM: u32 = 0x12;

/// contents: eContentType OBJECT IDENTIFIER.
pub(crate) const CONTENT_TYPE: u32 = 0x13;

/// segments: eContent [0] EXPLICIT OCTET STRING OPTIONAL.
pub(crate) const CONTENT: u32 = 0x14;

/// none: certificates [0] IMPLICIT CertificateSet OPTIONAL.
pub(crate) const CERTIFICATES: u32 = 0x15;

/// element: CertificateChoices. One that begins with 30 is a Certificate (RFC 5280).
pub(crate) const CERTIFICATE: u32 = 0x16;

/// none: crls [1] IMPLICIT RevocationInfoChoices OPTIONAL.
pub(crate) const CRLS: u32 = 0x17;

/// element: RevocationInfoChoice. One that begins with 30 is a CRL (RFC 5280).
pub(crate) const CRL: u32 = 0x18;

/// none: a member of signerInfos SET OF SignerInfo.
pub(crate) const SIGNER: u32 = 0x20;

/// none: Countersignature ::= SignerInfo, one level below its ATTRIBUTE.
pub(crate) const COUNTERSIGNATURE: u32 = 0x21;

/// contents: version CMSVersion, an INTEGER.
pub(crate) const SIGNER_VERSION: u32 = 0x22;

/// element: issuer Name, of IssuerAndSerialNumber.
pub(crate) const ISSUER: u32 = 0x23;

/// contents: serialNumber INTEGER, of IssuerAndSerialNumber.
pub(crate) const SERIAL_NUMBER: u32 = 0x24;

/// segments: subjectKeyIdentifier [0] IMPLICIT OCTET STRING.
pub(crate) const SUBJECT_KEY_IDENTIFIER: u32 = 0x25;

/// contents: digestAlgorithm AlgorithmIdentifier.
pub(crate) const SIGNER_DIGEST_ALGORITHM: u32 = 0x26;

/// element: signedAttrs [0] IMPLICIT SET OF Attribute OPTIONAL.
pub(crate) const SIGNED_ATTRIBUTES: u32 = 0x27;

/// contents: signatureAlgorithm AlgorithmIdentifier.
pub(crate) const SIGNATURE_ALGORITHM: u32 = 0x28;

/// segments: signature OCTET STRING.
pub(crate) const SIGNATURE: u32 = 0x29;

/// none: unsignedAttrs [1] IMPLICIT SET OF Attribute OPTIONAL.
pub(crate) const UNSIGNED_ATTRIBUTES: u32 = 0x2a;

/// none: TimeStampReq ::= SEQUENCE.
pub(crate) const REQUEST: u32 = 0x30;

/// contents: version INTEGER.
pub(crate) const REQUEST_VERSION: u32 = 0x31;

/// contents: reqPolicy OBJECT IDENTIFIER OPTIONAL.
pub(crate) const REQUEST_POLICY: u32 = 0x32;

/// contents: nonce INTEGER OPTIONAL.
pub(crate) const REQUEST_NONCE: u32 = 0x33;

/// none: certReq BOOLEAN DEFAULT FALSE, if it is TRUE.
pub(crate) const CERT_REQ: u32 = 0x34;

/// element: extensions [0] IMPLICIT Extensions OPTIONAL.
pub(crate) const REQUEST_EXTENSIONS: u32 = 0x35;

/// none: TimeStampResp ::= SEQUENCE. The SignedData of its token is one level below.
pub(crate) const RESPONSE: u32 = 0x40;

/// contents: status INTEGER, of PKIStatusInfo.
pub(crate) const STATUS: u32 = 0x41;

/// element: statusString PKIFreeText OPTIONAL, a SEQUENCE.
pub(crate) const STATUS_STRING: u32 = 0x42;

/// contents: failInfo BIT STRING OPTIONAL, as received.
pub(crate) const FAIL_INFO: u32 = 0x43;

/// none: TSTInfo ::= SEQUENCE.
pub(crate) const TST_INFO: u32 = 0x50;

/// contents: version INTEGER.
pub(crate) const TST_VERSION: u32 = 0x51;

/// contents: policy OBJECT IDENTIFIER.
pub(crate) const TST_POLICY: u32 = 0x52;

/// contents: serialNumber INTEGER.
pub(crate) const TST_SERIAL_NUMBER: u32 = 0x53;

/// contents: genTime GeneralizedTime.
pub(crate) const GEN_TIME: u32 = 0x54;

/// none: accuracy Accuracy OPTIONAL, a SEQUENCE.
pub(crate) const ACCURACY: u32 = 0x55;

/// contents: seconds INTEGER OPTIONAL, one level below.
pub(crate) const SECONDS: u32 = 0x56;

/// contents: millis [0] INTEGER (1..999) OPTIONAL.
pub(crate) const MILLIS: u32 = 0x57;

/// contents: micros [1] INTEGER (1..999) OPTIONAL.
pub(crate) const MICROS: u32 = 0x58;

/// none: ordering BOOLEAN DEFAULT FALSE, if it is TRUE.
pub(crate) const ORDERING: u32 = 0x59;

/// contents: nonce INTEGER OPTIONAL.
pub(crate) const TST_NONCE: u32 = 0x5a;

/// element: tsa [0] GeneralName OPTIONAL.
pub(crate) const TSA: u32 = 0x5b;

/// element: extensions [1] IMPLICIT Extensions OPTIONAL.
pub(crate) const TST_EXTENSIONS: u32 = 0x5c;
