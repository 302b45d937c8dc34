//! The records of `bindings/records.toml`, and what reads them from rows. `scripts/generate` writes this file.

use std::borrow::Cow;

use crate::error::Error;
use crate::kinds;
use crate::rows::{Read, Rows};
use crate::values::{GeneralizedTime, Integer, NamedBits, Oid};

/// A SignedData (RFC 5652, section 5.1).
#[derive(Clone, Debug, PartialEq, Eq)]
#[non_exhaustive]
pub struct SignedData<'a> {
    /// Any INTEGER, as received. Whether it fits the rest is a finding of `check`, F1.
    pub version: Integer<'a>,
    /// digestAlgorithms in the order read.
    pub digest_algorithms: Vec<AlgorithmIdentifier<'a>>,
    /// eContentType, as `1.2.840.113549.1.7.1`; written as [`AlgorithmIdentifier::oid`].
    pub content_type: Oid<'a>,
    /// eContent, a part of what was read, or a copy if it came in several segments; none if it is detached.
    pub content: Option<Cow<'a, [u8]>>,
    /// The certificates in the order read, each one element: a Certificate (RFC 5280) if it begins with 30; none if the field is
    /// absent, which is not the same as an empty one.
    pub certificates: Option<Vec<&'a [u8]>>,
    /// The revocation information in the order read, each one element: a CertificateList (RFC 5280) if it begins with 30; none if
    /// the field is absent.
    pub crls: Option<Vec<&'a [u8]>>,
    /// signerInfos in the order read.
    pub signers: Vec<SignerInfo<'a>>,
}

impl<'a> Read<'a> for SignedData<'a> {
    fn read(rows: &mut Rows<'a, '_>, kind: u32, level: u32) -> Result<Self, Error> {
        rows.take(kind, level);
        let inner = level + 1;
        let version: Integer<'a> = rows.read(kinds::VERSION, inner)?;
        let digest_algorithms: Vec<AlgorithmIdentifier<'a>> = rows.read(kinds::DIGEST_ALGORITHM, inner)?;
        let content_type: Oid<'a> = rows.read(kinds::CONTENT_TYPE, inner)?;
        let content: Option<Cow<'a, [u8]>> = rows.read(kinds::CONTENT, inner)?;
        let certificates: Option<Vec<&'a [u8]>> = rows.below(kinds::CERTIFICATES, inner, kinds::CERTIFICATE)?;
        let crls: Option<Vec<&'a [u8]>> = rows.below(kinds::CRLS, inner, kinds::CRL)?;
        let signers: Vec<SignerInfo<'a>> = rows.read(kinds::SIGNER, inner)?;
        Ok(SignedData { version, digest_algorithms, content_type, content, certificates, crls, signers })
    }
}

/// A signer of a message, or a countersignature, as it was received (RFC 5652, sections 5.3 and 11.4).
#[derive(Clone, Debug, PartialEq, Eq)]
#[non_exhaustive]
pub struct SignerInfo<'a> {
    /// Any INTEGER, as received. Whether it fits the rest is a finding of `check`, F2.
    pub version: Integer<'a>,
    /// The name of the issuer of the signer's certificate, one element; none if the signer is named by a key identifier.
    pub issuer: Option<&'a [u8]>,
    /// The serial number of the signer's certificate; none if the signer is named by a key identifier.
    pub serial_number: Option<Integer<'a>>,
    /// The key identifier of the signer's certificate; none if the signer is named by issuer and serial number.
    pub subject_key_identifier: Option<Cow<'a, [u8]>>,
    /// digestAlgorithm: the algorithm that the content and the signed attributes are digested with.
    pub digest_algorithm: AlgorithmIdentifier<'a>,
    /// signedAttrs in the order read; empty if they are absent.
    pub signed_attributes: Vec<Attribute<'a>>,
    /// signedAttrs, one element, which begins with A0; none if they are absent.
    pub signed_attributes_element: Option<&'a [u8]>,
    /// signatureAlgorithm: the algorithm of the signature.
    pub signature_algorithm: AlgorithmIdentifier<'a>,
    /// The octets of the signature.
    pub signature: Cow<'a, [u8]>,
    /// unsignedAttrs in the order read; empty if they are absent.
    pub unsigned_attributes: Vec<Attribute<'a>>,
}

impl<'a> Read<'a> for SignerInfo<'a> {
    fn read(rows: &mut Rows<'a, '_>, kind: u32, level: u32) -> Result<Self, Error> {
        rows.take(kind, level);
        let inner = level + 1;
        let version: Integer<'a> = rows.read(kinds::SIGNER_VERSION, inner)?;
        let issuer: Option<&'a [u8]> = rows.read(kinds::ISSUER, inner)?;
        let serial_number: Option<Integer<'a>> = rows.read_if(issuer.is_some(), kinds::SERIAL_NUMBER, inner)?;
        let subject_key_identifier: Option<Cow<'a, [u8]>> = rows.read_if(issuer.is_none(), kinds::SUBJECT_KEY_IDENTIFIER, inner)?;
        let digest_algorithm: AlgorithmIdentifier<'a> = rows.read(kinds::SIGNER_DIGEST_ALGORITHM, inner)?;
        let signed_attributes_element: Option<&'a [u8]> = rows.peek(kinds::SIGNED_ATTRIBUTES, inner);
        let signed_attributes: Vec<Attribute<'a>> =
            rows.below(kinds::SIGNED_ATTRIBUTES, inner, kinds::ATTRIBUTE)?.unwrap_or_default();
        let signature_algorithm: AlgorithmIdentifier<'a> = rows.read(kinds::SIGNATURE_ALGORITHM, inner)?;
        let signature: Cow<'a, [u8]> = rows.read(kinds::SIGNATURE, inner)?;
        let unsigned_attributes: Vec<Attribute<'a>> =
            rows.below(kinds::UNSIGNED_ATTRIBUTES, inner, kinds::ATTRIBUTE)?.unwrap_or_default();
        Ok(SignerInfo {
            version,
            issuer,
            serial_number,
            subject_key_identifier,
            digest_algorithm,
            signed_attributes,
            signed_attributes_element,
            signature_algorithm,
            signature,
            unsigned_attributes,
        })
    }
}

/// An attribute (RFC 5652, section 5.3).
#[derive(Clone, Debug, PartialEq, Eq)]
#[non_exhaustive]
pub struct Attribute<'a> {
    /// attrType, as `1.2.840.113549.1.9.4`; written as [`AlgorithmIdentifier::oid`].
    pub oid: Oid<'a>,
    /// attrValues in the order read, each one element. An unsigned attribute countersignature has none here.
    pub values: Vec<&'a [u8]>,
    /// The values of an unsigned attribute countersignature in the order read (section 11.4); else empty.
    pub countersignatures: Vec<SignerInfo<'a>>,
}

impl<'a> Read<'a> for Attribute<'a> {
    fn read(rows: &mut Rows<'a, '_>, kind: u32, level: u32) -> Result<Self, Error> {
        let inner = level + 1;
        let oid: Oid<'a> = rows.read(kind, level)?;
        let values: Vec<&'a [u8]> = rows.read(kinds::VALUE, inner)?;
        let countersignatures: Vec<SignerInfo<'a>> = rows.read(kinds::COUNTERSIGNATURE, inner)?;
        Ok(Attribute { oid, values, countersignatures })
    }
}

/// An algorithm with its parameters (RFC 5652, section 10.1).
#[derive(Clone, Copy, Debug, PartialEq, Eq)]
#[non_exhaustive]
pub struct AlgorithmIdentifier<'a> {
    /// The OBJECT IDENTIFIER, written as `2.16.840.1.101.3.4.2.1`; or as `hex:` and its contents octets if a subidentifier has more
    /// than 64 bits.
    pub oid: Oid<'a>,
    /// The parameters, one element; none if they are absent. NULL is not absent: it is `05 00`.
    pub parameters: Option<&'a [u8]>,
}

impl<'a> Read<'a> for AlgorithmIdentifier<'a> {
    fn read(rows: &mut Rows<'a, '_>, kind: u32, level: u32) -> Result<Self, Error> {
        let inner = level + 1;
        let oid: Oid<'a> = rows.read(kind, level)?;
        let parameters: Option<&'a [u8]> = rows.read(kinds::PARAMETERS, inner)?;
        Ok(AlgorithmIdentifier { oid, parameters })
    }
}

/// The digest of the data that are time-stamped (RFC 3161, section 2.4.1).
#[derive(Clone, Debug, PartialEq, Eq)]
#[non_exhaustive]
pub struct MessageImprint<'a> {
    /// hashAlgorithm: the algorithm of the digest.
    pub hash_algorithm: AlgorithmIdentifier<'a>,
    /// hashedMessage: the octets of the digest.
    pub hashed_message: Cow<'a, [u8]>,
}

impl<'a> Read<'a> for MessageImprint<'a> {
    fn read(rows: &mut Rows<'a, '_>, kind: u32, level: u32) -> Result<Self, Error> {
        let hash_algorithm: AlgorithmIdentifier<'a> = rows.read(kind, level)?;
        let hashed_message: Cow<'a, [u8]> = rows.read(kinds::HASHED_MESSAGE, level)?;
        Ok(MessageImprint { hash_algorithm, hashed_message })
    }
}

/// A request for a time-stamp (RFC 3161, section 2.4.1).
#[derive(Clone, Debug, PartialEq, Eq)]
#[non_exhaustive]
pub struct TimeStampReq<'a> {
    /// Any INTEGER, as received: 1 by RFC 3161.
    pub version: Integer<'a>,
    /// messageImprint: the digest of the data to be time-stamped.
    pub imprint: MessageImprint<'a>,
    /// reqPolicy, written as [`AlgorithmIdentifier::oid`]; none if it is absent.
    pub policy: Option<Oid<'a>>,
    /// The number that the token is to have too; none if it is absent.
    pub nonce: Option<Integer<'a>>,
    /// Whether the certificate of the authority is asked for.
    pub cert_req: bool,
    /// One element, which begins with A0; none if they are absent.
    pub extensions: Option<&'a [u8]>,
}

impl<'a> Read<'a> for TimeStampReq<'a> {
    fn read(rows: &mut Rows<'a, '_>, kind: u32, level: u32) -> Result<Self, Error> {
        rows.take(kind, level);
        let inner = level + 1;
        let version: Integer<'a> = rows.read(kinds::REQUEST_VERSION, inner)?;
        let imprint: MessageImprint<'a> = rows.read(kinds::HASH_ALGORITHM, inner)?;
        let policy: Option<Oid<'a>> = rows.read(kinds::REQUEST_POLICY, inner)?;
        let nonce: Option<Integer<'a>> = rows.read(kinds::REQUEST_NONCE, inner)?;
        let cert_req: bool = rows.read(kinds::CERT_REQ, inner)?;
        let extensions: Option<&'a [u8]> = rows.read(kinds::REQUEST_EXTENSIONS, inner)?;
        Ok(TimeStampReq { version, imprint, policy, nonce, cert_req, extensions })
    }
}

/// A response to a request for a time-stamp (RFC 3161, section 2.4.2).
#[derive(Clone, Debug, PartialEq, Eq)]
#[non_exhaustive]
pub struct TimeStampResp<'a> {
    /// PKIStatus, as received. Whether it fits that there is a token is a finding of `check`, F19.
    pub status: Integer<'a>,
    /// PKIFreeText, one element; none if it is absent.
    pub status_string: Option<&'a [u8]>,
    /// failInfo, a PKIFailureInfo; none if it is absent.
    pub fail_info: Option<NamedBits<'a>>,
    /// The SignedData of timeStampToken; none if there is no token.
    pub token: Option<SignedData<'a>>,
}

impl<'a> Read<'a> for TimeStampResp<'a> {
    fn read(rows: &mut Rows<'a, '_>, kind: u32, level: u32) -> Result<Self, Error> {
        rows.take(kind, level);
        let inner = level + 1;
        let status: Integer<'a> = rows.read(kinds::STATUS, inner)?;
        let status_string: Option<&'a [u8]> = rows.read(kinds::STATUS_STRING, inner)?;
        let fail_info: Option<NamedBits<'a>> = rows.read(kinds::FAIL_INFO, inner)?;
        let token: Option<SignedData<'a>> = rows.read(kinds::SIGNED_DATA, inner)?;
        Ok(TimeStampResp { status, status_string, fail_info, token })
    }
}

/// What a time-stamp token says (RFC 3161, section 2.4.2).
#[derive(Clone, Debug, PartialEq, Eq)]
#[non_exhaustive]
pub struct TstInfo<'a> {
    /// Any INTEGER, as received: 1 by RFC 3161.
    pub version: Integer<'a>,
    /// The policy under which the token was made, written as [`AlgorithmIdentifier::oid`].
    pub policy: Oid<'a>,
    /// messageImprint: the digest of the data that were time-stamped.
    pub imprint: MessageImprint<'a>,
    /// The number of the token, which no other of the authority has.
    pub serial_number: Integer<'a>,
    /// genTime, in UTC.
    pub gen_time: GeneralizedTime<'a>,
    /// By how much the time may be off; none if the token does not say it.
    pub accuracy: Option<Accuracy<'a>>,
    /// Whether any two tokens of this authority are in the order of their times, however little these differ.
    pub ordering: bool,
    /// That of the request; none if it has none.
    pub nonce: Option<Integer<'a>>,
    /// The name of the authority, one element, which begins with A0; none if it is absent.
    pub tsa: Option<&'a [u8]>,
    /// One element, which begins with A1; none if they are absent.
    pub extensions: Option<&'a [u8]>,
}

impl<'a> Read<'a> for TstInfo<'a> {
    fn read(rows: &mut Rows<'a, '_>, kind: u32, level: u32) -> Result<Self, Error> {
        rows.take(kind, level);
        let inner = level + 1;
        let version: Integer<'a> = rows.read(kinds::TST_VERSION, inner)?;
        let policy: Oid<'a> = rows.read(kinds::TST_POLICY, inner)?;
        let imprint: MessageImprint<'a> = rows.read(kinds::HASH_ALGORITHM, inner)?;
        let serial_number: Integer<'a> = rows.read(kinds::TST_SERIAL_NUMBER, inner)?;
        let gen_time: GeneralizedTime<'a> = rows.read(kinds::GEN_TIME, inner)?;
        let accuracy: Option<Accuracy<'a>> = rows.read(kinds::ACCURACY, inner)?;
        let ordering: bool = rows.read(kinds::ORDERING, inner)?;
        let nonce: Option<Integer<'a>> = rows.read(kinds::TST_NONCE, inner)?;
        let tsa: Option<&'a [u8]> = rows.read(kinds::TSA, inner)?;
        let extensions: Option<&'a [u8]> = rows.read(kinds::TST_EXTENSIONS, inner)?;
        Ok(TstInfo { version, policy, imprint, serial_number, gen_time, accuracy, ordering, nonce, tsa, extensions })
    }
}

/// By how much the time of a token may be off (RFC 3161, section 2.4.2): the sum of what is not absent.
#[derive(Clone, Copy, Debug, PartialEq, Eq)]
#[non_exhaustive]
pub struct Accuracy<'a> {
    /// Whole seconds, any INTEGER; none if they are absent.
    pub seconds: Option<Integer<'a>>,
    /// Milliseconds, from 1 to 999; none if they are absent.
    pub millis: Option<u16>,
    /// Microseconds, from 1 to 999; none if they are absent.
    pub micros: Option<u16>,
}

impl<'a> Read<'a> for Accuracy<'a> {
    fn read(rows: &mut Rows<'a, '_>, kind: u32, level: u32) -> Result<Self, Error> {
        rows.take(kind, level);
        let inner = level + 1;
        let seconds: Option<Integer<'a>> = rows.read(kinds::SECONDS, inner)?;
        let millis: Option<u16> = rows.read(kinds::MILLIS, inner)?;
        let micros: Option<u16> = rows.read(kinds::MICROS, inner)?;
        Ok(Accuracy { seconds, millis, micros })
    }
}
