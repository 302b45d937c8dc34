//! What most callers look for: what a signer says by its signed attributes, and which certificate it names.

use crate::certificates::is_named;
use crate::elements::Element;
use crate::message::Message;
use crate::names::NAMES;
use crate::records::{Attribute, SignerInfo};
use crate::values::{is_date, GeneralizedTime};

const OCTET_STRING: u8 = 0x04;
const UTC_TIME: u8 = 0x17;
const GENERALIZED_TIME: u8 = 0x18;

impl<'a> SignerInfo<'a> {
    /// Returns the signed attribute of this name, as `messageDigest`, or of this OBJECT IDENTIFIER, as `1.2.840.113549.1.9.4`; none if
    /// there is none, or more than one.
    #[must_use]
    pub fn signed_attribute(&self, name: &str) -> Option<&Attribute<'a>> {
        let oid = NAMES.iter().find(|(_, it)| *it == name).map_or(name, |(oid, _)| oid);
        only(self.signed_attributes.iter().filter(|it| it.oid.to_string() == oid))
    }

    /// Returns the octets of the attribute message-digest (RFC 5652, section 11.2), of which [`check`](crate::check) says whether it is
    /// that of the content; none if there is none, or none that has one value which is an OCTET STRING.
    #[must_use]
    pub fn message_digest(&self) -> Option<&'a [u8]> {
        self.signed_value("messageDigest")?.contents_if(OCTET_STRING)
    }

    /// Returns when the signer says that it signed (RFC 5652, section 11.3), in seconds since 1970-01-01 00:00:00 UTC. Nobody vouches
    /// for it. None if it does not say so, or not as it should.
    #[must_use]
    pub fn signing_time(&self) -> Option<i64> {
        seconds_of(self.signed_value("signingTime")?)
    }

    /// Returns the one value of the one signed attribute of this name.
    fn signed_value(&self, name: &str) -> Option<Element<'a>> {
        Element::only(only(self.signed_attribute(name)?.values.iter().copied())?)
    }
}

impl<'a> Message<'a> {
    /// Returns the certificate in the message that a signer of it names, by issuer and serial number or by the key identifier (RFC 5652,
    /// section 5.3), one element; none if there is none that can be read, or several that differ.
    ///
    /// Anybody can put a certificate into a message: whether it is to be trusted is for the caller to judge.
    #[must_use]
    pub fn certificate_of(&self, signer: &SignerInfo<'_>) -> Option<&'a [u8]> {
        let mut named = self.signed_data()?.certificates.iter().flatten().copied().filter(|it| is_named(it, signer));
        let first = named.next()?;
        named.all(|it| it == first).then_some(first)
    }
}

/// Returns the one item; none if there is none, or more than one.
fn only<T>(mut items: impl Iterator<Item = T>) -> Option<T> {
    let first = items.next();
    items.next().map_or(first, |_| None)
}

/// Returns the seconds of a Time as RFC 5652, section 11.3, wants it, but for the year 0000.
fn seconds_of(element: Element<'_>) -> Option<i64> {
    let digits = std::str::from_utf8(element.contents).ok()?.strip_suffix('Z')?;
    let digits = match (element.identifier, digits.len()) {
        (UTC_TIME, 12) if digits >= "50" => format!("19{digits}"),
        (UTC_TIME, 12) => format!("20{digits}"),
        (GENERALIZED_TIME, 14) => digits.to_owned(),
        _ => return None,
    };
    is_date(&digits).then(|| GeneralizedTime::new(format!("{digits}Z").as_bytes()).unix_seconds())
}
