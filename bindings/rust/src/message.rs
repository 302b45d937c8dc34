//! Messages and what is in them.

use std::borrow::Cow;
use std::ops::Deref;

use crate::error::{Error, Refused};
use crate::records::{SignedData, SignerInfo, TimeStampReq, TimeStampResp, TstInfo};

/// A message that was read. Its fields are slices of the input; only a string that was received in several segments is a copy.
#[derive(Clone, Debug, PartialEq, Eq)]
#[non_exhaustive]
pub enum Message<'a> {
    /// A signed message: ContentInfo with SignedData. A time-stamp token is one.
    SignedData(SignedData<'a>),
    /// A request for a time-stamp.
    Request(TimeStampReq<'a>),
    /// A response to a request for a time-stamp.
    Response(TimeStampResp<'a>),
}

impl<'a> Message<'a> {
    /// Returns the SignedData that the message is, or that of the token of a response.
    #[must_use]
    pub fn signed_data(&self) -> Option<&SignedData<'a>> {
        match self {
            Message::SignedData(signed) => Some(signed),
            Message::Request(_) => None,
            Message::Response(response) => response.token.as_ref(),
        }
    }

    /// Returns the signers in the order read; of a response, those of its token.
    #[must_use]
    pub fn signers(&self) -> impl ExactSizeIterator<Item = Signer<'_>> {
        self.signer_infos().iter().map(|info| Signer { info, content: self.content() })
    }

    /// Returns the signer with this number in the order read, from 0.
    #[must_use]
    pub fn signer(&self, number: usize) -> Option<Signer<'_>> {
        self.signer_infos().get(number).map(|info| Signer { info, content: self.content() })
    }

    fn signer_infos(&self) -> &[SignerInfo<'a>] {
        self.signed_data().map_or(&[], |it| &it.signers)
    }

    /// Returns the content; none if it is detached. Of a response, it is that of its token.
    #[must_use]
    pub fn content(&self) -> Option<&[u8]> {
        self.signed_data().and_then(|it| it.content.as_deref())
    }

    /// Returns what the token says that the message is, or that the response has; none if there is no token, or if its content is
    /// detached.
    ///
    /// # Errors
    ///
    /// The content is no TSTInfo in DER (105).
    pub fn tst_info(&self) -> Result<Option<TstInfo<'_>>, Error> {
        self.signed_data().map_or(Ok(None), SignedData::tst_info)
    }
}

impl SignedData<'_> {
    /// Returns what the token says; none if this is no time-stamp token, or if its content is detached.
    ///
    /// # Errors
    ///
    /// The content is no TSTInfo in DER (105).
    pub fn tst_info(&self) -> Result<Option<TstInfo<'_>>, Error> {
        match &self.content {
            Some(content) if self.content_type.contents() == TST_INFO => crate::tst_info(content).map(Some),
            _ => Ok(None),
        }
    }
}

const TST_INFO: &[u8] = b"\x2a\x86\x48\x86\xf7\x0d\x01\x09\x10\x01\x04"; // id-ct-TSTInfo (RFC 3161, section 2.4.2)

/// A signer of a message, or a countersignature, with what it signs. The fields are those of [`SignerInfo`].
#[derive(Clone, Copy, Debug, PartialEq, Eq)]
pub struct Signer<'m> {
    info: &'m SignerInfo<'m>,
    content: Option<&'m [u8]>,
}

impl<'m> Deref for Signer<'m> {
    type Target = SignerInfo<'m>;

    fn deref(&self) -> &SignerInfo<'m> {
        self.info
    }
}

impl<'m> Signer<'m> {
    /// Returns the fields, which live as long as the message.
    #[must_use]
    pub fn info(&self) -> &'m SignerInfo<'m> {
        self.info
    }

    /// Returns what is signed: the content of the message, none if it is detached; of a countersignature the octets of the
    /// signature that it signs.
    #[must_use]
    pub fn content(&self) -> Option<&'m [u8]> {
        self.content
    }

    /// Returns the countersignatures of the signer, of all its countersignature attributes, in the order read.
    pub fn countersignatures(&self) -> impl Iterator<Item = Signer<'m>> {
        let signed = Some(&*self.info.signature);
        let infos = self.info.unsigned_attributes.iter().flat_map(|it| &it.countersignatures);
        infos.map(move |info| Signer { info, content: signed })
    }

    /// Returns the octets that the signature covers (RFC 5652, sections 5.4 and 11.4), as [`cover`](crate::cover) does. If the
    /// signer has signed attributes, the signature covers these and not the content.
    ///
    /// `detached` is the content of a detached signature. It is not used if the signer has signed attributes, or if there is
    /// content already.
    ///
    /// # Errors
    ///
    /// The signer has no signed attributes, and there is no content (103); or there is not enough memory for a copy of the
    /// attributes.
    pub fn covered(&self, detached: Option<&'m [u8]>) -> Result<Cow<'m, [u8]>, Error> {
        if let Some(element) = self.info.signed_attributes_element {
            let mut attributes = Vec::new();
            attributes.try_reserve_exact(element.len())?;
            attributes.push(SET_OF); // in place of [0] IMPLICIT
            attributes.extend_from_slice(&element[1..]);
            return Ok(Cow::Owned(attributes));
        }
        match self.content.or(detached) {
            Some(content) => Ok(Cow::Borrowed(content)),
            None => Err(Refused::no_content().into()),
        }
    }
}

const SET_OF: u8 = 0x31;
