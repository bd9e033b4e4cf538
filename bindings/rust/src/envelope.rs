//! The clip envelope: a header of three bytes (version 1 in four bits, the set in four, the message's length in sixteen, most significant first), the
//! public key, the signature, the message, and nothing after.

use crate::refusal::answer;
use crate::{raw, PublicKey, Refusal, Set, Signature};

/// The bytes of a header.
const HEADER: usize = 3;

/// The parts of an envelope, as parts of the bytes that were read. That they can be read says nothing of the signature: [`Desk::check`](crate::Desk::check) does.
///
/// ```
/// use biscuit::{Envelope, Refusal};
/// assert_eq!(Envelope::read(&[0x12, 0, 0]), Err(Refusal::EnvelopeLength));
/// assert_eq!(Envelope::read(&[0x22, 0, 0]), Err(Refusal::EnvelopeVersion));
/// ```
#[derive(Clone, Copy, Debug, PartialEq, Eq)]
pub struct Envelope<'a> {
    set: Set,
    public_key: &'a [u8],
    signature: &'a [u8],
    message: &'a [u8],
}

impl<'a> Envelope<'a> {
    /// Writes an envelope. Refuses 3, and 5 where key and signature are of two sets.
    pub fn write(public_key: &PublicKey, signature: &Signature, message: &[u8]) -> Result<Vec<u8>, Refusal> {
        let (key, signature) = (public_key.as_bytes(), signature.as_bytes());
        let mut envelope = vec![0; HEADER + key.len() + signature.len() + message.len()];
        answer(raw::write_envelope(public_key.set().number(), key, signature, message, &mut envelope))?;
        Ok(envelope)
    }

    /// Reads an envelope. Refuses, in this order: 10 under three bytes, 11, 1, 3, and 10 where the total length is wrong.
    pub fn read(envelope: &'a [u8]) -> Result<Envelope<'a>, Refusal> {
        answer(raw::read_envelope(envelope))?;
        let raw::Places { key, signature, message, end } = raw::places_of_envelope(envelope);
        let set = Set::from_number(raw::header_of_envelope(envelope).set)?;
        Ok(Envelope { set, public_key: &envelope[key..signature], signature: &envelope[signature..message], message: &envelope[message..end] })
    }

    /// Its set.
    pub fn set(&self) -> Set {
        self.set
    }

    /// The public key that it carries.
    pub fn public_key(&self) -> PublicKey {
        PublicKey::from_bytes(self.set, self.public_key).expect("a key of the set's length")
    }

    /// The bytes of the public key, in the envelope.
    pub fn public_key_bytes(&self) -> &'a [u8] {
        self.public_key
    }

    /// The signature that it carries.
    pub fn signature(&self) -> Signature {
        Signature::from_bytes(self.set, self.signature).expect("a signature of the set's length")
    }

    /// The bytes of the signature, in the envelope.
    pub fn signature_bytes(&self) -> &'a [u8] {
        self.signature
    }

    /// The message, in the envelope.
    pub fn message(&self) -> &'a [u8] {
        self.message
    }
}
