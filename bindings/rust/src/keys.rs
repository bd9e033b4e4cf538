//! Keys and signatures: bytes that have the length of their set.

use crate::{Refusal, Set};
use std::fmt;
use std::sync::atomic::{compiler_fence, Ordering};

/// A secret key of a set. Its bytes are cleared when it is dropped, and are not printed.
#[derive(Clone)]
pub struct SecretKey {
    set: Set,
    bytes: Box<[u8]>,
}

/// A public key of a set. Two of them are equal where set and bytes are.
#[derive(Clone, Debug, PartialEq, Eq, Hash)]
pub struct PublicKey {
    set: Set,
    bytes: Box<[u8]>,
}

/// A signature of a set.
#[derive(Clone, Debug, PartialEq, Eq)]
pub struct Signature {
    set: Set,
    bytes: Box<[u8]>,
}

impl SecretKey {
    /// A secret key from its bytes. Any other length is refused; whether the key is consistent is tested where it is used.
    pub fn from_bytes(set: Set, bytes: &[u8]) -> Result<SecretKey, Refusal> {
        Ok(SecretKey { set, bytes: sized(bytes, set.secret_key_len(), Refusal::KeyLength)? })
    }

    /// Its set.
    pub fn set(&self) -> Set {
        self.set
    }

    /// Its bytes.
    pub fn as_bytes(&self) -> &[u8] {
        &self.bytes
    }

    pub(crate) fn empty(set: Set) -> SecretKey {
        SecretKey { set, bytes: zeros(set.secret_key_len()) }
    }

    pub(crate) fn bytes_mut(&mut self) -> &mut [u8] {
        &mut self.bytes
    }
}

impl Drop for SecretKey {
    fn drop(&mut self) {
        clear(&mut self.bytes);
    }
}

impl fmt::Debug for SecretKey {
    fn fmt(&self, f: &mut fmt::Formatter) -> fmt::Result {
        write!(f, "SecretKey({}, ..)", self.set)
    }
}

impl PublicKey {
    /// A public key from its bytes. Any other length is refused.
    pub fn from_bytes(set: Set, bytes: &[u8]) -> Result<PublicKey, Refusal> {
        Ok(PublicKey { set, bytes: sized(bytes, set.public_key_len(), Refusal::KeyLength)? })
    }

    /// Its set.
    pub fn set(&self) -> Set {
        self.set
    }

    /// Its bytes.
    pub fn as_bytes(&self) -> &[u8] {
        &self.bytes
    }

    pub(crate) fn empty(set: Set) -> PublicKey {
        PublicKey { set, bytes: zeros(set.public_key_len()) }
    }

    pub(crate) fn bytes_mut(&mut self) -> &mut [u8] {
        &mut self.bytes
    }
}

impl Signature {
    /// A signature from its bytes. Any other length is refused; whether it is accepted is for [`Desk::verify`](crate::Desk::verify) to say.
    pub fn from_bytes(set: Set, bytes: &[u8]) -> Result<Signature, Refusal> {
        Ok(Signature { set, bytes: sized(bytes, set.signature_len(), Refusal::SignatureLength)? })
    }

    /// Its set.
    pub fn set(&self) -> Set {
        self.set
    }

    /// Its bytes.
    pub fn as_bytes(&self) -> &[u8] {
        &self.bytes
    }

    pub(crate) fn empty(set: Set) -> Signature {
        Signature { set, bytes: zeros(set.signature_len()) }
    }

    pub(crate) fn bytes_mut(&mut self) -> &mut [u8] {
        &mut self.bytes
    }
}

/// Writes zeros that a compiler may not leave out.
pub fn clear(bytes: &mut [u8]) {
    for byte in bytes.iter_mut() {
        // SAFETY: `byte` is a valid reference.
        unsafe { std::ptr::write_volatile(byte, 0) };
    }
    compiler_fence(Ordering::SeqCst);
}

fn sized(bytes: &[u8], len: usize, refusal: Refusal) -> Result<Box<[u8]>, Refusal> {
    if bytes.len() == len {
        Ok(bytes.into())
    } else {
        Err(refusal)
    }
}

fn zeros(len: usize) -> Box<[u8]> {
    vec![0; len].into_boxed_slice()
}
