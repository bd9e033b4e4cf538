//! The desk: the four calls over keys and signatures that have their set's length.

use crate::refusal::answer;
use crate::{raw, Envelope, PublicKey, Refusal, SecretKey, Set, Signature};

/// The bytes of work that a call wants.
const WORK: usize = 65_536;

/// The desk owns the work buffer of 65,536 bytes and uses it again for each call. It is all zero between the calls. Threads have a desk each.
///
/// ```
/// use biscuit::{Desk, Refusal, Set};
///
/// let set = Set::Biscuit128f;
/// let mut desk = Desk::new();
/// // In a real program the secret seed is S bytes that nobody can foretell.
/// let (secret, public) = desk.make_keys(set, &[1; 16], &[2; 16])?;
/// let signature = desk.sign(&secret, b"take 3", None)?;
/// assert_eq!(desk.verify(&public, b"take 3", &signature), Ok(()));
/// assert_eq!(desk.verify(&public, b"take 4", &signature), Err(Refusal::NotAccepted));
/// # Ok::<(), Refusal>(())
/// ```
pub struct Desk {
    work: Box<[u8]>,
}

impl Desk {
    /// A desk with its work buffer, all zero.
    pub fn new() -> Desk {
        Desk { work: vec![0; WORK].into_boxed_slice() }
    }

    /// Makes a key pair from two seeds of [`Set::seed_len`] bytes: from the same seeds always the same pair. The circuit seed stands in both keys and so is public;
    /// the secret seed is bytes that nobody can foretell. Never give the same bytes for both: the public key would show the secret seed. Refuses 2.
    pub fn make_keys(&mut self, set: Set, circuit_seed: &[u8], secret_seed: &[u8]) -> Result<(SecretKey, PublicKey), Refusal> {
        let (mut secret, mut public) = (SecretKey::empty(set), PublicKey::empty(set));
        answer(raw::make_keys(set.number(), circuit_seed, secret_seed, secret.bytes_mut(), public.bytes_mut(), &mut self.work))?;
        Ok((secret, public))
    }

    /// Gives the public half of a secret key. Refuses 8.
    ///
    /// ```
    /// use biscuit::{Desk, Refusal, SecretKey, Set};
    ///
    /// let mut desk = Desk::new();
    /// let (secret, public) = desk.make_keys(Set::Biscuit192s, &[1; 24], &[2; 24])?;
    /// assert_eq!(desk.public_half(&secret), Ok(public));
    /// let nonsense = SecretKey::from_bytes(Set::Biscuit192s, &[7; 158])?;
    /// assert_eq!(desk.public_half(&nonsense), Err(Refusal::KeyNotConsistent));
    /// # Ok::<(), Refusal>(())
    /// ```
    pub fn public_half(&mut self, secret: &SecretKey) -> Result<PublicKey, Refusal> {
        let mut public = PublicKey::empty(secret.set());
        answer(raw::public_half(secret.set().number(), secret.as_bytes(), public.bytes_mut(), &mut self.work))?;
        Ok(public)
    }

    /// Signs a message. `Some` lends [`Set::random_len`] random bytes, of the caller's making; with `None` the same key and message always give
    /// the same signature. Refuses 2, 3 and 8.
    ///
    /// ```
    /// use biscuit::{Desk, Refusal, Set};
    ///
    /// const SET: Set = Set::Biscuit128f;
    /// let mut desk = Desk::new();
    /// let (secret, _) = desk.make_keys(SET, &[1; SET.seed_len()], &[2; SET.seed_len()])?;
    /// // In a real program the random bytes are bytes that nobody can foretell.
    /// let random = [5; SET.random_len()];
    /// assert_eq!(desk.sign(&secret, b"take 3", Some(&random[1..])), Err(Refusal::SeedOrRandomLength));
    /// assert_eq!(desk.sign(&secret, b"take 3", Some(&[])), Err(Refusal::SeedOrRandomLength));
    /// assert_ne!(desk.sign(&secret, b"take 3", Some(&random))?, desk.sign(&secret, b"take 3", None)?);
    /// # Ok::<(), Refusal>(())
    /// ```
    pub fn sign(&mut self, secret: &SecretKey, message: &[u8], random: Option<&[u8]>) -> Result<Signature, Refusal> {
        if random.is_some_and(<[u8]>::is_empty) {
            return Err(Refusal::SeedOrRandomLength);
        }
        let mut signature = Signature::empty(secret.set());
        let random = random.unwrap_or(&[]);
        answer(raw::sign(secret.set().number(), secret.as_bytes(), message, random, signature.bytes_mut(), &mut self.work))?;
        Ok(signature)
    }

    /// Verifies a signature: `Ok` where it is accepted for this message under this key. Refuses 3, 5 where the signature is of another set, and 9.
    pub fn verify(&mut self, public: &PublicKey, message: &[u8], signature: &Signature) -> Result<(), Refusal> {
        self.verify_bytes(public.set(), public.as_bytes(), message, signature.as_bytes())
    }

    /// Signs a message into an envelope, which carries the public half of the key. Refuses what [`Desk::sign`] refuses.
    ///
    /// ```
    /// use biscuit::{Desk, Refusal, Set};
    ///
    /// let mut desk = Desk::new();
    /// let (secret, public) = desk.make_keys(Set::Biscuit128f, &[1; 16], &[2; 16])?;
    /// let mut envelope = desk.sign_envelope(&secret, b"take 3", None)?;
    /// let genuine = desk.check(&envelope)?;
    /// assert_eq!((genuine.set(), genuine.message()), (Set::Biscuit128f, &b"take 3"[..]));
    /// assert_eq!(genuine.public_key(), public);
    /// envelope[60] ^= 1;
    /// assert_eq!(desk.check(&envelope), Err(Refusal::NotAccepted));
    /// # Ok::<(), Refusal>(())
    /// ```
    pub fn sign_envelope(&mut self, secret: &SecretKey, message: &[u8], random: Option<&[u8]>) -> Result<Vec<u8>, Refusal> {
        let signature = self.sign(secret, message, random)?;
        Envelope::write(&self.public_half(secret)?, &signature, message)
    }

    /// Reads an envelope and verifies it under the key that it carries. Anybody can make a key and sign with it: whose key that is, the caller finds out with
    /// [`Desk::verify`] under a key that it knows. Comparing the keys' bytes is not the same: they may differ in bits that mean nothing. Refuses what reading refuses, and 9.
    ///
    /// ```
    /// use biscuit::{Desk, Refusal, Set};
    ///
    /// let mut desk = Desk::new();
    /// let (_, known) = desk.make_keys(Set::Biscuit128f, &[1; 16], &[2; 16])?;
    /// let (stranger, _) = desk.make_keys(Set::Biscuit128f, &[1; 16], &[3; 16])?;
    /// let envelope = desk.sign_envelope(&stranger, b"take 3", None)?;
    /// let genuine = desk.check(&envelope)?;
    /// assert_eq!(desk.verify(&known, genuine.message(), &genuine.signature()), Err(Refusal::NotAccepted));
    /// # Ok::<(), Refusal>(())
    /// ```
    pub fn check<'a>(&mut self, envelope: &'a [u8]) -> Result<Envelope<'a>, Refusal> {
        let parts = Envelope::read(envelope)?;
        self.verify_bytes(parts.set(), parts.public_key_bytes(), parts.message(), parts.signature_bytes())?;
        Ok(parts)
    }

    fn verify_bytes(&mut self, set: Set, public_key: &[u8], message: &[u8], signature: &[u8]) -> Result<(), Refusal> {
        answer(raw::verify(set.number(), public_key, message, signature, &mut self.work))
    }
}

impl Default for Desk {
    fn default() -> Desk {
        Desk::new()
    }
}

#[cfg(test)]
mod tests {
    use super::*;

    #[test]
    fn work_is_zero_after_every_call() {
        let mut desk = Desk::new();
        let (secret, public) = desk.make_keys(Set::Biscuit128f, &[1; 16], &[2; 16]).unwrap();
        assert!(desk.work.iter().all(|byte| *byte == 0));
        desk.work.fill(0xa5);
        let signature = desk.sign(&secret, b"", None).unwrap();
        assert!(desk.work.iter().all(|byte| *byte == 0));
        desk.work.fill(0x5a);
        assert_eq!(desk.verify(&public, b"x", &signature), Err(Refusal::NotAccepted));
        assert!(desk.work.iter().all(|byte| *byte == 0));
    }
}
