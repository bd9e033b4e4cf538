//! The exported calls of libdesk.a as they are: a set's number, slices, and the answer's number. Every number and every length is allowed;
//! include/biscuit.h has the promise of each call. The rest of the crate is made of these.

extern "C" {
    fn biscuit_make_keys(
        set: usize,
        circuit_seed: *const u8, circuit_seed_len: usize,
        secret_seed: *const u8, secret_seed_len: usize,
        secret_key: *mut u8, secret_key_len: usize,
        public_key: *mut u8, public_key_len: usize,
        work: *mut u8, work_len: usize,
    ) -> u8;
    fn biscuit_public_half(
        set: usize,
        secret_key: *const u8, secret_key_len: usize,
        public_key: *mut u8, public_key_len: usize,
        work: *mut u8, work_len: usize,
    ) -> u8;
    fn biscuit_sign(
        set: usize,
        secret_key: *const u8, secret_key_len: usize,
        message: *const u8, message_len: usize,
        random: *const u8, random_len: usize,
        signature: *mut u8, signature_len: usize,
        work: *mut u8, work_len: usize,
    ) -> u8;
    fn biscuit_verify(
        set: usize,
        public_key: *const u8, public_key_len: usize,
        message: *const u8, message_len: usize,
        signature: *const u8, signature_len: usize,
        work: *mut u8, work_len: usize,
    ) -> u8;
    fn envelope_write(
        set: usize,
        public_key: *const u8, public_key_len: usize,
        signature: *const u8, signature_len: usize,
        message: *const u8, message_len: usize,
        envelope: *mut u8, envelope_len: usize,
    ) -> u8;
    fn envelope_read(envelope: *const u8, envelope_len: usize) -> u8;
    fn envelope_header(envelope: *const u8, envelope_len: usize) -> Header;
    fn envelope_places(envelope: *const u8, envelope_len: usize) -> Places;
}

/// The header of an envelope; all 0 on refusal.
#[derive(Clone, Copy, Debug, PartialEq, Eq)]
#[repr(C)]
pub struct Header {
    /// The version: 1.
    pub version: usize,
    /// The set, from 1 to 6.
    pub set: usize,
    /// The bytes of the message.
    pub length: usize,
}

/// Where the parts of an envelope begin, and where the last ends; all 0 on refusal.
#[derive(Clone, Copy, Debug, PartialEq, Eq)]
#[repr(C)]
pub struct Places {
    /// Where the public key begins.
    pub key: usize,
    /// Where it ends and the signature begins.
    pub signature: usize,
    /// Where that ends and the message begins.
    pub message: usize,
    /// Where the message ends.
    pub end: usize,
}

/// Makes a key pair from two seeds.
pub fn make_keys(set: usize, circuit_seed: &[u8], secret_seed: &[u8], secret_key: &mut [u8], public_key: &mut [u8], work: &mut [u8]) -> u8 {
    // SAFETY: every pointer comes from a slice with its length, and what is written is borrowed mutably, so nothing overlaps.
    unsafe {
        biscuit_make_keys(
            set,
            circuit_seed.as_ptr(), circuit_seed.len(),
            secret_seed.as_ptr(), secret_seed.len(),
            secret_key.as_mut_ptr(), secret_key.len(),
            public_key.as_mut_ptr(), public_key.len(),
            work.as_mut_ptr(), work.len(),
        )
    }
}

/// Gives the public half of a secret key.
pub fn public_half(set: usize, secret_key: &[u8], public_key: &mut [u8], work: &mut [u8]) -> u8 {
    // SAFETY: every pointer comes from a slice with its length, and what is written is borrowed mutably, so nothing overlaps.
    unsafe {
        biscuit_public_half(
            set,
            secret_key.as_ptr(), secret_key.len(),
            public_key.as_mut_ptr(), public_key.len(),
            work.as_mut_ptr(), work.len(),
        )
    }
}

/// Signs a message.
pub fn sign(set: usize, secret_key: &[u8], message: &[u8], random: &[u8], signature: &mut [u8], work: &mut [u8]) -> u8 {
    // SAFETY: every pointer comes from a slice with its length, and what is written is borrowed mutably, so nothing overlaps.
    unsafe {
        biscuit_sign(
            set,
            secret_key.as_ptr(), secret_key.len(),
            message.as_ptr(), message.len(),
            random.as_ptr(), random.len(),
            signature.as_mut_ptr(), signature.len(),
            work.as_mut_ptr(), work.len(),
        )
    }
}

/// Verifies a signature.
pub fn verify(set: usize, public_key: &[u8], message: &[u8], signature: &[u8], work: &mut [u8]) -> u8 {
    // SAFETY: every pointer comes from a slice with its length, and what is written is borrowed mutably, so nothing overlaps.
    unsafe {
        biscuit_verify(
            set,
            public_key.as_ptr(), public_key.len(),
            message.as_ptr(), message.len(),
            signature.as_ptr(), signature.len(),
            work.as_mut_ptr(), work.len(),
        )
    }
}

/// Writes an envelope.
pub fn write_envelope(set: usize, public_key: &[u8], signature: &[u8], message: &[u8], envelope: &mut [u8]) -> u8 {
    // SAFETY: every pointer comes from a slice with its length, and what is written is borrowed mutably, so nothing overlaps.
    unsafe {
        envelope_write(
            set,
            public_key.as_ptr(), public_key.len(),
            signature.as_ptr(), signature.len(),
            message.as_ptr(), message.len(),
            envelope.as_mut_ptr(), envelope.len(),
        )
    }
}

/// Reads an envelope.
pub fn read_envelope(envelope: &[u8]) -> u8 {
    // SAFETY: the pointer comes from a slice with its length, and nothing is written.
    unsafe { envelope_read(envelope.as_ptr(), envelope.len()) }
}

/// Gives the header of an envelope.
pub fn header_of_envelope(envelope: &[u8]) -> Header {
    // SAFETY: the pointer comes from a slice with its length, and nothing is written.
    unsafe { envelope_header(envelope.as_ptr(), envelope.len()) }
}

/// Gives the places of an envelope's parts.
pub fn places_of_envelope(envelope: &[u8]) -> Places {
    // SAFETY: the pointer comes from a slice with its length, and nothing is written.
    unsafe { envelope_places(envelope.as_ptr(), envelope.len()) }
}
