//! "What the desk says" of document 01: the four calls with their numbers, and every byte that
//! they were lent afterwards. Outputs and work are changed in place; the answer is the number.

use crate::biscuit;
use crate::sets::parameters;

pub const DONE: u8 = 0;
pub const NO_SUCH_SET: u8 = 1;
pub const SEED_OR_RANDOM_LENGTH: u8 = 2;
pub const MESSAGE_TOO_LONG: u8 = 3;
pub const KEY_LENGTH: u8 = 4;
pub const SIGNATURE_LENGTH: u8 = 5;
pub const OUTPUT_TOO_SHORT: u8 = 6;
pub const WORK_TOO_SHORT: u8 = 7;
pub const KEY_NOT_CONSISTENT: u8 = 8;
pub const NOT_ACCEPTED: u8 = 9;
pub const ENVELOPE_LENGTH: u8 = 10;
pub const ENVELOPE_VERSION: u8 = 11;

pub const MESSAGE_LIMIT: usize = 32_768;
pub const WORK_BYTES: usize = 65_536;

/// Make keys: tests 1, 2, 6 (either output), 7.
pub fn make_keys(
    set: usize,
    circuit_seed: &[u8],
    secret_seed: &[u8],
    secret_key: &mut [u8],
    public_key: &mut [u8],
    work: &mut [u8],
) -> u8 {
    let Some(p) = parameters(set) else {
        return NO_SUCH_SET;
    };
    if circuit_seed.len() != p.seed_bytes() || secret_seed.len() != p.seed_bytes() {
        return SEED_OR_RANDOM_LENGTH;
    }
    if secret_key.len() < p.secret_key_bytes() || public_key.len() < p.public_key_bytes() {
        return OUTPUT_TOO_SHORT;
    }
    if work.len() < WORK_BYTES {
        return WORK_TOO_SHORT;
    }
    work[..WORK_BYTES].fill(0);
    let (secret, public) = biscuit::keys(p, circuit_seed, secret_seed);
    secret_key[..secret.len()].copy_from_slice(&secret);
    public_key[..public.len()].copy_from_slice(&public);
    DONE
}

/// Public half of a secret key: tests 1, 4, 6, 7, 8.
pub fn public_half(set: usize, secret_key: &[u8], public_key: &mut [u8], work: &mut [u8]) -> u8 {
    let Some(p) = parameters(set) else {
        return NO_SUCH_SET;
    };
    if secret_key.len() != p.secret_key_bytes() {
        return KEY_LENGTH;
    }
    if public_key.len() < p.public_key_bytes() {
        return OUTPUT_TOO_SHORT;
    }
    if work.len() < WORK_BYTES {
        return WORK_TOO_SHORT;
    }
    work[..WORK_BYTES].fill(0);
    let key = biscuit::read_secret_key(p, secret_key);
    if !biscuit::consistent(p, &key) {
        return KEY_NOT_CONSISTENT;
    }
    let public = biscuit::public_key(&key.circuit_seed, &key.t);
    public_key[..public.len()].copy_from_slice(&public);
    DONE
}

/// Sign: tests 1, 2 (random bytes), 3, 4, 6, 7, 8.
pub fn sign(
    set: usize,
    secret_key: &[u8],
    message: &[u8],
    random: &[u8],
    signature: &mut [u8],
    work: &mut [u8],
) -> u8 {
    let Some(p) = parameters(set) else {
        return NO_SUCH_SET;
    };
    if !random.is_empty() && random.len() != 2 * p.seed_bytes() {
        return SEED_OR_RANDOM_LENGTH;
    }
    if message.len() > MESSAGE_LIMIT {
        return MESSAGE_TOO_LONG;
    }
    if secret_key.len() != p.secret_key_bytes() {
        return KEY_LENGTH;
    }
    if signature.len() < p.signature_bytes() {
        return OUTPUT_TOO_SHORT;
    }
    if work.len() < WORK_BYTES {
        return WORK_TOO_SHORT;
    }
    work[..WORK_BYTES].fill(0);
    let key = biscuit::read_secret_key(p, secret_key);
    if !biscuit::consistent(p, &key) {
        return KEY_NOT_CONSISTENT;
    }
    let signed = biscuit::sign(p, secret_key, message, random).signature;
    signature[..signed.len()].copy_from_slice(&signed);
    DONE
}

/// Verify: tests 1, 3, 4, 5, 7, 9.
pub fn verify(
    set: usize,
    public_key: &[u8],
    message: &[u8],
    signature: &[u8],
    work: &mut [u8],
) -> u8 {
    let Some(p) = parameters(set) else {
        return NO_SUCH_SET;
    };
    if message.len() > MESSAGE_LIMIT {
        return MESSAGE_TOO_LONG;
    }
    if public_key.len() != p.public_key_bytes() {
        return KEY_LENGTH;
    }
    if signature.len() != p.signature_bytes() {
        return SIGNATURE_LENGTH;
    }
    if work.len() < WORK_BYTES {
        return WORK_TOO_SHORT;
    }
    work[..WORK_BYTES].fill(0);
    if !biscuit::verify(p, public_key, message, signature) {
        return NOT_ACCEPTED;
    }
    DONE
}
