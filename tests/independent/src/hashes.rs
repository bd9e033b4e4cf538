//! The uses of SHAKE256 in section 4.4. Each begins with a byte of its own, except PRF. An
//! output of 2λ bits is 2S bytes.

use crate::sets::Parameters;
use crate::shake::{shake256, Tape};

const COMMITMENT: &[u8] = &[0];
const FIRST_HASH: &[u8] = &[1];
const SECOND_HASH: &[u8] = &[2];
const CHILD_SEEDS: &[u8] = &[3];
const TAPE: &[u8] = &[4];

/// A 16-bit number, the least significant byte first.
pub fn enc16(number: usize) -> [u8; 2] {
    (number as u16).to_le_bytes()
}

/// Commit(salt, e, i, seed).
pub fn commit(p: &Parameters, salt: &[u8], e: usize, i: usize, seed: &[u8]) -> Vec<u8> {
    let input = [COMMITMENT, salt, &enc16(e), &enc16(i), seed].concat();
    shake256(&input, p.hash_bytes())
}

/// What H1(salt, msg, σ1) hashes.
pub fn h1_input(salt: &[u8], message: &[u8], sigma_1: &[u8]) -> Vec<u8> {
    [FIRST_HASH, salt, message, sigma_1].concat()
}

/// H1(salt, msg, σ1).
pub fn h1(p: &Parameters, salt: &[u8], message: &[u8], sigma_1: &[u8]) -> Vec<u8> {
    shake256(&h1_input(salt, message, sigma_1), p.hash_bytes())
}

/// What H2(salt, h1, σ2) hashes.
pub fn h2_input(salt: &[u8], h1: &[u8], sigma_2: &[u8]) -> Vec<u8> {
    [SECOND_HASH, salt, h1, sigma_2].concat()
}

/// H2(salt, h1, σ2).
pub fn h2(p: &Parameters, salt: &[u8], h1: &[u8], sigma_2: &[u8]) -> Vec<u8> {
    shake256(&h2_input(salt, h1, sigma_2), p.hash_bytes())
}

/// ChildSeeds(salt, e, k, j, seed): the left child, then the right.
pub fn child_seeds(
    p: &Parameters,
    salt: &[u8],
    e: usize,
    k: usize,
    j: usize,
    seed: &[u8],
) -> (Vec<u8>, Vec<u8>) {
    let input = [CHILD_SEEDS, salt, &enc16(e), &enc16(k), &enc16(j), seed].concat();
    let both = shake256(&input, 2 * p.seed_bytes());
    let (left, right) = both.split_at(p.seed_bytes());
    (left.to_vec(), right.to_vec())
}

/// ExpandTape(salt, e, i, seed).
pub fn expand_tape(salt: &[u8], e: usize, i: usize, seed: &[u8]) -> Tape {
    Tape::new(&[TAPE, salt, &enc16(e), &enc16(i), seed].concat())
}

/// PRF(input, 8 out_len).
pub fn prf(input: &[u8], out_len: usize) -> Vec<u8> {
    shake256(input, out_len)
}
