//! The four calls of the desk: what is signed is accepted in every set, damage and inconsistent
//! keys are refused, and outputs and work are left as document 01 says.

use independent::desk::*;
use independent::sets::{Parameters, SETS};

const FILL: u8 = 0x5a;

fn filled(length: usize) -> Vec<u8> {
    vec![FILL; length]
}

fn pair(p: &Parameters) -> (Vec<u8>, Vec<u8>) {
    let mut secret_key = filled(p.secret_key_bytes());
    let mut public_key = filled(p.public_key_bytes());
    let number = make_keys(
        p.set,
        &vec![1; p.seed_bytes()],
        &vec![2; p.seed_bytes()],
        &mut secret_key,
        &mut public_key,
        &mut filled(WORK_BYTES),
    );
    assert_eq!(number, DONE);
    (secret_key, public_key)
}

fn signed(p: &Parameters, secret_key: &[u8], message: &[u8], random: &[u8]) -> Vec<u8> {
    let mut signature = filled(p.signature_bytes());
    let mut work = filled(WORK_BYTES);
    let number = sign(
        p.set,
        secret_key,
        message,
        random,
        &mut signature,
        &mut work,
    );
    assert_eq!(number, DONE);
    signature
}

fn verdict(p: &Parameters, public_key: &[u8], message: &[u8], signature: &[u8]) -> u8 {
    verify(
        p.set,
        public_key,
        message,
        signature,
        &mut filled(WORK_BYTES),
    )
}

fn work_was_used(work: &[u8]) -> bool {
    work[..WORK_BYTES].iter().all(|byte| *byte == 0)
        && work[WORK_BYTES..].iter().all(|byte| *byte == FILL)
}

#[test]
fn what_is_signed_is_accepted_in_every_set() {
    for p in &SETS {
        let (secret_key, public_key) = pair(p);
        let random = vec![3; 2 * p.seed_bytes()];
        let signature = signed(p, &secret_key, b"slate", &random);
        assert_eq!(verdict(p, &public_key, b"slate", &signature), DONE);
        assert_eq!(verdict(p, &public_key, b"slat", &signature), NOT_ACCEPTED);
    }
}

#[test]
fn damage_in_any_section_is_refused() {
    let p = &SETS[1];
    let (secret_key, public_key) = pair(p);
    let signature = signed(p, &secret_key, b"", b"");
    let part = p.levels * p.seed_bytes() + p.hash_bytes();
    let vectors = 3 * p.hash_bytes() + p.tau * part;
    let hidden_alpha = vectors + p.tau * (p.n + p.m) / 2;
    let places = [
        0,                             // salt
        p.hash_bytes(),                // first hash
        2 * p.hash_bytes(),            // second hash
        3 * p.hash_bytes(),            // path
        3 * p.hash_bytes() + part - 1, // commitment
        vectors - part,                // path of the last repetition
        vectors,                       // Δs
        vectors + p.n / 2,             // Δc
        hidden_alpha,                  // hidden α
        signature.len() - 1,           // the last element
    ];
    for place in places {
        for bit in [0x01, 0x80] {
            let mut damaged = signature.clone();
            damaged[place] ^= bit;
            assert_eq!(
                verdict(p, &public_key, b"", &damaged),
                NOT_ACCEPTED,
                "{place}"
            );
        }
    }
    let mut other_key = public_key.clone();
    other_key[p.seed_bytes()] ^= 1;
    assert_eq!(verdict(p, &other_key, b"", &signature), NOT_ACCEPTED);
}

#[test]
fn outputs_and_work_longer_than_needed() {
    let p = &SETS[3];
    let (secret_key, public_key) = pair(p);
    let mut output = filled(p.secret_key_bytes() + 2);
    let mut second = filled(p.public_key_bytes() + 3);
    let mut work = filled(WORK_BYTES + 4);
    let (circuit_seed, secret_seed) = (vec![1; 24], vec![2; 24]);
    let number = make_keys(
        4,
        &circuit_seed,
        &secret_seed,
        &mut output,
        &mut second,
        &mut work,
    );
    assert_eq!(number, DONE);
    assert_eq!(output, [&secret_key[..], &[FILL; 2]].concat());
    assert_eq!(second, [&public_key[..], &[FILL; 3]].concat());
    assert!(work_was_used(&work));

    let mut output = filled(p.public_key_bytes() + 1);
    let mut work = filled(WORK_BYTES + 4);
    assert_eq!(public_half(4, &secret_key, &mut output, &mut work), DONE);
    assert_eq!(output, [&public_key[..], &[FILL; 1]].concat());
    assert!(work_was_used(&work));

    let mut output = filled(p.signature_bytes() + 1);
    let mut work = filled(WORK_BYTES + 4);
    assert_eq!(
        sign(4, &secret_key, b"a", b"", &mut output, &mut work),
        DONE
    );
    assert_eq!(output[p.signature_bytes()], FILL);
    assert!(work_was_used(&work));

    output[0] ^= 1;
    let mut work = filled(WORK_BYTES + 4);
    let signature = &output[..p.signature_bytes()];
    assert_eq!(
        verify(4, &public_key, b"a", signature, &mut work),
        NOT_ACCEPTED
    );
    assert!(work_was_used(&work));
}

#[test]
fn inconsistent_keys_are_refused() {
    for p in [&SETS[1], &SETS[3], &SETS[5]] {
        let (secret_key, _) = pair(p);
        // a place in the circuit seed, in s, in t and in y
        let s_at = p.seed_bytes();
        for place in [0, s_at, s_at + p.n / 2 + 1, s_at + (p.n + p.m) / 2 + 1] {
            let mut damaged = secret_key.clone();
            damaged[place] ^= 1;
            let mut output = filled(p.signature_bytes());
            let mut work = filled(WORK_BYTES + 1);
            let number = public_half(p.set, &damaged, &mut output, &mut work);
            assert_eq!(number, KEY_NOT_CONSISTENT);
            assert!(work_was_used(&work));
            let mut work = filled(WORK_BYTES + 1);
            let number = sign(p.set, &damaged, b"", b"", &mut output, &mut work);
            assert_eq!(number, KEY_NOT_CONSISTENT);
            assert!(work_was_used(&work));
            assert_eq!(output, filled(p.signature_bytes()));
        }
    }
}

#[test]
fn unused_bits_of_a_key_are_ignored() {
    let p = &SETS[1]; // m is odd: the public key has four unused bits
    let (secret_key, mut public_key) = pair(p);
    let signature = signed(p, &secret_key, b"b", b"");
    assert_eq!(public_key[49] >> 4, 0);
    public_key[49] |= 0xf0;
    assert_eq!(verdict(p, &public_key, b"b", &signature), DONE);

    let p = &SETS[3]; // n is odd: the secret key has four unused bits
    let (mut secret_key, public_key) = pair(p);
    let plain = signed(p, &secret_key, b"b", b"");
    assert_eq!(secret_key[157] >> 4, 0);
    secret_key[157] |= 0xf0;
    let mut output = filled(p.public_key_bytes());
    let mut work = filled(WORK_BYTES);
    assert_eq!(public_half(4, &secret_key, &mut output, &mut work), DONE);
    assert_eq!(output, public_key);
    // salt and roots come from the key's bytes as given
    let signature = signed(p, &secret_key, b"b", b"");
    assert_ne!(signature, plain);
    assert_eq!(verdict(p, &public_key, b"b", &signature), DONE);
}

#[test]
fn the_longest_message() {
    let p = &SETS[1];
    let (secret_key, public_key) = pair(p);
    let message = vec![4; MESSAGE_LIMIT];
    let signature = signed(p, &secret_key, &message, b"");
    assert_eq!(verdict(p, &public_key, &message, &signature), DONE);
}
