//! The cases of the test of the desk, for one set, in order: a call finds keys and signature as the
//! calls before it left them. Both sides of every size, which of two refusals wins, keys that are not
//! consistent, and damage in every section of a signature.

use super::case::{Call, Case, Part};
use crate::desk::{MESSAGE_LIMIT, WORK_BYTES};
use crate::sets::{packed_bytes, Parameters};

/// Where the secret seed and the message begin in the input.
pub const SECRET_SEED: usize = 33;
pub const MESSAGE: usize = 438;

/// The bits that are changed: the lowest, the highest, and the four of a key's last byte that no
/// element takes where their number is odd.
const LOW: u8 = 1;
const HIGH: u8 = 0x80;
const UNUSED: u8 = 0xf0;

/// All cases of a set. Most sign a short message, and have a byte of work more than is needed.
pub fn of_set(p: &Parameters) -> Vec<Case> {
    let right = Case {
        call: Call::MakeKeys,
        name: "",
        number: p.set,
        circuit_seed: p.seed_bytes(),
        secret_seed: p.seed_bytes(),
        secret_key: p.secret_key_bytes(),
        public_key: p.public_key_bytes(),
        message: 40,
        random: 0,
        signature: p.signature_bytes(),
        work: WORK_BYTES + 1,
        damage: None,
    };
    let halving = right.with(|k| k.call = Call::PublicHalf);
    let signing = right.with(|k| k.call = Call::Sign);
    let verifying = right.with(|k| k.call = Call::Verify);
    let mut cases = make_keys(&right);
    cases.extend(public_half(p, &halving));
    cases.extend(sign_refused(p, &signing));
    cases.extend(signed(p, &signing));
    cases.extend(verify_refused(&verifying));
    cases.extend(verify_damaged(p, &verifying));
    cases
        .into_iter()
        .map(|(name, case)| Case { name, ..case })
        .collect()
}

/// A case with its name.
type Named = (&'static str, Case);

/// Make keys. The last case leaves the keys that the other calls are given.
fn make_keys(right: &Case) -> Vec<Named> {
    let k = right.with(|k| (k.secret_key, k.public_key) = (k.secret_key + 1, k.public_key + 1));
    let from_7 = k.with(|k| k.work = WORK_BYTES - 1);
    let from_6 =
        from_7.with(|k| (k.secret_key, k.public_key) = (k.secret_key - 2, k.public_key - 2));
    let from_2 =
        from_6.with(|k| (k.circuit_seed, k.secret_seed) = (k.circuit_seed - 1, k.secret_seed + 1));
    vec![
        ("no such set", k.with(|k| k.number = 0)),
        ("no such set", k.with(|k| k.number = 7)),
        ("short circuit seed", k.with(|k| k.circuit_seed -= 1)),
        ("long circuit seed", k.with(|k| k.circuit_seed += 1)),
        ("short secret seed", k.with(|k| k.secret_seed -= 1)),
        ("long secret seed", k.with(|k| k.secret_seed += 1)),
        ("short secret key", k.with(|k| k.secret_key -= 2)),
        ("short public key", k.with(|k| k.public_key -= 2)),
        ("short work", from_7),
        ("wrong from 1 on", from_2.with(|k| k.number = 0)),
        ("wrong from 2 on", from_2),
        ("wrong from 6 on", from_6),
        ("exact room", right.with(|k| k.work = WORK_BYTES)),
        ("another circuit seed", k.damaged(Part::Input, 0, LOW)),
        (
            "another secret seed",
            k.damaged(Part::Input, SECRET_SEED, LOW),
        ),
        ("longer room", k),
    ]
}

/// Public half of the secret key, and of keys that are not consistent.
fn public_half(p: &Parameters, right: &Case) -> Vec<Named> {
    let k = right.with(|k| k.public_key += 1);
    let from_7 = k.with(|k| k.work = WORK_BYTES - 1);
    let from_6 = from_7.with(|k| k.public_key -= 2);
    let from_4 = from_6.with(|k| k.secret_key -= 1);
    let mut cases = vec![
        ("no such set", k.with(|k| k.number = 0)),
        ("no such set", k.with(|k| k.number = 7)),
        ("short key", k.with(|k| k.secret_key -= 1)),
        ("long key", k.with(|k| k.secret_key += 1)),
        ("short output", k.with(|k| k.public_key -= 2)),
        ("short work", from_7.clone()),
        ("wrong from 1 on", from_4.with(|k| k.number = 0)),
        ("wrong from 4 on", from_4),
        ("wrong from 6 on", from_6),
        ("wrong from 7 on", from_7.damaged(Part::SecretKey, 0, LOW)),
        ("exact room", right.with(|k| k.work = WORK_BYTES)),
        ("longer room", k.clone()),
    ];
    cases.extend(inconsistent(p, &k));
    cases.extend(unused(p.n + 2 * p.m, &k, Part::SecretKey, k.secret_key));
    cases
}

/// Sign where that is refused.
fn sign_refused(p: &Parameters, right: &Case) -> Vec<Named> {
    let k = right.with(|k| k.signature += 1);
    let from_7 = k.with(|k| k.work = WORK_BYTES - 1);
    let from_6 = from_7.with(|k| k.signature -= 2);
    let from_4 = from_6.with(|k| k.secret_key -= 1);
    let from_3 = from_4.with(|k| k.message = MESSAGE_LIMIT + 1);
    let from_2 = from_3.with(|k| k.random = 1);
    let mut cases = vec![
        ("no such set", k.with(|k| k.number = 0)),
        ("no such set", k.with(|k| k.number = 7)),
        ("one random byte", k.with(|k| k.random = 1)),
        ("short random", k.with(|k| k.random = p.hash_bytes() - 1)),
        ("long random", k.with(|k| k.random = p.hash_bytes() + 1)),
        ("long message", k.with(|k| k.message = MESSAGE_LIMIT + 1)),
        ("short key", k.with(|k| k.secret_key -= 1)),
        ("long key", k.with(|k| k.secret_key += 1)),
        ("short output", k.with(|k| k.signature -= 2)),
        ("short work", from_7.clone()),
        ("wrong from 1 on", from_2.with(|k| k.number = 0)),
        ("wrong from 2 on", from_2),
        ("wrong from 3 on", from_3),
        ("wrong from 4 on", from_4),
        ("wrong from 6 on", from_6),
        ("wrong from 7 on", from_7.damaged(Part::SecretKey, 0, LOW)),
    ];
    cases.extend(inconsistent(p, &k));
    cases
}

/// Sign, and verify what was signed: with bits of the key that no element takes, which are hashed
/// as given; the shortest and the longest message; random bytes or none. The last case leaves the
/// signature that is verified later.
fn signed(p: &Parameters, right: &Case) -> Vec<Named> {
    let k = right.with(|k| k.signature += 1);
    let exact = right.with(|k| (k.message, k.work) = (0, WORK_BYTES));
    let mut cases = unused(p.n + 2 * p.m, &k, Part::SecretKey, k.secret_key);
    cases.extend([
        ("no message, exact room", exact),
        ("longest message", k.with(|k| k.message = MESSAGE_LIMIT)),
        ("random bytes", k.with(|k| k.random = p.hash_bytes())),
        ("no random bytes", k),
    ]);
    let verified = |case: &Case| Case {
        call: Call::Verify,
        signature: right.signature,
        damage: None,
        ..case.clone()
    };
    cases
        .into_iter()
        .flat_map(|(name, case)| [(name, case.clone()), (name, verified(&case))])
        .collect()
}

/// Verify where a size is wrong.
fn verify_refused(k: &Case) -> Vec<Named> {
    let from_7 = k.with(|k| k.work = WORK_BYTES - 1);
    let from_5 = from_7.with(|k| k.signature -= 1);
    let from_4 = from_5.with(|k| k.public_key -= 1);
    let from_3 = from_4.with(|k| k.message = MESSAGE_LIMIT + 1);
    vec![
        ("no such set", k.with(|k| k.number = 0)),
        ("no such set", k.with(|k| k.number = 7)),
        ("long message", k.with(|k| k.message = MESSAGE_LIMIT + 1)),
        ("short key", k.with(|k| k.public_key -= 1)),
        ("long key", k.with(|k| k.public_key += 1)),
        ("short signature", k.with(|k| k.signature -= 1)),
        ("long signature", k.with(|k| k.signature += 1)),
        ("short work", from_7.clone()),
        ("wrong from 1 on", from_3.with(|k| k.number = 0)),
        ("wrong from 3 on", from_3),
        ("wrong from 4 on", from_4),
        ("wrong from 5 on", from_5),
        ("wrong from 7 on", from_7.damaged(Part::Signature, 0, LOW)),
    ]
}

/// Verify where message, public key or signature is another: a bit in each section of the
/// signature, of the first and of the last repetition. A byte of the packing is one that its
/// section has, at least in the lower half.
fn verify_damaged(p: &Parameters, k: &Case) -> Vec<Named> {
    let (h, path) = (p.hash_bytes(), p.levels * p.seed_bytes());
    let packing = 3 * h + p.tau * (path + h);
    let alphas = p.tau * (p.n + p.m);
    let low = |at: usize| k.damaged(Part::Signature, at, LOW);
    let high = |at: usize| k.damaged(Part::Signature, at, HIGH);
    let mut cases = unused(p.m, k, Part::PublicKey, k.public_key);
    cases.extend([
        ("circuit seed damaged", k.damaged(Part::PublicKey, 0, LOW)),
        ("t damaged", k.damaged(Part::PublicKey, p.seed_bytes(), LOW)),
        ("message damaged", k.damaged(Part::Input, MESSAGE, LOW)),
        ("message cut", k.with(|k| k.message -= 1)),
        ("message longer", k.with(|k| k.message += 1)),
        ("salt damaged", low(0)),
        ("first hash damaged", low(h)),
        ("second hash damaged", low(2 * h)),
        ("first path damaged", low(3 * h)),
        ("first hidden commitment damaged", low(3 * h + path)),
        ("last path damaged", low(packing - h - path)),
        ("last hidden commitment damaged", high(packing - 1)),
        ("first delta s damaged", low(packing)),
        ("first delta c damaged", low(packing + packed_bytes(p.n))),
        ("last delta c damaged", low(packing + (alphas - 1) / 2)),
        (
            "first hidden alpha damaged",
            low(packing + packed_bytes(alphas)),
        ),
        ("last hidden alpha damaged", high(k.signature - 1)),
    ]);
    cases
}

/// A bit changed in each part of a secret key.
fn inconsistent(p: &Parameters, k: &Case) -> [Named; 4] {
    let element = |e: usize| k.damaged(Part::SecretKey, p.seed_bytes() + packed_bytes(e), LOW);
    [
        ("circuit seed damaged", k.damaged(Part::SecretKey, 0, LOW)),
        ("s damaged", element(0)),
        ("t damaged", element(p.n)),
        ("y damaged", element(p.n + p.m)),
    ]
}

/// Where a key has an odd number of elements, the four bits behind the last.
fn unused(elements: usize, k: &Case, key: Part, length: usize) -> Vec<Named> {
    match elements % 2 {
        1 => vec![("unused bits set", k.damaged(key, length - 1, UNUSED))],
        _ => vec![],
    }
}
