//! Keys, signing and verifying, algorithms 11 to 13. Lengths are as they should be: the tests
//! and the refusals are in desk.rs.

use crate::field::{pack, unpack};
use crate::forms::{eval_circuit, expand_circuit};
use crate::hashes::{h1, h2, prf};
use crate::repetition::{
    sigma_1, sigma_2, sign_check, sign_views, verify_check, verify_views, Opening, Repetition,
};
use crate::sampling::{expand_indexes, expand_vectors};
use crate::sets::Parameters;
use crate::tree::get_path;

/// A secret key read: algorithm 12, line 2.
pub struct SecretKey {
    pub circuit_seed: Vec<u8>,
    pub s: Vec<u8>,
    pub t: Vec<u8>,
    pub y: Vec<u8>,
}

/// All values of a signature in the making.
pub struct Signing {
    pub salt: Vec<u8>,
    pub roots: Vec<Vec<u8>>,
    pub repetitions: Vec<Repetition>,
    pub sigma_1: Vec<u8>,
    pub h1: Vec<u8>,
    pub epsilon: Vec<Vec<u8>>,
    pub sigma_2: Vec<u8>,
    pub h2: Vec<u8>,
    pub hidden: Vec<usize>,
    pub signature: Vec<u8>,
}

/// A signature read, and all values of its verification.
pub struct Verifying {
    pub openings: Vec<Opening>,
    pub repetitions: Vec<Repetition>,
    pub sigma_1: Vec<u8>,
    pub sigma_2: Vec<u8>,
    pub first_hash_agrees: bool,
    pub second_hash_agrees: bool,
}

/// Algorithm 11: secret key and public key.
pub fn keys(p: &Parameters, circuit_seed: &[u8], secret_seed: &[u8]) -> (Vec<u8>, Vec<u8>) {
    let f = expand_circuit(p, circuit_seed); // line 3
    let s = expand_vectors(secret_seed, 1, p.n).remove(0); // line 5
    let (y, t) = eval_circuit(&s, &f); // line 6
    let packed = pack(&[&s[..], &t[..], &y[..]].concat());
    let secret_key = [circuit_seed, &packed].concat(); // line 7
    (secret_key, public_key(circuit_seed, &t))
}

/// Algorithm 11, line 8.
pub fn public_key(circuit_seed: &[u8], t: &[u8]) -> Vec<u8> {
    [circuit_seed, &pack(t)].concat()
}

/// Algorithm 12, line 2.
pub fn read_secret_key(p: &Parameters, secret_key: &[u8]) -> SecretKey {
    let (circuit_seed, packed) = secret_key.split_at(p.seed_bytes());
    let elements = unpack(packed, p.n + p.m + p.m);
    SecretKey {
        circuit_seed: circuit_seed.to_vec(),
        s: elements[..p.n].to_vec(),
        t: elements[p.n..p.n + p.m].to_vec(),
        y: elements[p.n + p.m..].to_vec(),
    }
}

/// Whether t and y are the values that the key's own circuit seed and s give.
pub fn consistent(p: &Parameters, key: &SecretKey) -> bool {
    let f = expand_circuit(p, &key.circuit_seed);
    let (y, t) = eval_circuit(&key.s, &f);
    y == key.y && t == key.t
}

/// Algorithm 12. `random` is rnd of line 4: 2S bytes, or none.
pub fn sign(p: &Parameters, secret_key: &[u8], message: &[u8], random: &[u8]) -> Signing {
    let key = read_secret_key(p, secret_key); // line 2
    let f = expand_circuit(p, &key.circuit_seed); // line 3
    let (salt, roots) = salt_and_roots(p, secret_key, message, random); // line 5
    let mut repetitions = Vec::new();
    for e in 1..=p.tau {
        let secret = (&key.s[..], &key.t[..], &key.y[..]);
        repetitions.push(sign_views(p, &f, secret, &salt, e, &roots[e - 1])); // lines 7 to 20
    }
    let sigma_1 = sigma_1(&repetitions); // line 22
    let h1 = h1(p, &salt, message, &sigma_1); // line 23
    let epsilon = expand_vectors(&h1, p.tau, p.m); // line 24
    for e in 1..=p.tau {
        sign_check(p, &mut repetitions[e - 1], &epsilon[e - 1]); // lines 26 to 32
    }
    let sigma_2 = sigma_2(&repetitions); // line 34
    let h2 = h2(p, &salt, &h1, &sigma_2); // line 35
    let hidden = expand_indexes(&h2, p.tau, p.levels); // line 36
    let mut signature = [&salt[..], &h1, &h2].concat(); // line 40
    for e in 1..=p.tau {
        let path = get_path(p, &roots[e - 1], &salt, e, hidden[e - 1], p.parties()); // line 38
        signature.extend(path.concat());
        signature.extend(&repetitions[e - 1].com[&hidden[e - 1]]);
    }
    signature.extend(pack(&vector_section(&repetitions, &hidden)));
    Signing {
        salt,
        roots,
        repetitions,
        sigma_1,
        h1,
        epsilon,
        sigma_2,
        h2,
        hidden,
        signature,
    }
}

/// Algorithm 12, line 5: from the random bytes, the secret key's bytes as given, the message.
fn salt_and_roots(
    p: &Parameters,
    secret_key: &[u8],
    message: &[u8],
    random: &[u8],
) -> (Vec<u8>, Vec<Vec<u8>>) {
    let input = [random, secret_key, message].concat();
    let output = prf(&input, p.hash_bytes() + p.tau * p.seed_bytes());
    let (salt, roots) = output.split_at(p.hash_bytes());
    let roots = roots.chunks(p.seed_bytes()).map(<[u8]>::to_vec).collect();
    (salt.to_vec(), roots)
}

/// What line 40 of algorithm 12 packs: all pairs of Δs and Δc, then all hidden α.
fn vector_section(repetitions: &[Repetition], hidden: &[usize]) -> Vec<u8> {
    let mut elements = Vec::new();
    for r in repetitions {
        elements.extend(&r.delta_s);
        elements.extend(&r.delta_c);
    }
    for (r, hidden) in repetitions.iter().zip(hidden) {
        elements.extend(&r.alpha[hidden]);
    }
    elements
}

/// Algorithm 13: whether the signature is valid.
pub fn verify(p: &Parameters, public_key: &[u8], message: &[u8], signature: &[u8]) -> bool {
    let verifying = verify_values(p, public_key, message, signature);
    verifying.first_hash_agrees && verifying.second_hash_agrees // line 36
}

/// Algorithm 13, lines 2 to 35, and each half of line 36.
pub fn verify_values(
    p: &Parameters,
    public_key: &[u8],
    message: &[u8],
    signature: &[u8],
) -> Verifying {
    let (circuit_seed, packed) = public_key.split_at(p.seed_bytes()); // line 2
    let t = unpack(packed, p.m);
    let f = expand_circuit(p, circuit_seed); // line 3
    let hash_bytes = p.hash_bytes();
    let salt = &signature[..hash_bytes]; // line 4
    let sig_h1 = &signature[hash_bytes..2 * hash_bytes];
    let sig_h2 = &signature[2 * hash_bytes..3 * hash_bytes];
    let epsilon = expand_vectors(sig_h1, p.tau, p.m); // line 5
    let hidden = expand_indexes(sig_h2, p.tau, p.levels); // line 6
    let openings = read_openings(p, &signature[3 * hash_bytes..], &hidden); // lines 8, 9 and 22
    let mut repetitions = Vec::new();
    for e in 1..=p.tau {
        let mut r = verify_views(p, &f, &t, salt, e, &openings[e - 1]); // lines 8 to 21
        verify_check(p, &mut r, &epsilon[e - 1], &openings[e - 1]); // lines 22 to 30
        repetitions.push(r);
    }
    let sigma_1 = sigma_1(&repetitions); // line 32
    let sigma_2 = sigma_2(&repetitions); // line 34
    Verifying {
        openings,
        repetitions,
        first_hash_agrees: sig_h1 == h1(p, salt, message, &sigma_1), // lines 33 and 36
        second_hash_agrees: sig_h2 == h2(p, salt, sig_h1, &sigma_2), // lines 35 and 36
        sigma_1,
        sigma_2,
    }
}

/// What follows the hashes in a signature: algorithm 13, lines 8, 9 and 22.
fn read_openings(p: &Parameters, rest: &[u8], hidden: &[usize]) -> Vec<Opening> {
    let path_bytes = p.levels * p.seed_bytes();
    let (seeds, packed) = rest.split_at(p.tau * (path_bytes + p.hash_bytes()));
    let elements = unpack(packed, p.tau * (p.n + p.m) + p.tau * p.m);
    let (corrections, alphas) = elements.split_at(p.tau * (p.n + p.m));
    let mut openings = Vec::new();
    for e in 1..=p.tau {
        let part = &seeds[(e - 1) * (path_bytes + p.hash_bytes())..][..path_bytes + p.hash_bytes()];
        let correction = &corrections[(e - 1) * (p.n + p.m)..][..p.n + p.m];
        let path = part[..path_bytes].chunks(p.seed_bytes());
        openings.push(Opening {
            hidden: hidden[e - 1],
            path: path.map(<[u8]>::to_vec).collect(),
            com: part[path_bytes..].to_vec(),
            delta_s: correction[..p.n].to_vec(),
            delta_c: correction[p.n..].to_vec(),
            alpha: alphas[(e - 1) * p.m..][..p.m].to_vec(),
        });
    }
    openings
}
