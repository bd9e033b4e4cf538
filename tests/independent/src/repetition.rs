//! One repetition of the protocol, for signing (algorithm 12) and for verifying (algorithm 13).
//! Repetitions and parties count from 1, and shares are kept by the party's number.

use crate::field::{add_vectors, pack, product_vectors, subtract_vectors};
use crate::forms::{linear_circuit, Circuit};
use crate::hashes::{commit, expand_tape};
use crate::sampling::sample_vector;
use crate::sets::Parameters;
use crate::tree::{get_path_seeds, get_seeds};
use std::collections::BTreeMap;

/// One vector (or seed, or commitment) for each party that has one.
pub type Shares = BTreeMap<usize, Vec<u8>>;

/// All values of one repetition. When verifying, the hidden party has only a commitment, its α
/// and its v. The shares of party 1 are kept with the corrections added.
#[derive(Default)]
pub struct Repetition {
    pub seed: Shares,
    pub com: Shares,
    pub s: Shares,
    pub a: Shares,
    pub c: Shares,
    pub delta_s: Vec<u8>,
    pub delta_c: Vec<u8>,
    pub x: Shares,
    pub y: Shares,
    pub z: Shares,
    pub alpha: Shares,
    pub v: Shares,
}

/// What a verifier reads of one repetition.
pub struct Opening {
    pub hidden: usize,
    pub path: Vec<Vec<u8>>,
    pub com: Vec<u8>,
    pub delta_s: Vec<u8>,
    pub delta_c: Vec<u8>,
    pub alpha: Vec<u8>,
}

/// Algorithm 12, lines 7 to 20, of the secret s with its values t and y.
pub fn sign_views(
    p: &Parameters,
    f: &Circuit,
    (s, t, y): (&[u8], &[u8], &[u8]),
    salt: &[u8],
    e: usize,
    root: &[u8],
) -> Repetition {
    let mut r = Repetition::default();
    let seeds = get_seeds(p, root, salt, e, p.parties()); // line 7
    for i in 1..=p.parties() {
        draw_shares(p, &mut r, salt, e, i, &seeds[i - 1]); // lines 9 to 12
    }
    let sum_a = sum(&r.a, p.m);
    r.delta_s = subtract_vectors(s, &sum(&r.s, p.n)); // line 14
    r.delta_c = subtract_vectors(&product_vectors(y, &sum_a), &sum(&r.c, p.m)); // line 15
    correct_first_party(&mut r); // lines 16 and 17
    for i in 1..=p.parties() {
        evaluate_party(&mut r, f, t, i); // line 19
    }
    r
}

/// Algorithm 12, lines 26 to 32.
pub fn sign_check(p: &Parameters, r: &mut Repetition, epsilon: &[u8]) {
    for i in 1..=p.parties() {
        let alpha = party_alpha(&r.x[&i], epsilon, &r.a[&i]); // line 27
        r.alpha.insert(i, alpha);
    }
    let alpha = sum(&r.alpha, p.m); // line 29
    for i in 1..=p.parties() {
        let v = party_v(&r.y[&i], &alpha, &r.z[&i], epsilon, &r.c[&i]); // line 31
        r.v.insert(i, v);
    }
}

/// Algorithm 13, lines 8 to 21.
pub fn verify_views(
    p: &Parameters,
    f: &Circuit,
    t: &[u8],
    salt: &[u8],
    e: usize,
    opening: &Opening,
) -> Repetition {
    let mut r = Repetition::default();
    r.com.insert(opening.hidden, opening.com.clone()); // line 8
    r.delta_s = opening.delta_s.clone(); // line 9
    r.delta_c = opening.delta_c.clone();
    let seeds = get_path_seeds(p, &opening.path, salt, e, opening.hidden, p.parties()); // line 10
    for i in all_but(p, opening.hidden) {
        let seed = seeds[i - 1].as_ref().unwrap();
        draw_shares(p, &mut r, salt, e, i, seed); // lines 12 to 15
        if i == 1 {
            correct_first_party(&mut r); // lines 17 and 18
        }
        evaluate_party(&mut r, f, t, i); // line 20
    }
    r
}

/// Algorithm 13, lines 22 to 30.
pub fn verify_check(p: &Parameters, r: &mut Repetition, epsilon: &[u8], opening: &Opening) {
    r.alpha.insert(opening.hidden, opening.alpha.clone()); // line 22
    for i in all_but(p, opening.hidden) {
        let alpha = party_alpha(&r.x[&i], epsilon, &r.a[&i]); // line 24
        r.alpha.insert(i, alpha);
    }
    let alpha = sum(&r.alpha, p.m); // line 26
    for i in all_but(p, opening.hidden) {
        let v = party_v(&r.y[&i], &alpha, &r.z[&i], epsilon, &r.c[&i]); // line 28
        r.v.insert(i, v);
    }
    let hidden_v = subtract_vectors(&vec![0; p.m], &sum(&r.v, p.m)); // line 30
    r.v.insert(opening.hidden, hidden_v);
}

/// σ1 of all repetitions: algorithm 12, line 22, and algorithm 13, line 32.
pub fn sigma_1(repetitions: &[Repetition]) -> Vec<u8> {
    repetitions.iter().flat_map(sigma_1_part).collect()
}

/// σ2 of all repetitions: algorithm 12, line 34, and algorithm 13, line 34.
pub fn sigma_2(repetitions: &[Repetition]) -> Vec<u8> {
    repetitions.iter().flat_map(sigma_2_part).collect()
}

/// What one repetition gives to σ1: all commitments, Δs packed, Δc packed.
pub fn sigma_1_part(r: &Repetition) -> Vec<u8> {
    [all(&r.com), pack(&r.delta_s), pack(&r.delta_c)].concat()
}

/// What one repetition gives to σ2: all α packed together, all v packed together.
pub fn sigma_2_part(r: &Repetition) -> Vec<u8> {
    [pack(&all(&r.alpha)), pack(&all(&r.v))].concat()
}

/// A party's α: algorithm 12, line 27.
pub fn party_alpha(x: &[u8], epsilon: &[u8], a: &[u8]) -> Vec<u8> {
    add_vectors(&product_vectors(x, epsilon), a)
}

/// A party's v: algorithm 12, line 31.
pub fn party_v(y: &[u8], alpha: &[u8], z: &[u8], epsilon: &[u8], c: &[u8]) -> Vec<u8> {
    let y_alpha = product_vectors(y, alpha);
    let z_epsilon = product_vectors(z, epsilon);
    subtract_vectors(&subtract_vectors(&y_alpha, &z_epsilon), c)
}

/// A party's commitment and raw shares: algorithm 12, lines 9 to 12.
fn draw_shares(p: &Parameters, r: &mut Repetition, salt: &[u8], e: usize, i: usize, seed: &[u8]) {
    r.seed.insert(i, seed.to_vec());
    r.com.insert(i, commit(p, salt, e, i, seed)); // line 9
    let mut tape = expand_tape(salt, e, i, seed);
    r.s.insert(i, sample_vector(&mut tape, p.n)); // line 10
    r.a.insert(i, sample_vector(&mut tape, p.m)); // line 11
    r.c.insert(i, sample_vector(&mut tape, p.m)); // line 12
}

/// Party 1 alone adds Δs and Δc: algorithm 12, lines 16 and 17.
fn correct_first_party(r: &mut Repetition) {
    r.s.insert(1, add_vectors(&r.s[&1], &r.delta_s));
    r.c.insert(1, add_vectors(&r.c[&1], &r.delta_c));
}

/// A party's x, y and z: algorithm 12, line 19.
fn evaluate_party(r: &mut Repetition, f: &Circuit, t: &[u8], i: usize) {
    let (x, y, z) = linear_circuit(&r.s[&i], t, i, f);
    r.x.insert(i, x);
    r.y.insert(i, y);
    r.z.insert(i, z);
}

/// The parties but the hidden one.
fn all_but(p: &Parameters, hidden: usize) -> Vec<usize> {
    (1..=p.parties()).filter(|i| *i != hidden).collect()
}

/// The sum over the parties of vectors of n elements.
fn sum(shares: &Shares, n: usize) -> Vec<u8> {
    let mut total = vec![0; n];
    for share in shares.values() {
        total = add_vectors(&total, share);
    }
    total
}

/// One after another in the order of the parties.
fn all(shares: &Shares) -> Vec<u8> {
    shares.values().flatten().copied().collect()
}
