//! The expected output of the test programs: one line a case, the case named, bytes in lower-case
//! hexadecimal.

mod case;
mod cases;
mod desk;

use crate::clips;
use crate::field::pack;
use crate::forms::{eval_circuit, expand_circuit, linear_values, Circuit};
use crate::hashes::{h1, h2};
use crate::repetition::{
    sigma_1_part, sigma_2_part, sign_check, sign_views, verify_check, verify_views, Opening,
    Repetition,
};
use crate::sampling::{expand_indexes, expand_vectors};
use crate::sets::{parameters, Parameters};
use crate::shake::shake256;
use crate::tree::{get_path, get_path_seeds, get_seeds};

/// What `test_NAME` must print; none for a name that is not known.
pub fn expected(name: &str) -> Option<String> {
    match name {
        "sponge" => Some(sponge()),
        "tree" => Some(of_sets(&[1, 2, 3, 4, 5, 6], tree)),
        "forms" => Some(of_sets(&[1, 2, 3, 4, 5, 6], forms)),
        "parties" => Some(of_sets(&[2, 5], parties)),
        "clip" => Some(clips::lines()),
        "desk" => Some(of_sets(&[1, 2, 3, 4, 5, 6], desk::desk)),
        _ => None,
    }
}

/// SHAKE256: published messages, both sides of a block at the input and at the output, and a
/// place far into a long output.
fn sponge() -> String {
    let mut lines = String::new();
    lines += &line("empty message, 512 bytes", &shake256(&[], 512));
    lines += &line("200 bytes of a3, 512 bytes", &shake256(&[0xa3; 200], 512));
    for length in [0, 1, 135, 136, 137, 271, 272, 273] {
        let output = shake256(&pattern(length), 64);
        lines += &line(&format!("input {length}, whole, 64 bytes"), &output);
        lines += &line(&format!("input {length}, in pieces, 64 bytes"), &output);
    }
    for length in [0, 1, 135, 136, 137, 272, 273] {
        let output = shake256(&pattern(137), length);
        lines += &line(&format!("output {length}, whole"), &output);
        lines += &line(&format!("output {length}, in turns"), &output);
    }
    let output = shake256(&pattern(136), 16448);
    let name = "long output, bytes 16384 to 16448 of input 136";
    lines += &line(name, &output[16384..]);
    lines
}

/// The lines of a test for some sets, each set worked by a thread of its own.
fn of_sets(sets: &[usize], lines: fn(usize, &Parameters) -> String) -> String {
    let work = |&set| std::thread::spawn(move || lines(set, parameters(set).unwrap()));
    let works: Vec<_> = sets.iter().map(work).collect();
    works.into_iter().map(|work| work.join().unwrap()).collect()
}

/// The seed tree of repetition 3: all leaves, and for the first, the sixth and the last party the
/// path, and the leaves rebuilt from it, with zeros for the hidden one.
fn tree(set: usize, p: &Parameters) -> String {
    let salt = progression(3, 1, 256, p.hash_bytes());
    let root = progression(5, 2, 256, p.seed_bytes());
    let e = 3;
    let leaves = get_seeds(p, &root, &salt, e, p.parties()).concat();
    let mut lines = line(&format!("set {set}, leaves, digest"), &digest(&leaves));
    for hidden in [1, 6, p.parties()] {
        let path = get_path(p, &root, &salt, e, hidden, p.parties());
        let rebuilt: Vec<Vec<u8>> = get_path_seeds(p, &path, &salt, e, hidden, p.parties())
            .into_iter()
            .map(|seed| seed.unwrap_or(vec![0; p.seed_bytes()]))
            .collect();
        let case = format!("set {set}, hidden {hidden}");
        lines += &line(&format!("{case}, path"), &path.concat());
        lines += &line(
            &format!("{case}, rebuilt, digest"),
            &digest(&rebuilt.concat()),
        );
    }
    lines
}

/// The circuit of a seed, element by element in the order of its expansion; y and t of a secret;
/// the linear forms of sixteen parties; challenges and hidden parties.
fn forms(set: usize, p: &Parameters) -> String {
    let f = expand_circuit(p, &progression(11, 7, 256, p.seed_bytes()));
    let mut circuit = Vec::new();
    for j in [1, 2, 0] {
        circuit.extend(&f.constants[j]);
        circuit.extend(f.rows[j].concat());
    }
    let (y, t) = eval_circuit(&progression(7, 1, 16, p.n), &f);
    let mut values = Vec::new();
    for j in [1, 2, 0] {
        for party in 0..16 {
            let share = progression(5, 3 * party + 1, 16, p.n);
            values.extend(linear_values(&f, j, &share));
        }
    }
    let h1 = progression(13, 5, 256, p.hash_bytes());
    let h2 = progression(17, 9, 256, p.hash_bytes());
    let challenges = expand_vectors(&h1, p.tau, p.m).concat();
    let hidden: Vec<u8> = expand_indexes(&h2, p.tau, p.levels)
        .iter()
        .map(|party| (party - 1) as u8)
        .collect();
    let mut lines = line(&format!("set {set}, circuit, digest"), &digest(&circuit));
    lines += &line(&format!("set {set}, y packed"), &pack(&y));
    lines += &line(&format!("set {set}, t packed"), &pack(&t));
    lines += &line(
        &format!("set {set}, linear forms of sixteen parties, digest"),
        &digest(&values),
    );
    lines += &line(
        &format!("set {set}, challenges, digest"),
        &digest(&challenges),
    );
    lines += &line(&format!("set {set}, hidden parties less 1"), &hidden);
    lines
}

/// One repetition, number 3, of signing and of verifying. Signing: the corrections, an element to
/// a byte, what the repetition gives to both hashes, and both hashes of a signature that has this
/// repetition only. Verifying, for the first, the sixth and the last party hidden: the hidden
/// party's α, and the same again; at last for the sixth with a changed byte in the path.
fn parties(set: usize, p: &Parameters) -> String {
    let salt = progression(3, 1, 256, p.hash_bytes());
    let root = progression(5, 2, 256, p.seed_bytes());
    let message = progression(19, 4, 256, 40);
    let f = expand_circuit(p, &progression(11, 7, 256, p.seed_bytes()));
    let s = progression(7, 1, 16, p.n);
    let (y, t) = eval_circuit(&s, &f);
    let e = 3;
    let mut signed = sign_views(p, &f, (&s, &t, &y), &salt, e, &root);
    let hash_1 = h1(p, &salt, &message, &sigma_1_part(&signed));
    let epsilon = &expand_vectors(&hash_1, e, p.m)[e - 1];
    sign_check(p, &mut signed, epsilon);
    let both = |r: &Repetition, case: &str| {
        let hashes = [
            h1(p, &salt, &message, &sigma_1_part(r)),
            h2(p, &salt, &hash_1, &sigma_2_part(r)),
        ];
        hash_lines(&format!("set {set}, {case}"), r, &hashes)
    };
    let mut lines = line(&format!("set {set}, signing, delta s"), &signed.delta_s);
    lines += &line(&format!("set {set}, signing, delta c"), &signed.delta_c);
    lines += &both(&signed, "signing");
    for hidden in [1, 6, p.parties()] {
        let opening = opened(p, &signed, &salt, &root, e, hidden);
        let case = format!("hidden {hidden}");
        lines += &line(&format!("set {set}, {case}, alpha"), &opening.alpha);
        lines += &both(&verified(p, &f, &t, &salt, e, epsilon, &opening), &case);
    }
    let mut opening = opened(p, &signed, &salt, &root, e, 6);
    opening.path[0][0] ^= 1;
    lines += &both(
        &verified(p, &f, &t, &salt, e, epsilon, &opening),
        "hidden 6, changed path",
    );
    lines
}

/// What a signer lets the verifier read of a repetition.
fn opened(
    p: &Parameters,
    r: &Repetition,
    salt: &[u8],
    root: &[u8],
    e: usize,
    hidden: usize,
) -> Opening {
    Opening {
        hidden,
        path: get_path(p, root, salt, e, hidden, p.parties()),
        com: r.com[&hidden].clone(),
        delta_s: r.delta_s.clone(),
        delta_c: r.delta_c.clone(),
        alpha: r.alpha[&hidden].clone(),
    }
}

/// The repetition as a verifier makes it from an opening.
fn verified(
    p: &Parameters,
    f: &Circuit,
    t: &[u8],
    salt: &[u8],
    e: usize,
    epsilon: &[u8],
    opening: &Opening,
) -> Repetition {
    let mut r = verify_views(p, f, t, salt, e, opening);
    verify_check(p, &mut r, epsilon, opening);
    r
}

/// What a repetition gives to the first and to the second hash, and both hashes.
fn hash_lines(case: &str, r: &Repetition, hashes: &[Vec<u8>; 2]) -> String {
    let mut lines = line(
        &format!("{case}, commitments and corrections, digest"),
        &digest(&sigma_1_part(r)),
    );
    lines += &line(&format!("{case}, first hash"), &hashes[0]);
    lines += &line(
        &format!("{case}, all alpha and all v, digest"),
        &digest(&sigma_2_part(r)),
    );
    lines += &line(&format!("{case}, second hash"), &hashes[1]);
    lines
}

/// `length` numbers: the i-th is step times i plus start, modulo `modulus`.
fn progression(step: usize, start: usize, modulus: usize, length: usize) -> Vec<u8> {
    (0..length)
        .map(|i| ((step * i + start) % modulus) as u8)
        .collect()
}

/// Bytes that are many, as 32 bytes of SHAKE256.
fn digest(bytes: &[u8]) -> Vec<u8> {
    shake256(bytes, 32)
}

/// A message whose byte i is 7i + 3 modulo 256.
fn pattern(length: usize) -> Vec<u8> {
    (0..length).map(|i| ((7 * i + 3) % 256) as u8).collect()
}

/// A case and its bytes; nothing follows the colon where there are none.
fn line(case: &str, bytes: &[u8]) -> String {
    match bytes.len() {
        0 => format!("{case}:\n"),
        _ => format!("{case}: {}\n", hex(bytes)),
    }
}

fn hex(bytes: &[u8]) -> String {
    bytes.iter().map(|byte| format!("{byte:02x}")).collect()
}
