//! Runs each call of the proved desk and of the independent program on the same bytes, and compares the answer and every byte that was lent: outputs and work with the other program's,
//! inputs with what was given.

mod dice;
mod edges;
mod envelopes;

use biscuit::raw as calls;
use dice::Dice;
use edges::{edges, stray};
use independent::desk;
use independent::sets::{Parameters, SETS};
use std::collections::BTreeSet;

const WORK: usize = 65_536;
const LONGEST: usize = 32_768;

/// What was reached: (call, answer).
type Reached = BTreeSet<(&'static str, u8)>;

fn same(call: &str, what: &str, ours: &[u8], theirs: &[u8]) {
    if ours != theirs {
        let at = ours.iter().zip(theirs).position(|(a, b)| a != b);
        panic!("{call}: {what} differs from byte {at:?} on");
    }
}

/// A call gets copies of its inputs, and has to leave them as they were given. What a shared slice holds counts as unchanged for the compiler, so it is told to look again.
fn kept(call: &str, lent: &[Vec<u8>], given: &[&[u8]]) {
    for (lent, given) in lent.iter().zip(given) {
        same(call, "an input", std::hint::black_box(lent), given);
    }
}

fn copies(given: &[&[u8]]) -> Vec<Vec<u8>> {
    given.iter().map(|input| input.to_vec()).collect()
}

fn answers(call: &'static str, ours: u8, theirs: u8, reached: &mut Reached) -> u8 {
    assert_eq!(ours, theirs, "{call}: the desk answers {ours}, the independent program {theirs}");
    reached.insert((call, ours));
    ours
}

fn make_keys(set: usize, a: &[u8], b: &[u8], sk: &[u8], pk: &[u8], work: &[u8], reached: &mut Reached) -> (u8, Vec<u8>, Vec<u8>) {
    let (mut sk1, mut pk1, mut w1) = (sk.to_vec(), pk.to_vec(), work.to_vec());
    let (mut sk2, mut pk2, mut w2) = (sk.to_vec(), pk.to_vec(), work.to_vec());
    let lent = copies(&[a, b]);
    let ours = calls::make_keys(set, &lent[0], &lent[1], &mut sk1, &mut pk1, &mut w1);
    kept("make keys", &lent, &[a, b]);
    let r = answers("make keys", ours, desk::make_keys(set, a, b, &mut sk2, &mut pk2, &mut w2), reached);
    same("make keys", "the secret key", &sk1, &sk2);
    same("make keys", "the public key", &pk1, &pk2);
    same("make keys", "work", &w1, &w2);
    (r, sk1, pk1)
}

fn public_half(set: usize, sk: &[u8], pk: &[u8], work: &[u8], reached: &mut Reached) -> (u8, Vec<u8>) {
    let (mut pk1, mut w1) = (pk.to_vec(), work.to_vec());
    let (mut pk2, mut w2) = (pk.to_vec(), work.to_vec());
    let lent = copies(&[sk]);
    let ours = calls::public_half(set, &lent[0], &mut pk1, &mut w1);
    kept("public half", &lent, &[sk]);
    let r = answers("public half", ours, desk::public_half(set, sk, &mut pk2, &mut w2), reached);
    same("public half", "the public key", &pk1, &pk2);
    same("public half", "work", &w1, &w2);
    (r, pk1)
}

fn sign(set: usize, sk: &[u8], message: &[u8], random: &[u8], signature: &[u8], work: &[u8], reached: &mut Reached) -> (u8, Vec<u8>) {
    let (mut s1, mut w1) = (signature.to_vec(), work.to_vec());
    let (mut s2, mut w2) = (signature.to_vec(), work.to_vec());
    let lent = copies(&[sk, message, random]);
    let ours = calls::sign(set, &lent[0], &lent[1], &lent[2], &mut s1, &mut w1);
    kept("sign", &lent, &[sk, message, random]);
    let r = answers("sign", ours, desk::sign(set, sk, message, random, &mut s2, &mut w2), reached);
    same("sign", "the signature", &s1, &s2);
    same("sign", "work", &w1, &w2);
    (r, s1)
}

fn verify(set: usize, pk: &[u8], message: &[u8], signature: &[u8], work: &[u8], reached: &mut Reached) -> u8 {
    let (mut w1, mut w2) = (work.to_vec(), work.to_vec());
    let lent = copies(&[pk, message, signature]);
    let ours = calls::verify(set, &lent[0], &lent[1], &lent[2], &mut w1);
    kept("verify", &lent, &[pk, message, signature]);
    let r = answers("verify", ours, desk::verify(set, pk, message, signature, &mut w2), reached);
    same("verify", "work", &w1, &w2);
    r
}

/// The refusals of all calls by hostile sizes: cheap, so many.
fn hostile(p: &Parameters, sk: &[u8], pk: &[u8], dice: &mut Dice, reached: &mut Reached) {
    let s = p.seed_bytes();
    let work = |dice: &mut Dice| {
        let n = dice.room(WORK);
        dice.bytes(n)
    };
    let sized = |dice: &mut Dice, n: usize| {
        let n = dice.size(n);
        dice.bytes(n)
    };
    let roomy = |dice: &mut Dice, n: usize| {
        let n = dice.room(n);
        dice.bytes(n)
    };
    let key = |dice: &mut Dice, right: &[u8]| {
        let n = dice.size(right.len());
        let mut key = right.to_vec();
        if dice.below(3) == 0 && !key.is_empty() {
            let at = dice.below(key.len());
            key[at] ^= 1 << dice.below(8);
        }
        key.resize(n, 7);
        key
    };
    {
        let (a, b) = (sized(dice, s), sized(dice, s));
        let (x, y) = (roomy(dice, p.secret_key_bytes()), roomy(dice, p.public_key_bytes()));
        make_keys(dice.set(p.set), &a, &b, &x, &y, &work(dice), reached);
    }
    {
        let (k, y) = (key(dice, sk), roomy(dice, p.public_key_bytes()));
        public_half(dice.set(p.set), &k, &y, &work(dice), reached);
    }
    {
        // a wrong key or size most of the time: signing is dear
        let k = if dice.below(40) == 0 { sk.to_vec() } else { key(dice, sk) };
        let random = sized(dice, 2 * s);
        let (message, room) = (dice.message(), roomy(dice, p.signature_bytes()));
        sign(dice.set(p.set), &k, &message, &random, &room, &work(dice), reached);
    }
    {
        let message = dice.message();
        let n = if dice.below(10) == 0 { p.signature_bytes() } else { p.signature_bytes() + 1 - 2 * dice.below(2) };
        let signature = dice.bytes(n);
        verify(dice.set(p.set), &key(dice, pk), &message, &signature, &work(dice), reached);
    }
}

/// Where a signature is damaged: a place in each section, counted in bytes.
fn places(p: &Parameters) -> Vec<usize> {
    let (s, l) = (p.seed_bytes(), p.levels);
    let shown = l * s + 2 * s;
    let packing = 6 * s + p.tau * shown;
    let corrections = p.tau * (p.n + p.m) / 2;
    vec![0, 2 * s, 4 * s, 6 * s, 6 * s + l * s, 6 * s + (p.tau - 1) * shown, packing - 1, packing, packing + (p.n + 1) / 2, packing + corrections - 1, packing + corrections + 1, p.signature_bytes() - 1]
}

fn genuine(p: &Parameters, dice: &mut Dice, reached: &mut Reached) {
    let s = p.seed_bytes();
    let work = |dice: &mut Dice| {
        let n = WORK + dice.below(300);
        dice.bytes(n)
    };
    let (a, b) = (dice.bytes(s), dice.bytes(s));
    let (x, y) = (dice.bytes(p.secret_key_bytes() + 5), dice.bytes(p.public_key_bytes() + 3));
    let (r, sk, pk) = make_keys(p.set, &a, &b, &x, &y, &work(dice), reached);
    assert_eq!(r, 0);
    let (sk, pk) = (sk[..p.secret_key_bytes()].to_vec(), pk[..p.public_key_bytes()].to_vec());
    let (r, half) = public_half(p.set, &sk, &y, &work(dice), reached);
    assert_eq!((r, &half[..pk.len()]), (0, &pk[..]));
    for random in [vec![], dice.bytes(2 * s)] {
        let message = dice.message();
        let message = &message[..message.len().min(LONGEST)];
        let longer = dice.below(50);
        let room = dice.bytes(p.signature_bytes() + longer);
        let (r, signature) = sign(p.set, &sk, message, &random, &room, &work(dice), reached);
        assert_eq!(r, 0);
        let signature = &signature[..p.signature_bytes()];
        assert_eq!(verify(p.set, &pk, message, signature, &work(dice), reached), 0);
    }
    let empty = dice.bytes(p.signature_bytes());
    let (r, signature) = sign(p.set, &sk, b"", &[], &empty, &work(dice), reached);
    assert_eq!(r, 0);
    assert_eq!(verify(p.set, &pk, b"", &signature, &work(dice), reached), 0);
    assert_eq!(verify(p.set, &pk, b"other", &signature, &work(dice), reached), 9);
    for at in places(p) {
        let mut damaged = signature.clone();
        damaged[at] ^= 1 << dice.below(8);
        assert_eq!(verify(p.set, &pk, b"", &damaged, &work(dice), reached), 9, "damage at byte {at} of set {}", p.set);
    }
    let mut another = pk.clone();
    another[s] ^= 1;
    assert_eq!(verify(p.set, &another, b"", &signature, &work(dice), reached), 9);
    stray(p, &sk, &pk, &signature, dice, reached);
    // a key that is not consistent: the circuit seed, s, t and y damaged in turn
    for element in [0, p.n, p.n + p.m] {
        let mut wrong = sk.clone();
        wrong[s + element / 2] ^= if element % 2 == 0 { 1 } else { 16 };
        let room = dice.bytes(p.signature_bytes());
        assert_eq!(sign(p.set, &wrong, b"", &[], &room, &work(dice), reached).0, 8);
        assert_eq!(public_half(p.set, &wrong, &y, &work(dice), reached).0, 8);
    }
    let mut wrong = sk.clone();
    wrong[0] ^= 1;
    assert_eq!(public_half(p.set, &wrong, &y, &work(dice), reached).0, 8);
    envelopes::run(p, &pk, &signature, dice, reached);
    edges(p, &sk, &pk, &signature, dice, reached);
    for _ in 0..60 {
        hostile(p, &sk, &pk, dice, reached);
    }
}

fn main() {
    let seed = std::env::args().nth(1).map_or(0x9e37_79b9_7f4a_7c15, |word| word.parse().expect("the seed is a number"));
    let mut dice = Dice(seed);
    let mut reached = Reached::new();
    for p in &SETS {
        genuine(p, &mut dice, &mut reached);
        println!("set {}: the same answers and the same bytes", p.set);
    }
    let wanted: [(&str, &[u8]); 6] = [
        ("make keys", &[0, 1, 2, 6, 7]),
        ("public half", &[0, 1, 4, 6, 7, 8]),
        ("sign", &[0, 1, 2, 3, 4, 6, 7, 8]),
        ("verify", &[0, 1, 3, 4, 5, 7, 9]),
        ("write", &[0, 1, 3, 4, 5, 6]),
        ("read", &[0, 1, 3, 10, 11]),
    ];
    for (call, numbers) in wanted {
        for &number in numbers {
            assert!(reached.contains(&(call, number)), "{call} never answered {number}: try another seed");
        }
    }
    println!("every answer of every call was reached");
}
