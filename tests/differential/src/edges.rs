//! The edges of what is allowed: each size one short, right and one more, and the four bits of a key that a reader ignores.

use crate::{make_keys, public_half, sign, verify, Dice, Reached, LONGEST, WORK};
use independent::sets::Parameters;

/// Both sides of every size, one at a time, everything else right: each size one short, right and one more; messages of 0, 32,768 and 32,769 bytes.
pub fn edges(p: &Parameters, sk: &[u8], pk: &[u8], signature: &[u8], dice: &mut Dice, reached: &mut Reached) {
    let s = p.seed_bytes();
    let around = |right: usize| [right - 1, right, right + 1];
    let work = dice.bytes(WORK + 1);
    let fill = dice.bytes(p.signature_bytes() + 1);
    let cut = |whole: &[u8], n: usize| {
        let mut part = whole.to_vec();
        part.resize(n, 3);
        part
    };
    for set in [0, 7, 256 + p.set, (1 << 32) + p.set, usize::MAX] {
        make_keys(set, &fill[..s], &fill[..s], sk, pk, &work, reached);
        public_half(set, sk, pk, &work, reached);
        sign(set, sk, b"", &[], &fill, &work, reached);
        verify(set, pk, b"", signature, &work, reached);
    }
    for n in around(s) {
        make_keys(p.set, &fill[..n], &fill[..s], sk, pk, &work, reached);
        make_keys(p.set, &fill[..s], &fill[..n], sk, pk, &work, reached);
    }
    for n in around(sk.len()) {
        make_keys(p.set, &fill[..s], &fill[..s], &fill[..n], pk, &work, reached);
        public_half(p.set, &cut(sk, n), pk, &work, reached);
        if n != sk.len() {
            sign(p.set, &cut(sk, n), b"", &[], &fill, &work, reached);
        }
    }
    for n in around(pk.len()) {
        make_keys(p.set, &fill[..s], &fill[..s], sk, &fill[..n], &work, reached);
        public_half(p.set, sk, &fill[..n], &work, reached);
        if n != pk.len() {
            verify(p.set, &cut(pk, n), b"", signature, &work, reached);
        }
    }
    for n in around(2 * s).into_iter().chain([1]) {
        if n != 2 * s {
            sign(p.set, sk, b"", &fill[..n], &fill, &work, reached);
        }
    }
    for n in [signature.len() - 1, signature.len() + 1] {
        verify(p.set, pk, b"", &cut(signature, n), &work, reached);
    }
    for n in [WORK - 1, WORK] {
        make_keys(p.set, &fill[..s], &fill[..s], sk, pk, &work[..n], reached);
        public_half(p.set, sk, pk, &work[..n], reached);
    }
    sign(p.set, sk, b"", &[], &fill, &work[..WORK - 1], reached);
    verify(p.set, pk, b"", signature, &work[..WORK - 1], reached);
    let long = dice.bytes(LONGEST + 1);
    sign(p.set, sk, &long, &[], &fill, &work, reached);
    verify(p.set, pk, &long, signature, &work, reached);
    // an output and work of exactly the size that is needed, for the longest message
    sign(p.set, sk, b"", &[], &fill[..p.signature_bytes() - 1], &work, reached);
    let (r, whole) = sign(p.set, sk, &long[..LONGEST], &[], &fill[..p.signature_bytes()], &work[..WORK], reached);
    assert_eq!(r, 0);
    assert_eq!(verify(p.set, pk, &long[..LONGEST], &whole, &work[..WORK], reached), 0);
}

/// The four bits behind an odd last element are ignored when a key is read, and hashed as given when it signs.
pub fn stray(p: &Parameters, sk: &[u8], pk: &[u8], signature: &[u8], dice: &mut Dice, reached: &mut Reached) {
    let work = dice.bytes(WORK);
    let room = dice.bytes(p.signature_bytes());
    if (p.n + 2 * p.m) % 2 == 1 {
        let mut loose = sk.to_vec();
        *loose.last_mut().unwrap() ^= 0xa0;
        let (r, half) = public_half(p.set, &loose, pk, &work, reached);
        assert_eq!((r, &half[..]), (0, pk));
        let (r, other) = sign(p.set, &loose, b"", &[], &room, &work, reached);
        assert_eq!(r, 0);
        assert_ne!(other, signature);
        assert_eq!(verify(p.set, pk, b"", &other, &work, reached), 0);
    }
    if p.m % 2 == 1 {
        let mut loose = pk.to_vec();
        *loose.last_mut().unwrap() ^= 0xf0;
        assert_eq!(verify(p.set, &loose, b"", signature, &work, reached), 0);
    }
}
