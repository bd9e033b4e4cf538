// How much stack each call of the compiled proved desk takes, for the smallest and the largest sets: a stretch of stack is painted, the call runs over it, and what it overwrote is counted.
// It ends with a failure where that is more than include/biscuit.h says.
use std::hint::black_box;

#[allow(dead_code)]
mod counts;
#[allow(dead_code)]
#[path = "../bindings/rust/src/raw.rs"]
mod raw;

use counts::{MESSAGE, SETS, WORK};

const PAINTED: usize = 256 * 1024;

// What include/biscuit.h says of keys, of signing and verifying, and of envelopes.
const KEYS: usize = 4 * 1024;
const SIGNATURES: usize = 72 * 1024;
const ENVELOPES: usize = 1024;

#[inline(never)]
fn paint() -> usize {
    let mut stretch = [0u8; PAINTED];
    for byte in stretch.iter_mut() {
        *byte = black_box(0xa5);
    }
    black_box(stretch.as_ptr() as usize)
}

// The bytes between the painted stretch's far end and the first byte that is no longer painted.
fn used(start: usize, top: usize) -> usize {
    let mut at = start;
    while at < top && unsafe { std::ptr::read_volatile(at as *const u8) } == 0xa5 {
        at += 1;
    }
    top - at
}

#[inline(never)]
fn measure(name: &str, set: usize, most: usize, call: &mut dyn FnMut()) {
    let here = 0u8;
    let top = black_box(&here) as *const u8 as usize;
    let start = paint();
    call();
    let bytes = used(start, top);
    println!("set {set}, {name}: {bytes} bytes of stack");
    assert!(bytes <= most, "include/biscuit.h says {most}");
}

fn main() {
    let (seed, message) = ([7u8; 32], [5u8; MESSAGE]);
    for set in SETS.iter().filter(|set| set.s != 24) {
        let (mut secret, mut public, mut signature, mut work) = (vec![0; set.secret_key], vec![0; set.public_key], vec![0; set.signature], vec![0; WORK]);
        let (number, seed) = (set.number, &seed[..set.s]);
        measure("make keys", number, KEYS, &mut || assert_eq!(raw::make_keys(number, seed, &message[..set.s], &mut secret, &mut public, &mut work), 0));
        measure("public half", number, KEYS, &mut || assert_eq!(raw::public_half(number, &secret, &mut public, &mut work), 0));
        measure("sign", number, SIGNATURES, &mut || assert_eq!(raw::sign(number, &secret, &message, &[], &mut signature, &mut work), 0));
        let mut envelope = vec![0; 3 + set.public_key + set.signature + MESSAGE];
        measure("envelope write", number, ENVELOPES, &mut || assert_eq!(raw::write_envelope(number, &public, &signature, &message, &mut envelope), 0));
        measure("envelope read", number, ENVELOPES, &mut || assert_eq!(raw::read_envelope(&envelope), 0));
        measure("verify", number, SIGNATURES, &mut || assert_eq!(raw::verify(number, &public, &message, &signature, &mut work), 0));
    }
}
