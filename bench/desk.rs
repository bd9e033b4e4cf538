// Keys, signing and verifying through the compiled proved desk, for all six sets, in one run with the time of one permutation of ours: how many permutations a call makes, counted from
// the lengths that are hashed, and the call's time over (permutations × one permutation). Each figure is the least of several rounds.
#[allow(dead_code)]
mod counts;
#[allow(dead_code)]
#[path = "../bindings/rust/src/raw.rs"]
mod raw;
mod turns;

use counts::{MESSAGE, SETS, WORK};
use turns::least;

const ROUNDS: usize = 15;

fn main() {
    println!("set  call    permutations   time          one permutation   over permutations × one");
    let seed = [7u8; 32];
    let message = [5u8; MESSAGE];
    for set in &SETS {
        let (mut secret, mut public, mut signature, mut work) = (vec![0; set.secret_key], vec![0; set.public_key], vec![0; set.signature], vec![0; WORK]);
        let line = |call: &str, count: usize, (time, one): (f64, f64)| {
            println!("{}    {call:6}  {count:12}   {:9.3} ms  {one:9.0} ns      {:.2}", set.number, time / 1e6, time / (count as f64 * one));
        };
        let time = least(ROUNDS, || assert_eq!(raw::make_keys(set.number, &seed[..set.s], &message[..set.s], &mut secret, &mut public, &mut work), 0));
        line("keys", set.making_keys(), time);
        let time = least(ROUNDS, || assert_eq!(raw::sign(set.number, &secret, &message, &[], &mut signature, &mut work), 0));
        line("sign", set.signing(), time);
        let time = least(ROUNDS, || assert_eq!(raw::verify(set.number, &public, &message, &signature, &mut work), 0));
        line("verify", set.verifying(), time);
    }
}
