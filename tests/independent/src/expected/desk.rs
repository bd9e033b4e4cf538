//! The test of the desk: each case with its answer and with what the call leaves in work and in its
//! outputs, which are filled before each call.

use super::case::{Call, Case, Part};
use super::cases::{of_set, MESSAGE, SECRET_SEED};
use super::{digest, hex, progression};
use crate::desk::{self, MESSAGE_LIMIT, WORK_BYTES};
use crate::sets::Parameters;

/// Where the random bytes begin in the input.
const RANDOM: usize = 66;

/// The lines of a set.
pub fn desk(set: usize, p: &Parameters) -> String {
    let mut desk = Desk {
        input: progression(11, 7, 256, MESSAGE + MESSAGE_LIMIT + 1),
        secret_key: vec![],
        public_key: vec![],
        signature: vec![],
    };
    of_set(p)
        .iter()
        .map(|case| format!("set {set}, {}: {}\n", case.text(), desk.run(case)))
        .collect()
}

/// What the calls are run on. The input has the circuit seed, the secret seed, the random bytes
/// and the message, each a byte longer than the longest; a case takes the first bytes of each. Keys
/// and signature are those that the last call left.
struct Desk {
    input: Vec<u8>,
    secret_key: Vec<u8>,
    public_key: Vec<u8>,
    signature: Vec<u8>,
}

impl Desk {
    /// The call of a case: the answer, and what it left.
    fn run(&mut self, case: &Case) -> String {
        let mut work = filled(case.work);
        self.change(case);
        let (answer, output) = match case.call {
            Call::MakeKeys => self.make_keys(case, &mut work),
            Call::PublicHalf => self.public_half(case, &mut work),
            Call::Sign => self.sign(case, &mut work),
            Call::Verify => self.verify(case, &mut work),
        };
        self.change(case);
        format!("answer {answer}, work {}{output}", state(&work))
    }

    /// Changes the bits of the case; a second time puts them back.
    fn change(&mut self, case: &Case) {
        if let Some((part, at, bits)) = case.damage {
            let bytes = match part {
                Part::Input => &mut self.input,
                Part::SecretKey => &mut self.secret_key,
                Part::PublicKey => &mut self.public_key,
                Part::Signature => &mut self.signature,
            };
            bytes[at] ^= bits;
        }
    }

    fn input(&self, from: usize, length: usize) -> &[u8] {
        &self.input[from..from + length]
    }

    fn make_keys(&mut self, k: &Case, work: &mut [u8]) -> (u8, String) {
        let circuit_seed = self.input(0, k.circuit_seed);
        let secret_seed = self.input(SECRET_SEED, k.secret_seed);
        let (mut secret_key, mut public_key) = (filled(k.secret_key), filled(k.public_key));
        let answer = desk::make_keys(
            k.number,
            circuit_seed,
            secret_seed,
            &mut secret_key,
            &mut public_key,
            work,
        );
        let output = output(&[&secret_key, &public_key]);
        (self.secret_key, self.public_key) = (secret_key, public_key);
        (answer, output)
    }

    fn public_half(&mut self, k: &Case, work: &mut [u8]) -> (u8, String) {
        let mut public_key = filled(k.public_key);
        let secret_key = &self.secret_key[..k.secret_key];
        let answer = desk::public_half(k.number, secret_key, &mut public_key, work);
        (answer, output(&[&public_key]))
    }

    fn sign(&mut self, k: &Case, work: &mut [u8]) -> (u8, String) {
        let mut signature = filled(k.signature);
        let key = &self.secret_key[..k.secret_key];
        let (message, random) = (self.input(MESSAGE, k.message), self.input(RANDOM, k.random));
        let answer = desk::sign(k.number, key, message, random, &mut signature, work);
        let output = output(&[&signature]);
        self.signature = signature;
        (answer, output)
    }

    fn verify(&mut self, k: &Case, work: &mut [u8]) -> (u8, String) {
        let key = &self.public_key[..k.public_key];
        let (message, signature) = (
            self.input(MESSAGE, k.message),
            &self.signature[..k.signature],
        );
        let answer = desk::verify(k.number, key, message, signature, work);
        (answer, String::new())
    }
}

/// What outputs and work hold before a call.
fn filled(length: usize) -> Vec<u8> {
    progression(31, 17, 256, length)
}

/// What became of work.
fn state(work: &[u8]) -> &'static str {
    let before = filled(work.len());
    if work == before {
        "as it was"
    } else if work[..WORK_BYTES] == [0; WORK_BYTES] && work[WORK_BYTES..] == before[WORK_BYTES..] {
        "cleared"
    } else {
        "changed"
    }
}

/// All bytes of the outputs by their digest, where they are not as they were.
fn output(outputs: &[&[u8]]) -> String {
    match outputs.iter().all(|bytes| *bytes == filled(bytes.len())) {
        true => ", output as it was".to_string(),
        false => format!(", output: {}", hex(&digest(&outputs.concat()))),
    }
}
