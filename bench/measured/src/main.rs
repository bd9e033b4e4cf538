//! `measured PICTURE [DOCUMENT]`: times keys, signing and verifying for all six sets, in the proved library and in the independent program, beside one permutation of ours, in one run. Prints a table, draws it to
//! PICTURE, and puts the table between the marks of DOCUMENT where one is named.

#[path = "../../counts.rs"]
mod counts;
mod machine;
mod picture;
mod submission;
mod table;
#[path = "../../turns.rs"]
mod turns;

use biscuit::raw;
use counts::{Set, MESSAGE, SETS, WORK};
use independent::desk;

/// Rounds of ours and of the independent program, which is slow.
const ROUNDS: usize = 25;
const SLOW_ROUNDS: usize = 3;

/// One call of one set.
pub struct Row {
    pub set: &'static Set,
    pub call: Call,
    pub permutations: usize,
    /// In nanoseconds: the call, one permutation, and the independent program's call.
    pub time: f64,
    pub one: f64,
    pub independent: f64,
}

#[derive(Clone, Copy, PartialEq)]
pub enum Call {
    Sign,
    Verify,
    MakeKeys,
}

impl Call {
    pub const ALL: [Call; 3] = [Call::Sign, Call::Verify, Call::MakeKeys];

    pub fn name(self) -> &'static str {
        match self {
            Call::Sign => "sign",
            Call::Verify => "verify",
            Call::MakeKeys => "make keys",
        }
    }
}

impl Row {
    /// What the permutations alone take.
    pub fn floor(&self) -> f64 {
        self.permutations as f64 * self.one
    }
}

fn main() {
    let words: Vec<String> = std::env::args().skip(1).collect();
    let (picture, document) = match &words[..] {
        [picture] => (picture, None),
        [picture, document] => (picture, Some(document)),
        _ => panic!("measured PICTURE [DOCUMENT]: started by bench/table"),
    };
    let machine = machine::Machine::look();
    let rows: Vec<Row> = SETS.iter().flat_map(measure).collect();
    let table = table::table(&machine, &rows);
    print!("{table}");
    std::fs::write(picture, picture::draw(&machine, &rows)).expect("the picture is written");
    eprintln!("drawn to {picture}");
    if let Some(document) = document {
        let text = std::fs::read_to_string(document).expect("the document is read");
        std::fs::write(document, table::put_between_marks(&text, &table)).expect("the document is written");
    }
}

/// The three calls of a set. The two programs start from the same bytes and have to give the same.
fn measure(set: &'static Set) -> [Row; 3] {
    let (circuit_seed, secret_seed, message) = (vec![7; set.s], vec![9; set.s], [5; MESSAGE]);
    let (mut secret, mut public, mut signature, mut work) = (vec![0; set.secret_key], vec![0; set.public_key], vec![0; set.signature], vec![0; WORK]);
    let (mut secret2, mut public2, mut signature2, mut work2) = (secret.clone(), public.clone(), signature.clone(), work.clone());
    let row = |call, permutations, (time, one): (f64, f64), independent| Row { set, call, permutations, time, one, independent };

    let time = turns::least(ROUNDS, || assert_eq!(raw::make_keys(set.number, &circuit_seed, &secret_seed, &mut secret, &mut public, &mut work), 0));
    let slow = slowly(|| desk::make_keys(set.number, &circuit_seed, &secret_seed, &mut secret2, &mut public2, &mut work2));
    assert!(secret == secret2 && public == public2, "set {}: the two programs make other keys", set.name);
    let keys = row(Call::MakeKeys, set.making_keys(), time, slow);

    let time = turns::least(ROUNDS, || assert_eq!(raw::sign(set.number, &secret, &message, &[], &mut signature, &mut work), 0));
    let slow = slowly(|| desk::sign(set.number, &secret, &message, &[], &mut signature2, &mut work2));
    assert!(signature == signature2, "set {}: the two programs sign otherwise", set.name);
    let sign = row(Call::Sign, set.signing(), time, slow);

    let time = turns::least(ROUNDS, || assert_eq!(raw::verify(set.number, &public, &message, &signature, &mut work), 0));
    let slow = slowly(|| desk::verify(set.number, &public, &message, &signature, &mut work2));
    let verify = row(Call::Verify, set.verifying(), time, slow);
    [keys, sign, verify]
}

/// The least time of the independent program, in nanoseconds.
fn slowly(mut call: impl FnMut() -> u8) -> f64 {
    (0..SLOW_ROUNDS).map(|_| turns::time(|| assert_eq!(call(), 0))).fold(f64::MAX, f64::min)
}
