//! The six sets and their sizes.

use crate::Refusal;
use std::fmt;
use std::str::FromStr;

/// The longest message, in bytes.
pub const MESSAGE_LIMIT: usize = 32_768;

/// One of the six sets. `s` has short signatures, `f` is fast. Both of one strength have keys of the same form, so the bytes of a key made for 128f also work as
/// one of 128s.
///
/// ```
/// use biscuit::{Refusal, Set};
/// assert_eq!(Set::from_number(2), Ok(Set::Biscuit128f));
/// assert_eq!("192s".parse(), Ok(Set::Biscuit192s));
/// assert_eq!(Set::from_number(7), Err(Refusal::NoSuchSet));
/// assert_eq!(Set::Biscuit128s.signature_len(), 4758);
/// ```
#[derive(Clone, Copy, Debug, PartialEq, Eq, PartialOrd, Ord, Hash)]
pub enum Set {
    /// Set 1, 128s: 128 bits, short signatures.
    Biscuit128s = 1,
    /// Set 2, 128f: 128 bits, fast.
    Biscuit128f = 2,
    /// Set 3, 192s: 192 bits, short signatures.
    Biscuit192s = 3,
    /// Set 4, 192f: 192 bits, fast.
    Biscuit192f = 4,
    /// Set 5, 256s: 256 bits, short signatures.
    Biscuit256s = 5,
    /// Set 6, 256f: 256 bits, fast.
    Biscuit256f = 6,
}

struct Row {
    name: &'static str,
    seed: usize,
    secret_key: usize,
    public_key: usize,
    signature: usize,
}

const fn row(name: &'static str, seed: usize, secret_key: usize, public_key: usize, signature: usize) -> Row {
    Row { name, seed, secret_key, public_key, signature }
}

const ROWS: [Row; 6] = [
    row("128s", 16, 115, 50, 4758),
    row("128f", 16, 115, 50, 6726),
    row("192s", 24, 158, 69, 11349),
    row("192f", 24, 158, 69, 15129),
    row("256s", 32, 212, 93, 20192),
    row("256f", 32, 212, 93, 27348),
];

impl Set {
    /// All six, by number.
    pub const ALL: [Set; 6] = [Set::Biscuit128s, Set::Biscuit128f, Set::Biscuit192s, Set::Biscuit192f, Set::Biscuit256s, Set::Biscuit256f];

    /// The set of a number from 1 to 6; any other number is refused.
    pub fn from_number(number: usize) -> Result<Set, Refusal> {
        Set::ALL.into_iter().find(|set| set.number() == number).ok_or(Refusal::NoSuchSet)
    }

    /// Its number, from 1 to 6.
    pub const fn number(self) -> usize {
        self as usize
    }

    /// Its name, as `128s`.
    pub const fn name(self) -> &'static str {
        self.row().name
    }

    /// The bytes of a seed, S.
    pub const fn seed_len(self) -> usize {
        self.row().seed
    }

    /// The random bytes that signing takes where it is lent any, 2S.
    pub const fn random_len(self) -> usize {
        2 * self.row().seed
    }

    /// The bytes of a secret key.
    pub const fn secret_key_len(self) -> usize {
        self.row().secret_key
    }

    /// The bytes of a public key.
    pub const fn public_key_len(self) -> usize {
        self.row().public_key
    }

    /// The bytes of a signature.
    pub const fn signature_len(self) -> usize {
        self.row().signature
    }

    const fn row(self) -> &'static Row {
        &ROWS[self as usize - 1]
    }
}

impl fmt::Display for Set {
    fn fmt(&self, f: &mut fmt::Formatter) -> fmt::Result {
        f.write_str(self.name())
    }
}

/// A set by its name or by its number.
impl FromStr for Set {
    type Err = Refusal;

    fn from_str(word: &str) -> Result<Set, Refusal> {
        let named = |set: &Set| set.name() == word || set.number().to_string() == word;
        Set::ALL.into_iter().find(named).ok_or(Refusal::NoSuchSet)
    }
}
