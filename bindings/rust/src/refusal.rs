//! What the desk says where it refuses.

use std::error::Error;
use std::fmt;

/// Why a call refused: a number from 1 to 11, with the words of the house's table.
///
/// ```
/// use biscuit::Refusal;
/// assert_eq!(Refusal::NotAccepted.number(), 9);
/// assert_eq!(Refusal::NotAccepted.to_string(), "refused 9: verification doesn't accept");
/// assert_eq!(Refusal::from_number(3), Some(Refusal::MessageTooLong));
/// assert_eq!(Refusal::from_number(0), None);
/// ```
#[derive(Clone, Copy, Debug, PartialEq, Eq, PartialOrd, Ord, Hash)]
#[non_exhaustive]
pub enum Refusal {
    /// The set is outside 1 to 6.
    NoSuchSet = 1,
    /// A key seed isn't S bytes, or random bytes are neither 0 nor 2S.
    SeedOrRandomLength = 2,
    /// The message is over 32,768 bytes.
    MessageTooLong = 3,
    /// The length of a key is wrong.
    KeyLength = 4,
    /// The length of a signature is wrong.
    SignatureLength = 5,
    /// An output is shorter than the result. Only the calls of [`raw`](crate::raw) give it.
    OutputTooShort = 6,
    /// The work buffer is under 65,536 bytes. Only the calls of [`raw`](crate::raw) give it.
    WorkTooShort = 7,
    /// The secret key is not consistent: its own circuit seed and s give other values than it holds.
    KeyNotConsistent = 8,
    /// Verification doesn't accept the signature.
    NotAccepted = 9,
    /// The envelope is under 3 bytes, or its total length is wrong.
    EnvelopeLength = 10,
    /// The envelope's version isn't 1.
    EnvelopeVersion = 11,
}

impl Refusal {
    /// All of them, by number.
    pub const ALL: [Refusal; 11] = [
        Refusal::NoSuchSet,
        Refusal::SeedOrRandomLength,
        Refusal::MessageTooLong,
        Refusal::KeyLength,
        Refusal::SignatureLength,
        Refusal::OutputTooShort,
        Refusal::WorkTooShort,
        Refusal::KeyNotConsistent,
        Refusal::NotAccepted,
        Refusal::EnvelopeLength,
        Refusal::EnvelopeVersion,
    ];

    /// The refusal of a number; 0 is none.
    pub fn from_number(number: u8) -> Option<Refusal> {
        Refusal::ALL.into_iter().find(|refusal| refusal.number() == number)
    }

    /// Its number.
    pub const fn number(self) -> u8 {
        self as u8
    }

    /// Its words.
    pub const fn words(self) -> &'static str {
        match self {
            Refusal::NoSuchSet => "set outside 1 to 6",
            Refusal::SeedOrRandomLength => "a key seed isn't S bytes, or random bytes are neither 0 nor 2S",
            Refusal::MessageTooLong => "message over 32,768 bytes",
            Refusal::KeyLength => "key length wrong",
            Refusal::SignatureLength => "signature length wrong",
            Refusal::OutputTooShort => "an output is shorter than the result",
            Refusal::WorkTooShort => "work buffer under 65,536 bytes",
            Refusal::KeyNotConsistent => "secret key not consistent",
            Refusal::NotAccepted => "verification doesn't accept",
            Refusal::EnvelopeLength => "envelope under 3 bytes, or total length wrong",
            Refusal::EnvelopeVersion => "envelope version isn't 1",
        }
    }
}

impl fmt::Display for Refusal {
    fn fmt(&self, f: &mut fmt::Formatter) -> fmt::Result {
        write!(f, "refused {}: {}", self.number(), self.words())
    }
}

impl Error for Refusal {}

/// What a number that a call answered means.
pub(crate) fn answer(number: u8) -> Result<(), Refusal> {
    match number {
        0 => Ok(()),
        _ => Err(Refusal::from_number(number).expect("an answer of the desk's table")),
    }
}
