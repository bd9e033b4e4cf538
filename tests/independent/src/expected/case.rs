//! A case of the test of the desk.

#[derive(Clone, Copy)]
pub enum Call {
    MakeKeys,
    PublicHalf,
    Sign,
    Verify,
}

/// What a case changes bits of.
#[derive(Clone, Copy)]
pub enum Part {
    Input,
    SecretKey,
    PublicKey,
    Signature,
}

/// The number of a set and the lengths that a call is lent, of inputs and of outputs, and the bits
/// that are changed for it: the part, the byte, and the bits.
#[derive(Clone)]
pub struct Case {
    pub call: Call,
    pub name: &'static str,
    pub number: usize,
    pub circuit_seed: usize,
    pub secret_seed: usize,
    pub secret_key: usize,
    pub public_key: usize,
    pub message: usize,
    pub random: usize,
    pub signature: usize,
    pub work: usize,
    pub damage: Option<(Part, usize, u8)>,
}

impl Case {
    /// The same with a change.
    pub fn with(&self, change: impl FnOnce(&mut Case)) -> Case {
        let mut case = self.clone();
        change(&mut case);
        case
    }

    /// The same with changed bits.
    pub fn damaged(&self, part: Part, at: usize, bits: u8) -> Case {
        self.with(|case| case.damage = Some((part, at, bits)))
    }

    /// The name of the case, the bits that are changed, and the number of the set and the lengths
    /// that the call is lent.
    pub fn text(&self) -> String {
        let k = self;
        let (call, lent) = match self.call {
            Call::MakeKeys => (
                "make keys",
                vec![k.circuit_seed, k.secret_seed, k.secret_key, k.public_key],
            ),
            Call::PublicHalf => ("public half", vec![k.secret_key, k.public_key]),
            Call::Sign => ("sign", vec![k.secret_key, k.message, k.random, k.signature]),
            Call::Verify => ("verify", vec![k.public_key, k.message, k.signature]),
        };
        let mut text = format!("{:<40}", format!("{call}, {}", k.name));
        if let Some((_, at, bits)) = k.damage {
            text += &format!(" bits {bits} of byte {at},");
        }
        text += &format!(" lent {}", k.number);
        for length in lent {
            text += &format!(" {length}");
        }
        text + &format!(" {}", k.work)
    }
}
