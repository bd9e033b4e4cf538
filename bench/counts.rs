// The six sets, and how many permutations each call makes, counted from the lengths that are hashed. The message has MESSAGE bytes, and no random bytes are lent.

pub struct Set {
    pub number: usize,
    pub name: &'static str,
    // S, n, m, τ and L of document 01's table
    pub s: usize,
    pub n: usize,
    pub m: usize,
    pub tau: usize,
    pub l: usize,
    pub secret_key: usize,
    pub public_key: usize,
    pub signature: usize,
}

pub const SETS: [Set; 6] = [
    Set { number: 1, name: "128s", s: 16, n: 64, m: 67, tau: 18, l: 8, secret_key: 115, public_key: 50, signature: 4758 },
    Set { number: 2, name: "128f", s: 16, n: 64, m: 67, tau: 34, l: 4, secret_key: 115, public_key: 50, signature: 6726 },
    Set { number: 3, name: "192s", s: 24, n: 87, m: 90, tau: 30, l: 8, secret_key: 158, public_key: 69, signature: 11349 },
    Set { number: 4, name: "192f", s: 24, n: 87, m: 90, tau: 54, l: 4, secret_key: 158, public_key: 69, signature: 15129 },
    Set { number: 5, name: "256s", s: 32, n: 118, m: 121, tau: 40, l: 8, secret_key: 212, public_key: 93, signature: 20192 },
    Set { number: 6, name: "256f", s: 32, n: 118, m: 121, tau: 73, l: 4, secret_key: 212, public_key: 93, signature: 27348 },
];

pub const RATE: usize = 136;
pub const WORK: usize = 65_536;
pub const MESSAGE: usize = 100;

// The permutations of one hash of `taken` bytes that gives `given` bytes.
fn hash(taken: usize, given: usize) -> usize {
    taken / RATE + 1 + given.saturating_sub(1) / RATE
}

fn packed(n: usize) -> usize {
    n.div_ceil(2)
}

impl Set {
    // Making keys: the circuit, and s from its seed.
    pub fn making_keys(&self) -> usize {
        self.circuit() + hash(self.s, packed(self.n))
    }

    // Signing: each tree and each tape twice, the commitments once, then path, commitment and α of the hidden parties.
    pub fn signing(&self) -> usize {
        let (child, com, tape) = (self.children(), self.commitment(), self.tape());
        let parties = 1 << self.l;
        let repetition = 2 * ((parties - 1) * child + parties * tape) + parties * com;
        self.common() + hash(self.secret_key + MESSAGE, (2 + self.tau) * self.s) + self.tau * (repetition + self.l * child + com + tape)
    }

    // Verifying: each tree once without the way to the hidden party, each tape once (the hidden party's from zeros), each commitment once without the hidden party's.
    pub fn verifying(&self) -> usize {
        let parties = 1 << self.l;
        self.common() + self.tau * ((parties - 1 - self.l) * self.children() + parties * self.tape() + (parties - 1) * self.commitment())
    }

    // What the two hashes and the expansions take, the same for signing and verifying.
    fn common(&self) -> usize {
        let parties = 1 << self.l;
        let first = 1 + 2 * self.s + MESSAGE + self.tau * (parties * 2 * self.s + packed(self.n) + packed(self.m));
        let second = 1 + 4 * self.s + self.tau * (2 * parties * self.m / 2);
        let challenges = hash(2 * self.s, self.tau * packed(self.m)) + hash(2 * self.s, self.tau);
        hash(first, 2 * self.s) + hash(second, 2 * self.s) + self.circuit() + challenges
    }

    fn circuit(&self) -> usize {
        hash(self.s, 3 * (packed(self.m) + self.m * packed(self.n)))
    }

    fn children(&self) -> usize {
        hash(7 + 3 * self.s, 2 * self.s)
    }

    fn commitment(&self) -> usize {
        hash(5 + 3 * self.s, 2 * self.s)
    }

    fn tape(&self) -> usize {
        hash(5 + 3 * self.s, packed(self.n) + 2 * packed(self.m))
    }
}
