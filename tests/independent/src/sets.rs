//! The six sets of document 01 (tables 3 and 4 of the submission), and the sizes that follow.

pub struct Parameters {
    pub set: usize,
    pub name: &'static str,
    /// λ
    pub security_bits: usize,
    pub n: usize,
    pub m: usize,
    pub tau: usize,
    /// L, where N is 2 to the L
    pub levels: usize,
}

pub const SETS: [Parameters; 6] = [
    row(1, "128s", 128, 64, 67, 18, 8),
    row(2, "128f", 128, 64, 67, 34, 4),
    row(3, "192s", 192, 87, 90, 30, 8),
    row(4, "192f", 192, 87, 90, 54, 4),
    row(5, "256s", 256, 118, 121, 40, 8),
    row(6, "256f", 256, 118, 121, 73, 4),
];

/// The parameters of a set; none outside 1 to 6.
pub fn parameters(set: usize) -> Option<&'static Parameters> {
    SETS.iter().find(|p| p.set == set)
}

impl Parameters {
    /// S, the bytes of a seed.
    pub fn seed_bytes(&self) -> usize {
        self.security_bits / 8
    }

    /// The bytes of a salt, a hash or a commitment, 2λ bits.
    pub fn hash_bytes(&self) -> usize {
        2 * self.seed_bytes()
    }

    /// N.
    pub fn parties(&self) -> usize {
        1 << self.levels
    }

    /// Algorithm 11, line 7: the circuit seed, then s, t and y packed together.
    pub fn secret_key_bytes(&self) -> usize {
        self.seed_bytes() + packed_bytes(self.n + self.m + self.m)
    }

    /// Algorithm 11, line 8: the circuit seed, then t packed.
    pub fn public_key_bytes(&self) -> usize {
        self.seed_bytes() + packed_bytes(self.m)
    }

    /// Algorithm 12, line 40.
    pub fn signature_bytes(&self) -> usize {
        let path_bytes = self.levels * self.seed_bytes();
        3 * self.hash_bytes()
            + self.tau * (path_bytes + self.hash_bytes())
            + packed_bytes(self.tau * (self.n + self.m) + self.tau * self.m)
    }
}

/// The bytes that so many elements take packed together, section 4.3.
pub fn packed_bytes(elements: usize) -> usize {
    (4 * elements).div_ceil(8)
}

const fn row(
    set: usize,
    name: &'static str,
    security_bits: usize,
    n: usize,
    m: usize,
    tau: usize,
    levels: usize,
) -> Parameters {
    Parameters {
        set,
        name,
        security_bits,
        n,
        m,
        tau,
        levels,
    }
}
