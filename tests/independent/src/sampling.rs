//! Values from a tape, algorithms 6 and 7. Nothing is ever rejected, as 16 and N are powers of
//! two. Where the printed text has sums from k = 1 and ⌊ℓ/8⌋, the sums here start at 0 and the bytes
//! of an index are ⌈ℓ/8⌉; docs/DECISIONS.md says why.

use crate::shake::Tape;

/// ⌈log2 16⌉, the bits of an element.
const ELEMENT_BITS: usize = 4;

/// Algorithm 6, lines 11 to 22: a vector of elements, and a half byte left over is consumed.
pub fn sample_vector(tape: &mut Tape, n: usize) -> Vec<u8> {
    let mut u = Vec::new();
    let mut gamma = 0; // line 11
    for _ in 0..n {
        let mut v = 0;
        for k in 0..ELEMENT_BITS {
            v += tape.next_bit() << k; // lines 14 and 16
        }
        gamma += ELEMENT_BITS; // line 15
        u.push(v); // line 18
    }
    if gamma % 8 != 0 {
        for _ in 0..8 - gamma % 8 {
            tape.next_bit(); // line 21
        }
    }
    u
}

/// Algorithm 6, lines 4 to 9: a number from 1 to 2^levels. Whole bytes are taken, and of them
/// only the first (lowest) bits are used.
pub fn sample_index(tape: &mut Tape, levels: usize) -> usize {
    let whole_bytes_bits = 8 * levels.div_ceil(8); // line 4
    let mut v = 0;
    for k in 0..whole_bytes_bits {
        let bit = tape.next_bit() as usize; // line 6
        if k < levels {
            v += bit << k; // line 7
        }
    }
    v + 1 // line 9
}

/// Algorithm 7, Expand, for vectors: `count` vectors of n elements each.
pub fn expand_vectors(seed: &[u8], count: usize, n: usize) -> Vec<Vec<u8>> {
    let mut tape = Tape::new(seed);
    (0..count).map(|_| sample_vector(&mut tape, n)).collect()
}

/// Algorithm 7, Expand, for indexes: `count` numbers from 1 to 2^levels.
pub fn expand_indexes(seed: &[u8], count: usize, levels: usize) -> Vec<usize> {
    let mut tape = Tape::new(seed);
    (0..count)
        .map(|_| sample_index(&mut tape, levels))
        .collect()
}
