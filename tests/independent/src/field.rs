//! Numbers from 0 to 15, vectors of them (one element to a byte), and packing.

/// x⁴ + x + 1.
const MODULUS: u8 = 0b1_0011;

/// The sum, and as well the difference: bits are coefficients modulo 2.
pub fn add(a: u8, b: u8) -> u8 {
    a ^ b
}

pub fn subtract(a: u8, b: u8) -> u8 {
    a ^ b
}

/// The product of the polynomials a and b, modulo x⁴ + x + 1.
pub fn product(a: u8, b: u8) -> u8 {
    let mut result = 0;
    for degree in 0..4 {
        if b >> degree & 1 == 1 {
            result ^= a << degree;
        }
    }
    for degree in [6, 5, 4] {
        if result >> degree & 1 == 1 {
            result ^= MODULUS << (degree - 4);
        }
    }
    result
}

/// a + b, element by element.
pub fn add_vectors(a: &[u8], b: &[u8]) -> Vec<u8> {
    a.iter().zip(b).map(|(a, b)| add(*a, *b)).collect()
}

/// a - b, element by element.
pub fn subtract_vectors(a: &[u8], b: &[u8]) -> Vec<u8> {
    a.iter().zip(b).map(|(a, b)| subtract(*a, *b)).collect()
}

/// The paper's a ⊙ b, element by element.
pub fn product_vectors(a: &[u8], b: &[u8]) -> Vec<u8> {
    a.iter().zip(b).map(|(a, b)| product(*a, *b)).collect()
}

/// pack of section 4.3: two elements in a byte, the first in the low four bits. An odd last
/// element leaves the four high bits zero.
pub fn pack(elements: &[u8]) -> Vec<u8> {
    let mut bytes = Vec::new();
    for pair in elements.chunks(2) {
        let low = pair[0];
        let high = if pair.len() == 2 { pair[1] } else { 0 };
        bytes.push(low | high << 4);
    }
    bytes
}

/// The first `count` elements that the bytes pack. Four bits left over are ignored.
pub fn unpack(bytes: &[u8], count: usize) -> Vec<u8> {
    let mut elements = Vec::new();
    for byte in bytes {
        elements.push(byte & 15);
        elements.push(byte >> 4);
    }
    elements.truncate(count);
    elements
}
