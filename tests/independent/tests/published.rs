//! SHAKE256 against published values: the beginnings of NIST's example values for messages of 0
//! and 1600 bits.

use independent::shake::{shake256, Tape};

const EMPTY: &str = "46b9dd2b0ba88d13233b3feb743eeb243fcd52ea62b81b82b50c27646ed5762f\
                     d75dc4ddd8c0f200cb05019d67b592f6fc821c49479ab48640292eacb3b7c4be";
const A3_200: &str = "cd8a920ed141aa0407a22d59288652e9d9f1a7ee0c1e7c1ca699424da84a904d\
                      2d700caae7396ece96604440577da4f3aa22aeb8857f961c4cd8e06f0ae6610b";

fn hex(bytes: &[u8]) -> String {
    bytes.iter().map(|byte| format!("{byte:02x}")).collect()
}

#[test]
fn example_values() {
    assert_eq!(hex(&shake256(&[], 64)), EMPTY);
    assert_eq!(hex(&shake256(&[0xa3; 200], 64)), A3_200);
}

#[test]
fn a_tape_reads_the_same_bytes() {
    let mut tape = Tape::new(&[0xa3; 200]);
    for byte in shake256(&[0xa3; 200], 500) {
        let read: u8 = (0..8).map(|k| tape.next_bit() << k).sum();
        assert_eq!(read, byte);
    }
}
