//! Refusals 1 to 7 of the four calls: the lowest number that applies is given, and nothing that
//! was lent changes.

use independent::desk::*;

fn filled(length: usize) -> Vec<u8> {
    vec![0x5a; length]
}

static LONG: [u8; MESSAGE_LIMIT + 1] = [0; MESSAGE_LIMIT + 1];

#[test]
fn refusals_of_make_keys() {
    let check_keys = |set, seed, secret, public, work, number| {
        let (mut a, mut b, mut w) = (filled(secret), filled(public), filled(work));
        let (first, second) = (vec![0; 16], vec![0; seed]);
        assert_eq!(
            make_keys(set, &first, &second, &mut a, &mut b, &mut w),
            number
        );
        assert_eq!((a, b, w), (filled(secret), filled(public), filled(work)));
    };
    check_keys(0, 15, 0, 0, 0, NO_SUCH_SET);
    check_keys(7, 15, 0, 0, 0, NO_SUCH_SET);
    check_keys(2, 15, 0, 0, 0, SEED_OR_RANDOM_LENGTH);
    check_keys(2, 17, 0, 0, 0, SEED_OR_RANDOM_LENGTH);
    check_keys(2, 16, 114, 50, 0, OUTPUT_TOO_SHORT);
    check_keys(2, 16, 115, 49, 0, OUTPUT_TOO_SHORT);
    check_keys(2, 16, 115, 50, WORK_BYTES - 1, WORK_TOO_SHORT);
}

#[test]
fn refusals_of_public_half() {
    let check_half = |set, key, output, work, number| {
        let (mut o, mut w) = (filled(output), filled(work));
        assert_eq!(public_half(set, &vec![0; key], &mut o, &mut w), number);
        assert_eq!((o, w), (filled(output), filled(work)));
    };
    check_half(0, 0, 0, 0, NO_SUCH_SET);
    check_half(2, 114, 0, 0, KEY_LENGTH);
    check_half(2, 116, 0, 0, KEY_LENGTH);
    check_half(2, 115, 49, 0, OUTPUT_TOO_SHORT);
    check_half(2, 115, 50, WORK_BYTES - 1, WORK_TOO_SHORT);
}

#[test]
fn refusals_of_sign() {
    let check_sign = |set, key, message, random, output, work, number| {
        let (mut o, mut w) = (filled(output), filled(work));
        let (key, random): (Vec<u8>, Vec<u8>) = (vec![0; key], vec![0; random]);
        assert_eq!(
            sign(set, &key, &LONG[..message], &random, &mut o, &mut w),
            number
        );
        assert_eq!((o, w), (filled(output), filled(work)));
    };
    check_sign(7, 0, 32769, 1, 0, 0, NO_SUCH_SET);
    for random in [1, 16, 31, 33] {
        check_sign(2, 0, 32769, random, 0, 0, SEED_OR_RANDOM_LENGTH);
    }
    check_sign(2, 0, 32769, 0, 0, 0, MESSAGE_TOO_LONG);
    check_sign(2, 114, 32768, 32, 0, 0, KEY_LENGTH);
    check_sign(2, 115, 32768, 32, 6725, 0, OUTPUT_TOO_SHORT);
    check_sign(2, 115, 32768, 32, 6726, WORK_BYTES - 1, WORK_TOO_SHORT);
}

#[test]
fn refusals_of_verify() {
    let check_verify = |set, key, message, signature, work, number| {
        let (key, signature): (Vec<u8>, Vec<u8>) = (vec![0; key], vec![0; signature]);
        let mut w = filled(work);
        assert_eq!(
            verify(set, &key, &LONG[..message], &signature, &mut w),
            number
        );
        assert_eq!(w, filled(work));
    };
    check_verify(0, 0, 32769, 0, 0, NO_SUCH_SET);
    check_verify(2, 0, 32769, 0, 0, MESSAGE_TOO_LONG);
    check_verify(2, 51, 32768, 0, 0, KEY_LENGTH);
    check_verify(2, 50, 32768, 6725, 0, SIGNATURE_LENGTH);
    check_verify(2, 50, 32768, 6727, 0, SIGNATURE_LENGTH);
    check_verify(2, 50, 32768, 6726, WORK_BYTES - 1, WORK_TOO_SHORT);
}
