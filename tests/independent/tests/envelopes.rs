//! The clip envelope and the clip program's line.

use independent::biscuit::{keys, sign};
use independent::desk::{
    DONE, ENVELOPE_LENGTH, ENVELOPE_VERSION, KEY_LENGTH, MESSAGE_LIMIT, MESSAGE_TOO_LONG,
    NO_SUCH_SET, OUTPUT_TOO_SHORT, SIGNATURE_LENGTH,
};
use independent::envelope::{self, clip_line};
use independent::sets::SETS;

const FILL: u8 = 0x5a;

#[test]
fn envelopes() {
    let p = &SETS[1];
    let (secret_key, public_key) = keys(p, &[1; 16], &[2; 16]);
    let signature = sign(p, &secret_key, b"take 3", b"").signature;
    let mut written = vec![FILL; 3 + 50 + 6726 + 6 + 1];
    let write = envelope::write;
    assert_eq!(
        write(2, &public_key, &signature, b"take 3", &mut written),
        DONE
    );
    assert_eq!(written.pop(), Some(FILL));
    assert_eq!(written[..3], [0x12, 0x00, 0x06]);
    let parts = envelope::read(&written);
    assert_eq!((parts.number, parts.set), (DONE, 2));
    assert_eq!(written[parts.public_key], public_key);
    assert_eq!(written[parts.signature], signature);
    assert_eq!(written[parts.message], *b"take 3");
    assert_eq!(clip_line(&written), "genuine 2 6\n");
    written[60] ^= 1;
    assert_eq!(clip_line(&written), "refused 9\n");

    let long = vec![0; MESSAGE_LIMIT + 1];
    let mut short = vec![FILL; 6785 - 1];
    assert_eq!(write(0, b"", b"", &long, &mut short), NO_SUCH_SET);
    assert_eq!(write(2, b"", b"", &long, &mut short), MESSAGE_TOO_LONG);
    assert_eq!(write(2, b"", b"", b"", &mut short), KEY_LENGTH);
    assert_eq!(
        write(2, &public_key, b"", b"", &mut short),
        SIGNATURE_LENGTH
    );
    assert_eq!(
        write(2, &public_key, &signature, b"take 3", &mut short),
        OUTPUT_TOO_SHORT
    );
    assert_eq!(short, vec![FILL; 6785 - 1]);
}

#[test]
fn refused_envelopes() {
    let numbers = |start: [u8; 3], length: usize| {
        let mut envelope = vec![0; length];
        envelope[..3].copy_from_slice(&start);
        envelope::read(&envelope).number
    };
    for length in 0..3 {
        assert_eq!(envelope::read(&vec![0x12; length]).number, ENVELOPE_LENGTH);
    }
    assert_eq!(numbers([0x00, 0xff, 0xff], 3), ENVELOPE_VERSION);
    assert_eq!(numbers([0x22, 0x00, 0x00], 6779), ENVELOPE_VERSION);
    assert_eq!(numbers([0x10, 0xff, 0xff], 3), NO_SUCH_SET);
    assert_eq!(numbers([0x17, 0x00, 0x00], 3), NO_SUCH_SET);
    assert_eq!(numbers([0x12, 0x80, 0x01], 3), MESSAGE_TOO_LONG);
    assert_eq!(numbers([0x12, 0x80, 0x00], 6779 + 32767), ENVELOPE_LENGTH);
    assert_eq!(numbers([0x12, 0x80, 0x00], 6779 + 32768), DONE);
    assert_eq!(numbers([0x12, 0x00, 0x00], 6778), ENVELOPE_LENGTH);
    assert_eq!(numbers([0x12, 0x00, 0x00], 6779), DONE);
    assert_eq!(numbers([0x12, 0x00, 0x00], 6780), ENVELOPE_LENGTH);
    assert_eq!(envelope::read(&[0x12, 0, 0]).message, 0..0);
    assert_eq!(clip_line(&[0x12, 0x00, 0x00]), "refused 10\n");
    assert_eq!(clip_line(&vec![0x12; 70_000]), "refused 10\n");
}
