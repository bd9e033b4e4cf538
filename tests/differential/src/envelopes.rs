//! Envelopes, written and read by the proved desk and by the independent program: hostile sizes, and headers and lengths around the right ones.

use crate::{answers, copies, kept, same, Dice, Reached};
use biscuit::raw;
use independent::envelope;
use independent::sets::Parameters;

fn write(set: usize, key: &[u8], signature: &[u8], message: &[u8], room: &[u8], reached: &mut Reached) -> (u8, Vec<u8>) {
    let (mut e1, mut e2) = (room.to_vec(), room.to_vec());
    let lent = copies(&[key, signature, message]);
    let ours = raw::write_envelope(set, &lent[0], &lent[1], &lent[2], &mut e1);
    kept("write", &lent, &[key, signature, message]);
    let r = answers("write", ours, envelope::write(set, key, signature, message, &mut e2), reached);
    same("write", "the envelope", &e1, &e2);
    (r, e1)
}

fn read(bytes: &[u8], reached: &mut Reached) -> u8 {
    let parts = envelope::read(bytes);
    let lent = copies(&[bytes]);
    let r = answers("read", raw::read_envelope(&lent[0]), parts.number, reached);
    let header = raw::Header { version: if r == 0 { envelope::VERSION.into() } else { 0 }, set: parts.set, length: parts.message.len() };
    assert_eq!(raw::header_of_envelope(&lent[0]), header, "read: the headers differ");
    let places = raw::Places { key: parts.public_key.start, signature: parts.signature.start, message: parts.message.start, end: parts.message.end };
    assert_eq!(raw::places_of_envelope(&lent[0]), places, "read: the places differ");
    assert_eq!((parts.public_key.end, parts.signature.end), (places.signature, places.message));
    kept("read", &lent, &[bytes]);
    r
}

/// Writing and reading for a set, a genuine envelope first.
pub fn run(p: &Parameters, key: &[u8], signature: &[u8], dice: &mut Dice, reached: &mut Reached) {
    let message = dice.message();
    let message = &message[..message.len().min(crate::LONGEST)];
    let whole = 3 + key.len() + signature.len() + message.len();
    let room = dice.bytes(whole + 9);
    let (r, written) = write(p.set, key, signature, message, &room, reached);
    assert_eq!((r, read(&written[..whole], reached)), (0, 0));
    for n in [0, 1, 2, 3, whole - 1, whole + 1] {
        assert_eq!(read(&written[..n], reached), 10);
    }
    for first in 0..=255 {
        for second in [written[1], 0x7f, 0x80, 0x81] {
            let mut changed = written[..whole].to_vec();
            changed[0] = first;
            changed[1] = second;
            read(&changed, reached);
            read(&changed[..3], reached);
        }
    }
    for _ in 0..200 {
        let cut = |dice: &mut Dice, part: &[u8]| {
            let n = dice.size(part.len());
            let mut part = part.to_vec();
            part.resize(n, 5);
            part
        };
        let (key, signature, message) = (cut(dice, key), cut(dice, signature), dice.message());
        let n = dice.room(3 + key.len() + signature.len() + message.len());
        let room = dice.bytes(n);
        let (r, envelope) = write(dice.set(p.set), &key, &signature, &message, &room, reached);
        read(&envelope, reached);
        if r == 0 {
            assert_eq!(read(&envelope[..3 + key.len() + signature.len() + message.len()], reached), 0);
        }
    }
}
