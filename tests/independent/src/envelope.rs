//! The clip envelope of document 01, and the line of the clip program.

use crate::desk::{
    verify, DONE, ENVELOPE_LENGTH, ENVELOPE_VERSION, KEY_LENGTH, MESSAGE_LIMIT, MESSAGE_TOO_LONG,
    NO_SUCH_SET, OUTPUT_TOO_SHORT, SIGNATURE_LENGTH, WORK_BYTES,
};
use crate::sets::parameters;
use std::ops::Range;

pub const HEADER_BYTES: usize = 3;
pub const VERSION: u8 = 1;
/// The most that the clip program reads.
pub const CLIP_INPUT_LIMIT: usize = 65_536;

/// What reading hands back: the number, and where the parts lie in the caller's bytes. On
/// refusal set and parts are 0 and 0..0.
#[derive(Debug, PartialEq)]
pub struct Read {
    pub number: u8,
    pub set: usize,
    pub public_key: Range<usize>,
    pub signature: Range<usize>,
    pub message: Range<usize>,
}

/// The header: version in 4 bits, set in 4, message length in 16, most significant first.
pub fn header(set: usize, message_length: usize) -> [u8; HEADER_BYTES] {
    [
        VERSION << 4 | set as u8,
        (message_length / 256) as u8,
        (message_length % 256) as u8,
    ]
}

/// Write: tests 1, 3, 4, 5, 6.
pub fn write(
    set: usize,
    public_key: &[u8],
    signature: &[u8],
    message: &[u8],
    envelope: &mut [u8],
) -> u8 {
    let Some(p) = parameters(set) else {
        return NO_SUCH_SET;
    };
    if message.len() > MESSAGE_LIMIT {
        return MESSAGE_TOO_LONG;
    }
    if public_key.len() != p.public_key_bytes() {
        return KEY_LENGTH;
    }
    if signature.len() != p.signature_bytes() {
        return SIGNATURE_LENGTH;
    }
    let written = [&header(set, message.len()), public_key, signature, message].concat();
    if envelope.len() < written.len() {
        return OUTPUT_TOO_SHORT;
    }
    envelope[..written.len()].copy_from_slice(&written);
    DONE
}

/// Read, in the order of document 01: under 3 bytes (10), 11, 1, 3, total (10).
pub fn read(envelope: &[u8]) -> Read {
    if envelope.len() < HEADER_BYTES {
        return refused(ENVELOPE_LENGTH);
    }
    let (version, set) = (envelope[0] >> 4, (envelope[0] & 15) as usize);
    let message_length = envelope[1] as usize * 256 + envelope[2] as usize;
    if version != VERSION {
        return refused(ENVELOPE_VERSION);
    }
    let Some(p) = parameters(set) else {
        return refused(NO_SUCH_SET);
    };
    if message_length > MESSAGE_LIMIT {
        return refused(MESSAGE_TOO_LONG);
    }
    let signature_at = HEADER_BYTES + p.public_key_bytes();
    let message_at = signature_at + p.signature_bytes();
    if envelope.len() != message_at + message_length {
        return refused(ENVELOPE_LENGTH);
    }
    Read {
        number: DONE,
        set,
        public_key: HEADER_BYTES..signature_at,
        signature: signature_at..message_at,
        message: message_at..envelope.len(),
    }
}

fn refused(number: u8) -> Read {
    Read {
        number,
        set: 0,
        public_key: 0..0,
        signature: 0..0,
        message: 0..0,
    }
}

/// The line that the clip program prints for what stands on its input.
pub fn clip_line(input: &[u8]) -> String {
    let envelope = &input[..input.len().min(CLIP_INPUT_LIMIT)];
    let parts = read(envelope);
    if parts.number != DONE {
        return format!("refused {}\n", parts.number);
    }
    let number = verify(
        parts.set,
        &envelope[parts.public_key],
        &envelope[parts.message.clone()],
        &envelope[parts.signature],
        &mut vec![0; WORK_BYTES],
    );
    match number {
        DONE => format!("genuine {} {}\n", parts.set, parts.message.len()),
        _ => format!("refused {number}\n"),
    }
}
