//! The stored clips that the test program `test_clip` runs, the cases made of them, and the lines
//! that it must print. A case takes a stored clip at some length, cut or with zeros behind it, and
//! turns bits of one byte over. `data/cases` has a line of fixed width for each: its name, the
//! clip's name, the length, the place of the byte and what is added to it by exclusive or.

use crate::biscuit::{keys, sign};
use crate::desk::{DONE, MESSAGE_LIMIT};
use crate::envelope::{clip_line, write, CLIP_INPUT_LIMIT, HEADER_BYTES};
use crate::sets::{Parameters, SETS};
use std::collections::BTreeMap;

/// The columns of `data/cases`.
const NAME_WIDTH: usize = 48;
const CLIP_WIDTH: usize = 7;

struct Case {
    name: String,
    clip: String,
    length: usize,
    place: usize,
    turned: u8,
}

/// The file names and contents of the data of `test_clip`.
pub fn files() -> BTreeMap<String, Vec<u8>> {
    let clips = clips();
    let list: String = cases(&clips).iter().map(case_line).collect();
    let mut files = clips;
    files.insert("cases".to_string(), list.into_bytes());
    files
}

/// What `test_clip` must print.
pub fn lines() -> String {
    let clips = clips();
    cases(&clips)
        .iter()
        .map(|case| format!("{}: {}", case.name, clip_line(&input(&clips, case))))
        .collect()
}

/// The stored clips, all but the last genuine: of each set one with no message and one with a short
/// one, two with the longest message, and one whose message was changed.
fn clips() -> BTreeMap<String, Vec<u8>> {
    let mut clips = BTreeMap::new();
    for p in &SETS {
        let short = [255, 256, 257, 300, 1, 2][p.set - 1];
        clips.insert(format!("{}-empty", p.set), clip(p, 0));
        clips.insert(format!("{}-short", p.set), clip(p, short));
    }
    for p in [&SETS[1], &SETS[5]] {
        clips.insert(format!("{}-whole", p.set), clip(p, MESSAGE_LIMIT));
    }
    let mut spoilt = clips["2-short"].clone();
    *spoilt.last_mut().unwrap() ^= 1;
    clips.insert("2-spoil".to_string(), spoilt);
    clips
}

/// A genuine clip of a set, with a message of some length.
fn clip(p: &Parameters, length: usize) -> Vec<u8> {
    let bytes = |step: usize, start: usize, count: usize| -> Vec<u8> {
        (0..count).map(|i| (step * i + start) as u8).collect()
    };
    let seed = p.seed_bytes();
    let (secret_key, public_key) = keys(p, &bytes(3, p.set, seed), &bytes(5, 7, seed));
    let message = bytes(7, 11, length);
    let signature = sign(p, &secret_key, &message, &bytes(13, length, 2 * seed)).signature;
    let mut envelope = vec![0; CLIP_INPUT_LIMIT];
    let number = write(p.set, &public_key, &signature, &message, &mut envelope);
    assert_eq!(number, DONE);
    envelope.truncate(HEADER_BYTES + public_key.len() + signature.len() + length);
    envelope
}

/// The bytes of a case.
fn input(clips: &BTreeMap<String, Vec<u8>>, case: &Case) -> Vec<u8> {
    let mut bytes = clips[&case.clip].clone();
    bytes.resize(case.length, 0);
    if case.place < bytes.len() {
        bytes[case.place] ^= case.turned;
    }
    bytes
}

fn case_line(case: &Case) -> String {
    assert!(case.name.len() <= NAME_WIDTH && case.clip.len() == CLIP_WIDTH);
    format!(
        "{:NAME_WIDTH$}{} {:05} {:05} {:03}\n",
        case.name, case.clip, case.length, case.place, case.turned
    )
}

/// All cases, in the order of the output.
fn cases(clips: &BTreeMap<String, Vec<u8>>) -> Vec<Case> {
    let mut cases = Vec::new();
    let mut add = |name: &str, clip: &str, more: isize, place: usize, turned: u8| {
        cases.push(Case {
            name: name.to_string(),
            clip: clip.to_string(),
            length: (clips[clip].len() as isize + more) as usize,
            place,
            turned,
        })
    };
    for clip in clips.keys() {
        add(&format!("clip {clip}"), clip, 0, 0, 0);
        add(&format!("clip {clip}, a byte less"), clip, -1, 0, 0);
        add(&format!("clip {clip}, a byte more"), clip, 1, 0, 0);
    }
    let whole = clips["2-empty"].len() as isize;
    for length in 0..4 {
        let name = format!("cut to {length}");
        add(&name, "2-empty", length - whole, 0, 0);
        add(
            &format!("{name}, version 0"),
            "2-empty",
            length - whole,
            0,
            0x10,
        );
        add(
            &format!("{name}, set 0"),
            "2-empty",
            length - whole,
            0,
            0x02,
        );
    }
    for (version, turned) in [(0, 0x10), (2, 0x30), (3, 0x20), (9, 0x80), (15, 0xe0)] {
        add(&format!("version {version}"), "2-empty", 0, 0, turned);
    }
    add("version 0, set 0", "2-empty", 0, 0, 0x12);
    for (set, turned) in [(0, 0x06), (7, 0x01), (8, 0x0e), (14, 0x08), (15, 0x09)] {
        add(&format!("set {set}"), "6-empty", 0, 0, turned);
    }
    add("set 5 for 6", "6-empty", 0, 0, 0x03);
    add("set 4 for 6", "6-empty", 0, 0, 0x02);
    for clip in ["2-whole", "6-whole"] {
        add(&format!("clip {clip}, length 32769"), clip, 0, 2, 0x01);
        add(
            &format!("clip {clip}, length 32769 and as long"),
            clip,
            1,
            2,
            0x01,
        );
        add(&format!("clip {clip}, length 65280"), clip, 0, 1, 0x7f);
        add(&format!("clip {clip}, length 0"), clip, 0, 1, 0x80);
    }
    add("clip 2-short, length 257", "2-short", 0, 2, 0x01);
    add(
        "clip 2-short, length 257 and as long",
        "2-short",
        1,
        2,
        0x01,
    );
    add(
        "clip 2-short, length 0 and as long",
        "2-short",
        -256,
        1,
        0x01,
    );
    for (name, length) in [
        ("as much as is read", CLIP_INPUT_LIMIT),
        ("a byte more than is read", CLIP_INPUT_LIMIT + 1),
        ("70000 bytes", 70_000),
    ] {
        for clip in ["2-empty", "6-whole"] {
            let more = length as isize - clips[clip].len() as isize;
            add(&format!("clip {clip}, {name}"), clip, more, 0, 0);
        }
        let more = length as isize - clips["2-empty"].len() as isize;
        add(&format!("version 3, {name}"), "2-empty", more, 0, 0x20);
    }
    for p in &SETS {
        let clip = format!("{}-short", p.set);
        let last = clips[&clip].len() - 1;
        for (section, place, turned) in sections(p, last) {
            add(&format!("clip {clip}, {section}"), &clip, 0, place, turned);
        }
    }
    cases
}

/// A byte of every section of an envelope: its name, its place and what is turned over in it.
fn sections(p: &Parameters, last: usize) -> Vec<(&'static str, usize, u8)> {
    let seed = p.seed_bytes();
    let key = HEADER_BYTES;
    let signature = key + p.public_key_bytes();
    let repetition = |e: usize| signature + 6 * seed + (e - 1) * (p.levels + 2) * seed;
    let vectors = repetition(p.tau + 1);
    let alphas = vectors + p.tau * (p.n + p.m) / 2;
    let message = signature + p.signature_bytes();
    vec![
        ("circuit seed", key, 0x01),
        ("t of the key", key + seed, 0x01),
        ("last four bits of the key", signature - 1, 0x80),
        ("salt", signature, 0x02),
        ("first hash", signature + 2 * seed, 0x04),
        ("second hash", signature + 4 * seed, 0x08),
        ("first of the paths", repetition(1), 0x01),
        (
            "last of the paths",
            repetition(p.tau) + p.levels * seed - 1,
            0x20,
        ),
        ("first commitment", repetition(1) + p.levels * seed, 0x40),
        ("last commitment", vectors - 1, 0x80),
        ("correction of s", vectors, 0x01),
        ("correction of c", vectors + p.n / 2 + 1, 0x10),
        ("first alpha", alphas + 1, 0x10),
        ("last alpha", message - 1, 0x80),
        ("first byte of the message", message, 0x01),
        ("last byte of the message", last, 0x80),
    ]
}
