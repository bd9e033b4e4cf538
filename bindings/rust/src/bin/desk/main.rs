//! `desk`: makes keys, signs files into envelopes and checks envelopes, over the proved library. Every input and output is a file that is named on the
//! command line. It ends with status 0 when all is well, 1 where something is refused or a file cannot be read or written, 2 where it is used wrongly.

mod commands;
mod files;

use commands::{check, help, keys, open, public, sign};
use std::ffi::OsString;
use std::io::Write;
use std::process::ExitCode;

const USAGE: &str = "\
how to use it:
  desk keys SET CIRCUIT_SEED SECRET_SEED SECRET_KEY PUBLIC_KEY
      makes a key pair from two seeds: CIRCUIT_SEED becomes public, SECRET_SEED must stay secret; never give the same bytes for both
  desk public SET SECRET_KEY PUBLIC_KEY
      gives the public half of a secret key
  desk sign SET SECRET_KEY MESSAGE ENVELOPE [RANDOM]
      signs a file into an envelope; without RANDOM the same key and message always give the same envelope
  desk check [--key PUBLIC_KEY] ENVELOPE..
      checks envelopes and prints a line for each: `genuine SET LENGTH`, or `refused NUMBER` with its words
  desk open [--key PUBLIC_KEY] ENVELOPE MESSAGE
      checks an envelope and writes its message

Every word in capitals but SET is the name of a file. A file whose name begins with -- is given as ./--name.
SET is a number or a name: 1 128s, 2 128f, 3 192s, 4 192f, 5 256s, 6 256f.
The s and f sets of one strength have keys of the same form, so a key made for 128f also works as one of 128s.
A seed has 16, 24 or 32 bytes, as the name of the set says (128, 192 or 256 bits), and RANDOM twice as many.
Both are files of exactly that length, or a device such as /dev/urandom, from which that many bytes are read.
A message has at most 32,768 bytes. No file is ever written over; a secret key is readable by its owner alone.
A command that is killed while it writes may leave a file that is not whole: remove it before you try again.
An envelope is genuine when it was signed with the key that it carries. --key says whose key that has to be.
The status is 0 when all is well, 1 where something is refused or a file cannot be read or written, 2 where desk is used wrongly.
";

/// What a command ends with: whether all was well, or why it did not do its work.
pub type Ended = Result<bool, Failure>;

pub enum Failure {
    /// The words make no command.
    Usage,
    /// A line that says what is wrong.
    Said(String),
}

impl From<String> for Failure {
    fn from(line: String) -> Failure {
        Failure::Said(line)
    }
}

fn main() -> ExitCode {
    let words: Vec<OsString> = std::env::args_os().skip(1).collect();
    match command(&words) {
        Ok(true) => ExitCode::SUCCESS,
        Ok(false) => ExitCode::from(1),
        Err(Failure::Said(line)) => ended(1, &format!("desk: {line}\n")),
        Err(Failure::Usage) => ended(2, USAGE),
    }
}

/// A status, after the words on standard error. Where these cannot be written either, the status alone tells.
fn ended(status: u8, words: &str) -> ExitCode {
    let _ = std::io::stderr().write_all(words.as_bytes());
    ExitCode::from(status)
}

fn command(words: &[OsString]) -> Ended {
    let Some((name, rest)) = words.split_first() else {
        return Err(Failure::Usage);
    };
    let keyed = rest.first().is_some_and(|word| word == "--key");
    let names = &rest[usize::from(keyed)..];
    if names.iter().any(is_option) {
        return Err(Failure::Usage);
    }
    match (name.to_str(), keyed, names) {
        (Some("help" | "--help" | "-h"), false, []) => help(USAGE),
        (Some("keys"), false, [set, circuit_seed, secret_seed, secret_key, public_key]) => {
            keys(set, circuit_seed.as_ref(), secret_seed.as_ref(), secret_key.as_ref(), public_key.as_ref())
        }
        (Some("public"), false, [set, secret_key, public_key]) => public(set, secret_key.as_ref(), public_key.as_ref()),
        (Some("sign"), false, [set, secret_key, message, envelope]) => sign(set, secret_key.as_ref(), message.as_ref(), envelope.as_ref(), None),
        (Some("sign"), false, [set, secret_key, message, envelope, random]) => {
            sign(set, secret_key.as_ref(), message.as_ref(), envelope.as_ref(), Some(random.as_ref()))
        }
        (Some("check"), true, [key, envelopes @ ..]) if !envelopes.is_empty() => check(Some(key.as_ref()), envelopes),
        (Some("check"), false, [_, ..]) => check(None, names),
        (Some("open"), true, [key, envelope, message]) => open(Some(key.as_ref()), envelope.as_ref(), message.as_ref()),
        (Some("open"), false, [envelope, message]) => open(None, envelope.as_ref(), message.as_ref()),
        _ => Err(Failure::Usage),
    }
}

/// Whether a word looks like an option: such a word is never taken for a file.
fn is_option(word: &OsString) -> bool {
    word.as_encoded_bytes().starts_with(b"--")
}
