//! The commands: each reads its files, asks the proved library, and writes or prints what it answers.

use crate::files::{at_most, drawn, shown, NewFile, OPEN, SECRET};
use crate::{Ended, Failure};
use biscuit::{clear, Desk, Envelope, PublicKey, Refusal, SecretKey, Set, MESSAGE_LIMIT};
use std::ffi::{OsStr, OsString};
use std::io::Write;
use std::path::Path;

/// The most that is read of an envelope: whatever is longer is longer than any legal one.
const ENVELOPE_LIMIT: usize = 65_536;

/// The bytes of the longest public key.
const LONGEST_KEY: usize = Set::Biscuit256f.public_key_len();

/// Prints how to use it.
pub fn help(usage: &str) -> Ended {
    match std::io::stdout().write_all(usage.as_bytes()) {
        Ok(()) => Ok(true),
        Err(error) => Err(Failure::Said(format!("standard output: {error}"))),
    }
}

/// Makes a key pair from two seeds.
pub fn keys(set: &OsStr, circuit_seed: &Path, secret_seed: &Path, secret_key: &Path, public_key: &Path) -> Ended {
    let set = named(set)?;
    if secret_key == public_key {
        return Err(Failure::Said(format!("{}: is named for both keys", shown(secret_key))));
    }
    let circuit = drawn(circuit_seed, set.seed_len())?;
    let mut secret = drawn(secret_seed, set.seed_len())?;
    let limit = set.seed_len();
    let sizes = format!("{}, {}", read(circuit_seed, &circuit, limit), read(secret_seed, &secret, limit));
    let same = circuit == secret;
    let made = Desk::new().make_keys(set, &circuit, &secret);
    clear(&mut secret);
    let (secret, public) = made.map_err(|refusal| refused(refusal, format!("{sizes}; S is {} in set {set}", set.seed_len())))?;
    if same {
        return Err(Failure::Said(format!("{}: holds the same bytes as the circuit seed, which the public key shows", shown(secret_seed))));
    }
    let mut secret_file = NewFile::create(secret_key, SECRET)?;
    let mut public_file = NewFile::create(public_key, OPEN)?;
    secret_file.write(secret.as_bytes())?;
    public_file.write(public.as_bytes())?;
    secret_file.keep();
    public_file.keep();
    print(format!("{}, {}: written", shown(secret_key), shown(public_key)))
}

/// Gives the public half of a secret key.
pub fn public(set: &OsStr, secret_key: &Path, public_key: &Path) -> Ended {
    let set = named(set)?;
    let secret = secret_key_of(set, secret_key, &mut at_most(secret_key, set.secret_key_len())?)?;
    let public = Desk::new().public_half(&secret).map_err(|refusal| refused(refusal, shown(secret_key)))?;
    written(public_key, public.as_bytes())
}

/// Signs a file into an envelope. Every file is read before any is refused, and the lowest number is said first: random bytes, message, key.
pub fn sign(set: &OsStr, secret_key: &Path, message: &Path, envelope: &Path, random: Option<&Path>) -> Ended {
    let set = named(set)?;
    let content = at_most(message, MESSAGE_LIMIT)?;
    let lent = random.map(|random| drawn(random, set.random_len())).transpose()?;
    let secret = secret_key_of(set, secret_key, &mut at_most(secret_key, set.secret_key_len())?);
    if let Some((random, bytes)) = random.zip(lent.as_ref()).filter(|(_, bytes)| bytes.len() != set.random_len()) {
        let without = if bytes.is_empty() { "; to sign without random bytes name no file for them" } else { "" };
        let wanted = format!("{}; random bytes of set {set} number {}{without}", read(random, bytes, set.random_len()), set.random_len());
        return Err(refused(Refusal::SeedOrRandomLength, wanted));
    }
    if content.len() > MESSAGE_LIMIT {
        return Err(refused(Refusal::MessageTooLong, read(message, &content, MESSAGE_LIMIT)));
    }
    let signed = Desk::new().sign_envelope(&secret?, &content, lent.as_deref());
    written(envelope, &signed.map_err(|refusal| refused(refusal, shown(secret_key)))?)
}

/// Checks envelopes, a line for each.
pub fn check(key: Option<&Path>, envelopes: &[OsString]) -> Ended {
    let key = key.map(Known::read).transpose()?;
    let mut desk = Desk::new();
    let mut well = true;
    for path in envelopes {
        let path = Path::new(path);
        let line = match at_most(path, ENVELOPE_LIMIT) {
            Err(line) => Err(line),
            Ok(bytes) => match checked(&mut desk, &bytes, key.as_ref()) {
                Ok(parts) => Ok(format!("{}: genuine {} {}", shown(path), parts.set().number(), parts.message().len())),
                Err(words) => Err(format!("{}: {words}", shown(path))),
            },
        };
        well &= line.is_ok();
        print(line.unwrap_or_else(|line| line))?;
    }
    Ok(well)
}

/// Checks an envelope and writes its message.
pub fn open(key: Option<&Path>, envelope: &Path, message: &Path) -> Ended {
    let key = key.map(Known::read).transpose()?;
    let bytes = at_most(envelope, ENVELOPE_LIMIT)?;
    match checked(&mut Desk::new(), &bytes, key.as_ref()) {
        Ok(parts) => written(message, parts.message()),
        Err(words) => Err(Failure::Said(format!("{}: {words}", shown(envelope)))),
    }
}

/// A public key that the user knows, of whichever sets have keys of its length.
struct Known<'a> {
    path: &'a Path,
    bytes: Vec<u8>,
}

impl Known<'_> {
    /// Reads it. A length that no set has is refused before any envelope is looked at.
    fn read(path: &Path) -> Result<Known<'_>, Failure> {
        let bytes = at_most(path, LONGEST_KEY)?;
        if !Set::ALL.iter().any(|set| set.public_key_len() == bytes.len()) {
            return Err(refused(Refusal::KeyLength, read(path, &bytes, LONGEST_KEY)));
        }
        Ok(Known { path, bytes })
    }

    /// The key as one of the set.
    fn of(&self, set: Set) -> Result<PublicKey, String> {
        let wanted = || format!("{}; a public key of set {set} has {}", read(self.path, &self.bytes, LONGEST_KEY), set.public_key_len());
        PublicKey::from_bytes(set, &self.bytes).map_err(|refusal| format!("{refusal} ({})", wanted()))
    }
}

/// The parts of an envelope that is genuine, under the known key too where there is one; or the words of the refusal.
fn checked<'a>(desk: &mut Desk, envelope: &'a [u8], known: Option<&Known>) -> Result<Envelope<'a>, String> {
    let parts = desk.check(envelope).map_err(|refusal| refusal.to_string())?;
    if let Some(known) = known {
        let key = known.of(parts.set())?;
        desk.verify(&key, parts.message(), &parts.signature()).map_err(|refusal| format!("{refusal} (under {})", shown(known.path)))?;
    }
    Ok(parts)
}

/// The set of a word. Where there is none, the line names the sets that there are.
fn named(set: &OsStr) -> Result<Set, Failure> {
    let sets = || Set::ALL.map(|set| format!("{} {set}", set.number())).join(", ");
    set.to_str().unwrap_or_default().parse().map_err(|refusal| refused(refusal, format!("{}; the sets are {}", shown(set), sets())))
}

/// A secret key from the bytes that were read, which are cleared.
fn secret_key_of(set: Set, path: &Path, bytes: &mut [u8]) -> Result<SecretKey, Failure> {
    let wanted = format!("{}; a secret key of set {set} has {}", read(path, bytes, set.secret_key_len()), set.secret_key_len());
    let key = SecretKey::from_bytes(set, bytes).map_err(|refusal| refused(refusal, wanted));
    clear(bytes);
    key
}

/// How much of a file was read: at most one byte more than the limit.
fn read(path: &Path, bytes: &[u8], limit: usize) -> String {
    if bytes.len() > limit {
        return format!("{}: more than {limit} bytes", shown(path));
    }
    format!("{}: {} bytes read", shown(path), bytes.len())
}

/// A refusal with what the reader of the line may have to look at.
fn refused(refusal: Refusal, what: String) -> Failure {
    Failure::Said(format!("{refusal} ({what})"))
}

fn written(path: &Path, bytes: &[u8]) -> Ended {
    let mut file = NewFile::create(path, OPEN)?;
    file.write(bytes)?;
    file.keep();
    print(format!("{}: written", shown(path)))
}

/// Prints a line. Where that fails, the line goes into the words, since what it says is done.
fn print(line: String) -> Ended {
    match writeln!(std::io::stdout(), "{line}") {
        Ok(()) => Ok(true),
        Err(error) => Err(Failure::Said(format!("standard output: {error}; it was to say `{line}`"))),
    }
}
