//! Reading inputs no further than they can be legal, writing outputs that were not there before, and names as they are printed.

use std::ffi::OsStr;
use std::fs::{remove_file, File, OpenOptions};
use std::io::{ErrorKind, Read, Write};
use std::os::unix::ffi::OsStrExt;
use std::os::unix::fs::{FileTypeExt, OpenOptionsExt};
use std::path::Path;

/// Mode of a file that its owner alone may read, and of any other, before the mask of the process.
pub const SECRET: u32 = 0o600;
pub const OPEN: u32 = 0o644;

/// A word of the command line as a part of one line: what would end the line, turn it over, steer a terminal or not be seen is written as an escape, and so are
/// a backslash, so that no name holds an escape of its own making, and bytes that are no letter.
pub fn shown<Word: AsRef<OsStr> + ?Sized>(word: &Word) -> String {
    let mut line = String::new();
    for chunk in word.as_ref().as_bytes().utf8_chunks() {
        for letter in chunk.valid().chars() {
            if letter == '\\' || letter.is_control() || is_unseen(letter) {
                line.extend(letter.escape_default());
            } else {
                line.push(letter);
            }
        }
        line.extend(chunk.invalid().iter().map(|byte| format!("\\x{byte:02x}")));
    }
    line
}

/// Whether a letter is one of these: the marks, overrides and isolates that turn the order of a line, the ends of a line and of a paragraph, joiners and spaces without width,
/// the soft hyphen, annotations and tags. ./check-clips has the same list in bytes.
fn is_unseen(letter: char) -> bool {
    matches!(
        letter,
        '\u{ad}' | '\u{61c}' | '\u{180e}' | '\u{200b}'..='\u{200f}' | '\u{2028}'..='\u{202e}' | '\u{2060}'..='\u{206f}' | '\u{feff}' | '\u{fff9}'..='\u{fffb}' | '\u{e0000}'..='\u{e007f}'
    )
}

/// The bytes of a file, at most one more than `limit`: whatever is longer is refused all the same.
pub fn at_most(path: &Path, limit: usize) -> Result<Vec<u8>, String> {
    let file = File::open(path).map_err(|error| unread(path, error))?;
    read_up_to(file, limit + 1).map_err(|error| unread(path, error))
}

/// So many bytes of a device such as /dev/urandom, which has no end; of any other file what [`at_most`] gives.
pub fn drawn(path: &Path, count: usize) -> Result<Vec<u8>, String> {
    let file = File::open(path).map_err(|error| unread(path, error))?;
    let device = file.metadata().is_ok_and(|data| data.file_type().is_char_device());
    read_up_to(file, if device { count } else { count + 1 }).map_err(|error| unread(path, error))
}

fn read_up_to(mut file: File, count: usize) -> std::io::Result<Vec<u8>> {
    let mut bytes = vec![0; count];
    let mut len = 0;
    while len < count {
        match file.read(&mut bytes[len..]) {
            Ok(0) => break,
            Ok(n) => len += n,
            Err(error) if error.kind() == ErrorKind::Interrupted => {}
            Err(error) => return Err(error),
        }
    }
    bytes.truncate(len);
    Ok(bytes)
}

fn unread(path: &Path, error: std::io::Error) -> String {
    format!("{}: cannot be read: {error}", shown(path))
}

/// A file that was not there before. It is removed again unless it was written whole and kept.
pub struct NewFile<'a> {
    path: &'a Path,
    file: File,
    kept: bool,
}

impl<'a> NewFile<'a> {
    /// Makes the file. One that is there already is left as it is.
    pub fn create(path: &'a Path, mode: u32) -> Result<NewFile<'a>, String> {
        match OpenOptions::new().write(true).create_new(true).mode(mode).open(path) {
            Ok(file) => Ok(NewFile { path, file, kept: false }),
            Err(error) if error.kind() == ErrorKind::AlreadyExists => Err(format!("{}: is there already, and no file is written over", shown(path))),
            Err(error) => Err(unwritten(path, error)),
        }
    }

    /// Writes the whole content.
    pub fn write(&mut self, bytes: &[u8]) -> Result<(), String> {
        self.file.write_all(bytes).and_then(|()| self.file.sync_all()).map_err(|error| unwritten(self.path, error))
    }

    /// The file stays.
    pub fn keep(mut self) {
        self.kept = true;
    }
}

impl Drop for NewFile<'_> {
    fn drop(&mut self) {
        if !self.kept {
            let _ = remove_file(self.path);
        }
    }
}

fn unwritten(path: &Path, error: std::io::Error) -> String {
    format!("{}: cannot be written: {error}", shown(path))
}
