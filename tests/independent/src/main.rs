//! The command: `independent expected NAME` prints what the test program `test_NAME` must print;
//! `independent clips FOLDER` writes the stored clips of `test_clip` and its cases into a folder.

use independent::clips;
use independent::expected::expected;
use std::path::Path;
use std::process::exit;

fn main() {
    let arguments: Vec<String> = std::env::args().skip(1).collect();
    let words: Vec<&str> = arguments.iter().map(String::as_str).collect();
    let answer = match words[..] {
        ["expected", name] => expected(name),
        ["clips", folder] => Some(write_clips(Path::new(folder))),
        _ => None,
    };
    match answer {
        Some(text) => print!("{text}"),
        None => {
            eprintln!("usage: independent expected sponge | tree | forms | parties | clip | desk");
            eprintln!("       independent clips FOLDER");
            exit(2);
        }
    }
}

/// Writes the data of `test_clip`, and says how much it is.
fn write_clips(folder: &Path) -> String {
    let files = clips::files();
    for (name, bytes) in &files {
        std::fs::write(folder.join(name), bytes).expect("the folder can be written");
    }
    let total: usize = files.values().map(Vec::len).sum();
    format!("{} files, {total} bytes\n", files.len())
}
