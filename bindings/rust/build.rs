// Links libdesk.a, which `bench/archive desk` makes in target/bench. DESK_ARCHIVE, a whole path, names another folder that holds it.
use std::env::var;
use std::path::Path;
use std::process::exit;

fn main() {
    let here = var("CARGO_MANIFEST_DIR").expect("cargo names the crate's folder");
    let folder = var("DESK_ARCHIVE").unwrap_or(format!("{here}/../../target/bench"));
    let archive = format!("{folder}/libdesk.a");
    println!("cargo:rerun-if-env-changed=DESK_ARCHIVE");
    println!("cargo:rerun-if-changed={archive}");
    if !Path::new(&folder).is_absolute() {
        refuse(format!("DESK_ARCHIVE is {folder}: it has to be a whole path, from / on"));
    }
    if !Path::new(&archive).exists() {
        refuse(format!("{archive} is missing: `bench/archive desk` makes libdesk.a in target/bench"));
    }
    println!("cargo:rustc-link-search=native={folder}");
    println!("cargo:rustc-link-lib=static=desk");
}

fn refuse(words: String) -> ! {
    eprintln!("{words}");
    exit(1)
}
