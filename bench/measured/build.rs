// Links libshake.a, of which one permutation is timed. bench/table gives the folder.
fn main() {
    println!("cargo:rerun-if-env-changed=DESK_ARCHIVE");
    let folder = std::env::var("DESK_ARCHIVE").expect("DESK_ARCHIVE names the folder of libdesk.a and libshake.a: start this by bench/table");
    println!("cargo:rerun-if-changed={folder}/libshake.a");
    println!("cargo:rustc-link-search=native={folder}");
    println!("cargo:rustc-link-lib=static=shake");
}
