//! Links ../../target/lib/libdemnyaluz.a, or the archive in the folder that DEMNYALUZ_LIB names.
use std::path::PathBuf;

fn main() {
    println!("cargo:rerun-if-env-changed=DEMNYALUZ_LIB");
    let folder = match std::env::var_os("DEMNYALUZ_LIB") {
        Some(folder) => PathBuf::from(folder),
        None => PathBuf::from(env!("CARGO_MANIFEST_DIR")).join("../../target/lib"),
    };
    let archive = folder.join("libdemnyaluz.a");
    println!("cargo:rerun-if-changed={}", archive.display());
    if !archive.is_file() {
        eprintln!("error: {} is missing; run `make lib` in the repository's root, or set DEMNYALUZ_LIB to the folder that has it", archive.display());
        std::process::exit(1);
    }
    println!("cargo:rustc-link-search=native={}", folder.display());
    println!("cargo:rustc-link-lib=static=demnyaluz");
}
