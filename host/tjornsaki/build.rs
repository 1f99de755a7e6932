//! Points the linker to the proved library, `libtjornsaki.a`.

use std::env;
use std::path::PathBuf;

/// The folder to look in, where it is not the repository's `target/staticlib`.
const OVERRIDE: &str = "TJORNSAKI_LIB";

fn main() {
    let folder = library_folder();
    let archive = folder.join("libtjornsaki.a");
    println!("cargo:rerun-if-env-changed={}", OVERRIDE);
    println!("cargo:rerun-if-changed={}", archive.display());
    if !archive.is_file() {
        eprintln!("{} is missing.", archive.display());
        eprintln!(
            "host/prove proves it and puts it in target/staticlib; host/build does so before it"
        );
        eprintln!(
            "runs cargo. If it lies elsewhere, let {} name its folder by its whole path.",
            OVERRIDE
        );
        std::process::exit(1);
    }
    println!("cargo:rustc-link-search=native={}", folder.display());
}

fn library_folder() -> PathBuf {
    match env::var_os(OVERRIDE).filter(|folder| !folder.is_empty()) {
        Some(folder) => PathBuf::from(folder),
        None => PathBuf::from(env!("CARGO_MANIFEST_DIR")).join("../../target/staticlib"),
    }
}
