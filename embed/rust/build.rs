//! Links libmidesk.a from the repository's target/staticlib, or from the folder that MIDESK_LIB_DIR names.

use std::path::PathBuf;

fn main() {
    println!("cargo:rerun-if-env-changed=MIDESK_LIB_DIR");
    let folder = match std::env::var_os("MIDESK_LIB_DIR") {
        Some(folder) => PathBuf::from(folder),
        None => PathBuf::from(env!("CARGO_MANIFEST_DIR")).join("../../target/staticlib"),
    };
    let archive = folder.join("libmidesk.a");
    println!("cargo:rerun-if-changed={}", archive.display());
    if !archive.is_file() {
        eprintln!("midesk: there is no archive {}", archive.display());
        eprintln!("midesk: run embed/build in the repository, which proves and writes it (it needs `rt`),");
        eprintln!("midesk: or let MIDESK_LIB_DIR name the folder that holds libmidesk.a, as an absolute path");
        std::process::exit(1);
    }
    println!("cargo:rustc-link-search=native={}", folder.display());
    println!("cargo:rustc-link-lib=static=midesk");
}
