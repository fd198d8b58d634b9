//! Finds libhoxburen.a: in the folder that HOXBUREN_LIB names, else where the repository has it.
use std::path::PathBuf;

fn main() {
    println!("cargo::rerun-if-env-changed=HOXBUREN_LIB");
    let folder = match std::env::var_os("HOXBUREN_LIB").filter(|it| !it.is_empty()) {
        Some(named) => PathBuf::from(named),
        None => PathBuf::from(env!("CARGO_MANIFEST_DIR")).join("../../out"),
    };
    let archive = folder.join("libhoxburen.a");
    println!("cargo::rerun-if-changed={}", archive.display());
    if !archive.is_file() {
        println!(
            "cargo::error=there is no {}; HOXBUREN_LIB names the folder that holds it",
            archive.display()
        );
        return;
    }
    println!("cargo::rustc-link-search=native={}", folder.display());
    println!("cargo::rustc-link-lib=static=hoxburen");
}
