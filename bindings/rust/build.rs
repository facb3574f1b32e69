//! Links the static library that `scripts/staticlib host` writes.
use std::path::PathBuf;
use std::{env, process};

fn main() {
    println!("cargo:rerun-if-env-changed=BOLTAMBER_LIB_DIR");
    let folder = match env::var_os("BOLTAMBER_LIB_DIR") {
        Some(folder) => PathBuf::from(folder),
        None => PathBuf::from(env::var_os("CARGO_MANIFEST_DIR").unwrap()).join("../../target/staticlib"),
    };
    let library = folder.join("libhost.a");
    if !library.exists() {
        eprintln!("{} is not there: run `scripts/staticlib host`, or set BOLTAMBER_LIB_DIR", library.display());
        process::exit(1);
    }
    println!("cargo:rerun-if-changed={}", library.display());
    println!("cargo:rustc-link-search=native={}", folder.display());
    println!("cargo:rustc-link-lib=static=host");
}
