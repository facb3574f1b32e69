//! Links the static libraries that `scripts/staticlib host` and `scripts/staticlib probe` write.
use std::path::{Path, PathBuf};
use std::{env, process};

fn main() {
    println!("cargo::rerun-if-env-changed=BOLTAMBER_LIB_DIR");
    let folder = match env::var_os("BOLTAMBER_LIB_DIR") {
        Some(folder) => PathBuf::from(folder),
        None => PathBuf::from(env::var_os("CARGO_MANIFEST_DIR").unwrap()).join("../target/staticlib"),
    };
    println!("cargo::rustc-link-search=native={}", folder.display());
    link(&folder, "host");
    if env::var_os("CARGO_FEATURE_MIRROR").is_none() {
        link(&folder, "probe");
    }
}

fn link(folder: &Path, name: &str) {
    let library = folder.join(format!("lib{name}.a"));
    if !library.exists() {
        let why = format!("{} is not there: run `scripts/staticlib {name}`, or set BOLTAMBER_LIB_DIR", library.display());
        println!("cargo::error={why}"); // cargo tells it, and fails
        process::exit(0);
    }
    println!("cargo::rerun-if-changed={}", library.display());
    println!("cargo::rustc-link-lib=static={name}");
}
