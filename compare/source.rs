//! Build script of the two packages that compile the Rust crate's files: finds the files, and writes one line of Rust
//! that names them where they lie.
use std::path::{Path, PathBuf};
use std::{env, fs, process};

const FILES: [&str; 5] = ["lib.rs", "bitops.rs", "eq.rs", "intersect_by_rank/mod.rs", "intersect_by_rank/bmi2.rs"];
const VARIABLE: &str = "VORTEX_MASK_SRC";
const BESIDE_THE_CLONE: &str = "../../../shared/docs/src/src"; // from this package: compare/, the clone, beside it

fn main() {
    println!("cargo::rerun-if-env-changed={VARIABLE}");
    let folder = source_folder();
    let out = PathBuf::from(env::var_os("OUT_DIR").unwrap());
    let on_arm = env::var("CARGO_CFG_TARGET_ARCH").unwrap() == "aarch64";
    let copy = out.join("files");
    if on_arm {
        with_sve(&folder, &copy);
    }
    let place = |name| if on_arm { copy.join(name) } else { file(&folder, name) };
    let package = env::var("CARGO_PKG_NAME").unwrap();
    let line = match package.as_str() {
        "vortex-mask" => format!("#[path = {:?}]\nmod whole;\n", place("lib.rs")),
        _ => format!("include!({:?});\n", place("intersect_by_rank/mod.rs")),
    };
    fs::write(out.join("source.rs"), line).unwrap();
}

/// On Arm the crate names a file more, which we do not have: the files are copied beside one in its place.
fn with_sve(folder: &Path, copy: &Path) {
    fs::create_dir_all(copy.join("intersect_by_rank")).unwrap();
    for name in FILES {
        fs::write(copy.join(name), fs::read(file(folder, name)).unwrap()).unwrap();
    }
    fs::write(copy.join("intersect_by_rank/sve.rs"), include_str!("standins/sve.rs")).unwrap();
}

fn source_folder() -> PathBuf {
    match env::var_os(VARIABLE) {
        Some(folder) => PathBuf::from(folder),
        None => PathBuf::from(env::var_os("CARGO_MANIFEST_DIR").unwrap()).join(BESIDE_THE_CLONE),
    }
}

fn file(folder: &Path, name: &str) -> PathBuf {
    let path = folder.join(name);
    println!("cargo::rerun-if-changed={}", path.display());
    match path.canonicalize() {
        Ok(path) => path,
        Err(_) => stop(&format!(
            "the Rust crate's file {} is not there: set {VARIABLE} to the src folder of vortex-mask 0.90.0",
            path.display()
        )),
    }
}

fn stop(why: &str) -> ! {
    println!("cargo::error={why}"); // cargo tells it, and fails
    process::exit(0);
}
