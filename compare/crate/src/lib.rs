//! The Rust crate vortex-mask 0.90.0: its files, unchanged, from the folder where they lie, over the stand-ins.

extern crate switched_std as std;

include!(concat!(env!("OUT_DIR"), "/source.rs"));

pub use whole::*;
