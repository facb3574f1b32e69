//! Writes the three files of cases whose answers are the Rust crate's into the folder named: the same bytes each time.
use std::path::Path;
use std::process::ExitCode;
use std::{env, fs};

use compare::checks::Outcome;
use compare::sample;

const ROOM: usize = 400_000; // of the program that reads the files; a file must be shorter

fn main() -> ExitCode {
    let Some(folder) = env::args().nth(1) else {
        eprintln!("record FOLDER");
        return ExitCode::from(2);
    };
    let files = [
        ("rust_pairs", sample::pairs as fn() -> Outcome<String>),
        ("rust_conversions", sample::conversions),
        ("rust_words", sample::words),
    ];
    for (name, cases) in files {
        if let Err(why) = record(&Path::new(&folder).join(name), cases) {
            eprintln!("{name}: {why}");
            return ExitCode::FAILURE;
        }
    }
    ExitCode::SUCCESS
}

fn record(path: &Path, cases: fn() -> Outcome<String>) -> Outcome {
    let told = cases()?;
    if told.len() >= ROOM {
        return Err(format!("{} bytes, and a file must have fewer than {ROOM}", told.len()));
    }
    fs::write(path, &told).map_err(|why| why.to_string())?;
    println!("{}: {} bytes", path.display(), told.len());
    Ok(())
}
