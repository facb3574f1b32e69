//! The best times so far, kept in a file between runs of this program linked at different places in memory: where a loop
//! lies on its pages makes some lines slower, most of all under an emulator, and says nothing of the code.
use std::path::Path;
use std::{array, fs, io};

use crate::clock::Kept;

/// Each line's times become the best of this run and those kept, and are kept. The first run finds no file.
pub fn best_with_earlier<T: Kept>(lines: Vec<&mut T>, path: &Path) -> io::Result<()> {
    let kept = fs::read_to_string(path).unwrap_or_default();
    let mut earlier = kept.lines().map(read);
    let mut now = Vec::new();
    for times in lines {
        *times = earlier.next().map_or(*times, |earlier| times.least(earlier));
        now.push(written(*times));
    }
    fs::write(path, now.join("\n"))
}

fn written(times: impl Kept) -> String {
    times.sides().map(|side| side.map_or("-".to_string(), |seconds| format!("{seconds:e}"))).join(" ")
}

fn read<T: Kept>(line: &str) -> T {
    let mut numbers = line.split(' ').map(|number| number.parse().ok());
    T::of(array::from_fn(|_| numbers.next().expect("a time")))
}
