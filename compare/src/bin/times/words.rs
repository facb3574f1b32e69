//! Deposit and select: the C library's functions against the crate's portable ones, all of them called and none inlined,
//! since a C library's functions cannot be.
use compare::probe::{boltamber_deposit, boltamber_select};
use compare::random::Random;
use vortex_mask_inside::private::{network_deposit, portable_select};

use crate::clock::{best_of, seconds};
use crate::masks::word_at;
use crate::table::{Line, Part};

const TURNS: usize = 15;
const INPUTS: usize = 16_384;
const DENSITIES: [f64; 7] = [0.02, 0.1, 0.25, 0.5, 0.75, 0.9, 0.97];

pub fn deposits(part: &mut Part) {
    let mut random = Random::new(1, "deposit");
    for density in DENSITIES {
        let inputs: Vec<_> = (0..INPUTS).map(|_| (random.next(), word_at(density, &mut random))).collect();
        line(part, "deposit", density, &inputs, |source, mask| boltamber_deposit(source, mask), network_deposit);
    }
}

pub fn selects(part: &mut Part) {
    let mut random = Random::new(1, "select");
    for density in DENSITIES {
        let inputs: Vec<_> = (0..INPUTS).map(|_| word_and_rank(density, &mut random)).collect();
        let portable = |word, rank| portable_select(word, rank as usize) as u64;
        line(part, "select", density, &inputs, |word, rank| boltamber_select(word, rank), portable);
    }
}

/// The crate's select needs a rank below the word's count, and so a word with a set bit.
fn word_and_rank(density: f64, random: &mut Random) -> (u64, u64) {
    loop {
        let word = word_at(density, random);
        if word != 0 {
            return (word, random.below(u64::from(word.count_ones())));
        }
    }
}

fn line(
    part: &mut Part,
    name: &str,
    density: f64,
    inputs: &[(u64, u64)],
    ours: impl Fn(u64, u64) -> u64 + Copy,
    portable: impl Fn(u64, u64) -> u64 + Copy,
) {
    assert!(inputs.iter().all(|&(x, y)| ours(x, y) == portable(x, y)), "{name}: not the crate's answer");
    let times =
        best_of(TURNS, &mut || seconds(|| all(inputs, ours)), &mut || seconds(|| all(inputs, portable)), None, None);
    part.add(Line {
        cells: vec![name.to_string(), density.to_string()],
        panel: format!("C library: {name}"),
        note: "nanoseconds for a call, by the mask's density".to_string(),
        place: density.to_string(),
        group: name.to_string(),
        times: times.scaled(1e9 / INPUTS as f64),
    });
}

/// Every answer is needed for the sum, so that no call can be left out.
fn all(inputs: &[(u64, u64)], f: impl Fn(u64, u64) -> u64) -> u64 {
    inputs.iter().fold(0, |sum, &(x, y)| sum ^ f(x, y))
}
