//! An operand as it is lent, and masks as rows.
use std::fmt;

use crate::random::Random;

pub const ALL: u64 = 0;
pub const NONE: u64 = 1;
pub const WORDS: u64 = 2;
pub const LIST: u64 = 3;
pub const RUNS: u64 = 4;

/// The forms that can carry any rows.
pub const CARRIERS: [u64; 3] = [WORDS, LIST, RUNS];

/// The numbers and slices of one operand. What its form doesn't use is filled too: it must be ignored.
#[derive(Clone)]
pub struct Operand {
    pub form: u64,
    pub length: u64,
    pub start: u64,
    pub claimed: u64,
    pub words: Vec<u64>,
    pub rows: Vec<u32>,
}

impl fmt::Debug for Operand {
    fn fmt(&self, f: &mut fmt::Formatter<'_>) -> fmt::Result {
        let form = match self.form {
            ALL => "all".to_string(),
            NONE => "none".to_string(),
            WORDS => "words".to_string(),
            LIST => "list".to_string(),
            RUNS => "runs".to_string(),
            other => format!("form {other}"),
        };
        write!(f, "{form} length {} start {} claimed {}", self.length, self.start, self.claimed)?;
        write!(f, " words {} rows {}", shown_words(&self.words), shown(&self.rows, |row| row.to_string()))
    }
}

pub fn shown_words(words: &[u64]) -> String {
    shown(words, |word| format!("{word:#x}"))
}

const MOST_SHOWN: usize = 400; // a longer input is told by the seed

fn shown<T>(items: &[T], show: impl Fn(&T) -> String) -> String {
    let first: Vec<String> = items.iter().take(MOST_SHOWN).map(show).collect();
    let rest = match items.len().checked_sub(MOST_SHOWN) {
        None | Some(0) => String::new(),
        Some(more) => format!(" and {more} more"),
    };
    format!("[{}{rest}]", first.join(", "))
}

/// The rows as lent in `form`. All and none need rows that are all set, or all clear.
pub fn lend(rows: &[bool], form: u64, random: &mut Random) -> Operand {
    let start = random.below(64);
    lend_at(start, rows, form, random)
}

/// Words from the start bit on; the other forms have no use for it.
pub fn lend_at(start: u64, rows: &[bool], form: u64, random: &mut Random) -> Operand {
    let (garbage_words, garbage_rows) = (random.below(3), random.below(3));
    let mut operand = Operand {
        form,
        length: rows.len() as u64,
        start: random.next(),
        claimed: random.next(),
        words: random.words(garbage_words),
        rows: (0..garbage_rows).map(|_| random.next() as u32).collect(),
    };
    if form == WORDS {
        let extra = random.below(3);
        operand.start = start;
        operand.claimed = count(rows);
        operand.words = random.words((start + rows.len() as u64).div_ceil(64) + extra);
        lay(&mut operand.words, start as usize, rows);
    }
    if form == LIST {
        operand.rows = set_rows(rows);
    }
    if form == RUNS {
        operand.rows = runs_of(rows);
    }
    operand
}

/// The rows as words from bit 0 on, and nothing beside them.
pub fn in_words(rows: &[bool]) -> Operand {
    let mut words = vec![0; rows.len().div_ceil(64)];
    lay(&mut words, 0, rows);
    Operand { form: WORDS, length: rows.len() as u64, start: 0, claimed: count(rows), words, rows: Vec::new() }
}

/// Row i of `rows` at bit `at` + i; no other bit changes.
pub fn lay(words: &mut [u64], at: usize, rows: &[bool]) {
    for (i, &row) in rows.iter().enumerate() {
        let (word, bit) = ((at + i) / 64, (at + i) % 64);
        words[word] = words[word] & !(1 << bit) | u64::from(row) << bit;
    }
}

pub fn count(rows: &[bool]) -> u64 {
    rows.iter().filter(|&&row| row).count() as u64
}

pub fn set_rows(rows: &[bool]) -> Vec<u32> {
    (0..rows.len()).filter(|&i| rows[i]).map(|i| i as u32).collect()
}

/// The only runs that the mask has, in pairs: first row, row past the last.
pub fn runs_of(rows: &[bool]) -> Vec<u32> {
    let set = |row: usize| rows.get(row).copied().unwrap_or(false);
    let edge = |row: &usize| set(*row) != (*row > 0 && set(*row - 1));
    (0..=rows.len()).filter(edge).map(|row| row as u32).collect()
}

/// A form that can carry these rows: one of `carriers`, or, where the rows are so, all or none.
pub fn fitting_form(rows: &[bool], carriers: &[u64], random: &mut Random) -> u64 {
    let set = count(rows);
    if set == 0 && random.one_in(2) {
        return NONE;
    }
    if set == rows.len() as u64 && random.one_in(2) {
        return ALL;
    }
    match carriers {
        [only] => *only,
        _ => random.pick(carriers),
    }
}

const DENSITIES: [f64; 18] =
    [0.0, 0.001, 0.005, 0.01, 0.015, 0.02, 0.03, 0.035, 0.05, 0.06, 0.065, 0.1, 0.25, 0.5, 0.75, 0.9, 0.99, 1.0];

/// Rows of one of several makes: a few long runs, or one of `recorded_rows`.
pub fn random_rows(length: u64, random: &mut Random) -> Vec<bool> {
    match random.below(4) {
        0 => few_runs(length, random),
        _ => recorded_rows(length, random),
    }
}

/// Scattered at a density, an exact count at the tables' bounds, many short runs. The recorded files hang on these makes, byte
/// for byte, so another make does not come in here.
pub fn recorded_rows(length: u64, random: &mut Random) -> Vec<bool> {
    match random.below(8) {
        0..=3 => scattered(length, random.pick(&DENSITIES), random),
        4 => {
            let density = random.fraction();
            scattered(length, density, random)
        }
        5 | 6 => {
            let bound = length / random.pick(&[16, 32, 64, 4, 2, 1]);
            let wanted = (bound + random.below(3)).saturating_sub(1).min(length);
            exactly(length, wanted, random)
        }
        _ => short_runs(length, random),
    }
}

pub fn scattered(length: u64, density: f64, random: &mut Random) -> Vec<bool> {
    (0..length).map(|_| random.fraction() < density).collect()
}

pub fn exactly(length: u64, wanted: u64, random: &mut Random) -> Vec<bool> {
    let mut left = wanted;
    let mut rows = Vec::with_capacity(length as usize);
    for row in 0..length {
        let set = random.below(length - row) < left;
        left -= u64::from(set);
        rows.push(set);
    }
    rows
}

fn short_runs(length: u64, random: &mut Random) -> Vec<bool> {
    let longest = random.between(1, 200);
    let mut rows = Vec::with_capacity(length as usize);
    let mut set = random.one_in(2);
    while (rows.len() as u64) < length {
        let run = random.between(1, longest).min(length - rows.len() as u64);
        rows.extend((0..run).map(|_| set));
        set = !set;
    }
    rows
}

/// Up to five runs, each as long as it comes: a leak that lasts for weeks.
fn few_runs(length: u64, random: &mut Random) -> Vec<bool> {
    let edges = random.between(1, 10);
    let mut edges: Vec<u64> = (0..edges).map(|_| random_edge(length, random)).collect();
    edges.sort();
    let mut set = random.one_in(2);
    let mut rows = Vec::with_capacity(length as usize);
    for edge in edges.into_iter().chain([length]) {
        rows.resize(edge as usize, set);
        set = !set;
    }
    rows
}

/// Where a run begins or ends: every other time at, or one beside, a multiple of 64.
fn random_edge(length: u64, random: &mut Random) -> u64 {
    let edge = random.below(length + 1);
    match random.below(6) {
        0 => edge / 64 * 64,
        1 => (edge / 64 * 64 + 1).min(length),
        2 => (edge / 64 * 64).saturating_sub(1),
        _ => edge,
    }
}

/// A length at, or up to two beside, a multiple of 64; seldom below 62.
pub fn length_around_words(random: &mut Random) -> u64 {
    if random.one_in(25) {
        return random.below(3);
    }
    let most = random.pick(&[3, 8, 16, 64]);
    64 * random.between(1, most) + random.below(5) - 2
}
