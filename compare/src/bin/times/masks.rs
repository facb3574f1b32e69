//! Masks of a million rows, made by words: row by row would take longer than what is timed.
use compare::operand::{LIST, Operand, RUNS, WORDS};
use compare::random::Random;

/// Rows as words, row 0 at bit 0 of the first; clear past the length.
pub struct Rows {
    pub length: u64,
    words: Vec<u64>,
}

impl Rows {
    pub fn scattered(length: u64, density: f64, random: &mut Random) -> Self {
        let chance = (density * f64::from(1 << CHANCE_BITS)).round() as u64;
        let mut words: Vec<u64> = (0..length.div_ceil(64)).map(|_| scattered_word(chance, random)).collect();
        if let (Some(last), true) = (words.last_mut(), length % 64 != 0) {
            *last &= (1 << (length % 64)) - 1;
        }
        Rows { length, words }
    }

    /// So many runs of about the same length, one in each of as many equal parts of the rows, at a random place of it that
    /// leaves the part's last row out.
    pub fn of_runs(length: u64, runs: u64, density: f64, random: &mut Random) -> Self {
        let mut words = vec![0; length.div_ceil(64) as usize];
        for part in 0..runs {
            let (first, end) = (length * part / runs, length * (part + 1) / runs);
            let rows = ((density * (end - first) as f64) as u64).max(1);
            let place = first + random.below(end - first - rows);
            set_range(&mut words, place, place + rows);
        }
        Rows { length, words }
    }

    /// As words from bit 0 on, clear past the length.
    pub fn of_words(length: u64, words: Vec<u64>) -> Self {
        Rows { length, words }
    }

    /// The rows of either; both have the same length.
    pub fn or(&self, other: &Rows) -> Self {
        let words = self.words.iter().zip(&other.words).map(|(one, other)| one | other).collect();
        Rows { length: self.length, words }
    }

    /// Row 0, 64, 128 and so on.
    pub fn every_64th(length: u64) -> Self {
        Rows { length, words: vec![1; length.div_ceil(64) as usize] }
    }

    pub fn count(&self) -> u64 {
        self.words.iter().map(|word| u64::from(word.count_ones())).sum()
    }

    /// As words from bit `start` on, as a list, as runs, or as all or none, which need rows that are so.
    pub fn lent(&self, form: u64, start: u64) -> Operand {
        let mut operand =
            Operand { form, length: self.length, start: 0, claimed: 0, words: Vec::new(), rows: Vec::new() };
        if form == WORDS {
            operand.start = start;
            operand.claimed = self.count();
            operand.words = self.moved_up(start);
        }
        if form == LIST {
            operand.rows = self.listed();
        }
        if form == RUNS {
            operand.rows = self.in_runs();
        }
        operand
    }

    fn moved_up(&self, start: u64) -> Vec<u64> {
        let needed = (start + self.length).div_ceil(64) as usize;
        let word = |i: usize| self.words.get(i).copied().unwrap_or(0);
        let moved = |i: usize| match (start, i) {
            (0, _) => word(i),
            (_, 0) => word(0) << start,
            _ => word(i) << start | word(i - 1) >> (64 - start),
        };
        (0..needed).map(moved).collect()
    }

    fn listed(&self) -> Vec<u32> {
        set_rows(self.words.iter().copied())
    }

    /// A row that differs from the one before it begins a run, or is past its last row.
    fn in_runs(&self) -> Vec<u32> {
        let before = |i: usize| i.checked_sub(1).map_or(0, |i| self.words[i] >> 63);
        let mut numbers = set_rows(self.words.iter().enumerate().map(|(i, &word)| word ^ (word << 1 | before(i))));
        if numbers.len() % 2 == 1 {
            numbers.push(self.length as u32); // the last run ends with the last word
        }
        numbers
    }
}

fn set_rows(words: impl Iterator<Item = u64>) -> Vec<u32> {
    let mut rows = Vec::new();
    for (i, word) in words.enumerate() {
        let mut rest = word;
        while rest != 0 {
            rows.push(64 * i as u32 + rest.trailing_zeros());
            rest &= rest - 1;
        }
    }
    rows
}

/// Whole words at once: a run may have a million rows.
fn set_range(words: &mut [u64], first: u64, past: u64) {
    for i in first / 64..past.div_ceil(64) {
        let from = first.saturating_sub(64 * i).min(63);
        let to = (past - 64 * i).min(64);
        words[i as usize] |= u64::MAX >> (64 - (to - from)) << from;
    }
}

const CHANCE_BITS: u32 = 16;

/// Each bit set with `chance` in 2^16: from the chance's lowest bit up, a random bit halves what came before it, and a set
/// bit of the chance adds a half.
pub fn scattered_word(chance: u64, random: &mut Random) -> u64 {
    if chance == 1 << CHANCE_BITS {
        return u64::MAX;
    }
    (0..CHANCE_BITS).fold(0, |word, bit| match chance >> bit & 1 {
        1 => word | random.next(),
        _ => word & random.next(),
    })
}

/// A word whose bits are set at about this density.
pub fn word_at(density: f64, random: &mut Random) -> u64 {
    scattered_word((density * f64::from(1 << CHANCE_BITS)).round() as u64, random)
}
