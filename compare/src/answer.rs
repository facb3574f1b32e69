//! What a call answers: sixteen cells and the bits of the density.
use std::fmt;

#[derive(Clone, Copy, PartialEq, Eq)]
pub struct Answer {
    pub cells: [u64; 16],
    pub density: u64,
}

pub const REFUSAL: usize = 0;
pub const OPERAND: usize = 1;
pub const COUNT: usize = 2;
pub const ROUTE: usize = 3;
pub const WORD: usize = 4;
pub const DONE: usize = 5;
pub const RANKS: usize = 6;
pub const KEPT: usize = 7;
pub const OUTSIDE: usize = 10;
pub const WRITTEN: usize = 15;

const NAMES: [&str; 8] = ["refusal", "operand", "count", "route", "word or position", "done", "ranks", "kept"];

impl Answer {
    pub fn refused(number: u64, operand: u64) -> Self {
        let mut answer = Answer { cells: [0; 16], density: 0f64.to_bits() };
        answer.cells[REFUSAL] = number;
        answer.cells[OPERAND] = operand;
        answer
    }

    pub fn word(word: u64) -> Self {
        let mut answer = Answer::refused(0, 0);
        answer.cells[WORD] = word;
        answer
    }

    /// The density is the quotient of the count and the length, and 0.0 at length 0.
    pub fn summary(count: u64, length: u64, route: u64) -> Self {
        let mut answer = Answer::refused(0, 0);
        answer.cells[COUNT] = count;
        answer.cells[ROUTE] = route;
        answer.density = if length == 0 { 0f64 } else { count as f64 / length as f64 }.to_bits();
        answer
    }

    pub fn with_state(mut self, state: [u64; 3]) -> Self {
        self.cells[DONE..=KEPT].copy_from_slice(&state);
        self
    }

    /// The bytes that the program wrote, or the runs that a conversion to runs wrote.
    pub fn with_written(mut self, written: u64) -> Self {
        self.cells[WRITTEN] = written;
        self
    }

    /// The row outside self that 17 tells.
    pub fn with_row_outside(mut self, row: u64) -> Self {
        self.cells[OUTSIDE] = row;
        self
    }

    pub fn state(&self) -> [u64; 3] {
        [self.cells[DONE], self.cells[RANKS], self.cells[KEPT]]
    }
}

impl fmt::Debug for Answer {
    fn fmt(&self, f: &mut fmt::Formatter<'_>) -> fmt::Result {
        for (name, cell) in NAMES.iter().zip(self.cells) {
            write!(f, "{name} {cell}, ")?;
        }
        write!(f, "the rest {:?}, ", &self.cells[8..WRITTEN])?;
        write!(f, "bytes or runs written {}, density {:?}", self.cells[WRITTEN], f64::from_bits(self.density))
    }
}
