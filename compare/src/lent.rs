//! Lent memory with guards on both sides, and a copy of it as it was when it was lent.
use crate::answer::Answer;
use crate::operand::Operand;

const GUARDS: usize = 4; // elements on each side

pub trait Element: Copy + PartialEq {
    /// What stands in the guard element `place`: no two alike, and never a small number.
    fn guard(place: usize) -> Self;
}

impl Element for u64 {
    fn guard(place: usize) -> u64 {
        0xb10c_5afe_0000_a5a5 ^ (place as u64) << 16
    }
}

impl Element for u32 {
    fn guard(place: usize) -> u32 {
        0xfade_5a5a ^ (place as u32) << 8
    }
}

impl Element for u8 {
    fn guard(place: usize) -> u8 {
        0xe8 ^ place as u8
    }
}

pub struct Lent<T> {
    memory: Vec<T>,
    as_lent: Vec<T>,
}

impl<T: Element> Lent<T> {
    pub fn new(content: &[T]) -> Self {
        let mut memory: Vec<T> = (0..GUARDS).map(T::guard).collect();
        memory.extend_from_slice(content);
        memory.extend((GUARDS..2 * GUARDS).map(T::guard));
        Lent { as_lent: memory.clone(), memory }
    }

    pub fn len(&self) -> usize {
        self.memory.len() - 2 * GUARDS
    }

    /// Of the first lent element; the guards stand before it and behind the last.
    pub fn pointer(&mut self) -> *mut T {
        self.memory[GUARDS..].as_mut_ptr()
    }

    pub fn content(&self) -> &[T] {
        &self.memory[GUARDS..GUARDS + self.len()]
    }

    pub fn unchanged(&self) -> bool {
        self.memory == self.as_lent
    }

    pub fn guards_stand(&self) -> bool {
        let end = GUARDS + self.len();
        self.memory[..GUARDS] == self.as_lent[..GUARDS] && self.memory[end..] == self.as_lent[end..]
    }
}

/// An operand's slices, lent.
pub struct LentOperand {
    pub words: Lent<u64>,
    pub rows: Lent<u32>,
}

impl LentOperand {
    pub fn new(operand: &Operand) -> Self {
        LentOperand { words: Lent::new(&operand.words), rows: Lent::new(&operand.rows) }
    }

    pub fn check(&self, which: u64) -> Result<(), String> {
        match self.words.unchanged() && self.rows.unchanged() {
            true => Ok(()),
            false => Err(format!("memory of operand {which}, or beside it, was changed")),
        }
    }
}

const CELLS: usize = 16;
const SPARE: usize = 1; // cells lent past those that are written: they must stay

/// The cells and the density that a call answers into, lent, with guards; made anew for each call, without the heap.
pub struct AnswerMemory {
    cells: [u64; GUARDS + CELLS + SPARE + GUARDS],
    density: [u64; GUARDS + 1 + SPARE + GUARDS],
}

impl AnswerMemory {
    pub fn new() -> Self {
        AnswerMemory { cells: std::array::from_fn(u64::guard), density: std::array::from_fn(u64::guard) }
    }

    pub fn cells(&mut self) -> *mut u64 {
        self.cells[GUARDS..].as_mut_ptr()
    }

    pub fn density(&mut self) -> *mut f64 {
        self.density[GUARDS..].as_mut_ptr().cast()
    }

    pub const CELLS_LENT: usize = CELLS + SPARE;
    pub const DENSITIES_LENT: usize = 1 + SPARE;

    pub fn unchanged(&self) -> bool {
        let fresh = AnswerMemory::new();
        self.cells == fresh.cells && self.density == fresh.density
    }

    pub fn answer(&self) -> Result<Answer, String> {
        let fresh = AnswerMemory::new();
        let end = GUARDS + CELLS;
        let stands = self.cells[..GUARDS] == fresh.cells[..GUARDS]
            && self.cells[end..] == fresh.cells[end..]
            && self.density[..GUARDS] == fresh.density[..GUARDS]
            && self.density[GUARDS + 1..] == fresh.density[GUARDS + 1..];
        if !stands {
            return Err("memory beside the answer's cells was changed".to_string());
        }
        let mut cells = [0; CELLS];
        cells.copy_from_slice(&self.cells[GUARDS..end]);
        Ok(Answer { cells, density: self.density[GUARDS] })
    }
}
