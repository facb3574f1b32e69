//! The proved functions called with lent memory that has guards; each call checks that the operands, the guards and
//! what lies beside the answer stayed as they were.
use crate::answer::Answer;
use crate::lent::{AnswerMemory, Element, Lent, LentOperand};
use crate::operand::Operand;
use crate::probe;

const NANS: usize = AnswerMemory::CELLS_LENT;
const NDEN: usize = AnswerMemory::DENSITIES_LENT;

/// The answer, and the whole of the lent output after the call.
pub struct Told<T> {
    pub answer: Answer,
    pub out: Vec<T>,
}

pub fn deposit(way: u64, source: u64, mask: u64, claimed: u64) -> Result<Answer, String> {
    let mut answer = AnswerMemory::new();
    let (ans, den) = (answer.cells(), answer.density());
    // SAFETY: what is lent has the lengths given.
    unsafe { probe::probe_deposit(way, source, mask, claimed, ans, NANS, den, NDEN) };
    answer.answer()
}

pub fn select(word: u64, rank: u64) -> Result<Answer, String> {
    let mut answer = AnswerMemory::new();
    let (ans, den) = (answer.cells(), answer.density());
    // SAFETY: as above.
    unsafe { probe::probe_select(word, rank, ans, NANS, den, NDEN) };
    answer.answer()
}

/// The words stay lent over many reads; `Lent::unchanged` tells afterwards that they stayed.
pub fn rank_read(words: &mut Lent<u64>, start: u64, offset: u64) -> Result<Answer, String> {
    let mut answer = AnswerMemory::new();
    let (ans, den) = (answer.cells(), answer.density());
    // SAFETY: as above.
    unsafe { probe::probe_rank_read(words.pointer(), words.len(), start, offset, ans, NANS, den, NDEN) };
    answer.answer()
}

pub fn to_words(a: &Operand, out: &[u64]) -> Result<Told<u64>, String> {
    let (mut lent, mut out) = (LentOperand::new(a), Lent::new(out));
    let mut answer = AnswerMemory::new();
    let (ans, den) = (answer.cells(), answer.density());
    // SAFETY: as above.
    unsafe {
        probe::probe_to_words(
            a.form, a.length, a.start, a.claimed,
            lent.words.pointer(), lent.words.len(), lent.rows.pointer(), lent.rows.len(),
            out.pointer(), out.len(), ans, NANS, den, NDEN,
        );
    }
    ended(&[&lent], &out, &answer)
}

pub fn to_list(a: &Operand, out: &[u32]) -> Result<Told<u32>, String> {
    let (mut lent, mut out) = (LentOperand::new(a), Lent::new(out));
    let mut answer = AnswerMemory::new();
    let (ans, den) = (answer.cells(), answer.density());
    // SAFETY: as above.
    unsafe {
        probe::probe_to_list(
            a.form, a.length, a.start, a.claimed,
            lent.words.pointer(), lent.words.len(), lent.rows.pointer(), lent.rows.len(),
            out.pointer(), out.len(), ans, NANS, den, NDEN,
        );
    }
    ended(&[&lent], &out, &answer)
}

pub fn to_runs(a: &Operand, out: &[u32]) -> Result<Told<u32>, String> {
    let (mut lent, mut out) = (LentOperand::new(a), Lent::new(out));
    let mut answer = AnswerMemory::new();
    let (ans, den) = (answer.cells(), answer.density());
    // SAFETY: as above.
    unsafe {
        probe::probe_to_runs(
            a.form, a.length, a.start, a.claimed,
            lent.words.pointer(), lent.words.len(), lent.rows.pointer(), lent.rows.len(),
            out.pointer(), out.len(), ans, NANS, den, NDEN,
        );
    }
    ended(&[&lent], &out, &answer)
}

/// Of two masks, whole or in pieces.
#[derive(Clone, Copy, PartialEq)]
pub enum Operation {
    Composition,
    Recovery,
}

/// The memory of a composition or of a recovery, lent once, so that the call alone can be timed.
pub struct LentPair<'a> {
    operation: Operation,
    operands: [&'a Operand; 2],
    lent_a: LentOperand,
    lent_b: LentOperand,
    out: Lent<u64>,
    answer: AnswerMemory,
}

impl<'a> LentPair<'a> {
    pub fn new(operation: Operation, a: &'a Operand, b: &'a Operand, out: &[u64]) -> Self {
        LentPair {
            operation,
            operands: [a, b],
            lent_a: LentOperand::new(a),
            lent_b: LentOperand::new(b),
            out: Lent::new(out),
            answer: AnswerMemory::new(),
        }
    }

    pub fn call(&mut self) {
        let LentPair { operation, operands: [a, b], lent_a, lent_b, out, answer } = self;
        let (ans, den) = (answer.cells(), answer.density());
        let call = match operation {
            Operation::Composition => probe::probe_compose,
            Operation::Recovery => probe::probe_recover,
        };
        // SAFETY: as above.
        unsafe {
            call(
                a.form, a.length, a.start, a.claimed,
                lent_a.words.pointer(), lent_a.words.len(), lent_a.rows.pointer(), lent_a.rows.len(),
                b.form, b.length, b.start, b.claimed,
                lent_b.words.pointer(), lent_b.words.len(), lent_b.rows.pointer(), lent_b.rows.len(),
                out.pointer(), out.len(), ans, NANS, den, NDEN,
            );
        }
    }

    fn ended(&self) -> Result<Told<u64>, String> {
        ended(&[&self.lent_a, &self.lent_b], &self.out, &self.answer)
    }
}

pub fn compose(a: &Operand, b: &Operand, out: &[u64]) -> Result<Told<u64>, String> {
    of_pair(Operation::Composition, a, b, out)
}

pub fn recover(a: &Operand, b: &Operand, out: &[u64]) -> Result<Told<u64>, String> {
    of_pair(Operation::Recovery, a, b, out)
}

fn of_pair(operation: Operation, a: &Operand, b: &Operand, out: &[u64]) -> Result<Told<u64>, String> {
    let mut lent = LentPair::new(operation, a, b, out);
    lent.call();
    lent.ended()
}

pub fn set(which: u64, a: &Operand, b: &Operand, out: &[u64]) -> Result<Told<u64>, String> {
    let (mut lent_a, mut lent_b, mut out) = (LentOperand::new(a), LentOperand::new(b), Lent::new(out));
    let mut answer = AnswerMemory::new();
    let (ans, den) = (answer.cells(), answer.density());
    // SAFETY: as above.
    unsafe {
        probe::probe_set(
            which,
            a.form, a.length, a.start, a.claimed,
            lent_a.words.pointer(), lent_a.words.len(), lent_a.rows.pointer(), lent_a.rows.len(),
            b.form, b.length, b.start, b.claimed,
            lent_b.words.pointer(), lent_b.words.len(), lent_b.rows.pointer(), lent_b.rows.len(),
            out.pointer(), out.len(), ans, NANS, den, NDEN,
        );
    }
    ended(&[&lent_a, &lent_b], &out, &answer)
}

pub fn feed(
    operation: Operation,
    state: [u64; 3],
    a: &Operand,
    b: &Operand,
    out: &[u64],
) -> Result<Told<u64>, String> {
    let (mut lent_a, mut lent_b, mut out) = (LentOperand::new(a), LentOperand::new(b), Lent::new(out));
    let mut answer = AnswerMemory::new();
    let (ans, den) = (answer.cells(), answer.density());
    let [done, ranks, kept] = state;
    let call = match operation {
        Operation::Composition => probe::probe_feed,
        Operation::Recovery => probe::probe_recover_feed,
    };
    // SAFETY: as above.
    unsafe {
        call(
            done, ranks, kept,
            a.form, a.length, a.start, a.claimed,
            lent_a.words.pointer(), lent_a.words.len(), lent_a.rows.pointer(), lent_a.rows.len(),
            b.form, b.length, b.start, b.claimed,
            lent_b.words.pointer(), lent_b.words.len(), lent_b.rows.pointer(), lent_b.rows.len(),
            out.pointer(), out.len(), ans, NANS, den, NDEN,
        );
    }
    ended(&[&lent_a, &lent_b], &out, &answer)
}

/// The program's four lines, written into `out`.
pub fn program(input: &[u8], out: &[u8]) -> Result<Told<u8>, String> {
    let (mut lent, mut out) = (Lent::new(input), Lent::new(out));
    let mut answer = AnswerMemory::new();
    let (ans, den) = (answer.cells(), answer.density());
    // SAFETY: as above.
    unsafe {
        probe::probe_program(lent.pointer(), lent.len(), out.pointer(), out.len(), ans, NANS, den, NDEN);
    }
    if !lent.unchanged() {
        return Err("memory of the input, or beside it, was changed".to_string());
    }
    ended(&[], &out, &answer)
}

fn ended<T: Element>(operands: &[&LentOperand], out: &Lent<T>, answer: &AnswerMemory) -> Result<Told<T>, String> {
    for (operand, which) in operands.iter().zip(1..) {
        operand.check(which)?;
    }
    if !out.guards_stand() {
        return Err("memory beside the output was changed".to_string());
    }
    Ok(Told { answer: answer.answer()?, out: out.content().to_vec() })
}
