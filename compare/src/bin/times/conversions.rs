//! Conversions with their memory lent once, so that the call alone can be timed, and the clearing of the same output.
use std::ffi::{c_int, c_void};
use std::hint::black_box;

use compare::lent::{AnswerMemory, Element, Lent, LentOperand};
use compare::operand::Operand;
use compare::probe;

const NANS: usize = AnswerMemory::CELLS_LENT;
const NDEN: usize = AnswerMemory::DENSITIES_LENT;

unsafe extern "C" {
    fn memset(memory: *mut c_void, byte: c_int, bytes: usize) -> *mut c_void;
}

/// The calls' operand and answer; what is written into is lent beside it, so that two calls can write into the same output.
pub struct LentConversion<'a> {
    operand: &'a Operand,
    lent: LentOperand,
    answer: AnswerMemory,
}

#[rustfmt::skip] // an operand's eight parts stay together
impl<'a> LentConversion<'a> {
    pub fn new(operand: &'a Operand) -> Self {
        LentConversion { operand, lent: LentOperand::new(operand), answer: AnswerMemory::new() }
    }

    pub fn to_words(&mut self, out: &mut Lent<u64>) {
        let LentConversion { operand: a, lent, answer } = self;
        let (ans, den) = (answer.cells(), answer.density());
        // SAFETY: what is lent has the lengths given.
        unsafe {
            probe::probe_to_words(
                a.form, a.length, a.start, a.claimed,
                lent.words.pointer(), lent.words.len(), lent.rows.pointer(), lent.rows.len(),
                out.pointer(), out.len(), ans, NANS, den, NDEN,
            );
        }
    }

    pub fn to_list(&mut self, out: &mut Lent<u32>) {
        let LentConversion { operand: a, lent, answer } = self;
        let (ans, den) = (answer.cells(), answer.density());
        // SAFETY: as above.
        unsafe {
            probe::probe_to_list(
                a.form, a.length, a.start, a.claimed,
                lent.words.pointer(), lent.words.len(), lent.rows.pointer(), lent.rows.len(),
                out.pointer(), out.len(), ans, NANS, den, NDEN,
            );
        }
    }

    pub fn to_runs(&mut self, out: &mut Lent<u32>) {
        let LentConversion { operand: a, lent, answer } = self;
        let (ans, den) = (answer.cells(), answer.density());
        // SAFETY: as above.
        unsafe {
            probe::probe_to_runs(
                a.form, a.length, a.start, a.claimed,
                lent.words.pointer(), lent.words.len(), lent.rows.pointer(), lent.rows.len(),
                out.pointer(), out.len(), ans, NANS, den, NDEN,
            );
        }
    }
}

/// By the C library: no call of ours writes as much memory in less time.
pub fn clear<T: Element>(out: &mut Lent<T>) {
    let bytes = out.len() * size_of::<T>();
    // SAFETY: so many bytes are lent.
    unsafe { black_box(memset)(out.pointer().cast(), 0, bytes) };
}
