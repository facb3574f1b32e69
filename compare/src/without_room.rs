//! Calls whose answer has too few cells: each must do nothing at all.
use crate::checks::{Outcome, with_input};
use crate::compositions::random_pair;
use crate::lent::{AnswerMemory, Lent, LentOperand};
use crate::operand::Operand;
use crate::probe;
use crate::random::Random;
use crate::tally::{Progress, Tally};

const CALLS: u64 = 12;
const LINES: &[u8] = b"self=01101011\nrank=10010\n";

/// Cells and densities lent, of which at least one is too few.
const ROOMS: [(usize, usize); 6] = [(0, 0), (0, 1), (15, 1), (15, 2), (16, 0), (17, 0)];

pub fn run(cases: u64, seed: u64, tally: &mut Tally) -> Outcome {
    let mut random = Random::new(seed, "without room");
    let mut progress = Progress::new("calls without room for the answer", cases);
    for case in 0..cases {
        let length = random.below(200);
        let (a, b) = random_pair(length, &mut random);
        let out = random.words(10);
        let room = random.pick(&ROOMS);
        let call = case % CALLS;
        one_call(call, &a, &b, &out, room)
            .map_err(|why| with_input(why, &format!("the {call}-th of probe, with room {room:?}"), &[&a, &b], &out))?;
        progress.step();
    }
    progress.end();
    tally.add("calls of each of probe's functions without room for the answer, which must do nothing", cases);
    Ok(())
}

fn one_call(call: u64, a: &Operand, b: &Operand, out: &[u64], room: (usize, usize)) -> Outcome {
    let mut memory = Memory::new(a, b, out);
    memory.call(call, a, b, room);
    memory.check()
}

struct Memory {
    a: LentOperand,
    b: LentOperand,
    out: Lent<u64>,
    numbers: Lent<u32>,
    lines: Lent<u8>,
    text: Lent<u8>,
    answer: AnswerMemory,
}

impl Memory {
    fn new(a: &Operand, b: &Operand, out: &[u64]) -> Self {
        Memory {
            a: LentOperand::new(a),
            b: LentOperand::new(b),
            out: Lent::new(out),
            numbers: Lent::new(&[7; 200]),
            lines: Lent::new(LINES),
            text: Lent::new(&[7; 100]),
            answer: AnswerMemory::new(),
        }
    }

    fn check(&self) -> Outcome {
        self.a.check(1)?;
        self.b.check(2)?;
        let of_the_program = self.lines.unchanged() && self.text.unchanged();
        match of_the_program && self.out.unchanged() && self.numbers.unchanged() && self.answer.unchanged() {
            true => Ok(()),
            false => Err("without room for the answer, something was written".to_string()),
        }
    }

    #[rustfmt::skip] // an operand's eight parts stay together
    fn call(&mut self, call: u64, a: &Operand, b: &Operand, (nans, nden): (usize, usize)) {
        let (ans, den) = (self.answer.cells(), self.answer.density());
        let (a_words, a_nwords) = (self.a.words.pointer(), self.a.words.len());
        let (a_rows, a_nrows) = (self.a.rows.pointer(), self.a.rows.len());
        let (b_words, b_nwords) = (self.b.words.pointer(), self.b.words.len());
        let (b_rows, b_nrows) = (self.b.rows.pointer(), self.b.rows.len());
        let (out, nout) = (self.out.pointer(), self.out.len());
        // SAFETY: no slice is longer than what is lent.
        unsafe {
            match call {
                0 => probe::probe_deposit(0, 5, 26, 3, ans, nans, den, nden),
                1 => probe::probe_select(26, 1, ans, nans, den, nden),
                2 => probe::probe_rank_read(a_words, a_nwords, 3, 5, ans, nans, den, nden),
                3 => probe::probe_to_words(
                    a.form, a.length, a.start, a.claimed, a_words, a_nwords, a_rows, a_nrows,
                    out, nout, ans, nans, den, nden),
                4 => probe::probe_to_list(
                    a.form, a.length, a.start, a.claimed, a_words, a_nwords, a_rows, a_nrows,
                    self.numbers.pointer(), self.numbers.len(), ans, nans, den, nden),
                5 => probe::probe_to_runs(
                    a.form, a.length, a.start, a.claimed, a_words, a_nwords, a_rows, a_nrows,
                    self.numbers.pointer(), self.numbers.len(), ans, nans, den, nden),
                6 => probe::probe_compose(
                    a.form, a.length, a.start, a.claimed, a_words, a_nwords, a_rows, a_nrows,
                    b.form, b.length, b.start, b.claimed, b_words, b_nwords, b_rows, b_nrows,
                    out, nout, ans, nans, den, nden),
                7 => probe::probe_set(
                    3,
                    a.form, a.length, a.start, a.claimed, a_words, a_nwords, a_rows, a_nrows,
                    b.form, b.length, b.start, b.claimed, b_words, b_nwords, b_rows, b_nrows,
                    out, nout, ans, nans, den, nden),
                8 => probe::probe_recover(
                    a.form, a.length, a.start, a.claimed, a_words, a_nwords, a_rows, a_nrows,
                    b.form, b.length, b.start, b.claimed, b_words, b_nwords, b_rows, b_nrows,
                    out, nout, ans, nans, den, nden),
                9 => probe::probe_program(
                    self.lines.pointer(), self.lines.len(), self.text.pointer(), self.text.len(),
                    ans, nans, den, nden),
                10 => probe::probe_recover_feed(
                    0, 0, 0,
                    a.form, a.length, a.start, a.claimed, a_words, a_nwords, a_rows, a_nrows,
                    b.form, b.length, b.start, b.claimed, b_words, b_nwords, b_rows, b_nrows,
                    out, nout, ans, nans, den, nden),
                _ => probe::probe_feed(
                    0, 0, 0,
                    a.form, a.length, a.start, a.claimed, a_words, a_nwords, a_rows, a_nrows,
                    b.form, b.length, b.start, b.claimed, b_words, b_nwords, b_rows, b_nrows,
                    out, nout, ans, nans, den, nden),
            }
        }
    }
}
