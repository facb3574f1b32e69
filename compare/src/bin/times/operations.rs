//! Set operations on masks in words.
use compare::answer::REFUSAL;
use compare::lent::{AnswerMemory, Lent, LentOperand};
use compare::operand::{Operand, WORDS};
use compare::random::Random;
use compare::rules::LIMIT;
use compare::{ours, probe, theirs};
use vortex_mask::Mask;

use crate::clock::{best_of, seconds};
use crate::masks::Rows;
use crate::table::{Line, Part};

const TURNS: usize = 9;
const NAMES: [&str; 4] = ["and", "or", "and-not", "not"];
const STARTS: [(u64, u64); 2] = [(0, 0), (13, 37)];

pub fn operations(part: &mut Part) {
    let mut random = Random::new(1, "operations");
    for starts in STARTS {
        let a = Rows::scattered(LIMIT, 0.5, &mut random).lent(WORDS, starts.0);
        let b = Rows::scattered(LIMIT, 0.5, &mut random).lent(WORDS, starts.1);
        for (which, name) in (0..).zip(NAMES) {
            line(part, which, name, &a, &b);
        }
    }
}

fn line(part: &mut Part, which: u64, name: &str, a: &Operand, b: &Operand) {
    let out = vec![0; (LIMIT / 64) as usize];
    let told = ours::set(which, a, b, &out).expect("a set operation");
    assert_eq!(told.answer.cells[REFUSAL], 0, "a set operation that is timed was refused");
    assert!(told.out == theirs::given(&operation(which, theirs::mask(a), &theirs::mask(b))).words, "not the crate's");
    let mut lent = LentOperation::new(which, a, b, &out);
    let mut portable = || {
        let (a, b) = (theirs::mask(a), theirs::mask(b));
        seconds(|| operation(which, a, &b))
    };
    let times = best_of(TURNS, &mut || seconds(|| lent.call()), &mut portable, None, None);
    let starts = format!("{} and {}", a.start, b.start);
    part.add(Line {
        cells: vec![name.to_string(), starts.clone()],
        panel: format!("Set operations, starts {starts}"),
        note: "both densities 0.5".to_string(),
        place: name.to_string(),
        group: name.to_string(),
        times: times.scaled(1e9 / (LIMIT / 64) as f64),
    });
}

/// The first mask is owned, so that the crate may take its buffer.
fn operation(which: u64, a: Mask, b: &Mask) -> Mask {
    match which {
        0 => a & b,
        1 => a | b,
        2 => a.bitand_not(b),
        _ => !a,
    }
}

/// A set operation's memory, lent once, so that the call alone can be timed.
struct LentOperation<'a> {
    which: u64,
    operands: [&'a Operand; 2],
    lent: [LentOperand; 2],
    out: Lent<u64>,
    answer: AnswerMemory,
}

impl<'a> LentOperation<'a> {
    fn new(which: u64, a: &'a Operand, b: &'a Operand, out: &[u64]) -> Self {
        let lent = [LentOperand::new(a), LentOperand::new(b)];
        LentOperation { which, operands: [a, b], lent, out: Lent::new(out), answer: AnswerMemory::new() }
    }

    #[rustfmt::skip] // an operand's eight parts stay together
    fn call(&mut self) {
        let LentOperation { which, operands: [a, b], lent: [lent_a, lent_b], out, answer } = self;
        let (ans, den) = (answer.cells(), answer.density());
        // SAFETY: what is lent has the lengths given.
        unsafe {
            probe::probe_set(
                *which,
                a.form, a.length, a.start, a.claimed,
                lent_a.words.pointer(), lent_a.words.len(), lent_a.rows.pointer(), lent_a.rows.len(),
                b.form, b.length, b.start, b.claimed,
                lent_b.words.pointer(), lent_b.words.len(), lent_b.rows.pointer(), lent_b.rows.len(),
                out.pointer(), out.len(), ans, AnswerMemory::CELLS_LENT, den, AnswerMemory::DENSITIES_LENT,
            );
        }
    }
}
