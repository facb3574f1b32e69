//! Comparisons. A difference is an error that says what differs; the caller adds the input.
use std::fmt::Debug;
use std::panic::{AssertUnwindSafe, catch_unwind};

use crate::answer::{Answer, COUNT};
use crate::given::Given;
use crate::operand::{Operand, shown_words};
use crate::ours::Told;
use crate::rules::Expected;

pub type Outcome<T = ()> = Result<T, String>;

pub fn same<T: PartialEq + Debug>(what: &str, told: T, other: T) -> Outcome {
    match told == other {
        true => Ok(()),
        false => Err(format!("{what}: ours {told:?}, the other {other:?}")),
    }
}

pub fn same_answer(what: &str, told: Answer, expected: Answer) -> Outcome {
    match told == expected {
        true => Ok(()),
        false => Err(format!("{what}\n  told     {told:?}\n  expected {expected:?}")),
    }
}

/// By the documents: the answer, and every element of the output, written or not.
pub fn by_the_rules<T: PartialEq + Debug>(told: &Told<T>, expected: &Expected<T>) -> Outcome {
    same_answer("the answer against the documents", told.answer, expected.answer)?;
    let differing = (0..told.out.len()).find(|&i| told.out[i] != expected.out[i]);
    match differing {
        None => Ok(()),
        Some(i) => {
            let (told, expected) = (&told.out[i], &expected.out[i]);
            Err(format!("output element {i} against the documents: ours {told:?}, expected {expected:?}"))
        }
    }
}

/// By the crate: the words written, the count, and the density, but for length 0, where document 01 decides.
pub fn by_the_crate(what: &str, told: &Told<u64>, given: &Given, length: u64) -> Outcome {
    same(&format!("{what}, words"), &told.out[..length.div_ceil(64) as usize], &given.words[..])?;
    same(&format!("{what}, count"), told.answer.cells[COUNT], given.count)?;
    if length > 0 {
        same(&format!("{what}, bits of the density"), told.answer.density, given.density)?;
    }
    Ok(())
}

/// What the crate gives; a panic of its is a difference too.
pub fn asked<T>(f: impl FnOnce() -> T) -> Outcome<T> {
    catch_unwind(AssertUnwindSafe(f)).map_err(|_| "the Rust crate panicked".to_string())
}

pub fn with_input(why: String, call: &str, operands: &[&Operand], out: &[u64]) -> String {
    let mut told = format!("{why}\n  call  {call}");
    for (operand, which) in operands.iter().zip(1..) {
        told += &format!("\n  operand {which}: {operand:?}");
    }
    told + &format!("\n  output of {} elements before the call: {}", out.len(), shown_words(out))
}
