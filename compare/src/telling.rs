//! How a recorded case is told: hex numbers, and slices as arithmetic runs, as crates/recorded reads them.
use crate::operand::{Operand, WORDS};

pub fn numbers(numbers: &[u64]) -> String {
    let told: Vec<String> = numbers.iter().map(|number| format!("{number:x}")).collect();
    told.join(" ")
}

/// The number of runs, then `count first step` for each: first, first + step and so on modulo 2^64. Each run is as long as
/// it can be, from the front on.
pub fn slice(elements: &[u64]) -> String {
    let mut told = Vec::new();
    let mut rest = elements;
    while let [first, after @ ..] = rest {
        let step = after.first().map_or(0, |second| second.wrapping_sub(*first));
        let follows = |pair: &[u64]| pair[1].wrapping_sub(pair[0]) == step;
        let count = 1 + rest.windows(2).take_while(|pair| follows(pair)).count();
        told.extend([count as u64, *first, step]);
        rest = &rest[count..];
    }
    let runs = told.len() as u64 / 3;
    told.insert(0, runs);
    numbers(&told)
}

pub fn rows(rows: &[u32]) -> String {
    slice(&rows.iter().map(|&row| u64::from(row)).collect::<Vec<u64>>())
}

/// `form length start claimed`; only words have a start and a claimed count.
pub fn form(operand: &Operand) -> String {
    let (start, claimed) = if operand.form == WORDS { (operand.start, operand.claimed) } else { (0, 0) };
    numbers(&[operand.form, operand.length, start, claimed])
}

/// `refusal operand count route m e` of an accepted call, whose density is m / 2^e exactly.
pub fn accepted(count: u64, route: u64, density: u64) -> String {
    let (m, e) = quotient(density);
    numbers(&[0, 0, count, route, m, e])
}

/// The m and e of a density from 0.0 to 1.0, from its bits; e is as small as it can be.
fn quotient(density: u64) -> (u64, u64) {
    if density == 0 {
        return (0, 0);
    }
    let fraction = density & ((1 << 52) - 1) | 1 << 52;
    let exponent = 1075 - (density >> 52);
    let halvings = u64::from(fraction.trailing_zeros()).min(exponent);
    (fraction >> halvings, exponent - halvings)
}

/// A file: the number of its cases, then each after an empty line.
pub fn file(cases: &[Vec<String>]) -> String {
    let mut told = numbers(&[cases.len() as u64]) + "\n";
    for case in cases {
        told += &format!("\n{}\n", case.join("\n"));
    }
    told
}
