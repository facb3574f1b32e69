//! Runs of rows: compositions beside the same masks in words and beside the crate, conversions to words beside the clearing of
//! the output, runs of one row each beside the same rows as a list, and the writer of runs.
use std::cell::RefCell;

use compare::answer::REFUSAL;
use compare::lent::Lent;
use compare::operand::{LIST, NONE, Operand, RUNS, WORDS};
use compare::ours::Operation::Composition;
use compare::ours::{self, LentPair};
use compare::random::Random;
use compare::rules::{self, LIMIT};
use switched_std::cpu;

use crate::clock::{least_of_each, seconds};
use crate::compositions::{the_same, theirs_once};
use crate::conversions::{LentConversion, clear};
use crate::masks::Rows;
use crate::runs_table::{Sides, Table};

pub const COUNTS: [u64; 3] = [1, 52, 1_000];
pub const DENSITIES: [f64; 2] = [0.1, 0.5]; // of the operand in words
pub const LONG: f64 = 0.5; // the density of a mask of runs
const SHORT: f64 = 0.01; // as a rank mask: by route 6
const COMPOSITIONS: usize = 25; // turns
const CONVERSIONS: usize = 400;
pub const WORDS_OUT: usize = (LIMIT / 64) as usize;

pub fn fill(table: &mut Table) {
    compositions(table);
    lists(table);
    short_rank_runs(table);
    conversions_to_words(table);
    runs_of_one_row(table);
    conversions_to_runs(table);
}

/// With the density.
pub fn described(rows: &Rows, form: u64) -> String {
    let density = rows.count() as f64 / rows.length as f64;
    match form {
        RUNS => format!("{}, {density:.2}", counted_runs(rows)),
        LIST => format!("list, {density:.2}"),
        _ => format!("words, {density:.2}"),
    }
}

fn counted_runs(rows: &Rows) -> String {
    match rows.lent(RUNS, 0).rows.len() / 2 {
        1 => "1 run".to_string(),
        runs => format!("{runs} runs"),
    }
}

// ---- compositions

fn compositions(table: &mut Table) {
    let mut random = Random::new(1, "runs");
    for runs in COUNTS {
        let own = Rows::of_runs(LIMIT, runs, LONG, &mut random);
        for density in DENSITIES {
            let ranks = Rows::scattered(own.count(), density, &mut random);
            beside_words(table, [&own, &ranks], [RUNS, WORDS]);
        }
        for density in DENSITIES {
            let own = Rows::scattered(LIMIT, density, &mut random);
            let ranks = Rows::of_runs(own.count(), runs, LONG, &mut random);
            beside_words(table, [&own, &ranks], [WORDS, RUNS]);
        }
        let ranks = Rows::of_runs(own.count(), runs, LONG, &mut random);
        beside_words(table, [&own, &ranks], [RUNS, RUNS]);
    }
}

fn lists(table: &mut Table) {
    let mut random = Random::new(1, "runs and lists");
    for runs in COUNTS {
        let own = Rows::of_runs(LIMIT, runs, LONG, &mut random);
        for density in [0.01, 0.1, 0.5, 0.9] {
            let ranks = Rows::scattered(own.count(), density, &mut random);
            beside_words(table, [&own, &ranks], [RUNS, LIST]);
            composition(table, [&own, &ranks], [RUNS, LIST], [WORDS, LIST], "self in words", 1.0);
        }
        for density in [0.01, 0.02, 0.1, 0.9, 0.99] {
            let own = Rows::scattered(LIMIT, density, &mut random);
            let ranks = Rows::of_runs(own.count(), runs, LONG, &mut random);
            beside_words(table, [&own, &ranks], [LIST, RUNS]);
            composition(table, [&own, &ranks], [LIST, RUNS], [LIST, WORDS], "ranks in words", 1.0);
            beside_words(table, [&own, &ranks], [WORDS, RUNS]);
        }
    }
}

/// A rank mask with few set rows is laid by another way.
fn short_rank_runs(table: &mut Table) {
    let mut random = Random::new(1, "short runs");
    for runs in COUNTS {
        let own = Rows::scattered(LIMIT, 0.5, &mut random);
        let ranks = Rows::of_runs(own.count(), runs, SHORT, &mut random);
        beside_words(table, [&own, &ranks], [WORDS, RUNS]);
    }
}

fn beside_words(table: &mut Table, masks: [&Rows; 2], forms: [u64; 2]) {
    composition(table, masks, forms, [WORDS, WORDS], "the same in words", 1.0);
}

/// The masks in `forms` beside the same masks in `others`, and beside the crate, which gets their words.
fn composition(
    table: &mut Table,
    [own, ranks]: [&Rows; 2],
    forms: [u64; 2],
    others: [u64; 2],
    beside: &'static str,
    bound: f64,
) {
    let lent = |forms: [u64; 2]| [own.lent(forms[0], 0), ranks.lent(forms[1], 0)];
    let (pair, other, words) = (lent(forms), lent(others), lent([WORDS, WORDS]));
    let route = the_same(&pair[0], &pair[1]);
    the_same(&other[0], &other[1]);
    let call = format!("composition, route {route}");
    let cells = vec![call, described(own, forms[0]), described(ranks, forms[1])];
    table.add(cells, beside, Some(bound), time(&pair, &other, &words));
}

fn time(pair: &[Operand; 2], other: &[Operand; 2], [own, ranks]: &[Operand; 2]) -> Sides {
    let (mut ours, mut other) = (lent(pair), lent(other));
    let (mut first, mut second) = (|| seconds(|| ours.call()), || seconds(|| other.call()));
    let (mut portable, mut bmi2) = (|| theirs_once(own, ranks, false), || theirs_once(own, ranks, true));
    let has_bmi2 = cpu::has_bmi2();
    let least = match has_bmi2 {
        true => least_of_each(COMPOSITIONS, &mut [&mut first, &mut second, &mut portable, &mut bmi2]),
        false => least_of_each(COMPOSITIONS, &mut [&mut first, &mut second, &mut portable]),
    };
    Sides { ours: least[0], beside: least[1], portable: Some(least[2]), bmi2: has_bmi2.then(|| least[3]) }
}

fn lent([a, b]: &[Operand; 2]) -> LentPair<'_> {
    LentPair::new(Composition, a, b, &vec![0; WORDS_OUT])
}

// ---- conversions

fn conversions_to_words(table: &mut Table) {
    let mut random = Random::new(1, "runs to words");
    let none = Operand { form: NONE, length: LIMIT, start: 0, claimed: 0, words: Vec::new(), rows: Vec::new() };
    for runs in COUNTS {
        let rows = Rows::of_runs(LIMIT, runs, LONG, &mut random);
        let bound = Some(if runs < 1_000 { 2.0 } else { 4.0 });
        let a = rows.lent(RUNS, 0);
        let mut cleared = LentConversion::new(&none);
        let cells = vec!["to words".to_string(), described(&rows, RUNS), "-".to_string()];
        table.add(cells.clone(), "clearing, memset", bound, to_words_beside(&a, clear));
        table.add(cells, "clearing, to words of none", bound, to_words_beside(&a, |out| cleared.to_words(out)));
    }
}

/// Both write into the same output.
fn to_words_beside(a: &Operand, mut other: impl FnMut(&mut Lent<u64>)) -> Sides {
    to_words_rightly(a);
    let out = RefCell::new(Lent::new(&vec![0; WORDS_OUT]));
    let mut ours = LentConversion::new(a);
    let mut first = || seconds(|| ours.to_words(&mut out.borrow_mut()));
    let mut second = || seconds(|| other(&mut out.borrow_mut()));
    let least = least_of_each(CONVERSIONS, &mut [&mut first, &mut second]);
    Sides::of_ours(least[0], least[1])
}

fn to_words_rightly(a: &Operand) {
    let out = vec![7; WORDS_OUT];
    let told = ours::to_words(a, &out).expect("a conversion");
    assert_eq!(told.answer.cells[REFUSAL], 0, "a conversion that is timed was refused");
    assert!(told.out == rules::to_words(a, &out).out, "not the documents' words");
}

/// Where no run is longer than a row, runs are twice the numbers of a list.
fn runs_of_one_row(table: &mut Table) {
    const BOUND: f64 = 2.0;
    let mut random = Random::new(1, "runs of one row");
    let rows = Rows::every_64th(LIMIT);
    let (a, b) = (rows.lent(RUNS, 0), rows.lent(LIST, 0));
    let mut listed = LentConversion::new(&b);
    let cells = vec!["to words".to_string(), described(&rows, RUNS), "-".to_string()];
    table.add(cells, "the same as a list", Some(BOUND), to_words_beside(&a, |out| listed.to_words(out)));
    let ranks = Rows::scattered(rows.count(), 0.5, &mut random);
    composition(table, [&rows, &ranks], [RUNS, WORDS], [LIST, WORDS], "the same as a list", BOUND);
    let own = Rows::scattered(LIMIT, 0.5, &mut random);
    let ranks = Rows::every_64th(own.count());
    composition(table, [&own, &ranks], [WORDS, RUNS], [WORDS, LIST], "the same as a list", BOUND);
    let ranks = Rows::every_64th(rows.count());
    composition(table, [&rows, &ranks], [RUNS, RUNS], [LIST, LIST], "the same as lists", BOUND);
}

/// Beside the same words to a list, for want of another writer; no bound.
fn conversions_to_runs(table: &mut Table) {
    let mut random = Random::new(1, "words to runs");
    let of_runs = COUNTS.map(|runs| Rows::of_runs(LIMIT, runs, LONG, &mut random));
    let scattered = DENSITIES.map(|density| Rows::scattered(LIMIT, density, &mut random));
    for rows in of_runs.iter().chain(&scattered) {
        let a = rows.lent(WORDS, 0);
        let numbers = rows.lent(RUNS, 0).rows;
        let told = ours::to_runs(&a, &vec![0; numbers.len()]).expect("a conversion");
        assert!(told.answer.cells[REFUSAL] == 0 && told.out == numbers, "not the documents' runs");
        let (mut runs, mut list) = (Lent::new(&numbers), Lent::new(&vec![0; rows.count() as usize]));
        let (mut ours, mut listed) = (LentConversion::new(&a), LentConversion::new(&a));
        let (mut first, mut second) =
            (|| seconds(|| ours.to_runs(&mut runs)), || seconds(|| listed.to_list(&mut list)));
        let least = least_of_each(COMPOSITIONS, &mut [&mut first, &mut second]);
        let of = format!("{} of {}", described(rows, WORDS), counted_runs(rows));
        let cells = vec!["to runs".to_string(), of, "-".to_string()];
        table.add(cells, "to a list", None, Sides::of_ours(least[0], least[1]));
    }
}
