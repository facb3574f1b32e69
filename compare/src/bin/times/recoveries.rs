//! Recovery: of words beside the composition that its rows came from, and with runs beside the same masks in words.
use compare::answer::REFUSAL;
use compare::operand::{Operand, RUNS, WORDS};
use compare::ours::Operation::{Composition, Recovery};
use compare::ours::{self, LentPair};
use compare::random::Random;
use compare::rules::{self, LIMIT};

use crate::clock::{least_of_each, seconds};
use crate::compositions::{DENSITIES, the_same};
use crate::masks::Rows;
use crate::runs::{self, COUNTS, LONG, WORDS_OUT, described};
use crate::runs_table::{Sides, Table};

const TURNS: usize = 25;
const RANKS: f64 = 0.5; // the density of the composition's rank mask
const BESIDE_COMPOSITION: f64 = 1.3;
const BESIDE_WORDS: f64 = 1.0;

pub fn fill(table: &mut Table) {
    of_words(table);
    of_runs(table);
}

/// The composition on the same self, by route 9 or 10; its result is the second mask.
fn of_words(table: &mut Table) {
    let mut random = Random::new(1, "recovery");
    for density in DENSITIES {
        let own = Rows::scattered(LIMIT, density, &mut random);
        let ranks = Rows::scattered(own.count(), RANKS, &mut random);
        let kept = composed(&own, &ranks);
        let [a, b, k] = [&own, &ranks, &kept].map(|rows| rows.lent(WORDS, 0));
        let route = the_same(&a, &b);
        rightly(&a, &k);
        let (recovery, composition) = (lent(Recovery, &a, &k), lent(Composition, &a, &b));
        let call = format!("recovery from route {route}");
        let cells = vec![call, format!("words, {density}"), format!("words, {}", density * RANKS)];
        table.add(cells, "that composition", Some(BESIDE_COMPOSITION), time(recovery, composition));
    }
}

/// As self, as the second mask, and as both. Runs that are the second mask lie in a self that has scattered rows beside them.
fn of_runs(table: &mut Table) {
    let mut random = Random::new(1, "recovery with runs");
    for count in COUNTS {
        let own = Rows::of_runs(LIMIT, count, LONG, &mut random);
        for density in runs::DENSITIES {
            let ranks = Rows::scattered(own.count(), density, &mut random);
            beside_words(table, [&own, &composed(&own, &ranks)], [RUNS, WORDS]);
        }
        for density in runs::DENSITIES {
            let around = own.or(&Rows::scattered(LIMIT, density, &mut random));
            beside_words(table, [&around, &own], [WORDS, RUNS]);
        }
        let ranks = Rows::of_runs(own.count(), count, LONG, &mut random);
        beside_words(table, [&own, &composed(&own, &ranks)], [RUNS, RUNS]);
    }
}

fn beside_words(table: &mut Table, [own, kept]: [&Rows; 2], forms: [u64; 2]) {
    let lent_in = |forms: [u64; 2]| [own.lent(forms[0], 0), kept.lent(forms[1], 0)];
    let ([a, k], [words, kept_words]) = (lent_in(forms), lent_in([WORDS, WORDS]));
    rightly(&a, &k);
    rightly(&words, &kept_words);
    let cells = vec!["recovery".to_string(), described(own, forms[0]), described(kept, forms[1])];
    let sides = time(lent(Recovery, &a, &k), lent(Recovery, &words, &kept_words));
    table.add(cells, "the same in words", Some(BESIDE_WORDS), sides);
}

/// The rows of self that the rank mask keeps.
fn composed(own: &Rows, ranks: &Rows) -> Rows {
    let told = ours::compose(&own.lent(WORDS, 0), &ranks.lent(WORDS, 0), &[0; WORDS_OUT]).expect("a composition");
    Rows::of_words(own.length, told.out)
}

fn rightly(a: &Operand, k: &Operand) {
    let out = vec![7; WORDS_OUT];
    let told = ours::recover(a, k, &out).expect("a recovery");
    assert_eq!(told.answer.cells[REFUSAL], 0, "a recovery that is timed was refused");
    assert!(told.out == rules::recover(a, k, &out).out, "not the documents' ranks");
}

fn lent<'a>(operation: ours::Operation, a: &'a Operand, b: &'a Operand) -> LentPair<'a> {
    LentPair::new(operation, a, b, &[0; WORDS_OUT])
}

fn time(mut ours: LentPair, mut beside: LentPair) -> Sides {
    let (mut first, mut second) = (|| seconds(|| ours.call()), || seconds(|| beside.call()));
    let least = least_of_each(TURNS, &mut [&mut first, &mut second]);
    Sides::of_ours(least[0], least[1])
}
