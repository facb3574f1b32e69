//! Set operations and conversions: against the crate's bitops and masks, and against document 01.
use crate::answer::{COUNT, WRITTEN};
use crate::checks::{Outcome, asked, by_the_crate, by_the_rules, same, with_input};
use crate::operand::{CARRIERS, Operand, WORDS, fitting_form, lend, length_around_words, random_rows, runs_of};
use crate::random::Random;
use crate::tally::{Progress, Tally};
use crate::{ours, rules, theirs};

const NAMES: [&str; 4] = ["and", "or", "and-not", "not"];

pub fn set_operations(cases: u64, seed: u64, tally: &mut Tally) -> Outcome {
    let mut random = Random::new(seed, "sets");
    let mut progress = Progress::new("set operations", cases);
    let mut of_length_0 = 0;
    for case in 0..cases {
        let length = length_around_words(&mut random);
        let (a, b) = (operand_without_list(length, &mut random), operand_without_list(length, &mut random));
        let which = if case % 4 == 3 && random.one_in(4) { random.between(3, u64::MAX - 1) } else { case % 4 };
        set_both(which, &a, &b, &mut random)?;
        of_length_0 += u64::from(length == 0);
        progress.step();
    }
    progress.end();
    tally.add("set operations against the crate's bitops, by reference and with an owned left mask", cases);
    tally.add("  of length 0: their density left out against the crate", of_length_0);
    for (name, which) in NAMES.iter().zip(0..) {
        tally.add(&format!("  {name}"), (cases + 3 - which) / 4);
    }
    Ok(())
}

fn operand_without_list(length: u64, random: &mut Random) -> Operand {
    let rows = random_rows(length, random);
    let form = fitting_form(&rows, &[WORDS], random);
    lend(&rows, form, random)
}

pub fn set_both(which: u64, a: &Operand, b: &Operand, random: &mut Random) -> Outcome {
    let out = output(a.length.div_ceil(64), random);
    one_set(which, a, b, &out).map_err(|why| with_input(why, &format!("set {which}"), &[a, b], &out))
}

/// Up to three elements longer than needed.
fn output(needed: u64, random: &mut Random) -> Vec<u64> {
    let extra = random.below(4);
    random.words(needed + extra)
}

fn one_set(which: u64, a: &Operand, b: &Operand, out: &[u64]) -> Outcome {
    let told = ours::set(which, a, b, out)?;
    by_the_rules(&told, &rules::set(which, a, b, out))?;
    for given in asked(|| theirs::set(which, &theirs::mask(a), &theirs::mask(b)))? {
        by_the_crate("the crate's set operation", &told, &given, a.length)?;
    }
    Ok(())
}

pub fn conversions(cases: u64, seed: u64, tally: &mut Tally) -> Outcome {
    let mut random = Random::new(seed, "conversions");
    let mut progress = Progress::new("conversions", cases);
    let mut of_length_0 = 0;
    for _ in 0..cases {
        let length = length_around_words(&mut random);
        let rows = random_rows(length, &mut random);
        let form = fitting_form(&rows, &CARRIERS, &mut random);
        let a = lend(&rows, form, &mut random);
        convert_both(&a, &mut random)?;
        of_length_0 += u64::from(length == 0);
        progress.step();
    }
    progress.end();
    tally.add("conversions to words against the crate's masks", cases);
    tally.add("  of length 0: their density left out against the crate", of_length_0);
    tally.add("conversions to a list against the crate's masks", cases);
    tally.add("conversions to runs against the crate's slices, which the stand-in finds", cases);
    Ok(())
}

pub fn convert_both(a: &Operand, random: &mut Random) -> Outcome {
    one_to_words(a, &output(a.length.div_ceil(64), random))?;
    one_to_list(a, &output(rules::set_count(a), random))?;
    one_to_runs(a, &output(runs_of(&rules::rows(a)).len() as u64, random))
}

fn one_to_words(a: &Operand, out: &[u64]) -> Outcome {
    let compared = || {
        let told = ours::to_words(a, out)?;
        by_the_rules(&told, &rules::to_words(a, out))?;
        let given = asked(|| theirs::given(&theirs::mask(a)))?;
        by_the_crate("the crate's mask", &told, &given, a.length)
    };
    compared().map_err(|why| with_input(why, "to words", &[a], out))
}

fn one_to_list(a: &Operand, filling: &[u64]) -> Outcome {
    let out = as_numbers(filling);
    let compared = || {
        let told = ours::to_list(a, &out)?;
        by_the_rules(&told, &rules::to_list(a, &out))?;
        let listed = asked(|| theirs::listed(&theirs::mask(a)))?;
        same("the crate's list", &told.out[..told.answer.cells[COUNT] as usize], &listed[..])
    };
    compared().map_err(|why| with_input(why, "to list", &[a], filling))
}

fn one_to_runs(a: &Operand, filling: &[u64]) -> Outcome {
    let out = as_numbers(filling);
    let compared = || {
        let told = ours::to_runs(a, &out)?;
        by_the_rules(&told, &rules::to_runs(a, &out))?;
        let sliced = asked(|| theirs::sliced(&theirs::mask(a)))?;
        same("the crate's slices", &told.out[..2 * told.answer.cells[WRITTEN] as usize], &sliced[..])
    };
    compared().map_err(|why| with_input(why, "to runs", &[a], filling))
}

pub fn as_numbers(filling: &[u64]) -> Vec<u32> {
    filling.iter().map(|&filling| filling as u32).collect()
}
