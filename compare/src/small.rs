//! Every small composition, set operation, recovery, conversion, list of numbers lent as runs and input of the program, smallest
//! first: a difference shows at its smallest input.
use crate::answer::REFUSAL;
use crate::checks::{Outcome, by_the_rules, with_input};
use crate::compositions::{Seen, compose_both};
use crate::operand::{ALL, CARRIERS, NONE, Operand, RUNS, WORDS, count, lend};
use crate::programs::{self, bytes_needed, program_both, said};
use crate::random::Random;
use crate::recoveries::{self, recover_both};
use crate::sets::{convert_both, set_both};
use crate::tally::{Progress, Tally};
use crate::{ours, rules};

pub fn compositions(longest: u64, seed: u64, tally: &mut Tally) -> Outcome {
    let mut random = Random::new(seed, "small compositions");
    let pairs = masks_up_to(longest).map(|own| 1 << count(&own)).sum();
    let mut progress = Progress::new("small pairs of self and rank mask", pairs);
    let mut seen = Seen::default();
    for own in masks_up_to(longest) {
        for ranks in masks(count(&own)) {
            for (a, b) in lent_pairs(&own, &ranks, &CARRIERS, &mut random) {
                compose_both(&a, &b, &mut seen, &mut random)?;
            }
            progress.step();
        }
    }
    progress.end();
    tally.add(
        &format!("compositions: every self of up to {longest} rows, every rank mask, every mix of forms"),
        seen.cases(),
    );
    Ok(())
}

pub fn set_operations(longest: u64, seed: u64, tally: &mut Tally) -> Outcome {
    let mut random = Random::new(seed, "small sets");
    let mut cases = 0;
    for a in masks_up_to(longest) {
        for b in masks(a.len() as u64) {
            for (a, b) in lent_pairs(&a, &b, &[WORDS], &mut random) {
                for which in 0..4 {
                    set_both(which, &a, &b, &mut random)?;
                    cases += 1;
                }
            }
        }
    }
    tally.add(&format!("set operations: every pair of masks of up to {longest} rows, every mix of forms"), cases);
    Ok(())
}

/// Second masks of every length up to self's, within it or not.
pub fn recoveries(longest: u64, seed: u64, tally: &mut Tally) -> Outcome {
    let mut random = Random::new(seed, "small recoveries");
    let (mut seen, mut cases) = (recoveries::Seen::default(), 0);
    for own in masks_up_to(longest) {
        for kept in masks_up_to(own.len() as u64) {
            for (a, b) in lent_pairs(&own, &kept, &CARRIERS, &mut random) {
                recover_both(&a, &b, &mut seen, &mut random)?;
                cases += 1;
            }
        }
    }
    tally.add(
        &format!(
            "recoveries: every self of up to {longest} rows, every second mask as long or shorter, every mix of forms"
        ),
        cases,
    );
    tally.add("  of these, accepted", seen.accepted());
    Ok(())
}

pub fn conversions(longest: u64, seed: u64, tally: &mut Tally) -> Outcome {
    let mut random = Random::new(seed, "small conversions");
    let mut cases = 0;
    for rows in masks_up_to(longest) {
        for form in forms(&rows, &CARRIERS) {
            let a = lend(&rows, form, &mut random);
            convert_both(&a, &mut random)?;
            cases += 3;
        }
    }
    tally.add(
        &format!("conversions: every mask of up to {longest} rows in every form, to words, to a list and to runs"),
        cases,
    );
    Ok(())
}

const MOST_NUMBERS: u32 = 4; // two runs

/// Every list of a few small numbers lent as runs, of every length up to one row less than the largest number: most are
/// refused. The crate is not asked.
pub fn lists_of_runs(longest: u64, tally: &mut Tally) -> Outcome {
    let longest = 2 * longest / 3;
    let (mut cases, mut refused) = (0, 0);
    for length in 0..=longest {
        for numbers in (0..=MOST_NUMBERS).flat_map(|count| numbers_below(longest + 2, count)) {
            let a = Operand { form: RUNS, length, start: 0, claimed: 0, words: Vec::new(), rows: numbers };
            let input = |why| with_input(why, "converted, or composed as self or as rank mask", &[&a], &[]);
            refused += u64::from(runs_as_they_are(&a).map_err(input)? != 0);
            cases += 1;
        }
    }
    tally.add(&format!("runs: every {MOST_NUMBERS} or fewer numbers up to {} against document 02", longest + 1), cases);
    tally.add("  of these, refused with 14", refused);
    Ok(())
}

/// To words, to a list, to runs, as self under a full rank mask, as rank mask over a full self. The refusal of the first.
fn runs_as_they_are(a: &Operand) -> Outcome<u64> {
    let (words, numbers) = ([0x5555; 2], [77; 9]);
    let told = ours::to_words(a, &words)?;
    by_the_rules(&told, &rules::to_words(a, &words))?;
    by_the_rules(&ours::to_list(a, &numbers)?, &rules::to_list(a, &numbers))?;
    by_the_rules(&ours::to_runs(a, &numbers)?, &rules::to_runs(a, &numbers))?;
    let refusal = told.answer.cells[REFUSAL];
    let set = if refusal == 0 { rules::set_count(a) } else { 0 };
    let full = |length| Operand { form: ALL, length, rows: Vec::new(), ..a.clone() };
    let (ranks, own) = (full(set), full(a.length));
    by_the_rules(&ours::compose(a, &ranks, &words)?, &rules::compose(a, &ranks, &words))?;
    by_the_rules(&ours::compose(&own, a, &words)?, &rules::compose(&own, a, &words))?;
    Ok(refusal)
}

/// Every list of so many numbers below `end`.
fn numbers_below(end: u64, count: u32) -> impl Iterator<Item = Vec<u32>> {
    let digit = move |list: u64, place: u32| (list / end.pow(place) % end) as u32;
    (0..end.pow(count)).map(move |list| (0..count).rev().map(|place| digit(list, place)).collect())
}

/// Rank masks of every length up to self's, so that most are refused with 7; each with just room, and with a byte less.
pub fn programs(longest: u64, seed: u64, tally: &mut Tally) -> Outcome {
    let mut random = Random::new(seed, "small programs");
    let longest = longest / 2;
    let (mut seen, mut cases) = (programs::Seen::default(), 0);
    for own in masks_up_to(longest) {
        for ranks in masks_up_to(own.len() as u64) {
            let input = said(&own, &ranks);
            let need = bytes_needed(&input);
            program_both(&input, need, &mut seen, &mut random)?;
            program_both(&input, need - 1, &mut seen, &mut random)?;
            cases += 1;
        }
    }
    tally.add(&format!("the program: every self of up to {longest} rows, every rank mask as long or shorter"), cases);
    tally.add("  of these, accepted", seen.accepted());
    Ok(())
}

fn masks_up_to(longest: u64) -> impl Iterator<Item = Vec<bool>> {
    (0..=longest).flat_map(masks)
}

/// Every mask of the length.
fn masks(length: u64) -> impl Iterator<Item = Vec<bool>> {
    (0u64..1 << length).map(move |bits| (0..length).map(|row| bits >> row & 1 == 1).collect())
}

/// The forms that can carry these rows: all of `carriers`, and all or none where the rows are so.
fn forms(rows: &[bool], carriers: &[u64]) -> Vec<u64> {
    let mut forms = carriers.to_vec();
    if count(rows) == 0 {
        forms.push(NONE);
    }
    if count(rows) == rows.len() as u64 {
        forms.push(ALL);
    }
    forms
}

fn lent_pairs(a: &[bool], b: &[bool], carriers: &[u64], random: &mut Random) -> Vec<(Operand, Operand)> {
    let mut pairs = Vec::new();
    for a_form in forms(a, carriers) {
        for b_form in forms(b, carriers) {
            pairs.push((lend(a, a_form, random), lend(b, b_form, random)));
        }
    }
    pairs
}
