//! Refused inputs: calls that are spoilt in up to three ways, against the documents' table. The crate has no such answers,
//! so it is not asked here.
use crate::answer::{Answer, OPERAND, REFUSAL};
use crate::checks::{Outcome, by_the_rules, with_input};
use crate::compositions::random_pair;
use crate::operand::{ALL, CARRIERS, NONE, Operand, RUNS, WORDS, fitting_form, lend, random_rows};
use crate::ours::Operation::{Composition, Recovery};
use crate::ours::Told;
use crate::random::Random;
use crate::recoveries::random_recovery;
use crate::rules::{Expected, LIMIT, UNKNOWN_FORM};
use crate::sets::as_numbers;
use crate::tally::{Progress, Tally};
use crate::{ours, rules};

const CALLS: [&str; 8] = [
    "composition",
    "set operation",
    "conversion to words",
    "conversion to a list",
    "conversion to runs",
    "feed",
    "recovery",
    "feed of recovery",
];
const UNKNOWN: usize = 18; // stands for 99

/// How often each refusal was told, by call and by the operand named.
#[derive(Default)]
struct Seen {
    times: [[[u64; 3]; UNKNOWN + 1]; CALLS.len()],
    several_held: u64,
}

/// What a call told, and how many of the table's lines held of its operands.
struct Refused {
    answer: Answer,
    held: u64,
}

impl Seen {
    fn note(&mut self, call: usize, refused: &Refused) {
        let answer = &refused.answer;
        self.several_held += u64::from(refused.held > 1);
        let number = match answer.cells[REFUSAL] {
            UNKNOWN_FORM => UNKNOWN,
            number => number as usize,
        };
        self.times[call][number][answer.cells[OPERAND] as usize] += 1;
    }
}

pub fn run(cases: u64, seed: u64, tally: &mut Tally) -> Outcome {
    let mut random = Random::new(seed, "refusals");
    let mut progress = Progress::new("refusals", cases);
    let mut seen = Seen::default();
    for case in 0..cases {
        let call = (case % CALLS.len() as u64) as usize;
        let refused = match call {
            0 => spoilt_composition(&mut random)?,
            1 => spoilt_set(&mut random)?,
            2 => spoilt_to_words(&mut random)?,
            3 => spoilt_to_list(&mut random)?,
            4 => spoilt_to_runs(&mut random)?,
            5 => spoilt_feed(&mut random)?,
            6 => spoilt_recovery(&mut random)?,
            _ => spoilt_recovery_feed(&mut random)?,
        };
        seen.note(call, &refused);
        progress.step();
    }
    progress.end();
    tell(&seen, cases, tally);
    every_refusal_occurred(&seen)
}

fn tell(seen: &Seen, cases: u64, tally: &mut Tally) {
    tally.add("spoilt calls against the documents' table, all lent memory looked at", cases);
    tally.add("  of these, more than one of 1 to 6, 12 and 14 held, and the first had to be told", seen.several_held);
    for (name, by_number) in CALLS.iter().zip(&seen.times) {
        for (number, by_operand) in by_number.iter().enumerate() {
            for (operand, &times) in by_operand.iter().enumerate() {
                if times > 0 {
                    tally.add(&told_refusal(name, number, operand), times);
                }
            }
        }
    }
}

fn told_refusal(call: &str, number: usize, operand: usize) -> String {
    let refusal = match number {
        0 => "accepted".to_string(),
        UNKNOWN => "unknown form, 99".to_string(),
        number => format!("refusal {number}"),
    };
    match operand {
        0 => format!("  {call}: {refusal}"),
        operand => format!("  {call}: {refusal}, operand {operand}"),
    }
}

/// Numbers and operands that the calls must have told, from the documents' table.
fn every_refusal_occurred(seen: &Seen) -> Outcome {
    let by_operand = |call: usize, numbers: &[usize], operands: &[usize]| {
        let missing = |&number: &usize| operands.iter().any(|&operand| seen.times[call][number][operand] == 0);
        match numbers.iter().find(|number| missing(number)) {
            None => Ok(()),
            Some(number) => Err(format!("no {} told refusal {number} for each of operands {operands:?}", CALLS[call])),
        }
    };
    by_operand(0, &[1, 2, 3, 4, 5, 6, 14], &[1, 2])?;
    by_operand(0, &[0, 7, 8, UNKNOWN], &[0])?;
    by_operand(1, &[1, 2, 3, 4, 12], &[1, 2])?;
    by_operand(1, &[0, 7, 8, UNKNOWN], &[0])?;
    for conversion in 2..=4 {
        by_operand(conversion, &[1, 2, 3, 4, 5, 6, 14], &[1])?;
        by_operand(conversion, &[0, 8, UNKNOWN], &[0])?;
    }
    by_operand(5, &[1, 2, 3, 4, 5, 6, 14], &[1, 2])?;
    by_operand(5, &[0, 7, 8, 10, 11, UNKNOWN], &[0])?;
    by_operand(6, &[1, 2, 3, 4, 5, 6, 14], &[1, 2])?;
    by_operand(6, &[0, 7, 8, 17, UNKNOWN], &[0])?;
    by_operand(7, &[1, 2, 3, 4, 5, 6, 14], &[1, 2])?;
    by_operand(7, &[0, 7, 8, 10, 11, 17, UNKNOWN], &[0])
}

// ---- the calls

fn spoilt_composition(random: &mut Random) -> Outcome<Refused> {
    let (mut a, mut b) = small_pair(random);
    spoil_pair(&mut a, &mut b, random);
    let out = output(a.length, random);
    let compared = || {
        let told = ours::compose(&a, &b, &out)?;
        check(&told, &rules::compose(&a, &b, &out))
    };
    let answer = compared().map_err(|why| with_input(why, "compose", &[&a, &b], &out))?;
    Ok(Refused { answer, held: held(&[&a, &b], false) })
}

fn spoilt_set(random: &mut Random) -> Outcome<Refused> {
    let length = small_length(random);
    let (mut a, mut b) = (any_operand(length, 8, random), any_operand(length, 8, random));
    spoil_pair(&mut a, &mut b, random);
    let which = if random.one_in(20) { random.next() } else { random.below(4) };
    let out = output(a.length, random);
    let compared = || {
        let told = ours::set(which, &a, &b, &out)?;
        check(&told, &rules::set(which, &a, &b, &out))
    };
    let answer = compared().map_err(|why| with_input(why, &format!("set {which}"), &[&a, &b], &out))?;
    let operands = if which > 2 { vec![&a] } else { vec![&a, &b] };
    Ok(Refused { answer, held: held(&operands, true) })
}

fn spoilt_to_words(random: &mut Random) -> Outcome<Refused> {
    let length = small_length(random);
    let mut a = any_operand(length, 2, random);
    spoil_up_to(2, &mut a, random);
    let out = output(a.length, random);
    let compared = || {
        let told = ours::to_words(&a, &out)?;
        check(&told, &rules::to_words(&a, &out))
    };
    let answer = compared().map_err(|why| with_input(why, "to words", &[&a], &out))?;
    Ok(Refused { answer, held: held(&[&a], false) })
}

fn spoilt_to_list(random: &mut Random) -> Outcome<Refused> {
    let length = small_length(random);
    let mut a = any_operand(length, 2, random);
    spoil_up_to(2, &mut a, random);
    let room = if random.one_in(3) { random.below(40) } else { length + random.below(3) };
    let filling = random.words(room);
    let out = as_numbers(&filling);
    let compared = || {
        let told = ours::to_list(&a, &out)?;
        check(&told, &rules::to_list(&a, &out))
    };
    let answer = compared().map_err(|why| with_input(why, "to list", &[&a], &filling))?;
    Ok(Refused { answer, held: held(&[&a], false) })
}

fn spoilt_to_runs(random: &mut Random) -> Outcome<Refused> {
    let length = small_length(random);
    let mut a = any_operand(length, 2, random);
    spoil_up_to(2, &mut a, random);
    let room = if random.one_in(3) { random.below(12) } else { length.min(200) + random.below(3) };
    let filling = random.words(room);
    let out = as_numbers(&filling);
    let compared = || {
        let told = ours::to_runs(&a, &out)?;
        check(&told, &rules::to_runs(&a, &out))
    };
    let answer = compared().map_err(|why| with_input(why, "to runs", &[&a], &filling))?;
    Ok(Refused { answer, held: held(&[&a], false) })
}

fn spoilt_feed(random: &mut Random) -> Outcome<Refused> {
    let (mut a, mut b) = small_pair(random);
    spoil_pair(&mut a, &mut b, random);
    let state = random_state(random);
    let end = state[0].saturating_add(a.length);
    let near_limit = end > 100_000 && !random.one_in(50);
    let out = if near_limit { output(random.below(500), random) } else { output(end, random) };
    let compared = || {
        let told = ours::feed(Composition, state, &a, &b, &out)?;
        check(&told, &rules::feed(state, &a, &b, &out))
    };
    let answer = compared().map_err(|why| with_input(why, &format!("feed at state {state:?}"), &[&a, &b], &out))?;
    Ok(Refused { answer, held: held(&[&a, &b], false) })
}

fn spoilt_recovery(random: &mut Random) -> Outcome<Refused> {
    let (a, b) = spoilt_masks(random);
    let out = output(a.length, random);
    let compared = || {
        let told = ours::recover(&a, &b, &out)?;
        check(&told, &rules::recover(&a, &b, &out))
    };
    let answer = compared().map_err(|why| with_input(why, "recover", &[&a, &b], &out))?;
    Ok(Refused { answer, held: held(&[&a, &b], false) })
}

/// The output is as long as the ranks ask, or as done would.
fn spoilt_recovery_feed(random: &mut Random) -> Outcome<Refused> {
    let (a, b) = spoilt_masks(random);
    let state = random_state(random);
    let end = random.pick(&state[..2]).saturating_add(a.length);
    let out = output(end.min(2_000), random);
    let compared = || {
        let told = ours::feed(Recovery, state, &a, &b, &out)?;
        check(&told, &rules::recovery_feed(state, &a, &b, &out))
    };
    let call = format!("feed of recovery at state {state:?}");
    let answer = compared().map_err(|why| with_input(why, &call, &[&a, &b], &out))?;
    Ok(Refused { answer, held: held(&[&a, &b], false) })
}

/// Self and a second mask; once in four times that is any of the length, and most likely has a row outside self.
fn spoilt_masks(random: &mut Random) -> (Operand, Operand) {
    let length = random.below(200);
    let (mut a, mut b) = random_recovery(length, random);
    if random.one_in(4) {
        b = any_operand(length, 2, random);
    }
    spoil_pair(&mut a, &mut b, random);
    (a, b)
}

fn check<T: PartialEq + std::fmt::Debug>(told: &Told<T>, expected: &Expected<T>) -> Outcome<Answer> {
    by_the_rules(told, expected)?;
    Ok(told.answer)
}

fn held(operands: &[&Operand], in_set_operation: bool) -> u64 {
    operands.iter().map(|operand| rules::refusals_that_hold(operand, in_set_operation)).sum()
}

// ---- inputs

fn small_length(random: &mut Random) -> u64 {
    match random.below(40) {
        0 => LIMIT,
        1..=5 => 64 * random.below(4),
        _ => random.below(200),
    }
}

fn small_pair(random: &mut Random) -> (Operand, Operand) {
    let length = random.below(200);
    random_pair(length, random)
}

/// Once in `lists` times it may be a list or runs, where the rows don't call for all or none.
fn any_operand(length: u64, lists: u64, random: &mut Random) -> Operand {
    let rows = random_rows(length.min(200), random);
    let carriers: &[u64] = if random.one_in(lists) { &CARRIERS } else { &[WORDS] };
    let form = fitting_form(&rows, carriers, random);
    let mut operand = lend(&rows, form, random);
    if form == ALL || form == NONE {
        operand.length = length;
    }
    operand
}

/// Long enough three times in four; never longer than the limit asks.
fn output(length: u64, random: &mut Random) -> Vec<u64> {
    let need = length.min(LIMIT).div_ceil(64);
    let given = match random.below(4) {
        0 => random.below(need + 1),
        _ => need + random.below(3),
    };
    random.words(given)
}

fn random_state(random: &mut Random) -> [u64; 3] {
    let done = match random.below(6) {
        0 => LIMIT - random.below(250),
        1 => random.pick(&[LIMIT, LIMIT + 1, u64::MAX, 0]),
        _ => random.below(300),
    };
    let ranks = random.below(done.min(LIMIT) + 1);
    let kept = random.below(ranks + 1);
    match random.below(12) {
        0 => [done, done.saturating_add(random.between(1, 3)), kept],
        1 => [done, ranks, ranks + random.between(1, 3)],
        2 => [random.next(), random.next(), random.next()],
        _ => [done, ranks, kept],
    }
}

/// Up to three faults over both operands, or another length of the second.
fn spoil_pair(a: &mut Operand, b: &mut Operand, random: &mut Random) {
    for _ in 0..random.below(4) {
        match random.below(5) {
            0 | 1 => spoil(a, random),
            2 | 3 => spoil(b, random),
            _ => *b = any_operand(random.below(200), 2, random),
        }
    }
}

fn spoil_up_to(most: u64, operand: &mut Operand, random: &mut Random) {
    for _ in 0..random.below(most + 1) {
        spoil(operand, random);
    }
}

fn spoil(operand: &mut Operand, random: &mut Random) {
    match random.below(12) {
        0 => operand.length = random.pick(&[LIMIT + 1, LIMIT + 64, u64::MAX, 1 << 63, 1 << 32]),
        1 => operand.length = operand.length.wrapping_add(random.pick(&[1, 2, 64, u64::MAX, u64::MAX - 1])),
        2 | 3 => operand.start = random.pick(&[64, 65, 128, 1 << 32, u64::MAX, u64::MAX - 63]),
        4 => operand.start = random.below(64),
        5 => operand.words.truncate(operand.words.len().saturating_sub(1 + random.below(3) as usize)),
        6 => operand.claimed = operand.claimed.wrapping_add(random.pick(&[1, 2, u64::MAX])),
        7 => operand.claimed = random.pick(&[0, operand.length, u64::MAX, 1 << 32]),
        8..=10 if operand.form == RUNS => spoil_runs(operand, random),
        8..=10 => spoil_list(operand, random),
        _ => spoil_form(operand, random),
    }
}

fn spoil_list(operand: &mut Operand, random: &mut Random) {
    let rows = &mut operand.rows;
    if rows.is_empty() {
        rows.push(random.next() as u32);
        return;
    }
    let place = random.below(rows.len() as u64) as usize;
    let last = rows[rows.len() - 1];
    match random.below(6) {
        0 => rows.insert(place, rows[place]),
        1 => rows.swap(place, 0),
        2 => rows.push(operand.length as u32),
        3 => rows.push(u32::MAX),
        4 => rows.push(last.saturating_sub(1)),
        _ => rows[place] = random.next() as u32,
    }
}

/// One run is made empty, or touches or meets the one before it, or passes the length; or there is one number more or less.
/// Now and then what comes out is a list of runs all the same.
fn spoil_runs(operand: &mut Operand, random: &mut Random) {
    let (length, runs) = (operand.length as u32, &mut operand.rows);
    if runs.len() < 2 {
        runs.extend([random.below(4) as u32, random.below(4) as u32]);
        return;
    }
    let place = 2 * random.below(runs.len() as u64 / 2) as usize;
    let last = runs.len() - 1;
    match random.below(10) {
        0 => runs[place + 1] = runs[place],
        1 => runs.swap(place, place + 1),
        2 => runs[place] = runs[place.saturating_sub(1)],
        3 => runs[place] = runs[place.saturating_sub(1)].saturating_sub(1),
        4 => runs[last] = length,
        5 => runs[last] = length.wrapping_add(1),
        6 => drop(runs.remove(place)),
        7 => runs.push(length),
        8 => runs.extend_from_within(place..place + 2),
        _ => runs[place + random.below(2) as usize] = random.next() as u32,
    }
}

fn spoil_form(operand: &mut Operand, random: &mut Random) {
    operand.form = match random.below(3) {
        0 => random.pick(&[RUNS + 1, RUNS + 2, 99, 256, 1 << 32, u64::MAX]),
        _ => random.below(RUNS + 1),
    };
}
