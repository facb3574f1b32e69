//! A sample for crates/recorded, whose answers are the Rust crate's: rows, lists, words, counts and densities. Document 01
//! gives only what the crate does not tell: the route, refusal 0 and operand 0, and the elements of an output after the
//! result, which stay. Nothing here calls the proved functions. Length 0 is left out, where the crate's density is another.
use vortex_buffer::BitBuffer;
use vortex_mask_inside::private;

use crate::checks::{Outcome, asked};
use crate::given::Given;
use crate::operand::{LIST, NONE, Operand, WORDS, count, fitting_form, lend, lend_at, recorded_rows};
use crate::random::Random;
use crate::words::{mask_word, random_offset, source_word};
use crate::{rules, telling, theirs};

const SEED: u64 = 7;
const COMPOSITIONS_OF_EACH_ROUTE: u64 = 60;
const SETS: u64 = 200;
const CONVERSIONS: u64 = 200;
const DEPOSITS: u64 = 400; // each by both ways
const SELECTS: u64 = 350;
const READS: u64 = 350;
const LONG_ONE_IN: u64 = 25; // a mask of some thousand rows

const COMPOSITION: u64 = 5; // and, or, and-not and not are 1 to 4

const CARRIERS: [u64; 2] = [WORDS, LIST]; // runs are ours, and not the crate's

type Case = Vec<String>;

/// What every way of the crate gives; it is no answer where they differ.
fn agreed<T: PartialEq>(given: Vec<T>) -> Outcome<T> {
    let mut given = given.into_iter();
    match given.next() {
        Some(first) if given.all(|other| other == first) => Ok(first),
        _ => Err("the Rust crate's own ways differ, or it has none".to_string()),
    }
}

/// Up to two beside a multiple of 64, up to 258; now and then some thousand.
fn sample_length(case: u64, random: &mut Random) -> u64 {
    if case % LONG_ONE_IN == 0 {
        return random.between(1_000, 4_000);
    }
    64 * random.between(1, 4) + random.below(5) - 2
}

/// Up to two words longer than needed.
fn output(length: u64, random: &mut Random) -> Vec<u64> {
    let extra = random.below(3);
    random.words(length.div_ceil(64) + extra)
}

// ---- compositions and set operations

pub fn pairs() -> Outcome<String> {
    let mut random = Random::new(SEED, "recorded pairs");
    let mut cases = Vec::new();
    let mut starts = Starts::default();
    for route in 1..=10 {
        for case in 0..COMPOSITIONS_OF_EACH_ROUTE {
            let length = sample_length(case, &mut random);
            let turn = cases.len() as u64;
            let (a, b) = pair_of_route(route, length, [turn % 64, 7 * turn % 64], &mut random);
            starts.note(&a, &b);
            cases.push(composition(route, &a, &b, &mut random)?);
        }
    }
    for case in 0..SETS {
        cases.push(set_operation(case, &mut random)?);
    }
    starts.every_one_occurred()?;
    Ok(telling::file(&cases))
}

/// Which start bits self's words had, and the rank mask's.
struct Starts {
    seen: [[bool; 64]; 2],
}

impl Default for Starts {
    fn default() -> Self {
        Starts { seen: [[false; 64]; 2] }
    }
}

impl Starts {
    fn note(&mut self, a: &Operand, b: &Operand) {
        for (operand, seen) in [a, b].into_iter().zip(&mut self.seen) {
            if operand.form == WORDS {
                seen[operand.start as usize] = true;
            }
        }
    }

    fn every_one_occurred(&self) -> Outcome {
        match self.seen.as_flattened().iter().all(|&seen| seen) {
            true => Ok(()),
            false => Err("the recorded compositions lack a start bit".to_string()),
        }
    }
}

/// Pairs are made until one takes the route.
fn pair_of_route(route: u64, length: u64, starts: [u64; 2], random: &mut Random) -> (Operand, Operand) {
    loop {
        let own = recorded_rows(length, random);
        let ranks = recorded_rows(count(&own), random);
        let (own_form, rank_form) = (fitting_form(&own, &CARRIERS, random), fitting_form(&ranks, &CARRIERS, random));
        let (a, b) = (lend_at(starts[0], &own, own_form, random), lend_at(starts[1], &ranks, rank_form, random));
        if rules::route(&a, &own, &b, &ranks) == route {
            return (a, b);
        }
    }
}

fn composition(route: u64, a: &Operand, b: &Operand, random: &mut Random) -> Outcome<Case> {
    let composed = |bmi2| asked(|| theirs::composed(&theirs::mask(a), &theirs::mask(b), bmi2));
    let given = agreed(vec![composed(false)?, composed(true)?])?;
    Ok(pair_case(COMPOSITION, a, b, &output(a.length, random), route, &given))
}

fn set_operation(case: u64, random: &mut Random) -> Outcome<Case> {
    let which = case % 4;
    let length = sample_length(case, random);
    let a = operand_without_list(length, random);
    let b = if which == 3 { no_operand() } else { operand_without_list(length, random) };
    let given = agreed(asked(|| theirs::set(which, &theirs::mask(&a), &theirs::mask(&b)))?)?;
    Ok(pair_case(1 + which, &a, &b, &output(length, random), 0, &given))
}

fn operand_without_list(length: u64, random: &mut Random) -> Operand {
    let rows = recorded_rows(length, random);
    let form = fitting_form(&rows, &[WORDS], random);
    lend(&rows, form, random)
}

/// Not has one operand: the second is told as none of length 0.
fn no_operand() -> Operand {
    Operand { form: NONE, length: 0, start: 0, claimed: 0, words: Vec::new(), rows: Vec::new() }
}

fn pair_case(operation: u64, a: &Operand, b: &Operand, before: &[u64], route: u64, given: &Given) -> Case {
    let mut case = vec![telling::numbers(&[operation])];
    for operand in [a, b] {
        case.extend([telling::form(operand), telling::slice(&operand.words), telling::rows(&operand.rows)]);
    }
    case.push(telling::slice(before));
    case.push(telling::accepted(given.count, route, given.density));
    case.push(telling::slice(&after(&given.words, before)));
    case
}

/// The result, and what stood after it.
fn after<T: Copy>(result: &[T], before: &[T]) -> Vec<T> {
    [result, &before[result.len()..]].concat()
}

// ---- conversions

pub fn conversions() -> Outcome<String> {
    let mut random = Random::new(SEED, "recorded conversions");
    let mut cases = Vec::new();
    for case in 0..CONVERSIONS {
        let length = sample_length(case, &mut random);
        let rows = recorded_rows(length, &mut random);
        let form = fitting_form(&rows, &CARRIERS, &mut random);
        let a = lend(&rows, form, &mut random);
        cases.push(match case % 2 {
            0 => to_words(&a, &mut random)?,
            _ => to_list(&a, &mut random)?,
        });
    }
    Ok(telling::file(&cases))
}

fn to_words(a: &Operand, random: &mut Random) -> Outcome<Case> {
    let given = asked(|| theirs::given(&theirs::mask(a)))?;
    let before = output(a.length, random);
    let slices = [telling::slice(&before), telling::slice(&after(&given.words, &before))];
    Ok(conversion_case(1, a, &given, slices))
}

fn to_list(a: &Operand, random: &mut Random) -> Outcome<Case> {
    let (given, list) = asked(|| (theirs::given(&theirs::mask(a)), theirs::listed(&theirs::mask(a))))?;
    let room = list.len() as u64 + random.below(3);
    let (first, step) = (random.below(1 << 31), random.below(1 << 16));
    let before: Vec<u32> = (0..room).map(|place| (first + place * step) as u32).collect();
    let slices = [telling::rows(&before), telling::rows(&after(&list, &before))];
    Ok(conversion_case(2, a, &given, slices))
}

fn conversion_case(operation: u64, a: &Operand, given: &Given, [before, after]: [String; 2]) -> Case {
    let first = format!("{} {}", telling::numbers(&[operation]), telling::form(a));
    let answer = telling::accepted(given.count, 0, given.density);
    vec![first, telling::slice(&a.words), telling::rows(&a.rows), before, answer, after]
}

// ---- words

pub fn words() -> Outcome<String> {
    let mut random = Random::new(SEED, "recorded words");
    let mut cases = Vec::new();
    for case in 0..DEPOSITS {
        cases.extend(deposits(case, &mut random)?);
    }
    for case in 0..SELECTS {
        cases.push(select(case, &mut random)?);
    }
    while (cases.len() as u64) < 2 * DEPOSITS + SELECTS + READS {
        cases.extend(rank_read(&mut random)?);
    }
    Ok(telling::file(&cases))
}

/// Three numbers, the lent words, and the answer: refusal 0, operand 0, and the word or position.
fn word_case(operation: u64, told: [u64; 3], lent: &[u64], word: u64) -> Case {
    let [x, y, z] = told;
    vec![telling::numbers(&[operation, x, y, z]), telling::slice(lent), telling::numbers(&[0, 0, word])]
}

/// By the network choice and by the loop form, which takes no claimed count; the CPU's PDEP must agree.
fn deposits(case: u64, random: &mut Random) -> Outcome<[Case; 2]> {
    let set = (case % 65) as u32;
    let (mask, source) = (mask_word(set, random), source_word(set, random));
    let by_network = asked(|| private::network_deposit(source, mask))?;
    let by_loop = asked(|| private::loop_deposit(source, mask))?;
    let by_cpu = asked(|| private::bmi2_deposit(source, mask))?;
    agreed([Some(by_network), Some(by_loop), by_cpu].into_iter().flatten().collect())?;
    let claimed = u64::from(set);
    Ok([word_case(1, [source, mask, claimed], &[], by_network), word_case(2, [source, mask, 0], &[], by_loop)])
}

fn select(case: u64, random: &mut Random) -> Outcome<Case> {
    let set = 1 + (case % 64) as u32;
    let word = mask_word(set, random);
    let rank = random.below(u64::from(set));
    let portable = asked(|| private::portable_select(word, rank as usize))?;
    let by_cpu = asked(|| private::bmi2_select(word, rank as usize))?;
    let position = agreed([Some(portable), by_cpu].into_iter().flatten().collect())?;
    Ok(word_case(3, [word, rank, 0], &[], position as u64))
}

/// None where start plus offset passes 2^64, which wraps in the crate.
fn rank_read(random: &mut Random) -> Outcome<Option<Case>> {
    let nwords = random.below(6);
    let (words, start) = (random.words(nwords), random.below(64));
    let offset = random_offset(nwords, random);
    if start.checked_add(offset).is_none() {
        return Ok(None);
    }
    let length = (64 * words.len()).saturating_sub(start as usize);
    let view = BitBuffer::from_words(&words, start as usize, length);
    let word = asked(|| private::rank_read(&view, offset as usize))?;
    Ok(Some(word_case(4, [start, offset, 0], &words, word)))
}
