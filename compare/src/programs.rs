//! The program: well formed inputs against the crate on its portable and its BMI2 paths, and any input against document
//! 01's four lines.
use switched_std::cpu;

use crate::answer::{COUNT, REFUSAL, ROUTE, WRITTEN};
use crate::checks::{Outcome, asked, by_the_rules, same};
use crate::operand::{count, exactly, in_words, length_around_words, random_rows};
use crate::ours::Told;
use crate::random::Random;
use crate::rules::{LONGEST_LINE, digits};
use crate::tally::{Progress, Tally};
use crate::{ours, rules, theirs};

const REFUSALS: [u64; 4] = [0, 7, 8, 13];

/// How often each of `REFUSALS` was told, and how often an input had a line of 8,192 rows, or of one more.
#[derive(Default)]
pub struct Seen {
    refusals: [u64; REFUSALS.len()],
    longest: u64,
    too_long: u64,
    of_length_0: u64,
}

impl Seen {
    pub fn accepted(&self) -> u64 {
        self.refusals[0]
    }

    fn note(&mut self, input: &[u8], refusal: u64) {
        if let Some(place) = REFUSALS.iter().position(|&number| number == refusal) {
            self.refusals[place] += 1;
        }
        let longest = input.split(|&byte| byte == b'\n').map(|line| line.len().saturating_sub(KEY)).max();
        self.longest += u64::from(refusal == 0 && longest == Some(LONGEST_LINE));
        self.too_long += u64::from(refusal == 13 && longest == Some(LONGEST_LINE + 1));
    }

    fn tell(&self, tally: &mut Tally) {
        let [accepted, unpaired, too_short, malformed] = self.refusals;
        tally.add("  well formed, against the crate's portable and BMI2 paths", accepted);
        tally.add("  of these, with a line of 8,192 rows", self.longest);
        tally.add("  of these, of length 0: their density left out against the crate", self.of_length_0);
        tally.add("  well formed, but the rank mask is not as long as self's count: 7", unpaired);
        tally.add("  malformed: 13", malformed);
        tally.add("  of these, with a line of 8,193 rows", self.too_long);
        tally.add("  with too short an output, which must stay: 8", too_short);
    }

    fn everything_occurred(&self) -> Outcome {
        if let Some(missing) = self.refusals.iter().position(|&cases| cases == 0) {
            return Err(format!("no input of the program was answered with {}", REFUSALS[missing]));
        }
        match self.longest > 0 && self.too_long > 0 {
            true => Ok(()),
            false => Err("no input of the program had a line of 8,192 rows, or none one of 8,193".to_string()),
        }
    }
}

const KEY: usize = 5; // bytes of `self=`, and of `rank=`

pub fn run(cases: u64, seed: u64, tally: &mut Tally) -> Outcome {
    let mut random = Random::new(seed, "programs");
    let mut progress = Progress::new("the program", cases);
    let mut seen = Seen::default();
    for case in 0..cases {
        let input = match case % 4 {
            0 | 1 => well_formed(&mut random),
            2 => unpaired(&mut random),
            _ => spoilt(&mut random),
        };
        let room = random_room(&input, &mut random);
        program_both(&input, room, &mut seen, &mut random)?;
        progress.step();
    }
    progress.end();
    tally.add("inputs of the program against document 01's four lines, all lent memory looked at", cases);
    seen.tell(tally);
    seen.everything_occurred()
}

/// The output has just room, or more; once in sixteen times one byte too little, and once any room that is too little.
fn random_room(input: &[u8], random: &mut Random) -> u64 {
    let need = bytes_needed(input);
    match random.below(16) {
        0 => need - 1,
        1 => random.below(need),
        2..=8 => need,
        _ => need + random.between(1, 40),
    }
}

/// The length of the four lines.
pub fn bytes_needed(input: &[u8]) -> u64 {
    rules::program(input, &[0; LONGEST_LINE + 100]).answer.cells[WRITTEN]
}

pub fn program_both(input: &[u8], room: u64, seen: &mut Seen, random: &mut Random) -> Outcome {
    let out: Vec<u8> = (0..room).map(|_| random.next() as u8).collect();
    one_program(input, &out, seen)
        .map_err(|why| format!("{why}\n  the program with an output of {room} bytes, input {}", input.escape_ascii()))
}

fn one_program(input: &[u8], out: &[u8], seen: &mut Seen) -> Outcome {
    let told = ours::program(input, out)?;
    by_the_rules(&told, &rules::program(input, out))?;
    let refusal = told.answer.cells[REFUSAL];
    seen.note(input, refusal);
    if refusal != 0 {
        return Ok(());
    }
    let [own, ranks] = masks_said(input);
    seen.of_length_0 += u64::from(own.is_empty());
    by_the_crates_lines("the crate's portable paths", &told, &own, &ranks, false)?;
    if !cpu::has_bmi2() {
        return Ok(());
    }
    by_the_crates_lines("the crate's BMI2 paths", &told, &own, &ranks, true)
}

/// The four lines made of what the crate gives, but for the route, which it does not tell.
fn by_the_crates_lines(what: &str, told: &Told<u8>, own: &[bool], ranks: &[bool], bmi2: bool) -> Outcome {
    let (a, b) = (theirs::mask(&in_words(own)), theirs::mask(&in_words(ranks)));
    let given = asked(|| theirs::composed(&a, &b, bmi2))?;
    let result: Vec<bool> = (0..own.len()).map(|row| given.words[row / 64] >> (row % 64) & 1 == 1).collect();
    let text = rules::lines(told.answer.cells[ROUTE], given.count, &result);
    let written = told.out[..told.answer.cells[WRITTEN] as usize].escape_ascii().to_string();
    same(&format!("{what}, the four lines"), written, text.as_bytes().escape_ascii().to_string())?;
    same(&format!("{what}, count"), told.answer.cells[COUNT], given.count)?;
    if own.is_empty() {
        return Ok(()); // its density at length 0 is another
    }
    same(&format!("{what}, bits of the density"), told.answer.density, given.density)
}

/// The masks of an input that was accepted.
fn masks_said(input: &[u8]) -> [Vec<bool>; 2] {
    let mut lines = input.split(|&byte| byte == b'\n');
    [(); 2].map(|()| lines.next().unwrap_or_default().iter().skip(KEY).map(|&digit| digit == b'1').collect())
}

// ---- inputs

pub fn said(own: &[bool], ranks: &[bool]) -> Vec<u8> {
    format!("self={}\nrank={}\n", digits(own), digits(ranks)).into_bytes()
}

/// Up to 4,098 rows, and once in eight times the most that a line may have.
fn random_own(random: &mut Random) -> Vec<bool> {
    let length = if random.one_in(8) { LONGEST_LINE as u64 } else { length_around_words(random) };
    random_rows(length, random)
}

fn well_formed(random: &mut Random) -> Vec<u8> {
    let own = random_own(random);
    let ranks = random_rows(count(&own), random);
    said(&own, &ranks)
}

/// Mostly by a row or two, now and then as long as self, of no rows, or of any length.
fn unpaired(random: &mut Random) -> Vec<u8> {
    let own = random_own(random);
    let set = count(&own);
    let length = match random.below(8) {
        0 => own.len() as u64,
        1 => 0,
        2 => random.below(LONGEST_LINE as u64 + 1),
        3 | 4 => set.saturating_sub(random.between(1, 2)),
        _ => (set + random.between(1, 2)).min(LONGEST_LINE as u64),
    };
    said(&own, &random_rows(length, random))
}

/// A well formed input spoilt in one way, or bytes that never were one.
fn spoilt(random: &mut Random) -> Vec<u8> {
    let mut input = well_formed(random);
    let place = random.below(input.len() as u64) as usize;
    match random.below(14) {
        0 | 1 => input[place] = strange_byte(random),
        2 => input[place] ^= 1 << random.below(8),
        3 => drop(input.remove(place)),
        4 => input.insert(place, strange_byte(random)),
        5 => input.push(strange_byte(random)),
        6 => drop(input.pop()),
        7 => input.truncate(place),
        8 => return with_returns(&input, random),
        9 => return one_row_too_long(random),
        10 => input.rotate_left(place),
        11 => input.extend_from_within(..),
        12 => input.make_ascii_uppercase(),
        _ => return (0..random.below(40)).map(|_| random.next() as u8).collect(),
    }
    input
}

/// A byte that the lines have, at a place where it may not belong, one that looks like it, or any byte.
fn strange_byte(random: &mut Random) -> u8 {
    match random.below(3) {
        0 => random.pick(b"01self=rank\n"),
        1 => random.pick(b"\r \t\0/2O\xb0\xb1\x8a\xff"),
        _ => random.next() as u8,
    }
}

/// A return before one newline, or before each.
fn with_returns(input: &[u8], random: &mut Random) -> Vec<u8> {
    let [first, second] = random.pick(&[[true, false], [false, true], [true, true]]);
    let mut returns = [first, second].into_iter();
    let mut spoilt = Vec::new();
    for &byte in input {
        if byte == b'\n' && returns.next() == Some(true) {
            spoilt.push(b'\r');
        }
        spoilt.push(byte);
    }
    spoilt
}

/// 8,193 rows in one line or in both, the rank mask as long as self's count where the other line can be.
fn one_row_too_long(random: &mut Random) -> Vec<u8> {
    let (longest, longer) = (LONGEST_LINE as u64, LONGEST_LINE as u64 + 1);
    match random.below(3) {
        0 => {
            let set = random.below(longest);
            said(&exactly(longer, set, random), &random_rows(set, random))
        }
        1 => said(&vec![true; longest as usize], &random_rows(longer, random)),
        _ => said(&vec![true; longer as usize], &random_rows(longer, random)),
    }
}
