//! Deposit both ways, select, rank read: against the crate's private functions, the CPU's PDEP and document 01.
use vortex_buffer::BitBuffer;
use vortex_mask_inside::private as theirs;

use crate::answer::{REFUSAL, WORD};
use crate::checks::{Outcome, asked, same, same_answer};
use crate::lent::Lent;
use crate::operand::shown_words;
use crate::probe::{boltamber_deposit, boltamber_select};
use crate::random::Random;
use crate::tally::{Progress, Tally};
use crate::{ours, rules};

// ---- deposit

pub fn deposits(cases: u64, seed: u64, tally: &mut Tally) -> Outcome {
    let mut random = Random::new(seed, "deposits");
    let mut progress = Progress::new("deposit", cases);
    let (mut by_cpu, mut refused) = (0, 0);
    for case in 0..cases {
        let count = (case % 65) as u32;
        let mask = mask_word(count, &mut random);
        let source = source_word(count, &mut random);
        let input = |why| format!("{why}\n  deposit of source {source:#x} into mask {mask:#x}");
        by_cpu += one_deposit(source, mask, &mut random).map_err(input)?;
        if random.one_in(8) {
            refused += wrong_claim(source, mask, &mut random).map_err(input)?;
        }
        progress.step();
    }
    progress.end();
    tally.add(
        "deposits, three ways of ours, against the crate's network choice and loop, and the published PDEP",
        cases,
    );
    tally.add("  of these against the CPU's PDEP", by_cpu);
    tally.add("deposits with a wrong claimed count: refused, left out against the crate", refused);
    Ok(())
}

/// 1 where the CPU was asked too.
fn one_deposit(source: u64, mask: u64, random: &mut Random) -> Outcome<u64> {
    let count = u64::from(mask.count_ones());
    let published = rules::published_pdep(source, mask);
    let expected = rules::deposit(source, mask, count);
    let loop_way = if random.one_in(16) { random.between(1, u64::MAX - 1) } else { 1 };
    same_answer("probe_deposit, network choice", ours::deposit(0, source, mask, count)?, expected)?;
    same_answer("probe_deposit, loop form", ours::deposit(loop_way, source, mask, count)?, expected)?;
    same("boltamber_deposit against the published PDEP", boltamber_deposit(source, mask), published)?;
    same("against the crate's Portable", published, asked(|| theirs::network_deposit(source, mask))?)?;
    same("against the crate's PortableLoop", published, asked(|| theirs::loop_deposit(source, mask))?)?;
    match asked(|| theirs::bmi2_deposit(source, mask))? {
        None => Ok(0),
        Some(by_cpu) => same("against the CPU's PDEP", published, by_cpu).map(|()| 1),
    }
}

fn wrong_claim(source: u64, mask: u64, random: &mut Random) -> Outcome<u64> {
    let claimed = if random.one_in(4) { random.next() } else { random.below(70) };
    let way = random.below(2);
    let expected = rules::deposit(source, mask, claimed);
    same_answer("probe_deposit", ours::deposit(way, source, mask, claimed)?, expected)
        .map_err(|why| format!("{why}\n  claimed {claimed}, way {way}"))?;
    Ok(u64::from(expected.cells[REFUSAL] != 0))
}

fn low(count: u32) -> u64 {
    if count == 64 { u64::MAX } else { (1 << count) - 1 }
}

/// A mask with exactly `count` set bits, in one of several shapes.
pub fn mask_word(count: u32, random: &mut Random) -> u64 {
    let turn = random.below(64) as u32;
    match random.below(8) {
        0 => low(count).rotate_left(turn),
        1 => low(count).reverse_bits(),
        2 => two_runs(count, random),
        3 => (0..count).fold(0, |word, i| word | 1 << (8 * (i % 8) + i / 8)), // spread over the bytes
        _ => random.bits(count),
    }
}

fn two_runs(count: u32, random: &mut Random) -> u64 {
    let first = random.below(u64::from(count) + 1) as u32;
    let gap = random.below(65 - u64::from(count)) as u32;
    let second = low(count - first).checked_shl(first + gap).unwrap_or(0);
    low(first) | second
}

pub fn source_word(count: u32, random: &mut Random) -> u64 {
    match random.below(6) {
        0 => u64::MAX,
        1 => low(count),
        2 => random.next() & random.next() & random.next(),
        3 => 1 << random.below(64),
        _ => random.next(),
    }
}

// ---- select

pub fn selects(cases: u64, seed: u64, tally: &mut Tally) -> Outcome {
    let mut random = Random::new(seed, "selects");
    let mut progress = Progress::new("select", cases);
    let mut left_out = 0;
    for case in 0..cases {
        let word = mask_word((case % 65) as u32, &mut random);
        let rank = random_rank(word, &mut random);
        left_out += one_select(word, rank).map_err(|why| format!("{why}\n  select of rank {rank} in {word:#x}"))?;
        progress.step();
    }
    progress.end();
    tally.add("selects, two ways of ours, against the crate's portable select and its BMI2 select", cases - left_out);
    tally.add("selects past the end: refused, left out against the crate", left_out);
    Ok(())
}

fn random_rank(word: u64, random: &mut Random) -> u64 {
    let count = u64::from(word.count_ones());
    match random.below(16) {
        0 => count,
        1 => random.below(130),
        2 => random.next(),
        _ => random.below(count.max(1)),
    }
}

/// 1 where the rank is past the end, which document 01 decides alone.
fn one_select(word: u64, rank: u64) -> Outcome<u64> {
    let expected = rules::select(word, rank);
    same_answer("probe_select", ours::select(word, rank)?, expected)?;
    if expected.cells[REFUSAL] != 0 {
        same("boltamber_select", boltamber_select(word, rank), 64)?;
        return Ok(1);
    }
    let position = expected.cells[WORD];
    same("boltamber_select", boltamber_select(word, rank), position)?;
    same(
        "against the crate's portable select",
        position,
        asked(|| theirs::portable_select(word, rank as usize))? as u64,
    )?;
    if let Some(by_cpu) = asked(|| theirs::bmi2_select(word, rank as usize))? {
        same("against the crate's BMI2 select", position, by_cpu as u64)?;
    }
    Ok(0)
}

// ---- rank read

const READS_EACH: u64 = 16; // of one lent slice

#[derive(Default)]
struct Reads {
    compared: u64,
    wrapping: u64,
    refused: u64,
}

pub fn rank_reads(cases: u64, seed: u64, tally: &mut Tally) -> Outcome {
    let mut random = Random::new(seed, "rank reads");
    let mut progress = Progress::new("rank read", cases);
    let mut reads = Reads::default();
    for _ in 0..cases / READS_EACH {
        let nwords = random.below(9);
        let words = random.words(nwords);
        let start = if random.one_in(20) { random.pick(&[64, 65, 1 << 32, u64::MAX]) } else { random.below(64) };
        reads_of_one_slice(&words, start, &mut reads, &mut random, &mut progress)?;
    }
    progress.end();
    tally.add("rank reads against the crate's RankBits", reads.compared);
    tally.add("rank reads whose sum wraps in the crate: left out against it", reads.wrapping);
    tally.add("rank reads with a start over 63: refused, left out against the crate", reads.refused);
    Ok(())
}

fn reads_of_one_slice(
    words: &[u64],
    start: u64,
    reads: &mut Reads,
    random: &mut Random,
    progress: &mut Progress,
) -> Outcome {
    let mut lent = Lent::new(words);
    let view = (start <= 63).then(|| {
        let length = (64 * words.len()).saturating_sub(start as usize);
        BitBuffer::from_words(words, start as usize, length)
    });
    for _ in 0..READS_EACH {
        let offset = random_offset(words.len() as u64, random);
        let input = |why| format!("{why}\n  rank read of {} at start {start}, offset {offset}", shown_words(words));
        one_read(&mut lent, words, start, offset, view.as_ref(), reads).map_err(input)?;
        progress.step();
    }
    match lent.unchanged() {
        true => Ok(()),
        false => Err(format!("rank read changed the lent words {} or what lies beside them", shown_words(words))),
    }
}

pub fn random_offset(nwords: u64, random: &mut Random) -> u64 {
    match random.below(10) {
        0 => u64::MAX - random.below(200),
        1 => random.next(),
        2 => 1 << random.below(64),
        3 => 64 * random.below(nwords + 2),
        _ => random.below(64 * nwords + 130),
    }
}

fn one_read(
    lent: &mut Lent<u64>,
    words: &[u64],
    start: u64,
    offset: u64,
    view: Option<&BitBuffer>,
    reads: &mut Reads,
) -> Outcome {
    let expected = rules::rank_read(words, start, offset);
    same_answer("probe_rank_read", ours::rank_read(lent, start, offset)?, expected)?;
    let Some(view) = view else {
        reads.refused += 1;
        return Ok(());
    };
    if start.checked_add(offset).is_none() {
        reads.wrapping += 1;
        return Ok(());
    }
    reads.compared += 1;
    same("against the crate's RankBits", expected.cells[WORD], asked(|| theirs::rank_read(view, offset as usize))?)
}
