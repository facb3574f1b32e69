//! Feeds: a composition or a recovery cut into pieces, with refused feeds between, against the whole.
use crate::answer::{COUNT, REFUSAL};
use crate::checks::{Outcome, asked, by_the_rules, same, with_input};
use crate::operand::{
    CARRIERS, Operand, RUNS, WORDS, count, fitting_form, lay, lend, length_around_words, random_rows,
};
use crate::ours::Operation::{self, Composition, Recovery};
use crate::random::Random;
use crate::rules::LIMIT;
use crate::tally::{Progress, Tally};
use crate::{ours, rules, theirs};

#[derive(Default)]
struct Fed {
    pieces: u64,
    with_runs: u64,
    refused: u64,
}

pub fn run(operation: Operation, cases: u64, seed: u64, tally: &mut Tally) -> Outcome {
    let [part, told] = match operation {
        Composition => ["feeds", "streams cut at random, against the whole and against the crate"],
        Recovery => ["feeds of recovery", "streams of recovery cut at random, against the whole"],
    };
    let mut random = Random::new(seed, part);
    let mut progress = Progress::new(part, cases);
    let mut fed = Fed::default();
    for _ in 0..cases {
        let length = length_around_words(&mut random);
        let longest = random.pick(&[3, 20, 64, 65, 200, 5000]);
        one_stream(operation, length, longest, &mut fed, &mut random)?;
        progress.step();
    }
    progress.end();
    tally.add(told, cases);
    tell(&fed, tally);
    Ok(())
}

/// Streams up to the row limit, in long pieces.
pub fn blocks(operation: Operation, cases: u64, seed: u64, tally: &mut Tally) -> Outcome {
    let [part, told] = match operation {
        Composition => ["long feeds", "streams of up to 1,048,576 rows"],
        Recovery => ["long feeds of recovery", "streams of recovery of up to 1,048,576 rows"],
    };
    let mut random = Random::new(seed, part);
    let mut progress = Progress::new(part, cases);
    let mut fed = Fed::default();
    for case in 0..cases {
        let length = if case % 2 == 0 { LIMIT } else { random.between(100_000, LIMIT) };
        one_stream(operation, length, 200_000, &mut fed, &mut random)?;
        progress.step();
    }
    progress.end();
    tally.add(told, cases);
    tell(&fed, tally);
    Ok(())
}

fn tell(fed: &Fed, tally: &mut Tally) {
    tally.add("  feeds accepted", fed.pieces);
    tally.add("  of these, self or the other mask in runs", fed.with_runs);
    tally.add("  refused feeds between them, which must change nothing", fed.refused);
}

/// A whole self and rank mask, or self and a mask within it, and what the stream has so far.
struct Stream {
    operation: Operation,
    own: Vec<bool>,
    second: Vec<bool>,
    state: [u64; 3],
    out: Vec<u64>,
}

fn one_stream(operation: Operation, length: u64, longest: u64, fed: &mut Fed, random: &mut Random) -> Outcome {
    let own = random_rows(length, random);
    let ranks = random_rows(count(&own), random);
    let extra = random.below(3);
    let (second, needed) = match operation {
        Composition => (ranks, length),
        Recovery => (rules::laid_back(&own, &ranks), count(&own)),
    };
    let before = random.words(needed.div_ceil(64) + extra);
    let mut stream = Stream { operation, own, second, state: [0; 3], out: before.clone() };
    let mut sum_of_counts = 0;
    while stream.state[0] < stream.own.len() as u64 {
        if random.one_in(5) {
            feed_refused(&mut stream, fed, random)?;
        }
        sum_of_counts += feed_piece(&mut stream, longest, fed, random)?;
    }
    let told = match operation {
        Composition => composition_told(&stream, &before, sum_of_counts),
        Recovery => recovery_told(&stream, &before, sum_of_counts),
    };
    told.map_err(|why| format!("{why}\n  self {:?}\n  second {:?}", shown(&stream.own), shown(&stream.second)))
}

/// The piece's own count.
fn feed_piece(stream: &mut Stream, longest: u64, fed: &mut Fed, random: &mut Random) -> Outcome<u64> {
    let (a, b) = next_piece(stream, longest, random);
    let answer = feed(stream, &a, &b)?;
    same("refusal of a piece that fits", answer.cells[REFUSAL], 0)
        .map_err(|why| with_input(why, &format!("feed at {:?}", stream.state), &[&a, &b], &stream.out))?;
    stream.state = answer.state();
    fed.pieces += 1;
    fed.with_runs += u64::from(a.form == RUNS || b.form == RUNS);
    Ok(answer.cells[COUNT])
}

/// The next piece with a second mask that is one row too long.
fn feed_refused(stream: &mut Stream, fed: &mut Fed, random: &mut Random) -> Outcome {
    let (a, mut b) = next_piece(stream, 70, random);
    b.length += 1;
    let answer = feed(stream, &a, &b)?;
    fed.refused += u64::from(answer.cells[REFUSAL] != 0);
    same("state after a refused feed", answer.state(), stream.state)
}

fn feed(stream: &mut Stream, a: &Operand, b: &Operand) -> Outcome<crate::answer::Answer> {
    let compared = || {
        let told = ours::feed(stream.operation, stream.state, a, b, &stream.out)?;
        let rule = match stream.operation {
            Composition => rules::feed,
            Recovery => rules::recovery_feed,
        };
        by_the_rules(&told, &rule(stream.state, a, b, &stream.out))?;
        Ok(told)
    };
    let told =
        compared().map_err(|why| with_input(why, &format!("feed at {:?}", stream.state), &[a, b], &stream.out))?;
    stream.out = told.out;
    Ok(told.answer)
}

/// From where the stream stands: at most `longest` rows, once in ten times none.
fn next_piece(stream: &Stream, longest: u64, random: &mut Random) -> (Operand, Operand) {
    let [done, ranks_before, _] = stream.state.map(|number| number as usize);
    let left = (stream.own.len() - done) as u64;
    let length = if random.one_in(10) { 0 } else { random.between(1, longest).min(left) };
    let own = &stream.own[done..done + length as usize];
    let second = match stream.operation {
        Composition => &stream.second[ranks_before..ranks_before + count(own) as usize],
        Recovery => &stream.second[done..done + length as usize],
    };
    (piece(own, random), piece(second, random))
}

fn piece(rows: &[bool], random: &mut Random) -> Operand {
    let form = fitting_form(rows, &CARRIERS, random);
    lend(rows, form, random)
}

/// What was fed is the whole composition, by the crate, by `compose`, and by document 01; later bits are as they were.
fn composition_told(stream: &Stream, before: &[u64], sum_of_counts: u64) -> Outcome {
    let (a, b) = whole_masks(stream);
    let whole = ours::compose(&a, &b, before)?;
    let given = asked(|| theirs::composed(&theirs::mask(&a), &theirs::mask(&b), true))?;
    let rows: Vec<bool> = (0..stream.own.len()).map(|row| given.words[row / 64] >> (row % 64) & 1 == 1).collect();
    let mut expected = before.to_vec();
    lay(&mut expected, 0, &rows);
    same("the stream's output against the crate's composition", &stream.out, &expected)?;
    let need = stream.own.len() / 64;
    same("the stream's whole words against compose", &stream.out[..need], &whole.out[..need])?;
    same("the stream's state", stream.state, [stream.own.len() as u64, count(&stream.own), given.count])?;
    same("kept against compose", stream.state[2], whole.answer.cells[COUNT])?;
    same("the pieces' counts", sum_of_counts, given.count)
}

/// What was fed is the whole recovery, by `recover` and by document 02; later bits are as they were.
fn recovery_told(stream: &Stream, before: &[u64], sum_of_counts: u64) -> Outcome {
    let (a, b) = whole_masks(stream);
    let whole = ours::recover(&a, &b, before)?;
    let ranks = rules::ranks_kept(&stream.own, &stream.second);
    let mut expected = before.to_vec();
    lay(&mut expected, 0, &ranks);
    same("the stream's output against the documents' ranks", &stream.out, &expected)?;
    let need = ranks.len() / 64;
    same("the stream's whole words against recover", &stream.out[..need], &whole.out[..need])?;
    let kept = count(&stream.second);
    same("the stream's state", stream.state, [stream.own.len() as u64, ranks.len() as u64, kept])?;
    same("kept against recover", kept, whole.answer.cells[COUNT])?;
    same("the pieces' counts", sum_of_counts, kept)
}

fn whole_masks(stream: &Stream) -> (Operand, Operand) {
    let mut random = Random::new(0, "whole");
    (lend(&stream.own, WORDS, &mut random), lend(&stream.second, WORDS, &mut random))
}

const MOST_SHOWN: usize = 20_000; // a longer stream is told by the seed

fn shown(rows: &[bool]) -> String {
    rows.iter().take(MOST_SHOWN).map(|&row| if row { '1' } else { '0' }).collect()
}
