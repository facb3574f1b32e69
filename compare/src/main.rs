//! The Rust crate vortex-mask 0.90.0, compiled unchanged, beside the proved functions, on the same inputs.

use std::process::ExitCode;
use std::time::{Instant, SystemTime, UNIX_EPOCH};
use std::{env, process};

use compare::checks::Outcome;
use compare::ours::Operation::{Composition, Recovery};
use compare::probe::OURS;
use compare::tally::Tally;
use compare::{compositions, examples, feeds, programs, recoveries, refusals, sets, small, without_room, words};

/// How many cases each part has.
struct Plan {
    words: u64,
    small: u64, // the longest mask of those that are all tried
    compositions: u64,
    blocks: u64,
    recoveries: u64,
    sets: u64,
    conversions: u64,
    refusals: u64,
    streams: u64,
    programs: u64,
}

/// A few seconds: for `faults`.
const BRIEF: Plan = Plan {
    words: 60_000,
    small: 5,
    compositions: 6_000,
    blocks: 0,
    recoveries: 2_000,
    sets: 2_000,
    conversions: 2_000,
    refusals: 20_000,
    streams: 300,
    programs: 300,
};

const SHORT: Plan = Plan {
    words: 1_000_000,
    small: 8,
    compositions: 40_000,
    blocks: 9,
    recoveries: 20_000,
    sets: 30_000,
    conversions: 30_000,
    refusals: 80_000,
    streams: 4_000,
    programs: 3_000,
};

const LONG: Plan = Plan {
    words: 12_500_000,
    small: 10,
    compositions: 250_000,
    blocks: 60,
    recoveries: 150_000,
    sets: 220_000,
    conversions: 150_000,
    refusals: 1_000_000,
    streams: 30_000,
    programs: 60_000,
};

/// Which parts are run: all, or those of one half. The halves share nothing and take about as long, so that two processes can run them side
/// by side.
#[derive(Clone, Copy, PartialEq)]
enum Share {
    All,
    First,
    Second,
}

fn main() -> ExitCode {
    let (plan, share, seed) = arguments();
    println!("seed {seed}; ours: {OURS}");
    let begun = Instant::now();
    let mut tally = Tally::default();
    let outcome = run(&plan, share, seed, &mut tally);
    tally.print();
    let seconds = begun.elapsed().as_secs();
    match outcome {
        Ok(()) => {
            println!("no difference, seed {seed}, {seconds} s");
            ExitCode::SUCCESS
        }
        Err(why) => {
            println!("DIFFERENCE, seed {seed}, after {seconds} s: {why}");
            ExitCode::FAILURE
        }
    }
}

fn run(plan: &Plan, share: Share, seed: u64, tally: &mut Tally) -> Outcome {
    if share != Share::Second {
        first_half(plan, seed, tally)?;
    }
    if share != Share::First {
        second_half(plan, seed, tally)?;
    }
    Ok(())
}

fn first_half(plan: &Plan, seed: u64, tally: &mut Tally) -> Outcome {
    examples::run(tally)?;
    words::deposits(plan.words, seed, tally)?;
    words::selects(plan.words, seed, tally)?;
    words::rank_reads(plan.words, seed, tally)?;
    small::compositions(plan.small, seed, tally)?;
    small::set_operations(plan.small / 2, seed, tally)?;
    small::recoveries(2 * plan.small / 3, seed, tally)?;
    small::conversions(plan.small, seed, tally)?;
    small::lists_of_runs(plan.small, tally)?;
    small::programs(plan.small, seed, tally)?;
    compositions::run(plan.compositions, seed, tally)?;
    sets::set_operations(plan.sets, seed, tally)?;
    sets::conversions(plan.conversions, seed, tally)?;
    recoveries::words(plan.words / 10, seed, tally)
}

fn second_half(plan: &Plan, seed: u64, tally: &mut Tally) -> Outcome {
    refusals::run(plan.refusals, seed, tally)?;
    without_room::run(plan.refusals / 10, seed, tally)?;
    feeds::run(Composition, plan.streams, seed, tally)?;
    feeds::run(Recovery, plan.streams / 2, seed, tally)?;
    programs::run(plan.programs, seed, tally)?;
    compositions::blocks(plan.blocks, seed, tally)?;
    feeds::blocks(Composition, plan.blocks / 3, seed, tally)?;
    feeds::blocks(Recovery, plan.blocks / 3, seed, tally)?;
    recoveries::run(plan.recoveries, seed, tally)?;
    recoveries::blocks(plan.blocks / 3, seed, tally)
}

fn arguments() -> (Plan, Share, u64) {
    let mut plan = SHORT;
    let mut share = Share::All;
    let mut seed = SystemTime::now().duration_since(UNIX_EPOCH).map_or(0, |since| since.as_secs());
    let mut words = env::args().skip(1);
    while let Some(word) = words.next() {
        match word.as_str() {
            "--long" => plan = LONG,
            "--brief" => plan = BRIEF,
            "--first" => share = Share::First,
            "--second" => share = Share::Second,
            "--seed" => seed = words.next().and_then(|number| number.parse().ok()).unwrap_or_else(|| usage()),
            _ => usage(),
        }
    }
    (plan, share, seed)
}

fn usage() -> ! {
    eprintln!("compare [--long | --brief] [--first | --second] [--seed NUMBER]");
    process::exit(2)
}
