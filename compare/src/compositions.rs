//! Compositions, and whole blocks: against the crate on its portable and its BMI2 paths, and against document 01.
use switched_std::cpu;
use vortex_mask_inside::private;

use crate::answer::{COUNT, ROUTE};
use crate::checks::{Outcome, asked, by_the_crate, by_the_rules, same, with_input};
use crate::given::Given;
use crate::operand::{CARRIERS, Operand, RUNS, count, fitting_form, lend, length_around_words, random_rows};
use crate::ours::Told;
use crate::random::Random;
use crate::rules::LIMIT;
use crate::tally::{Progress, Tally};
use crate::{ours, rules, theirs};

/// How often each route was told, from 0 to 10, how often each mix of self's form and the rank mask's came, and how often
/// the crate went each of its own ways.
#[derive(Default)]
pub struct Seen {
    routes: [u64; 11],
    mixes: [[u64; FORMS]; FORMS],
    paths: [u64; theirs::PATHS.len()],
    by_kernel: u64,
}

const FORMS: usize = RUNS as usize + 1;

impl Seen {
    pub fn cases(&self) -> u64 {
        self.routes.iter().sum()
    }

    fn tell(&self, tally: &mut Tally) {
        let runs = RUNS as usize;
        tally.add("  of self in runs", self.mixes[runs].iter().sum());
        tally.add("  of a rank mask in runs", self.mixes.iter().map(|by_ranks| by_ranks[runs]).sum());
        tally.add("  of both in runs", self.mixes[runs][runs]);
        tally.add_each("  of route", &self.routes);
        for (name, &cases) in theirs::PATHS.iter().zip(&self.paths) {
            tally.add(&format!("  the crate's own way: {name}"), cases);
        }
    }

    fn tell_kernels(&self, tally: &mut Tally) {
        tally.add(
            "  also against every kernel of the crate, portable and BMI2, whichever it would choose",
            self.by_kernel,
        );
    }

    fn everything_occurred(&self) -> Outcome {
        if let Some(missing) = self.routes[1..].iter().position(|&cases| cases == 0) {
            return Err(format!("no composition took route {}", missing + 1));
        }
        if let Some(missing) = self.paths.iter().position(|&cases| cases == 0) {
            return Err(format!("the crate never went by {}", theirs::PATHS[missing]));
        }
        match self.mixes.as_flattened().iter().all(|&cases| cases > 0) {
            true => Ok(()),
            false => Err(format!("a mix of forms never came, self's by the rank mask's: {:?}", self.mixes)),
        }
    }
}

pub fn run(cases: u64, seed: u64, tally: &mut Tally) -> Outcome {
    let mut random = Random::new(seed, "compositions");
    let mut progress = Progress::new("compositions", cases);
    let mut seen = Seen::default();
    let mut of_length_0 = 0;
    for _ in 0..cases {
        let length = length_around_words(&mut random);
        let (a, b) = random_pair(length, &mut random);
        compose_both(&a, &b, &mut seen, &mut random)?;
        of_length_0 += u64::from(length == 0);
        progress.step();
    }
    progress.end();
    tally.add("compositions against the crate's portable paths", cases);
    tally.add("compositions against the crate's BMI2 paths", if cpu::has_bmi2() { cases } else { 0 });
    tally.add("  of length 0: their density left out against the crate", of_length_0);
    seen.tell_kernels(tally);
    seen.tell(tally);
    seen.everything_occurred()
}

pub fn blocks(cases: u64, seed: u64, tally: &mut Tally) -> Outcome {
    let mut random = Random::new(seed, "blocks");
    let mut progress = Progress::new("whole blocks", cases);
    let mut seen = Seen::default();
    for case in 0..cases {
        let length = match case % 3 {
            0 => LIMIT,
            1 => LIMIT - random.below(130),
            _ => random.between(100_000, LIMIT),
        };
        let (a, b) = random_pair(length, &mut random);
        compose_both(&a, &b, &mut seen, &mut random)?;
        progress.step();
    }
    progress.end();
    tally.add("whole blocks of up to 1,048,576 rows, against both paths of the crate", cases);
    seen.tell(tally);
    Ok(())
}

/// Self, and a rank mask as long as self's count, in forms that can carry their rows.
pub fn random_pair(length: u64, random: &mut Random) -> (Operand, Operand) {
    let own = random_rows(length, random);
    let ranks = random_rows(count(&own), random);
    let (own_form, rank_form) = (fitting_form(&own, &CARRIERS, random), fitting_form(&ranks, &CARRIERS, random));
    (lend(&own, own_form, random), lend(&ranks, rank_form, random))
}

pub fn compose_both(a: &Operand, b: &Operand, seen: &mut Seen, random: &mut Random) -> Outcome {
    let extra = random.below(4);
    let out = random.words(a.length.div_ceil(64) + extra);
    let cached = (random.one_in(4), random.one_in(4));
    let kernels_too = random.one_in(4);
    one_composition(a, b, &out, cached, kernels_too, seen).map_err(|why| with_input(why, "compose", &[a, b], &out))
}

fn one_composition(
    a: &Operand,
    b: &Operand,
    out: &[u64],
    cached: (bool, bool),
    kernels_too: bool,
    seen: &mut Seen,
) -> Outcome {
    let told = ours::compose(a, b, out)?;
    by_the_rules(&told, &rules::compose(a, b, out))?;
    let (path, given) = asked(|| crate_composes(a, b, cached, false))?;
    seen.paths[path] += 1;
    by_the_crate("the crate's portable paths", &told, &given, a.length)?;
    if cpu::has_bmi2() {
        let (_, given) = asked(|| crate_composes(a, b, cached, true))?;
        by_the_crate("the crate's BMI2 paths", &told, &given, a.length)?;
    }
    if kernels_too {
        by_every_kernel(a, b, &told)?;
        seen.by_kernel += 1;
    }
    seen.routes[told.answer.cells[ROUTE] as usize] += 1;
    seen.mixes[a.form as usize][b.form as usize] += 1;
    Ok(())
}

fn by_every_kernel(a: &Operand, b: &Operand, told: &Told<u64>) -> Outcome {
    let (own, ranks) = (theirs::mask(a).to_bit_buffer(), theirs::mask(b).to_bit_buffer());
    let need = a.length.div_ceil(64) as usize;
    let mut kernels = asked(|| private::portable_kernels(&own, &ranks))?;
    kernels.extend(asked(|| private::bmi2_kernels(&own, &ranks))?);
    for kernel in kernels {
        same(&format!("the crate's kernel {}, words", kernel.name), &told.out[..need], &kernel.words[..])?;
        same(&format!("the crate's kernel {}, count", kernel.name), told.answer.cells[COUNT], kernel.count as u64)?;
    }
    Ok(())
}

/// Masks made anew, since the crate keeps index lists that it built; `cached` says for which it has one beforehand.
fn crate_composes(a: &Operand, b: &Operand, cached: (bool, bool), bmi2: bool) -> (usize, Given) {
    let (a, b) = (theirs::mask(a), theirs::mask(b));
    if cached.0 {
        theirs::cache_indices(&a);
    }
    if cached.1 {
        theirs::cache_indices(&b);
    }
    (theirs::path(&a, &b), theirs::composed(&a, &b, bmi2))
}
