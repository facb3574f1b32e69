//! Recoveries, from rows back to ranks. The crate has none: document 02 decides, row by row; on one word the published PEXT does too, and
//! the CPU's, where it has one; and there and back again by our own compositions.
use crate::answer::{COUNT, REFUSAL};
use crate::checks::{Outcome, by_the_rules, same, with_input};
use crate::operand::{
    CARRIERS, Operand, RUNS, WORDS, count, fitting_form, in_words, lend, length_around_words, random_rows,
};
use crate::random::Random;
use crate::rules::LIMIT;
use crate::tally::{Progress, Tally};
use crate::words::{mask_word, source_word};
use crate::{ours, rules};

const FORMS: usize = RUNS as usize + 1;

/// How often each mix of self's form and the second mask's was accepted, and how many were refused.
#[derive(Default)]
pub struct Seen {
    mixes: [[u64; FORMS]; FORMS],
    refused: u64,
}

impl Seen {
    pub fn accepted(&self) -> u64 {
        self.mixes.as_flattened().iter().sum()
    }

    fn note(&mut self, a: &Operand, b: &Operand, refusal: u64) {
        match refusal {
            0 => self.mixes[a.form as usize][b.form as usize] += 1,
            _ => self.refused += 1,
        }
    }

    fn tell(&self, tally: &mut Tally) {
        let runs = RUNS as usize;
        tally.add("  of self in runs", self.mixes[runs].iter().sum());
        tally.add("  of a second mask in runs", self.mixes.iter().map(|by_kept| by_kept[runs]).sum());
        tally.add("  refused", self.refused);
    }
}

// ---- in any forms

pub fn run(cases: u64, seed: u64, tally: &mut Tally) -> Outcome {
    let mut random = Random::new(seed, "recoveries");
    let mut progress = Progress::new("recoveries", cases);
    let mut seen = Seen::default();
    for _ in 0..cases {
        let length = length_around_words(&mut random);
        there_and_back(length, &mut seen, &mut random)?;
        progress.step();
    }
    progress.end();
    tally.add("recoveries in every mix of forms, against the documents, and there and back by compositions", cases);
    seen.tell(tally);
    match CARRIERS.iter().all(|&own| CARRIERS.iter().all(|&kept| seen.mixes[own as usize][kept as usize] > 0)) {
        true => Ok(()),
        false => Err(format!("a mix of forms never came, self's by the second mask's: {:?}", seen.mixes)),
    }
}

pub fn blocks(cases: u64, seed: u64, tally: &mut Tally) -> Outcome {
    let mut random = Random::new(seed, "long recoveries");
    let mut progress = Progress::new("recoveries of whole blocks", cases);
    let mut seen = Seen::default();
    for case in 0..cases {
        let length = if case % 2 == 0 { LIMIT } else { random.between(100_000, LIMIT) };
        there_and_back(length, &mut seen, &mut random)?;
        progress.step();
    }
    progress.end();
    tally.add("recoveries of up to 1,048,576 rows", cases);
    seen.tell(tally);
    Ok(())
}

/// Self and a second mask within it, in forms that can carry their rows.
pub fn random_recovery(length: u64, random: &mut Random) -> (Operand, Operand) {
    let own = random_rows(length, random);
    let ranks = random_rows(count(&own), random);
    let kept = rules::laid_back(&own, &ranks);
    (any_form(&own, random), any_form(&kept, random))
}

fn any_form(rows: &[bool], random: &mut Random) -> Operand {
    let form = fitting_form(rows, &CARRIERS, random);
    lend(rows, form, random)
}

/// The call against the documents, whatever it answers; the words that it wrote where it is accepted.
pub fn recover_both(a: &Operand, b: &Operand, seen: &mut Seen, random: &mut Random) -> Outcome<Vec<u64>> {
    let extra = random.below(4);
    let out = random.words(a.length.div_ceil(64) + extra);
    let compared = || {
        let told = ours::recover(a, b, &out)?;
        by_the_rules(&told, &rules::recover(a, b, &out))?;
        Ok(told)
    };
    let told = compared().map_err(|why| with_input(why, "recover", &[a, b], &out))?;
    seen.note(a, b, told.answer.cells[REFUSAL]);
    Ok(told.out)
}

/// Composing self with what was recovered gives the second mask back, and recovering from that composition the same ranks. Once in eight
/// times a row is added that may lie outside self.
fn there_and_back(length: u64, seen: &mut Seen, random: &mut Random) -> Outcome {
    let (a, b) = random_recovery(length, random);
    let recovered = recover_both(&a, &b, seen, random)?;
    back_again(&a, &b, &recovered, random)
        .map_err(|why| with_input(why, "recover, and compose", &[&a, &b], &recovered))?;
    if length > 0 && random.one_in(8) {
        let mut kept = rules::rows(&b);
        kept[random.below(length) as usize] = true;
        recover_both(&a, &any_form(&kept, random), seen, random)?;
    }
    Ok(())
}

fn back_again(a: &Operand, b: &Operand, recovered: &[u64], random: &mut Random) -> Outcome {
    let set = rules::set_count(a);
    let ranks = view(recovered, set);
    let need = a.length.div_ceil(64) as usize;
    let composed = ours::compose(a, &any_form(&rules::rows(&ranks), random), &vec![0; need])?;
    let kept = in_words(&rules::rows(b));
    same("refusal of the composition with what was recovered", composed.answer.cells[REFUSAL], 0)?;
    same("the second mask, composed again", &composed.out, &kept.words)?;
    same("its count", composed.answer.cells[COUNT], kept.claimed)?;
    let again = ours::recover(a, &view(&composed.out, a.length), &vec![0; set.div_ceil(64) as usize])?;
    same("the ranks, recovered again", &again.out, &ranks.words)
}

/// The words of so many rows from bit 0 on.
fn view(words: &[u64], length: u64) -> Operand {
    let words = words[..length.div_ceil(64) as usize].to_vec();
    let mut operand = Operand { form: WORDS, length, start: 0, claimed: 0, words, rows: Vec::new() };
    operand.claimed = rules::set_count(&operand);
    operand
}

// ---- of one word

pub fn words(cases: u64, seed: u64, tally: &mut Tally) -> Outcome {
    let mut random = Random::new(seed, "recoveries of a word");
    let mut progress = Progress::new("recoveries of a word", cases);
    let mut by_cpu = 0;
    for case in 0..cases {
        let count = (case % 65) as u32;
        let (mask, source) = (mask_word(count, &mut random), source_word(64, &mut random));
        let input = |why| format!("{why}\n  recovery of {:#x} from self {mask:#x}", source & mask);
        by_cpu += one_word(source, mask).map_err(input)?;
        progress.step();
    }
    progress.end();
    tally.add("recoveries of a word against the published PEXT", cases);
    tally.add("  of these against the CPU's PEXT", by_cpu);
    Ok(())
}

/// 1 where the CPU was asked too.
fn one_word(source: u64, mask: u64) -> Outcome<u64> {
    let published = rules::published_pext(source, mask);
    let told = ours::recover(&view(&[mask], 64), &view(&[source & mask], 64), &[source])?;
    same("refusal", told.answer.cells[REFUSAL], 0)?;
    if mask == 0 {
        same("no word is written", told.out[0], source)?;
    } else {
        same("against the published PEXT", told.out[0], published)?;
    }
    match cpu_pext(source, mask) {
        None => Ok(0),
        Some(by_cpu) => same("the published PEXT against the CPU's", published, by_cpu).map(|()| 1),
    }
}

#[cfg(target_arch = "x86_64")]
fn cpu_pext(source: u64, mask: u64) -> Option<u64> {
    #[target_feature(enable = "bmi2")]
    fn pext(source: u64, mask: u64) -> u64 {
        std::arch::x86_64::_pext_u64(source, mask)
    }
    // SAFETY: the CPU, or its emulator, has the instruction.
    std::arch::is_x86_feature_detected!("bmi2").then(|| unsafe { pext(source, mask) })
}

#[cfg(not(target_arch = "x86_64"))]
fn cpu_pext(_source: u64, _mask: u64) -> Option<u64> {
    None
}
