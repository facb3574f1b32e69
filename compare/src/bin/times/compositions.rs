//! Compositions by rank: a series for each route over the densities of self, and some of them with unaligned masks.
use compare::answer::{REFUSAL, ROUTE};
use compare::operand::{ALL, LIST, Operand, WORDS};
use compare::ours::LentPair;
use compare::ours::Operation::Composition;
use compare::random::Random;
use compare::rules::{self, LIMIT};
use compare::{ours, theirs};
use switched_std::cpu;

use crate::clock::{Times, best_of, seconds};
use crate::masks::Rows;
use crate::table::{Line, Part};

const TURNS: usize = 9;
pub const DENSITIES: [f64; 11] = [0.005, 0.01, 0.02, 0.04, 0.06, 0.1, 0.25, 0.5, 0.75, 0.9, 0.99];
const DENSITIES_UNALIGNED: [f64; 4] = [0.02, 0.1, 0.5, 0.9];
const STARTS: (u64, u64) = (13, 37); // of self and of the rank mask

/// What a series of pairs is like; self's density goes over a list of densities.
struct Series {
    routes: &'static str,
    how: &'static str,
    forms: (u64, u64),
    ranks: f64,
}

const fn series(routes: &'static str, how: &'static str, forms: (u64, u64), ranks: f64) -> Series {
    Series { routes, how, forms, ranks }
}

const SERIES: [Series; 9] = [
    series("2", "rank mask full: self", (WORDS, WORDS), 1.0),
    series("3", "rank mask empty: no rows", (WORDS, WORDS), 0.0),
    series("4", "self list, rank list", (LIST, LIST), 0.5),
    series("5", "self list, rank words", (LIST, WORDS), 0.5),
    series("6", "mask-driven, rank words", (WORDS, WORDS), 0.01),
    series("6", "mask-driven, rank list", (WORDS, LIST), 0.01),
    series("7, 8", "gathered from a rank list, deposited", (WORDS, LIST), 0.1),
    series("7, 8", "gathered from a long rank list, deposited", (WORDS, LIST), 0.5),
    series("9, 10", "read from rank words, deposited", (WORDS, WORDS), 0.5),
];

pub fn aligned(part: &mut Part) {
    let mut random = Random::new(1, "aligned");
    full_self(part, &mut random);
    for series in &SERIES {
        for density in DENSITIES {
            line(part, series, density, (0, 0), &mut random);
        }
    }
}

/// Route 1 has one density of self only, so the rank mask's goes over the list.
fn full_self(part: &mut Part, random: &mut Random) {
    for ranks in DENSITIES {
        let series = series("1", "self full: the rank mask", (ALL, WORDS), ranks);
        line(part, &series, 1.0, (0, 0), random);
    }
}

pub fn unaligned(part: &mut Part) {
    let mut random = Random::new(1, "unaligned");
    for series in SERIES.iter().filter(|series| ["5", "7, 8", "9, 10"].contains(&series.routes)) {
        for density in DENSITIES_UNALIGNED {
            line(part, series, density, STARTS, &mut random);
        }
    }
}

fn line(part: &mut Part, series: &Series, density: f64, starts: (u64, u64), random: &mut Random) {
    let own = Rows::scattered(LIMIT, density, random);
    let ranks = Rows::scattered(own.count(), series.ranks, random);
    let (a, b) = (own.lent(series.forms.0, starts.0), ranks.lent(series.forms.1, starts.1));
    let route = the_same(&a, &b);
    let over_ranks = series.routes == "1";
    part.add(Line {
        cells: vec![route.to_string(), series.how.to_string(), density.to_string(), series.ranks.to_string()],
        panel: format!("Route {}: {}", series.routes, series.how),
        note: match over_ranks {
            true => "by the rank mask's density".to_string(),
            false => format!("by self's density; rank mask's {}", series.ranks),
        },
        place: if over_ranks { series.ranks } else { density }.to_string(),
        group: route.to_string(),
        times: time(TURNS, &a, &b).scaled(1e9 / (LIMIT / 64) as f64),
    });
}

/// The route, after all three have given the same words and the route was document 01's.
pub fn the_same(a: &Operand, b: &Operand) -> u64 {
    let told = ours::compose(a, b, &vec![0; a.length.div_ceil(64) as usize]).expect("a composition");
    let (own, ranks) = (rules::rows(a), rules::rows(b));
    assert_eq!(told.answer.cells[REFUSAL], 0, "a pair that is timed was refused");
    assert_eq!(told.answer.cells[ROUTE], rules::route(a, &own, b, &ranks), "not document 01's route");
    for bmi2 in [false, true] {
        let given = theirs::composed(&theirs::mask(a), &theirs::mask(b), bmi2);
        assert!(told.out == given.words, "not the crate's rows");
    }
    told.answer.cells[ROUTE]
}

/// Seconds for one composition, ours with all checks of both operands.
pub fn time(turns: usize, a: &Operand, b: &Operand) -> Times {
    let mut lent = LentPair::new(Composition, a, b, &vec![0; a.length.div_ceil(64) as usize]);
    let mut bmi2 = || theirs_once(a, b, true);
    best_of(
        turns,
        &mut || seconds(|| lent.call()),
        &mut || theirs_once(a, b, false),
        cpu::has_bmi2().then_some(&mut bmi2),
        Some(&mut || theirs_made_and_once(a, b)),
    )
}

/// Masks made anew for each turn, since the crate keeps index lists that it built.
pub fn theirs_once(a: &Operand, b: &Operand, bmi2: bool) -> f64 {
    cpu::allow_bmi2(bmi2);
    let (a, b) = (theirs::mask(a), theirs::mask(b));
    seconds(|| a.intersect_by_rank(&b))
}

/// With the making of both masks, of words or of lists as ours is lent them.
fn theirs_made_and_once(a: &Operand, b: &Operand) -> f64 {
    cpu::allow_bmi2(false);
    seconds(|| theirs::mask(a).intersect_by_rank(&theirs::mask(b)))
}
