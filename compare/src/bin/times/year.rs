//! A year of rows, block by block.
use compare::operand::{LIST, WORDS};
use compare::random::Random;
use compare::rules::LIMIT;

use crate::clock::Times;
use crate::compositions::{the_same, time};
use crate::masks::Rows;
use crate::table::{Line, Part};

pub const ROWS: u64 = 6_200 * 52 * 7 * 24 * 6; // nodes, weeks, days, hours, samples an hour
const TURNS: usize = 2; // of each block: its best is added

/// What self and the rank mask are like in every block.
struct Mix {
    name: &'static str,
    place: &'static str,
    forms: (u64, u64),
    densities: (f64, f64),
}

const MIXES: [Mix; 3] = [
    Mix { name: "self words, rank words", place: "words .3, words .2", forms: (WORDS, WORDS), densities: (0.3, 0.2) },
    Mix { name: "self list, rank words", place: "list .02, words .5", forms: (LIST, WORDS), densities: (0.02, 0.5) },
    Mix { name: "self words, rank list", place: "words .9, list .1", forms: (WORDS, LIST), densities: (0.9, 0.1) },
];

pub fn blocks() -> u64 {
    ROWS.div_ceil(LIMIT)
}

pub fn year(part: &mut Part) {
    for mix in &MIXES {
        let mut random = Random::new(1, "year");
        let seconds = (0..blocks()).fold(None, |sum: Option<Times>, block| {
            let times = one_block(mix, block, &mut random);
            Some(sum.map_or(times, |sum| sum.plus(times)))
        });
        let (own, ranks) = mix.densities;
        part.add(Line {
            cells: vec![mix.name.to_string(), own.to_string(), ranks.to_string()],
            panel: format!("The whole year, {} blocks", blocks()),
            note: "milliseconds; forms and densities of self, rank mask".to_string(),
            place: mix.place.to_string(),
            group: mix.name.to_string(),
            times: seconds.unwrap_or_default().scaled(1e3),
        });
    }
}

/// A block is made, timed and dropped before the next, so that one block's memory is enough.
fn one_block(mix: &Mix, block: u64, random: &mut Random) -> Times {
    let length = (ROWS - block * LIMIT).min(LIMIT);
    let own = Rows::scattered(length, mix.densities.0, random);
    let ranks = Rows::scattered(own.count(), mix.densities.1, random);
    let (a, b) = (own.lent(mix.forms.0, 0), ranks.lent(mix.forms.1, 0));
    if block == 0 {
        the_same(&a, &b);
    }
    time(TURNS, &a, &b)
}
