//! The parts of the comparison, for the programs `compare`, `times` and `record`.

pub mod answer;
pub mod checks;
pub mod compositions;
pub mod examples;
pub mod feeds;
pub mod given;
pub mod lent;
#[cfg(feature = "mirror")]
#[rustfmt::skip] // an operand's eight parts stay together
pub mod mirror;
pub mod operand;
#[rustfmt::skip] // as mirror
pub mod ours;
pub mod probe;
pub mod programs;
pub mod random;
pub mod recoveries;
pub mod refusals;
pub mod rules;
pub mod sample;
pub mod sets;
pub mod small;
pub mod tally;
pub mod telling;
pub mod theirs;
pub mod without_room;
pub mod words;
