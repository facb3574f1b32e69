//! Turns on the clock.
use std::hint::black_box;
use std::time::Instant;

/// Seconds of each side, the best of its turns. The crate's BMI2 paths are timed where it and the CPU have them; its portable
/// path with the making of its masks where these are made of what ours is lent.
#[derive(Clone, Copy, Default)]
pub struct Times {
    pub ours: f64,
    pub portable: f64,
    pub bmi2: Option<f64>,
    pub making: Option<f64>,
}

impl Times {
    pub fn scaled(self, factor: f64) -> Times {
        self.with(self, |one, _| one * factor)
    }

    pub fn plus(self, more: Times) -> Times {
        self.with(more, |one, other| one + other)
    }
}

impl Kept for Times {
    fn sides(self) -> [Option<f64>; 4] {
        [Some(self.ours), Some(self.portable), self.bmi2, self.making]
    }

    fn of([ours, portable, bmi2, making]: [Option<f64>; 4]) -> Times {
        Times { ours: ours.expect("ours"), portable: portable.expect("portable"), bmi2, making }
    }
}

/// The times of a line, which can be kept from run to run: up to four sides, none where a side was not timed.
pub trait Kept: Copy {
    fn sides(self) -> [Option<f64>; 4];

    fn of(sides: [Option<f64>; 4]) -> Self;

    fn with(self, other: Self, both: impl Fn(f64, f64) -> f64) -> Self {
        let (one, other) = (self.sides(), other.sides());
        Self::of(std::array::from_fn(|side| one[side].zip(other[side]).map(|(one, other)| both(one, other))))
    }

    /// Of each side the lesser.
    fn least(self, other: Self) -> Self {
        self.with(other, f64::min)
    }
}

/// One turn of a side: it makes ready, and tells the seconds of the call alone.
pub type Turn<'a> = &'a mut dyn FnMut() -> f64;

/// The sides go turn by turn, so that what else the machine does strikes all of them alike.
pub fn best_of(turns: usize, ours: Turn, portable: Turn, mut bmi2: Option<Turn>, mut making: Option<Turn>) -> Times {
    let mut all = || Times {
        ours: ours(),
        portable: portable(),
        bmi2: bmi2.as_mut().map(|turn| turn()),
        making: making.as_mut().map(|turn| turn()),
    };
    let first = all();
    (1..turns).fold(first, |best, _| best.least(all()))
}

/// The least seconds of each side, which go turn by turn too.
pub fn least_of_each(turns: usize, sides: &mut [Turn]) -> Vec<f64> {
    let mut least = vec![f64::INFINITY; sides.len()];
    for _ in 0..turns {
        for (least, side) in least.iter_mut().zip(sides.iter_mut()) {
            *least = least.min(side());
        }
    }
    least
}

/// The seconds of one call. What it gives is dropped off the clock.
pub fn seconds<T>(call: impl FnOnce() -> T) -> f64 {
    let begun = Instant::now();
    let given = black_box(call());
    let seconds = begun.elapsed().as_secs_f64();
    drop(given);
    seconds
}
