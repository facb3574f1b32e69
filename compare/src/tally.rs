//! Counts for the table at the end, and progress while a part runs.
use std::time::{Duration, Instant};

#[derive(Default)]
pub struct Tally {
    lines: Vec<(String, u64)>,
}

impl Tally {
    /// A line of the table.
    pub fn add(&mut self, name: &str, cases: u64) {
        self.lines.push((name.to_string(), cases));
    }

    /// A line for each number that occurred: `name 1`, `name 2` and so on.
    pub fn add_each(&mut self, name: &str, cases: &[u64]) {
        for (number, &cases) in cases.iter().enumerate() {
            if cases > 0 {
                self.add(&format!("{name} {number}"), cases);
            }
        }
    }

    pub fn print(&self) {
        println!("{:>12}  what", "cases");
        for (name, cases) in &self.lines {
            println!("{cases:>12}  {name}");
        }
    }
}

/// Tells on standard error how far a part is, every few seconds.
pub struct Progress {
    name: &'static str,
    total: u64,
    done: u64,
    told: Instant,
    begun: Instant,
}

const BETWEEN: Duration = Duration::from_secs(5);

impl Progress {
    pub fn new(name: &'static str, total: u64) -> Self {
        eprintln!("{name}: {total} cases");
        Progress { name, total, done: 0, told: Instant::now(), begun: Instant::now() }
    }

    pub fn step(&mut self) {
        self.done += 1;
        let look = self.done % 256 == 0 || self.total < 10_000;
        if look && self.told.elapsed() > BETWEEN {
            eprintln!("{}: {} of {}", self.name, self.done, self.total);
            self.told = Instant::now();
        }
    }

    pub fn end(self) {
        eprintln!("{}: {} cases in {:.1} s", self.name, self.done, self.begun.elapsed().as_secs_f64());
    }
}
