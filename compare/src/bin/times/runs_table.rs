//! The tables of runs and of recovery: a call of ours beside another, and the bound that the pair is held to.
use crate::clock::Kept;
use crate::table::{number, ratio};

/// Seconds of a call, of what stands beside it, and of the crate where it has such a call.
#[derive(Clone, Copy)]
pub struct Sides {
    pub ours: f64,
    pub beside: f64,
    pub portable: Option<f64>,
    pub bmi2: Option<f64>,
}

impl Sides {
    pub fn of_ours(ours: f64, beside: f64) -> Sides {
        Sides { ours, beside, portable: None, bmi2: None }
    }
}

impl Kept for Sides {
    fn sides(self) -> [Option<f64>; 4] {
        [Some(self.ours), Some(self.beside), self.portable, self.bmi2]
    }

    fn of([ours, beside, portable, bmi2]: [Option<f64>; 4]) -> Sides {
        Sides { ours: ours.expect("ours"), beside: beside.expect("what stands beside"), portable, bmi2 }
    }
}

struct Line {
    /// The call, self or the one operand, the second one.
    cells: Vec<String>,
    beside: &'static str,
    bound: Option<f64>,
    sides: Sides,
}

/// With the name of its lines' second operand.
pub struct Table {
    second: &'static str,
    lines: Vec<Line>,
}

const HEAD: [&str; 11] =
    ["call", "self", "SECOND", "beside", "ours", "beside it", "ratio", "at most", "mark", "portable", "BMI2"];
const TEXTS: usize = 4; // columns of words, to the left

impl Table {
    pub fn new(second: &'static str) -> Self {
        Table { second, lines: Vec::new() }
    }

    /// The line is told on standard error too, as it comes: standard output may be for the table alone.
    pub fn add(&mut self, cells: Vec<String>, beside: &'static str, bound: Option<f64>, sides: Sides) {
        let line = Line { cells, beside, bound, sides };
        eprintln!("{}", line.row().join("  "));
        self.lines.push(line);
    }

    pub fn sides(&mut self) -> Vec<&mut Sides> {
        self.lines.iter_mut().map(|line| &mut line.sides).collect()
    }

    /// How many lines are over their bound, and the table.
    pub fn markdown(&self) -> String {
        let bounded = self.lines.iter().filter(|line| line.bound.is_some()).count();
        let over = self.lines.iter().filter(|line| line.is_over()).count();
        let counted = format!("{over} of the {bounded} lines with a bound are over it.");
        let under = (0..HEAD.len()).map(|i| if i < TEXTS { "---" } else { "--:" }.to_string()).collect();
        let head = HEAD.map(|name| name.replace("SECOND", self.second)).to_vec();
        let rows = self.lines.iter().map(Line::row);
        let table: Vec<String> =
            [head, under].into_iter().chain(rows).map(|cells| format!("| {} |", cells.join(" | "))).collect();
        format!("Times are microseconds for a call. {counted}\n\n{}\n", table.join("\n"))
    }
}

impl Line {
    fn row(&self) -> Vec<String> {
        let Sides { ours, beside, portable, bmi2 } = self.sides;
        let microseconds = |side: Option<f64>| side.map_or("-".to_string(), |side| number(side * 1e6));
        let mut row = self.cells.clone();
        row.extend([self.beside.to_string(), microseconds(Some(ours)), microseconds(Some(beside))]);
        row.extend([ratio(ours / beside), self.bound.map_or("-".to_string(), |bound| bound.to_string())]);
        row.push(if self.is_over() { "over".to_string() } else { String::new() });
        row.extend([microseconds(portable), microseconds(bmi2)]);
        row
    }

    fn is_over(&self) -> bool {
        self.bound.is_some_and(|bound| self.sides.ours / self.sides.beside > bound)
    }
}
