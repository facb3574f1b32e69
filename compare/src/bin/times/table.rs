//! What was timed as lines of tables: on the terminal as they come, and in docs/SPEED.md.
use crate::clock::Times;

/// One line of a table, and where it stands in the plot.
pub struct Line {
    /// What was timed, under the part's own columns.
    pub cells: Vec<String>,
    pub panel: String,
    pub note: String,
    /// The place on the panel's axis.
    pub place: String,
    /// Lines of one group are joined in the plot.
    pub group: String,
    pub times: Times,
}

pub struct Part {
    pub title: &'static str,
    pub about: String,
    pub columns: &'static [&'static str],
    pub unit: &'static str,
    /// Lines whose ratio to the crate's portable path is over this are marked.
    pub bound: f64,
    pub lines: Vec<Line>,
}

impl Part {
    /// Begins on the terminal too.
    pub fn new(
        title: &'static str,
        about: &str,
        columns: &'static [&'static str],
        unit: &'static str,
        bound: f64,
    ) -> Part {
        let part = Part { title, about: about.to_string(), columns, unit, bound, lines: Vec::new() };
        println!("\n{title}, {unit}");
        println!("{}", padded(&part.head(), &part.head()));
        part
    }

    pub fn add(&mut self, line: Line) {
        println!("{}", padded(&self.head(), &self.row(&line)));
        self.lines.push(line);
    }

    fn head(&self) -> Vec<String> {
        let numbers = ["ours", "portable", "BMI2", "made", "ours/portable", "ours/BMI2", "ours/made", "mark"];
        self.columns.iter().chain(&numbers).map(|name| name.to_string()).collect()
    }

    fn row(&self, line: &Line) -> Vec<String> {
        let Times { ours, portable, bmi2, making } = line.times;
        let sides = [Some(portable), bmi2, making];
        let told = |side: Option<f64>, tell: fn(f64) -> String| side.map_or("-".to_string(), tell);
        let mut row = line.cells.clone();
        row.push(number(ours));
        row.extend(sides.map(|side| told(side, number)));
        row.extend(sides.map(|side| told(side.map(|side| ours / side), ratio)));
        row.push(if self.is_over(line) { format!("over {}", self.bound) } else { String::new() });
        row
    }

    fn is_over(&self, line: &Line) -> bool {
        line.times.ours / line.times.portable > self.bound
    }

    pub fn markdown(&self) -> String {
        let over = self.lines.iter().filter(|line| self.is_over(line)).count();
        let head = self.head();
        let under: Vec<String> = (0..head.len()).map(|i| alignment(i, self.columns.len()).to_string()).collect();
        let rows = self.lines.iter().map(|line| self.row(line));
        let table: Vec<String> =
            [head, under].into_iter().chain(rows).map(|cells| format!("| {} |", cells.join(" | "))).collect();
        let counted = format!("{over} of {} lines are over {}.", self.lines.len(), self.bound);
        format!("## {}\n\n{}\nTimes are {}. {counted}\n\n{}\n", self.title, self.about, self.unit, table.join("\n"))
    }
}

/// What was timed stands to the left, and the numbers to the right.
fn alignment(column: usize, columns: usize) -> &'static str {
    if column < columns { "---" } else { "--:" }
}

pub fn ratio(value: f64) -> String {
    if value >= 99.995 { format!("{value:.0}") } else { format!("{value:.2}") }
}

/// Three digits that count.
pub fn number(value: f64) -> String {
    match value {
        v if v >= 99.95 => format!("{v:.0}"),
        v if v >= 9.995 => format!("{v:.1}"),
        v if v >= 0.9995 => format!("{v:.2}"),
        v => format!("{v:.3}"),
    }
}

const TEXTS: [&str; 2] = ["how", "forms"]; // columns of words, to the left

/// For the terminal.
fn padded(head: &[String], cells: &[String]) -> String {
    let pad = |(name, text): (&String, &String)| match TEXTS.contains(&name.as_str()) {
        true => format!("{text:<41}"),
        false => format!("{text:>13}"),
    };
    head.iter().zip(cells).map(pad).collect::<Vec<_>>().join(" ")
}
