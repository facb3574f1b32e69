//! The plot: a panel for each series of lines, times on a logarithmic scale. SVG is text, so it is written as such.
use crate::table::{Line, Part};

const COLUMNS: usize = 3;
const PANEL: (f64, f64) = (348.0, 236.0); // width and height, with the space between panels
const EDGE: (f64, f64) = (46.0, 14.0); // of the field inside a panel: left, right
const FIELD: (f64, f64) = (46.0, 196.0); // its top and bottom
const TOP: f64 = 84.0;

const SIDES: [(&str, &str); 4] = [
    ("ours", "ours: proved, with all checks"),
    ("portable", "the crate's portable paths"),
    ("bmi2", "its BMI2 paths, where it has them"),
    ("made", "portable, with its masks made"),
];

const STYLE: &str = "
    text { font-family: Helvetica, Arial, sans-serif; fill: #222; }
    .title { font-size: 20px; font-weight: bold; }
    .panel { font-size: 13px; font-weight: bold; }
    .note { font-size: 11px; fill: #555; }
    .legend { font-size: 13px; }
    .tick { font-size: 10.5px; fill: #555; }
    .time { text-anchor: end; }
    .place { text-anchor: middle; }
    .grid { stroke: #e2e2e2; stroke-width: 1; }
    .frame { fill: none; stroke: #999; stroke-width: 1; }
    .change { stroke: #999; stroke-width: 1; stroke-dasharray: 3 3; }
    polyline { fill: none; stroke-width: 2; }
    polyline.ours { stroke: #1f5fa8; }
    polyline.portable { stroke: #b3541e; }
    polyline.bmi2 { stroke: #5d7f2f; stroke-dasharray: 5 3; }
    polyline.made { stroke: #777; stroke-width: 1.5; stroke-dasharray: 2 3; }
    .mark { stroke: #fff; stroke-width: 0.8; }
    .mark.ours { fill: #1f5fa8; }
    .mark.portable { fill: #b3541e; }
    .mark.bmi2 { fill: #5d7f2f; }
    .mark.made { fill: #777; }
";

pub fn drawing(place: &str, parts: &[Part]) -> String {
    let panels = panels(parts);
    let width = COLUMNS as f64 * PANEL.0 + 16.0;
    let height = TOP + panels.len().div_ceil(COLUMNS) as f64 * PANEL.1;
    let mut svg = vec![
        format!(
            r#"<svg xmlns="http://www.w3.org/2000/svg" width="{width}" height="{height}" viewBox="0 0 {width} {height}" role="img">"#
        ),
        "<title>How long ours takes beside the Rust crate, by route and density</title>".to_string(),
        format!("<style>{STYLE}</style>"),
        format!(r##"<rect x="0" y="0" width="{width}" height="{height}" fill="#fff"/>"##),
        text("title", 16.0, 30.0, "Nanoseconds for each 64 rows of self, where a panel says nothing else"),
    ];
    svg.extend(legend(place));
    for (i, lines) in panels.iter().enumerate() {
        let corner = (8.0 + (i % COLUMNS) as f64 * PANEL.0, TOP + (i / COLUMNS) as f64 * PANEL.1);
        svg.extend(Panel::new(corner, lines).drawn());
    }
    svg.push("</svg>\n".to_string());
    svg.join("\n")
}

/// Lines with the same panel stand one after the other. The unaligned compositions are in the table only.
fn panels(parts: &[Part]) -> Vec<Vec<&Line>> {
    let lines = parts.iter().filter(|part| !part.title.ends_with("unaligned")).flat_map(|part| &part.lines);
    let mut panels: Vec<Vec<&Line>> = Vec::new();
    for line in lines {
        match panels.last_mut() {
            Some(panel) if panel[0].panel == line.panel => panel.push(line),
            _ => panels.push(vec![line]),
        }
    }
    panels
}

fn legend(place: &str) -> Vec<String> {
    let mut svg = Vec::new();
    let mut x = 16.0;
    for (class, name) in SIDES {
        svg.push(format!(r#"<polyline class="{class}" points="{x},54 {},54"/>"#, x + 30.0));
        svg.push(mark(class, x + 15.0, 54.0));
        svg.push(text("legend", x + 37.0, 58.0, name));
        x += 60.0 + 6.6 * name.len() as f64;
    }
    svg.push(text("note", 16.0, 76.0, &format!("on {place}")));
    svg
}

/// One panel: where it stands, its lines, and the ends of its scale.
struct Panel<'a> {
    corner: (f64, f64),
    lines: &'a [&'a Line],
    ends: (f64, f64),
}

impl<'a> Panel<'a> {
    fn new(corner: (f64, f64), lines: &'a [&'a Line]) -> Self {
        let times = || (0..SIDES.len()).flat_map(|side| lines.iter().filter_map(move |line| time(line, side)));
        let (least, most) = (times().fold(f64::MAX, f64::min), times().fold(0.0, f64::max));
        let low = steps(&[1.0, 2.0, 5.0]).rfind(|&step| step <= 0.9 * least);
        let high = steps(&[1.0, 2.0, 5.0]).find(|&step| step >= 1.1 * most);
        Panel { corner, lines, ends: (low.unwrap_or(least), high.unwrap_or(most)) }
    }

    fn drawn(&self) -> Vec<String> {
        let (left, top) = self.corner;
        let mut svg = vec![
            text("panel", left + 8.0, top + 20.0, &self.lines[0].panel),
            text("note", left + 8.0, top + 36.0, &self.lines[0].note),
        ];
        svg.extend(self.scale());
        svg.extend(self.places());
        let (width, height) = (PANEL.0 - EDGE.0 - EDGE.1, FIELD.1 - FIELD.0);
        let (x, y) = (left + EDGE.0, top + FIELD.0);
        svg.push(format!(r#"<rect class="frame" x="{x}" y="{y}" width="{width}" height="{height}"/>"#));
        // ours last, so that it lies over the others
        for side in (0..SIDES.len()).rev() {
            svg.extend(self.side(side));
        }
        svg
    }

    fn x(&self, i: usize) -> f64 {
        let width = PANEL.0 - EDGE.0 - EDGE.1;
        self.corner.0 + EDGE.0 + width * (i as f64 + 0.5) / self.lines.len() as f64
    }

    fn y(&self, time: f64) -> f64 {
        let (low, high) = self.ends;
        let part = (time / low).ln() / (high / low).ln();
        self.corner.1 + FIELD.1 - part * (FIELD.1 - FIELD.0)
    }

    /// A line and a number at each decade; at 2 and 5 of it too where there are few decades.
    fn scale(&self) -> Vec<String> {
        let (low, high) = self.ends;
        let of_a_decade: &[f64] = if high / low <= 500.0 { &[1.0, 2.0, 5.0] } else { &[1.0] };
        let left = self.corner.0 + EDGE.0;
        let right = self.corner.0 + PANEL.0 - EDGE.1;
        let line = |time: f64| {
            let y = self.y(time);
            let grid = format!(r#"<line class="grid" x1="{left}" y1="{y:.1}" x2="{right}" y2="{y:.1}"/>"#);
            grid + &text("tick time", left - 5.0, y + 3.5, &shown(time))
        };
        steps(of_a_decade).filter(|&time| 0.999 * low <= time && time <= 1.001 * high).map(line).collect()
    }

    /// What stands under the axis, and where one route ends and the next begins.
    fn places(&self) -> Vec<String> {
        let (top, bottom) = (self.corner.1 + FIELD.0, self.corner.1 + FIELD.1);
        let mut svg = Vec::new();
        for (i, line) in self.lines.iter().enumerate() {
            svg.push(text("tick place", self.x(i), bottom + 15.0, line.place.trim_start_matches('0')));
            if self.is_change(i) && self.is_joined() {
                let x = (self.x(i - 1) + self.x(i)) / 2.0;
                svg.push(format!(r#"<line class="change" x1="{x:.1}" y1="{top}" x2="{x:.1}" y2="{bottom}"/>"#));
                svg.push(text("tick time", x - 4.0, bottom - 6.0, &format!("route {}", self.lines[i - 1].group)));
                svg.push(text("tick", x + 4.0, bottom - 6.0, &format!("route {}", line.group)));
            }
        }
        svg
    }

    fn is_change(&self, i: usize) -> bool {
        i > 0 && self.lines[i - 1].group != self.lines[i].group
    }

    /// Not where each line is a group of its own.
    fn is_joined(&self) -> bool {
        (1..self.lines.len()).any(|i| !self.is_change(i))
    }

    fn side(&self, side: usize) -> Vec<String> {
        let class = SIDES[side].0;
        let mut runs: Vec<Vec<(f64, f64)>> = Vec::new();
        for (i, line) in self.lines.iter().enumerate() {
            let Some(time) = time(line, side) else { continue };
            if runs.is_empty() || self.is_change(i) {
                runs.push(Vec::new());
            }
            runs.last_mut().unwrap().push((self.x(i), self.y(time)));
        }
        let joined = runs.iter().filter(|run| run.len() > 1).map(|run| {
            let points: Vec<String> = run.iter().map(|(x, y)| format!("{x:.1},{y:.1}")).collect();
            format!(r#"<polyline class="{class}" points="{}"/>"#, points.join(" "))
        });
        joined.chain(runs.iter().flatten().map(|&(x, y)| mark(class, x, y))).collect()
    }
}

/// The places of a scale, ascending.
fn steps(of_a_decade: &[f64]) -> impl DoubleEndedIterator<Item = f64> {
    (-5..7).flat_map(move |decade| of_a_decade.iter().map(move |step| step * 10f64.powi(decade)))
}

fn time(line: &Line, side: usize) -> Option<f64> {
    // what is too short for the clock stands at a ten-thousandth
    let on_scale = |time: f64| time.max(1e-4);
    [Some(line.times.ours), Some(line.times.portable), line.times.bmi2, line.times.making][side].map(on_scale)
}

/// A mark of its own for each side, so that colour is not needed to tell them apart.
fn mark(class: &str, x: f64, y: f64) -> String {
    match class {
        "ours" => format!(r#"<circle class="mark {class}" cx="{x:.1}" cy="{y:.1}" r="4"/>"#),
        "portable" => {
            let (x, y) = (x - 3.5, y - 3.5);
            format!(r#"<rect class="mark {class}" x="{x:.1}" y="{y:.1}" width="7" height="7"/>"#)
        }
        "made" => {
            let (left, right, low, high) = (x - 3.5, x + 3.5, y + 3.5, y - 3.5);
            format!(
                r#"<path class="mark {class}" d="M {left:.1} {y:.1} L {x:.1} {high:.1} L {right:.1} {y:.1} L {x:.1} {low:.1} z"/>"#
            )
        }
        _ => {
            let (left, right, low, high) = (x - 4.5, x + 4.5, y + 4.0, y - 4.5);
            format!(
                r#"<path class="mark {class}" d="M {left:.1} {low:.1} L {right:.1} {low:.1} L {x:.1} {high:.1} z"/>"#
            )
        }
    }
}

fn shown(time: f64) -> String {
    if time >= 1.0 { format!("{time:.0}") } else { format!("{}", (time * 1e4).round() / 1e4) }
}

fn text(class: &str, x: f64, y: f64, text: &str) -> String {
    let safe = text.replace('&', "&amp;").replace('<', "&lt;");
    format!(r#"<text class="{class}" x="{x:.1}" y="{y:.1}">{safe}</text>"#)
}
