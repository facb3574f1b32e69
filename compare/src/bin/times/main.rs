//! How long ours takes beside the Rust crate: tables on the terminal and in SPEED.md, and a plot, speed.svg. Ours is
//! called through probe with all its checks; the crate stands on this workspace's buffers. Words: FOLDER PLACE EARLIER,
//! the folder to write to, what the program runs on, and a file that keeps the best times from run to run. With --runs in
//! place of the folder, the sections of runs and of recovery alone, to standard output.
mod clock;
mod compositions;
mod conversions;
mod earlier;
mod masks;
mod operations;
mod plot;
mod recoveries;
mod runs;
mod runs_table;
mod table;
mod words;
mod year;

use std::path::Path;
use std::{env, fs, process};

use clock::Kept;
use runs_table::Table;
use table::Part;

fn main() {
    let [folder, place, earlier] = match <[String; 3]>::try_from(env::args().skip(1).collect::<Vec<_>>()) {
        Ok(words) => words,
        Err(_) => {
            stop("three words are needed: the folder to write to, what it runs on, and a file for the best times")
        }
    };
    let earlier = Path::new(&earlier);
    if folder == "--runs" {
        print!("{}", sections(&place, earlier));
        return;
    }
    println!("on {place}; the best of several turns of each");
    let mut parts = timed();
    best(parts.iter_mut().flat_map(|part| &mut part.lines).map(|line| &mut line.times).collect(), earlier);
    let sections = sections(&place, earlier);
    write(&folder, "SPEED.md", &told(&place, &parts, &sections));
    write(&folder, "speed.svg", &plot::drawing(&place, &parts));
}

/// Of runs and of recovery. The times of each are kept in a file of their own.
fn sections(place: &str, earlier: &Path) -> String {
    let mut runs = Table::new("rank mask");
    runs::fill(&mut runs);
    best(runs.sides(), &earlier.with_extension("runs"));
    let mut recovery = Table::new("second mask");
    recoveries::fill(&mut recovery);
    best(recovery.sides(), &earlier.with_extension("recovery"));
    let [runs, recovery] = [("Runs", RUNS, runs), ("Recovery", RECOVERY, recovery)]
        .map(|(title, about, table)| format!("## {title}\n\n{}\n{}", about.replace("PLACE", place), table.markdown()));
    format!("{runs}\n{recovery}")
}

fn best<T: Kept>(lines: Vec<&mut T>, earlier: &Path) {
    if let Err(why) = earlier::best_with_earlier(lines, earlier) {
        stop(&format!("{}: {why}", earlier.display()));
    }
}

fn stop(why: &str) -> ! {
    eprintln!("times: {why}");
    process::exit(1);
}

fn write(folder: &str, name: &str, text: &str) {
    let path = Path::new(folder).join(name);
    if let Err(why) = fs::write(&path, text) {
        stop(&format!("{}: {why}", path.display()));
    }
    println!("wrote {}", path.display());
}

const WORD: &str = "nanoseconds for each 64 rows of self";
const PAIR: [&str; 4] = ["route", "how", "self density", "rank density"];

fn timed() -> Vec<Part> {
    let mut parts = Vec::new();
    let mut part = |title, about, columns, unit, bound, fill: fn(&mut Part)| {
        let mut part = Part::new(title, about, columns, unit, bound);
        fill(&mut part);
        parts.push(part);
    };
    part("Compositions", ALIGNED, &PAIR, WORD, 1.3, compositions::aligned);
    part("Compositions, unaligned", UNALIGNED, &PAIR, WORD, 1.3, compositions::unaligned);
    part("Set operations", OPERATIONS, &["operation", "starts"], WORD, 1.3, operations::operations);
    part("Deposit and select", WORDS, &["function", "mask density"], "nanoseconds for a call", 1.1, |part| {
        words::deposits(part);
        words::selects(part);
    });
    part("The whole year", YEAR, &["forms", "self density", "rank density"], "milliseconds", 1.3, year::year);
    parts
}

const ALIGNED: &str = "\
Blocks of 1,048,576 rows, both masks from bit 0 on, scattered at random. \"Rank density\" is the rank mask's.

What is over the bound, and why: on routes 1 to 3 the crate hands a shared mask on, where ours checks both operands and writes words. A
long list (routes 4 and 5 from a density of 0.25 or so on, routes 7 and 8 with a rank mask of 0.5) is lent as a list, and ours looks at each
entry, to check it and to lay it; the crate's mask has the bits of its list since before the clock started, and where the list is long the
crate goes by these; \"made\" has their making on the clock. At a self density of 0.99 nearly every word has at most two holes, for which the
deposit is short: there the call and the checks weigh, under an emulator more than on a CPU.
";
const UNALIGNED: &str = "The same with words of self from bit 13 on and words of the rank mask from bit 37 on.\n";
const OPERATIONS: &str = "\
Two masks in words of 1,048,576 rows at density 0.5. The crate's loops here are the stand-in's, and it has no BMI2 path. Where both masks begin
on a word, ours is a loop of SSE2 vectors, which an emulator takes one by one, each for the time of several instructions.
";
const WORDS: &str = "\
`boltamber_deposit` and `boltamber_select` of the C library, over 16,384 random inputs, against the crate's `Portable` deposit with its
count and its portable select, which are called and not inlined, as a C library's functions are. Ours answers
any rank.
";
const YEAR: &str = "\
324,979,200 rows in 310 blocks of at most 1,048,576, made one at a time; the best of each block's turns is added up.
";

const RUNS: &str = "\
Masks that are a few long runs, lent as runs: blocks of 1,048,576 rows, timed on PLACE. `compare/run --times-of-runs` times this section
and the next alone. The runs are of about the same length, at random places, and half of the rows are in them, but for short ones as a rank mask, in which a
hundredth of the ranks are, and runs of one row, which are every 64th row.

The bounds: a composition takes at most as long as with the same masks in words; a conversion to words at most twice the time of clearing the
output for 1 and 52 runs, and four times for 1,000; runs of one row each at most twice the time of the same rows as a list. Clearing is the C
library's memset of the same 131,072 bytes, and ours of none. A line over its bound is marked. The crate, where it has the call, gets the words of both
masks, made before the clock starts. To runs has no bound: beside it is the same call to a list.
";

const RECOVERY: &str = "\
From rows back to ranks, in blocks of 1,048,576 rows, timed with the section above, on PLACE. The crate has no such call.

Words beside words: self at each density, and the second mask is what a composition leaves of it with a rank mask in words, of which about half
the ranks are set; beside the recovery is that composition, by route 9 or 10. The bound is 1.3. With runs: self is so many long runs, which hold half of the
rows, and some of its ranks are kept, at density 0.1 or 0.5 or in as many runs; or the second mask is such runs, and self has scattered rows beside
them. A recovery takes at most as long as with the same masks in words.
";

fn told(place: &str, parts: &[Part], sections: &str) -> String {
    let tables: Vec<String> = parts.iter().map(Part::markdown).collect();
    format!("{}\n{}\n{sections}", HEAD.replace("PLACE", place), tables.join("\n"))
}

const HEAD: &str = "\
# How long it takes

`compare/run --times` timed what follows, in one run on PLACE, and wrote this file and the plot.

![ours, portable and BMI2, a panel for each route](speed.svg)

- ours: the proved functions through `probe`, x86-64 code without popcnt, with all checks of both operands, into lent words.
- portable, BMI2: the crate vortex-mask 0.90.0, optimised, without debug assertions, on this repository's stand-ins for its buffers.
  Its masks are made before the clock starts, and anew for each turn, since it keeps lists that it built. It checks nothing, and
  allocates its result.
- made: portable with the making of its masks on the clock, of what ours is lent: a copy of the words and their count, or a copy of the list and
  its bits.
- The sides take turns, and the best of each is told; the ratios are of these. Before the clock starts, all three gave the same rows;
  of the year, in the first block.
- Under an emulator the times are the emulator's. They go by the number of instructions, whatever a CPU makes of them; and PDEP is a
  loop over the mask's bits, so that the BMI2 column tells nothing of a CPU that has it. A loop that happens to lie across two pages of
  memory takes up to a fifth longer there, so the program is linked at four places, and the best of all turns is told.
";
