//! Where the Rust crate, as it is shipped, and ours differ: each difference of docs/DIFFERENCES.md that a run can show, on its smallest
//! input. Both answers are written out here from the documents and the crate's text, and held to what each gives.
use std::panic;
use std::process::ExitCode;

use compare::answer::{REFUSAL, ROUTE, WORD};
use compare::checks::asked;
use compare::operand::{ALL, LIST, NONE, Operand, WORDS};
use compare::ours::Told;
use compare::probe::boltamber_select;
use compare::theirs::{PATHS, cache_indices, mask, path};
use compare::{lent::Lent, ours};
use vortex_buffer::BitBuffer;
use vortex_mask::Mask;
use vortex_mask_inside::private;

struct Difference {
    input: &'static str,
    ours: &'static str,
    ours_gives: String,
    theirs: &'static str,
    theirs_gives: String,
}

fn main() -> ExitCode {
    panic::set_hook(Box::new(|_| ())); // a panic of the crate's is an answer here
    let mut bad = false;
    for found in words().into_iter().chain(masks()).chain(operations()).chain(routes()) {
        let Difference { input, ours, ours_gives, theirs, theirs_gives } = found;
        println!("{input}: ours {ours_gives}; the crate {theirs_gives}");
        if ours_gives != ours || theirs_gives != theirs {
            println!("  NOT AS TOLD: ours {ours}; the crate {theirs}");
            bad = true;
        }
    }
    ExitCode::from(u8::from(bad))
}

fn words() -> [Difference; 4] {
    let word = |answer: Result<_, String>| {
        told(answer.map(|answer| Told::<u64> { answer, out: vec![] }), |t| format!("word {}", t.answer.cells[WORD]))
    };
    let mut lent = Lent::new(&[1]);
    [
        Difference {
            input: "deposit of source 0 into mask 0, claimed count 1",
            ours: "refusal 4",
            ours_gives: word(ours::deposit(0, 0, 0, 1)),
            theirs: "word 0",
            theirs_gives: format!("word {}", private::claiming_deposit(0, 0, 1)),
        },
        Difference {
            input: "deposit of source 4 into mask 7, claimed count 0",
            ours: "refusal 4",
            ours_gives: word(ours::deposit(0, 4, 7, 0)),
            theirs: "word 0, where PDEP gives 4",
            theirs_gives: format!(
                "word {}, where PDEP gives {}",
                private::claiming_deposit(4, 7, 0),
                private::loop_deposit(4, 7)
            ),
        },
        Difference {
            input: "select in word 0 at rank 0",
            ours: "refusal 9, and 64 from the C library",
            ours_gives: format!("{}, and {} from the C library", word(ours::select(0, 0)), boltamber_select(0, 0)),
            theirs: "position 0",
            theirs_gives: format!("position {}", private::portable_select(0, 0)),
        },
        Difference {
            input: "rank read of word 1, start 1, offset 2^64 - 1",
            ours: "word 0",
            ours_gives: word(ours::rank_read(&mut lent, 1, u64::MAX)),
            theirs: "word 1",
            theirs_gives: crate_gives(|| {
                format!("word {}", private::rank_read(&BitBuffer::from_words(&[1], 1, 63), usize::MAX))
            }),
        },
    ]
}

fn masks() -> [Difference; 5] {
    let density = |t: &Told<u64>| format!("density {:?}", f64::from_bits(t.answer.density));
    [
        Difference {
            input: "all of length 0",
            ours: "density 0.0",
            ours_gives: told(ours::to_words(&all(0), &[]), density),
            theirs: "density 1.0",
            theirs_gives: crate_gives(|| format!("density {:?}", mask(&all(0)).density())),
        },
        Difference {
            input: "all of length 1048577",
            ours: "refusal 1",
            ours_gives: told(ours::to_words(&all(1_048_577), &[]), density),
            theirs: "count 1048577",
            theirs_gives: counted(&all(1_048_577)),
        },
        Difference {
            input: "no words, length 0, claimed count 1",
            ours: "refusal 4",
            ours_gives: told(ours::to_words(&in_words(0, &[], 1), &[]), density),
            theirs: "count 0",
            theirs_gives: counted(&in_words(0, &[], 1)),
        },
        Difference {
            input: "the list 0, 0 of length 1",
            ours: "refusal 5",
            ours_gives: told(ours::to_words(&list(1, &[0, 0]), &[0]), density),
            theirs: "panics",
            theirs_gives: counted(&list(1, &[0, 0])),
        },
        Difference {
            input: "the list 0 of length 0",
            ours: "refusal 6",
            ours_gives: told(ours::to_words(&list(0, &[0]), &[]), density),
            theirs: "panics",
            theirs_gives: counted(&list(0, &[0])),
        },
    ]
}

fn operations() -> [Difference; 5] {
    let first = |t: &Told<u64>| format!("word {}", t.out[0]);
    let composed = |a: &Operand, b: &Operand| crate_gives(|| kind(&mask(a).intersect_by_rank(&mask(b))));
    let both = |a: &Operand, b: &Operand| crate_gives(|| kind(&(&mask(a) & &mask(b))));
    [
        Difference {
            input: "and of all of length 0 and all of length 1",
            ours: "refusal 7",
            ours_gives: told(ours::set(0, &all(0), &all(1), &[0]), first),
            theirs: "panics",
            theirs_gives: both(&all(0), &all(1)),
        },
        Difference {
            input: "and of the list of no rows of length 0 with itself",
            ours: "refusal 12",
            ours_gives: told(ours::set(0, &list(0, &[]), &list(0, &[]), &[0]), first),
            theirs: "none",
            theirs_gives: both(&list(0, &[]), &list(0, &[])),
        },
        Difference {
            input: "and of all of length 1 with itself",
            ours: "word 1",
            ours_gives: told(ours::set(0, &all(1), &all(1), &[0]), first),
            theirs: "all",
            theirs_gives: both(&all(1), &all(1)),
        },
        Difference {
            input: "composition of none of length 0 and all of length 1",
            ours: "refusal 7",
            ours_gives: told(ours::compose(&none(0), &all(1), &[0]), first),
            theirs: "panics",
            theirs_gives: composed(&none(0), &all(1)),
        },
        Difference {
            input: "composition of all of length 1 and all of length 1",
            ours: "word 1",
            ours_gives: told(ours::compose(&all(1), &all(1), &[0]), first),
            theirs: "all",
            theirs_gives: composed(&all(1), &all(1)),
        },
    ]
}

fn routes() -> [Difference; 4] {
    let route = |a: &Operand, b: &Operand| {
        told(ours::compose(a, b, &vec![0; a.length.div_ceil(64) as usize]), |t| {
            format!("route {}", t.answer.cells[ROUTE])
        })
    };
    let two =
        |length| in_words(length, &vec![3; 1].into_iter().chain(vec![0; length as usize / 64]).collect::<Vec<_>>(), 2);
    let one = in_words(2, &[1], 1);
    [
        Difference {
            input: "self the list 0, 1 of length 3, rank mask the list 0 of length 2",
            ours: "route 4",
            ours_gives: route(&list(3, &[0, 1]), &list(2, &[0])),
            theirs: PATHS[3],
            theirs_gives: way(&list(3, &[0, 1]), &list(2, &[0]), false),
        },
        Difference {
            input: "self words 3 of length 3, rank mask the list 0 of length 2",
            ours: "route 7",
            ours_gives: route(&two(3), &list(2, &[0])),
            theirs: PATHS[3],
            theirs_gives: way(&two(3), &list(2, &[0]), false),
        },
        Difference {
            input: "self words 3, 0, 0 of length 129, rank mask words 1 of length 2",
            ours: "route 10",
            ours_gives: route(&two(129), &one),
            theirs: PATHS[1],
            theirs_gives: way(&two(129), &one, false),
        },
        Difference {
            input: "self words 3, 0 of length 65, rank mask words 1 of length 2, both lists built before",
            ours: "route 10",
            ours_gives: route(&two(65), &one),
            theirs: PATHS[1],
            theirs_gives: way(&two(65), &one, true),
        },
    ]
}

/// A refusal, or what `accepted` tells.
fn told<T>(answer: Result<Told<T>, String>, accepted: impl Fn(&Told<T>) -> String) -> String {
    match answer {
        Err(why) => why,
        Ok(told) if told.answer.cells[REFUSAL] != 0 => format!("refusal {}", told.answer.cells[REFUSAL]),
        Ok(told) => accepted(&told),
    }
}

fn crate_gives(f: impl FnOnce() -> String) -> String {
    asked(f).unwrap_or("panics".to_string())
}

fn counted(operand: &Operand) -> String {
    crate_gives(|| format!("count {}", mask(operand).true_count()))
}

fn kind(mask: &Mask) -> String {
    match mask {
        Mask::AllTrue(_) => "all".to_string(),
        Mask::AllFalse(_) => "none".to_string(),
        Mask::Values(_) => format!("words, count {}", mask.true_count()),
    }
}

fn way(a: &Operand, b: &Operand, built_before: bool) -> String {
    let (a, b) = (mask(a), mask(b));
    if built_before {
        cache_indices(&a);
        cache_indices(&b);
    }
    PATHS[path(&a, &b)].to_string()
}

fn all(length: u64) -> Operand {
    Operand { form: ALL, length, start: 0, claimed: 0, words: vec![], rows: vec![] }
}

fn none(length: u64) -> Operand {
    Operand { form: NONE, ..all(length) }
}

fn list(length: u64, rows: &[u32]) -> Operand {
    Operand { form: LIST, rows: rows.to_vec(), ..all(length) }
}

fn in_words(length: u64, words: &[u64], claimed: u64) -> Operand {
    Operand { form: WORDS, claimed, words: words.to_vec(), ..all(length) }
}
