//! Document 01's examples, and inputs at the edges of its rules and of document 02's runs and recovery, each with its answer written out
//! here. `rules` is held to them too, so that it is not the judge of itself.
use crate::answer::Answer;
use crate::checks::{Outcome, same_answer};
use crate::lent::Lent;
use crate::operand::{ALL, LIST, NONE, Operand, RUNS, WORDS};
use crate::ours::Operation::Composition;
use crate::ours::Told;
use crate::probe::{boltamber_deposit, boltamber_select};
use crate::rules::{Expected, LIMIT};
use crate::tally::Tally;
use crate::{ours, rules};

pub fn run(tally: &mut Tally) -> Outcome {
    let mut examples = Examples::default();
    deposits(&mut examples)?;
    selects_and_reads(&mut examples)?;
    conversions(&mut examples)?;
    runs_converted(&mut examples)?;
    conversions_to_runs(&mut examples)?;
    compositions(&mut examples)?;
    compositions_with_runs(&mut examples)?;
    recoveries(&mut examples)?;
    set_operations(&mut examples)?;
    feeds(&mut examples)?;
    programs(&mut examples)?;
    tally.add("document 01's examples, its edges, those of runs and of recovery, answers written out", examples.held);
    Ok(())
}

#[derive(Default)]
struct Examples {
    held: u64,
}

impl Examples {
    fn word(&mut self, name: &str, told: Answer, by_rules: Answer, expected: Answer) -> Outcome {
        self.held += 1;
        same_answer(&format!("{name}, ours"), told, expected)?;
        same_answer(&format!("{name}, the harness's own rules"), by_rules, expected)
    }

    /// The first word of the output is told where it is looked at.
    fn call(
        &mut self,
        name: &str,
        told: &Told<u64>,
        by_rules: &Expected<u64>,
        expected: Answer,
        first: u64,
    ) -> Outcome {
        self.word(name, told.answer, by_rules.answer, expected)?;
        match told.out == by_rules.out && told.out.first().is_none_or(|&word| word == first) {
            true => Ok(()),
            false => Err(format!("{name}: the output is {:x?}, the first word should be {first:#x}", told.out)),
        }
    }

    fn compose(&mut self, name: &str, a: &Operand, b: &Operand, out: &[u64], expected: Answer, first: u64) -> Outcome {
        self.call(name, &ours::compose(a, b, out)?, &rules::compose(a, b, out), expected, first)
    }

    fn recover(&mut self, name: &str, a: &Operand, b: &Operand, out: &[u64], expected: Answer, first: u64) -> Outcome {
        self.call(name, &ours::recover(a, b, out)?, &rules::recover(a, b, out), expected, first)
    }

    fn to_words(&mut self, name: &str, a: &Operand, out: &[u64], expected: Answer, first: u64) -> Outcome {
        self.call(name, &ours::to_words(a, out)?, &rules::to_words(a, out), expected, first)
    }

    /// The whole output is told.
    fn to_list(&mut self, name: &str, a: &Operand, out: &[u32], expected: Answer, after: &[u32]) -> Outcome {
        self.numbers(name, &ours::to_list(a, out)?, &rules::to_list(a, out), expected, after)
    }

    fn to_runs(&mut self, name: &str, a: &Operand, out: &[u32], expected: Answer, after: &[u32]) -> Outcome {
        self.numbers(name, &ours::to_runs(a, out)?, &rules::to_runs(a, out), expected, after)
    }

    fn numbers(
        &mut self,
        name: &str,
        told: &Told<u32>,
        by_rules: &Expected<u32>,
        expected: Answer,
        after: &[u32],
    ) -> Outcome {
        self.word(name, told.answer, by_rules.answer, expected)?;
        match told.out == after && by_rules.out == after {
            true => Ok(()),
            false => Err(format!("{name}: the output is {:?}, it should be {after:?}", told.out)),
        }
    }

    fn set(&mut self, name: &str, which: u64, a: &Operand, b: &Operand, expected: Answer, first: u64) -> Outcome {
        let out = [JUNK];
        self.call(name, &ours::set(which, a, b, &out)?, &rules::set(which, a, b, &out), expected, first)
    }

    fn feed(
        &mut self,
        name: &str,
        state: [u64; 3],
        a: &Operand,
        b: &Operand,
        out: &[u64],
        expected: Answer,
        first: u64,
    ) -> Outcome {
        self.call(name, &ours::feed(Composition, state, a, b, out)?, &rules::feed(state, a, b, out), expected, first)
    }

    /// With an output as long as the text, and with one that is a byte shorter.
    fn program(&mut self, input: &[u8], expected: Answer, text: &str) -> Outcome {
        let name = format!("the program's input {}", input.escape_ascii());
        let room = vec![7; text.len()];
        let (told, by_rules) = (ours::program(input, &room)?, rules::program(input, &room));
        self.word(&name, told.answer, by_rules.answer, expected.with_written(text.len() as u64))?;
        let (shorter, shorter_by_rules) = (ours::program(input, &room[1..])?, rules::program(input, &room[1..]));
        self.word(&name, shorter.answer, shorter_by_rules.answer, Answer::refused(8, 0))?;
        let outputs = [(told.out, text.as_bytes()), (by_rules.out, text.as_bytes())];
        let stayed = [(shorter.out, &room[1..]), (shorter_by_rules.out, &room[1..])];
        match outputs.iter().chain(&stayed).find(|(out, expected)| out != expected) {
            None => Ok(()),
            Some((out, _)) => Err(format!("{name}: the output is {}", out.escape_ascii())),
        }
    }
}

const JUNK: u64 = 0xdead_beef_0bad_cafe;

fn operand(form: u64, length: u64) -> Operand {
    Operand { form, length, start: 0, claimed: 0, words: Vec::new(), rows: Vec::new() }
}

fn all(length: u64) -> Operand {
    operand(ALL, length)
}

fn none(length: u64) -> Operand {
    operand(NONE, length)
}

fn words(start: u64, length: u64, claimed: u64, words: &[u64]) -> Operand {
    Operand { start, claimed, words: words.to_vec(), ..operand(WORDS, length) }
}

fn list(length: u64, rows: &[u32]) -> Operand {
    Operand { rows: rows.to_vec(), ..operand(LIST, length) }
}

/// Pairs of first row and row past the last.
fn runs(length: u64, numbers: &[u32]) -> Operand {
    Operand { rows: numbers.to_vec(), ..operand(RUNS, length) }
}

fn deposits(examples: &mut Examples) -> Outcome {
    let cases = [
        ("E1", 5, 26, 18),
        ("E2", 77, 0, 0),
        ("E3", 0x1234_5678_9abc_def0, u64::MAX, 0x1234_5678_9abc_def0),
        ("E4", u64::MAX, 1 << 63, 1 << 63),
        ("E5", 1, 0x7fff_ffff_ffff_fffe, 2),
        ("E6", 8, !8, 16),
    ];
    for (name, source, mask, word) in cases {
        let count = u64::from(mask.count_ones());
        for way in [0, 1] {
            let by_rules = rules::deposit(source, mask, count);
            examples.word(name, ours::deposit(way, source, mask, count)?, by_rules, Answer::word(word))?;
        }
        let by_host = Answer::word(boltamber_deposit(source, mask));
        examples.word(name, by_host, by_host, Answer::word(word))?;
    }
    let refused = Answer::refused(4, 0);
    examples.word("mask 26 with count 2", ours::deposit(0, 4, 26, 2)?, rules::deposit(4, 26, 2), refused)
}

fn selects_and_reads(examples: &mut Examples) -> Outcome {
    let selects = [
        ("E7", 26, 0, Answer::word(1), 1),
        ("E7", 26, 2, Answer::word(4), 4),
        ("E7", 26, 3, Answer::refused(9, 0), 64),
        ("E8", u64::MAX, 63, Answer::word(63), 63),
    ];
    for (name, word, rank, answer, by_host) in selects {
        examples.word(name, ours::select(word, rank)?, rules::select(word, rank), answer)?;
        let told = Answer::word(boltamber_select(word, rank));
        examples.word(name, told, told, Answer::word(by_host))?;
    }
    let lent = [(1 << 60) + (1 << 63), 1];
    let reads = [
        ("E9", 60, 0, Answer::word(25)),
        ("E10", 60, 64, Answer::word(0)),
        ("a sum past 2^64", 60, u64::MAX, Answer::word(0)),
        ("start 64", 64, 0, Answer::refused(2, 0)),
    ];
    for (name, start, offset, answer) in reads {
        let told = ours::rank_read(&mut Lent::new(&lent), start, offset)?;
        examples.word(name, told, rules::rank_read(&lent, start, offset), answer)?;
    }
    Ok(())
}

fn conversions(examples: &mut Examples) -> Outcome {
    let out = [JUNK];
    let no_rows = Answer::summary(0, 0, 0);
    let refused = |number| Answer::refused(number, 1);
    examples.to_words("a repeated entry", &list(10, &[3, 9, 9]), &out, refused(5), JUNK)?;
    examples.to_words("an entry at the length", &list(10, &[3, 10]), &out, refused(6), JUNK)?;
    examples.to_words("no entries", &list(10, &[]), &out, Answer::summary(0, 10, 0), 0)?;
    examples.to_words("falls and passes the length", &list(10, &[10, 3]), &out, refused(5), JUNK)?;
    examples.to_words("length 0 with an entry", &list(0, &[0]), &out, refused(6), JUNK)?;
    examples.to_words("over the limit", &all(LIMIT + 1), &out, refused(1), JUNK)?;
    examples.to_words("the largest length", &none(u64::MAX), &out, refused(1), JUNK)?;
    let words_of_limit = vec![JUNK; 16_384];
    examples.to_words("at the limit", &all(LIMIT), &words_of_limit, Answer::summary(LIMIT, LIMIT, 0), u64::MAX)?;
    examples.to_words("one word less", &all(LIMIT), &words_of_limit[1..], Answer::refused(8, 0), JUNK)?;
    examples.to_words("nothing lent", &words(0, 0, 0, &[]), &[], no_rows, 0)?;
    examples.to_words("length 0 at start 1, no word", &words(1, 0, 0, &[]), &out, refused(3), JUNK)?;
    examples.to_words("length 0 at start 63, a word", &words(63, 0, 0, &[7]), &out, no_rows, JUNK)?;
    examples.to_words("length 0, claimed 1", &words(0, 0, 1, &[1]), &out, refused(4), JUNK)?;
    examples.to_words("claimed above the length", &words(0, 3, 4, &[15]), &out, refused(4), JUNK)?;
    examples.to_words("bits past the view", &words(1, 3, 3, &[0x1f]), &out, Answer::summary(3, 3, 0), 7)?;
    examples.to_words("start 64", &words(64, 0, 0, &[0, 0]), &out, refused(2), JUNK)?;
    examples.to_words("form 5", &operand(5, 0), &out, Answer::refused(99, 0), JUNK)
}

fn runs_converted(examples: &mut Examples) -> Outcome {
    let (out, refused) = ([JUNK, JUNK], Answer::refused(14, 1));
    let told = Answer::summary;
    examples.to_words("two runs", &runs(8, &[2, 4, 5, 6]), &out, told(3, 8, 0), 0x2c)?;
    examples.to_words("no runs", &runs(10, &[]), &out, told(0, 10, 0), 0)?;
    examples.to_words("no runs of no rows", &runs(0, &[]), &[], told(0, 0, 0), 0)?;
    examples.to_words("a run to the length", &runs(10, &[0, 10]), &out, told(10, 10, 0), 0x3ff)?;
    examples.to_words("a run over two words", &runs(70, &[60, 70]), &out, told(10, 70, 0), 0xf << 60)?;
    examples.to_words("a row between two runs", &runs(4, &[0, 1, 2, 4]), &out, told(3, 4, 0), 0xd)?;
    examples.to_words("touching runs", &runs(4, &[0, 1, 1, 4]), &out, refused, JUNK)?;
    examples.to_words("runs that meet", &runs(8, &[0, 3, 2, 5]), &out, refused, JUNK)?;
    examples.to_words("the same run twice", &runs(8, &[2, 3, 2, 3]), &out, refused, JUNK)?;
    examples.to_words("falling runs", &runs(8, &[4, 6, 0, 2]), &out, refused, JUNK)?;
    examples.to_words("an empty run", &runs(10, &[3, 3]), &out, refused, JUNK)?;
    examples.to_words("a run backwards", &runs(10, &[3, 2]), &out, refused, JUNK)?;
    examples.to_words("one row past the length", &runs(10, &[0, 11]), &out, refused, JUNK)?;
    examples.to_words("an empty run at the length", &runs(10, &[10, 10]), &out, refused, JUNK)?;
    examples.to_words("length 0 with a run", &runs(0, &[0, 1]), &out, refused, JUNK)?;
    examples.to_words("one number", &runs(10, &[3]), &out, refused, JUNK)?;
    examples.to_words("three numbers", &runs(10, &[0, 2, 5]), &out, refused, JUNK)?;
    examples.to_words("the largest numbers", &runs(10, &[u32::MAX, u32::MAX]), &out, refused, JUNK)?;
    examples.to_words("1 before 14", &runs(LIMIT + 1, &[3, 3]), &out, Answer::refused(1, 1), JUNK)?;
    examples.to_words("14 before 8", &runs(10, &[3, 3]), &[], refused, 0)?;
    examples.to_words("one word too few", &runs(70, &[60, 70]), &[JUNK], Answer::refused(8, 0), JUNK)?;
    examples.to_list("runs as a list", &runs(8, &[2, 4, 5, 6]), &[99; 4], told(3, 8, 0), &[2, 3, 5, 99])?;
    examples.to_list("too few for the rows", &runs(8, &[2, 4, 5, 6]), &[7; 2], Answer::refused(8, 0), &[7; 2])?;
    examples.to_list("touching runs", &runs(4, &[0, 1, 1, 4]), &[7; 4], refused, &[7; 4])
}

fn conversions_to_runs(examples: &mut Examples) -> Outcome {
    let told = |count, length, runs| Answer::summary(count, length, 0).with_written(runs);
    let three = words(0, 8, 5, &[0xd6]);
    examples.to_runs("E11's self", &three, &[7; 8], told(5, 8, 3), &[1, 3, 4, 5, 6, 8, 7, 7])?;
    examples.to_runs("just room", &three, &[7; 6], told(5, 8, 3), &[1, 3, 4, 5, 6, 8])?;
    examples.to_runs("half a run too few", &three, &[7; 5], Answer::refused(8, 0), &[7; 5])?;
    examples.to_runs("all", &all(70), &[7; 2], told(70, 70, 1), &[0, 70])?;
    examples.to_runs("all, no room", &all(70), &[], Answer::refused(8, 0), &[])?;
    examples.to_runs("all of no rows", &all(0), &[7], told(0, 0, 0), &[7])?;
    examples.to_runs("none", &none(5), &[], told(0, 5, 0), &[])?;
    examples.to_runs("over a word", &words(60, 10, 10, &[u64::MAX; 2]), &[7; 2], told(10, 10, 1), &[0, 10])?;
    examples.to_runs("two whole words", &words(0, 128, 128, &[u64::MAX; 2]), &[7; 2], told(128, 128, 1), &[0, 128])?;
    examples.to_runs("a list", &list(10, &[3, 4, 5, 9]), &[7; 4], told(4, 10, 2), &[3, 6, 9, 10])?;
    examples.to_runs("runs", &runs(10, &[3, 6, 9, 10]), &[7; 5], told(4, 10, 2), &[3, 6, 9, 10, 7])?;
    examples.to_runs("the limit", &all(LIMIT), &[7; 2], told(LIMIT, LIMIT, 1), &[0, 1_048_576])?;
    examples.to_runs("touching runs", &runs(4, &[0, 1, 1, 4]), &[7; 4], Answer::refused(14, 1), &[7; 4])?;
    examples.to_runs("an equal entry", &list(10, &[3, 3]), &[7; 4], Answer::refused(5, 1), &[7; 4])?;
    examples.to_runs("form 5", &operand(5, 0), &[7; 4], Answer::refused(99, 0), &[7; 4])
}

fn compositions(examples: &mut Examples) -> Outcome {
    let out = [JUNK, JUNK];
    let (own, ranks) = (words(0, 8, 5, &[0xd6]), words(0, 5, 2, &[9]));
    examples.compose("E11", &own, &ranks, &out, Answer::summary(2, 8, 9), 0x42)?;
    examples.compose("no word of output", &own, &ranks, &[], Answer::refused(8, 0), 0)?;
    examples.compose("both of length 0", &all(0), &all(0), &out, Answer::summary(0, 0, 3), JUNK)?;
    examples.compose("both of length 0", &list(0, &[]), &none(0), &[], Answer::summary(0, 0, 3), 0)?;
    examples.compose("self full, rank mask empty", &all(2), &none(2), &out, Answer::summary(0, 2, 1), 0)?;
    examples.compose("self empty", &none(2), &all(0), &out, Answer::summary(0, 2, 3), 0)?;
    examples.compose("wrong length", &all(1), &none(2), &out, Answer::refused(7, 0), JUNK)?;
    examples.compose("both bad", &words(0, 1, 2, &[0]), &list(9, &[1, 1]), &out, Answer::refused(4, 1), JUNK)?;
    examples.compose("the second bad, 7 too", &all(1), &list(9, &[1, 1]), &out, Answer::refused(5, 2), JUNK)?;
    examples.compose("7 before 8", &all(70), &none(2), &[JUNK], Answer::refused(7, 0), JUNK)?;
    examples.compose(
        "a list with 32 x 1 = 32",
        &list(64, &(0..32).collect::<Vec<u32>>()),
        &list(32, &[3]),
        &out,
        Answer::summary(1, 64, 4),
        8,
    )?;
    examples.compose(
        "self words, 32 x 1 = 32",
        &words(0, 64, 32, &[0xffff_ffff]),
        &list(32, &[3]),
        &out,
        Answer::summary(1, 64, 7),
        8,
    )?;
    examples.compose(
        "self words, 32 x 1 < 33",
        &words(0, 64, 33, &[0x1_ffff_ffff]),
        &list(33, &[3]),
        &out,
        Answer::summary(1, 64, 6),
        8,
    )?;
    examples.compose(
        "16 x 4 = 64",
        &words(0, 64, 4, &[15]),
        &words(0, 4, 1, &[4]),
        &out,
        Answer::summary(1, 64, 9),
        4,
    )?;
    examples.compose("16 x 3 < 64", &words(0, 64, 3, &[7]), &words(0, 3, 1, &[4]), &out, Answer::summary(1, 64, 10), 4)
}

/// E11's masks as runs, and the routes that runs take as a list.
fn compositions_with_runs(examples: &mut Examples) -> Outcome {
    let out = [JUNK, JUNK];
    let (told, refused) = (Answer::summary, Answer::refused);
    let (own, ranks) = (words(0, 8, 5, &[0xd6]), words(0, 5, 2, &[9]));
    let (own_runs, rank_runs) = (runs(8, &[1, 3, 4, 5, 6, 8]), runs(5, &[0, 1, 3, 4]));
    examples.compose("both runs", &own_runs, &rank_runs, &out, told(2, 8, 4), 0x42)?;
    examples.compose("self runs, rank list", &own_runs, &list(5, &[0, 3]), &out, told(2, 8, 4), 0x42)?;
    examples.compose("self list, rank runs", &list(8, &[1, 2, 4, 6, 7]), &rank_runs, &out, told(2, 8, 4), 0x42)?;
    examples.compose("self runs, rank words", &own_runs, &ranks, &out, told(2, 8, 5), 0x42)?;
    examples.compose("self words, rank runs", &own, &rank_runs, &out, told(2, 8, 7), 0x42)?;
    examples.compose("self runs, full", &runs(2, &[0, 2]), &none(2), &out, told(0, 2, 1), 0)?;
    examples.compose("rank runs, full", &own, &runs(5, &[0, 5]), &out, told(5, 8, 2), 0xd6)?;
    examples.compose("rank mask of no runs", &own_runs, &runs(5, &[]), &out, told(0, 8, 3), 0)?;
    examples.compose("self of no runs", &runs(8, &[]), &runs(0, &[]), &out, told(0, 8, 3), 0)?;
    examples.compose("both of no rows", &runs(0, &[]), &runs(0, &[]), &[], told(0, 0, 3), 0)?;
    let many = words(0, 64, 33, &[0x1_ffff_ffff]);
    examples.compose("32 x 1 < 33", &many, &runs(33, &[3, 4]), &out, told(1, 64, 6), 8)?;
    examples.compose("16 x 3 < 64", &words(0, 64, 3, &[7]), &runs(3, &[2, 3]), &out, told(1, 64, 8), 4)?;
    examples.compose("14 of self", &runs(9, &[1, 1]), &list(9, &[1, 1]), &out, refused(14, 1), JUNK)?;
    examples.compose("14 of the rank mask, 7 too", &all(1), &runs(9, &[1, 1]), &out, refused(14, 2), JUNK)?;
    examples.compose("7", &own_runs, &runs(4, &[0, 4]), &out, refused(7, 0), JUNK)?;
    examples.compose("no word of output", &own_runs, &rank_runs, &[], refused(8, 0), 0)
}

/// The program's masks of document 01, back from its rows; and the edges of document 02's P6.
fn recoveries(examples: &mut Examples) -> Outcome {
    let out = [JUNK, JUNK];
    let (told, refused) = (|count, length| Answer::summary(count, length, 0), Answer::refused);
    let outside = |row| refused(17, 0).with_row_outside(row);
    let (own, kept) = (words(0, 8, 5, &[0xd6]), words(3, 8, 2, &[0x42 << 3]));
    let (own_list, own_runs) = (list(8, &[1, 2, 4, 6, 7]), runs(8, &[1, 3, 4, 5, 6, 8]));
    let (kept_list, kept_runs) = (list(8, &[1, 6]), runs(8, &[1, 2, 6, 7]));
    for own in [&own, &own_list, &own_runs] {
        for kept in [&kept, &kept_list, &kept_runs] {
            examples.recover("01101011 and 01000010", own, kept, &out, told(2, 5), 9)?;
        }
        examples.recover("no row kept", own, &none(8), &out, told(0, 5), 0)?;
        examples.recover("every row kept", own, own, &out, told(5, 5), 31)?;
        examples.recover("all kept, row 0 is not self's", own, &all(8), &out, outside(0), JUNK)?;
    }
    examples.recover("self full", &all(8), &kept, &out, told(2, 8), 0x42)?;
    examples.recover("both full", &all(65), &all(65), &out, told(65, 65), u64::MAX)?;
    examples.recover("self empty", &none(8), &runs(8, &[]), &out, told(0, 0), JUNK)?;
    examples.recover("of no rows", &all(0), &none(0), &[], told(0, 0), 0)?;
    examples.recover(
        "the last row is not self's",
        &runs(65, &[0, 64]),
        &list(65, &[3, 64]),
        &out,
        outside(64),
        JUNK,
    )?;
    examples.recover("the first of two", &own_runs, &list(8, &[1, 3, 5]), &out, outside(3), JUNK)?;
    examples.recover("5 before 14", &list(9, &[1, 1]), &runs(9, &[1, 1]), &out, refused(5, 1), JUNK)?;
    examples.recover("14 of the second mask before 7", &all(8), &runs(9, &[1, 1]), &out, refused(14, 2), JUNK)?;
    examples.recover("7 before 17", &none(8), &all(9), &out, refused(7, 0), JUNK)?;
    examples.recover("17 before 8", &words(0, 8, 5, &[0xd6]), &all(8), &[], outside(0), 0)?;
    examples.recover("no word of output", &own, &kept, &[], refused(8, 0), 0)
}

fn set_operations(examples: &mut Examples) -> Outcome {
    let refused = Answer::refused;
    examples.set("and of all and all", 0, &all(1), &all(1), Answer::summary(1, 1, 0), 1)?;
    examples.set("lengths differ", 1, &all(1), &none(2), refused(7, 0), JUNK)?;
    examples.set("12 before 1", 0, &list(LIMIT + 1, &[]), &all(1), refused(12, 1), JUNK)?;
    examples.set(
        "the first's 4 before the second's 12",
        0,
        &words(0, 1, 1, &[0]),
        &list(1, &[]),
        refused(4, 1),
        JUNK,
    )?;
    examples.set("12 of the second", 2, &all(1), &list(1, &[]), refused(12, 2), JUNK)?;
    examples.set("not ignores its second", 3, &none(3), &list(LIMIT + 1, &[5, 5]), Answer::summary(3, 3, 0), 7)?;
    examples.set("and of runs", 0, &runs(1, &[0, 1]), &all(1), refused(12, 1), JUNK)?;
    examples.set("12 before 1 of runs", 1, &runs(LIMIT + 1, &[]), &all(1), refused(12, 1), JUNK)?;
    examples.set("12 of the second, bad runs", 2, &all(1), &runs(1, &[1, 1]), refused(12, 2), JUNK)?;
    examples.set("not of bad runs", 3, &runs(1, &[0]), &all(1), refused(12, 1), JUNK)?;
    examples.set("not of a list", 3, &list(1, &[]), &all(1), refused(12, 1), JUNK)?;
    examples.set("not, and a second of no form", 3, &none(3), &operand(9, 0), refused(99, 0), JUNK)
}

fn feeds(examples: &mut Examples) -> Outcome {
    let piece = Answer::summary;
    let refused = |number, operand, state| Answer::refused(number, operand).with_state(state);
    let (first, first_ranks) = (words(0, 4, 2, &[6]), words(0, 2, 1, &[1]));
    let (second, second_ranks) = (words(0, 4, 3, &[0xd]), words(0, 3, 1, &[2]));
    let half_way = JUNK & !0xf | 2;
    let whole = JUNK & !0xff | 0x42;
    examples.feed("E12", [0; 3], &first, &first_ranks, &[JUNK], piece(1, 4, 9).with_state([4, 2, 1]), half_way)?;
    examples.feed(
        "E12",
        [4, 2, 1],
        &second,
        &second_ranks,
        &[half_way],
        piece(1, 4, 9).with_state([8, 5, 2]),
        whole,
    )?;
    examples.feed(
        "E12, the second piece as runs",
        [4, 2, 1],
        &runs(4, &[0, 1, 2, 4]),
        &runs(3, &[1, 2]),
        &[half_way],
        piece(1, 4, 4).with_state([8, 5, 2]),
        whole,
    )?;
    let touching = runs(4, &[0, 2, 2, 4]);
    examples.feed("touching runs", [4, 2, 1], &touching, &all(4), &[JUNK], refused(14, 1, [4, 2, 1]), JUNK)?;
    examples.feed("10 before 14", [1, 2, 0], &touching, &all(4), &[JUNK], refused(10, 0, [1, 2, 0]), JUNK)?;
    let limit = [LIMIT, 0, 0];
    examples.feed("kept over ranks", [5, 1, 2], &all(0), &all(0), &[JUNK], refused(10, 0, [5, 1, 2]), JUNK)?;
    examples.feed("10 before 1", [1, 2, 0], &all(u64::MAX), &all(0), &[JUNK], refused(10, 0, [1, 2, 0]), JUNK)?;
    examples.feed("7 before 11", limit, &all(1), &none(2), &[], refused(7, 0, limit), 0)?;
    examples.feed("11 before 8", limit, &all(1), &none(1), &[], refused(11, 0, limit), 0)?;
    let words_of_limit = vec![JUNK; 16_384];
    examples.feed(
        "nothing at the limit",
        limit,
        &all(0),
        &all(0),
        &words_of_limit,
        piece(0, 0, 3).with_state(limit),
        JUNK,
    )?;
    examples.feed("8 at length 0", limit, &all(0), &all(0), &words_of_limit[1..], refused(8, 0, limit), JUNK)?;
    examples.feed("8 at length 0", [65, 0, 0], &all(0), &all(0), &[JUNK], refused(8, 0, [65, 0, 0]), JUNK)?;
    examples.feed(
        "none set",
        [4, 2, 1],
        &none(3),
        &all(0),
        &[u64::MAX],
        piece(0, 3, 3).with_state([7, 2, 1]),
        !0x70,
    )?;
    examples.feed("no such form", [4, 2, 1], &operand(5, 0), &all(0), &[JUNK], Answer::refused(99, 0), JUNK)
}

fn programs(examples: &mut Examples) -> Outcome {
    let document = b"self=01101011\nrank=10010\n";
    let text = "refusal=0\nroute=9\ncount=2\nbits=01000010\n";
    examples.program(document, Answer::summary(2, 8, 9), text)?;
    let no_rows = Answer::summary(0, 0, 3);
    examples.program(b"self=\nrank=\n", no_rows, "refusal=0\nroute=3\ncount=0\nbits=\n")?;
    examples.program(b"self=1\nrank=0\n", Answer::summary(0, 1, 1), "refusal=0\nroute=1\ncount=0\nbits=0\n")?;
    let unpaired = "refusal=7\nroute=0\ncount=0\nbits=\n";
    examples.program(b"self=01101011\nrank=1001\n", Answer::refused(7, 0), unpaired)?;
    let malformed = "refusal=13\nroute=0\ncount=0\nbits=\n";
    let inputs: [&[u8]; 6] = [
        b"",
        b"self=01101011\nrank=10010",
        b"self=01101011\r\nrank=10010\r\n",
        b"rank=10010\nself=01101011\n",
        b"self=01101011\nrank=10010\n\n",
        b"self=01101021\nrank=10010\n",
    ];
    for input in inputs {
        examples.program(input, Answer::refused(13, 0), malformed)?;
    }
    long_lines(examples, malformed)
}

/// 8,192 rows in both lines are taken, and one more in either is malformed.
fn long_lines(examples: &mut Examples, malformed: &str) -> Outcome {
    let input = |own: usize, ranks: usize| format!("self={}\nrank={}\n", "1".repeat(own), "1".repeat(ranks));
    let text = format!("refusal=0\nroute=1\ncount=8192\nbits={}\n", "1".repeat(8192));
    examples.program(input(8192, 8192).as_bytes(), Answer::summary(8192, 8192, 1), &text)?;
    examples.program(input(8193, 8193).as_bytes(), Answer::refused(13, 0), malformed)?;
    examples.program(input(8192, 8193).as_bytes(), Answer::refused(13, 0), malformed)?;
    examples.program(input(8193, 8192).as_bytes(), Answer::refused(13, 0), malformed)
}
