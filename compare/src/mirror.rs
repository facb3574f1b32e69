//! A plain mirror of probe over `rules`, to test the harness while the proved library is not there, and with faults, to
//! see that the harness finds them. `COMPARE_FAULT` names the fault; without it the mirror has none.
#![allow(clippy::missing_safety_doc, clippy::too_many_arguments)]
use std::slice;
use std::sync::LazyLock;

use crate::answer::{Answer, COUNT, OUTSIDE, ROUTE, WRITTEN};
use crate::given::Given;
use crate::operand::{LIST, Operand, RUNS, WORDS, lay};
use crate::rules::{self, Expected};

static FAULT: LazyLock<String> = LazyLock::new(|| std::env::var("COMPARE_FAULT").unwrap_or_default());

fn fault(name: &str) -> bool {
    *FAULT == name
}

/// Faults on the crate's side: its answers must be looked at too.
pub fn crate_gives(mut given: Given) -> Given {
    if fault("the crate turns a row") && !given.words.is_empty() {
        given.words[0] ^= 1;
    }
    if fault("the crate counts one more") {
        given.count += 1;
    }
    if fault("the crate's density is of the rows not set") {
        given.density = (1.0 - f64::from_bits(given.density)).to_bits();
    }
    given
}

/// # Safety
/// The pointers must be of lent memory of the lengths given.
unsafe fn answer(mut given: Answer, ans: *mut u64, den: *mut f64) {
    if fault("density rounded twice") {
        given.density = f64::from(f64::from_bits(given.density) as f32).to_bits();
    }
    if fault("cells past the sixteenth") {
        unsafe { *ans.add(16) = 0 };
    }
    unsafe {
        slice::from_raw_parts_mut(ans, 16).copy_from_slice(&given.cells);
        *den = f64::from_bits(given.density);
    }
}

unsafe fn written<T: Copy>(expected: Expected<T>, out: *mut T, nout: usize, ans: *mut u64, den: *mut f64) {
    unsafe {
        slice::from_raw_parts_mut(out, nout).copy_from_slice(&expected.out);
        if fault("one element past the output") {
            *out.add(nout) = *out;
        }
        answer(expected.answer, ans, den);
    }
}

unsafe fn operand(
    form: u64, length: u64, start: u64, claimed: u64,
    words: *const u64, nwords: usize, rows: *const u32, nrows: usize,
) -> Operand {
    let (words, rows) = unsafe { (slice::from_raw_parts(words, nwords), slice::from_raw_parts(rows, nrows)) };
    let mut operand = Operand { form, length, start, claimed, words: words.to_vec(), rows: rows.to_vec() };
    if fault("equal list entries pass") && form == LIST {
        operand.rows.dedup();
    }
    if form == RUNS {
        operand.rows = runs_seen(&operand);
    }
    if fault("claimed count is not looked at") && form == WORDS && start < 64 && length < rules::LIMIT {
        if (nwords as u64) * 64 >= start + length {
            operand.claimed = rules::set_count(&operand);
        }
    }
    operand
}

/// The runs as a mirror with one of these faults sees them.
fn runs_seen(operand: &Operand) -> Vec<u32> {
    let mut numbers = operand.rows.clone();
    if fault("touching runs are taken") {
        while let Some(i) = (1..numbers.len().saturating_sub(1)).step_by(2).find(|&i| numbers[i] == numbers[i + 1]) {
            numbers.drain(i..=i + 1); // the two become one
        }
    }
    if fault("a last number without its second is passed over") && numbers.len() % 2 == 1 {
        numbers.pop();
    }
    let ends_at_the_length = numbers.last().map(|&past| past.into()) == Some(operand.length);
    if fault("a run that ends at the length is refused") && ends_at_the_length {
        numbers.push(0);
    }
    numbers
}

pub unsafe fn probe_deposit(
    way: u64, source: u64, mask: u64, claimed: u64, ans: *mut u64, nans: usize, den: *mut f64, nden: usize,
) {
    if nans < 16 || nden < 1 {
        return;
    }
    let mut given = rules::deposit(source, mask, claimed);
    if fault("loop form drops bit 63") && way != 0 {
        given.cells[4] &= !(1 << 63);
    }
    unsafe { answer(given, ans, den) };
}

pub unsafe fn probe_select(word: u64, rank: u64, ans: *mut u64, nans: usize, den: *mut f64, nden: usize) {
    if nans < 16 || nden < 1 {
        return;
    }
    let rank = if fault("select takes the rank modulo 64") { rank % 64 } else { rank };
    unsafe { answer(rules::select(word, rank), ans, den) };
}

pub unsafe fn probe_rank_read(
    words: *const u64, nwords: usize, start: u64, offset: u64,
    ans: *mut u64, nans: usize, den: *mut f64, nden: usize,
) {
    if nans < 16 || nden < 1 {
        return;
    }
    let words = unsafe { slice::from_raw_parts(words, nwords) };
    let given = match fault("rank read wraps") && start < 64 {
        true => rules::rank_read(words, 0, start.wrapping_add(offset)),
        false => rules::rank_read(words, start, offset),
    };
    unsafe { answer(given, ans, den) };
}

pub unsafe fn probe_to_words(
    a_form: u64, a_length: u64, a_start: u64, a_claimed: u64,
    a_words: *const u64, a_nwords: usize, a_rows: *const u32, a_nrows: usize,
    out: *mut u64, nout: usize, ans: *mut u64, nans: usize, den: *mut f64, nden: usize,
) {
    if nans < 16 || nden < 1 {
        return;
    }
    unsafe {
        let a = operand(a_form, a_length, a_start, a_claimed, a_words, a_nwords, a_rows, a_nrows);
        let before = slice::from_raw_parts(out, nout);
        written(rules::to_words(&a, before), out, nout, ans, den);
    }
}

pub unsafe fn probe_to_list(
    a_form: u64, a_length: u64, a_start: u64, a_claimed: u64,
    a_words: *const u64, a_nwords: usize, a_rows: *const u32, a_nrows: usize,
    out: *mut u32, nout: usize, ans: *mut u64, nans: usize, den: *mut f64, nden: usize,
) {
    if nans < 16 || nden < 1 {
        return;
    }
    unsafe {
        let a = operand(a_form, a_length, a_start, a_claimed, a_words, a_nwords, a_rows, a_nrows);
        let before = slice::from_raw_parts(out, nout);
        written(rules::to_list(&a, before), out, nout, ans, den);
    }
}

pub unsafe fn probe_to_runs(
    a_form: u64, a_length: u64, a_start: u64, a_claimed: u64,
    a_words: *const u64, a_nwords: usize, a_rows: *const u32, a_nrows: usize,
    out: *mut u32, nout: usize, ans: *mut u64, nans: usize, den: *mut f64, nden: usize,
) {
    if nans < 16 || nden < 1 {
        return;
    }
    unsafe {
        let a = operand(a_form, a_length, a_start, a_claimed, a_words, a_nwords, a_rows, a_nrows);
        let before = slice::from_raw_parts(out, nout);
        let mut expected = rules::to_runs(&a, before);
        let numbers = 2 * expected.answer.cells[WRITTEN] as usize;
        let past = expected.out[..numbers].last().map(|&past| past.into());
        if fault("a run at the end is left open") && past == Some(a_length) {
            expected.out[numbers - 1] = before[numbers - 1];
        }
        if fault("runs are counted as numbers") {
            expected.answer.cells[WRITTEN] = numbers as u64;
        }
        written(expected, out, nout, ans, den);
    }
}

pub unsafe fn probe_compose(
    a_form: u64, a_length: u64, a_start: u64, a_claimed: u64,
    a_words: *const u64, a_nwords: usize, a_rows: *const u32, a_nrows: usize,
    b_form: u64, b_length: u64, b_start: u64, b_claimed: u64,
    b_words: *const u64, b_nwords: usize, b_rows: *const u32, b_nrows: usize,
    out: *mut u64, nout: usize, ans: *mut u64, nans: usize, den: *mut f64, nden: usize,
) {
    if (nans < 16 || nden < 1) && !fault("answers without room") {
        return;
    }
    unsafe {
        let a = operand(a_form, a_length, a_start, a_claimed, a_words, a_nwords, a_rows, a_nrows);
        let b = operand(b_form, b_length, b_start, b_claimed, b_words, b_nwords, b_rows, b_nrows);
        let before = slice::from_raw_parts(out, nout);
        let mut expected = rules::compose(&a, &b, before);
        let accepted = expected.answer.cells[0] == 0;
        if fault("later words cleared") && accepted {
            let need = a_length.div_ceil(64) as usize;
            expected.out[need..].fill(0);
        }
        if fault("bits past the length left") && accepted && a_length % 64 != 0 {
            let last = (a_length / 64) as usize;
            expected.out[last] |= before[last] >> (a_length % 64) << (a_length % 64);
        }
        if fault("route 10 told as 9") && expected.answer.cells[ROUTE] == 10 {
            expected.answer.cells[ROUTE] = 9;
        }
        if fault("a rank run is laid from the row") && accepted && b_form == RUNS {
            let (own, ranks) = (rules::rows(&a), rules::rows(&b));
            let by_row = |row: usize| own[row] && ranks.get(row) == Some(&true);
            lay(&mut expected.out, 0, &(0..own.len()).map(by_row).collect::<Vec<bool>>());
        }
        if fault("runs of self take the routes of words") && accepted && a_form == RUNS {
            let words = Operand { form: WORDS, ..a.clone() };
            expected.answer.cells[ROUTE] = rules::route(&words, &rules::rows(&a), &b, &rules::rows(&b));
        }
        if fault("count of self") && accepted {
            expected.answer.cells[COUNT] = b_length;
        }
        if fault("operand 2 first") && rules::to_words(&b, &[]).answer.cells[0] % 8 != 0 {
            expected.answer = Answer::refused(rules::to_words(&b, &[]).answer.cells[0], 2);
        }
        written(expected, out, nout, ans, den);
    }
}

pub unsafe fn probe_recover(
    a_form: u64, a_length: u64, a_start: u64, a_claimed: u64,
    a_words: *const u64, a_nwords: usize, a_rows: *const u32, a_nrows: usize,
    b_form: u64, b_length: u64, b_start: u64, b_claimed: u64,
    b_words: *const u64, b_nwords: usize, b_rows: *const u32, b_nrows: usize,
    out: *mut u64, nout: usize, ans: *mut u64, nans: usize, den: *mut f64, nden: usize,
) {
    if nans < 16 || nden < 1 {
        return;
    }
    unsafe {
        let a = operand(a_form, a_length, a_start, a_claimed, a_words, a_nwords, a_rows, a_nrows);
        let b = operand(b_form, b_length, b_start, b_claimed, b_words, b_nwords, b_rows, b_nrows);
        let before = slice::from_raw_parts(out, nout);
        let mut expected = rules::recover(&a, &b, before);
        let accepted = expected.answer.cells[0] == 0;
        if fault("a recovery leaves the rows where they are") && accepted && a_length.div_ceil(64) as usize <= nout {
            lay(&mut expected.out, 0, &rules::rows(&b));
        }
        if fault("a recovery clears later words") && accepted {
            expected.out[rules::set_count(&a).div_ceil(64) as usize..].fill(0);
        }
        if fault("a recovery's density is of self's length") && accepted {
            expected.answer.density = Answer::summary(expected.answer.cells[COUNT], a_length, 0).density;
        }
        if fault("a recovery tells a route") && accepted {
            expected.answer.cells[ROUTE] = 9;
        }
        if fault("17 does not tell its row") {
            expected.answer.cells[OUTSIDE] = 0;
        }
        if fault("8 before 17") && expected.answer.cells[0] == 17 && rules::set_count(&a).div_ceil(64) > nout as u64 {
            expected.answer = Answer::refused(8, 0);
        }
        written(expected, out, nout, ans, den);
    }
}

pub unsafe fn probe_set(
    which: u64,
    a_form: u64, a_length: u64, a_start: u64, a_claimed: u64,
    a_words: *const u64, a_nwords: usize, a_rows: *const u32, a_nrows: usize,
    b_form: u64, b_length: u64, b_start: u64, b_claimed: u64,
    b_words: *const u64, b_nwords: usize, b_rows: *const u32, b_nrows: usize,
    out: *mut u64, nout: usize, ans: *mut u64, nans: usize, den: *mut f64, nden: usize,
) {
    if nans < 16 || nden < 1 {
        return;
    }
    unsafe {
        let a = operand(a_form, a_length, a_start, a_claimed, a_words, a_nwords, a_rows, a_nrows);
        let b = operand(b_form, b_length, b_start, b_claimed, b_words, b_nwords, b_rows, b_nrows);
        let before = slice::from_raw_parts(out, nout);
        let mut expected = match fault("and-not exchanged") && which == 2 {
            true => rules::set(2, &b, &a, before),
            false => rules::set(which, &a, &b, before),
        };
        if fault("a set operation looks into runs") && expected.answer.cells[0] == 12 && a_form == RUNS {
            let number = rules::to_words(&a, &[]).answer.cells[0];
            expected.answer.cells[0] = if number == 14 { 14 } else { 12 };
        }
        written(expected, out, nout, ans, den);
    }
}

pub unsafe fn probe_feed(
    done: u64, ranks: u64, kept: u64,
    a_form: u64, a_length: u64, a_start: u64, a_claimed: u64,
    a_words: *const u64, a_nwords: usize, a_rows: *const u32, a_nrows: usize,
    b_form: u64, b_length: u64, b_start: u64, b_claimed: u64,
    b_words: *const u64, b_nwords: usize, b_rows: *const u32, b_nrows: usize,
    out: *mut u64, nout: usize, ans: *mut u64, nans: usize, den: *mut f64, nden: usize,
) {
    if nans < 16 || nden < 1 {
        return;
    }
    unsafe {
        let a = operand(a_form, a_length, a_start, a_claimed, a_words, a_nwords, a_rows, a_nrows);
        let b = operand(b_form, b_length, b_start, b_claimed, b_words, b_nwords, b_rows, b_nrows);
        let before = slice::from_raw_parts(out, nout);
        let mut expected = rules::feed([done, ranks, kept], &a, &b, before);
        let accepted = expected.answer.cells[0] == 0;
        if fault("a feed clears its word") && accepted && done % 64 != 0 && a_length > 0 {
            expected.out[(done / 64) as usize] &= u64::MAX << (done % 64);
        }
        if fault("ranks advance by kept") && accepted {
            expected.answer.cells[6] = ranks + expected.answer.cells[COUNT];
        }
        if fault("a refused feed gives a fresh state") && !accepted {
            expected.answer = expected.answer.with_state([0; 3]);
        }
        written(expected, out, nout, ans, den);
    }
}

pub unsafe fn probe_recover_feed(
    done: u64, ranks: u64, kept: u64,
    a_form: u64, a_length: u64, a_start: u64, a_claimed: u64,
    a_words: *const u64, a_nwords: usize, a_rows: *const u32, a_nrows: usize,
    b_form: u64, b_length: u64, b_start: u64, b_claimed: u64,
    b_words: *const u64, b_nwords: usize, b_rows: *const u32, b_nrows: usize,
    out: *mut u64, nout: usize, ans: *mut u64, nans: usize, den: *mut f64, nden: usize,
) {
    if nans < 16 || nden < 1 {
        return;
    }
    unsafe {
        let a = operand(a_form, a_length, a_start, a_claimed, a_words, a_nwords, a_rows, a_nrows);
        let b = operand(b_form, b_length, b_start, b_claimed, b_words, b_nwords, b_rows, b_nrows);
        let before = slice::from_raw_parts(out, nout);
        let mut expected = rules::recovery_feed([done, ranks, kept], &a, &b, before);
        let accepted = expected.answer.cells[0] == 0;
        if fault("a feed of recovery clears the rest of its word") && accepted && expected.answer.cells[6] % 64 != 0 {
            let end = expected.answer.cells[6];
            expected.out[(end / 64) as usize] &= !(u64::MAX << (end % 64));
        }
        if fault("a feed of recovery moves done by its ranks") && accepted {
            expected.answer.cells[5] = done + rules::set_count(&a);
        }
        if fault("17 counts from the stream's start") && expected.answer.cells[0] == 17 {
            expected.answer.cells[OUTSIDE] += done;
        }
        if fault("17 hands a fresh state back") && expected.answer.cells[0] == 17 {
            expected.answer = expected.answer.with_state([0; 3]);
        }
        written(expected, out, nout, ans, den);
    }
}

pub unsafe fn probe_program(
    input: *const u8, ninput: usize, out: *mut u8, nout: usize,
    ans: *mut u64, nans: usize, den: *mut f64, nden: usize,
) {
    if nans < 16 || nden < 1 {
        return;
    }
    unsafe {
        let mut input = slice::from_raw_parts(input, ninput).to_vec();
        if fault("the program passes over returns") {
            input.retain(|&byte| byte != b'\r');
        }
        if fault("the program looks at seven bits of a byte") {
            input.iter_mut().for_each(|byte| *byte &= 0x7f);
        }
        if fault("the program takes a last line without its newline") && !input.ends_with(b"\n") {
            input.push(b'\n');
        }
        let before = slice::from_raw_parts(out, nout);
        let mut expected = rules::program(&input, before);
        if fault("the program fills an output that is too short") && expected.answer.cells[0] == 8 {
            expected.out = rules::program(&input, &vec![0; nout + 1]).out[..nout].to_vec();
        }
        written(expected, out, nout, ans, den);
    }
}
