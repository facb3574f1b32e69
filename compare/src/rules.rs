//! Document 01, and document 02's runs and recovery, written out plainly, row by row: the refusal table with its order, the route table,
//! and what is written. It shares nothing with the Rust crate or the proved code.
use crate::answer::Answer;
use crate::operand::{ALL, LIST, NONE, Operand, RUNS, WORDS, count, in_words, lay, runs_of, set_rows};

pub const LIMIT: u64 = 1_048_576;
pub const UNKNOWN_FORM: u64 = 99;
pub const LONGEST_LINE: usize = 8_192; // characters after the key of one of the program's lines

/// The answer, and the whole of the lent output after the call.
pub struct Expected<T> {
    pub answer: Answer,
    pub out: Vec<T>,
}

fn refused<T: Clone>(number: u64, operand: u64, out: &[T]) -> Expected<T> {
    Expected { answer: Answer::refused(number, operand), out: out.to_vec() }
}

// ---- words

pub fn deposit(source: u64, mask: u64, claimed: u64) -> Answer {
    if claimed != u64::from(mask.count_ones()) {
        return Answer::refused(4, 0);
    }
    Answer::word(published_pdep(source, mask))
}

/// The PDEP entry of the Intel 64 and IA-32 manuals, line by line.
pub fn published_pdep(source: u64, mask: u64) -> u64 {
    let (temp, mut dest) = (source, 0);
    let (mut m, mut k) = (0, 0);
    while m < 64 {
        if mask >> m & 1 == 1 {
            dest |= (temp >> k & 1) << m;
            k += 1;
        }
        m += 1;
    }
    dest
}

/// The PEXT entry of the same manuals, line by line.
pub fn published_pext(source: u64, mask: u64) -> u64 {
    let (temp, mut dest) = (source, 0);
    let (mut m, mut k) = (0, 0);
    while m < 64 {
        if mask >> m & 1 == 1 {
            dest |= (temp >> m & 1) << k;
            k += 1;
        }
        m += 1;
    }
    dest
}

pub fn select(word: u64, rank: u64) -> Answer {
    let mut below = 0;
    for position in 0..64 {
        if word >> position & 1 == 1 {
            if below == rank {
                return Answer::word(position);
            }
            below += 1;
        }
    }
    Answer::refused(9, 0)
}

pub fn rank_read(words: &[u64], start: u64, offset: u64) -> Answer {
    if start > 63 {
        return Answer::refused(2, 0);
    }
    let mut read = 0;
    for k in 0..64u128 {
        let position = u128::from(start) + u128::from(offset) + k;
        if position < 64 * words.len() as u128 {
            let word = words[(position / 64) as usize];
            read |= (word >> (position % 64) & 1) << k;
        }
    }
    Answer::word(read)
}

// ---- operands

/// 0 where the operand passes.
fn operand_refusal(operand: &Operand, in_set_operation: bool) -> u64 {
    if in_set_operation && has_row_numbers(operand) {
        return 12;
    }
    if operand.length > LIMIT {
        return 1;
    }
    match operand.form {
        WORDS => words_refusal(operand),
        LIST => list_refusal(operand),
        RUNS => runs_refusal(operand),
        _ => 0,
    }
}

/// Runs count as a list in the set operations and in the route table.
fn has_row_numbers(operand: &Operand) -> bool {
    [LIST, RUNS].contains(&operand.form)
}

fn words_refusal(operand: &Operand) -> u64 {
    if operand.start > 63 {
        return 2;
    }
    if (operand.words.len() as u64) < (operand.start + operand.length).div_ceil(64) {
        return 3;
    }
    if operand.claimed != count(&rows(operand)) {
        return 4;
    }
    0
}

fn list_refusal(operand: &Operand) -> u64 {
    let ascending = operand.rows.windows(2).all(|pair| pair[0] < pair[1]);
    if !ascending {
        return 5;
    }
    match operand.rows.last() {
        Some(&last) if u64::from(last) >= operand.length => 6,
        _ => 0,
    }
}

fn runs_refusal(operand: &Operand) -> u64 {
    let mut lowest = 0; // first row that the next run may have: one row past each run is not set
    for run in operand.rows.chunks(2) {
        let &[first, past] = run else {
            return 14;
        };
        let [first, past] = [first, past].map(u64::from);
        if first < lowest || past <= first || past > operand.length {
            return 14;
        }
        lowest = past + 1;
    }
    0
}

/// How many lines of the refusal table hold of an operand taken alone, whatever the order; 4 where it is plain to see.
pub fn refusals_that_hold(operand: &Operand, in_set_operation: bool) -> u64 {
    let is_words = operand.form == WORDS;
    let is_list = operand.form == LIST;
    let needed = (u128::from(operand.start) + u128::from(operand.length)).div_ceil(64);
    let ascending = operand.rows.windows(2).all(|pair| pair[0] < pair[1]);
    let last_too_far = operand.rows.last().is_some_and(|&last| u64::from(last) >= operand.length);
    let lines = [
        has_row_numbers(operand) && in_set_operation,
        operand.length > LIMIT,
        is_words && operand.start > 63,
        is_words && (operand.words.len() as u128) < needed,
        is_words && operand.claimed > operand.length,
        is_list && !ascending,
        is_list && ascending && last_too_far,
        operand.form == RUNS && runs_refusal(operand) != 0,
    ];
    lines.iter().filter(|&&holds| holds).count() as u64
}

/// The rows of an operand that passes, but for its claimed count.
pub fn rows(operand: &Operand) -> Vec<bool> {
    let length = operand.length as usize;
    match operand.form {
        ALL => vec![true; length],
        NONE => vec![false; length],
        WORDS => {
            let bit = |position: usize| operand.words[position / 64] >> (position % 64) & 1 == 1;
            (0..length).map(|row| bit(operand.start as usize + row)).collect()
        }
        LIST => {
            let mut rows = vec![false; length];
            for &row in &operand.rows {
                rows[row as usize] = true;
            }
            rows
        }
        _ => {
            let mut rows = vec![false; length];
            for run in operand.rows.chunks(2) {
                rows[run[0] as usize..run[1] as usize].fill(true);
            }
            rows
        }
    }
}

/// The set rows of an operand that passes.
pub fn set_count(operand: &Operand) -> u64 {
    count(&rows(operand))
}

fn unknown_form(operand: &Operand) -> bool {
    ![ALL, NONE, WORDS, LIST, RUNS].contains(&operand.form)
}

/// The refusal and the operand that it names, 0 and 0 where both pass.
fn operands_refusal(a: &Operand, b: &Operand, in_set_operation: bool) -> (u64, u64) {
    let first = operand_refusal(a, in_set_operation);
    if first != 0 {
        return (first, 1);
    }
    let second = operand_refusal(b, in_set_operation);
    if second != 0 {
        return (second, 2);
    }
    (0, 0)
}

// ---- operations

pub fn to_words(a: &Operand, out: &[u64]) -> Expected<u64> {
    if unknown_form(a) {
        return refused(UNKNOWN_FORM, 0, out);
    }
    match operand_refusal(a, false) {
        0 => write_words(&rows(a), 0, out),
        number => refused(number, 1, out),
    }
}

pub fn to_list(a: &Operand, out: &[u32]) -> Expected<u32> {
    to_numbers(a, out, set_rows, |list| Answer::summary(list.len() as u64, a.length, 0))
}

/// The count is of rows, and the number written of runs.
pub fn to_runs(a: &Operand, out: &[u32]) -> Expected<u32> {
    to_numbers(a, out, runs_of, |runs| {
        let rows = runs.chunks(2).map(|run| u64::from(run[1] - run[0])).sum();
        Answer::summary(rows, a.length, 0).with_written(runs.len() as u64 / 2)
    })
}

/// The numbers that `told` makes of the mask's rows, from the output's front on; later numbers as they were.
fn to_numbers(
    a: &Operand,
    out: &[u32],
    told: impl Fn(&[bool]) -> Vec<u32>,
    answer: impl Fn(&[u32]) -> Answer,
) -> Expected<u32> {
    if unknown_form(a) {
        return refused(UNKNOWN_FORM, 0, out);
    }
    let number = operand_refusal(a, false);
    if number != 0 {
        return refused(number, 1, out);
    }
    let numbers = told(&rows(a));
    if out.len() < numbers.len() {
        return refused(8, 0, out);
    }
    let mut after = out.to_vec();
    after[..numbers.len()].copy_from_slice(&numbers);
    Expected { answer: answer(&numbers), out: after }
}

pub fn set(which: u64, a: &Operand, b: &Operand, out: &[u64]) -> Expected<u64> {
    if unknown_form(a) || unknown_form(b) {
        return refused(UNKNOWN_FORM, 0, out);
    }
    if which > 2 {
        return not(a, out);
    }
    let (number, operand) = operands_refusal(a, b, true);
    if number != 0 {
        return refused(number, operand, out);
    }
    if a.length != b.length {
        return refused(7, 0, out);
    }
    let pairs = rows(a).into_iter().zip(rows(b));
    let result: Vec<bool> = match which {
        0 => pairs.map(|(a, b)| a && b).collect(),
        1 => pairs.map(|(a, b)| a || b).collect(),
        _ => pairs.map(|(a, b)| a && !b).collect(),
    };
    write_words(&result, 0, out)
}

fn not(a: &Operand, out: &[u64]) -> Expected<u64> {
    match operand_refusal(a, true) {
        0 => {
            let result: Vec<bool> = rows(a).into_iter().map(|row| !row).collect();
            write_words(&result, 0, out)
        }
        number => refused(number, 1, out),
    }
}

pub fn compose(a: &Operand, b: &Operand, out: &[u64]) -> Expected<u64> {
    if unknown_form(a) || unknown_form(b) {
        return refused(UNKNOWN_FORM, 0, out);
    }
    let (number, operand) = operands_refusal(a, b, false);
    if number != 0 {
        return refused(number, operand, out);
    }
    let own = rows(a);
    if b.length != count(&own) {
        return refused(7, 0, out);
    }
    let ranks = rows(b);
    write_words(&laid_back(&own, &ranks), route(a, &own, b, &ranks), out)
}

/// Row i is kept exactly if self has i and the rank mask has i's rank.
pub fn laid_back(own: &[bool], ranks: &[bool]) -> Vec<bool> {
    let mut rank = 0;
    let mut result = Vec::with_capacity(own.len());
    for &row in own {
        result.push(row && ranks[rank]);
        rank += usize::from(row);
    }
    result
}

/// From rows back to ranks. All of the second mask's rows must lie in self: 17 tells the first that does not.
pub fn recover(a: &Operand, b: &Operand, out: &[u64]) -> Expected<u64> {
    if unknown_form(a) || unknown_form(b) {
        return refused(UNKNOWN_FORM, 0, out);
    }
    let (number, operand) = operands_refusal(a, b, false);
    if number != 0 {
        return refused(number, operand, out);
    }
    if b.length != a.length {
        return refused(7, 0, out);
    }
    let (own, kept) = (rows(a), rows(b));
    match row_outside(&own, &kept) {
        Some(row) => Expected { answer: Answer::refused(17, 0).with_row_outside(row), out: out.to_vec() },
        None => write_words(&ranks_kept(&own, &kept), 0, out),
    }
}

/// The first row of the second mask that is not self's.
fn row_outside(own: &[bool], kept: &[bool]) -> Option<u64> {
    (0..own.len()).find(|&row| kept[row] && !own[row]).map(|row| row as u64)
}

/// Rank r is set exactly if self's r-th row is kept.
pub fn ranks_kept(own: &[bool], kept: &[bool]) -> Vec<bool> {
    (0..own.len()).filter(|&row| own[row]).map(|row| kept[row]).collect()
}

/// Words output: start 0, clear bits at or past the length in the last word, later words as they were.
fn write_words(result: &[bool], route: u64, out: &[u64]) -> Expected<u64> {
    let need = result.len().div_ceil(64);
    if out.len() < need {
        return refused(8, 0, out);
    }
    let mut after = out.to_vec();
    after[..need].fill(0);
    lay(&mut after, 0, result);
    Expected { answer: Answer::summary(count(result), result.len() as u64, route), out: after }
}

/// The route table: the first line that fits.
pub fn route(a: &Operand, own: &[bool], b: &Operand, ranks: &[bool]) -> u64 {
    let (own_count, rank_count) = (count(own), count(ranks));
    let (own_length, rank_length) = (own.len() as u64, ranks.len() as u64);
    let full = |count: u64, length: u64| length > 0 && count == length;
    if full(own_count, own_length) {
        return 1;
    }
    if full(rank_count, rank_length) {
        return 2;
    }
    if own_count == 0 || rank_count == 0 {
        return 3;
    }
    let loop_form = 16 * own_count < own_length;
    match (has_row_numbers(a), has_row_numbers(b)) {
        (true, true) => 4,
        (true, false) => 5,
        (false, _) if 32 * rank_count < rank_length => 6,
        (false, true) => {
            if loop_form {
                8
            } else {
                7
            }
        }
        (false, false) => {
            if loop_form {
                10
            } else {
                9
            }
        }
    }
}

/// A feed of the composer: bits done to done + length - 1 of the output, and no other.
pub fn feed(state: [u64; 3], a: &Operand, b: &Operand, out: &[u64]) -> Expected<u64> {
    let second_length = |own: &[bool]| count(own);
    if let Some(refused) = feed_refused(state, a, b, second_length, out) {
        return refused;
    }
    let (own, ranks) = (rows(a), rows(b));
    let route = route(a, &own, b, &ranks);
    feed_written(state, &own, &laid_back(&own, &ranks), state[0], route, out)
}

/// A feed of recovery: a bit for each of the piece's set rows, from bit ranks of the output on. 17's row is the piece's own.
pub fn recovery_feed(state: [u64; 3], a: &Operand, b: &Operand, out: &[u64]) -> Expected<u64> {
    let second_length = |own: &[bool]| own.len() as u64;
    if let Some(refused) = feed_refused(state, a, b, second_length, out) {
        return refused;
    }
    let (own, kept) = (rows(a), rows(b));
    match row_outside(&own, &kept) {
        Some(row) => {
            let answer = Answer::refused(17, 0).with_row_outside(row).with_state(state);
            Expected { answer, out: out.to_vec() }
        }
        None => feed_written(state, &own, &ranks_kept(&own, &kept), state[1], 0, out),
    }
}

/// Up to 11; the second piece is to be as long as `second_length` says of self's rows.
fn feed_refused(
    state: [u64; 3],
    a: &Operand,
    b: &Operand,
    second_length: impl Fn(&[bool]) -> u64,
    out: &[u64],
) -> Option<Expected<u64>> {
    if unknown_form(a) || unknown_form(b) {
        return Some(refused(UNKNOWN_FORM, 0, out));
    }
    let [done, ranks, kept] = state;
    let as_given =
        |number, operand| Expected { answer: Answer::refused(number, operand).with_state(state), out: out.to_vec() };
    if !(kept <= ranks && ranks <= done && done <= LIMIT) {
        return Some(as_given(10, 0));
    }
    let (number, operand) = operands_refusal(a, b, false);
    if number != 0 {
        return Some(as_given(number, operand));
    }
    if b.length != second_length(&rows(a)) {
        return Some(as_given(7, 0));
    }
    (done + a.length > LIMIT).then(|| as_given(11, 0))
}

/// The result from bit `at` on, or 8; and the state moved past the piece.
fn feed_written(state: [u64; 3], own: &[bool], result: &[bool], at: u64, route: u64, out: &[u64]) -> Expected<u64> {
    let (written, mut after) = (result.len() as u64, out.to_vec());
    if (out.len() as u64) < (at + written).div_ceil(64) {
        return Expected { answer: Answer::refused(8, 0).with_state(state), out: after };
    }
    lay(&mut after, at as usize, result);
    let [done, ranks, kept] = state;
    let state = [done + own.len() as u64, ranks + count(own), kept + count(result)];
    Expected { answer: Answer::summary(count(result), written, route).with_state(state), out: after }
}

// ---- the program

/// What the program writes, and the answer that its lines tell; 8 where the output is shorter.
pub fn program(input: &[u8], out: &[u8]) -> Expected<u8> {
    let (answer, text) = answer_and_lines(input);
    if out.len() < text.len() {
        return refused(8, 0, out);
    }
    let mut after = out.to_vec();
    after[..text.len()].copy_from_slice(text.as_bytes());
    Expected { answer: answer.with_written(text.len() as u64), out: after }
}

fn answer_and_lines(input: &[u8]) -> (Answer, String) {
    let Some((own, ranks)) = two_masks(input) else {
        return (Answer::refused(13, 0), lines_of_refusal(13));
    };
    if ranks.len() as u64 != count(&own) {
        return (Answer::refused(7, 0), lines_of_refusal(7));
    }
    let result = laid_back(&own, &ranks);
    let route = route(&in_words(&own), &own, &in_words(&ranks), &ranks);
    let answer = Answer::summary(count(&result), own.len() as u64, route);
    (answer, lines(route, count(&result), &result))
}

/// The four lines of an accepted input.
pub fn lines(route: u64, count: u64, result: &[bool]) -> String {
    format!("refusal=0\nroute={route}\ncount={count}\nbits={}\n", digits(result))
}

/// Its number, route=0, count=0 and `bits=` with nothing after it.
fn lines_of_refusal(number: u64) -> String {
    format!("refusal={number}\nroute=0\ncount=0\nbits=\n")
}

/// Row 0 first.
pub fn digits(rows: &[bool]) -> String {
    rows.iter().map(|&row| if row { '1' } else { '0' }).collect()
}

/// Two lines, `self=` and `rank=`, in that order, then the end of the input; none where it is anything else.
fn two_masks(input: &[u8]) -> Option<(Vec<bool>, Vec<bool>)> {
    let (own, rest) = line(b"self=", input)?;
    let (ranks, rest) = line(b"rank=", rest)?;
    rest.is_empty().then_some((own, ranks))
}

/// The key, at most 8,192 characters 0 or 1, a newline; with what comes after it.
fn line<'a>(key: &[u8], input: &'a [u8]) -> Option<(Vec<bool>, &'a [u8])> {
    let after_key = input.strip_prefix(key)?;
    let end = after_key.iter().position(|&byte| byte == b'\n')?;
    let (characters, rest) = (&after_key[..end], &after_key[end + 1..]);
    if characters.len() > LONGEST_LINE || !characters.iter().all(|character| b"01".contains(character)) {
        return None;
    }
    Some((characters.iter().map(|&character| character == b'1').collect(), rest))
}
