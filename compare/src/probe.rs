//! The proved functions, as the static libraries have them: `host`, and `probe`, a flat boundary over every entry point.
//! Nothing checks these declarations against the libraries, so they stand here alone.

#[link(name = "host", kind = "static")]
unsafe extern "C" {
    pub safe fn boltamber_deposit(source: u64, mask: u64) -> u64;
    pub safe fn boltamber_select(word: u64, rank: u64) -> u64;
}

/// What stands on our side of every comparison but host's two functions.
pub const OURS: &str = if cfg!(feature = "mirror") {
    "a mirror, which shows nothing of the proved functions"
} else {
    "the proved functions"
};

#[cfg(feature = "mirror")]
pub use crate::mirror::*;

#[cfg(not(feature = "mirror"))]
pub use proved::*;

#[rustfmt::skip]
#[cfg(not(feature = "mirror"))]
mod proved {
    #[link(name = "probe", kind = "static")]
    unsafe extern "C" {
        pub fn probe_deposit(way: u64, source: u64, mask: u64, claimed: u64,
            ans: *mut u64, nans: usize, den: *mut f64, nden: usize);
        pub fn probe_select(word: u64, rank: u64, ans: *mut u64, nans: usize, den: *mut f64, nden: usize);
        pub fn probe_rank_read(words: *const u64, nwords: usize, start: u64, offset: u64,
            ans: *mut u64, nans: usize, den: *mut f64, nden: usize);
        pub fn probe_to_words(
            a_form: u64, a_length: u64, a_start: u64, a_claimed: u64,
            a_words: *const u64, a_nwords: usize, a_rows: *const u32, a_nrows: usize,
            out: *mut u64, nout: usize, ans: *mut u64, nans: usize, den: *mut f64, nden: usize);
        pub fn probe_to_list(
            a_form: u64, a_length: u64, a_start: u64, a_claimed: u64,
            a_words: *const u64, a_nwords: usize, a_rows: *const u32, a_nrows: usize,
            out: *mut u32, nout: usize, ans: *mut u64, nans: usize, den: *mut f64, nden: usize);
        pub fn probe_to_runs(
            a_form: u64, a_length: u64, a_start: u64, a_claimed: u64,
            a_words: *const u64, a_nwords: usize, a_rows: *const u32, a_nrows: usize,
            out: *mut u32, nout: usize, ans: *mut u64, nans: usize, den: *mut f64, nden: usize);
        pub fn probe_compose(
            a_form: u64, a_length: u64, a_start: u64, a_claimed: u64,
            a_words: *const u64, a_nwords: usize, a_rows: *const u32, a_nrows: usize,
            b_form: u64, b_length: u64, b_start: u64, b_claimed: u64,
            b_words: *const u64, b_nwords: usize, b_rows: *const u32, b_nrows: usize,
            out: *mut u64, nout: usize, ans: *mut u64, nans: usize, den: *mut f64, nden: usize);
        pub fn probe_recover(
            a_form: u64, a_length: u64, a_start: u64, a_claimed: u64,
            a_words: *const u64, a_nwords: usize, a_rows: *const u32, a_nrows: usize,
            b_form: u64, b_length: u64, b_start: u64, b_claimed: u64,
            b_words: *const u64, b_nwords: usize, b_rows: *const u32, b_nrows: usize,
            out: *mut u64, nout: usize, ans: *mut u64, nans: usize, den: *mut f64, nden: usize);
        pub fn probe_set(which: u64,
            a_form: u64, a_length: u64, a_start: u64, a_claimed: u64,
            a_words: *const u64, a_nwords: usize, a_rows: *const u32, a_nrows: usize,
            b_form: u64, b_length: u64, b_start: u64, b_claimed: u64,
            b_words: *const u64, b_nwords: usize, b_rows: *const u32, b_nrows: usize,
            out: *mut u64, nout: usize, ans: *mut u64, nans: usize, den: *mut f64, nden: usize);
        pub fn probe_feed(done: u64, ranks: u64, kept: u64,
            a_form: u64, a_length: u64, a_start: u64, a_claimed: u64,
            a_words: *const u64, a_nwords: usize, a_rows: *const u32, a_nrows: usize,
            b_form: u64, b_length: u64, b_start: u64, b_claimed: u64,
            b_words: *const u64, b_nwords: usize, b_rows: *const u32, b_nrows: usize,
            out: *mut u64, nout: usize, ans: *mut u64, nans: usize, den: *mut f64, nden: usize);
        pub fn probe_recover_feed(done: u64, ranks: u64, kept: u64,
            a_form: u64, a_length: u64, a_start: u64, a_claimed: u64,
            a_words: *const u64, a_nwords: usize, a_rows: *const u32, a_nrows: usize,
            b_form: u64, b_length: u64, b_start: u64, b_claimed: u64,
            b_words: *const u64, b_nwords: usize, b_rows: *const u32, b_nrows: usize,
            out: *mut u64, nout: usize, ans: *mut u64, nans: usize, den: *mut f64, nden: usize);
        pub fn probe_program(input: *const u8, ninput: usize, out: *mut u8, nout: usize,
            ans: *mut u64, nans: usize, den: *mut f64, nden: usize);
    }
}
