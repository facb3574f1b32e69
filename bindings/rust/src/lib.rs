//! Word deposit and select from Boltamber's C library, as safe functions.
//!
//! Both are proved, in Rattle, for every input: see the repository's README for what the proof says and what it assumes.
//! Nothing checks the two declarations below against the library, so they stand here alone, and the tests run them.
//!
//! ```
//! // Rows 1, 3 and 4 were kept by the first stage; of those the second kept ranks 0 and 2.
//! assert_eq!(boltamber::deposit(0b101, 0b11010), 0b10010);
//! // The row that has rank 2.
//! assert_eq!(boltamber::select(0b11010, 2), Some(4));
//! ```

#[link(name = "host", kind = "static")]
extern "C" {
    fn boltamber_deposit(source: u64, mask: u64) -> u64;
    fn boltamber_select(word: u64, rank: u64) -> u64;
}

/// Bit k of `source` at the k-th set bit of `mask`, as PDEP does; all other bits are 0.
///
/// Source bits from the mask's count on are ignored.
///
/// ```
/// assert_eq!(boltamber::deposit(5, 26), 18);
/// assert_eq!(boltamber::deposit(u64::MAX, 0), 0);
/// ```
pub fn deposit(source: u64, mask: u64) -> u64 {
    // SAFETY: the function takes any two numbers, and neither reads nor writes memory.
    unsafe { boltamber_deposit(source, mask) }
}

/// The position of the set bit of `word` that has exactly `rank` set bits below it; `None` where the word has no more
/// than `rank` set bits.
///
/// ```
/// assert_eq!(boltamber::select(26, 0), Some(1));
/// assert_eq!(boltamber::select(26, 3), None);
/// ```
pub fn select(word: u64, rank: u64) -> Option<u32> {
    // SAFETY: the function takes any two numbers, and neither reads nor writes memory.
    match unsafe { boltamber_select(word, rank) } {
        position @ 0..=63 => Some(position as u32),
        _ => None,
    }
}
