//! What the crate gives of a mask.

/// Its rows as words from bit 0 on, its count, its density's bits.
#[derive(PartialEq)]
pub struct Given {
    pub words: Vec<u64>,
    pub count: u64,
    pub density: u64,
}
