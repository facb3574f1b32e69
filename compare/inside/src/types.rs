//! The crate's types as far as `intersect_by_rank/mod.rs` names them.
use std::sync::{Arc, OnceLock};

use vortex_buffer::BitBuffer;

#[derive(Clone)]
pub enum Mask {
    AllTrue(usize),
    AllFalse(usize),
    Values(MaskValuesRef),
}

pub type MaskValuesRef = Arc<MaskValues>;

pub struct MaskValues {
    pub buffer: BitBuffer,
    pub indices: OnceLock<Vec<usize>>,
    #[allow(dead_code)] // named in the file, read nowhere
    pub slices: OnceLock<Vec<(usize, usize)>>,
    pub true_count: usize,
    pub density: f64,
}

impl Mask {
    pub fn new_true(len: usize) -> Self {
        Mask::AllTrue(len)
    }

    pub fn new_false(len: usize) -> Self {
        Mask::AllFalse(len)
    }

    pub fn from_indices(len: usize, indices: impl IntoIterator<Item = usize>) -> Self {
        let indices: Vec<usize> = indices.into_iter().collect();
        let true_count = indices.len();
        Mask::Values(Arc::new(MaskValues {
            buffer: BitBuffer::from_indices(len, indices.iter().copied()),
            indices: OnceLock::from(indices),
            slices: OnceLock::new(),
            true_count,
            density: true_count as f64 / len as f64,
        }))
    }

    pub fn len(&self) -> usize {
        match self {
            Mask::AllTrue(len) | Mask::AllFalse(len) => *len,
            Mask::Values(values) => values.len(),
        }
    }

    /// The rows as words, from bit 0 on.
    pub fn words(&self) -> Vec<u64> {
        let whole = match self {
            Mask::AllTrue(len) => &BitBuffer::new_set(*len),
            Mask::AllFalse(len) => &BitBuffer::new_unset(*len),
            Mask::Values(values) => values.bit_buffer(),
        };
        whole.chunks().iter_padded().collect()
    }

    pub fn true_count(&self) -> usize {
        match self {
            Mask::AllTrue(len) => *len,
            Mask::AllFalse(_) => 0,
            Mask::Values(values) => values.true_count,
        }
    }
}

impl MaskValues {
    pub fn len(&self) -> usize {
        self.buffer.len()
    }

    pub fn true_count(&self) -> usize {
        self.true_count
    }

    pub fn density(&self) -> f64 {
        self.density
    }

    pub fn bit_buffer(&self) -> &BitBuffer {
        &self.buffer
    }

    pub fn indices(&self) -> &[usize] {
        self.indices.get_or_init(|| self.buffer.set_indices().collect())
    }
}
