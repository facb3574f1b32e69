//! The Rust crate: masks made of operands that document 01 accepts, and what the crate gives.
use switched_std::cpu;
use vortex_buffer::BitBuffer;
use vortex_mask::{AllOr, Mask};

use crate::given::Given;
use crate::operand::{ALL, LIST, NONE, Operand, WORDS};

pub fn mask(operand: &Operand) -> Mask {
    let length = operand.length as usize;
    match operand.form {
        ALL => Mask::new_true(length),
        NONE => Mask::new_false(length),
        WORDS => Mask::from_buffer(BitBuffer::from_words(&operand.words, operand.start as usize, length)),
        LIST => Mask::from_indices(length, operand.rows.iter().map(|&row| row as usize)),
        _ => Mask::from_slices(length, slices(&operand.rows)),
    }
}

fn slices(numbers: &[u32]) -> Vec<(usize, usize)> {
    numbers.chunks(2).map(|run| (run[0] as usize, run[1] as usize)).collect()
}

/// The mask's index list is built now, so that it counts as cached in what follows.
pub fn cache_indices(mask: &Mask) {
    if let Some(values) = mask.values() {
        values.indices();
    }
}

pub fn given(mask: &Mask) -> Given {
    let given = Given {
        words: mask.to_bit_buffer().chunks().iter_padded().collect(),
        count: mask.true_count() as u64,
        density: mask.density().to_bits(),
    };
    #[cfg(feature = "mirror")]
    let given = crate::mirror::crate_gives(given);
    given
}

pub fn composed(a: &Mask, b: &Mask, bmi2: bool) -> Given {
    cpu::allow_bmi2(bmi2);
    given(&a.intersect_by_rank(b))
}

/// The crate's own ways through a composition, as its `intersect_by_rank` chooses among them.
pub const PATHS: [&str; 7] = [
    "a mask as it is, or none",
    "index lists",
    "mask-driven",
    "bit buffers, network",
    "bit buffers, loop",
    "rank indices, network",
    "rank indices, loop",
];

/// Which of `PATHS` the crate takes on its portable paths, by its tests on lists that it has and on counts.
pub fn path(a: &Mask, b: &Mask) -> usize {
    let (Some(own), Some(ranks)) = (a.values(), b.values()) else {
        return 0;
    };
    let loop_form = usize::from(own.density() < 1.0 / 16.0);
    let both_listed = own.cached_indices().is_some() && ranks.cached_indices().is_some();
    if both_listed && ranks.true_count() < own.len().div_ceil(64) || own.true_count() * 64 < own.len() {
        return 1;
    }
    if ranks.true_count() * 32 < ranks.len() {
        return 2;
    }
    match ranks.cached_indices() {
        Some(listed) if listed.len() * 4 <= ranks.len() => 5 + loop_form,
        _ => 3 + loop_form,
    }
}

/// Every way the crate has to the set operation: by reference, and with an owned left mask.
pub fn set(which: u64, a: &Mask, b: &Mask) -> Vec<Given> {
    match which {
        0 => vec![given(&(a & b)), given(&(a.clone() & b)), given(&(owned(a) & b))],
        1 => vec![given(&(a | b)), given(&(a.clone() | b)), given(&(owned(a) | b))],
        2 => vec![given(&a.clone().bitand_not(b)), given(&owned(a).bitand_not(b))],
        _ => vec![given(&!a), given(&!a.clone())],
    }
}

/// A copy that shares nothing, so that its buffer may be taken.
fn owned(mask: &Mask) -> Mask {
    match mask.values() {
        Some(values) => Mask::from_buffer(values.bit_buffer().clone()),
        None => mask.clone(),
    }
}

pub fn listed(mask: &Mask) -> Vec<u32> {
    match mask.indices() {
        AllOr::All => (0..mask.len() as u32).collect(),
        AllOr::None => Vec::new(),
        AllOr::Some(indices) => indices.iter().map(|&index| index as u32).collect(),
    }
}

/// The mask's slices as numbers in pairs: all is one of them, but none at length 0.
pub fn sliced(mask: &Mask) -> Vec<u32> {
    match mask.slices() {
        AllOr::All if mask.len() > 0 => vec![0, mask.len() as u32],
        AllOr::All | AllOr::None => Vec::new(),
        AllOr::Some(slices) => slices.iter().flat_map(|&(first, past)| [first as u32, past as u32]).collect(),
    }
}
