//! In the place of the crate's file for Arm's SVE2, which is not among those that we have. Nothing here is called: the
//! stand-in for the standard library detects no SVE2.
use super::{BitBuffer, Mask};

pub unsafe fn intersect_bit_buffers_sve2(_: &BitBuffer, _: &BitBuffer, _: usize) -> Mask {
    unreachable!()
}

pub unsafe fn intersect_bit_buffer_by_rank_indices_sve2(_: &BitBuffer, _: &[usize]) -> Mask {
    unreachable!()
}

pub unsafe fn intersect_mask_driven_sve2<I: Iterator<Item = usize>>(_: &BitBuffer, _: I, _: usize) -> Mask {
    unreachable!()
}
