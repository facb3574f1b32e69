//! The private functions of the crate's `intersect_by_rank/mod.rs`: the file, unchanged, with drivers in the same module.
//! Whole compositions go through the package `vortex-mask`; the types here are only what the file needs to compile.

extern crate switched_std as std;

mod types;

pub(crate) use types::{Mask, MaskValues, MaskValuesRef};

/// The file, and drivers.
#[allow(dead_code)]
pub mod private {
    include!(concat!(env!("OUT_DIR"), "/source.rs"));

    /// `Portable`: the choice with the byte network. Never inlined, so that a call of it can be timed.
    #[inline(never)]
    pub fn network_deposit(source: u64, mask: u64) -> u64 {
        Portable::deposit_bits(source, mask, mask.count_ones() as usize)
    }

    /// `Portable` with a count that the caller claims.
    pub fn claiming_deposit(source: u64, mask: u64, claimed: usize) -> u64 {
        Portable::deposit_bits(source, mask, claimed)
    }

    /// `PortableLoop`.
    pub fn loop_deposit(source: u64, mask: u64) -> u64 {
        PortableLoop::deposit_bits(source, mask, mask.count_ones() as usize)
    }

    /// `Bmi2`: only where the CPU has it.
    #[cfg(target_arch = "x86_64")]
    pub fn bmi2_deposit(source: u64, mask: u64) -> Option<u64> {
        ::switched_std::cpu::has_bmi2().then(|| bmi2::Bmi2::deposit_bits(source, mask, mask.count_ones() as usize))
    }

    /// `select_bit_position_portable`; the rank must be below the word's count. Never inlined, as above.
    #[inline(never)]
    pub fn portable_select(word: u64, rank: usize) -> usize {
        select_bit_position_portable(word, rank)
    }

    /// `Bmi2`'s select: only where the CPU has it; the rank must be below the word's count.
    #[cfg(target_arch = "x86_64")]
    pub fn bmi2_select(word: u64, rank: usize) -> Option<usize> {
        ::switched_std::cpu::has_bmi2().then(|| bmi2::Bmi2::select_bit_position(word, rank))
    }

    /// `RankBits`; the buffer's offset plus `offset` must be below 2^64.
    pub fn rank_read(buffer: &BitBuffer, offset: usize) -> u64 {
        RankBits::new(buffer).read(offset)
    }

    /// What a kernel gave: its name, the result's words and its count.
    pub struct Kernel {
        pub name: &'static str,
        pub words: Vec<u64>,
        pub count: usize,
    }

    fn kernel(name: &'static str, result: Mask) -> Kernel {
        Kernel { name, words: result.words(), count: result.true_count() }
    }

    /// Every portable kernel on the same masks, whichever of them the crate would choose.
    pub fn portable_kernels(own: &BitBuffer, ranks: &BitBuffer) -> Vec<Kernel> {
        let own_list: Vec<usize> = own.set_indices().collect();
        let list: Vec<usize> = ranks.set_indices().collect();
        let (len, count) = (own.len(), list.len());
        let driven = intersect_mask_driven::<Portable, _>(own, list.iter().copied(), count);
        vec![
            kernel("bit buffers, network", intersect_bit_buffers::<Portable>(own, ranks, count)),
            kernel("bit buffers, loop", intersect_bit_buffers::<PortableLoop>(own, ranks, count)),
            kernel("rank indices, network", intersect_bit_buffer_by_rank_indices::<Portable>(own, &list)),
            kernel("rank indices, loop", intersect_bit_buffer_by_rank_indices::<PortableLoop>(own, &list)),
            kernel("mask-driven", driven),
            kernel("index lists", intersect_by_rank_indices(len, &own_list, &list)),
        ]
    }

    /// The BMI2 kernels; none where the CPU lacks it.
    #[cfg(target_arch = "x86_64")]
    pub fn bmi2_kernels(own: &BitBuffer, ranks: &BitBuffer) -> Vec<Kernel> {
        if !::switched_std::cpu::has_bmi2() {
            return Vec::new();
        }
        let list: Vec<usize> = ranks.set_indices().collect();
        // SAFETY: the CPU has BMI2 and POPCNT.
        let (buffers, indices, driven) = unsafe {
            (
                bmi2::intersect_bit_buffers_bmi2(own, ranks, list.len()),
                bmi2::intersect_bit_buffer_by_rank_indices_bmi2(own, &list),
                bmi2::intersect_mask_driven_bmi2(own, list.iter().copied(), list.len()),
            )
        };
        vec![
            kernel("bit buffers, BMI2", buffers),
            kernel("rank indices, BMI2", indices),
            kernel("mask-driven, BMI2", driven),
        ]
    }

    // Another CPU has no BMI2.
    #[cfg(not(target_arch = "x86_64"))]
    pub fn bmi2_deposit(_source: u64, _mask: u64) -> Option<u64> {
        None
    }

    #[cfg(not(target_arch = "x86_64"))]
    pub fn bmi2_select(_word: u64, _rank: usize) -> Option<usize> {
        None
    }

    #[cfg(not(target_arch = "x86_64"))]
    pub fn bmi2_kernels(_own: &BitBuffer, _ranks: &BitBuffer) -> Vec<Kernel> {
        Vec::new()
    }
}
