//! Deposit and select against what is published, written out plainly, and against the CPU's own PDEP where it has one:
//! every mask count, in every shape below.

use boltamber::{deposit, select};

/// The PDEP entry of the Intel 64 and IA-32 manuals, line by line.
fn published_pdep(source: u64, mask: u64) -> u64 {
    let (temp, mut dest) = (source, 0);
    let (mut m, mut k) = (0, 0);
    while m < 64 {
        if mask >> m & 1 == 1 {
            dest |= (temp >> k & 1) << m;
            k += 1;
        }
        m += 1;
    }
    dest
}

/// The set bits are counted from the lowest until the rank is reached.
fn plain_select(word: u64, rank: u64) -> Option<u32> {
    let mut below = 0;
    for position in 0..64 {
        if word >> position & 1 == 1 {
            if below == rank {
                return Some(position);
            }
            below += 1;
        }
    }
    None
}

#[cfg(target_arch = "x86_64")]
fn cpu_pdep(source: u64, mask: u64) -> Option<u64> {
    #[target_feature(enable = "bmi2")]
    unsafe fn pdep(source: u64, mask: u64) -> u64 {
        std::arch::x86_64::_pdep_u64(source, mask)
    }
    // SAFETY: called only where the CPU has BMI2.
    std::arch::is_x86_feature_detected!("bmi2").then(|| unsafe { pdep(source, mask) })
}

#[cfg(not(target_arch = "x86_64"))]
fn cpu_pdep(_: u64, _: u64) -> Option<u64> {
    None
}

/// A small generator (splitmix64), so that a run can be repeated.
struct Random(u64);

impl Random {
    fn next(&mut self) -> u64 {
        self.0 = self.0.wrapping_add(0x9e37_79b9_7f4a_7c15);
        let mut z = self.0;
        z = (z ^ (z >> 30)).wrapping_mul(0xbf58_476d_1ce4_e5b9);
        z = (z ^ (z >> 27)).wrapping_mul(0x94d0_49bb_1331_11eb);
        z ^ (z >> 31)
    }

    fn below(&mut self, n: u64) -> u64 {
        self.next() % n
    }

    /// `count` of the 64 bits, each choice as likely as any other.
    fn bits(&mut self, count: u32) -> u64 {
        let mut left = count as u64;
        let mut word = 0;
        for position in 0..64 {
            if self.below(64 - position) < left {
                word |= 1 << position;
                left -= 1;
            }
        }
        word
    }
}

fn low(count: u32) -> u64 {
    if count == 64 { u64::MAX } else { (1 << count) - 1 }
}

const SHAPES: u32 = 8;

/// A mask with exactly `count` set bits.
fn mask(shape: u32, count: u32, random: &mut Random) -> u64 {
    let turn = random.below(64) as u32;
    match shape {
        0 => low(count),
        1 => low(count).reverse_bits(),
        2 => low(count).rotate_left(turn),
        // two runs
        3 => {
            let first = random.below(count as u64 + 1) as u32;
            let gap = random.below(65 - count as u64) as u32;
            let second = low(count - first);
            let at = first + gap;
            low(first) | if at == 64 { 0 } else { second << at }
        }
        // every other bit first
        4 => {
            let half = count.min(32);
            let even = (0..half).fold(0, |word: u64, i| word | 1 << (2 * i));
            (0..count - half).fold(even, |word, i| word | 1 << (2 * i + 1)).rotate_left(turn)
        }
        // spread over the bytes: bit 0 of each, then bit 1 of each
        5 => (0..count).fold(0, |word: u64, i| word | 1 << (8 * (i % 8) + i / 8)),
        _ => random.bits(count),
    }
}

fn source(kind: u32, count: u32, random: &mut Random) -> u64 {
    match kind % 5 {
        0 => u64::MAX,
        1 => low(count),
        2 => random.next() & random.next() & random.next(),
        3 => 1 << random.below(64),
        _ => random.next(),
    }
}

const PAIRS_EACH: u32 = 20_000; // of each count and shape: 65 x 8 x 20,000 is 10,400,000 pairs

#[test]
fn deposit_is_the_published_pdep() {
    let mut random = Random(0x0001_0512);
    let (mut pairs, mut by_cpu) = (0u64, 0u64);
    for count in 0..=64 {
        for shape in 0..SHAPES {
            for turn in 0..PAIRS_EACH {
                let mask = mask(shape, count, &mut random);
                assert_eq!(mask.count_ones(), count, "shape {shape} makes no mask of {count} bits");
                let source = source(turn, count, &mut random);
                let got = deposit(source, mask);
                assert_eq!(got, published_pdep(source, mask), "deposit of {source:#x} into {mask:#x}");
                if let Some(own) = cpu_pdep(source, mask) {
                    assert_eq!(got, own, "the CPU's PDEP of {source:#x} into {mask:#x}");
                    by_cpu += 1;
                }
                pairs += 1;
            }
        }
    }
    println!("{pairs} pairs of source and mask, {by_cpu} of them against the CPU's PDEP");
    assert!(pairs >= 10_000_000);
}

#[test]
fn select_finds_the_bit_with_the_rank() {
    let mut random = Random(0x0002_0926);
    let mut pairs = 0u64;
    for count in 0..=64 {
        for shape in 0..SHAPES {
            for _ in 0..PAIRS_EACH / 64 {
                let word = mask(shape, count, &mut random);
                for rank in 0..66 {
                    assert_eq!(select(word, rank), plain_select(word, rank), "rank {rank} in {word:#x}");
                    pairs += 1;
                }
                let rank = random.next();
                assert_eq!(select(word, rank), plain_select(word, rank), "rank {rank} in {word:#x}");
                pairs += 1;
            }
        }
    }
    println!("{pairs} pairs of word and rank");
    assert!(pairs >= 10_000_000);
}

#[test]
fn the_documents_examples() {
    assert_eq!(deposit(5, 26), 18);
    assert_eq!(deposit(77, 0), 0);
    assert_eq!(deposit(0x1234_5678_9abc_def0, u64::MAX), 0x1234_5678_9abc_def0);
    assert_eq!(deposit(u64::MAX, 1 << 63), 1 << 63);
    assert_eq!(deposit(1, 0x7fff_ffff_ffff_fffe), 2);
    assert_eq!(deposit(8, !8), 16);
    assert_eq!([select(26, 0), select(26, 2), select(26, 3)], [Some(1), Some(4), None]);
    assert_eq!(select(u64::MAX, 63), Some(63));
}
