//! A small generator (splitmix64), so that a run can be repeated from its seed.

pub struct Random(u64);

impl Random {
    /// Each part of a run has a generator of its own, so that a part doesn't hang on the sizes of the parts before it.
    pub fn new(seed: u64, part: &str) -> Self {
        let mixed = part.bytes().fold(seed, |mixed, byte| Random(mixed ^ u64::from(byte)).next());
        Random(mixed)
    }

    pub fn next(&mut self) -> u64 {
        self.0 = self.0.wrapping_add(0x9e37_79b9_7f4a_7c15);
        let mut z = self.0;
        z = (z ^ (z >> 30)).wrapping_mul(0xbf58_476d_1ce4_e5b9);
        z = (z ^ (z >> 27)).wrapping_mul(0x94d0_49bb_1331_11eb);
        z ^ (z >> 31)
    }

    pub fn below(&mut self, n: u64) -> u64 {
        self.next() % n
    }

    /// From `first` to `last`, both possible.
    pub fn between(&mut self, first: u64, last: u64) -> u64 {
        first + self.below(last - first + 1)
    }

    pub fn one_in(&mut self, n: u64) -> bool {
        self.below(n) == 0
    }

    pub fn pick<T: Copy>(&mut self, items: &[T]) -> T {
        items[self.below(items.len() as u64) as usize]
    }

    /// From 0 up to 1, not 1 itself.
    pub fn fraction(&mut self) -> f64 {
        (self.next() >> 11) as f64 / (1u64 << 53) as f64
    }

    pub fn words(&mut self, count: u64) -> Vec<u64> {
        (0..count).map(|_| self.next()).collect()
    }

    /// `count` of the 64 bits, each choice as likely as any other.
    pub fn bits(&mut self, count: u32) -> u64 {
        let mut left = u64::from(count);
        let mut word = 0;
        for position in 0..64 {
            if self.below(64 - position) < left {
                word |= 1 << position;
                left -= 1;
            }
        }
        word
    }
}
