/// Bits read 64 at a time, bit `offset` of the bytes first.
#[derive(Clone, Copy)]
pub struct BitChunks<'a> {
    bytes: &'a [u8],
    offset: usize,
    len: usize,
}

impl<'a> BitChunks<'a> {
    pub(crate) fn new(bytes: &'a [u8], offset: usize, len: usize) -> Self {
        Self { bytes, offset, len }
    }

    /// The whole words.
    #[inline]
    pub fn iter(&self) -> impl Iterator<Item = u64> + use<'a> {
        let chunks = *self;
        (0..chunks.len / 64).map(move |index| chunks.word(index))
    }

    /// The whole words, then the remainder if there is one.
    #[inline]
    pub fn iter_padded(&self) -> impl Iterator<Item = u64> + use<'a> {
        let chunks = *self;
        let remainder = (chunks.remainder_len() != 0).then(|| chunks.remainder_bits());
        chunks.iter().chain(remainder)
    }

    /// The number of bits past the last whole word.
    #[inline]
    pub fn remainder_len(&self) -> usize {
        self.len % 64
    }

    /// The bits past the last whole word, 0 above them.
    #[inline]
    pub fn remainder_bits(&self) -> u64 {
        match self.remainder_len() {
            0 => 0,
            len => self.word(self.len / 64) & ((1 << len) - 1),
        }
    }

    /// The 64 bits from bit 64 x `index` of the view on, also where they lie past the view; 0 past the bytes.
    #[inline]
    fn word(&self, index: usize) -> u64 {
        let position = self.offset + 64 * index;
        let (byte, shift) = (position / 8, position % 8);
        let low = word_at(self.bytes, byte);
        match shift {
            0 => low,
            _ => low >> shift | u64::from(byte_at(self.bytes, byte + 8)) << (64 - shift),
        }
    }
}

#[inline]
fn byte_at(bytes: &[u8], at: usize) -> u8 {
    bytes.get(at).copied().unwrap_or(0)
}

#[inline]
fn word_at(bytes: &[u8], at: usize) -> u64 {
    match bytes.get(at..).and_then(|rest| rest.first_chunk::<8>()) {
        Some(word) => u64::from_le_bytes(*word),
        None => (0..8).fold(0, |word, k| word | u64::from(byte_at(bytes, at + k)) << (8 * k)),
    }
}
