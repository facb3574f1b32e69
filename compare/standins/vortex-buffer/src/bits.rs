use std::fmt;
use std::ops::{BitAnd, BitOr, Bound, Not, RangeBounds};

use crate::{BitBufferMut, BitChunks, ByteBuffer};

/// A view of `len` bits of shared bytes, from bit `offset` on, bit 0 of a byte lowest.
#[derive(Clone)]
pub struct BitBuffer {
    bytes: ByteBuffer,
    offset: usize,
    len: usize,
}

impl BitBuffer {
    pub fn new(bytes: ByteBuffer, len: usize) -> Self {
        Self::new_with_offset(bytes, len, 0)
    }

    pub fn new_with_offset(bytes: ByteBuffer, len: usize, offset: usize) -> Self {
        let lent = bytes.as_slice().len() * 8;
        assert!(len == 0 || offset + len <= lent, "bits {offset} to {} are not lent", offset + len);
        Self { bytes, offset, len }
    }

    /// The view of lent words that document 01 calls words.
    pub fn from_words(words: &[u64], start: usize, len: usize) -> Self {
        Self::new_with_offset(words.to_vec().into(), len, start)
    }

    pub fn new_set(len: usize) -> Self {
        BitBufferMut::new_set(len).freeze()
    }

    pub fn new_unset(len: usize) -> Self {
        BitBufferMut::new_unset(len).freeze()
    }

    pub fn from_indices(len: usize, indices: impl IntoIterator<Item = usize>) -> Self {
        let mut bits = BitBufferMut::new_unset(len);
        for index in indices {
            bits.set(index);
        }
        bits.freeze()
    }

    fn from_chunks(len: usize, words: impl Iterator<Item = u64>) -> Self {
        let words: Vec<u64> = words.collect();
        Self::from_words(&words, 0, len)
    }

    #[inline]
    pub fn len(&self) -> usize {
        self.len
    }

    #[inline]
    pub fn is_empty(&self) -> bool {
        self.len == 0
    }

    #[inline]
    pub fn offset(&self) -> usize {
        self.offset
    }

    #[inline]
    pub fn inner(&self) -> &ByteBuffer {
        &self.bytes
    }

    #[inline]
    pub fn chunks(&self) -> BitChunks<'_> {
        BitChunks::new(self.bytes.as_slice(), self.offset, self.len)
    }

    #[inline]
    pub fn value(&self, index: usize) -> bool {
        assert!(index < self.len, "bit {index} of {}", self.len);
        let position = self.offset + index;
        self.bytes.as_slice()[position / 8] >> (position % 8) & 1 == 1
    }

    pub fn iter(&self) -> BitIterator<'_> {
        BitIterator { bits: self, next: 0 }
    }

    pub fn true_count(&self) -> usize {
        self.chunks().iter_padded().map(|word| word.count_ones() as usize).sum()
    }

    pub fn count_range(&self, start: usize, end: usize) -> usize {
        self.slice(start..end).true_count()
    }

    pub fn slice(&self, range: impl RangeBounds<usize>) -> Self {
        let start = match range.start_bound() {
            Bound::Included(&start) => start,
            Bound::Excluded(&before) => before + 1,
            Bound::Unbounded => 0,
        };
        let end = match range.end_bound() {
            Bound::Included(&last) => last + 1,
            Bound::Excluded(&end) => end,
            Bound::Unbounded => self.len,
        };
        assert!(start <= end && end <= self.len, "bits {start} to {end} of {}", self.len);
        Self { bytes: self.bytes.clone(), offset: self.offset + start, len: end - start }
    }

    /// The places of the set bits, ascending.
    pub fn set_indices(&self) -> impl Iterator<Item = usize> + '_ {
        self.chunks().iter_padded().enumerate().flat_map(|(index, word)| SetBits { word, base: 64 * index })
    }

    pub fn for_each_set_index(&self, mut f: impl FnMut(usize)) {
        for index in self.set_indices() {
            f(index);
        }
    }

    pub fn last_set_index(&self) -> Option<usize> {
        (0..self.len).rev().find(|&index| self.value(index))
    }

    /// The place of the set bit that has `n` set bits before it.
    pub fn select(&self, n: usize) -> Option<usize> {
        self.set_indices().nth(n)
    }

    /// The runs of set bits: the first place, and the place past the last.
    pub fn set_slices(&self) -> impl Iterator<Item = (usize, usize)> + '_ {
        let first_of_run = move |&index: &usize| self.value(index) && (index == 0 || !self.value(index - 1));
        (0..self.len).filter(first_of_run).map(move |first| {
            let end = (first..self.len).find(|&index| !self.value(index)).unwrap_or(self.len);
            (first, end)
        })
    }

    pub fn into_bitand_not(self, other: &BitBuffer) -> BitBuffer {
        self.combine(other, |a, b| a & !b)
    }

    fn combine(&self, other: &BitBuffer, f: impl Fn(u64, u64) -> u64) -> BitBuffer {
        assert_eq!(self.len, other.len, "buffers of different lengths");
        let pairs = self.chunks().iter_padded().zip(other.chunks().iter_padded());
        Self::from_chunks(self.len, pairs.map(|(a, b)| f(a, b)))
    }
}

/// The places of one word's set bits.
struct SetBits {
    word: u64,
    base: usize,
}

impl Iterator for SetBits {
    type Item = usize;

    #[inline]
    fn next(&mut self) -> Option<usize> {
        if self.word == 0 {
            return None;
        }
        let place = self.word.trailing_zeros() as usize;
        self.word &= self.word - 1;
        Some(self.base + place)
    }
}

/// One bool per bit.
pub struct BitIterator<'a> {
    bits: &'a BitBuffer,
    next: usize,
}

impl Iterator for BitIterator<'_> {
    type Item = bool;

    #[inline]
    fn next(&mut self) -> Option<bool> {
        if self.next == self.bits.len {
            return None;
        }
        self.next += 1;
        Some(self.bits.value(self.next - 1))
    }

    fn size_hint(&self) -> (usize, Option<usize>) {
        let left = self.bits.len - self.next;
        (left, Some(left))
    }
}

impl ExactSizeIterator for BitIterator<'_> {}

impl FromIterator<bool> for BitBuffer {
    fn from_iter<T: IntoIterator<Item = bool>>(bits: T) -> Self {
        let mut buffer = BitBufferMut::with_capacity(0);
        for bit in bits {
            buffer.append(bit);
        }
        buffer.freeze()
    }
}

impl PartialEq for BitBuffer {
    fn eq(&self, other: &Self) -> bool {
        self.len == other.len && self.chunks().iter_padded().eq(other.chunks().iter_padded())
    }
}

impl Eq for BitBuffer {}

impl fmt::Display for BitBuffer {
    fn fmt(&self, f: &mut fmt::Formatter<'_>) -> fmt::Result {
        for bit in self.iter() {
            f.write_str(if bit { "1" } else { "0" })?;
        }
        Ok(())
    }
}

impl fmt::Debug for BitBuffer {
    fn fmt(&self, f: &mut fmt::Formatter<'_>) -> fmt::Result {
        write!(f, "{self}")
    }
}

impl BitAnd for &BitBuffer {
    type Output = BitBuffer;

    fn bitand(self, other: &BitBuffer) -> BitBuffer {
        self.combine(other, |a, b| a & b)
    }
}

impl BitAnd<&BitBuffer> for BitBuffer {
    type Output = BitBuffer;

    fn bitand(self, other: &BitBuffer) -> BitBuffer {
        &self & other
    }
}

impl BitOr for &BitBuffer {
    type Output = BitBuffer;

    fn bitor(self, other: &BitBuffer) -> BitBuffer {
        self.combine(other, |a, b| a | b)
    }
}

impl BitOr<&BitBuffer> for BitBuffer {
    type Output = BitBuffer;

    fn bitor(self, other: &BitBuffer) -> BitBuffer {
        &self | other
    }
}

impl Not for &BitBuffer {
    type Output = BitBuffer;

    fn not(self) -> BitBuffer {
        BitBuffer::from_chunks(self.len, self.chunks().iter_padded().map(|word| !word))
    }
}
