use crate::BitBuffer;

/// Bits while they are set, from bit 0 of the first byte.
pub struct BitBufferMut {
    bytes: Vec<u8>,
    len: usize,
}

impl BitBufferMut {
    pub fn with_capacity(capacity: usize) -> Self {
        Self { bytes: Vec::with_capacity(capacity.div_ceil(8)), len: 0 }
    }

    pub fn new_set(len: usize) -> Self {
        Self { bytes: vec![0xFF; len.div_ceil(8)], len }
    }

    pub fn new_unset(len: usize) -> Self {
        Self { bytes: vec![0; len.div_ceil(8)], len }
    }

    pub fn len(&self) -> usize {
        self.len
    }

    pub fn is_empty(&self) -> bool {
        self.len == 0
    }

    pub fn set(&mut self, index: usize) {
        assert!(index < self.len, "bit {index} of {}", self.len);
        self.bytes[index / 8] |= 1 << (index % 8);
    }

    /// # Safety
    /// `index` must be below the length. (It is checked all the same.)
    pub unsafe fn set_unchecked(&mut self, index: usize) {
        self.set(index);
    }

    pub fn unset(&mut self, index: usize) {
        assert!(index < self.len, "bit {index} of {}", self.len);
        self.bytes[index / 8] &= !(1 << (index % 8));
    }

    pub fn append(&mut self, bit: bool) {
        self.len += 1;
        if self.bytes.len() * 8 < self.len {
            self.bytes.push(0);
        }
        match bit {
            true => self.set(self.len - 1),
            false => self.unset(self.len - 1),
        }
    }

    pub fn append_n(&mut self, bit: bool, n: usize) {
        for _ in 0..n {
            self.append(bit);
        }
    }

    pub fn append_buffer(&mut self, buffer: &BitBuffer) {
        for bit in buffer.iter() {
            self.append(bit);
        }
    }

    pub fn freeze(self) -> BitBuffer {
        BitBuffer::new(self.bytes.into(), self.len)
    }
}
