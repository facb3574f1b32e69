use std::slice;
use std::sync::Arc;

/// Shared bytes, or shared words taken as their bytes, lowest first.
#[derive(Clone)]
pub struct ByteBuffer(Arc<Store>);

enum Store {
    Bytes(Vec<u8>),
    Words(Vec<u64>),
}

impl ByteBuffer {
    #[inline]
    pub fn as_slice(&self) -> &[u8] {
        match &*self.0 {
            Store::Bytes(bytes) => bytes,
            Store::Words(words) => bytes_of(words),
        }
    }
}

#[cfg(target_endian = "little")]
fn bytes_of(words: &[u64]) -> &[u8] {
    // SAFETY: the words are 8 bytes each, and any byte is a u8.
    unsafe { slice::from_raw_parts(words.as_ptr().cast(), size_of_val(words)) }
}

impl From<Vec<u8>> for ByteBuffer {
    fn from(bytes: Vec<u8>) -> Self {
        Self(Arc::new(Store::Bytes(bytes)))
    }
}

impl From<Vec<u64>> for ByteBuffer {
    fn from(words: Vec<u64>) -> Self {
        Self(Arc::new(Store::Words(words)))
    }
}

/// Words while they are pushed.
pub struct BufferMut<T> {
    items: Vec<T>,
}

impl<T> BufferMut<T> {
    pub fn with_capacity(capacity: usize) -> Self {
        Self { items: Vec::with_capacity(capacity) }
    }

    /// # Safety
    /// The capacity must have room for one item more.
    #[inline]
    pub unsafe fn push_unchecked(&mut self, item: T) {
        debug_assert!(self.items.len() < self.items.capacity(), "pushed past the capacity");
        let len = self.items.len();
        // SAFETY: there is room at `len`, by the caller's word.
        unsafe {
            self.items.as_mut_ptr().add(len).write(item);
            self.items.set_len(len + 1);
        }
    }

    pub fn freeze(self) -> Buffer<T> {
        Buffer { items: self.items }
    }
}

/// Words that stay as they are.
pub struct Buffer<T> {
    items: Vec<T>,
}

impl Buffer<u64> {
    pub fn into_byte_buffer(self) -> ByteBuffer {
        self.items.into()
    }
}
