//! What vortex-mask uses of vortex-buffer, written anew from those uses.

mod bits;
mod bits_mut;
mod bytes;
mod chunks;
mod kernel;

pub use bits::{BitBuffer, BitIterator};
pub use bits_mut::BitBufferMut;
pub use bytes::{Buffer, BufferMut, ByteBuffer};
pub use chunks::BitChunks;
pub use kernel::CpuKernel;
