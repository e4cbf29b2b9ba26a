//! Octets that the library allocates.
use crate::error::done;
use crate::{raw, Result};
use std::ops::{Deref, DerefMut};
use std::ptr::{self, NonNull};
use std::{fmt, slice};

/// Octets that the library allocates, and that the program reads and writes where they stand.
///
/// They become a region, a receive buffer or a message, and come back, with nothing copied. A call that takes them takes the buffer,
/// so it cannot be used meanwhile:
///
/// ```compile_fail,E0382
/// # use iwarp::{Buffer, Handle, Stream};
/// # fn post(end: &mut Handle, stream: Stream) -> Result<(), iwarp::Error> {
/// let mut buffer = Buffer::new(4096)?;
/// end.post_recv_buffer(stream, buffer)?;
/// buffer[0] = 1; // the library has the octets: this does not compile
/// # Ok(())
/// # }
/// ```
///
/// A buffer is freed when it is dropped.
///
/// ```
/// let mut buffer = iwarp::Buffer::new(5)?;
/// buffer.copy_from_slice(b"hello");
/// buffer.drop_front(1);
/// assert_eq!(&buffer[..], b"ello");
/// # Ok::<(), iwarp::Error>(())
/// ```
pub struct Buffer {
    raw: raw::iwarp_buffer,
    // Where the octets stand, and how many they are, as the library told after the last call that may have changed it.
    at: NonNull<u8>,
    n: usize,
}

// SAFETY: the library's calls on a buffer may come from any thread, one at a time; each takes `&mut self`, or the buffer.
unsafe impl Send for Buffer {}

// SAFETY: a shared buffer is only read, at the address that was told before; no call of the library is made with it.
unsafe impl Sync for Buffer {}

impl Buffer {
    /// Makes a buffer of `n` zero octets. [`Error::NoMemory`](crate::Error::NoMemory) if there is no memory for them.
    pub fn new(n: usize) -> Result<Self> {
        let mut buffer = Self { raw: raw::iwarp_buffer { at: ptr::null_mut() }, at: NonNull::dangling(), n: 0 };
        // SAFETY: the buffer is none.
        done(unsafe { raw::iwarp_buffer_new(n, &mut buffer.raw) })?;
        buffer.look();
        Ok(buffer)
    }

    /// Makes a buffer with a copy of the octets. [`Error::NoMemory`](crate::Error::NoMemory) if there is no memory for it.
    pub fn copy_of(octets: &[u8]) -> Result<Self> {
        let mut buffer = Self::new(octets.len())?;
        buffer.copy_from_slice(octets);
        Ok(buffer)
    }

    /// Keeps the first `n` octets, or all if there are no more. The memory of the others stays with the buffer, for what a call
    /// such as [`Handle::fill`](crate::Handle::fill) puts behind those that are kept.
    pub fn truncate(&mut self, n: usize) {
        // SAFETY: the buffer is as the last call on it left it. It was made, so the call is not refused.
        unsafe { raw::iwarp_buffer_truncate(&mut self.raw, n) };
        self.look();
    }

    /// Drops the first `n` octets, or all if there are no more: after a write that took a part. The others move to the front.
    pub fn drop_front(&mut self, n: usize) {
        // SAFETY: as in `truncate`.
        unsafe { raw::iwarp_buffer_drop_front(&mut self.raw, n) };
        self.look();
    }

    /// The buffer for a call of the library, and behind it what the call made of the octets.
    pub(crate) fn with_raw<T>(&mut self, call: impl FnOnce(*mut raw::iwarp_buffer) -> T) -> T {
        let told = call(&mut self.raw);
        self.look();
        told
    }

    // Has the library tell where the octets stand.
    fn look(&mut self) {
        let (mut at, mut n) = (ptr::null_mut(), 0);
        // SAFETY: the buffer is as the last call on it left it; the two others are local.
        let code = unsafe { raw::iwarp_buffer_at(&mut self.raw, &mut at, &mut n) };
        (self.at, self.n) = match NonNull::new(at) {
            Some(at) if code == raw::IWARP_OK && n > 0 => (at, n),
            _ => (NonNull::dangling(), 0),
        };
    }
}

impl Deref for Buffer {
    type Target = [u8];

    fn deref(&self) -> &[u8] {
        // SAFETY: `n` octets stand at `at` until the next call on the buffer, which needs it unborrowed. All were written.
        unsafe { slice::from_raw_parts(self.at.as_ptr(), self.n) }
    }
}

impl DerefMut for Buffer {
    fn deref_mut(&mut self) -> &mut [u8] {
        // SAFETY: as in `deref`; nothing else has the octets while the buffer has them.
        unsafe { slice::from_raw_parts_mut(self.at.as_ptr(), self.n) }
    }
}

impl AsRef<[u8]> for Buffer {
    fn as_ref(&self) -> &[u8] {
        self
    }
}

impl AsMut<[u8]> for Buffer {
    fn as_mut(&mut self) -> &mut [u8] {
        self
    }
}

impl Drop for Buffer {
    fn drop(&mut self) {
        // SAFETY: the buffer is as the last call on it left it, and is not used again.
        unsafe { raw::iwarp_buffer_free(&mut self.raw) }
    }
}

/// Prints how many octets there are.
impl fmt::Debug for Buffer {
    fn fmt(&self, f: &mut fmt::Formatter<'_>) -> fmt::Result {
        f.debug_struct("Buffer").field("len", &self.n).finish_non_exhaustive()
    }
}
