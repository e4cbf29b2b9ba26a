//! An endpoint, its domains and its pools.
use crate::error::done;
use crate::{raw, Buffer, Domain, Refused, Result};
use std::cell::UnsafeCell;
use std::collections::HashMap;
use std::fmt;
use std::ptr::{self, NonNull};

/// The version of the library that this program runs with: 10,000 for each major number, 100 for each minor one, 1 for each
/// revision.
///
/// ```
/// assert!(iwarp::version() >= 10_000);
/// ```
pub fn version() -> u32 {
    // SAFETY: the call has no parameters.
    unsafe { raw::iwarp_version() }
}

/// An endpoint: the registered regions of one end, and its streams by number.
///
/// It does no input or output, starts no thread and keeps no time. The program hands in what came, calls
/// [`work`](Handle::work) or [`work_on`](Handle::work_on) until it answers [`Event::Idle`](crate::Event::Idle), and writes out what
/// [`fill`](Handle::fill) or [`emit`](Handle::emit) gives. [`Connection`](crate::Connection) has the loop. Without a socket, two ends in
/// memory:
///
/// ```
/// use iwarp::{Buffer, Delivery, Event, Handle, Options, Role, SendOptions};
///
/// let (mut a, mut b) = (Handle::new()?, Handle::new()?);
/// let (domain, other) = (a.add_domain(1)?, b.add_domain(1)?);
/// let from = a.open_next(domain, Role::Preset, Options::CRC, b"")?;
/// let to = b.open_next(other, Role::Preset, Options::CRC, b"")?;
/// b.post_recv(to, 64)?;
/// a.post_send(from, b"hello", SendOptions::default(), 1)?;
/// let mut frames = Buffer::new(0)?;
/// a.fill(from, 65_536, &mut frames)?;
/// assert_eq!(b.deliver(to, 0, &frames)?, Delivery::Kept);
/// assert!(matches!(b.work_on(to)?, Event::Received { len: 5, .. }));
/// assert_eq!(b.fetch_vec(to)?, b"hello");
/// assert!(matches!(a.work_on(from)?, Event::Done { token: 1, .. }));
/// # Ok::<(), iwarp::Error>(())
/// ```
///
/// A handle may go to another thread, but takes one call at a time: it is `Send` and not `Sync`. Several handles may be used at once.
///
/// ```compile_fail,E0277
/// fn share<T: Sync>(_: &T) {}
/// share(&iwarp::Handle::new()?); // this does not compile
/// # Ok::<(), iwarp::Error>(())
/// ```
///
/// All that it has is freed when it is dropped.
pub struct Handle {
    raw: UnsafeCell<raw::iwarp>,
    // A buffer that lost its octets to the library. The next call that gives a buffer takes it, so that none is made.
    spare: Option<Buffer>,
    // The boxes whose octets are regions, by STag. They were let go, and become boxes again once their regions are gone.
    pub(crate) boxes: HashMap<u32, NonNull<[u8]>>,
}

// SAFETY: the library's calls on a handle may come from any thread, one at a time; without `Sync` they do. The boxes are its own.
unsafe impl Send for Handle {}

/// ## Endpoints, domains and pools
impl Handle {
    /// Makes an endpoint, with no domain and no stream. [`Error::NoMemory`](crate::Error::NoMemory) if there is no memory for it.
    pub fn new() -> Result<Self> {
        let handle =
            Self { raw: UnsafeCell::new(raw::iwarp { at: ptr::null_mut() }), spare: None, boxes: HashMap::new() };
        // SAFETY: the handle is closed.
        done(unsafe { raw::iwarp_new(handle.at()) })?;
        Ok(handle)
    }

    /// Adds a protection domain: `number` is 1 to 255. Streams reach only regions of their own domain.
    ///
    /// Errors: `BadDomain`, `DomainTaken`, `NoMemory` of [`Error`](crate::Error), the first that applies.
    pub fn add_domain(&mut self, number: u32) -> Result<Domain> {
        // SAFETY: the handle is as the last call on it left it.
        done(unsafe { raw::iwarp_add_domain(self.at(), number) })?;
        Ok(Domain::new(number))
    }

    /// Gives the domain an empty pool of receive buffers, which its streams share if they are opened by
    /// [`open_shared_next`](Handle::open_shared_next) or [`open_shared`](Handle::open_shared).
    ///
    /// Errors: `NoDomain`, `AlreadyShared`, `NoMemory`.
    pub fn share(&mut self, domain: Domain) -> Result<()> {
        // SAFETY: as in `add_domain`.
        done(unsafe { raw::iwarp_share(self.at(), domain.number()) })
    }

    /// Posts a receive buffer of `n` octets to the domain's pool, after the others. A Send takes the oldest buffer when any of its
    /// segments is placed first; one that finds the pool empty, or the buffer too short, ends its own stream only.
    ///
    /// Errors: `BufferTooLong` (more than 16,777,216), `NoDomain`, `NotShared`, `PoolFull` (1,024 buffers), `NoMemory`.
    pub fn post_shared(&mut self, domain: Domain, n: usize) -> Result<()> {
        // SAFETY: as in `add_domain`.
        done(unsafe { raw::iwarp_post_shared(self.at(), domain.number(), n) })
    }

    /// Posts the buffer's octets themselves to the domain's pool, as [`post_shared`](Handle::post_shared) does new ones.
    ///
    /// Errors: as there. The buffer comes back with the error.
    pub fn post_shared_buffer(&mut self, domain: Domain, buffer: Buffer) -> Result<(), Refused> {
        self.give(buffer, |handle, buffer| {
            // SAFETY: handle and buffer are as the last calls on them left them.
            unsafe { raw::iwarp_post_shared_buffer(handle, domain.number(), buffer) }
        })
    }

    /// Takes the oldest buffer out of the domain's pool; none if the pool is empty.
    ///
    /// Errors: `NoDomain`, `NotShared`; `NoMemory` if there is none for the buffer's own few octets: the pool keeps it.
    pub fn take_shared_buffer(&mut self, domain: Domain) -> Result<Option<Buffer>> {
        let mut found = 0;
        let buffer = self.get(|handle, buffer| {
            // SAFETY: handle and buffer are as the last calls on them left them; `found` is a local.
            unsafe { raw::iwarp_take_shared_buffer(handle, domain.number(), buffer, &mut found) }
        })?;
        if found != 0 {
            return Ok(Some(buffer));
        }
        self.keep(buffer);
        Ok(None)
    }

    /// The handle for calls of [`raw`](crate::raw), which the caller makes as `iwarp.h` asks.
    ///
    /// The handle must not be freed by them, and a place that they have lent is taken back by the calls that the header names.
    pub fn as_raw(&mut self) -> *mut raw::iwarp {
        self.at()
    }

    pub(crate) fn at(&self) -> *mut raw::iwarp {
        self.raw.get()
    }

    /// Makes a call that takes the octets of a buffer. If it is refused, the buffer comes back.
    pub(crate) fn give(
        &mut self,
        mut buffer: Buffer,
        call: impl FnOnce(*mut raw::iwarp, *mut raw::iwarp_buffer) -> i32,
    ) -> Result<(), Refused> {
        match done(buffer.with_raw(|buffer| call(self.at(), buffer))) {
            Ok(()) => {
                self.keep(buffer);
                Ok(())
            }
            Err(error) => Err(Refused { error, buffer }),
        }
    }

    /// Makes a call that gives octets to a buffer, and returns that.
    pub(crate) fn get(&mut self, call: impl FnOnce(*mut raw::iwarp, *mut raw::iwarp_buffer) -> i32) -> Result<Buffer> {
        let mut buffer = match self.spare.take() {
            Some(buffer) => buffer,
            None => Buffer::new(0)?,
        };
        match done(buffer.with_raw(|buffer| call(self.at(), buffer))) {
            Ok(()) => Ok(buffer),
            Err(error) => {
                self.keep(buffer);
                Err(error)
            }
        }
    }

    // Keeps a buffer that has no octets for the next call that gives one.
    fn keep(&mut self, buffer: Buffer) {
        self.spare = Some(buffer);
    }
}

impl Drop for Handle {
    fn drop(&mut self) {
        // SAFETY: the handle is as the last call on it left it, and is not used again; nothing that it lent is borrowed any more.
        unsafe { raw::iwarp_free(self.at()) };
        for octets in self.boxes.values() {
            // SAFETY: it was a box; its region is gone, and with that all use of the octets.
            drop(unsafe { Box::from_raw(octets.as_ptr()) });
        }
    }
}

impl fmt::Debug for Handle {
    fn fmt(&self, f: &mut fmt::Formatter<'_>) -> fmt::Result {
        f.debug_struct("Handle").finish_non_exhaustive()
    }
}
