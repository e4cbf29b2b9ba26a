//! Regions of memory that the program keeps.
use crate::error::done;
use crate::{raw, Error, Handle, Refused, Registration, Result, Stag};
use std::ptr::NonNull;

/// ## Regions of memory that the program keeps
impl Handle {
    /// Registers the box's octets themselves, for a domain or a stream: nothing is copied. [`deregister_box`](Handle::deregister_box)
    /// gives the box back; it is freed with its region, or with the handle.
    ///
    /// Errors: as [`register_as`](Handle::register_as), but `NoMemory` comes last. The box comes back with the error.
    ///
    /// ```
    /// use iwarp::{Handle, Registration, Rights, Scope};
    ///
    /// let mut end = Handle::new()?;
    /// let scope = Scope::Domain(end.add_domain(1)?);
    /// let registration = Registration { scope, base: 0, rights: Rights::WRITE, drawn: None };
    /// let stag = end.register_box(registration, vec![0; 4096].into_boxed_slice())?;
    /// end.store(stag, 10, b"hello")?;
    /// assert_eq!(&end.deregister_box(stag)?[10..15], b"hello");
    /// # Ok::<(), iwarp::Error>(())
    /// ```
    pub fn register_box(&mut self, registration: Registration, octets: Box<[u8]>) -> Result<Stag, Refused<Box<[u8]>>> {
        let n = octets.len();
        let at = Box::into_raw(octets);
        // SAFETY: `n` octets stand at `at`, and nobody uses them until the box is made again.
        match unsafe { self.register_memory(registration, at.cast(), n) } {
            Ok(stag) => {
                // SAFETY: it came from a box.
                self.boxes.insert(stag.number(), unsafe { NonNull::new_unchecked(at) });
                Ok(stag)
            }
            // SAFETY: it was a box, and the library has not taken it.
            Err(error) => Err(Refused { error, buffer: unsafe { Box::from_raw(at) } }),
        }
    }

    /// Deregisters a region of a box's octets, valid or not, and gives the box back. From then on its STag names no region.
    ///
    /// Errors: `NoRegion`, `OtherMemory` if the octets are not a box's.
    pub fn deregister_box(&mut self, stag: Stag) -> Result<Box<[u8]>> {
        self.facts(stag)?;
        if !self.boxes.contains_key(&stag.number()) {
            return Err(Error::OtherMemory);
        }
        self.hand_back(stag)?;
        self.box_of(stag).ok_or(Error::OtherMemory)
    }

    /// Registers `n` octets at `at`, which may be a mapped file or huge pages, for a domain or a stream: nothing is copied. The library
    /// never frees them. With no octets `at` may be null.
    ///
    /// Errors: as [`register_as`](Handle::register_as), but `NoMemory` comes last.
    ///
    /// # Safety
    ///
    /// From this call, if it is not refused, to the end of the region ([`deregister_memory`](Handle::deregister_memory),
    /// [`drop_region`](Handle::drop_region)) or of the handle the octets are there, were written once, are no longer than
    /// `isize::MAX`, and are read and written through the handle alone.
    pub unsafe fn register_memory(&mut self, registration: Registration, at: *mut u8, n: usize) -> Result<Stag> {
        let mut stag = 0;
        let described = registration.in_c();
        let mut memory = raw::iwarp_memory { at, len: n };
        // SAFETY: the handle is as the last call on it left it; of the memory the caller says so; the others are locals.
        done(unsafe { raw::iwarp_register_memory(self.at(), &described, &mut memory, &mut stag) })?;
        Ok(Stag::new(stag))
    }

    /// Deregisters a region of [memory that the program keeps](Handle::register_memory), valid or not: the program has it back. From
    /// then on its STag names no region.
    ///
    /// Errors: `NoRegion`, `OtherMemory` if the octets are a box's or the library's.
    pub fn deregister_memory(&mut self, stag: Stag) -> Result<()> {
        if self.boxes.contains_key(&stag.number()) {
            return Err(Error::OtherMemory);
        }
        self.hand_back(stag)
    }

    // The box that was registered by this STag, once its region is gone.
    pub(crate) fn box_of(&mut self, stag: Stag) -> Option<Box<[u8]>> {
        let octets = self.boxes.remove(&stag.number())?;
        // SAFETY: it was a box, and its region is gone.
        Some(unsafe { Box::from_raw(octets.as_ptr()) })
    }

    fn hand_back(&mut self, stag: Stag) -> Result<()> {
        let mut memory = raw::iwarp_memory { at: std::ptr::null_mut(), len: 0 };
        // SAFETY: the handle is as the last call on it left it; `memory` is a local, and has none.
        done(unsafe { raw::iwarp_deregister_memory(self.at(), stag.number(), &mut memory) })
    }
}
