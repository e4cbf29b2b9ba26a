//! Regions: octets that peers may use.
use crate::error::{done, done_with_room};
use crate::{raw, Buffer, Domain, Facts, Handle, Refused, Registration, Result, Rights, Stag, Stream};
use std::{ptr, slice};

/// ## Regions
impl Handle {
    /// Registers a copy of the octets as a region, the first of them at tagged offset `base`. Peers name it by the STag.
    ///
    /// Streams of one domain reach each other's regions: give each client a domain of its own, or register its region for its stream
    /// alone ([`register_for`](Handle::register_for); RFC 5042 6.1.1).
    ///
    /// Errors: `BadBits`, `NoDomain`, `DomainFull`, `RegionTooLong`, `BaseWrap`, and `NoMemory`, which may come in place of any but the
    /// first.
    pub fn register(&mut self, domain: Domain, base: u64, octets: &[u8], rights: Rights) -> Result<Stag> {
        let mut stag = 0;
        let (at, n) = (octets.as_ptr(), octets.len());
        // SAFETY: the handle is as the last call on it left it; `n` octets stand at `at`; `stag` is a local.
        done(unsafe { raw::iwarp_register(self.at(), domain.number(), base, at, n, rights.bits(), &mut stag) })?;
        Ok(Stag::new(stag))
    }

    /// Registers the buffer's octets themselves, as [`register`](Handle::register) does a copy.
    /// [`deregister`](Handle::deregister) gives them back.
    ///
    /// Errors: as there, but `NoMemory` comes last. The buffer comes back with the error.
    pub fn register_buffer(
        &mut self,
        domain: Domain,
        base: u64,
        buffer: Buffer,
        rights: Rights,
    ) -> Result<Stag, Refused> {
        let mut stag = 0;
        self.give(buffer, |handle, buffer| {
            // SAFETY: handle and buffer are as the last calls on them left them; `stag` is a local.
            unsafe { raw::iwarp_register_buffer(handle, domain.number(), base, buffer, rights.bits(), &mut stag) }
        })?;
        Ok(Stag::new(stag))
    }

    /// Registers a copy of the octets for one stream: the region is in the stream's domain, and to the peers of other streams its STag
    /// is as one of another domain (RFC 5042 6.1.1). When the stream is closed the region becomes invalid, and stays registered.
    ///
    /// Errors: `BadBits`, `NoSuchStream`, `Ended`, then as [`register`](Handle::register).
    pub fn register_for(&mut self, stream: Stream, base: u64, octets: &[u8], rights: Rights) -> Result<Stag> {
        let mut stag = 0;
        let (at, n) = (octets.as_ptr(), octets.len());
        // SAFETY: the handle is as the last call on it left it; `n` octets stand at `at`; `stag` is a local.
        done(unsafe { raw::iwarp_register_for(self.at(), stream.number(), base, at, n, rights.bits(), &mut stag) })?;
        Ok(Stag::new(stag))
    }

    /// Registers the buffer's octets themselves for one stream, as [`register_for`](Handle::register_for) does a copy.
    ///
    /// Errors: as there, but `NoMemory` comes last. The buffer comes back with the error.
    pub fn register_buffer_for(
        &mut self,
        stream: Stream,
        base: u64,
        buffer: Buffer,
        rights: Rights,
    ) -> Result<Stag, Refused> {
        let mut stag = 0;
        self.give(buffer, |handle, buffer| {
            // SAFETY: handle and buffer are as the last calls on them left them; `stag` is a local.
            unsafe { raw::iwarp_register_buffer_for(handle, stream.number(), base, buffer, rights.bits(), &mut stag) }
        })?;
        Ok(Stag::new(stag))
    }

    /// Registers a copy of the octets, for a domain or a stream, by an STag that is drawn if the registration says so.
    ///
    /// The first region of a domain whose STag is drawn may take the memory for all the domain's slots, 24,576 octets.
    ///
    /// Errors: as [`register`](Handle::register) or [`register_for`](Handle::register_for).
    pub fn register_as(&mut self, registration: Registration, octets: &[u8]) -> Result<Stag> {
        let mut stag = 0;
        let described = registration.in_c();
        let (at, n) = (octets.as_ptr(), octets.len());
        // SAFETY: the handle is as the last call on it left it; `n` octets stand at `at`; the two others are locals.
        done(unsafe { raw::iwarp_register_as(self.at(), &described, at, n, &mut stag) })?;
        Ok(Stag::new(stag))
    }

    /// Registers the buffer's octets themselves, as [`register_as`](Handle::register_as) does a copy.
    ///
    /// Errors: as there, but `NoMemory` comes last. The buffer comes back with the error.
    pub fn register_buffer_as(&mut self, registration: Registration, buffer: Buffer) -> Result<Stag, Refused> {
        let mut stag = 0;
        let described = registration.in_c();
        self.give(buffer, |handle, buffer| {
            // SAFETY: handle and buffer are as the last calls on them left them; the two others are locals.
            unsafe { raw::iwarp_register_buffer_as(handle, &described, buffer, &mut stag) }
        })?;
        Ok(Stag::new(stag))
    }

    /// Deregisters a region, valid or not, and gives its octets, with nothing copied. From then on its STag names no region.
    ///
    /// Errors: `NoRegion`; `OtherMemory` if the octets are a [box's](Handle::register_box) or other
    /// [memory of the program's](Handle::register_memory); `NoMemory` if there is none for the buffer's own few octets: the region stays.
    pub fn deregister(&mut self, stag: Stag) -> Result<Buffer> {
        self.get(|handle, buffer| {
            // SAFETY: handle and buffer are as the last calls on them left them.
            unsafe { raw::iwarp_deregister_buffer(handle, stag.number(), buffer) }
        })
    }

    /// Deregisters a region, valid or not, and copies its octets to the front of `out`. Returns how many they are. They are freed as
    /// [`drop_region`](Handle::drop_region) frees them.
    ///
    /// Errors: `NoRegion`, `NoRoom`: the region stays.
    pub fn deregister_into(&mut self, stag: Stag, out: &mut [u8]) -> Result<usize> {
        let mut n = 0;
        let (at, room) = (out.as_mut_ptr(), out.len());
        // SAFETY: the handle is as the last call on it left it; `room` octets at `at` can be written; `n` is a local.
        let code = unsafe { raw::iwarp_deregister(self.at(), stag.number(), at, room, &mut n) };
        done_with_room(code, n)?;
        drop(self.box_of(stag));
        Ok(n)
    }

    /// Deregisters a region, valid or not, and frees its octets, unless they are [memory that the program
    /// keeps](Handle::register_memory). Errors: `NoRegion`.
    pub fn drop_region(&mut self, stag: Stag) -> Result<()> {
        // SAFETY: the handle is as the last call on it left it.
        done(unsafe { raw::iwarp_drop_region(self.at(), stag.number()) })?;
        drop(self.box_of(stag));
        Ok(())
    }

    /// The octets of a region, valid or not, where they stand. Errors: `NoRegion`.
    ///
    /// A peer may write there at any later call of [`work`](Handle::work), as long as it may use the region: call
    /// [`invalidate`](Handle::invalidate) before you act on what you read (RFC 5042 6.2.2). The octets are borrowed from the handle,
    /// so none of its calls comes meanwhile:
    ///
    /// ```compile_fail,E0499
    /// # fn look(end: &mut iwarp::Handle, stream: iwarp::Stream, stag: iwarp::Stag) -> Result<u8, iwarp::Error> {
    /// let octets = end.region(stag)?;
    /// end.work(stream)?; // it might change the octets: this does not compile
    /// Ok(octets[0])
    /// # }
    /// ```
    pub fn region(&mut self, stag: Stag) -> Result<&mut [u8]> {
        let (mut at, mut n) = (ptr::null_mut(), 0);
        // SAFETY: the handle is as the last call on it left it; the two others are locals.
        done(unsafe { raw::iwarp_region_at(self.at(), stag.number(), &mut at, &mut n) })?;
        if at.is_null() || n == 0 {
            return Ok(&mut []);
        }
        // SAFETY: `n` octets stand at `at` until the next call on the handle, which is borrowed as long as they are.
        Ok(unsafe { slice::from_raw_parts_mut(at, n) })
    }

    /// Makes a region invalid: peers can no longer use it. It stays registered. Errors: `NoRegion`.
    pub fn invalidate(&mut self, stag: Stag) -> Result<()> {
        // SAFETY: the handle is as the last call on it left it.
        done(unsafe { raw::iwarp_invalidate(self.at(), stag.number()) })
    }

    /// Writes octets into a region, valid or not, at tagged offset `to`. Errors: `NoRegion`, `Outside`.
    pub fn store(&mut self, stag: Stag, to: u64, octets: &[u8]) -> Result<()> {
        let (at, n) = (octets.as_ptr(), octets.len());
        // SAFETY: the handle is as the last call on it left it; `n` octets stand at `at`.
        done(unsafe { raw::iwarp_store(self.at(), stag.number(), to, at, n) })
    }

    /// Reads octets of a region, valid or not, at tagged offset `to`: as many as `out` has. Errors: `NoRegion`, `Outside`.
    pub fn load(&self, stag: Stag, to: u64, out: &mut [u8]) -> Result<()> {
        let (at, n) = (out.as_mut_ptr(), out.len());
        // SAFETY: the handle is as the last call on it left it; `n` octets at `at` can be written.
        done(unsafe { raw::iwarp_load(self.at(), stag.number(), to, at, n) })
    }

    /// The facts of a region, valid or not. Errors: `NoRegion`.
    pub fn facts(&self, stag: Stag) -> Result<Facts> {
        let mut facts = raw::iwarp_facts::default();
        // SAFETY: the handle is as the last call on it left it; `facts` is a local.
        done(unsafe { raw::iwarp_facts(self.at(), stag.number(), &mut facts) })?;
        Ok(Facts::of(&facts))
    }
}
