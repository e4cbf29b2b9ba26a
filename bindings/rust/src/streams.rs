//! Streams: how they begin and end, and what they tell.
use crate::error::{done, done_with_room};
use crate::{raw, Agreed, Domain, Error, Handle, Options, Progress, Result, Role, State, Stream, Told};

// The most octets of private data that a start-up frame has (RFC 5044 7.1).
const MOST_PRIVATE: usize = 512;

/// ## Streams
impl Handle {
    /// Opens a stream in a domain, whose number the library picks: from 64 up, each given once. As many may be open as memory has
    /// room for. Open one for each connection, and close it by [`close`](Handle::close).
    ///
    /// The private data goes into an initiator's MPA Request; other roles do not use it. With [`Options::ENHANCED`] an initiator's
    /// Request has revision 2, and a responder takes a Request of revision 1 or 2 and answers in kind; without it both ends have
    /// revision 1 alone.
    ///
    /// Errors: `BadBits`, `PrivateTooLong` (over 512 octets), `NoDomain`, `NumbersSpent`, `PrivateTooLong` (over 508, of an initiator
    /// with `ENHANCED`), and `NoMemory`, which may come in place of the last four.
    pub fn open_next(&mut self, domain: Domain, role: Role, options: Options, private_data: &[u8]) -> Result<Stream> {
        let mut stream = 0;
        let (at, n) = (private_data.as_ptr(), private_data.len());
        let (domain, role, options) = (domain.number(), role.number(), options.bits());
        // SAFETY: the handle is as the last call on it left it; `n` octets stand at `at`; `stream` is a local.
        done(unsafe { raw::iwarp_open_next(self.at(), domain, role, options, at, n, &mut stream) })?;
        Ok(Stream::new(stream))
    }

    /// As [`open_next`](Handle::open_next), but the stream takes its receive buffers from its domain's pool. A buffer that it took
    /// comes back with [`Event::Received`](crate::Event::Received) or [`Event::FlushedReceive`](crate::Event::FlushedReceive), and
    /// does not return to the pool: post it again.
    ///
    /// Errors: as there, with `NotShared` behind `NoDomain`.
    pub fn open_shared_next(
        &mut self,
        domain: Domain,
        role: Role,
        options: Options,
        private_data: &[u8],
    ) -> Result<Stream> {
        let mut stream = 0;
        let (at, n) = (private_data.as_ptr(), private_data.len());
        let (domain, role, options) = (domain.number(), role.number(), options.bits());
        // SAFETY: the handle is as the last call on it left it; `n` octets stand at `at`; `stream` is a local.
        done(unsafe { raw::iwarp_open_shared_next(self.at(), domain, role, options, at, n, &mut stream) })?;
        Ok(Stream::new(stream))
    }

    /// As [`open_next`](Handle::open_next), under a number from 0 to 63 that the program picks, and that no later stream of this
    /// handle can have.
    ///
    /// Errors: as there, with `BadNumber` and `NumberTaken` in front of `NoDomain`.
    pub fn open(
        &mut self,
        stream: Stream,
        domain: Domain,
        role: Role,
        options: Options,
        private_data: &[u8],
    ) -> Result<()> {
        let (at, n) = (private_data.as_ptr(), private_data.len());
        let (domain, role, options) = (domain.number(), role.number(), options.bits());
        // SAFETY: the handle is as the last call on it left it; `n` octets stand at `at`.
        done(unsafe { raw::iwarp_open(self.at(), stream.number(), domain, role, options, at, n) })
    }

    /// As [`open_shared_next`](Handle::open_shared_next), under a number that the program picks, as [`open`](Handle::open).
    ///
    /// Errors: as [`open`](Handle::open), with `NotShared` behind `NoDomain`.
    pub fn open_shared(
        &mut self,
        stream: Stream,
        domain: Domain,
        role: Role,
        options: Options,
        private_data: &[u8],
    ) -> Result<()> {
        let (at, n) = (private_data.as_ptr(), private_data.len());
        let (domain, role, options) = (domain.number(), role.number(), options.bits());
        // SAFETY: the handle is as the last call on it left it; `n` octets stand at `at`.
        done(unsafe { raw::iwarp_open_shared(self.at(), stream.number(), domain, role, options, at, n) })
    }

    /// Accepts the pending MPA Request, with this private data in the Reply, and tells what both ends agree on. Messages may be posted
    /// then; they go out once the initiator's first frame came (RFC 5044 7.1.2).
    ///
    /// Errors: `PrivateTooLong` (over 512 octets), `NoSuchStream`, `NotAsked`, `PrivateTooLong` (over 508, of an enhanced Reply), and
    /// `NoMemory`, which may come in place of the last three.
    pub fn accept(&mut self, stream: Stream, private_data: &[u8]) -> Result<Agreed> {
        let mut agreed = 0;
        let (at, n) = (private_data.as_ptr(), private_data.len());
        // SAFETY: the handle is as the last call on it left it; `n` octets stand at `at`; `agreed` is a local.
        done(unsafe { raw::iwarp_accept(self.at(), stream.number(), at, n, &mut agreed) })?;
        Ok(Agreed::from_bits(agreed))
    }

    /// Rejects the pending MPA Request, with this private data in the Reply. The stream has then ended; the Reply is still to be
    /// written.
    ///
    /// Errors: as [`accept`](Handle::accept).
    pub fn reject(&mut self, stream: Stream, private_data: &[u8]) -> Result<()> {
        let (at, n) = (private_data.as_ptr(), private_data.len());
        // SAFETY: the handle is as the last call on it left it; `n` octets stand at `at`.
        done(unsafe { raw::iwarp_reject(self.at(), stream.number(), at, n) })
    }

    /// The private data of the peer's start-up frame: at most 512 octets, none before that frame was read.
    ///
    /// Errors: `NoSuchStream`, `NoMemory`.
    pub fn private_data(&self, stream: Stream) -> Result<Vec<u8>> {
        let (mut out, mut n) = ([0; MOST_PRIVATE], 0);
        // SAFETY: the handle is as the last call on it left it; `out` and `n` are locals.
        let code = unsafe { raw::iwarp_private(self.at(), stream.number(), out.as_mut_ptr(), out.len(), &mut n) };
        done_with_room(code, n)?;
        let told = out.get(..n).ok_or(Error::NoRoom { needed: n })?;
        let mut octets = Vec::new();
        octets.try_reserve_exact(n).map_err(|_| Error::NoMemory)?;
        octets.extend_from_slice(told);
        Ok(octets)
    }

    /// What the peer told in its start-up frame, once that was read: at [`Event::Asked`](crate::Event::Asked), and from
    /// [`Event::Opened`](crate::Event::Opened) on. Errors: `NoSuchStream`.
    pub fn told(&self, stream: Stream) -> Result<Told> {
        let mut told = raw::iwarp_told::default();
        // SAFETY: the handle is as the last call on it left it; `told` is a local.
        done(unsafe { raw::iwarp_told(self.at(), stream.number(), &mut told) })?;
        Ok(Told::of(&told))
    }

    /// Whether a stream is starting, is open or has ended. Errors: `NoSuchStream`.
    pub fn state(&self, stream: Stream) -> Result<State> {
        let mut state = 0;
        // SAFETY: the handle is as the last call on it left it; `state` is a local.
        done(unsafe { raw::iwarp_state(self.at(), stream.number(), &mut state) })?;
        Ok(State::of(state))
    }

    /// How far a stream is. Errors: `NoSuchStream`, `TooFar`.
    pub fn progress(&self, stream: Stream) -> Result<Progress> {
        let mut progress = raw::iwarp_progress::default();
        // SAFETY: the handle is as the last call on it left it; `progress` is a local.
        done(unsafe { raw::iwarp_progress(self.at(), stream.number(), &mut progress) })?;
        Ok(Progress::of(&progress))
    }

    /// Whether there is anything to emit: if so, wait for the socket to be writable. Errors: `NoSuchStream`.
    pub fn wants_write(&self, stream: Stream) -> Result<bool> {
        let mut wants = 0;
        // SAFETY: the handle is as the last call on it left it; `wants` is a local.
        done(unsafe { raw::iwarp_wants_write(self.at(), stream.number(), &mut wants) })?;
        Ok(wants != 0)
    }

    /// Sets the maximum ULPDU of the frames that a stream emits from then on, 128 to 64,512 octets. It is 1,400 at first.
    ///
    /// Errors: `NoSuchStream`, `BadSize`.
    pub fn set_mulpdu(&mut self, stream: Stream, size: u32) -> Result<()> {
        // SAFETY: the handle is as the last call on it left it.
        done(unsafe { raw::iwarp_set_mulpdu(self.at(), stream.number(), size) })
    }

    /// Says that the connection broke or closed: the stream has ended, and nothing more is emitted, not even a pending Terminate.
    /// [`work`](Handle::work) hands back what was posted. Errors: `NoSuchStream`.
    pub fn break_link(&mut self, stream: Stream) -> Result<()> {
        // SAFETY: the handle is as the last call on it left it.
        done(unsafe { raw::iwarp_break(self.at(), stream.number()) })
    }

    /// Forgets a stream and frees its memory. It must be at rest: it has ended, [`work`](Handle::work) answers
    /// [`Event::Idle`](crate::Event::Idle), and nothing is left to emit ([`break_link`](Handle::break_link) drops that). What it handed
    /// back and was not fetched is freed. Its number stays taken, and each later call on it is refused with `NoSuchStream`.
    ///
    /// Errors: `NoSuchStream`, `NotAtRest`.
    pub fn close(&mut self, stream: Stream) -> Result<()> {
        // SAFETY: the handle is as the last call on it left it.
        done(unsafe { raw::iwarp_close(self.at(), stream.number()) })
    }
}
