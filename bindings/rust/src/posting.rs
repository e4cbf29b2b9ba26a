//! What a program posts to a stream.
use crate::error::done;
use crate::{raw, Buffer, Handle, ReadRequest, Refused, Result, SendOptions, Stag, Stream};

// The kinds of enum iwarp_message.
const WRITE: u32 = 1;
const SEND: u32 = 2;

fn posting() -> raw::iwarp_posting {
    raw::iwarp_posting { size: std::mem::size_of::<raw::iwarp_posting>(), ..Default::default() }
}

/// ## Posting
///
/// Messages are taken on a stream that is open. `token` is any number of the program's: the event has it that tells that the message
/// is done or flushed ([`Event::Done`](crate::Event::Done), [`Event::Flushed`](crate::Event::Flushed)).
impl Handle {
    /// Posts a Send of a copy of the octets.
    ///
    /// Errors: `NoSuchStream`, `NotOpen`, `MessagesFull` (256 are posted), `MessageTooLong` (over 16,777,216 octets), and `NoMemory`,
    /// which may come in place of any.
    pub fn post_send(&mut self, stream: Stream, octets: &[u8], options: SendOptions, token: u64) -> Result<()> {
        let (flags, stag) = options.in_c();
        let (at, n) = (octets.as_ptr(), octets.len());
        // SAFETY: the handle is as the last call on it left it; `n` octets stand at `at`.
        done(unsafe { raw::iwarp_post_send(self.at(), stream.number(), at, n, flags, stag, token) })
    }

    /// Posts a Write of a copy of the octets, to a region of the peer at tagged offset `to`. Errors: as [`post_send`](Handle::post_send).
    pub fn post_write(&mut self, stream: Stream, stag: Stag, to: u64, octets: &[u8], token: u64) -> Result<()> {
        let (at, n) = (octets.as_ptr(), octets.len());
        // SAFETY: the handle is as the last call on it left it; `n` octets stand at `at`.
        done(unsafe { raw::iwarp_post_write(self.at(), stream.number(), stag.number(), to, at, n, token) })
    }

    /// Posts a Send of the buffer's octets themselves, as [`post_send`](Handle::post_send) does of a copy. Once the message is done or
    /// flushed, [`fetch_sent`](Handle::fetch_sent) moves them back, whole and unchanged.
    ///
    /// Errors: as there. The buffer comes back with the error, but see [`Refused::buffer`].
    pub fn post_send_buffer(
        &mut self,
        stream: Stream,
        buffer: Buffer,
        options: SendOptions,
        token: u64,
    ) -> Result<(), Refused> {
        let (flags, stag) = options.in_c();
        self.give(buffer, |handle, buffer| {
            // SAFETY: handle and buffer are as the last calls on them left them.
            unsafe { raw::iwarp_post_send_buffer(handle, stream.number(), buffer, flags, stag, token) }
        })
    }

    /// Posts a Write of the buffer's octets themselves, as [`post_write`](Handle::post_write) does of a copy, and takes them as
    /// [`post_send_buffer`](Handle::post_send_buffer) does.
    ///
    /// Errors: as there.
    pub fn post_write_buffer(
        &mut self,
        stream: Stream,
        stag: Stag,
        to: u64,
        buffer: Buffer,
        token: u64,
    ) -> Result<(), Refused> {
        self.give(buffer, |handle, buffer| {
            // SAFETY: handle and buffer are as the last calls on them left them.
            unsafe { raw::iwarp_post_write_buffer(handle, stream.number(), stag.number(), to, buffer, token) }
        })
    }

    /// Posts a Send of `n` octets at `at`, in memory that the program keeps: they are copied into frames alone, as these are emitted.
    /// With no octets `at` may be null.
    ///
    /// Errors: as [`post_send`](Handle::post_send), but `NoMemory` comes last.
    ///
    /// # Safety
    ///
    /// From this call, if it is not refused, until an event tells that the message is done or flushed, or the handle is gone, the octets
    /// are there and stay as they are, were written once, and are no longer than `isize::MAX`.
    pub unsafe fn post_send_memory(
        &mut self,
        stream: Stream,
        at: *const u8,
        n: usize,
        options: SendOptions,
        token: u64,
    ) -> Result<()> {
        let (flags, stag) = options.in_c();
        let flags = u64::from(flags);
        // SAFETY: of the memory the caller says so.
        unsafe { self.post_kept(stream, raw::iwarp_posting { kind: SEND, flags, stag, token, ..posting() }, at, n) }
    }

    /// Posts a Write of `n` octets at `at`, in memory that the program keeps, as [`post_send_memory`](Handle::post_send_memory) does.
    ///
    /// Errors: as there.
    ///
    /// # Safety
    ///
    /// As there.
    pub unsafe fn post_write_memory(
        &mut self,
        stream: Stream,
        stag: Stag,
        to: u64,
        at: *const u8,
        n: usize,
        token: u64,
    ) -> Result<()> {
        let stag = stag.number();
        // SAFETY: of the memory the caller says so.
        unsafe { self.post_kept(stream, raw::iwarp_posting { kind: WRITE, stag, to, token, ..posting() }, at, n) }
    }

    unsafe fn post_kept(&mut self, stream: Stream, posting: raw::iwarp_posting, at: *const u8, n: usize) -> Result<()> {
        let mut memory = raw::iwarp_memory { at: at.cast_mut(), len: n };
        // SAFETY: the handle is as the last call on it left it; the library only reads the memory; the others are locals.
        done(unsafe { raw::iwarp_post_memory(self.at(), stream.number(), &posting, &mut memory) })
    }

    /// Posts a Read, from a region of the peer into one of this end.
    ///
    /// Errors: `NoSuchStream`, `NotOpen`, `NoReads` (the peer takes none), `MessagesFull`, `MessageTooLong`, `NoMemory`.
    pub fn post_read(&mut self, stream: Stream, read: ReadRequest, token: u64) -> Result<()> {
        let (sink, source) = (read.sink.number(), read.source.number());
        // SAFETY: the handle is as the last call on it left it.
        done(unsafe {
            raw::iwarp_post_read(
                self.at(),
                stream.number(),
                sink,
                read.sink_to,
                read.size,
                source,
                read.source_to,
                token,
            )
        })
    }

    /// Posts a receive buffer of `n` octets, also before the stream is open. A Send that finds no buffer ends the stream.
    ///
    /// Errors: `BufferTooLong` (over 16,777,216), `NoSuchStream`, `Shared`, `Ended`, `BuffersFull` (256 are posted), and `NoMemory`,
    /// which may come in place of any but the first.
    pub fn post_recv(&mut self, stream: Stream, n: usize) -> Result<()> {
        // SAFETY: the handle is as the last call on it left it.
        done(unsafe { raw::iwarp_post_recv(self.at(), stream.number(), n) })
    }

    /// Posts the buffer's octets themselves as a receive buffer. It comes back with [`Event::Received`](crate::Event::Received) or
    /// [`Event::FlushedReceive`](crate::Event::FlushedReceive), by [`fetch_buffer`](Handle::fetch_buffer).
    ///
    /// Errors: as [`post_recv`](Handle::post_recv), but `NoMemory` comes last. The buffer comes back with the error.
    pub fn post_recv_buffer(&mut self, stream: Stream, buffer: Buffer) -> Result<(), Refused> {
        self.give(buffer, |handle, buffer| {
            // SAFETY: handle and buffer are as the last calls on them left them.
            unsafe { raw::iwarp_post_recv_buffer(handle, stream.number(), buffer) }
        })
    }
}
