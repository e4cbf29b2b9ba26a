//! Octets that came, what they did, and what is handed back.
use crate::error::{done, done_with_room};
use crate::{raw, Buffer, Delivery, Error, Event, Handle, Result, Stream};
use std::io::{self, Read};
use std::marker::PhantomData;
use std::mem;
use std::ops::{Deref, DerefMut};
use std::ptr::{self, NonNull};
use std::slice;

/// ## Octets that came
impl Handle {
    /// Sets the sequence number of the peer's first octet, which is 0 if never set. A program that reads a socket does not need this
    /// call. Errors: `NoSuchStream`; `Late` once octets were delivered.
    pub fn first_number(&mut self, stream: Stream, number: u32) -> Result<()> {
        // SAFETY: the handle is as the last call on it left it.
        done(unsafe { raw::iwarp_first_number(self.at(), stream.number(), number) })
    }

    /// Takes octets that came, in any order; `number` is the sequence number of the first of them: how many octets came before it,
    /// modulo 2^32. If they come from a socket, [`room`](Handle::room) needs no number, no copy and no care for the window: here deliver
    /// at most 131,072 octets at a time, and work until [`Event::Idle`] in between.
    ///
    /// Errors: `NoSuchStream`, `NoMemory`.
    pub fn deliver(&mut self, stream: Stream, number: u32, octets: &[u8]) -> Result<Delivery> {
        let mut kept = 0;
        let (at, n) = (octets.as_ptr(), octets.len());
        // SAFETY: the handle is as the last call on it left it; `n` octets stand at `at`; `kept` is a local.
        done(unsafe { raw::iwarp_deliver(self.at(), stream.number(), number, at, n, &mut kept) })?;
        Ok(if kept != 0 { Delivery::Kept } else { Delivery::Dropped })
    }

    /// Lends the place past the last octet that came, so that a program reads a socket to where the octets are to stand: at most `want`
    /// octets, 65,536, and what the window has room for. [`Room::came`] then takes what was read. The octets that stand there before
    /// have no meaning.
    ///
    /// A stream that has ended lends a place too; what comes is dropped. With `want` 0 none are lent, and a read of no octets looks
    /// like the end of input.
    ///
    /// Errors: `NoSuchStream`; `WindowFull`: work until [`Event::Idle`], which makes room, unless the peer's Request waits for its
    /// answer; `NoMemory`.
    ///
    /// ```
    /// # use iwarp::{Handle, Options, Role};
    /// # let mut end = Handle::new()?;
    /// # let domain = end.add_domain(1)?;
    /// # let stream = end.open_next(domain, Role::Preset, Options::NONE, b"")?;
    /// # let mut socket: &[u8] = &[0; 3];
    /// let came = end.room(stream, 65_536)?.read_from(&mut socket)?;
    /// # assert_eq!(came, 3);
    /// # Ok::<(), std::io::Error>(())
    /// ```
    ///
    /// The place is borrowed from the handle, so that no call of the handle can take it back meanwhile:
    ///
    /// ```compile_fail,E0499
    /// # use std::io::Read;
    /// # fn read(end: &mut iwarp::Handle, stream: iwarp::Stream, socket: &mut impl Read) -> std::io::Result<()> {
    /// let mut room = end.room(stream, 65_536)?;
    /// end.work(stream)?; // it would take the place back: this does not compile
    /// let n = socket.read(&mut room)?;
    /// room.came(n)?;
    /// # Ok(())
    /// # }
    /// ```
    pub fn room(&mut self, stream: Stream, want: usize) -> Result<Room<'_>> {
        let (mut at, mut n) = (ptr::null_mut(), 0);
        // SAFETY: the handle is as the last call on it left it; the two others are locals.
        done(unsafe { raw::iwarp_room(self.at(), stream.number(), want, &mut at, &mut n) })?;
        let (at, n) = match NonNull::new(at) {
            Some(at) => (at, n),
            None => (NonNull::dangling(), 0),
        };
        Ok(Room { handle: self.at(), stream, at, n, borrowed: PhantomData })
    }
}

/// A place that is lent, for octets that come (see [`Handle::room`]). It borrows the handle. If it is dropped, what was written there
/// is lost, and nothing else.
#[derive(Debug)]
pub struct Room<'handle> {
    handle: *mut raw::iwarp,
    stream: Stream,
    at: NonNull<u8>,
    n: usize,
    borrowed: PhantomData<&'handle mut Handle>,
}

// SAFETY: it is a handle that is borrowed alone, and octets of it that nothing else has: both may go to another thread.
unsafe impl Send for Room<'_> {}

impl Room<'_> {
    /// Takes the first `n` octets of the place as come. Errors: `NotLent` if `n` is 0 or more than the place has: what was written
    /// there is lost.
    pub fn came(self, n: usize) -> Result<()> {
        // SAFETY: the handle is borrowed, and is as `Handle::room` left it.
        done(unsafe { raw::iwarp_came(self.handle, self.stream.number(), n) })
    }

    /// Reads once to the place, and takes what came. Returns how many octets came: 0 at the end of input, or if the place has none.
    ///
    /// Errors: those of the reader, and then nothing has changed.
    pub fn read_from<R: Read + ?Sized>(mut self, reader: &mut R) -> io::Result<usize> {
        let n = reader.read(&mut self)?;
        if n > 0 {
            self.came(n)?;
        }
        Ok(n)
    }
}

impl Deref for Room<'_> {
    type Target = [u8];

    fn deref(&self) -> &[u8] {
        // SAFETY: `n` octets stand at `at`, all of them once written, until a call on the handle, which is borrowed.
        unsafe { slice::from_raw_parts(self.at.as_ptr(), self.n) }
    }
}

impl DerefMut for Room<'_> {
    fn deref_mut(&mut self) -> &mut [u8] {
        // SAFETY: as in `deref`; the library does not use them before they are taken.
        unsafe { slice::from_raw_parts_mut(self.at.as_ptr(), self.n) }
    }
}

/// A message that was received, or a receive buffer that was flushed: the whole buffer, as it was posted.
#[derive(Debug)]
pub struct Received {
    /// The buffer. Post it again ([`Handle::post_recv_buffer`]), so that none is made for each message.
    pub buffer: Buffer,
    /// How many octets the message has, at the front of the buffer. All, if the buffer was flushed.
    pub len: usize,
}

impl Received {
    /// The octets of the message.
    pub fn octets(&self) -> &[u8] {
        self.buffer.get(..self.len).unwrap_or(&self.buffer)
    }
}

/// ## Work, and what is handed back
impl Handle {
    /// Does one step at a stream. Call it until it answers [`Event::Idle`]: after octets came, after some were emitted, and after
    /// [`break_link`](Handle::break_link). [`work_on`](Handle::work_on) leaves out the steps that only tell how far the stream has
    /// come.
    ///
    /// Errors: `NoSuchStream`, `TooFar`, `NoMemory`.
    pub fn work(&mut self, stream: Stream) -> Result<Event> {
        let mut event = raw::iwarp_event::default();
        // SAFETY: the handle is as the last call on it left it; `event` is a local.
        done(unsafe { raw::iwarp_work(self.at(), stream.number(), &mut event) })?;
        Ok(Event::of(&event))
    }

    /// Does steps at a stream until one has something to act on, or there is nothing to do: at most 4,096, so that other streams have
    /// their turn. Only after so many does it answer an event that [only tells](Event::is_progress) how far the stream has come.
    ///
    /// Errors: as [`work`](Handle::work). The steps before the refused one stay done.
    pub fn work_on(&mut self, stream: Stream) -> Result<Event> {
        let mut event = raw::iwarp_event::default();
        // SAFETY: the handle is as the last call on it left it; `event` is a local.
        done(unsafe { raw::iwarp_work_on(self.at(), stream.number(), &mut event) })?;
        Ok(Event::of(&event))
    }

    /// As [`work_on`](Handle::work_on), with a share of the domain's pool: the stream may have at most `share` of its buffers bound at once
    /// (RFC 5042 6.4.3.1; [`Progress::bound`](crate::Progress::bound) tells how many it has). A Send that would bind one more ends the
    /// stream, as one that finds the pool empty does. To a stream with receive buffers of its own the share means nothing.
    ///
    /// Errors: as there.
    pub fn work_within(&mut self, stream: Stream, share: usize) -> Result<Event> {
        let mut event = raw::iwarp_event::default();
        // SAFETY: the handle is as the last call on it left it; `event` is a local.
        done(unsafe { raw::iwarp_work_within(self.at(), stream.number(), share, &mut event) })?;
        Ok(Event::of(&event))
    }

    /// As [`work_within`](Handle::work_within), if there is a share, and it also stops at the step by which the stream comes to have more
    /// than `mark` of its pool's buffers bound: the high-water notification of RFC 5042 6.4.3.1. Its event is [`Event::Buffered`]
    /// with `above_mark`, which [`work_on`](Handle::work_on) passes over. It is told once, and again only after the stream had `mark` or fewer bound.
    ///
    /// Errors: as there.
    pub fn work_marked(&mut self, stream: Stream, share: Option<usize>, mark: usize) -> Result<Event> {
        let has_share = if share.is_some() { raw::IWARP_HAS_SHARE } else { 0 };
        let limits = raw::iwarp_limits {
            size: mem::size_of::<raw::iwarp_limits>(),
            share: share.unwrap_or(usize::MAX),
            mark,
            flags: u64::from(raw::IWARP_HAS_MARK | has_share),
            reserved: [0; 4],
        };
        let mut event = raw::iwarp_event::default();
        // SAFETY: the handle is as the last call on it left it; `limits` and `event` are locals.
        done(unsafe { raw::iwarp_work_marked(self.at(), stream.number(), &limits, &mut event) })?;
        Ok(Event::of(&event))
    }

    /// Copies the message or buffer that was told last on this stream to the front of `out`, and forgets it. Returns how many octets
    /// it has; 0 if there is none. Errors: `NoSuchStream`; `NoRoom`: it can still be fetched.
    pub fn fetch(&mut self, stream: Stream, out: &mut [u8]) -> Result<usize> {
        let mut n = 0;
        let (at, room) = (out.as_mut_ptr(), out.len());
        // SAFETY: the handle is as the last call on it left it; `room` octets at `at` can be written; `n` is a local.
        let code = unsafe { raw::iwarp_fetch(self.at(), stream.number(), at, room, &mut n) };
        done_with_room(code, n)?;
        Ok(n)
    }

    /// The same, into a vector of the message's length. Errors: `NoSuchStream`; `NoMemory`: it can still be fetched.
    pub fn fetch_vec(&mut self, stream: Stream) -> Result<Vec<u8>> {
        match self.fetch(stream, &mut []) {
            Err(Error::NoRoom { needed }) => {
                let mut octets = Vec::new();
                octets.try_reserve_exact(needed).map_err(|_| Error::NoMemory)?;
                octets.resize(needed, 0);
                let n = self.fetch(stream, &mut octets)?;
                octets.truncate(n);
                Ok(octets)
            }
            fetched => fetched.map(|_| Vec::new()),
        }
    }

    /// Gives the message or buffer that was told last on this stream, with nothing copied, and forgets it. If there is none, the
    /// buffer has no octets.
    ///
    /// Errors: `NoSuchStream`; `NoMemory` if there is none for the buffer's own few octets: it can still be fetched.
    pub fn fetch_buffer(&mut self, stream: Stream) -> Result<Received> {
        let mut len = 0;
        let buffer = self.get(|handle, buffer| {
            // SAFETY: handle and buffer are as the last calls on them left them; `len` is a local.
            unsafe { raw::iwarp_fetch_buffer(handle, stream.number(), buffer, &mut len) }
        })?;
        Ok(Received { buffer, len })
    }

    /// Gives the octets of the message that [`Event::Done`] or [`Event::Flushed`] told last on this stream, if it was posted from a
    /// buffer, and forgets them. If it was not, or they were fetched, the buffer has no octets. Fetch them before the next is told.
    ///
    /// Errors: `NoSuchStream`; `NoMemory`: they can still be fetched.
    pub fn fetch_sent(&mut self, stream: Stream) -> Result<Buffer> {
        self.get(|handle, buffer| {
            // SAFETY: handle and buffer are as the last calls on them left them.
            unsafe { raw::iwarp_fetch_sent(handle, stream.number(), buffer) }
        })
    }
}
