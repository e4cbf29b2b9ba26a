//! The loop of a stream over a socket.
use crate::{Buffer, Error, Event, Fault, FillStop, Handle, Result, State, Stream};
use std::fmt;
use std::io::{self, ErrorKind, Read, Write};

/// How many octets a connection reads at a time, at most, unless [`Connection::with_sizes`] says otherwise. The library lends no more.
pub const MOST_READ: usize = 65_536;

/// How many octets of frames a connection emits at a time, unless [`Connection::with_sizes`] says otherwise.
pub const MOST_WRITTEN: usize = 65_536;

/// A stream of a [`Handle`], and the socket that carries it: anything that reads and writes, blocking or not.
///
/// With one connection, call [`turn`](Connection::turn) in a loop: it reads, writes and works, and tells what to act on. A program with
/// many, which waits for all their sockets, gives each one read and one write when it is ready, by
/// [`read_once`](Connection::read_once), [`next_event`](Connection::next_event) and [`write_once`](Connection::write_once):
///
/// 1. when the socket is readable, `read_once`; then `next_event` until it answers none, acting on each;
/// 2. `write_once`, also after something was posted; then `next_event` again, since what was sent may be done;
/// 3. wait for the socket to be writable while `write_once` answers [`Outgoing::Left`], and do not read meanwhile: a peer that reads
///    nothing would have this end post answers without end. One of the two ends must read on, as `turn` does;
/// 4. at [`Outgoing::Ended`] shut down the socket's output, and go on reading until [`Intake::End`]: if a socket is closed with
///    octets unread, TCP resets the connection, and the peer may lose the Terminate that says what was wrong;
/// 5. when the connection is over, [`finish`](Connection::finish).
///
/// What the loop keeps to: no octet that was emitted is dropped before the socket took it. A socket that takes a part keeps the rest for
/// the next call. A call that would block changes nothing, and one that is interrupted is made again. A Request that is not answered
/// stops the reading, since nothing makes room before it is.
///
/// Each call takes the handle that the stream was opened at. A connection that is dropped leaves its stream open: it goes with the
/// handle.
pub struct Connection<S> {
    socket: S,
    stream: Stream,
    // What was emitted, and the socket has not taken yet; none before something is emitted.
    frames: Option<Buffer>,
    most_read: usize,
    most_written: usize,
    // How many buffers of its domain's pool the stream may have bound at once; none: as many as there are.
    share: Option<usize>,
    // The peer's Request was told. Whether it was answered the stream's state says.
    asked: bool,
    // A Read of the peer's was denied when it was to be answered, which is still to be told.
    denied: Option<Fault>,
    // `turn` has told that the stream has ended.
    told_ended: bool,
    // `break_link` was called.
    broken: bool,
}

/// What [`Connection::read_once`] brought.
#[derive(Clone, Copy, Debug, PartialEq, Eq, Hash)]
#[must_use]
pub enum Intake {
    /// So many octets came, at least one: call [`Connection::next_event`].
    Came(usize),
    /// The peer closed the connection, or its output. Write what is due, and [`finish`](Connection::finish).
    End,
    /// The socket would block: wait until it is readable.
    Blocked,
    /// Nothing was read: the peer's Request waits for [`Handle::accept`] or [`Handle::reject`].
    Unanswered,
    /// Nothing was read: the window has no room before [`Connection::next_event`] was called until it answers none.
    Full,
}

/// What is left after [`Connection::write_once`].
#[derive(Clone, Copy, Debug, PartialEq, Eq, Hash)]
#[must_use]
pub enum Outgoing {
    /// Nothing, before more is posted or comes.
    All,
    /// Something: call it again when the socket is writable.
    Left,
    /// Nothing, and the stream has ended: shut down the socket's output, and read until [`Intake::End`].
    Ended,
}

/// What [`Connection::turn`] tells.
#[derive(Clone, Copy, Debug, PartialEq, Eq, Hash)]
#[must_use]
pub enum Turn {
    /// Something to act on. Call `turn` again.
    Event(Event),
    /// So many octets came, and there is nothing to act on. Call `turn` again, unless the peer has had its time: once the stream has
    /// ended, what comes is dropped.
    Came(usize),
    /// The socket would block: wait until it is ready, and call `turn` again. A socket that blocks never answers this, unless it has a
    /// time-out.
    Wait(Interest),
    /// The stream has ended, and all is written, a Terminate among it: shut down the socket's output, and call `turn` again, which reads
    /// on until the peer closes. It is told once.
    Ended,
    /// The peer closed the connection, or its output. What it sent before has been told, and all that was due is written: call
    /// [`Connection::finish`].
    Closed,
}

/// What to wait for.
#[derive(Clone, Copy, Debug, PartialEq, Eq, Hash)]
pub enum Interest {
    /// That the socket is readable.
    Readable,
    /// That the socket is writable.
    Writable,
    /// That the socket is readable or writable.
    ReadableOrWritable,
}

impl<S> Connection<S> {
    /// Carries a stream over a socket. It takes no memory before there is something to read or to write.
    pub fn new(stream: Stream, socket: S) -> Self {
        Self::with_sizes(stream, socket, MOST_READ, MOST_WRITTEN)
    }

    /// The same, with at most so many octets for each read, and for what is emitted at a time. An idle stream keeps memory for as many
    /// octets as it reads at a time: a program that serves many sets less. 0 stands for 1, and the library lends no more than
    /// [`MOST_READ`].
    pub fn with_sizes(stream: Stream, socket: S, most_read: usize, most_written: usize) -> Self {
        Self {
            socket,
            stream,
            frames: None,
            most_read: most_read.max(1),
            most_written,
            share: None,
            asked: false,
            denied: None,
            told_ended: false,
            broken: false,
        }
    }

    /// Gives the stream a share of its domain's pool: from now on it works by [`Handle::work_within`]. At first it has none, and may take
    /// all of the pool.
    pub fn set_share(&mut self, share: Option<usize>) {
        self.share = share;
    }

    /// Its stream.
    pub fn stream(&self) -> Stream {
        self.stream
    }

    /// Its socket, for time-outs and the like.
    pub fn socket(&self) -> &S {
        &self.socket
    }

    /// Its socket. What is read from it or written to it here is lost to the stream.
    pub fn socket_mut(&mut self) -> &mut S {
        &mut self.socket
    }

    /// How many octets were emitted and are not yet written.
    pub fn unwritten(&self) -> usize {
        self.frames.as_ref().map_or(0, |frames| frames.len())
    }

    /// The next event to act on; none if there is nothing to do. Those that [only tell](Event::is_progress) how far the stream has come
    /// are left out.
    ///
    /// Errors: those of [`Handle::work_on`]. After [`Error::NoMemory`] nothing is lost: call it again later.
    pub fn next_event(&mut self, end: &mut Handle) -> Result<Option<Event>> {
        if let Some(fault) = self.denied.take() {
            return Ok(Some(Event::Fault(fault)));
        }
        loop {
            let event = match self.share {
                Some(share) => end.work_within(self.stream, share)?,
                None => end.work_on(self.stream)?,
            };
            self.asked |= event == Event::Asked;
            match event {
                Event::Idle => return Ok(None),
                event if event.is_progress() => {}
                event => return Ok(Some(event)),
            }
        }
    }

    /// Says that the connection is over, before [`finish`](Connection::finish): nothing more is read or written, and
    /// [`next_event`](Connection::next_event) hands back what was posted. Errors: `NoSuchStream`.
    pub fn break_link(&mut self, end: &mut Handle) -> Result<()> {
        end.break_link(self.stream)?;
        self.broken = true;
        self.frames = None;
        Ok(())
    }

    /// Ends the stream, has the handle forget it, and gives the socket back. What was posted and [`next_event`](Connection::next_event)
    /// has not handed back is dropped.
    ///
    /// Errors: `NoSuchStream`, if the stream was closed before. It takes no memory.
    pub fn finish(mut self, end: &mut Handle) -> Result<S> {
        self.break_link(end)?;
        while self.next_event(end)?.is_some() {}
        end.close(self.stream)?;
        Ok(self.socket)
    }

    // Whether the peer's Request waits for its answer.
    fn is_unanswered(&mut self, end: &Handle) -> Result<bool> {
        self.asked = self.asked && end.state(self.stream)? == State::Starting;
        Ok(self.asked)
    }

    // Whether there is something to write.
    fn has_output(&self, end: &Handle) -> Result<bool> {
        Ok(!self.broken && (self.unwritten() > 0 || end.wants_write(self.stream)?))
    }

    // Whether the stream has ended, but not by `break_link`.
    fn has_ended(&self, end: &Handle) -> Result<bool> {
        Ok(!self.broken && end.state(self.stream)? == State::Ended)
    }

    // Emits what is due, unless something is left to write. A Read that is denied leaves a Terminate to emit.
    fn gather(&mut self, end: &mut Handle) -> Result<()> {
        while self.unwritten() == 0 && self.has_output(end)? {
            let frames = match &mut self.frames {
                Some(frames) => frames,
                none => none.insert(Buffer::new(0)?),
            };
            if let FillStop::Denied(fault) = end.fill(self.stream, self.most_written, frames)?.stop {
                self.denied = Some(fault);
            }
        }
        Ok(())
    }
}

impl<S: Read> Connection<S> {
    /// Reads once, right to where the octets are to stand. None is dropped, unless the stream has ended.
    ///
    /// Errors: those of the socket, which end the connection; those of [`Handle::room`] as an [`io::Error`], of which
    /// [`OutOfMemory`](ErrorKind::OutOfMemory) may pass: nothing was read.
    pub fn read_once(&mut self, end: &mut Handle) -> io::Result<Intake> {
        if self.broken {
            return Ok(Intake::End);
        }
        if self.is_unanswered(end)? {
            return Ok(Intake::Unanswered);
        }
        loop {
            let room = match end.room(self.stream, self.most_read) {
                Err(Error::WindowFull) => return Ok(Intake::Full),
                room => room?,
            };
            match room.read_from(&mut self.socket) {
                Ok(0) => return Ok(Intake::End),
                Ok(n) => return Ok(Intake::Came(n)),
                Err(error) if error.kind() == ErrorKind::Interrupted => {}
                Err(error) if error.kind() == ErrorKind::WouldBlock => return Ok(Intake::Blocked),
                Err(error) => return Err(error),
            }
        }
    }
}

impl<S: Write> Connection<S> {
    /// Writes once: what the socket did not take the last time, or else what is now due. What it takes is dropped, and the rest stays.
    ///
    /// Errors: those of the socket, which end the connection; those of [`Handle::fill`] as an [`io::Error`], of which
    /// [`OutOfMemory`](ErrorKind::OutOfMemory) may pass: nothing is lost.
    pub fn write_once(&mut self, end: &mut Handle) -> io::Result<Outgoing> {
        self.write_some(end)?;
        Ok(if self.has_output(end)? {
            Outgoing::Left
        } else if self.has_ended(end)? {
            Outgoing::Ended
        } else {
            Outgoing::All
        })
    }

    /// The same, until nothing is left, or the socket would block ([`Outgoing::Left`]): before the output is shut down for instance. A
    /// message may be [done](Event::Done) before the socket took all of it.
    ///
    /// Errors: as [`write_once`](Connection::write_once).
    pub fn write_all(&mut self, end: &mut Handle) -> io::Result<Outgoing> {
        while self.write_some(end)? {}
        self.write_once(end)
    }

    // Writes once, if there is something to write. Returns whether the socket took some.
    fn write_some(&mut self, end: &mut Handle) -> io::Result<bool> {
        self.gather(end)?;
        let Some(frames) = self.frames.as_mut().filter(|frames| !frames.is_empty()) else {
            return Ok(false);
        };
        loop {
            match self.socket.write(frames) {
                Ok(0) => return Err(ErrorKind::WriteZero.into()),
                Ok(n) => {
                    frames.drop_front(n);
                    return Ok(true);
                }
                Err(error) if error.kind() == ErrorKind::Interrupted => {}
                Err(error) if error.kind() == ErrorKind::WouldBlock => return Ok(false),
                Err(error) => return Err(error),
            }
        }
    }
}

impl<S: Read + Write> Connection<S> {
    /// Works; writes all that is due, or as much as the socket takes; and reads once, if there is nothing to act on. It is for a program
    /// with one connection, or a thread for each. Over a socket that blocks, a write waits until the peer reads: if both ends send much
    /// at once, take one that does not block.
    ///
    /// Errors: those of [`next_event`](Connection::next_event), [`write_once`](Connection::write_once) and
    /// [`read_once`](Connection::read_once); of the kind [`InvalidInput`](ErrorKind::InvalidInput) if the peer's Request was told and is
    /// neither accepted nor rejected.
    pub fn turn(&mut self, end: &mut Handle) -> io::Result<Turn> {
        loop {
            if let Some(event) = self.next_event(end)? {
                return Ok(Turn::Event(event));
            }
            if self.write_some(end)? {
                continue;
            }
            let left = self.has_output(end)?;
            if !left && !self.told_ended && self.has_ended(end)? {
                self.told_ended = true;
                return Ok(Turn::Ended);
            }
            return match self.read_once(end)? {
                Intake::Came(n) => Ok(self.next_event(end)?.map_or(Turn::Came(n), Turn::Event)),
                Intake::End if left => Ok(Turn::Wait(Interest::Writable)),
                Intake::End => Ok(Turn::Closed),
                Intake::Blocked if left => Ok(Turn::Wait(Interest::ReadableOrWritable)),
                Intake::Blocked => Ok(Turn::Wait(Interest::Readable)),
                Intake::Unanswered => Err(io::Error::new(ErrorKind::InvalidInput, UNANSWERED)),
                Intake::Full => Err(Error::WindowFull.into()),
            };
        }
    }
}

const UNANSWERED: &str = "the peer's Request waits for accept or reject";

impl<S> fmt::Debug for Connection<S> {
    fn fmt(&self, f: &mut fmt::Formatter<'_>) -> fmt::Result {
        f.debug_struct("Connection")
            .field("stream", &self.stream)
            .field("unwritten", &self.unwritten())
            .field("broken", &self.broken)
            .finish_non_exhaustive()
    }
}
