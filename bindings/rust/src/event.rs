//! What a step of work did, and what an emission gave.
use crate::raw;
use crate::{Agreed, Fault, Rights, Stag, StartupFault};

/// What was posted.
#[derive(Clone, Copy, Debug, PartialEq, Eq, Hash)]
#[non_exhaustive]
pub enum Message {
    /// A Write.
    Write,
    /// A Send.
    Send,
    /// A Read.
    Read,
    /// A number that this crate has no name for, of a later library.
    Other(u32),
}

impl Message {
    const fn of(number: u32) -> Self {
        match number {
            raw::IWARP_MESSAGE_WRITE => Self::Write,
            raw::IWARP_MESSAGE_SEND => Self::Send,
            raw::IWARP_MESSAGE_READ => Self::Read,
            number => Self::Other(number),
        }
    }
}

/// What a step of [`Handle::work`](crate::Handle::work) did at a stream.
#[derive(Clone, Copy, Debug, PartialEq, Eq, Hash)]
#[non_exhaustive]
pub enum Event {
    /// Nothing: there is nothing to do until more octets come or more is emitted.
    Idle,
    /// The oldest posted message is done. The octets of a Read stand in its sink. [`Handle::fetch_sent`](crate::Handle::fetch_sent)
    /// moves back those that were posted from a buffer.
    Done {
        /// What it is.
        message: Message,
        /// The program's number, of the call by which it was posted.
        token: u64,
    },
    /// The stream has ended, and the oldest posted message is given up: the peer may have received it or not. A later one may be done.
    Flushed {
        /// What it is.
        message: Message,
        /// The program's number, of the call by which it was posted.
        token: u64,
    },
    /// The stream has ended, and its oldest receive buffer can be fetched.
    FlushedReceive {
        /// How many octets it has.
        len: u64,
    },
    /// The peer's MPA Request came (RFC 5044 7.1): call [`Handle::accept`](crate::Handle::accept) or
    /// [`Handle::reject`](crate::Handle::reject). [`Handle::told`](crate::Handle::told) has what it asks for.
    Asked,
    /// The peer accepted: messages may be posted.
    Opened {
        /// What both ends agree on.
        agreed: Agreed,
        /// How many Reads of this end may be outstanding.
        reads: u64,
    },
    /// The peer's start-up frame has ended the stream: close the connection.
    ClosedByPeer(StartupFault),
    /// Octets were placed in a region.
    Placed {
        /// The region.
        stag: Stag,
        /// The tagged offset of the first octet.
        to: u64,
        /// How many octets.
        len: u64,
        /// By which right: [`Rights::WRITE`], of a Write of the peer's, or [`Rights::SINK`], of a Read of this end.
        by: Rights,
    },
    /// Octets of a Send were placed in its buffer.
    Buffered {
        /// The message sequence number of the Send.
        msn: u32,
        /// The offset of the first octet.
        mo: u32,
        /// How many octets.
        len: u64,
        /// Whether the stream came to have more of its pool's buffers bound than the mark of
        /// [`Handle::work_marked`](crate::Handle::work_marked).
        above_mark: bool,
    },
    /// The peer asked to read a part of a region.
    Requested {
        /// The region.
        stag: Stag,
        /// The tagged offset of the first octet.
        to: u64,
        /// How many octets.
        len: u64,
    },
    /// A frame had its turn.
    Passed,
    /// A Send is complete, and can be fetched, before the next is told on this stream
    /// ([`Handle::fetch_buffer`](crate::Handle::fetch_buffer)). Its buffer is the program's again.
    Received {
        /// How many octets it has.
        len: u64,
        /// Whether it asks for a solicited event.
        solicited: bool,
        /// The region of this end that it has made invalid, if it is a Send with Invalidate.
        invalidated: Option<Stag>,
    },
    /// The stream has ended: the peer's Terminate names a fault of this end's. Close the connection.
    Terminated(Fault),
    /// The stream has ended by a fault of the peer's. A Terminate may be due: write it, end the output, and read until the peer
    /// closes.
    Fault(Fault),
    /// A frame was judged before its turn, and is left until its turn.
    Tried {
        /// The stream place of the frame.
        at: u64,
    },
    /// A kind that this crate has no name for, of a later library.
    Other(u32),
}

impl Event {
    /// Whether it only tells how far the stream has come, so that the program has nothing to do.
    pub const fn is_progress(self) -> bool {
        matches!(
            self,
            Self::Placed { .. } | Self::Buffered { .. } | Self::Requested { .. } | Self::Passed | Self::Tried { .. }
        )
    }

    /// Whether the stream has ended with it.
    pub const fn is_end(self) -> bool {
        matches!(self, Self::Terminated(_) | Self::Fault(_) | Self::ClosedByPeer(_))
    }

    pub(crate) fn of(event: &raw::iwarp_event) -> Self {
        let message = Message::of(event.message);
        let (token, len, to) = (event.token, event.len, event.to);
        let stag = Stag::new(event.stag);
        let fault = Fault { layer: event.layer, error: event.error, code: event.code };
        match event.kind {
            raw::IWARP_IDLE => Self::Idle,
            raw::IWARP_DONE => Self::Done { message, token },
            raw::IWARP_FLUSHED => Self::Flushed { message, token },
            raw::IWARP_FLUSHED_RECV => Self::FlushedReceive { len },
            raw::IWARP_ASKED => Self::Asked,
            raw::IWARP_OPENED => Self::Opened { agreed: Agreed::from_bits(event.flags), reads: len },
            raw::IWARP_CLOSED_BY_PEER => Self::ClosedByPeer(StartupFault::of(event.code)),
            raw::IWARP_PLACED => Self::Placed { stag, to, len, by: Rights::from_bits(event.right) },
            raw::IWARP_BUFFERED => {
                let above_mark = event.flags & raw::IWARP_ABOVE_MARK != 0;
                Self::Buffered { msn: event.msn, mo: event.mo, len, above_mark }
            }
            raw::IWARP_REQUESTED => Self::Requested { stag, to, len },
            raw::IWARP_PASSED => Self::Passed,
            raw::IWARP_RECEIVED => Self::Received {
                len,
                solicited: event.flags & raw::IWARP_SOLICITED != 0,
                invalidated: (event.flags & raw::IWARP_INVALIDATES != 0).then_some(stag),
            },
            raw::IWARP_TERMINATED => Self::Terminated(fault),
            raw::IWARP_FAULT => Self::Fault(fault),
            raw::IWARP_TRIED => Self::Tried { at: to },
            kind => Self::Other(kind),
        }
    }
}

/// What a call of [`Handle::emit`](crate::Handle::emit) did.
#[derive(Clone, Copy, Debug, PartialEq, Eq, Hash)]
#[non_exhaustive]
pub enum Emission {
    /// Nothing is due.
    Nothing,
    /// A frame was emitted.
    Frame {
        /// The stream place of its first octet.
        from: u64,
    },
    /// A frame of a Read Response was emitted, with octets of a region.
    Fetched {
        /// The stream place of its first octet.
        from: u64,
        /// The region.
        stag: Stag,
        /// The tagged offset of the first octet.
        to: u64,
        /// How many octets of the region.
        len: u64,
    },
    /// No frame was emitted: the peer may not read what is due, and the stream has ended. A Terminate is due.
    Denied(Fault),
    /// A kind that this crate has no name for, of a later library.
    Other(u32),
}

impl Emission {
    pub(crate) fn of(emission: &raw::iwarp_emission) -> Self {
        let from = emission.from;
        match emission.kind {
            raw::IWARP_NOTHING => Self::Nothing,
            raw::IWARP_FRAME => Self::Frame { from },
            raw::IWARP_FETCHED => {
                Self::Fetched { from, stag: Stag::new(emission.stag), to: emission.to, len: emission.n }
            }
            raw::IWARP_DENIED => {
                Self::Denied(Fault { layer: emission.layer, error: emission.error, code: emission.code })
            }
            kind => Self::Other(kind),
        }
    }
}

/// What a call of [`Handle::fill`](crate::Handle::fill) appended.
#[derive(Clone, Copy, Debug, PartialEq, Eq, Hash)]
pub struct Filling {
    /// How many frames.
    pub frames: u64,
    /// How many octets.
    pub octets: u64,
    /// Where it stopped.
    pub stop: FillStop,
}

/// Where a call of [`Handle::fill`](crate::Handle::fill) stopped.
#[derive(Clone, Copy, Debug, PartialEq, Eq, Hash)]
#[non_exhaustive]
pub enum FillStop {
    /// Nothing more is due.
    All,
    /// More may be due: one frame more would be too much, or there is no memory for it.
    More,
    /// The peer may not read what is due, and the stream has ended: call again, for the Terminate.
    Denied(Fault),
    /// A kind that this crate has no name for, of a later library.
    Other(u32),
}

impl Filling {
    pub(crate) fn of(filling: &raw::iwarp_filling) -> Self {
        let fault = Fault { layer: filling.layer, error: filling.error, code: filling.code };
        let stop = match filling.kind {
            raw::IWARP_FILL_ALL => FillStop::All,
            raw::IWARP_FILL_MORE => FillStop::More,
            raw::IWARP_FILL_DENIED => FillStop::Denied(fault),
            kind => FillStop::Other(kind),
        };
        Self { frames: filling.frames, octets: filling.n, stop }
    }
}
