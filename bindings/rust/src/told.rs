//! What regions and streams tell.
use crate::raw;
use crate::{Domain, Rights, Stag, Stream};
use std::mem;

/// The facts of a region.
#[derive(Clone, Copy, Debug, PartialEq, Eq, Hash)]
#[non_exhaustive]
pub struct Facts {
    /// The tagged offset of its first octet.
    pub base: u64,
    /// How many octets it has.
    pub len: u64,
    /// What it may be used for.
    pub rights: Rights,
    /// Whether peers may use it.
    pub valid: bool,
    /// The stream that it is limited to, if it is limited to one.
    pub stream: Option<Stream>,
}

impl Facts {
    pub(crate) fn of(facts: &raw::iwarp_facts) -> Self {
        Self {
            base: facts.base,
            len: facts.len,
            rights: Rights::from_bits(facts.rights),
            valid: facts.valid != 0,
            stream: (facts.limited != 0).then_some(Stream::new(facts.stream)),
        }
    }
}

/// Who may use a region, within its rights.
#[derive(Clone, Copy, Debug, PartialEq, Eq, Hash)]
pub enum Scope {
    /// The peers of all streams of a domain.
    Domain(Domain),
    /// The peer of one stream: to those of others the STag is as one of another domain (RFC 5042 6.1.1). When the stream is closed the
    /// region becomes invalid, and stays registered.
    Stream(Stream),
}

/// How a region is registered ([`Handle::register_as`](crate::Handle::register_as)).
#[derive(Clone, Copy, Debug, PartialEq, Eq, Hash)]
pub struct Registration {
    /// Who may use it.
    pub scope: Scope,
    /// The tagged offset of its first octet.
    pub base: u64,
    /// What it may be used for.
    pub rights: Rights,
    /// Random bits, new for each region, by which its STag is drawn: no peer can tell the next one (RFC 5042 6.1.1). Without them it is
    /// one that a peer can guess.
    pub drawn: Option<u32>,
}

impl Registration {
    pub(crate) fn in_c(self) -> raw::iwarp_registration {
        let (limited, pd, stream) = match self.scope {
            Scope::Domain(domain) => (0, domain.number(), 0),
            Scope::Stream(stream) => (raw::IWARP_LIMITED, 0, stream.number()),
        };
        let drawn = if self.drawn.is_some() { raw::IWARP_DRAWN } else { 0 };
        raw::iwarp_registration {
            size: mem::size_of::<raw::iwarp_registration>(),
            flags: u64::from(limited | drawn),
            base: self.base,
            rights: self.rights.bits(),
            pd,
            stream,
            drawn: self.drawn.unwrap_or(0),
            reserved: [0; 4],
        }
    }
}

/// How a stream begins.
#[derive(Clone, Copy, Debug, PartialEq, Eq, Hash)]
pub enum Role {
    /// It is open at once, with no start-up frames: both ends must have the same options.
    Preset,
    /// It sends the MPA Request: the end that connects.
    Initiator,
    /// It waits for the Request, and for [`Handle::accept`](crate::Handle::accept): the end that listens.
    Responder,
}

impl Role {
    pub(crate) const fn number(self) -> u32 {
        match self {
            Self::Preset => raw::IWARP_PRESET,
            Self::Initiator => raw::IWARP_INITIATOR,
            Self::Responder => raw::IWARP_RESPONDER,
        }
    }
}

/// How far a stream is in its life.
#[derive(Clone, Copy, Debug, PartialEq, Eq, Hash)]
#[non_exhaustive]
pub enum State {
    /// Its start-up goes on: of postings only receive buffers are taken.
    Starting,
    /// Messages may be posted.
    Open,
    /// It has ended. A start-up frame or a Terminate may still be due.
    Ended,
    /// A number that this crate has no name for, of a later library.
    Other(u32),
}

impl State {
    pub(crate) const fn of(state: u32) -> Self {
        match state {
            raw::IWARP_STATE_STARTING => Self::Starting,
            raw::IWARP_STATE_OPEN => Self::Open,
            raw::IWARP_STATE_ENDED => Self::Ended,
            state => Self::Other(state),
        }
    }
}

/// What the peer told in its start-up frame. Before that was read, and on a preset stream, `revision` is 0 and nothing is told.
#[derive(Clone, Copy, Debug, Default, PartialEq, Eq, Hash)]
#[non_exhaustive]
pub struct Told {
    /// The revision of MPA: 1 or 2.
    pub revision: u32,
    /// Whether this end is to put markers into what it sends.
    pub markers: bool,
    /// Whether CRCs are to be used, in both directions.
    pub crc: bool,
    /// What an enhanced frame tells besides (RFC 6581 9); none if the frame is not enhanced.
    pub enhanced: Option<Enhanced>,
}

/// What the peer told in an enhanced start-up frame (RFC 6581 9).
#[derive(Clone, Copy, Debug, Default, PartialEq, Eq, Hash)]
#[non_exhaustive]
pub struct Enhanced {
    /// How many Reads the peer takes at once. This end has no more outstanding, and never more than 16.
    pub ird: u32,
    /// How many Reads the peer wants to have outstanding.
    pub ord: u32,
    /// Whether it asks for the peer-to-peer model (A).
    pub peer_to_peer: bool,
    /// The RTR may be a Send (B).
    pub rtr_send: bool,
    /// The RTR may be a Write (C).
    pub rtr_write: bool,
    /// The RTR may be a Read (D).
    pub rtr_read: bool,
}

impl Told {
    pub(crate) fn of(told: &raw::iwarp_told) -> Self {
        let enhanced = Enhanced {
            ird: told.ird,
            ord: told.ord,
            peer_to_peer: told.peer_to_peer != 0,
            rtr_send: told.rtr_send != 0,
            rtr_write: told.rtr_write != 0,
            rtr_read: told.rtr_read != 0,
        };
        Self {
            revision: told.revision,
            markers: told.markers != 0,
            crc: told.crc != 0,
            enhanced: (told.has_word != 0).then_some(enhanced),
        }
    }
}

/// How far a stream is, in octets.
#[derive(Clone, Copy, Debug, Default, PartialEq, Eq, Hash)]
#[non_exhaustive]
pub struct Progress {
    /// Emitted, the start-up frame among them.
    pub sent: u64,
    /// Of the peer's, before the in-order point: where the last frame that had its turn ends.
    pub in_order: u64,
    /// Of the next frame, which the next call of [`Handle::emit`](crate::Handle::emit) gives; 0 if it gives none.
    pub due: u64,
    /// How many buffers of its domain's pool it has bound ([`Handle::work_within`](crate::Handle::work_within)).
    pub bound: u64,
    /// How many deliveries were dropped. With `tried` it tells how often the stream took a path that costs more than others and
    /// does not end it (RFC 5042 6.4.4).
    pub dropped: u64,
    /// How many of the peer's frames were judged before their turn, and again in it.
    pub tried: u64,
}

impl Progress {
    pub(crate) fn of(progress: &raw::iwarp_progress) -> Self {
        Self {
            sent: progress.sent,
            in_order: progress.in_order,
            due: progress.due,
            bound: progress.bound,
            dropped: progress.dropped,
            tried: progress.tried,
        }
    }
}

/// How a Send is posted. The default is neither.
#[derive(Clone, Copy, Debug, Default, PartialEq, Eq, Hash)]
pub struct SendOptions {
    /// Whether the peer is to have a solicited event (RFC 5040 4.6).
    pub solicited: bool,
    /// A region of the peer that the Send invalidates.
    pub invalidate: Option<Stag>,
}

impl SendOptions {
    /// The flags and the STag by which `iwarp.h` has them.
    pub(crate) fn in_c(self) -> (u32, u32) {
        let solicited = if self.solicited { raw::IWARP_SOLICITED } else { 0 };
        match self.invalidate {
            Some(stag) => (solicited | raw::IWARP_INVALIDATES, stag.number()),
            None => (solicited, 0),
        }
    }
}

/// A Read: from a region of the peer into one of this end.
#[derive(Clone, Copy, Debug, PartialEq, Eq, Hash)]
pub struct ReadRequest {
    /// The region of this end, which has [`Rights::SINK`].
    pub sink: Stag,
    /// The tagged offset there.
    pub sink_to: u64,
    /// How many octets, at most 16,777,216.
    pub size: u32,
    /// The region of the peer.
    pub source: Stag,
    /// The tagged offset there.
    pub source_to: u64,
}

/// What became of octets that were delivered.
#[derive(Clone, Copy, Debug, PartialEq, Eq, Hash)]
#[must_use]
pub enum Delivery {
    /// They are kept, but for those before the in-order point, which are ignored.
    Kept,
    /// All of them are dropped: one lies 262,144 octets or more past the in-order point, there would be more than 1,024 islands
    /// (runs of octets with a gap before them), or the stream has ended.
    Dropped,
}
