use super::memory::Stag;
use std::collections::VecDeque;
use std::ops::Range;
use std::sync::Arc;

const MAX_POSTED: usize = 256;
const MAX_OCTETS: usize = 16_777_216;

/// Octets that several messages may share.
#[derive(Clone)]
pub struct Payload {
    all: Arc<[u8]>,
    range: Range<usize>,
}

impl Payload {
    pub fn new(all: Arc<[u8]>, range: Range<usize>) -> Payload {
        assert!(range.start <= range.end && range.end <= all.len());
        Payload { all, range }
    }

    pub fn as_slice(&self) -> &[u8] {
        &self.all[self.range.clone()]
    }

    pub fn len(&self) -> usize {
        self.range.len()
    }
}

/// What is posted at one end for the other.
pub enum Message {
    Write { stag: Stag, to: u64, octets: Payload },
    Send { octets: Payload },
}

impl Message {
    pub fn octets(&self) -> &Payload {
        match self {
            Message::Write { octets, .. } | Message::Send { octets } => octets,
        }
    }

    fn kind(&self) -> Kind {
        match self {
            Message::Write { .. } => Kind::Write,
            Message::Send { .. } => Kind::Send,
        }
    }
}

#[derive(Clone, Copy, Debug, PartialEq, Eq)]
pub enum Kind {
    Write,
    Send,
}

/// The messages that were posted and not yet handed out, in posting order.
#[derive(Default)]
pub struct SendQueue {
    done: VecDeque<Kind>,
    unsent: VecDeque<Message>,
    /// How many octets of the first unsent message were sent.
    offset: usize,
}

impl SendQueue {
    /// Posts a message, or gives it back where there are too many, or where it is too long.
    pub fn post(&mut self, message: Message) -> Result<(), Message> {
        if self.done.len() + self.unsent.len() >= MAX_POSTED || message.octets().len() > MAX_OCTETS {
            return Err(message);
        }
        self.unsent.push_back(message);
        Ok(())
    }

    /// The message that is to be sent next, and how many of its octets were sent.
    #[inline]
    pub fn next_unsent(&self) -> Option<(&Message, usize)> {
        Some((self.unsent.front()?, self.offset))
    }

    /// Says that `n` more octets of that message were sent, to its end or not.
    #[inline]
    pub fn sent(&mut self, n: usize, last: bool) {
        if !last {
            self.offset += n;
            return;
        }
        self.offset = 0;
        if let Some(message) = self.unsent.pop_front() {
            self.done.push_back(message.kind());
        }
    }

    /// Hands out the oldest message, if it was sent.
    #[inline]
    pub fn next_done(&mut self) -> Option<Kind> {
        self.done.pop_front()
    }
}
