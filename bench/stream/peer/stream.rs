use super::Fault;
use super::frame::{Frame, append_frame};
use super::islands::Islands;
use super::layout::Layout;
use super::memory::{Memory, Stag};
use super::recv_queue::RecvQueue;
use super::segment::{Head, TAGGED_HEADER, UNTAGGED_HEADER, send_front, write_front};
use super::send_queue::{Kind, Message, SendQueue};

/// What is kept of a frame from its placement to its turn.
#[derive(Clone, Copy)]
struct Placed {
    end: u64,
    send: Option<SendPart>,
}

#[derive(Clone, Copy)]
struct SendPart {
    last: bool,
    msn: u32,
    mo: u32,
    n: usize,
}

/// What one step of work did.
#[allow(dead_code)]
pub enum Step {
    /// The oldest posted message is finished.
    Done(Kind),
    /// Octets of a Write were placed.
    Placed { stag: Stag, to: u64, len: usize },
    /// Octets of a Send were placed.
    Buffered { msn: u32, mo: u32, len: usize },
    /// A frame had its turn.
    Passed,
    /// A Send is complete.
    Received { buffer: Vec<u8>, len: usize },
    Fault(Fault),
    Idle,
}

/// One stream of a domain.
pub struct Stream {
    arrived: Islands,
    /// The frame at the in-order point, once it was placed.
    front: Option<Placed>,
    ended: bool,
    domain: u8,
    mulpdu: usize,
    sent: u64,
    next_msn: u32,
    layout: Layout,
    queue: SendQueue,
    receiving: RecvQueue,
    /// How many octets the start-up frames have that were sent and read.
    start_out: u64,
    start_in: u64,
}

impl Stream {
    /// An open stream behind start-up frames of so many octets in each direction.
    pub fn new(domain: u8, layout: Layout, mulpdu: usize, start_up: u64) -> Stream {
        Stream {
            arrived: Islands::from(start_up),
            front: None,
            ended: false,
            domain,
            mulpdu,
            sent: start_up,
            next_msn: 1,
            layout,
            queue: SendQueue::default(),
            receiving: RecvQueue::new(),
            start_out: start_up,
            start_in: start_up,
        }
    }

    /// Posts a message behind the others, or gives it back.
    pub fn post(&mut self, message: Message) -> Result<(), Message> {
        if self.ended {
            return Err(message);
        }
        self.queue.post(message)
    }

    /// Posts a receive buffer behind the others, or gives it back.
    pub fn post_recv(&mut self, buffer: Vec<u8>) -> Result<(), Vec<u8>> {
        if self.ended {
            return Err(buffer);
        }
        self.receiving.post(buffer)
    }

    /// Takes octets that came, and tells whether they are kept.
    #[inline]
    pub fn deliver(&mut self, from: u64, octets: &[u8]) -> bool {
        !self.ended && self.arrived.add(from, octets)
    }

    /// Appends the next frame, and tells its place, if one is due.
    pub fn emit(&mut self, out: &mut Vec<u8>) -> Option<u64> {
        if self.ended {
            return None;
        }
        let (message, offset) = self.queue.next_unsent()?;
        let octets = &message.octets().as_slice()[offset..];
        let header = match message {
            Message::Write { .. } => TAGGED_HEADER,
            Message::Send { .. } => UNTAGGED_HEADER,
        };
        let n = octets.len().min(self.mulpdu - header);
        let last = n == octets.len();
        let payload = &octets[..n];
        let before = out.len();
        let at = self.sent - self.start_out;
        match message {
            Message::Write { stag, to, .. } => {
                let front = write_front(*stag, to.wrapping_add(offset as u64), n, last);
                append_frame(self.layout, at, front, payload, out);
            }
            Message::Send { .. } => {
                let front = send_front(self.next_msn, offset as u32, n, last);
                append_frame(self.layout, at, front, payload, out);
                self.next_msn = self.next_msn.wrapping_add(u32::from(last));
            }
        }
        self.queue.sent(n, last);
        let from = self.sent;
        self.sent += (out.len() - before) as u64;
        Some(from)
    }

    /// Does one step: hands out a finished message, or gives the frame at the in-order point, where it was placed, its turn,
    /// or judges and places it.
    #[inline(always)]
    pub fn work(&mut self, memory: &mut Memory) -> Step {
        if let Some(kind) = self.queue.next_done() {
            return Step::Done(kind);
        }
        if self.ended {
            return Step::Idle;
        }
        let step = match self.front {
            Some(placed) => self.turn(placed),
            None if self.arrived.missing() == self.arrived.floor() => Ok(Step::Idle),
            None => self.judge(memory),
        };
        step.unwrap_or_else(|fault| {
            self.ended = true;
            Step::Fault(fault)
        })
    }

    #[inline]
    fn judge(&mut self, memory: &mut Memory) -> Result<Step, Fault> {
        let Some(frame) = Frame::next(self.layout, self.start_in, &self.arrived) else {
            return Ok(Step::Idle);
        };
        frame.check()?;
        let head = Head::read(frame.front(&mut [0; UNTAGGED_HEADER]))?;
        let end = self.start_in + frame.end;
        match head {
            Head::Write { stag, to } => {
                let len = frame.len - TAGGED_HEADER;
                let part = memory.part_mut(self.domain, stag, to, len)?;
                frame.pieces(TAGGED_HEADER).copy_to(part);
                self.front = Some(Placed { end, send: None });
                Ok(Step::Placed { stag, to, len })
            }
            Head::Send { last, msn, mo } => {
                let len = frame.len - UNTAGGED_HEADER;
                self.receiving.place(msn, mo, len, frame.pieces(UNTAGGED_HEADER))?;
                self.front = Some(Placed { end, send: Some(SendPart { last, msn, mo, n: len }) });
                Ok(Step::Buffered { msn, mo, len })
            }
        }
    }

    #[inline]
    fn turn(&mut self, placed: Placed) -> Result<Step, Fault> {
        if let Some(part) = placed.send {
            self.receiving.turn(part.msn, part.mo, part.n)?;
        }
        self.front = None;
        self.arrived.advance(placed.end);
        if placed.send.is_some_and(|part| part.last)
            && let Some((buffer, len)) = self.receiving.finish()
        {
            return Ok(Step::Received { buffer, len });
        }
        Ok(Step::Passed)
    }
}
