//! Loads carried by the peer, as `crates/bench_stream` carries them by `iw_stream`.

use super::layout::Layout;
use super::memory::{Memory, Stag};
use super::send_queue::{Message, Payload};
use super::stream::{Step, Stream};
use crate::load::{Load, SHIFT};
use std::hint::black_box;
use std::mem;
use std::sync::Arc;

const DOMAIN: u8 = 1;
const START_UP: u64 = 20;
const MAX_STEPS: usize = 10_000;
/// How many octets are read at a time.
const MOST_READ: usize = 65_536;

/// A frame under way: its place in the stream, and where its octets lie.
#[derive(Clone, Copy)]
struct Frame {
    from: u64,
    at: usize,
    len: usize,
}

/// Frames that were emitted and not yet delivered.
#[derive(Default)]
struct Wire {
    octets: Vec<u8>,
    frames: Vec<Frame>,
    /// Room for the frames while they change their order.
    emitted: Vec<Frame>,
}

impl Wire {
    /// Emits so many frames of a stream at most, in place of those that were here.
    fn fill(&mut self, stream: &mut Stream, most: usize) {
        self.octets.clear();
        self.frames.clear();
        for _ in 0..most {
            let at = self.octets.len();
            let Some(from) = stream.emit(&mut self.octets) else {
                return;
            };
            self.frames.push(Frame { from, at, len: self.octets.len() - at });
        }
    }

    /// Emits the next frame of a stream, if one is due, and tells its place and its octets.
    fn next(&mut self, stream: &mut Stream) -> Option<(u64, &[u8])> {
        self.octets.clear();
        let from = stream.emit(&mut self.octets)?;
        Some((from, &self.octets))
    }

    fn octets_of(&self, frame: Frame) -> &[u8] {
        &self.octets[frame.at..frame.at + frame.len]
    }

    /// Puts the frames that were emitted in the order in which the load has them delivered: the last before all others, from the
    /// last to the first, or batch by batch, of each `late` the first after all others of its batch.
    fn arrange(&mut self, load: &Load) {
        if load.last_first && !self.frames.is_empty() {
            self.frames.rotate_right(1);
        }
        if load.reversed {
            self.frames.reverse();
        }
        if load.late > 1 {
            mem::swap(&mut self.frames, &mut self.emitted);
            self.frames.clear();
            for batch in self.emitted.chunks(load.batch) {
                let parts = batch.chunks(load.late);
                self.frames.extend(parts.clone().flat_map(|part| &part[1..]));
                self.frames.extend(parts.map(|part| part[0]));
            }
        }
    }
}

/// One step, and how many octets it placed.
#[inline(always)]
fn step(stream: &mut Stream, memory: &mut Memory, spare: &mut Vec<Vec<u8>>) -> Option<u64> {
    match stream.work(memory) {
        Step::Placed { len, .. } | Step::Buffered { len, .. } => Some(len as u64),
        Step::Received { buffer, .. } => {
            spare.push(buffer);
            Some(0)
        }
        Step::Done(_) | Step::Passed => Some(0),
        Step::Idle => None,
        Step::Fault(fault) => panic!("{fault:?}"),
    }
}

/// Does all that there is to do, and tells how many octets were placed.
#[inline(never)]
fn settle(stream: &mut Stream, memory: &mut Memory, spare: &mut Vec<Vec<u8>>) -> u64 {
    let mut placed = 0;
    for _ in 0..MAX_STEPS {
        let Some(more) = step(stream, memory, spare) else {
            return placed;
        };
        placed += more;
    }
    panic!("too many steps");
}

/// The same, called from another place.
#[inline(never)]
fn settle_too(stream: &mut Stream, memory: &mut Memory, spare: &mut Vec<Vec<u8>>) -> u64 {
    let mut placed = 0;
    for _ in 0..MAX_STEPS {
        match step(stream, memory, spare) {
            Some(more) => placed += more,
            None => return placed,
        }
    }
    panic!("too many steps");
}

/// What the receiving streams share.
struct Receiving {
    memory: Memory,
    spare: Vec<Vec<u8>>,
    /// To which octets are read.
    buffer: Vec<u8>,
    delivery: usize,
    too: bool,
}

impl Receiving {
    fn settle(&mut self, stream: &mut Stream) -> u64 {
        if self.too {
            settle_too(stream, &mut self.memory, &mut self.spare)
        } else {
            settle(stream, &mut self.memory, &mut self.spare)
        }
    }

    /// Delivers the octets of a frame, and tells how many octets were placed.
    fn take(&mut self, stream: &mut Stream, mut from: u64, octets: &[u8]) -> u64 {
        let mut placed = 0;
        for piece in octets.chunks(self.delivery) {
            assert!(stream.deliver(from, piece));
            placed += self.settle(stream);
            from += piece.len() as u64;
        }
        placed
    }

    /// Reads octets into a buffer, and delivers them from there. Tells how many octets were placed.
    fn read_all(&mut self, stream: &mut Stream, mut from: u64, octets: &[u8]) -> u64 {
        let mut placed = 0;
        for part in octets.chunks(MOST_READ) {
            self.buffer[..part.len()].copy_from_slice(black_box(part));
            assert!(stream.deliver(from, black_box(&self.buffer[..part.len()])));
            placed += self.settle(stream);
            from += part.len() as u64;
        }
        placed
    }

    /// Delivers frames, so many octets further on than they were emitted, and tells how many octets were placed.
    fn take_all(&mut self, stream: &mut Stream, wire: &Wire, further: u64) -> u64 {
        let mut placed = 0;
        for frame in &wire.frames {
            placed += self.take(stream, frame.from + further, wire.octets_of(*frame));
        }
        placed
    }
}

struct Pair {
    sender: Stream,
    receiver: Stream,
}

/// Streams, the regions and buffers of those that receive, and frames under way.
struct Ends<'a> {
    load: &'a Load,
    pairs: Vec<Pair>,
    nothing: Memory,
    receiving: Receiving,
    stag: Stag,
    wire: Wire,
}

impl<'a> Ends<'a> {
    fn new(load: &'a Load) -> Ends<'a> {
        let mut memory = Memory::new();
        let stag = memory.register(DOMAIN, 0, vec![0; load.message]);
        let layout = Layout { markers: load.markers, crc: load.crc };
        let start_up = if load.start_up { START_UP } else { 0 };
        let stream = || Stream::new(DOMAIN, layout, load.mulpdu as usize, start_up);
        let pairs = (0..load.pairs).map(|_| Pair { sender: stream(), receiver: stream() }).collect();
        let buffers = if load.sends { load.posted * load.pairs } else { 0 };
        let receiving = Receiving {
            memory,
            spare: vec![vec![0; load.message]; buffers],
            buffer: vec![0; MOST_READ],
            delivery: load.delivery,
            too: false,
        };
        Ends { load, pairs, nothing: Memory::new(), receiving, stag, wire: Wire::default() }
    }

    fn post(&mut self, octets: &Payload) {
        for pair in &mut self.pairs {
            for _ in 0..self.load.posted {
                let octets = octets.clone();
                let message = if self.load.sends {
                    let buffer = self.receiving.spare.pop().expect("a buffer for each Send");
                    assert!(pair.receiver.post_recv(buffer).is_ok());
                    Message::Send { octets }
                } else {
                    Message::Write { stag: self.stag, to: 0, octets }
                };
                assert!(pair.sender.post(message).is_ok());
            }
        }
    }

    /// Carries a batch of each pair.
    fn turn(&mut self) -> u64 {
        let mut placed = 0;
        for pair in &mut self.pairs {
            if self.load.batch == 1 {
                if let Some((from, octets)) = self.wire.next(&mut pair.sender) {
                    placed += self.receiving.take(&mut pair.receiver, from, octets);
                }
            } else {
                self.wire.fill(&mut pair.sender, self.load.batch);
                self.wire.arrange(self.load);
                placed += self.receiving.take_all(&mut pair.receiver, &self.wire, 0);
            }
        }
        placed
    }

    /// Carries a round of messages, and tells how many octets were placed.
    fn carry(&mut self, octets: &Payload) -> u64 {
        self.post(octets);
        let mut placed = 0;
        loop {
            let more = self.turn();
            if more == 0 {
                break;
            }
            placed += more;
        }
        for pair in &mut self.pairs {
            settle(&mut pair.sender, &mut self.nothing, &mut Vec::new());
        }
        if self.load.two_callers {
            self.receiving.too = !self.receiving.too;
        }
        self.compare(octets.as_slice());
        placed
    }

    /// Compares what came with what was posted, where the load says so.
    fn compare(&self, octets: &[u8]) {
        if !self.load.compared {
            return;
        }
        if self.load.sends {
            assert!(self.receiving.spare.iter().all(|buffer| buffer == octets));
        } else {
            assert!(self.receiving.memory.local(self.stag) == Some(octets));
        }
    }

    /// Delivers the frames of a round again, so many octets further on.
    fn repeat(&mut self, round: u64) -> u64 {
        let further = round * self.wire.octets.len() as u64;
        if self.load.in_place {
            return self.receiving.read_all(&mut self.pairs[0].receiver, further, &self.wire.octets);
        }
        self.receiving.take_all(&mut self.pairs[0].receiver, &self.wire, further)
    }
}

/// The octets of the messages, by turns.
fn payloads(load: &Load, octets: &[u8]) -> [Payload; 2] {
    let all: Arc<[u8]> = octets.into();
    [0, SHIFT].map(|from| Payload::new(all.clone(), from..from + load.message))
}

/// Carries rounds of messages from new streams to others, and tells how many octets were placed.
pub fn carry(load: &Load, octets: &[u8]) -> u64 {
    let payloads = payloads(load, octets);
    let mut ends = Ends::new(load);
    (0..load.rounds).map(|round| ends.carry(&payloads[round % 2])).sum()
}

/// Delivers the frames of one round of messages again and again, and tells how many octets were placed.
pub fn receive(load: &Load, octets: &[u8]) -> u64 {
    let payloads = payloads(load, octets);
    let mut ends = Ends::new(load);
    ends.post(&payloads[0]);
    ends.wire.fill(&mut ends.pairs[0].sender, usize::MAX);
    ends.wire.arrange(load);
    let placed = (0..load.rounds).map(|round| ends.repeat(round as u64)).sum();
    ends.compare(payloads[0].as_slice());
    placed
}
