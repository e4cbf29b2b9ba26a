//! One line of the table: a load, and the least time that it took each who carried it.

use crate::clock::now;
use crate::copies::Copies;
use crate::load::{Load, SHIFT};
use crate::{ours, peer};

/// A row that carries more than this is timed in fewer turns.
const TURN_OCTETS: usize = 4 << 20;

/// Which part of the path is timed.
#[derive(Clone, Copy, PartialEq, Eq)]
pub enum Part {
    Whole,
    /// The receiving side: two copies and one CRC in place of three and two.
    Receiving,
}

/// Least times, in nanoseconds.
#[derive(Clone, Copy)]
struct Times {
    ours: f64,
    peer: f64,
    /// The copies alone, with the path's addresses.
    path_copies: f64,
    /// Two copies, or one, to one place in the processor's caches.
    cache_copies: f64,
    /// Two CRCs, or one; nothing where there are no CRCs.
    crcs: f64,
}

pub struct Row {
    pub name: &'static str,
    pub load: Load,
    part: Part,
    copies: Copies,
    every: usize,
    least: Times,
}

/// The time of this work, where it is less than this.
pub fn less(least: &mut f64, work: impl FnOnce()) {
    let start = now();
    work();
    *least = least.min(now() - start);
}

/// Octets with no pattern, so that no message has what stood in the region before.
pub fn octets(count: usize) -> Vec<u8> {
    let mut state = 1u64;
    let next = |_| {
        state = state.wrapping_mul(6_364_136_223_846_793_005).wrapping_add(1_442_695_040_888_963_407);
        (state >> 56) as u8
    };
    (0..count).map(next).collect()
}

impl Row {
    pub fn new(name: &'static str, load: Load) -> Row {
        let crcs = if load.crc { f64::MAX } else { 0.0 };
        Row {
            name,
            load,
            part: Part::Whole,
            copies: Copies::new(octets(load.message + SHIFT)),
            every: load.octets().div_ceil(TURN_OCTETS),
            least: Times { ours: f64::MAX, peer: f64::MAX, path_copies: f64::MAX, cache_copies: f64::MAX, crcs },
        }
    }

    pub fn receiving(name: &'static str, load: Load) -> Row {
        Row { part: Part::Receiving, ..Row::new(name, load) }
    }

    fn carry_ours(&self, load: &Load) -> u64 {
        match self.part {
            Part::Whole => ours::carry(load, &self.copies.octets),
            Part::Receiving => ours::receive(load, &self.copies.octets),
        }
    }

    fn carry_peer(&self, load: &Load) -> u64 {
        match self.part {
            Part::Whole => peer::carry::carry(load, &self.copies.octets),
            Part::Receiving => peer::carry::receive(load, &self.copies.octets),
        }
    }

    fn compared(&self) -> Load {
        Load { compared: true, rounds: self.load.rounds.min(16), ..self.load }
    }

    /// Carries some of the load without timing it: what came is compared with what was posted, and all octets must be placed.
    pub fn try_out(&self) {
        self.try_out_ours();
        let load = self.compared();
        assert_eq!(self.carry_peer(&load), load.octets() as u64, "{}, the peer", self.name);
    }

    /// The same, ours alone.
    pub fn try_out_ours(&self) {
        let load = self.compared();
        assert_eq!(self.carry_ours(&load), load.octets() as u64, "{}, ours", self.name);
    }

    /// Times all of them once, one behind the other.
    pub fn turn(&mut self, turn: usize) {
        if turn % self.every != 0 {
            return;
        }
        let octets = self.load.octets() as u64;
        let mut least = self.least;
        less(&mut least.ours, || assert_eq!(self.carry_ours(&self.load), octets));
        less(&mut least.peer, || assert_eq!(self.carry_peer(&self.load), octets));
        self.copies.shift(turn / self.every);
        let times = match self.part {
            Part::Whole => {
                less(&mut least.path_copies, || self.copies.three(&self.load));
                2
            }
            Part::Receiving => {
                less(&mut least.path_copies, || self.copies.received(&self.load));
                1
            }
        };
        // The old measure has two copies for the receiving side too.
        less(&mut least.cache_copies, || self.copies.in_cache(&self.load, 2));
        if self.load.crc {
            less(&mut least.crcs, || self.copies.crcs(&self.load, times));
        }
        self.least = least;
    }

    /// Times ours alone once.
    pub fn turn_ours(&mut self) {
        let mut least = self.least.ours;
        less(&mut least, || assert_eq!(self.carry_ours(&self.load), self.load.octets() as u64));
        self.least.ours = least;
    }

    /// The peer's time to ours.
    pub fn to_peer(&self) -> f64 {
        self.least.peer / self.least.ours
    }

    /// The time of the copies with the path's addresses, and of the CRCs, to ours.
    pub fn to_copies(&self) -> f64 {
        (self.least.path_copies + self.least.crcs) / self.least.ours
    }

    /// The same, to the peer's.
    pub fn peer_to_copies(&self) -> f64 {
        (self.least.path_copies + self.least.crcs) / self.least.peer
    }

    /// The time of two copies in cache, and of the CRCs, to ours.
    pub fn to_cache(&self) -> f64 {
        (self.least.cache_copies + self.least.crcs) / self.least.ours
    }

    /// Times ours and the peer's once.
    pub fn turn_both(&mut self) {
        self.turn_ours();
        let mut least = self.least.peer;
        less(&mut least, || assert_eq!(self.carry_peer(&self.load), self.load.octets() as u64));
        self.least.peer = least;
    }

    /// Our time, in nanoseconds a frame.
    pub fn a_frame(&self) -> f64 {
        self.least.ours / self.load.frames() as f64
    }

    /// Our time, in nanoseconds an octet.
    pub fn an_octet(&self) -> f64 {
        self.least.ours / self.load.octets() as f64
    }

    /// The peer's, in nanoseconds an octet.
    pub fn peer_an_octet(&self) -> f64 {
        self.least.peer / self.load.octets() as f64
    }
}
