use std::collections::VecDeque;

const WINDOW: u64 = 262_144;
const MAX_ISLANDS: usize = 1_024;

#[derive(Clone, Copy)]
struct Span {
    from: u64,
    to: u64,
}

/// The octets of a stream from the in-order point on, as far as they came.
pub struct Islands {
    /// The place of the first octet of `octets`.
    base: u64,
    /// The in-order point.
    floor: u64,
    /// The first place that didn't come.
    missing: u64,
    octets: Vec<u8>,
    /// What came with a gap before it, in order.
    spans: VecDeque<Span>,
}

impl Islands {
    /// A stream whose octets up to this place are done with.
    pub fn from(place: u64) -> Islands {
        Islands { base: place, floor: place, missing: place, octets: Vec::new(), spans: VecDeque::new() }
    }

    #[inline]
    pub fn floor(&self) -> u64 {
        self.floor
    }

    #[inline]
    pub fn missing(&self) -> u64 {
        self.missing
    }

    /// The octets from one place to another, which came.
    #[inline]
    pub fn part(&self, from: u64, to: u64) -> &[u8] {
        &self.octets[(from - self.base) as usize..(to - self.base) as usize]
    }

    /// Takes octets in. It tells whether they are kept: none may lie too far ahead, and no island may be one too many.
    #[inline]
    pub fn add(&mut self, place: u64, octets: &[u8]) -> bool {
        let room = (self.floor + WINDOW).saturating_sub(place);
        if octets.is_empty() {
            return true;
        }
        if octets.len() as u64 > room {
            return false;
        }
        if place == self.missing && self.spans.is_empty() {
            self.octets.extend_from_slice(octets);
            self.missing += octets.len() as u64;
            return true;
        }
        self.add_apart(place, octets)
    }

    /// The same, for octets that may stand anywhere in the window: the first copy of each stays.
    #[inline(never)]
    fn add_apart(&mut self, place: u64, octets: &[u8]) -> bool {
        let to = place + octets.len() as u64;
        if to <= self.missing {
            return true;
        }
        let from = place.max(self.missing);
        let fresh = &octets[(from - place) as usize..];
        let first = self.spans.partition_point(|span| span.to < from);
        let behind = self.spans.partition_point(|span| span.from <= to);
        if from > self.missing && first == behind && self.spans.len() >= MAX_ISLANDS {
            return false;
        }
        self.write(from, fresh, first, behind);
        let mut joined = Span { from, to };
        for touched in self.spans.drain(first..behind) {
            joined = Span { from: joined.from.min(touched.from), to: joined.to.max(touched.to) };
        }
        if joined.from <= self.missing {
            self.missing = joined.to;
        } else {
            self.spans.insert(first, joined);
        }
        true
    }

    /// Writes octets into the gaps between the spans that they touch.
    fn write(&mut self, from: u64, octets: &[u8], first: usize, behind: usize) {
        let to = from + octets.len() as u64;
        let at = (from - self.base) as usize;
        if self.octets.len() < at + octets.len() {
            self.octets.resize(at + octets.len(), 0);
        }
        let room = &mut self.octets[at..at + octets.len()];
        let mut next = 0;
        for span in self.spans.range(first..behind) {
            let gap = next..span.from.saturating_sub(from) as usize;
            if !gap.is_empty() {
                room[gap.clone()].copy_from_slice(&octets[gap]);
            }
            next = (span.to.min(to) - from) as usize;
        }
        room[next..].copy_from_slice(&octets[next..]);
    }

    /// Moves the in-order point on, and lets go what lies before it: half of the buffer at a time.
    #[inline]
    pub fn advance(&mut self, to: u64) {
        self.floor = to;
        let passed = (to - self.base) as usize;
        if passed == self.octets.len() {
            self.octets.clear();
            self.base = to;
        } else if passed > self.octets.len() / 2 {
            self.shorten(passed);
            self.base = to;
        }
    }

    #[inline(never)]
    fn shorten(&mut self, passed: usize) {
        self.octets.copy_within(passed.., 0);
        self.octets.truncate(self.octets.len() - passed);
    }
}
