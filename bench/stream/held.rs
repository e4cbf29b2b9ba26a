//! How many octets streams hold.

use crate::heap::most_held;
use crate::load::{Load, SHIFT};
use crate::{ours, peer};

const FEW: usize = 16;
const MANY: usize = 64;

/// What is held in a state of streams, with their own size, by a pair of streams.
pub struct Held {
    pub name: &'static str,
    pub ours: f64,
    pub peer: f64,
}

fn held(name: &'static str, load: Load) -> Held {
    let octets = vec![7; load.message + SHIFT];
    let most = |pairs: usize, carry: fn(&Load, &[u8]) -> u64| {
        let load = Load { pairs, ..load };
        most_held(|| assert_eq!(carry(&load, &octets), load.octets() as u64)) as f64
    };
    let a_pair = |carry| (most(MANY, carry) - most(FEW, carry)) / (MANY - FEW) as f64;
    Held { name, ours: a_pair(ours::carry), peer: a_pair(peer::carry::carry) }
}

/// An idle stream, of which nothing was sent and nothing came: half of what a pair of streams holds.
pub fn idle() -> Vec<Held> {
    let half = |held: Held| Held { ours: held.ours / 2.0, peer: held.peer / 2.0, ..held };
    let idle = Load { rounds: 0, ..Load::PLAIN };
    vec![
        half(held("an idle stream, open at once", idle)),
        half(held("an idle stream, opened by start-up frames", Load { start_up: true, ..idle })),
    ]
}

/// A pair of streams that had traffic.
pub fn used() -> Vec<Held> {
    let write = Load { rounds: 2, ..Load::PLAIN };
    let window = Load { batch: usize::MAX, late: usize::MAX, message: 225_000, ..write };
    let islands = Load { mulpdu: 128, late: 2, message: 205_200, ..window };
    let posted = Load { message: 1_024, posted: 255, ..write };
    vec![
        held("a pair of streams, its traffic over: Writes of 16 KiB", write),
        held("the same, ULPDU 64,512", Load { mulpdu: 64_512, message: 262_144, ..write }),
        held("the same, 230,000 octets behind a hole", window),
        held("the same, 900 islands, ULPDU 128", islands),
        held("the same, 255 Writes posted at once", posted),
        held("the same, 255 Sends of 16 octets and their buffers", Load { message: 16, sends: true, ..posted }),
    ]
}
