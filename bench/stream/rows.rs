//! The loads of the table.

use crate::load::Load;
use crate::row::Row;

const PLAIN: Load = Load::PLAIN;
const MARKERS: Load = Load::MARKERS;
const FRAMED: Load = Load::FRAMED;

/// The second frame of each pair first.
const fn swapped(load: Load) -> Load {
    Load { batch: 2, late: 2, ..load }
}

const fn started(load: Load) -> Load {
    Load { start_up: true, ..load }
}

const fn by_two(load: Load) -> Load {
    Load { two_callers: true, ..load }
}

/// Messages of so many octets in ULPDUs of so many, 4 MiB together.
fn sized(load: Load, mulpdu: u32, message: usize) -> Load {
    Load { mulpdu, message, ..load }.carrying(4 << 20)
}

/// Writes of 1 KiB, so many posted at a time.
fn posted(load: Load, count: usize) -> Load {
    Load { message: 1_024, posted: count, ..load }.carrying(2 << 20)
}

fn sends(load: Load) -> Load {
    Load { sends: true, ..load }
}

fn hundreds(load: Load) -> Load {
    Load { delivery: 100, ..load }.carrying(1 << 20)
}

fn by_turns(load: Load) -> Load {
    Load { pairs: 64, ..load }.carrying(4 << 20)
}

/// From one marker to the next without the first, a full frame of a ULPDU of 1,400 octets without its markers, and what a frame has
/// beside its payload, in octets.
const MARKED: usize = 508;
const FULL_FRAME: usize = 1_408;
const AROUND: usize = 20;

/// The octets of a full frame without its markers: length field, ULPDU, pad and CRC field.
const fn full_frame(load: Load) -> usize {
    (2 + load.mulpdu as usize).next_multiple_of(4) + 4
}

/// Writes of so many frames, the last as long as it takes for all to have a multiple of 512 octets, markers among them: the same
/// octets can come again behind.
fn again(load: Load, frames: usize) -> Load {
    let full = frames - 1;
    let last = MARKED - full * full_frame(load) % MARKED - AROUND;
    Load { message: full * load.piece() + last, batch: usize::MAX, ..load }.carrying(16 << 20)
}

/// The same frames, which are read from memory and not delivered, in ULPDUs of so many octets.
fn read(load: Load, mulpdu: u32, frames: usize) -> Load {
    Load { in_place: true, ..again(Load { mulpdu, ..load }, frames) }
}

/// All frames of a message are emitted, and the first is delivered last.
fn first_last(load: Load, mulpdu: u32, message: usize) -> Load {
    Load { batch: usize::MAX, late: usize::MAX, ..sized(load, mulpdu, message) }
}

/// All frames of a message are emitted, and every second is delivered first.
fn scattered(load: Load, mulpdu: u32, message: usize) -> Load {
    Load { batch: usize::MAX, late: 2, ..sized(load, mulpdu, message) }
}

/// As many frames as a Write of 16 KiB has, as 128 KiB have, and as the window has, with markers and CRCs.
const FRAMES_FEW: usize = 12;
const FRAMES_NEAR: usize = 92;
const FRAMES_FAR: usize = 183;

/// As many frames as four reads take, in ULPDUs of 1,400 octets and of 64,512.
const FRAMES_READ: usize = 186;
const FRAMES_READ_LONG: usize = 5;

/// An order in which the frames of a message are delivered.
struct Order {
    name: &'static str,
    /// How many frames the message has.
    frames: usize,
    batch: usize,
    late: usize,
    reversed: bool,
    last_first: bool,
}

/// Orders in which frames are placed before their turn.
const ORDERS: [Order; 5] = [
    Order { batch: 2, late: 2, ..Order::new("pairs swapped", FRAMES_FEW) },
    Order { late: 2, ..Order::new("every second frame first within 128 KiB", FRAMES_NEAR) },
    Order { reversed: true, ..Order::new("a window from its last frame to its first", FRAMES_FAR) },
    Order { late: usize::MAX, ..Order::new("the first frame of a window last", FRAMES_FAR) },
    Order { last_first: true, ..Order::new("the last frame of a window first, then the others in order", FRAMES_FAR) },
];

impl Order {
    /// All frames of the message are emitted at a time, and delivered as they were.
    const fn new(name: &'static str, frames: usize) -> Order {
        Order { name, frames, batch: usize::MAX, late: 1, reversed: false, last_first: false }
    }

    fn of(&self, load: Load) -> Load {
        let Order { batch, late, reversed, last_first, .. } = *self;
        Load { batch, late, reversed, last_first, ..load }
    }
}

/// Each of these orders, with markers and CRCs: the load in order, and in that order.
pub fn early() -> Vec<(Row, Row)> {
    let rows = |order: &Order| {
        let load = Load { batch: order.batch, ..sized(FRAMED, 1_400, order.frames * FRAMED.piece()) };
        (Row::new("in order", load), Row::new(order.name, order.of(load)))
    };
    ORDERS.iter().map(rows).collect()
}

/// The receiving side alone in each of these orders, with markers and CRCs.
pub fn received_early() -> Vec<Row> {
    ORDERS.iter().map(|order| Row::receiving(order.name, order.of(again(FRAMED, order.frames)))).collect()
}

/// Windows of frames whose markers lie: all but the first of each `gap` deliveries come, in order.
///
/// In the second each marker points to a frame that a gap cuts off from its end, so that each delivery has all those looked at
/// again that could end within it, to which some 130 markers point: no dearer order is known in which no octet comes twice.
pub fn lying() -> [(&'static str, Load); 2] {
    let window = Load { delivery: FULL_FRAME, ..sized(MARKERS, 1_400, FRAMES_FAR * MARKERS.piece()) };
    [
        ("markers that point anywhere", Load { lying: true, ..window }),
        ("markers that point to frames with a gap in them", Load { cut: true, gap: 40, ..window }),
    ]
}

pub fn rows() -> Vec<Row> {
    vec![
        Row::new("plain", PLAIN),
        Row::new("plain, pairs swapped", swapped(PLAIN)),
        Row::new("markers", MARKERS),
        Row::new("markers, pairs swapped", swapped(MARKERS)),
        Row::new("markers and CRCs", FRAMED),
        Row::new("markers and CRCs, pairs swapped", swapped(FRAMED)),
        Row::new("start-up frames, plain", started(PLAIN)),
        Row::new("start-up frames, markers", started(MARKERS)),
        Row::new("start-up frames, markers and CRCs", started(FRAMED)),
        Row::new("work by turns from two places, plain", by_two(PLAIN)),
        Row::new("work by turns from two places, markers and CRCs", by_two(FRAMED)),
        Row::receiving("receiving side, plain", again(PLAIN, FRAMES_FEW)),
        Row::receiving("receiving side, markers", again(MARKERS, FRAMES_FEW)),
        Row::receiving("receiving side, markers and CRCs", again(FRAMED, FRAMES_FEW)),
        Row::receiving("reads, ULPDU 1,400, plain", read(PLAIN, 1_400, FRAMES_READ)),
        Row::receiving("reads, ULPDU 1,400, markers and CRCs", read(FRAMED, 1_400, FRAMES_READ)),
        Row::receiving("reads, ULPDU 64,512, plain", read(PLAIN, 64_512, FRAMES_READ_LONG)),
        Row::receiving("reads, ULPDU 64,512, markers and CRCs", read(FRAMED, 64_512, FRAMES_READ_LONG)),
        Row::new("Sends, plain", sends(PLAIN)),
        Row::new("Sends, markers and CRCs", sends(FRAMED)),
        Row::new("ULPDU 128, plain", sized(PLAIN, 128, 16_384)),
        Row::new("ULPDU 128, markers and CRCs", sized(FRAMED, 128, 16_384)),
        Row::new("ULPDU 8,900, plain", sized(PLAIN, 8_900, 65_536)),
        Row::new("ULPDU 8,900, markers and CRCs", sized(FRAMED, 8_900, 65_536)),
        Row::new("ULPDU 64,512, plain", sized(PLAIN, 64_512, 262_144)),
        Row::new("ULPDU 64,512, markers and CRCs", sized(FRAMED, 64_512, 262_144)),
        Row::new("deliveries of 100 octets, plain", hundreds(PLAIN)),
        Row::new("deliveries of 100 octets, markers and CRCs", hundreds(FRAMED)),
        Row::new("1 message of 1 KiB posted, plain", posted(PLAIN, 1)),
        Row::new("64 posted, plain", posted(PLAIN, 64)),
        Row::new("255 posted, plain", posted(PLAIN, 255)),
        Row::new("255 posted, markers and CRCs", posted(FRAMED, 255)),
        Row::new("64 streams by turns, plain", by_turns(PLAIN)),
        Row::new("64 streams by turns, markers and CRCs", by_turns(FRAMED)),
    ]
}

/// What is near the limits: the longest message, the widest window, the most islands.
pub fn limits() -> Vec<Row> {
    let longest = |load| Load { message: 16 << 20, rounds: 8, ..load };
    vec![
        Row::new("Writes of 16 MiB, plain", longest(PLAIN)),
        Row::new("Writes of 16 MiB, markers and CRCs", longest(FRAMED)),
        Row::new("first frame last, 62,000 octets, plain", first_last(PLAIN, 1_400, 62_000)),
        Row::new("first frame last, 225,000 octets, plain", first_last(PLAIN, 1_400, 225_000)),
        Row::new("first frame last, 62,000 octets, markers", first_last(MARKERS, 1_400, 62_000)),
        Row::new("first frame last, 225,000 octets, markers", first_last(MARKERS, 1_400, 225_000)),
        Row::new("the same in ULPDUs of 128, 53,000 octets, markers", first_last(MARKERS, 128, 53_000)),
        Row::new("the same in ULPDUs of 128, 190,000 octets, markers", first_last(MARKERS, 128, 190_000)),
        Row::new("every second first, 100 islands, ULPDU 128, markers", scattered(MARKERS, 128, 22_800)),
        Row::new("every second first, 900 islands, ULPDU 128, markers", scattered(MARKERS, 128, 205_200)),
    ]
}
