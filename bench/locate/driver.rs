// Times frames that are judged before their turn, past a hole, and prints what each costs beside taking its octets in.
#[path = "../results.rs"]
mod results;

use std::hint::black_box;
use std::time::Instant;

unsafe extern "C" {
    fn locate_window(octets: *const u8, n: usize, segment: usize, first: usize, stride: usize, gap: usize, back: bool, look: bool) -> u64;
}

const WINDOW: usize = 262_144;
const FRAME: usize = 1_408;
const ROUNDS: usize = 60;

/// Frames of `FRAME` octets, markers among them, one after another from frame place 0.
fn honest() -> Vec<u8> {
    let mut octets = vec![0u8; WINDOW / FRAME * FRAME];
    for start in (0..octets.len()).step_by(FRAME) {
        let end = start + FRAME;
        let head = if start % 512 == 0 { start + 4 } else { start };
        let markers = (start..end).filter(|place| place % 512 == 0).count();
        let len = FRAME - 4 * markers - 6;
        octets[head..head + 2].copy_from_slice(&(len as u16).to_be_bytes());
        for place in (start..end).filter(|place| place % 512 == 0 && *place > head) {
            octets[place + 2..place + 4].copy_from_slice(&((place - head) as u16).to_be_bytes());
        }
    }
    octets
}

/// The same with each marker pointing so far back, or past itself where that is before the first place, and no frame there that
/// ends within 66,000 octets.
fn lying(back: usize) -> Vec<u8> {
    let mut octets = vec![0xffu8; WINDOW / FRAME * FRAME];
    for place in (0..octets.len()).step_by(512) {
        let to = if place > back + 4 { back } else { 0 };
        octets[place..place + 2].copy_from_slice(&[0, 0]);
        octets[place + 2..place + 4].copy_from_slice(&(to as u16).to_be_bytes());
    }
    octets
}

/// Which segments of a window come, and in which order.
#[derive(Clone, Copy)]
struct Order {
    segment: usize,
    first: usize,
    stride: usize,
    /// Each of so many stays away.
    gap: usize,
    back: bool,
}

/// The segments of one frame each past the first, in order.
const IN_ORDER: Order = Order { segment: FRAME, first: 1, stride: 1, gap: WINDOW, back: false };

/// The least time of a delivery, in nanoseconds, where frames are looked for or not, and how many deliveries or frames there were.
fn least(octets: &[u8], order: Order, look: bool) -> (f64, u64) {
    let Order { segment, first, stride, gap, back } = order;
    let mut time = f64::MAX;
    let mut count = 0;
    for _ in 0..ROUNDS {
        let start = Instant::now();
        count = unsafe { locate_window(black_box(octets.as_ptr()), octets.len(), segment, first, stride, gap, back, look) };
        time = time.min(start.elapsed().as_nanos() as f64);
    }
    (time, count)
}

/// Prints a row, and gives the time of a delivery.
fn row(name: &str, octets: &[u8], order: Order) -> f64 {
    let (plain, deliveries) = least(octets, order, false);
    let (with, frames) = least(octets, order, true);
    println!(
        "{name:<56} {deliveries:>4} deliveries {frames:>4} frames: {:>7.0} ns each taken in, {:>7.0} more to find",
        plain / deliveries as f64,
        (with - plain) / deliveries as f64
    );
    with / deliveries as f64
}

fn main() {
    let octets = honest();
    let honest = row("past a hole of one frame", &octets, IN_ORDER);
    row("past a hole of 64 KiB", &octets, Order { first: 47, ..IN_ORDER });
    row("past a hole of 230 KiB", &octets, Order { first: 167, ..IN_ORDER });
    let second = Order { stride: 2, ..IN_ORDER };
    row("every second first", &octets[..93 * FRAME], second);
    row("every second first, backwards", &octets[..93 * FRAME], Order { back: true, ..second });
    row("backwards", &octets, Order { back: true, ..IN_ORDER });
    row("segments of 1,460 past a hole", &octets, Order { segment: 1_460, ..IN_ORDER });
    row("segments of 100 past a hole", &octets, Order { segment: 100, first: 15, ..IN_ORDER });
    row("all at once", &octets, Order { segment: octets.len() / 2, ..IN_ORDER });
    let lies = [
        ("lying markers, 65,000 back", lying(65_000), IN_ORDER),
        ("lying markers, 65,000 back, backwards", lying(65_000), Order { back: true, ..IN_ORDER }),
        ("lying markers, to marker places", lying(512), IN_ORDER),
        ("lying markers, 400 back", lying(400), IN_ORDER),
        ("lying markers, 400 back, each 16th segment away", lying(400), Order { gap: 16, ..IN_ORDER }),
        ("lying markers, 400 back, each 40th segment away", lying(400), Order { gap: 40, ..IN_ORDER }),
        ("lying markers, past themselves", lying(0), IN_ORDER),
        ("lying markers, past themselves, each 40th segment away", lying(0), Order { gap: 40, ..IN_ORDER }),
        ("lying markers, past themselves, each third away", lying(0), Order { gap: 3, ..IN_ORDER }),
        ("lying markers, past themselves, backwards", lying(0), Order { gap: 40, back: true, ..IN_ORDER }),
        ("lying markers, past themselves, segments of 100", lying(0), Order { segment: 100, gap: 600, ..IN_ORDER }),
    ];
    let mut most = 0f64;
    for (name, octets, order) in &lies {
        most = most.max(row(name, octets, *order) / honest);
    }
    results::row("lying markers, worst", most, 1, "times honest ones");
}
