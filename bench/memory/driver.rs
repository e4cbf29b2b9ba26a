// Times writes to one region while few and many others live, and prints the ratios and what the last may be at most.
// It reads the processor's time of this thread, in which other work on the machine shows little.
#[path = "../clock.rs"]
mod clock;
#[path = "../results.rs"]
mod results;

use clock::now;

unsafe extern "C" {
    fn memory_writes(others: usize, rounds: usize, octets: *const u8, n: usize) -> usize;
}

const OTHERS: [usize; 3] = [1, 100, 100_000];
const OCTETS: [u8; 64] = [0x5a; 64];
const ROUNDS: usize = 20_000_000;
const TURNS: usize = 9;
const MOST: f64 = 1.5;

/// The time to register the regions and make so many writes, in nanoseconds.
fn time(others: usize, rounds: usize) -> f64 {
    let start = now();
    let count = unsafe { memory_writes(others, rounds, OCTETS.as_ptr(), OCTETS.len()) };
    let time = now() - start;
    assert_eq!(count, rounds, "writes placed among {others} others");
    time
}

fn main() {
    // The least of several turns: of the regions alone, and of the regions and the writes.
    let mut least = [[f64::MAX; 2]; OTHERS.len()];
    for _ in 0..TURNS {
        for (times, others) in least.iter_mut().zip(OTHERS) {
            for (least, rounds) in times.iter_mut().zip([0, ROUNDS]) {
                *least = least.min(time(others, rounds));
            }
        }
    }
    let writes = least.map(|[without, with]| (with - without) / ROUNDS as f64);
    let mut within = true;
    for (each, others) in writes.iter().zip(OTHERS) {
        println!("{others} others: {each:.1} ns a write");
        within &= others == 1 || results::at_most(&format!("{others} other regions"), each / writes[0], 2, MOST, "times one other");
    }
    std::process::exit(if within { 0 } else { 1 });
}
