// Times what `lib` does against copying the same segments one by one, and prints the ratios and what they may be at most.
#[path = "../results.rs"]
mod results;

use std::hint::black_box;
use std::time::Instant;

unsafe extern "C" {
    fn ranges_in_order(octets: *const u8, n: usize, segment: usize) -> u64;
    fn ranges_swapped(octets: *const u8, n: usize, segment: usize) -> u64;
    fn ranges_halves(octets: *const u8, n: usize, segment: usize) -> u64;
    fn ranges_past_islands(octets: *const u8, n: usize, islands_too: bool) -> u64;
}

const SEGMENT: usize = 1_460;
const ROUNDS: usize = 15;

fn copied(octets: &[u8], to: &mut [u8]) -> u64 {
    let mut count = 0;
    for piece in octets.chunks(SEGMENT) {
        to[..piece.len()].copy_from_slice(black_box(piece));
        black_box(&mut *to);
        count += piece.len() as u64;
    }
    count
}

/// The least time of each in so many rounds, in turn, in nanoseconds.
fn least(contenders: &mut [(&str, u64, Box<dyn FnMut() -> u64 + '_>)]) -> Vec<f64> {
    let mut times = vec![f64::MAX; contenders.len()];
    for _ in 0..ROUNDS {
        for (time, (name, expected, run)) in times.iter_mut().zip(contenders.iter_mut()) {
            let start = Instant::now();
            let count = run();
            *time = time.min(start.elapsed().as_nanos() as f64);
            assert_eq!(count, *expected, "{name}");
        }
    }
    times
}

fn main() {
    let octets: Vec<u8> = (0..64usize << 20).map(|i| (i * 7 + i / 1000) as u8).collect();
    let (all, n) = (octets.as_ptr(), octets.len());
    let count = n as u64;
    let mut to = vec![0u8; SEGMENT];
    let mut contenders: Vec<(&str, u64, Box<dyn FnMut() -> u64>)> = vec![
        ("copy_from_slice", count, Box::new(|| copied(&octets, &mut to))),
        ("in order", count, Box::new(|| unsafe { ranges_in_order(all, n, SEGMENT) })),
        ("pairs swapped", count, Box::new(|| unsafe { ranges_swapped(all, n, SEGMENT) })),
        ("every second first", count, Box::new(|| unsafe { ranges_halves(all, n, SEGMENT) })),
    ];
    let times = least(&mut contenders);
    let segments = n.div_ceil(SEGMENT) as f64;
    println!("copy_from_slice of {SEGMENT} octets: {:.0} ns", times[0] / segments);
    let mut within = true;
    for (i, most) in [(1, 3.5), (2, 5.0), (3, 6.0)] {
        let ratio = times[i] / times[0];
        println!("{}: {:.0} ns a segment", contenders[i].0, times[i] / segments);
        within &= results::at_most(contenders[i].0, ratio, 2, most, "copies");
    }

    let few = 150_000;
    let mut contenders: Vec<(&str, u64, Box<dyn FnMut() -> u64>)> = vec![
        ("without islands", few as u64, Box::new(|| unsafe { ranges_past_islands(all, few, false) })),
        ("with 1,000 islands", few as u64, Box::new(|| unsafe { ranges_past_islands(all, few, true) })),
    ];
    let times = least(&mut contenders);
    let ratio = times[1] / times[0];
    println!("one octet: {:.1} ns, with 1,000 islands further on {:.1} ns", times[0] / few as f64, times[1] / few as f64);
    within &= results::at_most("an octet at a time, 1,000 islands", ratio, 2, 3.0, "times without islands");
    std::process::exit(if within { 0 } else { 1 });
}
