//! Times the reading of schedules and the printing of traces: of each text, and of its first half. It ends with status 1 if
//! a whole text takes more than `MOST` of its half.
#[path = "../results.rs"]
mod results;

use std::time::Instant;

unsafe extern "C" {
    fn texts_read(text: *const u8, len: usize) -> usize;
    fn texts_make(lines: u32, octets: *const u8, len: usize) -> usize;
    fn texts_print(lines: u32, octets: *const u8, len: usize) -> usize;
}

const ROUNDS: u32 = 15;

/// Twice as much would be linear.
const MOST: f64 = 2.3;

// The least time of a run, in milliseconds.
fn least(mut run: impl FnMut()) -> f64 {
    let mut least = f64::MAX;
    for _ in 0..ROUNDS {
        let start = Instant::now();
        run();
        least = least.min(start.elapsed().as_secs_f64() * 1e3);
    }
    least
}

fn schedule(line: &str, lines: usize) -> String {
    let mut text = line.repeat(lines);
    text.push('\n');
    text
}

/// Prints a row, and tells whether the limit is kept.
fn compare(title: &str, octets: usize, half: f64, whole: f64) -> bool {
    let speed = octets as f64 / whole / 1e3;
    let ratio = whole / half;
    println!("{title:34} {half:9.2} ms {whole:9.2} ms  {speed:7.0} MB/s");
    results::at_most(title, ratio, 2, MOST, "times the half")
}

fn read(title: &str, line: &str, lines: usize) -> bool {
    let half = schedule(line, lines / 2);
    let whole = schedule(line, lines);
    let time = |text: &str| {
        least(|| assert!(unsafe { texts_read(text.as_ptr(), text.len()) } < usize::MAX))
    };
    compare(title, whole.len(), time(&half), time(&whole))
}

fn print(title: &str, octets: &[u8], lines: u32) -> bool {
    let mut len = 0;
    let mut time = |lines: u32| {
        let make = least(|| assert!(unsafe { texts_make(lines, octets.as_ptr(), octets.len()) } > 0));
        let both = least(|| {
            len = unsafe { texts_print(lines, octets.as_ptr(), octets.len()) };
            assert!(len > 0);
        });
        both - make
    };
    let half = time(lines / 2);
    let whole = time(lines);
    compare(title, len, half, whole)
}

fn main() {
    let digits = "0123456789abcdef".repeat(4);
    println!("{:34} {:>12} {:>12}", "", "half", "whole");
    let kept = [
        read("reads 100,000 Writes of 36 octets", &format!("a write 0 01000000 4096 {digits}01234567\n"), 100_000),
        read("reads 100,000 Sends, 00*1000", "a send 0 plain - 00*1000\n", 100_000),
        read("reads 100,000 comments", &format!("# {}\n", "a".repeat(97)), 100_000),
        read("reads 10 lines of 100,000 events", "a work 0 100000\n", 10),
        read("reads one Write of 20,000,000 digits", &format!("a write 0 01000000 0 {}\n", "ab".repeat(5_000_000)), 2),
        print("prints 100,000 placements", &[0xa5; 32], 100_000),
        print("prints 80 of 1,000,000 octets", &vec![0x5a; 1_000_000], 80),
    ];
    std::process::exit(i32::from(kept.contains(&false)));
}
