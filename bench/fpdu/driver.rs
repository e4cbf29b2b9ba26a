// Times writing and checking of frames with markers, and writing of segments, as streams do, with markers and bare, beside a copy and
// the bare CRC of the same octets, prints the ratios, and ends with status 1 if a limit is missed. It reads the processor's time of
// this thread, in which other work shows little.
#[path = "../clock.rs"]
mod clock;
#[path = "../results.rs"]
mod results;

use clock::now;

unsafe extern "C" {
    fn fpdu_copies(rounds: usize, octets: *const u8, n: usize) -> usize;
    fn fpdu_writes(crc: bool, rounds: usize, octets: *const u8, n: usize) -> usize;
    fn fpdu_segments(markers: bool, crc: bool, rounds: usize, octets: *const u8, n: usize) -> usize;
    fn fpdu_sums(rounds: usize, octets: *const u8, n: usize) -> u32;
    fn fpdu_checks(crc: bool, rounds: usize, octets: *const u8, n: usize) -> usize;
}

const SIZES: [usize; 3] = [128, 1_400, 64_000];
const TURNS: usize = 25;

fn time(mut work: impl FnMut()) -> f64 {
    let start = now();
    work();
    now() - start
}

fn main() {
    let mut missed = 0;
    for size in SIZES {
        let octets: Vec<u8> = (0..size).map(|i| (i * 7 + 3) as u8).collect();
        let (at, n) = (octets.as_ptr(), octets.len());
        let rounds = 12_000_000 / size;
        // The least of several turns, taken one after the other.
        let mut least = [f64::MAX; 9];
        for _ in 0..TURNS {
            let times = [
                time(|| assert_eq!(unsafe { fpdu_copies(rounds, at, n) }, rounds)),
                time(|| assert_eq!(unsafe { fpdu_writes(false, rounds, at, n) }, rounds)),
                time(|| {
                    std::hint::black_box(unsafe { fpdu_sums(rounds, at, n) });
                }),
                time(|| assert_eq!(unsafe { fpdu_writes(true, rounds, at, n) }, rounds)),
                time(|| assert_eq!(unsafe { fpdu_checks(false, rounds, at, n) }, rounds)),
                time(|| assert_eq!(unsafe { fpdu_checks(true, rounds, at, n) }, rounds)),
                time(|| assert_eq!(unsafe { fpdu_segments(false, false, rounds, at, n) }, rounds)),
                time(|| assert_eq!(unsafe { fpdu_segments(true, false, rounds, at, n) }, rounds)),
                time(|| assert_eq!(unsafe { fpdu_segments(true, true, rounds, at, n) }, rounds)),
            ];
            for (least, time) in least.iter_mut().zip(times) {
                *least = least.min(time / rounds as f64);
            }
        }
        let [copy, write, sum, write_crc, check, check_crc, bare, segment, segment_crc] = least;
        println!("{size} octets: copy {copy:.1} ns, CRC {sum:.1} ns");
        println!("  writing {:.2} copies; with CRC {:.2} CRCs, {:.2} of copy and CRC", write / copy, write_crc / sum, write_crc / (copy + sum));
        println!(
            "  writing a segment {:.2} copies, bare {:.2}; with CRC {:.2} CRCs, {:.2} of copy and CRC",
            segment / copy,
            bare / copy,
            segment_crc / sum,
            segment_crc / (copy + sum)
        );
        println!("  reading and checking {:.2} copies; with CRC {:.2} CRCs", check / copy, check_crc / sum);
        if size == 1_400 {
            missed += usize::from(!results::at_most("1400 octets, writing", write / copy, 2, 2.5, "copies"));
            missed += usize::from(!results::at_most("1400 octets, a segment", segment / copy, 2, 2.5, "copies"));
        }
        let checking = format!("{size} octets, checking with CRC");
        missed += usize::from(!results::at_most(&checking, check_crc / sum, 2, 1.3, "CRCs"));
    }
    std::process::exit(if missed == 0 { 0 } else { 1 });
}
