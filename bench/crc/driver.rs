//! Times the CRC-32C of iw_crc beside the usual ways in plain Rust: a table, slicing-by-8, and the processor's own instruction.
#[path = "../bit_by_bit.rs"]
mod bit_by_bit;
#[path = "../results.rs"]
mod results;

use std::hint::black_box;
use std::time::Instant;

const POLYNOMIAL: u32 = 0x82f6_3b78;

unsafe extern "C" {
    fn crc_ours(octets: *const u8, len: usize) -> u32;
}

const fn slices() -> [[u32; 256]; 8] {
    let mut tables = [[0u32; 256]; 8];
    let mut i = 0;
    while i < 256 {
        let mut crc = i as u32;
        let mut bit = 0;
        while bit < 8 {
            crc = if crc & 1 == 1 { crc >> 1 ^ POLYNOMIAL } else { crc >> 1 };
            bit += 1;
        }
        tables[0][i] = crc;
        i += 1;
    }
    let mut k = 1;
    while k < 8 {
        let mut i = 0;
        while i < 256 {
            let before = tables[k - 1][i];
            tables[k][i] = tables[0][(before & 0xff) as usize] ^ before >> 8;
            i += 1;
        }
        k += 1;
    }
    tables
}

static SLICES: [[u32; 256]; 8] = slices();

fn one(crc: u32, octet: u8) -> u32 {
    SLICES[0][((crc ^ u32::from(octet)) & 0xff) as usize] ^ crc >> 8
}

#[inline(never)]
fn table(octets: &[u8]) -> u32 {
    !octets.iter().fold(!0, |crc, octet| one(crc, *octet))
}

#[inline(never)]
fn slicing_by_8(octets: &[u8]) -> u32 {
    let (words, rest) = octets.as_chunks::<8>();
    let mut crc = !0u32;
    for word in words {
        let x = u64::from_le_bytes(*word) ^ u64::from(crc);
        crc = 0;
        for j in 0..8 {
            crc ^= SLICES[7 - j][(x >> (8 * j) & 0xff) as usize];
        }
    }
    !rest.iter().fold(crc, |crc, octet| one(crc, *octet))
}

#[inline(never)]
#[target_feature(enable = "sse4.2")]
fn instruction(octets: &[u8]) -> u32 {
    use core::arch::x86_64::{_mm_crc32_u8, _mm_crc32_u64};
    let (words, rest) = octets.as_chunks::<8>();
    let mut crc = u64::from(!0u32);
    for word in words {
        crc = _mm_crc32_u64(crc, u64::from_le_bytes(*word));
    }
    let mut crc = crc as u32;
    for octet in rest {
        crc = _mm_crc32_u8(crc, *octet);
    }
    !crc
}

fn ours(octets: &[u8]) -> u32 {
    unsafe { crc_ours(octets.as_ptr(), octets.len()) }
}

fn some_octets(len: usize) -> Vec<u8> {
    (0..len as u32).map(|i| (i.wrapping_mul(2_654_435_761) >> 13) as u8).collect()
}

/// The least time of one call of each, in nanoseconds, the contenders in turn.
fn least_times(octets: &[u8], contenders: &[fn(&[u8]) -> u32], rounds: u32) -> Vec<f64> {
    let calls = (100_000 / (octets.len() as u32 + 100)).max(1);
    let mut least = vec![f64::MAX; contenders.len()];
    for _ in 0..rounds {
        for (contender, least) in contenders.iter().zip(&mut least) {
            let start = Instant::now();
            for _ in 0..calls {
                black_box(contender(black_box(octets)));
            }
            *least = least.min(start.elapsed().as_nanos() as f64 / f64::from(calls));
        }
    }
    least
}

fn with_instruction(octets: &[u8]) -> u32 {
    unsafe { instruction(octets) }
}

fn main() {
    bit_by_bit::must_agree("iw_crc", ours);
    let has_instruction = std::is_x86_feature_detected!("sse4.2");
    let mut contenders: Vec<fn(&[u8]) -> u32> = vec![slicing_by_8, table, ours];
    if has_instruction {
        contenders.push(with_instruction);
    }
    println!("octets   slicing-by-8   table      iw_crc   instruction   (speed, slicing-by-8 = 1)");
    for len in [64, 256, 508, 1_456, 4_096, 9_000, 65_536] {
        let times = least_times(&some_octets(len), &contenders, 5_000);
        let speed = |k: usize| times.get(k).map_or("-".into(), |time| format!("{:.2}", times[0] / time));
        let rate = len as f64 / times[0];
        println!("{len:6} {:>6} {rate:4.2} GB/s {:>7} {:>11} {:>13}", speed(0), speed(1), speed(2), speed(3));
        results::row(&format!("{len} octets"), times[0] / times[2], 1, "times slicing by eight");
    }
}
