//! What `crates/bench_stream` offers: loads carried by `iw_stream`, and the CRC of `iw_crc`.

use crate::load::Load;

unsafe extern "C" {
    fn stream_carry(load: &Load, octets: *const u8, n: usize) -> u64;
    fn stream_receive(load: &Load, octets: *const u8, n: usize) -> u64;
    fn stream_window(load: &Load, octets: *const u8, n: usize) -> u64;
    fn stream_crc(octets: *const u8, n: usize) -> u32;
}

/// Carries rounds of messages, and tells how many octets were placed: none where something went otherwise.
pub fn carry(load: &Load, octets: &[u8]) -> u64 {
    unsafe { stream_carry(load, octets.as_ptr(), octets.len()) }
}

/// The receiving side alone, of the frames of one round again and again.
pub fn receive(load: &Load, octets: &[u8]) -> u64 {
    unsafe { stream_receive(load, octets.as_ptr(), octets.len()) }
}

/// The frames of one round but for the first of each `gap` deliveries, to new streams again and again: how many deliveries they
/// were.
pub fn window(load: &Load, octets: &[u8]) -> u64 {
    unsafe { stream_window(load, octets.as_ptr(), octets.len()) }
}

pub fn crc32c(octets: &[u8]) -> u32 {
    unsafe { stream_crc(octets.as_ptr(), octets.len()) }
}
