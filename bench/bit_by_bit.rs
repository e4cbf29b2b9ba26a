//! The CRC-32C by its definition, with which faster ways are compared.

const POLYNOMIAL: u32 = 0x82f6_3b78;

/// The CRC-32C of the octets, bit by bit.
pub fn crc32c(octets: &[u8]) -> u32 {
    let mut crc = !0u32;
    for octet in octets {
        crc ^= u32::from(*octet);
        for _ in 0..8 {
            crc = if crc & 1 == 1 { crc >> 1 ^ POLYNOMIAL } else { crc >> 1 };
        }
    }
    !crc
}

/// Compares what a function gives with the CRC-32C: of 0 to 2,000 octets, and of longer runs, with both sides of each length at
/// which `iw_crc` goes another way.
pub fn must_agree(name: &str, contender: impl Fn(&[u8]) -> u32) {
    let octets: Vec<u8> = (0..70_016u32).map(|i| (i.wrapping_mul(2_654_435_761) >> 13) as u8).collect();
    for len in (0..=2_000).chain([2_337, 2_338, 2_339, 4_385, 4_386, 4_387, 9_000, 65_536, 70_000]) {
        let octets = &octets[len % 16..][..len];
        assert_eq!(contender(octets), crc32c(octets), "{name}, {len} octets");
    }
}
