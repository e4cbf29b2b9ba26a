/// From one marker to the next, in octets.
pub const SPACING: u64 = 512;

pub const MARKER: u64 = 4;

/// What a direction of a connection has beside the ULPDUs. Places are counted from the first frame on.
#[derive(Clone, Copy, Debug, PartialEq, Eq)]
pub struct Layout {
    /// There is a marker at each place that 512 divides (RFC 5044 4.3).
    pub markers: bool,
    /// CRCs are generated and checked (RFC 5044 4.4).
    pub crc: bool,
}

/// How many pad octets stand behind a ULPDU of this length.
pub fn pad_of(len: u16) -> u64 {
    (4 - (u64::from(len) + 2) % 4) % 4
}

impl Layout {
    /// Where the frame begins whose first octet, or the marker before it, is to stand at `at`.
    pub fn start_of(self, at: u64) -> u64 {
        if self.markers && at % SPACING == 0 { at + MARKER } else { at }
    }

    /// The place behind the frame that begins at `start` with a ULPDU of `len` octets.
    pub fn end_of(self, start: u64, len: u16) -> u64 {
        let size = 2 + u64::from(len) + pad_of(len) + 4;
        if !self.markers {
            return start + size;
        }
        let behind_marker = start % SPACING - MARKER + size;
        start + size + MARKER * ((behind_marker - 1) / (SPACING - MARKER))
    }

    /// How many of `len` octets stand from `at` on before the next marker.
    pub fn run_at(self, at: u64, len: usize) -> usize {
        if self.markers { len.min((SPACING - at % SPACING) as usize) } else { len }
    }
}
