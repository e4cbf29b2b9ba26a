use super::Fault;
use super::crc::crc32c;
use super::islands::Islands;
use super::layout::{Layout, MARKER, SPACING, pad_of};
use super::segment::UNTAGGED_HEADER;

/// A frame that came whole.
pub struct Frame<'a> {
    layout: Layout,
    start: u64,
    /// The place behind it.
    pub end: u64,
    /// How many octets its ULPDU has.
    pub len: usize,
    /// Its octets and its markers', with the marker directly before it.
    octets: &'a [u8],
    /// Where its own begin in these.
    at: usize,
}

impl<'a> Frame<'a> {
    /// The frame at the in-order point, if it is whole; the first frame begins at place `base` of the stream.
    #[inline]
    pub fn next(layout: Layout, base: u64, arrived: &'a Islands) -> Option<Frame<'a>> {
        let from = arrived.floor() - base;
        let came = arrived.missing() - base;
        let start = layout.start_of(from);
        if came < start + 2 {
            return None;
        }
        let length = arrived.part(base + start, base + start + 2);
        let len = u16::from_be_bytes([length[0], length[1]]);
        let end = layout.end_of(start, len);
        if came < end {
            return None;
        }
        let octets = arrived.part(base + from, base + end);
        Some(Frame { layout, start, end, len: usize::from(len), octets, at: (start - from) as usize })
    }

    /// Judges the CRC, and then the markers (RFC 5044 8).
    #[inline]
    pub fn check(&self) -> Result<(), Fault> {
        if self.layout.crc || self.layout.markers { self.check_octets() } else { Ok(()) }
    }

    #[inline(never)]
    fn check_octets(&self) -> Result<(), Fault> {
        if self.layout.crc && !self.does_crc_agree() {
            return Err(Fault::CrcMismatch);
        }
        if self.layout.markers && !self.do_markers_agree() {
            return Err(Fault::MarkerMismatch);
        }
        Ok(())
    }

    fn does_crc_agree(&self) -> bool {
        let Some((covered, field)) = self.octets.split_last_chunk::<4>() else {
            return false;
        };
        u32::from_le_bytes(*field) == crc32c(covered)
    }

    fn do_markers_agree(&self) -> bool {
        let from = self.start - self.at as u64;
        let first = from.next_multiple_of(SPACING);
        (first..self.end).step_by(SPACING as usize).all(|place| {
            let marker = &self.octets[(place - from) as usize..];
            let pointer = u16::from_be_bytes([marker[2], marker[3]]) & !3;
            u64::from(pointer) == place.saturating_sub(self.start)
        })
    }

    /// The octets of the ULPDU from its octet `k` on, between the markers.
    #[inline]
    pub fn pieces(&self, k: usize) -> Pieces<'a> {
        let first = self.start + 2;
        let mut pieces = Pieces {
            rest: &self.octets[self.at + 2..],
            run: self.layout.run_at(first, self.len),
            left: self.len,
        };
        pieces.skip_octets(k);
        pieces
    }

    /// The front of the ULPDU, where its header is: in one piece, or else gathered.
    #[inline]
    pub fn front<'b>(&'b self, gathered: &'b mut [u8; UNTAGGED_HEADER]) -> &'b [u8] {
        let pieces = self.pieces(0);
        if pieces.run >= UNTAGGED_HEADER.min(self.len) {
            &pieces.rest[..pieces.run]
        } else {
            gather(pieces, gathered)
        }
    }
}

#[inline(never)]
fn gather<'a>(pieces: Pieces<'_>, out: &'a mut [u8; UNTAGGED_HEADER]) -> &'a [u8] {
    let mut count = 0;
    for (place, octet) in out.iter_mut().zip(pieces.flatten()) {
        *place = *octet;
        count += 1;
    }
    &out[..count]
}

/// Octets of a ULPDU, piece by piece.
pub struct Pieces<'a> {
    /// Octets of the frame from the next octet on, markers among them.
    rest: &'a [u8],
    /// How many of them come before the next marker.
    run: usize,
    /// How many octets of the ULPDU are left.
    left: usize,
}

impl<'a> Pieces<'a> {
    #[inline]
    fn skip_octets(&mut self, k: usize) {
        let mut k = k;
        while k >= self.run && self.left > self.run {
            k -= self.run;
            self.next();
        }
        self.rest = &self.rest[k..];
        self.run -= k;
        self.left -= k;
    }

    /// Copies the pieces, whose octets are as many as `out` has.
    #[inline]
    pub fn copy_to(self, out: &mut [u8]) {
        let mut at = 0;
        for piece in self {
            out[at..at + piece.len()].copy_from_slice(piece);
            at += piece.len();
        }
    }
}

impl<'a> Iterator for Pieces<'a> {
    type Item = &'a [u8];

    #[inline]
    fn next(&mut self) -> Option<&'a [u8]> {
        if self.left == 0 {
            return None;
        }
        let n = self.run.min(self.left);
        let piece = &self.rest[..n];
        self.left -= n;
        if self.left > 0 {
            self.rest = &self.rest[n + MARKER as usize..];
            self.run = (SPACING - MARKER) as usize;
        }
        Some(piece)
    }
}

/// Appends a frame that is to stand from `at` on: `front` has its length field and header (RFC 5044 4).
#[inline]
pub fn append_frame<const N: usize>(layout: Layout, at: u64, front: [u8; N], payload: &[u8], out: &mut Vec<u8>) {
    let mark = out.len();
    let len = (N - 2 + payload.len()) as u16;
    let pad = pad_of(len) as usize;
    let end = layout.end_of(layout.start_of(at), len);
    out.reserve((end - at) as usize + 8);
    if layout.markers {
        append_among_markers(layout, at, front, payload, pad, out);
    } else {
        out.extend_from_slice(&front);
        out.extend_from_slice(payload);
        out.extend_from_slice(&[0; 8]);
        out.truncate(mark + (end - at) as usize);
    }
    if layout.crc {
        fill_crc(layout, at, &mut out[mark..]);
    }
}

#[inline(never)]
fn append_among_markers<const N: usize>(
    layout: Layout,
    at: u64,
    front: [u8; N],
    payload: &[u8],
    pad: usize,
    out: &mut Vec<u8>,
) {
    let start = layout.start_of(at);
    let mut place = at;
    for mut rest in [&front, payload, &[0; 3][..pad]] {
        while !rest.is_empty() {
            place = append_marker(start, place, out);
            let (run, behind) = rest.split_at(layout.run_at(place, rest.len()));
            out.extend_from_slice(run);
            place += run.len() as u64;
            rest = behind;
        }
    }
    append_marker(start, place, out);
    out.extend_from_slice(&[0; 4]);
}

/// Appends the marker at `at`, if there is one, and tells the place behind it.
#[inline]
fn append_marker(start: u64, at: u64, out: &mut Vec<u8>) -> u64 {
    if at % SPACING != 0 {
        return at;
    }
    let [high, low] = (at.saturating_sub(start) as u16).to_be_bytes();
    out.extend_from_slice(&[0, 0, high, low]);
    at + MARKER
}

/// Writes the CRC field of a frame: over its octets, and over the marker directly before it.
fn fill_crc(layout: Layout, at: u64, frame: &mut [u8]) {
    // Where the marker before the frame is not in `frame`, the frame does not begin behind one.
    debug_assert!(!layout.markers || at % SPACING != MARKER);
    if let Some((covered, field)) = frame.split_last_chunk_mut::<4>() {
        *field = crc32c(covered).to_le_bytes();
    }
}
