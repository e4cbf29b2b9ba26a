//! What no stream can do without: its copies, and its CRCs, alone.

use crate::load::{Load, SHIFT};
use crate::ours::crc32c;
use std::hint::black_box;

/// Where the payload stands in a frame, behind the length field and a header.
const FRONT: usize = 16;

/// What a frame has beside its payload.
const AROUND: usize = 24;

fn copy(from: &[u8], to: &mut [u8]) {
    to.copy_from_slice(black_box(from));
    black_box(to);
}

/// How far the buffers are moved against each other, turn by turn: how fast a copy is depends on that.
const PAGE: usize = 4_096;

/// The octets of messages, and room for them on their way, as the path has it.
pub struct Copies {
    pub octets: Vec<u8>,
    frame_at: usize,
    window_at: usize,
    frame: Vec<u8>,
    window: Vec<u8>,
    region: Vec<u8>,
    place: Vec<u8>,
    wire: Vec<u8>,
}

impl Copies {
    pub fn new(octets: Vec<u8>) -> Copies {
        // No page is touched for the first time while it is timed.
        let room = || vec![1; octets.len() + AROUND + PAGE];
        let (frame, window, region, place) = (room(), room(), room(), room());
        Copies { frame, window, region, place, wire: Vec::new(), octets, frame_at: 0, window_at: 0 }
    }

    /// Moves the buffers against each other.
    pub fn shift(&mut self, turn: usize) {
        self.frame_at = turn * 192 % PAGE;
        self.window_at = turn * 832 % PAGE;
    }

    /// Of each message, piece by piece: from its octets into a frame, with what that has around them from there into a
    /// window, and from there into a region.
    pub fn three(&mut self, load: &Load) {
        let frame = &mut self.frame[self.frame_at..];
        let window = &mut self.window[self.window_at..];
        for round in 0..load.messages() {
            let message = &self.octets[round % 2 * SHIFT..][..load.message];
            for (piece, place) in message.chunks(load.piece()).zip(self.region.chunks_mut(load.piece())) {
                let n = piece.len();
                copy(piece, &mut frame[FRONT..FRONT + n]);
                copy(&frame[..n + AROUND], &mut window[..n + AROUND]);
                copy(&window[FRONT..FRONT + n], &mut place[..n]);
            }
        }
    }

    /// The last two of these, the frames of a message lying one behind the other.
    pub fn received(&mut self, load: &Load) {
        self.wire.resize(PAGE + load.message + load.message.div_ceil(load.piece()) * AROUND, 1);
        let wire = &self.wire[self.frame_at..];
        let window = &mut self.window[self.window_at..];
        for _ in 0..load.messages() {
            let frames = wire.chunks(load.piece() + AROUND);
            for (frame, place) in frames.zip(self.region[..load.message].chunks_mut(load.piece())) {
                let n = place.len();
                copy(frame, &mut window[..frame.len()]);
                copy(&window[FRONT..FRONT + n], place);
            }
        }
    }

    /// Of each message, piece by piece, to one place, so often.
    pub fn in_cache(&mut self, load: &Load, often: usize) {
        let place = &mut self.place[self.window_at..];
        for round in 0..load.messages() {
            let message = &self.octets[round % 2 * SHIFT..][..load.message];
            for piece in message.chunks(load.piece()) {
                for _ in 0..often {
                    copy(piece, &mut place[..piece.len()]);
                }
            }
        }
    }

    /// The CRCs of each message, piece by piece, so often.
    pub fn crcs(&self, load: &Load, often: usize) {
        for round in 0..load.messages() {
            let message = &self.octets[round % 2 * SHIFT..][..load.message];
            for piece in message.chunks(load.piece()) {
                for _ in 0..often {
                    black_box(crc32c(black_box(piece)));
                }
            }
        }
    }
}
