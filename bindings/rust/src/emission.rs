//! What a stream is to send.
use crate::error::{done, done_with_room};
use crate::{raw, Buffer, Emission, Filling, Handle, Result, Stream};

/// ## What is to be sent
impl Handle {
    /// Appends to a buffer what a stream is to send, frame by frame, until nothing is due, or one frame more would make what this call
    /// appends more than `most` octets. A first frame is appended whatever its length.
    ///
    /// The stream counts as sent what was appended: write the buffer out whole and in order, drop what the socket took by
    /// [`Buffer::drop_front`], and call again only once nothing is left.
    ///
    /// Errors: `NoSuchStream`, `TooFar`, `NoMemory` (only if no frame was appended). Nothing has changed then.
    pub fn fill(&mut self, stream: Stream, most: usize, buffer: &mut Buffer) -> Result<Filling> {
        let mut filling = raw::iwarp_filling::default();
        done(buffer.with_raw(|buffer| {
            // SAFETY: handle and buffer are as the last calls on them left them; `filling` is a local.
            unsafe { raw::iwarp_fill(self.at(), stream.number(), most, buffer, &mut filling) }
        }))?;
        Ok(Filling::of(&filling))
    }

    /// Emits the next frame of a stream behind the octets of a buffer.
    ///
    /// Errors: as [`fill`](Handle::fill).
    pub fn emit_onto(&mut self, stream: Stream, buffer: &mut Buffer) -> Result<Emission> {
        let mut emission = raw::iwarp_emission::default();
        done(buffer.with_raw(|buffer| {
            // SAFETY: handle and buffer are as the last calls on them left them; `emission` is a local.
            unsafe { raw::iwarp_emit_onto(self.at(), stream.number(), buffer, &mut emission) }
        }))?;
        Ok(Emission::of(&emission))
    }

    /// Emits the next frame of a stream to the front of `out`, and returns how many octets it has. Write them whole and in order. Call
    /// it until it answers [`Emission::Nothing`]. 66,000 octets are enough for any frame.
    ///
    /// Errors: `NoSuchStream`, `TooFar`, `NoRoom`, `NoMemory`. Nothing has changed then.
    pub fn emit(&mut self, stream: Stream, out: &mut [u8]) -> Result<(Emission, usize)> {
        let mut emission = raw::iwarp_emission::default();
        let mut n = 0;
        let (at, room) = (out.as_mut_ptr(), out.len());
        // SAFETY: the handle is as the last call on it left it; `room` octets at `at` can be written; the others are locals.
        let code = unsafe { raw::iwarp_emit(self.at(), stream.number(), at, room, &mut n, &mut emission) };
        done_with_room(code, n)?;
        Ok((Emission::of(&emission), n))
    }
}
