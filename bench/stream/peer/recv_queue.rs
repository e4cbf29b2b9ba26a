use super::Fault;
use super::frame::Pieces;
use std::collections::VecDeque;

const MAX_BUFFERS: usize = 256;
const MSN_RANGE: u32 = 256;

/// The receive buffers, oldest first, and how much of the message that is due has had its turn.
pub struct RecvQueue {
    buffers: VecDeque<Vec<u8>>,
    due: u32,
    turned: usize,
}

impl RecvQueue {
    pub fn new() -> RecvQueue {
        RecvQueue { buffers: VecDeque::new(), due: 1, turned: 0 }
    }

    /// Posts a buffer, or gives it back where there are too many.
    pub fn post(&mut self, buffer: Vec<u8>) -> Result<(), Vec<u8>> {
        if self.buffers.len() >= MAX_BUFFERS {
            return Err(buffer);
        }
        self.buffers.push_back(buffer);
        Ok(())
    }

    /// Writes `n` octets of a Send into the buffer of its message, from the message's octet `mo` on (RFC 5041 7.1).
    #[inline(never)]
    pub fn place(&mut self, msn: u32, mo: u32, n: usize, pieces: Pieces<'_>) -> Result<(), Fault> {
        let ahead = msn.wrapping_sub(self.due);
        if ahead >= MSN_RANGE {
            return Err(Fault::MsnRange);
        }
        let Some(buffer) = self.buffers.get_mut(ahead as usize) else {
            return Err(Fault::NoBuffer);
        };
        let mo = mo as usize;
        let Some(part) = buffer.get_mut(mo..mo + n) else {
            return Err(Fault::TooLong);
        };
        pieces.copy_to(part);
        Ok(())
    }

    /// Gives `n` octets of a Send that were placed their turn.
    #[inline(never)]
    pub fn turn(&mut self, msn: u32, mo: u32, n: usize) -> Result<(), Fault> {
        if msn != self.due {
            return Err(Fault::MsnRange);
        }
        if mo as usize != self.turned {
            return Err(Fault::InvalidOffset);
        }
        self.turned += n;
        Ok(())
    }

    /// Hands out the message that is due, all of which had its turn: its buffer and its length.
    #[inline(never)]
    pub fn finish(&mut self) -> Option<(Vec<u8>, usize)> {
        let buffer = self.buffers.pop_front()?;
        self.due = self.due.wrapping_add(1);
        Some((buffer, std::mem::take(&mut self.turned)))
    }
}
