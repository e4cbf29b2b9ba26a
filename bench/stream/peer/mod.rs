//! The path that the benchmark times, in plain Rust: what a programmer would write who wants it fast and is content with
//! tests. It keeps the same limits, makes the same checks in the same order, and takes the same steps as `iw_stream`; so a
//! ratio of times says what is left to gain. Safe code but for one call (crc.rs), no crate but std. Running out of memory ends the
//! process.

pub mod carry;
pub mod crc;
mod frame;
mod islands;
mod layout;
mod memory;
mod segment;
mod send_queue;
mod recv_queue;
mod stream;

/// Why a stream ends.
#[derive(Clone, Copy, Debug, PartialEq, Eq)]
pub enum Fault {
    CrcMismatch,
    MarkerMismatch,
    SegmentShort,
    DdpVersion,
    RdmapVersion,
    UnexpectedOpcode,
    InvalidQueue,
    MsnRange,
    NoBuffer,
    InvalidOffset,
    TooLong,
    NotAssociated,
    InvalidStag,
    OffsetWrap,
    Bounds,
    Rights,
}
