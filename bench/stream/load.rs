//! What is carried; `crates/bench_stream/src/load.rt` has the same.

/// The messages have by turns the first octets and those from here on.
pub const SHIFT: usize = 64;

const TAGGED_HEADER: usize = 14;
const UNTAGGED_HEADER: usize = 18;

/// What is carried, and how.
#[repr(C)]
#[derive(Clone, Copy, Debug)]
pub struct Load {
    /// The frames have markers.
    pub markers: bool,
    /// The frames have CRCs.
    pub crc: bool,
    /// The streams begin with start-up frames.
    pub start_up: bool,
    /// The messages are Sends, and not Writes.
    pub sends: bool,
    /// The receiving streams share one pool of receive buffers.
    pub pooled: bool,
    /// The receiving ends read the messages, one at a time each, in place of that the others write them.
    pub reads: bool,
    /// After each round what came is compared with what was posted.
    pub compared: bool,
    /// The receiving streams' steps are called from two places, round by round.
    pub two_callers: bool,
    /// The frames that are emitted at a time are delivered from the last to the first.
    pub reversed: bool,
    /// Of the frames that are emitted at a time the last is delivered before all others.
    pub last_first: bool,
    /// Each marker of a window points somewhere else.
    pub lying: bool,
    /// Each marker of a window points to a frame of its own, which is as long as can be and never whole.
    pub cut: bool,
    /// The receiving side reads what was emitted from memory, up to 65,536 octets at a time: right to where they are to stand, the
    /// peer into a buffer of its own.
    pub in_place: bool,
    /// The maximum ULPDU, in octets.
    pub mulpdu: u32,
    /// How many octets a message has.
    pub message: usize,
    /// How many messages are posted at a time.
    pub posted: usize,
    /// How many receive buffers each receiving stream has posted, or added to the pool, before the first round.
    pub ahead: usize,
    /// How many pairs of streams go by turns.
    pub pairs: usize,
    /// How many frames of a stream are emitted at a time.
    pub batch: usize,
    /// Of each so many of these the first is delivered after all others.
    pub late: usize,
    /// How many octets a delivery has at most.
    pub delivery: usize,
    /// Of each so many deliveries of a window the first stays away.
    pub gap: usize,
    /// How often all that is done, an even number.
    pub rounds: usize,
}

impl Load {
    /// Writes of 16 KiB, 4 MiB together, frame by frame in order, in ULPDUs of 1,400 octets, without markers and CRCs.
    pub const PLAIN: Load = Load {
        markers: false,
        crc: false,
        start_up: false,
        sends: false,
        pooled: false,
        reads: false,
        compared: false,
        two_callers: false,
        reversed: false,
        last_first: false,
        lying: false,
        cut: false,
        in_place: false,
        mulpdu: 1_400,
        message: 16_384,
        posted: 1,
        ahead: 0,
        pairs: 1,
        batch: 1,
        late: 1,
        delivery: usize::MAX,
        gap: usize::MAX,
        rounds: 256,
    };

    pub const MARKERS: Load = Load { markers: true, ..Load::PLAIN };

    /// With markers and CRCs.
    pub const FRAMED: Load = Load { crc: true, ..Load::MARKERS };

    /// How many octets of a message a frame has at most.
    pub fn piece(&self) -> usize {
        self.mulpdu as usize - if self.sends { UNTAGGED_HEADER } else { TAGGED_HEADER }
    }

    /// How many messages are carried.
    pub fn messages(&self) -> usize {
        self.posted * self.pairs * self.rounds
    }

    pub fn frames(&self) -> usize {
        self.messages() * self.message.div_ceil(self.piece())
    }

    /// How many octets are carried.
    pub fn octets(&self) -> usize {
        self.messages() * self.message
    }

    /// The same messages, so many octets together, or a little more.
    pub fn carrying(self, octets: usize) -> Load {
        let round = Load { rounds: 1, ..self }.octets();
        Load { rounds: octets.div_ceil(2 * round) * 2, ..self }
    }
}
