use super::Fault;
use super::memory::Stag;

pub const TAGGED_HEADER: usize = 14;
pub const UNTAGGED_HEADER: usize = 18;

const TAGGED: u8 = 0x80;
const LAST: u8 = 0x40;
const DDP_VERSION: u8 = 1;
const RDMAP_VERSION: u8 = 1;
const WRITE: u8 = 0;
const SEND: u8 = 3;
const LAST_QUEUE: u32 = 2;

/// The header of a segment that passed the checks of its header (RFC 5041 4, RFC 5040 4).
#[derive(Clone, Copy, Debug, PartialEq, Eq)]
pub enum Head {
    /// Of a Write: octets for a region.
    Write { stag: Stag, to: u64 },
    /// Of a Send: octets for a receive buffer.
    Send { last: bool, msn: u32, mo: u32 },
}

fn number(octets: &[u8]) -> u32 {
    u32::from_be_bytes([octets[0], octets[1], octets[2], octets[3]])
}

impl Head {
    /// Judges the header at the front of a ULPDU: these are its first 18 octets, or all where it has fewer.
    pub fn read(octets: &[u8]) -> Result<Head, Fault> {
        match octets.first() {
            None => Err(Fault::SegmentShort),
            Some(first) if first & TAGGED != 0 => Head::read_tagged(octets),
            Some(_) => Head::read_untagged(octets),
        }
    }

    #[inline]
    fn read_tagged(octets: &[u8]) -> Result<Head, Fault> {
        let Some(head) = octets.first_chunk::<TAGGED_HEADER>() else {
            return Err(Fault::SegmentShort);
        };
        if head[0] & 3 != DDP_VERSION {
            return Err(Fault::DdpVersion);
        }
        if head[1] >> 6 != RDMAP_VERSION {
            return Err(Fault::RdmapVersion);
        }
        if head[1] & 15 != WRITE {
            return Err(Fault::UnexpectedOpcode);
        }
        let to = u64::from_be_bytes([head[6], head[7], head[8], head[9], head[10], head[11], head[12], head[13]]);
        Ok(Head::Write { stag: Stag(number(&head[2..])), to })
    }

    #[inline(never)]
    fn read_untagged(octets: &[u8]) -> Result<Head, Fault> {
        let Some(head) = octets.first_chunk::<UNTAGGED_HEADER>() else {
            return Err(Fault::SegmentShort);
        };
        if head[0] & 3 != DDP_VERSION {
            return Err(Fault::DdpVersion);
        }
        let queue = number(&head[6..]);
        if queue > LAST_QUEUE {
            return Err(Fault::InvalidQueue);
        }
        if head[1] >> 6 != RDMAP_VERSION {
            return Err(Fault::RdmapVersion);
        }
        if head[1] & 15 != SEND || queue != 0 {
            return Err(Fault::UnexpectedOpcode);
        }
        Ok(Head::Send { last: head[0] & LAST != 0, msn: number(&head[10..]), mo: number(&head[14..]) })
    }
}

fn first_octet(tagged: bool, last: bool) -> u8 {
    let tagged = if tagged { TAGGED } else { 0 };
    let last = if last { LAST } else { 0 };
    tagged | last | DDP_VERSION
}

/// The length field of a frame and the header of a part of a Write of `n` octets, put together as one number.
pub fn write_front(stag: Stag, to: u64, n: usize, last: bool) -> [u8; 2 + TAGGED_HEADER] {
    let len = (TAGGED_HEADER + n) as u128;
    let control = u16::from_be_bytes([first_octet(true, last), RDMAP_VERSION << 6 | WRITE]);
    (len << 112 | u128::from(control) << 96 | u128::from(stag.0) << 64 | u128::from(to)).to_be_bytes()
}

/// The length field of a frame and the header of a part of a Send of `n` octets.
pub fn send_front(msn: u32, mo: u32, n: usize, last: bool) -> [u8; 2 + UNTAGGED_HEADER] {
    let mut front = [0; 2 + UNTAGGED_HEADER];
    front[..2].copy_from_slice(&((UNTAGGED_HEADER + n) as u16).to_be_bytes());
    front[2] = first_octet(false, last);
    front[3] = RDMAP_VERSION << 6 | SEND;
    front[12..16].copy_from_slice(&msn.to_be_bytes());
    front[16..].copy_from_slice(&mo.to_be_bytes());
    front
}
