//! Why a stream ended.
use crate::error::text;
use crate::raw;
use std::fmt;

macro_rules! faults {
    ($($(#[$about:meta])* $name:ident = $layer:ident, $error:ident, $code:ident;)*) => {
        impl Fault {
            $(
                $(#[$about])*
                pub const $name: Self = Self { layer: raw::$layer, error: raw::$error, code: raw::$code };
            )*
        }

        #[cfg(test)]
        const ALL: &[Fault] = &[$(Fault::$name),*];
    };
}

/// A fault by which a stream ended: the three numbers of a Terminate (RFC 5040 4.8). `Display` prints the library's text, with the
/// names of the RFCs.
///
/// ```
/// assert_eq!(iwarp::Fault::TAGGED_BOUNDS.to_string(), "DDP: Tagged Buffer Error: Base or bounds violation");
/// ```
#[derive(Clone, Copy, Debug, PartialEq, Eq, Hash)]
pub struct Fault {
    /// The layer: 0 for RDMAP, 1 for DDP, 2 for MPA.
    pub layer: u32,
    /// The error type, of that layer.
    pub error: u32,
    /// The error code, of that type.
    pub code: u32,
}

faults! {
    /// RDMAP, remote protection: the STag names no region that is valid (RFC 5040 4.8).
    PROTECTION_INVALID_STAG = IWARP_LAYER_RDMAP, IWARP_RDMAP_PROTECTION, IWARP_RDMAP_INVALID_STAG;
    /// RDMAP, remote protection: not all the octets lie in the region.
    PROTECTION_BOUNDS = IWARP_LAYER_RDMAP, IWARP_RDMAP_PROTECTION, IWARP_RDMAP_BOUNDS;
    /// RDMAP, remote protection: the region does not have the right.
    PROTECTION_RIGHTS = IWARP_LAYER_RDMAP, IWARP_RDMAP_PROTECTION, IWARP_RDMAP_RIGHTS;
    /// RDMAP, remote protection: the region is of another domain, or of another stream.
    PROTECTION_NOT_ASSOCIATED = IWARP_LAYER_RDMAP, IWARP_RDMAP_PROTECTION, IWARP_RDMAP_NOT_ASSOCIATED;
    /// RDMAP, remote protection: tagged offsets wrap.
    PROTECTION_TO_WRAP = IWARP_LAYER_RDMAP, IWARP_RDMAP_PROTECTION, IWARP_RDMAP_TO_WRAP;
    /// RDMAP, remote protection: the region cannot be invalidated.
    PROTECTION_CANNOT_INVALIDATE = IWARP_LAYER_RDMAP, IWARP_RDMAP_PROTECTION, IWARP_RDMAP_CANNOT_INVALIDATE;
    /// RDMAP, remote operation: the version is not known.
    OPERATION_VERSION = IWARP_LAYER_RDMAP, IWARP_RDMAP_OPERATION, IWARP_RDMAP_VERSION;
    /// RDMAP, remote operation: an opcode that may not come.
    OPERATION_UNEXPECTED = IWARP_LAYER_RDMAP, IWARP_RDMAP_OPERATION, IWARP_RDMAP_UNEXPECTED;
    /// RDMAP, remote operation: the STag of a Send cannot be invalidated.
    OPERATION_CANNOT_INVALIDATE = IWARP_LAYER_RDMAP, IWARP_RDMAP_OPERATION, IWARP_RDMAP_CANNOT_INVALIDATE;
    /// DDP, tagged buffer: the STag names no region that is valid (RFC 5041 8.2).
    TAGGED_INVALID_STAG = IWARP_LAYER_DDP, IWARP_DDP_TAGGED, IWARP_TAGGED_INVALID_STAG;
    /// DDP, tagged buffer: not all the octets lie in the region.
    TAGGED_BOUNDS = IWARP_LAYER_DDP, IWARP_DDP_TAGGED, IWARP_TAGGED_BOUNDS;
    /// DDP, tagged buffer: the region is of another domain, or of another stream.
    TAGGED_NOT_ASSOCIATED = IWARP_LAYER_DDP, IWARP_DDP_TAGGED, IWARP_TAGGED_NOT_ASSOCIATED;
    /// DDP, tagged buffer: tagged offsets wrap.
    TAGGED_TO_WRAP = IWARP_LAYER_DDP, IWARP_DDP_TAGGED, IWARP_TAGGED_TO_WRAP;
    /// DDP, tagged buffer: the version is not known.
    TAGGED_VERSION = IWARP_LAYER_DDP, IWARP_DDP_TAGGED, IWARP_TAGGED_VERSION;
    /// DDP, untagged buffer: no queue has the number.
    UNTAGGED_INVALID_QN = IWARP_LAYER_DDP, IWARP_DDP_UNTAGGED, IWARP_UNTAGGED_INVALID_QN;
    /// DDP, untagged buffer: no buffer is posted for the message.
    UNTAGGED_NO_BUFFER = IWARP_LAYER_DDP, IWARP_DDP_UNTAGGED, IWARP_UNTAGGED_NO_BUFFER;
    /// DDP, untagged buffer: the message sequence number is out of range.
    UNTAGGED_MSN_RANGE = IWARP_LAYER_DDP, IWARP_DDP_UNTAGGED, IWARP_UNTAGGED_MSN_RANGE;
    /// DDP, untagged buffer: the message offset lies outside the buffer.
    UNTAGGED_INVALID_MO = IWARP_LAYER_DDP, IWARP_DDP_UNTAGGED, IWARP_UNTAGGED_INVALID_MO;
    /// DDP, untagged buffer: the message is too long for the buffer.
    UNTAGGED_TOO_LONG = IWARP_LAYER_DDP, IWARP_DDP_UNTAGGED, IWARP_UNTAGGED_TOO_LONG;
    /// DDP, untagged buffer: the version is not known.
    UNTAGGED_VERSION = IWARP_LAYER_DDP, IWARP_DDP_UNTAGGED, IWARP_UNTAGGED_VERSION;
    /// MPA: a CRC does not match (RFC 5044 8).
    MPA_CRC_MISMATCH = IWARP_LAYER_MPA, IWARP_MPA_ERROR, IWARP_MPA_CRC_MISMATCH;
    /// MPA: a marker and a length do not agree on where a frame begins.
    MPA_MARKER_MISMATCH = IWARP_LAYER_MPA, IWARP_MPA_ERROR, IWARP_MPA_MARKER_MISMATCH;
    /// MPA: a start-up frame is not right.
    MPA_INVALID_FRAME = IWARP_LAYER_MPA, IWARP_MPA_ERROR, IWARP_MPA_INVALID_FRAME;
    /// MPA: the peer takes fewer Reads than are wanted (RFC 6581 8).
    MPA_INSUFFICIENT_IRD = IWARP_LAYER_MPA, IWARP_MPA_ERROR, IWARP_MPA_INSUFFICIENT_IRD;
    /// MPA: the ends agree on no RTR (RFC 6581 8).
    MPA_NO_MATCHING_RTR = IWARP_LAYER_MPA, IWARP_MPA_ERROR, IWARP_MPA_NO_MATCHING_RTR;
}

impl fmt::Display for Fault {
    fn fmt(&self, f: &mut fmt::Formatter<'_>) -> fmt::Result {
        // SAFETY: the pointer that the library writes to is a local one.
        f.write_str(text(|text| unsafe { raw::iwarp_fault_text_at(self.layer, self.error, self.code, text) }))
    }
}

impl std::error::Error for Fault {}

/// What is wrong with the peer's start-up frame, which has ended the stream.
#[derive(Clone, Copy, Debug, PartialEq, Eq, Hash)]
#[non_exhaustive]
pub enum StartupFault {
    /// Its key is not that of MPA (RFC 5044 7.1).
    BadKey,
    /// Its revision of MPA is not one that this end takes.
    BadRevision,
    /// Its private data is longer than 512 octets.
    BadLength,
    /// The peer rejected the Request.
    Rejected,
    /// A number that this crate has no name for, of a later library.
    Other(u32),
}

impl StartupFault {
    pub(crate) const fn of(code: u32) -> Self {
        match code {
            raw::IWARP_BAD_KEY => Self::BadKey,
            raw::IWARP_BAD_REVISION => Self::BadRevision,
            raw::IWARP_BAD_LENGTH => Self::BadLength,
            raw::IWARP_REJECTED => Self::Rejected,
            code => Self::Other(code),
        }
    }
}

impl fmt::Display for StartupFault {
    fn fmt(&self, f: &mut fmt::Formatter<'_>) -> fmt::Result {
        match self {
            Self::BadKey => f.write_str("the peer's start-up frame has another key"),
            Self::BadRevision => f.write_str("the peer's start-up frame has another revision"),
            Self::BadLength => f.write_str("the peer's start-up frame is too long"),
            Self::Rejected => f.write_str("the peer rejected the Request"),
            Self::Other(code) => write!(f, "the peer's start-up frame ended the stream: {code}"),
        }
    }
}

impl std::error::Error for StartupFault {}

#[cfg(test)]
mod tests {
    use super::*;

    #[test]
    fn each_fault_has_a_text() {
        for fault in ALL {
            assert!(!fault.to_string().is_empty() && !fault.to_string().contains("unknown"), "{fault:?}");
        }
    }
}
