//! Sets of the header's bits.
use crate::raw;
use std::ops::{BitOr, BitOrAssign};

macro_rules! bits {
    ($($(#[$about:meta])* $set:ident { $($(#[$what:meta])* $name:ident = $value:ident,)* })*) => {
        $(
            $(#[$about])*
            #[derive(Clone, Copy, Debug, Default, PartialEq, Eq, Hash)]
            pub struct $set(u32);

            impl $set {
                /// None of them.
                pub const NONE: Self = Self(0);
                $(
                    $(#[$what])*
                    pub const $name: Self = Self(raw::$value);
                )*

                /// Whether all of the others are in this set.
                pub const fn contains(self, others: Self) -> bool {
                    self.0 & others.0 == others.0
                }

                /// The sum by which `iwarp.h` has the set.
                pub const fn bits(self) -> u32 {
                    self.0
                }

                /// The set of a sum. A bit that `iwarp.h` does not name is refused by the calls that the set is given to
                /// ([`Error::BadBits`](crate::Error::BadBits)).
                pub const fn from_bits(bits: u32) -> Self {
                    Self(bits)
                }
            }

            impl BitOr for $set {
                type Output = Self;

                fn bitor(self, others: Self) -> Self {
                    Self(self.0 | others.0)
                }
            }

            impl BitOrAssign for $set {
                fn bitor_assign(&mut self, others: Self) {
                    self.0 |= others.0;
                }
            }
        )*
    };
}

bits! {
    /// What a region may be used for.
    Rights {
        /// A peer's Writes are placed in it.
        WRITE = IWARP_WRITE,
        /// A peer's Reads are answered from it.
        READ = IWARP_READ,
        /// This end's Reads are placed in it.
        SINK = IWARP_SINK,
        /// A peer may invalidate it, by a Send with Invalidate.
        INVALIDATE = IWARP_INVALIDATE,
    }

    /// What an end asks for when a stream is opened.
    Options {
        /// The peer is to put markers into what it sends (RFC 5044 4.3).
        MARKERS = IWARP_MARKERS,
        /// CRCs are to be used, in both directions (RFC 5044 4.4).
        CRC = IWARP_CRC,
        /// Revision 2 of MPA (RFC 6581), whose start-up frames tell how many Reads each end takes.
        ENHANCED = IWARP_ENHANCED,
        /// The peer-to-peer model (RFC 6581 9.2): of an initiator, with [`Options::ENHANCED`].
        PEER_TO_PEER = IWARP_PEER_TO_PEER,
    }

    /// What both ends agree on in their start-up frames.
    Agreed {
        /// This end puts markers into what it sends.
        SENDS_MARKERS = IWARP_SENDS_MARKERS,
        /// The peer does.
        EXPECTS_MARKERS = IWARP_EXPECTS_MARKERS,
        /// CRCs are used, in both directions.
        USES_CRC = IWARP_USES_CRC,
        /// This end first sends an RTR, a Write of no octets.
        RTR_WRITE = IWARP_RTR_WRITE,
        /// This end first sends an RTR, a Read of no octets.
        RTR_READ = IWARP_RTR_READ,
    }
}
