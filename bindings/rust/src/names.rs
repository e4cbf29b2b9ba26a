//! Numbers by which domains, streams and regions are named.
use std::fmt;

macro_rules! names {
    ($($(#[$about:meta])* $name:ident;)*) => {
        $(
            $(#[$about])*
            #[derive(Clone, Copy, Debug, PartialEq, Eq, PartialOrd, Ord, Hash)]
            pub struct $name(u32);

            impl $name {
                /// Names the one that has this number. Whether there is one is told by the calls that it is given to.
                pub const fn new(number: u32) -> Self {
                    Self(number)
                }

                /// Its number.
                pub const fn number(self) -> u32 {
                    self.0
                }
            }

            impl From<u32> for $name {
                fn from(number: u32) -> Self {
                    Self(number)
                }
            }

            impl From<$name> for u32 {
                fn from(name: $name) -> Self {
                    name.0
                }
            }

            impl fmt::Display for $name {
                fn fmt(&self, f: &mut fmt::Formatter<'_>) -> fmt::Result {
                    self.0.fmt(f)
                }
            }
        )*
    };
}

names! {
    /// A protection domain of a handle, 1 to 255 (RFC 5042 2.2.4). Streams reach only regions of their own domain.
    Domain;

    /// A stream of a handle, by its number: 0 to 63 if the program picks it, 64 to 2^32 - 1 if the library does. A number is given
    /// once: after the stream was closed, each call with it is refused.
    Stream;

    /// The steering tag of a region (RFC 5042 2.2.5): the number by which a peer names it.
    Stag;
}

impl Stag {
    /// The STag as it stands in a frame, and as peers usually tell it each other: highest octet first.
    pub const fn to_octets(self) -> [u8; 4] {
        self.0.to_be_bytes()
    }

    /// The STag that stands in these octets, highest octet first.
    pub const fn from_octets(octets: [u8; 4]) -> Self {
        Self(u32::from_be_bytes(octets))
    }
}
