//! Why a call was refused.
use crate::raw;
use crate::Buffer;
use std::ffi::{c_char, CStr};
use std::{fmt, io, ptr};

macro_rules! errors {
    ($($(#[$about:meta])* $name:ident = $code:ident, $kind:ident;)*) => {
        /// Why a call did nothing. `Display` prints the library's own text.
        ///
        /// A call that is refused has changed nothing, unless its documentation says otherwise. A peer's mistake is never an error of
        /// a call: it ends that peer's stream, and an [`Event`](crate::Event) tells it.
        #[derive(Clone, Copy, Debug, PartialEq, Eq, Hash)]
        #[non_exhaustive]
        pub enum Error {
            $(
                $(#[$about])*
                $name,
            )*
            /// The room that was given is too short.
            NoRoom {
                /// How many octets are needed.
                needed: usize,
            },
            /// A reason that this crate has no name for: the code of a later library.
            Other(i32),
        }

        impl Error {
            /// The code by which `iwarp.h` has the reason.
            pub const fn code(self) -> i32 {
                match self {
                    $(Self::$name => raw::$code,)*
                    Self::NoRoom { .. } => raw::IWARP_NO_ROOM,
                    Self::Other(code) => code,
                }
            }

            /// The reason of a code other than `IWARP_OK` and `IWARP_NO_ROOM`.
            const fn of(code: i32) -> Self {
                match code {
                    $(raw::$code => Self::$name,)*
                    _ => Self::Other(code),
                }
            }

            /// The kind of the [`io::Error`] that the reason becomes.
            const fn kind(self) -> io::ErrorKind {
                match self {
                    $(Self::$name => io::ErrorKind::$kind,)*
                    Self::NoRoom { .. } => io::ErrorKind::InvalidInput,
                    Self::Other(_) => io::ErrorKind::Other,
                }
            }
        }

        #[cfg(test)]
        const ALL: &[Error] = &[$(Error::$name,)* Error::NoRoom { needed: 0 }];
    };
}

errors! {
    /// Out of memory. The call may be made again.
    NoMemory = IWARP_NO_MEMORY, OutOfMemory;
    /// No stream was opened under this number, or it was closed.
    NoSuchStream = IWARP_NO_SUCH_STREAM, NotFound;
    /// The STag names no region.
    NoRegion = IWARP_NO_REGION, NotFound;
    /// Not all the octets lie in the region.
    Outside = IWARP_OUTSIDE, InvalidInput;
    /// 0, or a number above 255, is not a domain's number.
    BadDomain = IWARP_BAD_DOMAIN, InvalidInput;
    /// The domain was added before.
    DomainTaken = IWARP_DOMAIN_TAKEN, AlreadyExists;
    /// The domain was not added.
    NoDomain = IWARP_NO_DOMAIN, NotFound;
    /// The domain has 1,024 regions.
    DomainFull = IWARP_DOMAIN_FULL, Other;
    /// A region of more than 16,777,216 octets.
    RegionTooLong = IWARP_REGION_TOO_LONG, InvalidInput;
    /// The region's base and its length come to more than 2^64.
    BaseWrap = IWARP_BASE_WRAP, InvalidInput;
    /// The stream's number was opened before.
    NumberTaken = IWARP_NUMBER_TAKEN, AlreadyExists;
    /// The number that was picked for a stream is above 63.
    BadNumber = IWARP_BAD_NUMBER, InvalidInput;
    /// The role has no meaning.
    BadRole = IWARP_BAD_ROLE, InvalidInput;
    /// More than 512 octets of private data; more than 508 in an enhanced start-up frame.
    PrivateTooLong = IWARP_PRIVATE_TOO_LONG, InvalidInput;
    /// No MPA Request is pending.
    NotAsked = IWARP_NOT_ASKED, InvalidInput;
    /// The stream is not open yet, or has ended.
    NotOpen = IWARP_NOT_OPEN, NotConnected;
    /// 256 messages are posted and not yet handed back.
    MessagesFull = IWARP_MESSAGES_FULL, Other;
    /// A message of more than 16,777,216 octets.
    MessageTooLong = IWARP_MESSAGE_TOO_LONG, InvalidInput;
    /// 256 receive buffers are posted.
    BuffersFull = IWARP_BUFFERS_FULL, Other;
    /// The stream has ended.
    Ended = IWARP_ENDED, NotConnected;
    /// A maximum ULPDU outside 128 to 64,512.
    BadSize = IWARP_BAD_SIZE, InvalidInput;
    /// The stream has taken in, or emitted, more than 2^62 octets.
    TooFar = IWARP_TOO_FAR, Other;
    /// Octets were delivered on the stream before.
    Late = IWARP_LATE, InvalidInput;
    /// The domain already has a pool.
    AlreadyShared = IWARP_ALREADY_SHARED, AlreadyExists;
    /// The domain has no pool.
    NotShared = IWARP_NOT_SHARED, NotFound;
    /// The pool has 1,024 buffers.
    PoolFull = IWARP_POOL_FULL, Other;
    /// The stream takes its receive buffers from its domain's pool.
    Shared = IWARP_SHARED, InvalidInput;
    /// A receive buffer of more than 16,777,216 octets.
    BufferTooLong = IWARP_BUFFER_TOO_LONG, InvalidInput;
    /// A bit without meaning; or [`Options::PEER_TO_PEER`](crate::Options::PEER_TO_PEER) of another role than an initiator, or without
    /// [`Options::ENHANCED`](crate::Options::ENHANCED).
    BadBits = IWARP_BAD_BITS, InvalidInput;
    /// The peer takes no Reads: its IRD is 0.
    NoReads = IWARP_NO_READS, Unsupported;
    /// The stream is open, or has something left to hand back or to emit.
    NotAtRest = IWARP_NOT_AT_REST, Other;
    /// All numbers of streams, up to 2^32 - 1, were given.
    NumbersSpent = IWARP_NUMBERS_SPENT, Other;
    /// The stream's window has no room before [`Handle::work`](crate::Handle::work) makes some.
    WindowFull = IWARP_WINDOW_FULL, Other;
    /// No place is lent for so many octets, or they are none.
    NotLent = IWARP_NOT_LENT, InvalidInput;
    /// The region's octets are in memory that the program keeps, or are not.
    OtherMemory = IWARP_OTHER_MEMORY, InvalidInput;
}

/// What the calls of this crate answer.
pub type Result<T, E = Error> = std::result::Result<T, E>;

impl fmt::Display for Error {
    fn fmt(&self, f: &mut fmt::Formatter<'_>) -> fmt::Result {
        // SAFETY: the pointer that the library writes to is a local one.
        f.write_str(text(|text| unsafe { raw::iwarp_text_at(self.code(), text) }))
    }
}

impl std::error::Error for Error {}

/// The error keeps this one inside: `get_ref` and `downcast_ref` give it back.
impl From<Error> for io::Error {
    fn from(error: Error) -> Self {
        io::Error::new(error.kind(), error)
    }
}

/// A text of the library, to which `tell` has the library point.
pub(crate) fn text(tell: impl FnOnce(*mut *const c_char)) -> &'static str {
    let mut at = ptr::null();
    tell(&mut at);
    if at.is_null() {
        return "";
    }
    // SAFETY: the library told a text, which ends with a 0 and is never freed.
    unsafe { CStr::from_ptr(at) }.to_str().unwrap_or("")
}

/// What a code says.
pub(crate) fn done(code: i32) -> Result<()> {
    match code {
        raw::IWARP_OK => Ok(()),
        code => Err(Error::of(code)),
    }
}

/// The same of a call that may find too little room, and tells how many octets are needed.
pub(crate) fn done_with_room(code: i32, needed: usize) -> Result<()> {
    match code {
        raw::IWARP_NO_ROOM => Err(Error::NoRoom { needed }),
        code => done(code),
    }
}

/// A call that takes a buffer, or a box of octets, was refused, and gives it back.
#[derive(Debug)]
pub struct Refused<T = Buffer> {
    /// Why.
    pub error: Error,
    /// The buffer, with its octets. It has none if [`Handle::post_send_buffer`](crate::Handle::post_send_buffer) or
    /// [`Handle::post_write_buffer`](crate::Handle::post_write_buffer) is refused with [`Error::NoMemory`] and there is no memory
    /// to move them back either: then [`Handle::fetch_sent`](crate::Handle::fetch_sent) moves them back.
    pub buffer: T,
}

impl<T> fmt::Display for Refused<T> {
    fn fmt(&self, f: &mut fmt::Formatter<'_>) -> fmt::Result {
        self.error.fmt(f)
    }
}

impl<T: fmt::Debug> std::error::Error for Refused<T> {
    fn source(&self) -> Option<&(dyn std::error::Error + 'static)> {
        Some(&self.error)
    }
}

/// The buffer is freed.
impl<T> From<Refused<T>> for Error {
    fn from(refused: Refused<T>) -> Self {
        refused.error
    }
}

/// The buffer is freed.
impl<T> From<Refused<T>> for io::Error {
    fn from(refused: Refused<T>) -> Self {
        refused.error.into()
    }
}

#[cfg(test)]
mod tests {
    use super::*;

    #[test]
    fn each_code_of_the_header_has_its_error() {
        let codes = raw::CONSTANTS.iter().skip_while(|(name, _)| *name != "IWARP_OK").skip(1);
        for (name, code) in codes.take_while(|(name, _)| *name != "IWARP_WRITE") {
            let error = ALL.iter().find(|error| i64::from(error.code()) == *code);
            // What these tell, the types of this crate rule out.
            let ruled_out = [
                "IWARP_IS_CLOSED",
                "IWARP_ALREADY_OPEN",
                "IWARP_BUFFER_MISSING",
                "IWARP_BUFFER_EXISTS",
                "IWARP_BAD_STRUCT",
            ];
            assert_eq!(error.is_none(), ruled_out.contains(name), "{name}");
        }
    }

    #[test]
    fn errors_print_the_texts_of_the_library() {
        assert_eq!(Error::NoSuchStream.to_string(), "no stream was opened under this number, or it was closed");
        assert_eq!(Error::Other(1000).to_string(), "no code has this number");
        for error in ALL {
            assert_ne!(error.to_string(), "no code has this number", "{error:?}");
        }
    }

    #[test]
    fn an_io_error_keeps_the_reason() {
        let error = io::Error::from(Error::NoMemory);
        assert_eq!(error.kind(), io::ErrorKind::OutOfMemory);
        assert_eq!(error.get_ref().and_then(|inner| inner.downcast_ref()), Some(&Error::NoMemory));
    }
}
