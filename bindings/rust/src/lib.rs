#![doc = include_str!("../README.md")]
#![warn(missing_docs)]

mod bits;
mod buffer;
mod connection;
mod delivery;
mod emission;
mod error;
mod event;
mod fault;
mod handle;
mod kept;
mod names;
mod posting;
pub mod raw;
mod regions;
mod streams;
mod told;

pub use bits::{Agreed, Options, Rights};
pub use buffer::Buffer;
pub use connection::{Connection, Intake, Interest, Outgoing, Turn, MOST_READ, MOST_WRITTEN};
pub use delivery::{Received, Room};
pub use error::{Error, Refused, Result};
pub use event::{Emission, Event, FillStop, Filling, Message};
pub use fault::{Fault, StartupFault};
pub use handle::{version, Handle};
pub use names::{Domain, Stag, Stream};
pub use told::{Delivery, Enhanced, Facts, Progress, ReadRequest, Registration, Role, Scope, SendOptions, State, Told};
