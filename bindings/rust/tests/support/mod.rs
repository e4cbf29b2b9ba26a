//! Two ends of a connection that write, send and read, and sockets that take a part.
#![allow(dead_code)] // each test uses a part of it

use iwarp::{
    Connection, Error, Event, Handle, Intake, Options, Outgoing, ReadRequest, Rights, Role, SendOptions, Stag, State,
};
use std::io::{self, ErrorKind, Read, Write};

/// Makes a call that may be refused once for want of memory.
pub fn again<T>(mut call: impl FnMut() -> iwarp::Result<T>) -> iwarp::Result<T> {
    match call() {
        Err(Error::NoMemory) => call(),
        made => made,
    }
}

/// A turn that was refused for want of memory: nothing is lost, and it is made later.
fn or_later<T>(made: io::Result<T>, otherwise: T) -> io::Result<T> {
    match made {
        Err(error) if error.kind() == ErrorKind::OutOfMemory => Ok(otherwise),
        made => made,
    }
}

/// Chance.
#[derive(Clone)]
pub struct Chance(u64);

impl Chance {
    pub fn new(seed: u64) -> Self {
        Self(0x9e37_79b9_7f4a_7c15_u64.wrapping_mul(seed + 1) | 1)
    }

    /// A number below `n`.
    pub fn below(&mut self, n: usize) -> usize {
        self.0 ^= self.0 << 13;
        self.0 ^= self.0 >> 7;
        self.0 ^= self.0 << 17;
        (self.0 >> 16) as usize % n
    }

    pub fn octets(&mut self, n: usize) -> Vec<u8> {
        (0..n).map(|_| self.below(256) as u8).collect()
    }
}

/// A socket that takes and gives 1 to 100 octets at a time, or would block, or is interrupted.
pub struct Choppy<S> {
    pub socket: S,
    chance: Chance,
}

impl<S> Choppy<S> {
    pub fn new(socket: S, seed: u64) -> Self {
        Self { socket, chance: Chance::new(seed) }
    }

    /// How many octets of so many a call takes.
    fn part(&mut self, n: usize) -> io::Result<usize> {
        match self.chance.below(12) {
            0 => Err(ErrorKind::WouldBlock.into()),
            1 => Err(ErrorKind::Interrupted.into()),
            _ => Ok(n.min(1 + self.chance.below(100))),
        }
    }
}

impl<S: Read> Read for Choppy<S> {
    fn read(&mut self, to: &mut [u8]) -> io::Result<usize> {
        assert!(!to.is_empty()); // a read of no octets looks like the end of input
        let n = self.part(to.len())?;
        self.socket.read(&mut to[..n])
    }
}

impl<S: Write> Write for Choppy<S> {
    fn write(&mut self, from: &[u8]) -> io::Result<usize> {
        assert!(!from.is_empty());
        let n = self.part(from.len())?;
        self.socket.write(&from[..n])
    }

    fn flush(&mut self) -> io::Result<()> {
        self.socket.flush()
    }
}

pub const ROUNDS: usize = 8;
pub const LONGEST: usize = 1500;
pub const REGION: usize = ROUNDS * LONGEST;
/// How many messages an end posts: a Write, a Send and a Read in each round.
const ALL: u64 = 3 * ROUNDS as u64;
const MOST_PASSES: usize = 1_000_000;

/// One end: what it posts in each round, and what came.
pub struct End<S> {
    pub handle: Handle,
    pub connection: Connection<S>,
    pub region: Stag,
    pub sink: Stag,
    pub written: Vec<u8>,
    pub sent: Vec<Vec<u8>>,
    pub received: Vec<Vec<u8>>,
    pub opened: bool,
    pub posted: u64,
    pub done: u64,
}

impl<S: Read + Write> End<S> {
    pub fn new(socket: S, role: Role, options: Options, chance: &mut Chance) -> io::Result<Self> {
        let mut handle = again(Handle::new)?;
        let domain = again(|| handle.add_domain(1))?;
        let region = again(|| handle.register(domain, 0, &[0; REGION], Rights::WRITE | Rights::READ))?;
        let sink = again(|| handle.register(domain, 0, &[0; REGION], Rights::SINK))?;
        let stream = again(|| handle.open_next(domain, role, options, b""))?;
        handle.set_mulpdu(stream, 128 + chance.below(1500) as u32)?;
        for _ in 0..ROUNDS {
            again(|| handle.post_recv(stream, LONGEST))?;
        }
        let sent = (0..ROUNDS).map(|_| chance.below(LONGEST)).collect::<Vec<_>>();
        Ok(Self {
            handle,
            connection: Connection::new(stream, socket),
            region,
            sink,
            written: chance.octets(REGION),
            sent: sent.into_iter().map(|n| chance.octets(n)).collect(),
            received: Vec::new(),
            opened: role == Role::Preset,
            posted: 0,
            done: 0,
        })
    }

    /// Posts the next message: a Write, a Send, or a Read of what was written. `other` is the region of the other end.
    fn post(&mut self, other: Stag) -> io::Result<()> {
        let (stream, round) = (self.connection.stream(), self.posted as usize / 3);
        let at = (round * LONGEST) as u64;
        let part = &self.written[round * LONGEST..][..LONGEST];
        match self.posted % 3 {
            0 => self.handle.post_write(stream, other, at, part, self.posted)?,
            1 => self.handle.post_send(stream, &self.sent[round], SendOptions::default(), self.posted)?,
            _ => {
                let read =
                    ReadRequest { sink: self.sink, sink_to: at, size: LONGEST as u32, source: other, source_to: at };
                self.handle.post_read(stream, read, self.posted)?;
            }
        }
        self.posted += 1;
        Ok(())
    }

    fn act(&mut self) -> io::Result<()> {
        let stream = self.connection.stream();
        while let Some(event) = self.connection.next_event(&mut self.handle)? {
            match event {
                Event::Asked => {
                    again(|| self.handle.accept(stream, b"welcome"))?;
                    self.opened = true;
                }
                Event::Opened { .. } => self.opened = true,
                Event::Done { token, .. } => {
                    assert_eq!(token, self.done);
                    self.done += 1;
                }
                Event::Received { len, .. } => {
                    self.received.push(again(|| self.handle.fetch_vec(stream))?);
                    assert_eq!(self.received.last().map(Vec::len), Some(len as usize));
                }
                event => panic!("{event:?}"),
            }
        }
        Ok(())
    }

    /// One read and one write.
    pub fn pass(&mut self, other: Stag) -> io::Result<()> {
        if self.opened && self.posted < ALL {
            or_later(self.post(other), ())?;
        }
        match or_later(self.connection.read_once(&mut self.handle), Intake::Blocked)? {
            Intake::Came(_) | Intake::Blocked => or_later(self.act(), ())?,
            intake => panic!("{intake:?}"),
        }
        let outgoing = or_later(self.connection.write_once(&mut self.handle), Outgoing::Left)?;
        assert_ne!(outgoing, Outgoing::Ended);
        or_later(self.act(), ())
    }

    pub fn is_settled(&self) -> bool {
        self.done == ALL && self.received.len() == ROUNDS && self.connection.unwritten() == 0
    }
}

/// What each end posted has arrived at the other, and no octet is left anywhere.
fn arrived<S: Read + Write>(from: &mut End<S>, to: &mut End<S>) -> io::Result<()> {
    assert_eq!(to.received, from.sent);
    assert_eq!(to.handle.region(to.region)?, &from.written[..]);
    assert_eq!(from.handle.region(from.sink)?, &from.written[..]);
    let sent = from.handle.progress(from.connection.stream())?.sent;
    assert_eq!(to.handle.progress(to.connection.stream())?.in_order, sent);
    Ok(())
}

/// Has two ends exchange all that they post. The sockets do not block.
pub fn exchange<S: Read + Write>(sockets: [S; 2], options: Options, seed: u64) -> io::Result<()> {
    let mut chance = Chance::new(seed);
    let [first, second] = sockets;
    // Only an initiator asks for the peer-to-peer model.
    let others = Options::from_bits(options.bits() & !Options::PEER_TO_PEER.bits());
    let mut asking = End::new(first, Role::Initiator, options, &mut chance)?;
    let mut asked = End::new(second, Role::Responder, others, &mut chance)?;
    let mut passes = 0;
    while !asking.is_settled() || !asked.is_settled() {
        assert!(passes < MOST_PASSES, "options {options:?}, seed {seed}");
        passes += 1;
        let (here, there) = (asking.region, asked.region);
        asking.pass(there)?;
        asked.pass(here)?;
    }
    arrived(&mut asking, &mut asked)?;
    arrived(&mut asked, &mut asking)?;
    assert_eq!(asking.handle.private_data(asking.connection.stream())?, b"welcome");
    close(asking)?;
    sees_the_end(&mut asked)?;
    close(asked)
}

/// Finishes a connection: the stream is gone.
fn close<S: Read + Write>(mut end: End<S>) -> io::Result<()> {
    let stream = end.connection.stream();
    assert_eq!(end.handle.state(stream)?, State::Open);
    drop(end.connection.finish(&mut end.handle)?);
    assert_eq!(end.handle.close(stream), Err(iwarp::Error::NoSuchStream));
    Ok(())
}

fn sees_the_end<S: Read + Write>(end: &mut End<S>) -> io::Result<()> {
    for _ in 0..MOST_PASSES {
        if end.connection.read_once(&mut end.handle)? == Intake::End {
            return Ok(());
        }
    }
    panic!("the other end closed, and the end of input does not come")
}

/// Each options that start-up frames may ask for.
pub fn all_options() -> Vec<Options> {
    let mut all: Vec<Options> = (0..8).map(Options::from_bits).collect();
    all.extend([12, 15].map(Options::from_bits));
    all
}
