//! A peer that sends what it may not: its stream ends, the fault is told, and nothing outside its buffers has changed.
mod support;

use iwarp::{
    Connection, Event, Fault, Handle, Intake, Options, Outgoing, ReadRequest, Rights, Role, Stag, StartupFault, State,
    Stream, Turn,
};
use std::io::{self, Read, Write};
use std::net::Shutdown;
use std::os::unix::net::UnixStream;
use support::{Chance, End};

const REQUEST: &[u8] = b"MPA ID Req Frame\x00\x01\x00\x00";
const REPLY: usize = 20;

/// A frame of MPA without markers: its length, the ULPDU, a pad, and a CRC that is not used.
fn framed(ulpdu: &[u8]) -> Vec<u8> {
    let mut frame = (ulpdu.len() as u16).to_be_bytes().to_vec();
    frame.extend_from_slice(ulpdu);
    frame.resize(frame.len().next_multiple_of(4), 0);
    frame.extend_from_slice(&[0; 4]);
    frame
}

/// The frame of a Write, whole in one segment. The first two octets are those of the header.
fn write_with(header: [u8; 2], stag: u32, to: u64, octets: &[u8]) -> Vec<u8> {
    framed(&[&header[..], &stag.to_be_bytes(), &to.to_be_bytes(), octets].concat())
}

fn write(stag: u32, to: u64, octets: &[u8]) -> Vec<u8> {
    write_with([0xc1, 0x40], stag, to, octets)
}

/// The frame of a Send, whole in one segment.
fn send(msn: u32, octets: &[u8]) -> Vec<u8> {
    let numbers = [0, 0, msn, 0].map(u32::to_be_bytes).concat();
    framed(&[&[0x41, 0x43], &numbers[..], octets].concat())
}

/// The frame of a Read, of `size` octets at the front of a region.
fn read(source: u32, size: u32) -> Vec<u8> {
    let numbers = [0, 1, 1, 0, 1, 0, 0, size, source, 0, 0].map(u32::to_be_bytes).concat();
    framed(&[&[0x41, 0x41], &numbers[..]].concat())
}

/// An end with three regions of 64 octets, all of them 9: one that its peer may write, one that it may not, and one that is limited to
/// another stream; one that is gone; and a receive buffer of 16 octets.
struct Target {
    end: Handle,
    stream: Stream,
    open: Stag,
    read_only: Stag,
    others: Stag,
    gone: Stag,
}

impl Target {
    fn new() -> io::Result<Self> {
        let mut end = Handle::new()?;
        let domain = end.add_domain(1)?;
        let stream = end.open_next(domain, Role::Responder, Options::NONE, b"")?;
        let other = end.open_next(domain, Role::Responder, Options::NONE, b"")?;
        let open = end.register(domain, 0, &[9; 64], Rights::WRITE)?;
        let read_only = end.register(domain, 0, &[9; 64], Rights::READ)?;
        let others = end.register_for(other, 0, &[9; 64], Rights::WRITE)?;
        let gone = end.register(domain, 0, &[9; 64], Rights::WRITE)?;
        end.drop_region(gone)?;
        end.post_recv(stream, 16)?;
        Ok(Self { end, stream, open, read_only, others, gone })
    }

    /// Serves a peer until it closes. Returns the fault that ended the stream, if one did.
    fn serve(&mut self, socket: UnixStream) -> io::Result<Option<Fault>> {
        let mut connection = Connection::new(self.stream, socket);
        let (mut fault, mut ended) = (None, false);
        loop {
            match connection.turn(&mut self.end)? {
                Turn::Event(Event::Asked) => drop(self.end.accept(self.stream, b"")?),
                Turn::Event(Event::Fault(told)) => fault = Some(told),
                Turn::Event(Event::FlushedReceive { len }) => assert_eq!(len, 16),
                Turn::Event(Event::Received { .. }) | Turn::Came(_) => {}
                Turn::Ended => {
                    ended = true;
                    connection.socket().shutdown(Shutdown::Write)?;
                }
                Turn::Closed => break,
                turn => panic!("{turn:?}"),
            }
        }
        assert_eq!(fault.is_some(), ended);
        connection.finish(&mut self.end)?;
        Ok(fault)
    }
}

/// Has a peer send a Write that is right, and what is hostile behind it. Returns what it gets back behind the Reply, and the fault.
fn attack(target: &mut Target, hostile: &[u8]) -> io::Result<(Vec<u8>, Option<Fault>)> {
    let (mut peer, socket) = UnixStream::pair()?;
    peer.write_all(&[REQUEST, &write(target.open.number(), 3, b"mine"), hostile].concat())?;
    peer.shutdown(Shutdown::Write)?;
    let fault = target.serve(socket)?;
    let mut answer = Vec::new();
    peer.read_to_end(&mut answer)?;
    assert_eq!(&answer[..16], b"MPA ID Rep Frame");
    Ok((answer.split_off(REPLY), fault))
}

/// No octet has changed but those of the Write that was right.
fn is_whole(target: &mut Target) -> io::Result<()> {
    let mut expected = [9; 64];
    assert_eq!(target.end.region(target.read_only)?, expected);
    assert_eq!(target.end.region(target.others)?, expected);
    expected[3..7].copy_from_slice(b"mine");
    assert_eq!(target.end.region(target.open)?, expected);
    Ok(())
}

#[test]
fn a_hostile_frame_ends_the_stream_with_its_fault() -> io::Result<()> {
    type Hostile = fn(&Target) -> Vec<u8>;
    let cases: [(Hostile, Fault); 11] = [
        (|target| write(target.gone.number(), 0, b"evil"), Fault::TAGGED_INVALID_STAG),
        (|target| write(target.open.number(), 61, b"evil"), Fault::TAGGED_BOUNDS),
        (|target| write(target.others.number(), 0, b"evil"), Fault::TAGGED_NOT_ASSOCIATED),
        (|target| write(target.read_only.number(), 0, b"evil"), Fault::PROTECTION_RIGHTS),
        (|target| write_with([0xc2, 0x40], target.open.number(), 0, b"evil"), Fault::TAGGED_VERSION),
        (|target| write_with([0xc1, 0x80], target.open.number(), 0, b"evil"), Fault::OPERATION_VERSION),
        (|target| write_with([0xc1, 0x4f], target.open.number(), 0, b"evil"), Fault::OPERATION_UNEXPECTED),
        (|_| send(2, b"out of its turn"), Fault::UNTAGGED_NO_BUFFER),
        (|_| send(1, b"it is too long for it"), Fault::UNTAGGED_TOO_LONG),
        (|target| read(target.open.number(), 4), Fault::PROTECTION_RIGHTS),
        (|target| read(target.others.number(), 4), Fault::PROTECTION_NOT_ASSOCIATED),
    ];
    for (hostile, fault) in cases {
        let mut target = Target::new()?;
        let octets = hostile(&target);
        let (answer, told) = attack(&mut target, &octets)?;
        assert_eq!(told, Some(fault), "{fault}");
        is_whole(&mut target)?;
        // The peer is told too: by one Terminate, in queue 2 (RFC 5040 4.8).
        assert_eq!(answer[2..12], [0x41, 0x47, 0, 0, 0, 0, 0, 0, 0, 2], "{fault}");
        let numbers = [(fault.layer << 4 | fault.error) as u8, fault.code as u8];
        assert_eq!(answer[20..22], numbers, "{fault}");
    }
    Ok(())
}

#[test]
fn what_is_right_is_no_fault() -> io::Result<()> {
    let mut target = Target::new()?;
    assert_eq!(attack(&mut target, &send(1, b"it has a buffer"))?.1, None);
    is_whole(&mut target)
}

/// Whatever comes behind the first Write, a frame at random or a right one with an octet changed: no call panics, and no other region
/// changes.
#[test]
fn octets_at_random_change_no_other_region() -> io::Result<()> {
    let mut chance = Chance::new(5);
    for _ in 0..300 {
        let mut target = Target::new()?;
        let mut octets = write(target.open.number(), chance.below(80) as u64, b"mine");
        if chance.below(2) == 0 {
            let n = chance.below(40);
            octets = framed(&chance.octets(n));
        }
        let at = chance.below(octets.len());
        octets[at] = chance.below(256) as u8;
        attack(&mut target, &octets)?;
        assert_eq!(target.end.region(target.read_only)?, [9; 64]);
        assert_eq!(target.end.region(target.others)?, [9; 64]);
    }
    Ok(())
}

/// A peer that goes on after its fault: so much is told, and dropped, so that it can be given up.
#[test]
fn what_comes_after_a_fault_is_told_and_dropped() -> io::Result<()> {
    let mut target = Target::new()?;
    let (mut peer, socket) = UnixStream::pair()?;
    let mut connection = Connection::new(target.stream, socket);
    peer.write_all(REQUEST)?;
    assert_eq!(connection.turn(&mut target.end)?, Turn::Event(Event::Asked));
    target.end.accept(target.stream, b"")?;
    peer.write_all(&write(target.others.number(), 0, b"evil"))?;
    while connection.turn(&mut target.end)? != Turn::Ended {}
    for _ in 0..3 {
        peer.write_all(&write(target.open.number(), 3, b"evil"))?;
        assert!(matches!(connection.turn(&mut target.end)?, Turn::Came(_)));
    }
    assert_eq!(target.end.region(target.open)?, [9; 64]);
    connection.finish(&mut target.end)?;
    Ok(())
}

#[test]
fn a_wrong_crc_is_told() -> io::Result<()> {
    let mut end = Handle::new()?;
    let domain = end.add_domain(1)?;
    let stream = end.open_next(domain, Role::Preset, Options::CRC, b"")?;
    let stag = end.register(domain, 0, &[9; 64], Rights::WRITE)?;
    let (mut peer, socket) = UnixStream::pair()?;
    peer.write_all(&write(stag.number(), 0, b"evil"))?;
    let mut connection = Connection::new(stream, socket);
    assert_eq!(connection.turn(&mut end)?, Turn::Event(Event::Fault(Fault::MPA_CRC_MISMATCH)));
    assert_eq!(end.region(stag)?, [9; 64]);
    Ok(())
}

#[test]
fn a_start_up_frame_at_fault_is_told() -> io::Result<()> {
    for (frame, fault) in [
        (&b"MPA ID Rep Frame\x00\x01\x00\x00"[..], StartupFault::BadKey),
        (b"MPA ID Req Frame\x00\x05\x00\x00", StartupFault::BadRevision),
        (b"MPA ID Req Frame\x00\x01\x02\x01", StartupFault::BadLength),
    ] {
        let mut target = Target::new()?;
        let (mut peer, socket) = UnixStream::pair()?;
        peer.write_all(frame)?;
        let mut connection = Connection::new(target.stream, socket);
        assert_eq!(connection.turn(&mut target.end)?, Turn::Event(Event::ClosedByPeer(fault)));
        assert_eq!(target.end.state(target.stream)?, State::Ended);
    }
    Ok(())
}

#[test]
fn a_rejection_is_told_with_its_private_data() -> io::Result<()> {
    let (here, there) = UnixStream::pair()?;
    let mut target = Target::new()?;
    let mut asked = Connection::new(target.stream, there);
    let mut end = Handle::new()?;
    let domain = end.add_domain(1)?;
    let stream = end.open_next(domain, Role::Initiator, Options::NONE, b"please")?;
    let mut asking = Connection::new(stream, here);
    assert_eq!(asking.write_all(&mut end)?, Outgoing::All);
    assert_eq!(asked.turn(&mut target.end)?, Turn::Event(Event::Asked));
    assert_eq!(target.end.private_data(target.stream)?, b"please");
    target.end.reject(target.stream, b"no")?;
    assert_eq!(asked.write_all(&mut target.end)?, Outgoing::Ended);
    assert_eq!(asking.turn(&mut end)?, Turn::Event(Event::ClosedByPeer(StartupFault::Rejected)));
    assert_eq!(end.private_data(stream)?, b"no");
    Ok(())
}

/// Nothing is read behind a Request that is not answered, however often it is tried; once it is, the rest is.
#[test]
fn an_unanswered_request_stops_the_reading() -> io::Result<()> {
    let mut target = Target::new()?;
    let (mut peer, socket) = UnixStream::pair()?;
    peer.write_all(REQUEST)?;
    let mut connection = Connection::new(target.stream, socket);
    assert_eq!(connection.turn(&mut target.end)?, Turn::Event(Event::Asked));
    peer.write_all(&write(target.open.number(), 3, b"mine"))?;
    for _ in 0..1000 {
        assert_eq!(connection.read_once(&mut target.end)?, Intake::Unanswered);
    }
    assert_eq!(connection.turn(&mut target.end).map_err(|error| error.kind()), Err(io::ErrorKind::InvalidInput));
    target.end.accept(target.stream, b"")?;
    peer.shutdown(Shutdown::Write)?;
    // Once it is answered, the Write behind it is placed.
    assert!(matches!(connection.turn(&mut target.end)?, Turn::Came(_)));
    assert_eq!(connection.turn(&mut target.end)?, Turn::Closed);
    connection.finish(&mut target.end)?;
    is_whole(&mut target)
}

/// A region is made invalid when its answer is already due: the fault is told, the Terminate is written, and the reader is told.
#[test]
fn a_read_that_is_denied_ends_the_stream() -> io::Result<()> {
    let (here, there) = UnixStream::pair()?;
    there.set_nonblocking(true)?;
    let mut chance = Chance::new(1);
    let mut reader = End::new(here, Role::Preset, Options::NONE, &mut chance)?;
    let mut denier = End::new(there, Role::Preset, Options::NONE, &mut chance)?;
    let (from, to) = (reader.connection.stream(), denier.connection.stream());
    let read = ReadRequest { sink: reader.sink, sink_to: 0, size: 8, source: denier.region, source_to: 0 };
    reader.handle.post_read(from, read, 1)?;
    assert_eq!(reader.connection.write_all(&mut reader.handle)?, Outgoing::All);
    while !denier.handle.wants_write(to)? {
        let _ = denier.connection.read_once(&mut denier.handle)?;
        assert_eq!(denier.connection.next_event(&mut denier.handle)?, None);
    }
    denier.handle.invalidate(denier.region)?;
    let fault = Fault::PROTECTION_INVALID_STAG;
    assert_eq!(denier.connection.turn(&mut denier.handle)?, Turn::Event(Event::Fault(fault)));
    assert_eq!(denier.connection.unwritten(), 0);
    for _ in 0..support::ROUNDS {
        let turn = denier.connection.turn(&mut denier.handle)?;
        assert_eq!(turn, Turn::Event(Event::FlushedReceive { len: support::LONGEST as u64 }));
    }
    assert_eq!(denier.connection.turn(&mut denier.handle)?, Turn::Ended);
    assert_eq!(reader.connection.turn(&mut reader.handle)?, Turn::Event(Event::Terminated(fault)));
    assert_eq!(reader.handle.region(reader.sink)?[..8], [0; 8]);
    Ok(())
}

/// A reader that says that it read more than it was given room for is refused, and nothing has come.
#[test]
fn a_reader_that_lies_is_refused() -> io::Result<()> {
    struct Liar;
    impl Read for Liar {
        fn read(&mut self, to: &mut [u8]) -> io::Result<usize> {
            Ok(to.len() + 1)
        }
    }
    let mut end = Handle::new()?;
    let domain = end.add_domain(1)?;
    let stream = end.open_next(domain, Role::Preset, Options::NONE, b"")?;
    let error = end.room(stream, 100)?.read_from(&mut Liar).unwrap_err();
    assert_eq!(error.get_ref().and_then(|inner| inner.downcast_ref()), Some(&iwarp::Error::NotLent));
    assert_eq!(end.work(stream)?, Event::Idle);
    Ok(())
}
