//! Two ends over a socket pair.
mod support;

use iwarp::{Connection, Event, Handle, Intake, Interest, Options, Outgoing, Role, SendOptions, Turn};
use std::io;
use std::os::unix::net::UnixStream;
use support::{all_options, exchange, Choppy};

fn pair() -> io::Result<[UnixStream; 2]> {
    let (first, second) = UnixStream::pair()?;
    for socket in [&first, &second] {
        socket.set_nonblocking(true)?;
    }
    Ok([first, second])
}

/// With markers, CRCs, both, none, by revision 2 of MPA and in the peer-to-peer model.
#[test]
fn what_is_posted_arrives() -> io::Result<()> {
    all_options().into_iter().try_for_each(|options| exchange(pair()?, options, 1))
}

/// So it does over sockets that take 1 to 100 octets at a time, would block, or are interrupted.
#[test]
fn what_is_posted_arrives_over_sockets_that_take_a_part() -> io::Result<()> {
    for seed in 0..8 {
        for options in all_options() {
            let [first, second] = pair()?;
            exchange([Choppy::new(first, seed), Choppy::new(second, seed + 100)], options, seed)?;
        }
    }
    Ok(())
}

/// A socket that does not block has `turn` tell what to wait for, and nothing is lost meanwhile.
#[test]
fn a_turn_tells_what_to_wait_for() -> io::Result<()> {
    let [first, second] = pair()?;
    let mut end = Handle::new()?;
    let domain = end.add_domain(1)?;
    let stream = end.open_next(domain, Role::Preset, Options::NONE, b"")?;
    let mut connection = Connection::new(stream, first);
    assert_eq!(connection.turn(&mut end)?, Turn::Wait(Interest::Readable));
    // More than a socket takes.
    let long = vec![7; 4 << 20];
    end.post_send(stream, &long, SendOptions::default(), 1)?;
    assert_eq!(connection.turn(&mut end)?, Turn::Wait(Interest::ReadableOrWritable));
    assert!(connection.unwritten() > 0);

    let mut peer = Handle::new()?;
    let domain = peer.add_domain(1)?;
    let other = peer.open_next(domain, Role::Preset, Options::NONE, b"")?;
    peer.post_recv(other, long.len())?;
    let mut carried = Connection::new(other, second);
    let mut sent = false;
    loop {
        if let Turn::Event(event) = connection.turn(&mut end)? {
            assert!(matches!(event, Event::Done { token: 1, .. }));
            sent = true;
        }
        if let Turn::Event(event) = carried.turn(&mut peer)? {
            assert!(matches!(event, Event::Received { len, .. } if len == long.len() as u64));
            break;
        }
    }
    assert_eq!(peer.fetch_vec(other)?, long);
    assert!(sent && connection.unwritten() == 0);
    // The peer closes: that is told, and the connection is finished.
    drop(carried.finish(&mut peer)?);
    assert_eq!(connection.turn(&mut end)?, Turn::Closed);
    connection.finish(&mut end)?;
    Ok(())
}

/// The peer ends its output, and this end still has something to write: it is written before the close is told.
#[test]
fn what_is_due_is_written_behind_the_end_of_input() -> io::Result<()> {
    let [first, second] = pair()?;
    let mut end = Handle::new()?;
    let domain = end.add_domain(1)?;
    let stream = end.open_next(domain, Role::Preset, Options::NONE, b"")?;
    let mut connection = Connection::new(stream, first);
    second.shutdown(std::net::Shutdown::Write)?;
    end.post_send(stream, &vec![7; 4 << 20], SendOptions::default(), 1)?;
    assert_eq!(connection.turn(&mut end)?, Turn::Wait(Interest::Writable));
    let mut read = 0;
    let mut turn = Turn::Wait(Interest::Writable);
    while turn != Turn::Closed {
        let mut octets = [0; 65_536];
        read += io::Read::read(&mut &second, &mut octets).or_else(|error| match error.kind() {
            io::ErrorKind::WouldBlock => Ok(0),
            _ => Err(error),
        })?;
        turn = connection.turn(&mut end)?;
    }
    let mut rest = Vec::new();
    let _ = io::Read::read_to_end(&mut &second, &mut rest); // it would block behind the last
    assert_eq!((read + rest.len()) as u64, end.progress(stream)?.sent);
    Ok(())
}

/// Once the link is broken nothing is read or written any more, and what was posted is handed back.
#[test]
fn a_broken_link_carries_nothing() -> io::Result<()> {
    let [first, second] = pair()?;
    let mut end = Handle::new()?;
    let domain = end.add_domain(1)?;
    let stream = end.open_next(domain, Role::Preset, Options::NONE, b"")?;
    let mut connection = Connection::new(stream, first);
    end.post_send(stream, &vec![7; 4 << 20], SendOptions::default(), 1)?;
    assert_eq!(connection.write_all(&mut end)?, Outgoing::Left);
    let mut octets = vec![0; 4 << 20];
    let written = io::Read::read(&mut &second, &mut octets)?;
    assert!(written > 0 && connection.unwritten() > 0);
    connection.break_link(&mut end)?;
    assert_eq!(connection.unwritten(), 0);
    assert_eq!(connection.write_once(&mut end)?, Outgoing::All);
    assert_eq!(connection.read_once(&mut end)?, Intake::End);
    assert!(matches!(connection.turn(&mut end)?, Turn::Event(Event::Flushed { token: 1, .. })));
    assert_eq!(connection.turn(&mut end)?, Turn::Closed);
    connection.finish(&mut end)?;
    Ok(())
}

/// A handle and what it carries go to another thread.
#[test]
fn a_connection_goes_to_another_thread() -> io::Result<()> {
    let (first, second) = UnixStream::pair()?;
    let mut end = Handle::new()?;
    let domain = end.add_domain(1)?;
    let stream = end.open_next(domain, Role::Responder, Options::CRC, b"")?;
    end.post_recv(stream, 16)?;
    let mut connection = Connection::new(stream, first);
    let server = std::thread::spawn(move || -> io::Result<Vec<u8>> {
        loop {
            match connection.turn(&mut end)? {
                Turn::Event(Event::Asked) => drop(end.accept(stream, b"")?),
                Turn::Event(Event::Received { .. }) => return Ok(end.fetch_vec(stream)?),
                Turn::Event(_) | Turn::Came(_) => {}
                turn => panic!("{turn:?}"),
            }
        }
    });
    let mut end = Handle::new()?;
    let domain = end.add_domain(1)?;
    let stream = end.open_next(domain, Role::Initiator, Options::CRC, b"")?;
    let mut connection = Connection::new(stream, second);
    assert!(matches!(connection.turn(&mut end)?, Turn::Event(Event::Opened { reads: 16, .. })));
    end.post_send(stream, b"hello", SendOptions::default(), 0)?;
    let _ = connection.write_all(&mut end)?;
    assert_eq!(server.join().unwrap()?, b"hello");
    Ok(())
}
