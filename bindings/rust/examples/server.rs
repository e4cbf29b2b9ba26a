//! A storage target for many peers, a thread and a handle for each. `server --help` says how it is run; `client`, the C program
//! `initiator` and `iwarp connect` are its peers.
//!
//! Each peer has a region of its own: it writes there, then sends a Send, and the server sends back as many octets of the region as the
//! Send had. The region is registered for this peer's stream, and is made invalid before it is read: until then the peer may change it.
mod common;

use common::{hex, options, Watched, Words};
use iwarp::{Buffer, Event, Handle, Options, Rights, Role, SendOptions, Stag, Stream};
use std::net::{Ipv4Addr, TcpListener, TcpStream};
use std::time::Duration;
use std::{io, process, thread};

/// The octets of a region, and of a message at most.
const REGION: usize = 4096;

const USAGE: &str = "\
usage: server [COUNT [OPTIONS [PORT]]]

Prints `port Q`, serves COUNT connections at that port of 127.0.0.1, and prints a line for each
Send that it received, and for each connection that failed, with the reason. The status is 1 if
one failed.

  COUNT    how many connections are served, 1 if left out; 0 for connections without end
  OPTIONS  a sum of 1 for markers, 2 for CRCs and 4 for revision 2 of MPA; 0 if left out
  PORT     0, which it is if left out, for any port that is free
";

/// The stream of a peer, and its region.
struct Peer {
    end: Handle,
    stream: Stream,
    stag: Stag,
    received: bool,
}

impl Peer {
    fn new(options: Options) -> iwarp::Result<Self> {
        let mut end = Handle::new()?;
        let domain = end.add_domain(1)?;
        let stream = end.open_next(domain, Role::Responder, options, b"")?;
        end.post_recv(stream, REGION)?;
        let stag = end.register_buffer_for(stream, 0, Buffer::new(REGION)?, Rights::WRITE)?;
        Ok(Self { end, stream, stag, received: false })
    }

    /// Sends back as many octets of the region as the Send had.
    fn echo(&mut self, number: usize) -> io::Result<()> {
        let message = self.end.fetch_buffer(self.stream)?;
        println!("connection {number} received {}", hex(message.octets()));
        self.received = true;
        self.end.invalidate(self.stag)?;
        let mut reply = message.buffer;
        reply.truncate(message.len);
        let n = reply.len();
        reply.copy_from_slice(&self.end.region(self.stag)?[..n]);
        self.end.post_send_buffer(self.stream, reply, SendOptions::default(), 0)?;
        Ok(())
    }

    fn act(&mut self, event: Event, number: usize) -> io::Result<()> {
        match event {
            Event::Asked => {
                self.end.accept(self.stream, &self.stag.to_octets())?;
            }
            Event::Received { .. } => self.echo(number)?,
            Event::Fault(fault) | Event::Terminated(fault) => return Err(io::Error::other(fault)),
            Event::ClosedByPeer(fault) => return Err(io::Error::other(fault)),
            _ => {}
        }
        Ok(())
    }
}

/// Serves a peer until it closes. An error is told only once the connection is over: after a fault its Terminate is written first. A
/// start-up frame at fault closes the connection at once (RFC 5044 7.1.1).
fn serve(socket: TcpStream, options: Options, number: usize) -> io::Result<()> {
    let mut peer = Peer::new(options)?;
    let mut watched = Watched::new(peer.stream, socket)?;
    let mut served = Ok(());
    while let Some(event) = watched.next(&mut peer.end)? {
        let acted = peer.act(event, number);
        served = served.and(acted);
        if matches!(event, Event::ClosedByPeer(_)) {
            break;
        }
    }
    watched.connection.finish(&mut peer.end)?;
    served?;
    if peer.received {
        Ok(())
    } else {
        Err(io::Error::other("no Send came"))
    }
}

/// A connection that came. If the system has no descriptor left, it is tried again a second later.
fn accepted(socket: io::Result<TcpStream>) -> Option<TcpStream> {
    socket
        .inspect_err(|error| {
            eprintln!("accept: {error}");
            thread::sleep(Duration::from_secs(1));
        })
        .ok()
}

fn main() -> io::Result<()> {
    let words = Words::new(0, 3, USAGE);
    let count = words.number(0, 1, |_| true);
    let options = options(&words, 1, 7);
    let listener = TcpListener::bind((Ipv4Addr::LOCALHOST, words.number(2, 0, |_| true)))?;
    println!("port {}", listener.local_addr()?.port());
    let most = if count == 0 { usize::MAX } else { count };
    let mut threads = Vec::new();
    for (number, socket) in listener.incoming().filter_map(accepted).take(most).enumerate() {
        let thread = thread::spawn(move || {
            serve(socket, options, number).inspect_err(|error| println!("connection {number}: {error}"))
        });
        if count != 0 {
            threads.push(thread);
        }
    }
    let failures =
        threads.into_iter().map(thread::JoinHandle::join).filter(|ended| !matches!(ended, Ok(Ok(())))).count();
    process::exit(i32::from(failures > 0))
}
