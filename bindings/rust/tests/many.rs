//! One handle that serves many connections, by one read and one write each in turn.
mod support;

use iwarp::{Connection, Domain, Event, Handle, Intake, Options, Outgoing, Rights, Role, SendOptions, Stag};
use std::io;
use std::os::unix::net::UnixStream;
use support::Choppy;

const CLIENTS: usize = 40;
const ROUNDS: usize = 5;
const REGION: usize = 256;

type Socket = Choppy<UnixStream>;

/// A connection of the server: its client has a region.
struct Served {
    connection: Connection<Socket>,
    region: Stag,
    over: bool,
}

impl Served {
    fn new(end: &mut Handle, domain: Domain, socket: Socket) -> io::Result<Self> {
        let stream = end.open_shared_next(domain, Role::Responder, Options::CRC, b"")?;
        let region = end.register_for(stream, 0, &[0; REGION], Rights::WRITE)?;
        Ok(Self { connection: Connection::with_sizes(stream, socket, 4096, 4096), region, over: false })
    }

    /// Sends back what the client has written, and posts the buffer again.
    fn act(&mut self, end: &mut Handle, domain: Domain, event: Event) -> io::Result<()> {
        let stream = self.connection.stream();
        match event {
            Event::Asked => drop(end.accept(stream, &self.region.to_octets())?),
            Event::Received { .. } => {
                let received = end.fetch_buffer(stream)?;
                let mut answer = vec![0; received.len];
                end.load(self.region, 0, &mut answer)?;
                end.post_send(stream, &answer, SendOptions::default(), 0)?;
                end.post_shared_buffer(domain, received.buffer)?;
            }
            Event::Done { .. } => {}
            event => panic!("{event:?}"),
        }
        Ok(())
    }

    fn pass(&mut self, end: &mut Handle, domain: Domain) -> io::Result<()> {
        if self.connection.unwritten() == 0 {
            self.over = self.connection.read_once(end)? == Intake::End;
        }
        for _ in 0..2 {
            while let Some(event) = self.connection.next_event(end)? {
                self.act(end, domain, event)?;
            }
            let _ = self.connection.write_once(end)?;
        }
        Ok(())
    }
}

/// A client, with an end of its own, which asks ROUNDS times.
struct Client {
    end: Handle,
    connection: Connection<Socket>,
    number: usize,
    region: Option<Stag>,
    answers: usize,
}

impl Client {
    fn new(number: usize, socket: Socket) -> io::Result<Self> {
        let mut end = Handle::new()?;
        let domain = end.add_domain(1)?;
        let stream = end.open_next(domain, Role::Initiator, Options::CRC, b"")?;
        end.post_recv(stream, REGION)?;
        Ok(Self { end, connection: Connection::new(stream, socket), number, region: None, answers: 0 })
    }

    fn text(&self) -> Vec<u8> {
        format!("client {}, question {}", self.number, self.answers).into_bytes()
    }

    fn ask(&mut self) -> io::Result<()> {
        let (stream, text) = (self.connection.stream(), self.text());
        if let Some(region) = self.region {
            self.end.post_write(stream, region, 0, &text, 0)?;
            self.end.post_send(stream, &text, SendOptions::default(), 0)?;
        }
        Ok(())
    }

    fn pass(&mut self) -> io::Result<()> {
        let _ = self.connection.read_once(&mut self.end)?;
        while let Some(event) = self.connection.next_event(&mut self.end)? {
            let stream = self.connection.stream();
            match event {
                Event::Opened { .. } => {
                    self.region = self.end.private_data(stream)?.try_into().ok().map(Stag::from_octets);
                    self.ask()?;
                }
                Event::Received { .. } => {
                    assert_eq!(self.end.fetch_vec(stream)?, self.text());
                    self.answers += 1;
                    self.end.post_recv(stream, REGION)?;
                    if self.answers < ROUNDS {
                        self.ask()?;
                    }
                }
                Event::Done { .. } => {}
                event => panic!("{event:?}"),
            }
        }
        assert_ne!(self.connection.write_once(&mut self.end)?, Outgoing::Ended);
        Ok(())
    }
}

#[test]
fn one_handle_serves_many_connections() -> io::Result<()> {
    let mut end = Handle::new()?;
    let domain = end.add_domain(1)?;
    end.share(domain)?;
    for _ in 0..CLIENTS {
        end.post_shared(domain, REGION)?;
    }
    let (mut served, mut clients) = (Vec::new(), Vec::new());
    for number in 0..CLIENTS {
        let (here, there) = UnixStream::pair()?;
        for socket in [&here, &there] {
            socket.set_nonblocking(true)?;
        }
        served.push(Served::new(&mut end, domain, Choppy::new(here, number as u64))?);
        clients.push(Client::new(number, Choppy::new(there, (number + CLIENTS) as u64))?);
    }
    while !served.is_empty() {
        clients.iter_mut().try_for_each(Client::pass)?;
        served.iter_mut().try_for_each(|one| one.pass(&mut end, domain))?;
        // A client that has its answers closes the connection, and the server sees it.
        clients.retain(|client| client.answers < ROUNDS);
        let (over, others) = served.into_iter().partition(|one: &Served| one.over);
        served = others;
        for one in over {
            one.connection.finish(&mut end)?;
            end.drop_region(one.region)?;
        }
    }
    assert!(clients.is_empty());
    // Each buffer of the pool has come back.
    for _ in 0..CLIENTS {
        assert_eq!(end.take_shared_buffer(domain)?.map(|buffer| buffer.len()), Some(REGION));
    }
    assert!(end.take_shared_buffer(domain)?.is_none());
    Ok(())
}
