//! A client: it writes a text into the region that its peer offers, sends the text too, and prints what is sent back. `client --help`
//! says how it is run; `server`, the C program `target` and `iwarp listen` are its peers.
mod common;

use common::{hex, options, Watched, Words};
use iwarp::{Event, Handle, Options, Role, SendOptions, Stag};
use std::net::{Ipv4Addr, Shutdown, TcpStream};
use std::{io, process};

/// The octets that a message has at most.
const BUFFER: usize = 4096;

/// The token of the Send.
const SEND: u64 = 1;

const USAGE: &str = "\
usage: client PORT TEXT [OPTIONS]

Connects to a port of 127.0.0.1, writes TEXT into the region that the peer offers, sends it too,
and prints what is sent back. The status is 1 if nothing is sent back.

  PORT     1 to 65535
  TEXT     at most 4096 octets
  OPTIONS  a sum of 1 for markers, 2 for CRCs, 4 for revision 2 of MPA and, with 4, 8 for the
           peer-to-peer model; 0 if left out
";

struct Client {
    end: Handle,
    watched: Watched,
    text: Vec<u8>,
    /// What was sent back.
    answer: Option<Vec<u8>>,
    /// Real peers take the end of the output for that of the connection, and are asked by revision 2: it ends once they have answered.
    /// `iwarp listen` answers at the end of its input.
    answer_first: bool,
}

impl Client {
    fn new(socket: TcpStream, text: &[u8], options: Options) -> io::Result<Self> {
        let mut end = Handle::new()?;
        let domain = end.add_domain(1)?;
        let stream = end.open_next(domain, Role::Initiator, options, b"")?;
        end.post_recv(stream, BUFFER)?;
        let watched = Watched::new(stream, socket)?;
        let answer_first = options.contains(Options::ENHANCED);
        Ok(Self { end, watched, text: text.to_vec(), answer: None, answer_first })
    }

    /// The private data of the Reply names the peer's region: posts a Write of the text there, and a Send.
    fn post(&mut self) -> io::Result<()> {
        let stream = self.watched.connection.stream();
        let name = self.end.private_data(stream)?;
        let name = name.try_into().map_err(|_| io::Error::other("the peer's private data is no STag"))?;
        self.end.post_write(stream, Stag::from_octets(name), 0, &self.text, 0)?;
        self.end.post_send(stream, &self.text, SendOptions::default(), SEND)?;
        Ok(())
    }

    fn end_output(&mut self) -> io::Result<()> {
        let _ = self.watched.connection.write_all(&mut self.end)?;
        self.watched.connection.socket().shutdown(Shutdown::Write)
    }

    fn act(&mut self, event: Event) -> io::Result<()> {
        match event {
            Event::Opened { .. } => self.post()?,
            Event::Done { token: SEND, .. } if !self.answer_first => self.end_output()?,
            Event::Received { .. } => {
                self.answer = Some(self.end.fetch_vec(self.watched.connection.stream())?);
                if self.answer_first {
                    self.end_output()?;
                }
            }
            Event::Fault(fault) | Event::Terminated(fault) => println!("fault: {fault}"),
            Event::ClosedByPeer(fault) => println!("closed: {fault}"),
            _ => {}
        }
        Ok(())
    }

    /// Returns what was sent back, once the peer has closed.
    fn ask(mut self) -> io::Result<Option<Vec<u8>>> {
        while let Some(event) = self.watched.next(&mut self.end)? {
            self.act(event)?;
        }
        self.watched.connection.finish(&mut self.end)?;
        Ok(self.answer)
    }
}

fn main() -> io::Result<()> {
    let words = Words::new(2, 3, USAGE);
    let port: u16 = words.number(0, 0, |port| *port > 0);
    let text = words.get(1).unwrap_or_default();
    let options = options(&words, 2, 15);
    if text.len() > BUFFER {
        words.misused("TEXT has more than 4096 octets");
    }
    if options.contains(Options::PEER_TO_PEER) && !options.contains(Options::ENHANCED) {
        words.misused("8 comes only with 4");
    }
    let socket = TcpStream::connect((Ipv4Addr::LOCALHOST, port))?;
    match Client::new(socket, text.as_bytes(), options)?.ask()? {
        Some(answer) => println!("received {}", hex(&answer)),
        None => process::exit(1),
    }
    Ok(())
}
