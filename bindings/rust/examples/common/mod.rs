//! What the two programs share: their words, and how a peer that says nothing is given up.
use iwarp::{Connection, Event, Handle, Options, Stream, Turn};
use std::net::{Shutdown, TcpStream};
use std::str::FromStr;
use std::time::{Duration, Instant};
use std::{env, io, process};

/// After so long in which nothing is heard of a peer it is given up.
const PATIENCE: Duration = Duration::from_secs(60);

/// The words behind a program's name, and how it is used.
pub struct Words {
    words: Vec<String>,
    usage: &'static str,
}

impl Words {
    /// The words of this program, `least` to `most` of them. If the first asks for help, tells how the program is used, and ends it.
    pub fn new(least: usize, most: usize, usage: &'static str) -> Self {
        let words = Self { words: env::args().skip(1).collect(), usage };
        if words.get(0).is_some_and(|word| word == "--help" || word == "-h") {
            print!("{usage}");
            process::exit(0);
        }
        if words.words.len() < least {
            words.misused("words are missing");
        }
        if let Some(word) = words.get(most) {
            words.misused(&format!("{word}: one word too many"));
        }
        words
    }

    /// The word of this index, if there is one.
    pub fn get(&self, index: usize) -> Option<&str> {
        self.words.get(index).map(String::as_str)
    }

    /// The number that the word of this index spells, which must be one that is allowed; `otherwise` if there is no such word.
    pub fn number<N: FromStr>(&self, index: usize, otherwise: N, is_allowed: impl FnOnce(&N) -> bool) -> N {
        let Some(word) = self.get(index) else { return otherwise };
        match word.parse() {
            Ok(number) if is_allowed(&number) => number,
            _ => self.misused(&format!("{word}: not a number that is allowed here")),
        }
    }

    /// Says what is wrong, and how the program is used, and ends it.
    pub fn misused(&self, why: &str) -> ! {
        eprint!("{why}\n\n{}", self.usage);
        process::exit(2)
    }
}

/// The options of a sum: 1 for markers, 2 for CRCs, 4 for revision 2 of MPA, 8 for the peer-to-peer model.
pub fn options(words: &Words, index: usize, most: u32) -> Options {
    Options::from_bits(words.number(index, 0, |sum| *sum <= most))
}

/// A connection whose peer is given up if it is silent too long. What it sends once the stream has ended does not count.
pub struct Watched {
    pub connection: Connection<TcpStream>,
    heard: Instant,
    ended: bool,
}

impl Watched {
    pub fn new(stream: Stream, socket: TcpStream) -> io::Result<Self> {
        socket.set_read_timeout(Some(PATIENCE))?;
        socket.set_write_timeout(Some(PATIENCE))?;
        Ok(Self { connection: Connection::new(stream, socket), heard: Instant::now(), ended: false })
    }

    /// The next event; none once the peer has closed. After a fault the Terminate is written, and the output is shut down.
    pub fn next(&mut self, end: &mut Handle) -> io::Result<Option<Event>> {
        while self.heard.elapsed() <= PATIENCE {
            let turn = self.connection.turn(end)?;
            if !self.ended && matches!(turn, Turn::Came(_) | Turn::Event(_)) {
                self.heard = Instant::now();
            }
            match turn {
                Turn::Event(event) => return Ok(Some(event)),
                Turn::Came(_) => {}
                Turn::Ended => {
                    self.ended = true;
                    self.connection.socket().shutdown(Shutdown::Write)?;
                }
                Turn::Wait(_) => break,
                Turn::Closed => return Ok(None),
            }
        }
        let why = format!("nothing was heard for {} s", PATIENCE.as_secs());
        Err(io::Error::new(io::ErrorKind::TimedOut, why))
    }
}

/// The octets as pairs of digits to base 16; a hyphen if there are none.
pub fn hex(octets: &[u8]) -> String {
    if octets.is_empty() {
        return "-".to_string();
    }
    octets.iter().map(|octet| format!("{octet:02x}")).collect()
}
