//! Two ends over TCP, whose sockets do not block.
mod support;

use std::io;
use std::net::{Ipv4Addr, TcpListener, TcpStream};
use support::{all_options, exchange, Choppy};

fn pair() -> io::Result<[TcpStream; 2]> {
    let listener = TcpListener::bind((Ipv4Addr::LOCALHOST, 0))?;
    let first = TcpStream::connect(listener.local_addr()?)?;
    let (second, _) = listener.accept()?;
    for socket in [&first, &second] {
        socket.set_nonblocking(true)?;
        socket.set_nodelay(true)?;
    }
    Ok([first, second])
}

#[test]
fn what_is_posted_arrives() -> io::Result<()> {
    all_options().into_iter().try_for_each(|options| exchange(pair()?, options, 2))
}

#[test]
fn what_is_posted_arrives_over_sockets_that_take_a_part() -> io::Result<()> {
    for options in all_options() {
        let [first, second] = pair()?;
        exchange([Choppy::new(first, 3), Choppy::new(second, 4)], options, 3)?;
    }
    Ok(())
}
