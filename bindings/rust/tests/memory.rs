//! Each request of the library for memory is refused in turn: what arrives is what was posted, and what was handed in comes back. The
//! library calls the two functions below in place of malloc and realloc; `tools/bindings` of its repository builds it so.
#![cfg(iwarp_refuses_memory)]

mod support;

use iwarp::{Buffer, Error, Event, Handle, Message, Options, Role, SendOptions, Stag};
use std::cell::Cell;
use std::ffi::c_void;
use std::io;
use std::os::unix::net::UnixStream;
use std::ptr;
use support::{again, exchange, Choppy};

extern "C" {
    fn malloc(n: usize) -> *mut c_void;
    fn realloc(at: *mut c_void, n: usize) -> *mut c_void;
}

thread_local! {
    /// How many requests this thread has made, and which of them is refused; none if it is 0.
    static REQUESTS: Cell<usize> = const { Cell::new(0) };
    static REFUSED: Cell<usize> = const { Cell::new(0) };
}

fn is_refused() -> bool {
    REQUESTS.set(REQUESTS.get() + 1);
    REQUESTS.get() == REFUSED.get()
}

#[no_mangle]
extern "C" fn iwarp_test_malloc(n: usize) -> *mut c_void {
    // SAFETY: it is the call that the library makes.
    if is_refused() {
        ptr::null_mut()
    } else {
        unsafe { malloc(n) }
    }
}

/// # Safety
/// As realloc.
#[no_mangle]
unsafe extern "C" fn iwarp_test_realloc(at: *mut c_void, n: usize) -> *mut c_void {
    // SAFETY: it is the call that the library makes.
    if is_refused() {
        ptr::null_mut()
    } else {
        unsafe { realloc(at, n) }
    }
}

/// Runs something with each of its requests refused in turn, until it makes no more. Returns how many it makes.
fn with_each_refused(mut run: impl FnMut(usize) -> io::Result<()>) -> io::Result<usize> {
    for refused in 1.. {
        REQUESTS.set(0);
        REFUSED.set(refused);
        let ran = run(refused);
        REFUSED.set(0);
        ran.map_err(|error| io::Error::new(error.kind(), format!("request {refused}: {error}")))?;
        if REQUESTS.get() < refused {
            return Ok(refused - 1);
        }
    }
    unreachable!()
}

#[test]
fn what_is_posted_arrives() -> io::Result<()> {
    let refused = with_each_refused(|seed| {
        let (first, second) = UnixStream::pair()?;
        for socket in [&first, &second] {
            socket.set_nonblocking(true)?;
        }
        let options = Options::from_bits(seed as u32 % 4);
        exchange([Choppy::new(first, 1), Choppy::new(second, 2)], options, seed as u64)
    })?;
    assert!(refused > 50, "{refused}");
    Ok(())
}

/// A message from a buffer is posted and flushed, and comes back whole, whichever request is refused.
#[test]
fn buffers_come_back() -> io::Result<()> {
    let refused = with_each_refused(|_| {
        let mut end = again(Handle::new)?;
        let domain = again(|| end.add_domain(1))?;
        let stream = again(|| end.open_next(domain, Role::Preset, Options::NONE, b""))?;
        let mut buffer = again(|| Buffer::copy_of(b"octets"))?;
        if let Err(refused) = end.post_send_buffer(stream, buffer, SendOptions::default(), 1) {
            assert_eq!(refused.error, Error::NoMemory);
            buffer = refused.buffer;
            if buffer.is_empty() {
                buffer = end.fetch_sent(stream)?;
            }
            assert_eq!(&buffer[..], b"octets");
            end.post_send_buffer(stream, buffer, SendOptions::default(), 1)?;
        }
        let receive = again(|| Buffer::new(8))?;
        if let Err(refused) = end.post_recv_buffer(stream, receive) {
            assert_eq!((refused.error, refused.buffer.len()), (Error::NoMemory, 8));
            end.post_recv_buffer(stream, refused.buffer)?;
        }
        let region = again(|| Buffer::copy_of(b"region"))?;
        let stag: Stag = match end.register_buffer(domain, 0, region, iwarp::Rights::READ) {
            Ok(stag) => stag,
            Err(refused) => {
                assert_eq!((refused.error, &refused.buffer[..]), (Error::NoMemory, &b"region"[..]));
                end.register_buffer(domain, 0, refused.buffer, iwarp::Rights::READ)?
            }
        };
        assert_eq!(&again(|| end.deregister(stag))?[..], b"region");
        end.break_link(stream)?;
        assert_eq!(end.work_on(stream)?, Event::Flushed { message: Message::Send, token: 1 });
        assert_eq!(&again(|| end.fetch_sent(stream))?[..], b"octets");
        assert_eq!(end.work_on(stream)?, Event::FlushedReceive { len: 8 });
        assert_eq!(again(|| end.fetch_buffer(stream))?.len, 8);
        end.close(stream)?;
        Ok(())
    })?;
    assert!(refused > 8, "{refused}");
    Ok(())
}
