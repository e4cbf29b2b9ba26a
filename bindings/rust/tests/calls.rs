//! Each call of a handle: what it does, and what it is refused with.
use iwarp::{
    Agreed, Buffer, Delivery, Domain, Emission, Error, Event, Fault, FillStop, Handle, Message, Options, ReadRequest,
    Registration, Result, Rights, Role, Scope, SendOptions, Stag, State, Stream,
};

const NONE: SendOptions = SendOptions { solicited: false, invalidate: None };

/// An end with a domain, and a preset stream in it.
struct End {
    handle: Handle,
    domain: Domain,
    stream: Stream,
    /// The sequence number of the octet that comes next.
    next: u32,
}

impl End {
    fn new() -> Result<Self> {
        let mut handle = Handle::new()?;
        let domain = handle.add_domain(1)?;
        let stream = handle.open_next(domain, Role::Preset, Options::CRC, b"")?;
        Ok(Self { handle, domain, stream, next: 0 })
    }

    /// Hands what this end emits to another.
    fn carry(&mut self, to: &mut End) -> Result<()> {
        let mut frame = [0; 66_000];
        loop {
            let (emission, n) = self.handle.emit(self.stream, &mut frame)?;
            if emission == Emission::Nothing {
                return Ok(());
            }
            assert_eq!(to.handle.deliver(to.stream, to.next, &frame[..n])?, Delivery::Kept);
            to.next += n as u32;
        }
    }

    fn event(&mut self) -> Result<Event> {
        self.handle.work_on(self.stream)
    }
}

fn ends() -> Result<[End; 2]> {
    Ok([End::new()?, End::new()?])
}

/// A handle may go to another thread, and so may a place that it lends; a buffer may be read by several. (That a handle is not `Sync`,
/// its documentation shows.)
#[test]
fn what_may_go_to_another_thread() {
    fn is_send<T: Send>() {}
    fn is_sync<T: Sync>() {}
    is_send::<Handle>();
    is_send::<iwarp::Room<'_>>();
    is_send::<Buffer>();
    is_sync::<Buffer>();
}

#[test]
fn domains_are_added_once() -> Result<()> {
    let mut handle = Handle::new()?;
    assert_eq!(handle.add_domain(0), Err(Error::BadDomain));
    assert_eq!(handle.add_domain(256), Err(Error::BadDomain));
    assert_eq!(handle.add_domain(255)?, Domain::new(255));
    assert_eq!(handle.add_domain(255), Err(Error::DomainTaken));
    let refused = handle.open_next(Domain::new(7), Role::Preset, Options::NONE, b"");
    assert_eq!(refused, Err(Error::NoDomain));
    Ok(())
}

#[test]
fn regions_are_registered_used_and_given_back() -> Result<()> {
    let [mut end, _] = ends()?;
    let rights = Rights::WRITE | Rights::SINK;
    let stag = end.handle.register(end.domain, 1000, b"some octets", rights)?;
    let facts = end.handle.facts(stag)?;
    assert_eq!((facts.base, facts.len, facts.rights, facts.valid, facts.stream), (1000, 11, rights, true, None));
    end.handle.store(stag, 1005, b"O")?;
    let mut part = [0; 6];
    end.handle.load(stag, 1005, &mut part)?;
    assert_eq!(&part, b"Octets");
    assert_eq!(end.handle.store(stag, 999, b"x"), Err(Error::Outside));
    assert_eq!(end.handle.load(stag, 1006, &mut part), Err(Error::Outside));
    end.handle.region(stag)?[0] = b'S';
    end.handle.invalidate(stag)?;
    assert!(!end.handle.facts(stag)?.valid);
    assert_eq!(end.handle.deregister_into(stag, &mut part), Err(Error::NoRoom { needed: 11 }));
    assert_eq!(&end.handle.deregister(stag)?[..], b"Some Octets");
    assert_eq!(end.handle.region(stag), Err(Error::NoRegion));
    assert_eq!(end.handle.deregister(stag).err(), Some(Error::NoRegion));
    assert_eq!(end.handle.drop_region(stag), Err(Error::NoRegion));

    let short = end.handle.register(end.domain, 0, b"ab", Rights::READ)?;
    assert_eq!(end.handle.deregister_into(short, &mut part)?, 2);
    assert_eq!(&part[..2], b"ab");
    let empty = end.handle.register(end.domain, 0, b"", Rights::READ)?;
    assert_eq!(end.handle.region(empty)?, b"");
    end.handle.drop_region(empty)?;
    let wraps = end.handle.register(end.domain, u64::MAX, b"ab", Rights::READ);
    assert_eq!(wraps, Err(Error::BaseWrap));
    let bits = end.handle.register(end.domain, 0, b"ab", Rights::from_bits(64));
    assert_eq!(bits, Err(Error::BadBits));
    Ok(())
}

#[test]
fn a_buffer_becomes_a_region_and_comes_back() -> Result<()> {
    let [mut end, _] = ends()?;
    let buffer = Buffer::copy_of(b"in place")?;
    let at = buffer.as_ptr();
    let stag = end.handle.register_buffer(end.domain, 0, buffer, Rights::READ)?;
    assert_eq!(end.handle.region(stag)?.as_ptr(), at);
    let buffer = end.handle.deregister(stag)?;
    assert_eq!((&buffer[..], buffer.as_ptr()), (&b"in place"[..], at));

    let refused = end.handle.register_buffer(Domain::new(9), 0, buffer, Rights::READ).unwrap_err();
    assert_eq!((refused.error, &refused.buffer[..]), (Error::NoDomain, &b"in place"[..]));
    assert_eq!(refused.to_string(), "the domain was not added: call iwarp_add_domain first");
    let stag = end.handle.register_buffer_for(end.stream, 0, refused.buffer, Rights::READ)?;
    assert_eq!(end.handle.facts(stag)?.stream, Some(end.stream));
    let gone = end.handle.register_buffer_for(Stream::new(99), 0, Buffer::new(1)?, Rights::READ).unwrap_err();
    assert_eq!(gone.error, Error::NoSuchStream);
    Ok(())
}

/// What a peer writes stands in the program's own memory. Each form comes back by its own call, with its own octets.
#[test]
fn memory_of_the_program_becomes_a_region_and_comes_back() -> Result<()> {
    let [mut end, mut peer] = ends()?;
    let registration = Registration { scope: Scope::Stream(end.stream), base: 7, rights: Rights::WRITE, drawn: None };
    let octets = vec![b'.'; 12].into_boxed_slice();
    let at = octets.as_ptr();
    let boxed = end.handle.register_box(registration, octets)?;
    peer.handle.post_write(peer.stream, boxed, 10, b"written", 0)?;
    peer.carry(&mut end)?;
    assert!(matches!(end.event()?, Event::Idle));
    assert_eq!(end.handle.deregister(boxed).unwrap_err(), Error::OtherMemory);
    assert_eq!(end.handle.deregister_memory(boxed), Err(Error::OtherMemory));
    let octets = end.handle.deregister_box(boxed)?;
    assert_eq!((&octets[..], octets.as_ptr()), (&b"...written.."[..], at));
    assert_eq!(end.handle.deregister_box(boxed), Err(Error::NoRegion));

    let nowhere = Registration { scope: Scope::Domain(Domain::new(9)), ..registration };
    let refused = end.handle.register_box(nowhere, octets).unwrap_err();
    assert_eq!((refused.error, refused.buffer.as_ptr()), (Error::NoDomain, at));
    let none = end.handle.register_box(registration, Box::new([]))?;
    assert_eq!(&end.handle.deregister_box(none)?[..], b"");

    let mut array = *b"an array";
    // SAFETY: nothing else uses the array until it has come back.
    let unsafely = unsafe { end.handle.register_memory(registration, array.as_mut_ptr(), array.len())? };
    end.handle.store(unsafely, 7, b"AN")?;
    assert_eq!(end.handle.deregister_box(unsafely), Err(Error::OtherMemory));
    end.handle.deregister_memory(unsafely)?;
    assert_eq!(&array, b"AN array");

    let buffer = end.handle.register_buffer(end.domain, 0, Buffer::new(1)?, Rights::READ)?;
    assert_eq!(end.handle.deregister_box(buffer), Err(Error::OtherMemory));
    let dropped = end.handle.register_box(registration, refused.buffer)?;
    end.handle.drop_region(dropped)?;
    let copied = end.handle.register_box(registration, b"copied".to_vec().into_boxed_slice())?;
    let mut copy = [0; 6];
    assert_eq!(end.handle.deregister_into(copied, &mut copy)?, 6);
    assert_eq!((&copy, end.handle.deregister_box(copied)), (b"copied", Err(Error::NoRegion)));
    end.handle.register_box(registration, vec![1; 100].into_boxed_slice())?; // it is freed with the handle
    Ok(())
}

/// The bits tell the slot and the key of the first STag of a domain. The same bits give no STag again.
#[test]
fn stags_are_drawn() -> Result<()> {
    let [mut end, _] = ends()?;
    let (slot, key) = (1000, 200);
    let of_domain = Registration {
        scope: Scope::Domain(end.domain),
        base: 7,
        rights: Rights::READ,
        drawn: Some(key * 1024 + slot),
    };
    let first = end.handle.register_as(of_domain, b"one")?;
    assert_eq!(first.number(), (1 << 24) + (slot << 8) + key);
    assert_eq!(end.handle.facts(first)?.base, 7);
    assert_eq!(&end.handle.deregister(first)?[..], b"one");
    let second = end.handle.register_as(of_domain, b"two")?;
    assert_ne!(second, first);
    assert_eq!(second.number() >> 8, first.number() >> 8);

    let of_stream = Registration { scope: Scope::Stream(end.stream), ..of_domain };
    let third =
        end.handle.register_buffer_as(of_stream, Buffer::copy_of(b"three")?).map_err(|refused| refused.error)?;
    assert_eq!(third.number() >> 8, (second.number() >> 8) + 1);
    assert_eq!(end.handle.facts(third)?.stream, Some(end.stream));
    let plain = end.handle.register_as(Registration { drawn: None, ..of_domain }, b"four")?;
    assert_eq!(plain.number(), 1 << 24);

    let gone = Registration { scope: Scope::Stream(Stream::new(99)), ..of_domain };
    let refused = end.handle.register_buffer_as(gone, Buffer::copy_of(b"back")?).unwrap_err();
    assert_eq!((refused.error, &refused.buffer[..]), (Error::NoSuchStream, &b"back"[..]));
    let bits = Registration { rights: Rights::from_bits(64), ..of_domain };
    assert_eq!(end.handle.register_as(bits, b""), Err(Error::BadBits));
    Ok(())
}

#[test]
fn buffers_keep_what_they_should() -> Result<()> {
    let mut buffer = Buffer::new(4)?;
    assert_eq!(&buffer[..], [0; 4]);
    buffer.copy_from_slice(b"abcd");
    buffer.drop_front(1);
    assert_eq!(&buffer[..], b"bcd");
    buffer.truncate(2);
    assert_eq!(&buffer[..], b"bc");
    buffer.truncate(9);
    assert_eq!(&buffer[..], b"bc");
    buffer.drop_front(9);
    assert!(buffer.is_empty());
    assert!(Buffer::new(0)?.is_empty());
    // From another thread, which reads it meanwhile.
    let buffer = Buffer::copy_of(b"shared")?;
    std::thread::scope(|threads| {
        threads.spawn(|| assert_eq!(&buffer[..], b"shared"));
        assert_eq!(buffer.as_ref(), b"shared");
    });
    Ok(())
}

#[test]
fn streams_are_numbered_and_closed() -> Result<()> {
    let [mut end, _] = ends()?;
    let (domain, picked) = (end.domain, Stream::new(63));
    assert_eq!(end.stream.number(), 64);
    end.handle.open(picked, domain, Role::Initiator, Options::NONE, b"")?;
    let taken = end.handle.open(picked, domain, Role::Initiator, Options::NONE, b"");
    assert_eq!(taken, Err(Error::NumberTaken));
    let above = end.handle.open(Stream::new(64), domain, Role::Preset, Options::NONE, b"");
    assert_eq!(above, Err(Error::BadNumber));
    let long = end.handle.open_next(domain, Role::Initiator, Options::NONE, &[0; 513]);
    assert_eq!(long, Err(Error::PrivateTooLong));
    let alone = end.handle.open_next(domain, Role::Initiator, Options::PEER_TO_PEER, b"");
    assert_eq!(alone, Err(Error::BadBits));

    assert_eq!((end.handle.state(end.stream)?, end.handle.state(picked)?), (State::Open, State::Starting));
    assert_eq!(end.handle.post_send(picked, b"early", NONE, 0), Err(Error::NotOpen));
    assert_eq!(end.handle.accept(picked, b""), Err(Error::NotAsked));
    assert_eq!(end.handle.set_mulpdu(picked, 127), Err(Error::BadSize));
    assert!(end.handle.wants_write(picked)? && !end.handle.wants_write(end.stream)?);
    assert_eq!(end.handle.close(picked), Err(Error::NotAtRest));
    end.handle.break_link(picked)?;
    assert_eq!(end.handle.work(picked)?, Event::Idle);
    end.handle.close(picked)?;
    assert_eq!(end.handle.state(picked), Err(Error::NoSuchStream));
    assert_eq!(end.handle.private_data(picked), Err(Error::NoSuchStream));
    assert_eq!(end.handle.work(picked), Err(Error::NoSuchStream));
    Ok(())
}

/// The start-up frames of both ends, and what each is told of the other's.
#[test]
fn start_up_frames_tell_what_is_asked_for() -> Result<()> {
    let mut ends = ends()?;
    for (end, role) in ends.iter_mut().zip([Role::Initiator, Role::Responder]) {
        let options = Options::MARKERS | Options::ENHANCED;
        end.stream = end.handle.open_next(end.domain, role, options, b"hello")?;
    }
    let [mut asking, mut asked] = ends;
    assert_eq!(asking.handle.told(asking.stream)?.revision, 0);
    asking.carry(&mut asked)?;
    assert_eq!(asked.event()?, Event::Asked);
    let told = asked.handle.told(asked.stream)?;
    assert_eq!((told.revision, told.markers, told.crc), (2, true, false));
    assert_eq!(told.enhanced.map(|word| (word.ird, word.ord, word.peer_to_peer)), Some((16, 16, false)));
    assert_eq!(asked.handle.private_data(asked.stream)?, b"hello");
    let agreed = asked.handle.accept(asked.stream, b"welcome")?;
    assert_eq!(agreed, Agreed::SENDS_MARKERS | Agreed::EXPECTS_MARKERS);
    asked.carry(&mut asking)?;
    assert_eq!(asking.event()?, Event::Opened { agreed, reads: 16 });
    assert_eq!(asking.handle.private_data(asking.stream)?, b"welcome");
    Ok(())
}

#[test]
fn messages_go_and_come_back_from_buffers() -> Result<()> {
    let [mut a, mut b] = ends()?;
    let region = b.handle.register(b.domain, 0, &[0; 16], Rights::WRITE | Rights::READ)?;
    let sink = a.handle.register(a.domain, 0, &[0; 16], Rights::SINK)?;
    let awaiting = Buffer::new(32)?;
    let stands = awaiting.as_ptr();
    b.handle.post_recv_buffer(b.stream, awaiting)?;

    let written = Buffer::copy_of(b"written")?;
    let at = written.as_ptr();
    a.handle.post_write_buffer(a.stream, region, 2, written, 10)?;
    let options = SendOptions { solicited: true, invalidate: None };
    a.handle.post_send_buffer(a.stream, Buffer::copy_of(b"sent")?, options, 11)?;
    let read = ReadRequest { sink, sink_to: 0, size: 8, source: region, source_to: 2 };
    a.handle.post_read(a.stream, read, 12)?;
    a.carry(&mut b)?;

    assert_eq!(b.event()?, Event::Received { len: 4, solicited: true, invalidated: None });
    let received = b.handle.fetch_buffer(b.stream)?;
    assert_eq!((received.octets(), received.buffer.len(), received.buffer.as_ptr()), (&b"sent"[..], 32, stands));
    b.handle.post_recv_buffer(b.stream, received.buffer)?;
    assert_eq!(&b.handle.region(region)?[2..9], b"written");

    assert_eq!(a.event()?, Event::Done { message: Message::Write, token: 10 });
    let back = a.handle.fetch_sent(a.stream)?;
    assert_eq!((&back[..], back.as_ptr()), (&b"written"[..], at));
    assert_eq!(a.event()?, Event::Done { message: Message::Send, token: 11 });
    assert_eq!(&a.handle.fetch_sent(a.stream)?[..], b"sent");
    assert!(a.handle.fetch_sent(a.stream)?.is_empty());
    b.event()?;
    b.carry(&mut a)?;
    assert_eq!(a.event()?, Event::Done { message: Message::Read, token: 12 });
    assert_eq!(&a.handle.region(sink)?[..8], b"written\0");
    Ok(())
}

#[test]
fn a_send_invalidates_a_region() -> Result<()> {
    let [mut a, mut b] = ends()?;
    let stag = b.handle.register(b.domain, 0, b"octets", Rights::READ | Rights::INVALIDATE)?;
    b.handle.post_recv(b.stream, 8)?;
    let options = SendOptions { solicited: false, invalidate: Some(stag) };
    a.handle.post_send(a.stream, b"take it", options, 0)?;
    a.carry(&mut b)?;
    assert_eq!(b.event()?, Event::Received { len: 7, solicited: false, invalidated: Some(stag) });
    assert!(!b.handle.facts(stag)?.valid);
    assert_eq!(b.handle.fetch(b.stream, &mut [0; 3]), Err(Error::NoRoom { needed: 7 }));
    assert_eq!(b.handle.fetch_vec(b.stream)?, b"take it");
    assert_eq!(b.handle.fetch_vec(b.stream)?, b"");
    Ok(())
}

/// What a stream does step by step.
#[test]
fn steps_tell_where_octets_were_placed() -> Result<()> {
    let [mut a, mut b] = ends()?;
    let region = b.handle.register(b.domain, 100, &[0; 16], Rights::WRITE)?;
    b.handle.post_recv(b.stream, 8)?;
    a.handle.post_write(a.stream, region, 102, b"abc", 0)?;
    a.handle.post_send(a.stream, b"de", NONE, 1)?;
    a.carry(&mut b)?;
    let mut steps = Vec::new();
    while steps.last() != Some(&Event::Idle) {
        steps.push(b.handle.work(b.stream)?);
    }
    let received = Event::Received { len: 2, solicited: false, invalidated: None };
    let placed = Event::Placed { stag: region, to: 102, len: 3, by: Rights::WRITE };
    let buffered = Event::Buffered { msn: 1, mo: 0, len: 2, above_mark: false };
    assert_eq!(steps, [placed, Event::Passed, buffered, received, Event::Idle]);
    assert!(placed.is_progress() && !received.is_progress() && !Event::Idle.is_progress());
    Ok(())
}

#[test]
fn a_refused_buffer_comes_back() -> Result<()> {
    let [mut end, _] = ends()?;
    for _ in 0..256 {
        end.handle.post_recv_buffer(end.stream, Buffer::new(1)?)?;
        end.handle.post_send_buffer(end.stream, Buffer::new(1)?, NONE, 0)?;
    }
    let refused = end.handle.post_recv_buffer(end.stream, Buffer::copy_of(b"receive")?).unwrap_err();
    assert_eq!((refused.error, &refused.buffer[..]), (Error::BuffersFull, &b"receive"[..]));
    let refused = end.handle.post_send_buffer(end.stream, Buffer::copy_of(b"send")?, NONE, 0).unwrap_err();
    assert_eq!((refused.error, &refused.buffer[..]), (Error::MessagesFull, &b"send"[..]));
    let refused =
        end.handle.post_write_buffer(Stream::new(5), Stag::new(1), 0, Buffer::copy_of(b"write")?, 0).unwrap_err();
    assert_eq!((refused.error, &refused.buffer[..]), (Error::NoSuchStream, &b"write"[..]));
    assert_eq!(end.handle.post_recv(end.stream, 16_777_217), Err(Error::BufferTooLong));
    Ok(())
}

/// A stream that ends hands back all that was posted, in order.
#[test]
fn what_was_posted_is_handed_back() -> Result<()> {
    let [mut end, _] = ends()?;
    end.handle.post_recv_buffer(end.stream, Buffer::copy_of(b"first")?)?;
    end.handle.post_recv_buffer(end.stream, Buffer::copy_of(b"second")?)?;
    end.handle.post_send_buffer(end.stream, Buffer::copy_of(b"unsent")?, NONE, 7)?;
    end.handle.break_link(end.stream)?;
    assert_eq!(end.event()?, Event::Flushed { message: Message::Send, token: 7 });
    assert_eq!(&end.handle.fetch_sent(end.stream)?[..], b"unsent");
    for octets in [&b"first"[..], b"second"] {
        assert_eq!(end.event()?, Event::FlushedReceive { len: octets.len() as u64 });
        let received = end.handle.fetch_buffer(end.stream)?;
        assert_eq!((&received.buffer[..], received.len), (octets, octets.len()));
    }
    assert_eq!(end.event()?, Event::Idle);
    assert_eq!(end.handle.post_recv(end.stream, 1), Err(Error::Ended));
    end.handle.close(end.stream)
}

#[test]
fn streams_of_a_domain_share_a_pool() -> Result<()> {
    let [mut a, mut b] = ends()?;
    assert_eq!(b.handle.post_shared(b.domain, 8), Err(Error::NotShared));
    b.handle.share(b.domain)?;
    assert_eq!(b.handle.share(b.domain), Err(Error::AlreadyShared));
    assert!(b.handle.take_shared_buffer(b.domain)?.is_none());
    b.stream = b.handle.open_shared_next(b.domain, Role::Preset, Options::CRC, b"")?;
    let picked = Stream::new(5);
    b.handle.open_shared(picked, b.domain, Role::Preset, Options::CRC, b"")?;
    assert_eq!(b.handle.post_recv(picked, 8), Err(Error::Shared));
    b.handle.post_shared(b.domain, 8)?;
    b.handle.post_shared_buffer(b.domain, Buffer::copy_of(b"spare")?)?;
    let refused = b.handle.post_shared_buffer(Domain::new(2), Buffer::copy_of(b"none")?).unwrap_err();
    assert_eq!((refused.error, &refused.buffer[..]), (Error::NoDomain, &b"none"[..]));
    a.handle.post_send(a.stream, b"hello", NONE, 0)?;
    a.carry(&mut b)?;
    assert!(matches!(b.event()?, Event::Received { len: 5, .. }));
    let received = b.handle.fetch_buffer(b.stream)?;
    assert_eq!((received.octets(), received.buffer.len()), (&b"hello"[..], 8));
    assert_eq!(b.handle.take_shared_buffer(b.domain)?.as_deref(), Some(&b"spare"[..]));
    assert!(b.handle.take_shared_buffer(b.domain)?.is_none());
    Ok(())
}

/// Two ends, the second with two buffers in a pool, and the frames of two Sends from one to the other.
fn two_sends() -> Result<([End; 2], [Vec<u8>; 2])> {
    let [mut a, mut b] = ends()?;
    b.handle.share(b.domain)?;
    for _ in 0..2 {
        b.handle.post_shared(b.domain, 600)?;
    }
    a.stream = a.handle.open_next(a.domain, Role::Preset, Options::MARKERS, b"")?;
    b.stream = b.handle.open_shared_next(b.domain, Role::Preset, Options::MARKERS, b"")?;
    let mut frames = [vec![0; 700], vec![0; 700]];
    for (frame, octet) in frames.iter_mut().zip([7, 8]) {
        a.handle.post_send(a.stream, &[octet; 600], NONE, 0)?;
        let (_, n) = a.handle.emit(a.stream, frame)?;
        frame.truncate(n);
    }
    Ok(([a, b], frames))
}

/// Of two Sends the second comes first, which binds a buffer of the pool. With a share of one the first then finds none.
#[test]
fn a_stream_keeps_to_its_share_of_a_pool() -> Result<()> {
    for share in [1, 2] {
        let ([_, mut b], [one, two]) = two_sends()?;
        assert_eq!(b.handle.deliver(b.stream, one.len() as u32, &two)?, Delivery::Kept);
        assert_eq!(b.handle.work_within(b.stream, share)?, Event::Idle);
        assert_eq!(b.handle.progress(b.stream)?.bound, 1);
        assert_eq!(b.handle.deliver(b.stream, 0, &one)?, Delivery::Kept);
        match b.handle.work_within(b.stream, share)? {
            Event::Fault(fault) => assert_eq!((share, fault), (1, Fault::UNTAGGED_NO_BUFFER)),
            event => assert!(share == 2 && matches!(event, Event::Received { len: 600, .. }), "{event:?}"),
        }
    }
    Ok(())
}

/// Of two Sends the second comes first, and with the first the stream has more than one buffer bound.
#[test]
fn a_stream_that_passes_a_mark_is_told() -> Result<()> {
    let ([_, mut b], [one, two]) = two_sends()?;
    assert_eq!(b.handle.deliver(b.stream, one.len() as u32, &two)?, Delivery::Kept);
    assert_eq!(b.handle.work_marked(b.stream, None, 1)?, Event::Idle);
    assert_eq!(b.handle.deliver(b.stream, 0, &one)?, Delivery::Kept);
    let event = b.handle.work_marked(b.stream, None, 1)?;
    assert!(matches!(event, Event::Buffered { msn: 1, above_mark: true, .. }), "{event:?}");
    assert_eq!(b.handle.progress(b.stream)?.bound, 2);
    assert!(matches!(b.handle.work_marked(b.stream, None, 1)?, Event::Received { len: 600, .. }));
    Ok(())
}

#[test]
fn octets_are_read_to_where_they_are_to_stand() -> Result<()> {
    let [mut a, mut b] = ends()?;
    b.handle.post_recv(b.stream, 8)?;
    a.handle.post_send(a.stream, b"hello", NONE, 0)?;
    let mut frames = Buffer::new(0)?;
    assert_eq!(a.handle.fill(a.stream, 65_536, &mut frames)?.stop, FillStop::All);
    assert!(b.handle.room(b.stream, 0)?.is_empty());
    assert_eq!(b.handle.room(b.stream, 1 << 30)?.len(), 65_536);
    assert_eq!(b.handle.room(b.stream, 8)?.came(9), Err(Error::NotLent));
    assert_eq!(b.handle.room(b.stream, 8)?.came(0), Err(Error::NotLent));
    // A place that is dropped takes nothing; and the frame comes in pieces.
    let _ = b.handle.room(b.stream, 100)?;
    for piece in frames.chunks(7) {
        let mut room = b.handle.room(b.stream, piece.len())?;
        room.copy_from_slice(piece);
        room.came(piece.len())?;
    }
    assert!(matches!(b.event()?, Event::Received { len: 5, .. }));
    let mut message = [0; 8];
    assert_eq!(b.handle.fetch(b.stream, &mut message)?, 5);
    assert_eq!(&message[..5], b"hello");
    // An ended stream lends a place, and drops what comes.
    b.handle.break_link(b.stream)?;
    let room = b.handle.room(b.stream, 65_536)?;
    assert_eq!(room.len(), 4096);
    room.came(10)
}

/// Octets in another order, by numbers that wrap.
#[test]
fn octets_come_in_any_order() -> Result<()> {
    let [mut a, mut b] = ends()?;
    b.handle.first_number(b.stream, u32::MAX)?;
    b.handle.post_recv(b.stream, 8)?;
    a.handle.post_send(a.stream, b"hello", NONE, 0)?;
    let mut frame = Buffer::new(0)?;
    assert_eq!(a.handle.emit_onto(a.stream, &mut frame)?, Emission::Frame { from: 0 });
    assert_eq!(a.handle.emit_onto(a.stream, &mut frame)?, Emission::Nothing);
    assert_eq!(b.handle.deliver(b.stream, 9, &frame[10..])?, Delivery::Kept);
    assert_eq!(b.handle.first_number(b.stream, 0), Err(Error::Late));
    assert_eq!(b.event()?, Event::Idle);
    assert_eq!(b.handle.deliver(b.stream, u32::MAX, &frame[..10])?, Delivery::Kept);
    assert!(matches!(b.event()?, Event::Received { len: 5, .. }));
    assert_eq!(b.handle.deliver(b.stream, 1 << 20, b"far")?, Delivery::Dropped);
    Ok(())
}

#[test]
fn frames_are_emitted_one_by_one_or_many() -> Result<()> {
    let [mut a, _] = ends()?;
    for token in 0..3 {
        a.handle.post_send(a.stream, &[1; 1000], NONE, token)?;
    }
    let due = a.handle.progress(a.stream)?.due as usize;
    assert_eq!(a.handle.emit(a.stream, &mut [0; 100]), Err(Error::NoRoom { needed: due }));
    let mut buffer = Buffer::copy_of(b"before")?;
    let filling = a.handle.fill(a.stream, 0, &mut buffer)?;
    assert_eq!((filling.frames, filling.octets, filling.stop), (1, due as u64, FillStop::More));
    assert_eq!((&buffer[..6], buffer.len()), (&b"before"[..], 6 + due));
    let filling = a.handle.fill(a.stream, 65_536, &mut buffer)?;
    assert_eq!((filling.frames, filling.stop), (2, FillStop::All));
    let progress = a.handle.progress(a.stream)?;
    assert_eq!((progress.sent as usize, progress.due, progress.in_order), (buffer.len() - 6, 0, 0));
    assert!(!a.handle.wants_write(a.stream)?);
    Ok(())
}

/// The calls of `iwarp.h` with structs that begin with their size, which the safe types do without.
#[test]
fn structs_that_begin_with_their_size() -> Result<()> {
    use iwarp::raw;
    let [mut a, mut b] = ends()?;
    let posting = raw::iwarp_posting {
        size: std::mem::size_of::<raw::iwarp_posting>(),
        kind: raw::IWARP_MESSAGE_SEND,
        token: 7,
        ..Default::default()
    };
    let short = raw::iwarp_posting { size: 87, ..posting };
    let mut region = raw::iwarp_region { size: std::mem::size_of::<raw::iwarp_region>(), ..Default::default() };
    let stag = a.handle.register(a.domain, 4096, b"abcd", Rights::WRITE)?;
    let (at, stream) = (a.handle.as_raw(), a.stream.number());
    // SAFETY: the handle is as the last call on it left it, each struct is whole, and 5 octets can be read.
    unsafe {
        assert_eq!(raw::iwarp_post(at, stream, &short, b"hello".as_ptr(), 5), raw::IWARP_BAD_STRUCT);
        assert_eq!(raw::iwarp_post(at, stream, &posting, b"hello".as_ptr(), 5), raw::IWARP_OK);
        assert_eq!(raw::iwarp_region_facts(at, stag.number(), &mut region), raw::IWARP_OK);
    }
    assert_eq!((region.facts.base, region.facts.len, region.facts.rights), (4096, 4, raw::IWARP_WRITE));
    b.handle.post_recv(b.stream, 8)?;
    a.carry(&mut b)?;
    assert_eq!(a.event()?, Event::Done { message: Message::Send, token: 7 });
    assert!(matches!(b.event()?, Event::Received { len: 5, .. }));
    Ok(())
}

/// An error is one of input and output too, and keeps its reason.
#[test]
fn errors_become_those_of_input_and_output() -> std::io::Result<()> {
    fn open() -> std::io::Result<Stream> {
        Ok(Handle::new()?.open_next(Domain::new(3), Role::Preset, Options::NONE, b"")?)
    }
    let error = open().unwrap_err();
    assert_eq!(
        (error.kind(), error.to_string()),
        (std::io::ErrorKind::NotFound, "the domain was not added: call iwarp_add_domain first".to_string())
    );
    Ok(())
}
