//! Carries messages from stream to stream: by `iw_stream`, by a peer in plain Rust, and by copies and CRCs alone. It prints
//! ratios of their times, and ends with status 1 where one is below what is wanted. It reads the processor's time of this
//! thread, in which other work shows little, and takes the least time of many short runs that go by turns: what else the
//! machine does harms all of them alike.
//!
//! Its argument is the number of turns. After the word `crc` it compares the speed of the two CRCs, and nothing else.

#[path = "../bit_by_bit.rs"]
mod bit_by_bit;
#[path = "../clock.rs"]
mod clock;
#[path = "../results.rs"]
mod results;
mod copies;
mod heap;
mod held;
mod load;
mod ours;
mod peer;
mod row;
mod rows;

use held::Held;
use load::Load;
use row::Row;
use std::hint::black_box;

const TURNS: usize = 300;

/// How much more the time of an octet may be in a load that is longer.
const MAX_GROWTH: f64 = 1.15;
const MAX_GROWTH_APART: f64 = 1.3;

/// What the two copies and the CRC of the receiving side are to be of its time: in order, and in every other order.
const RECEIVED: f64 = 0.72;
const RECEIVED_EARLY: f64 = 0.48;

/// How much more a frame may take that is placed before its turn, and a delivery whose markers lie.
const MAX_EARLY: f64 = 1.5;
const MAX_LYING: f64 = 10.0;

/// How much more a Send may take whose buffer comes from a pool.
const MAX_POOLED: f64 = 1.1;

const GROWTH_TRIES: usize = 5;

/// How many octets an idle stream may hold.
const MAX_IDLE: f64 = 2_560.0;

/// What is wanted, and whether it is had.
struct Wanted {
    missed: usize,
}

impl Wanted {
    fn at_least(&mut self, what: &str, value: f64, least: f64, unit: &str) {
        self.missed += usize::from(!results::at_least(what, value, 2, least, unit));
    }

    fn at_most(&mut self, what: &str, value: f64, most: f64, unit: &str) {
        let places = if most > 100.0 { 0 } else { 2 };
        self.missed += usize::from(!results::at_most(what, value, places, most, unit));
    }
}

fn row<'a>(rows: &'a [Row], name: &str) -> &'a Row {
    rows.iter().find(|row| row.name == name).unwrap_or_else(|| panic!("no row {name}"))
}

fn print_rows(rows: &[Row]) {
    println!("| | ns a frame | peer | copies | in cache | peer to copies |");
    println!("|---|---|---|---|---|---|");
    for row in rows {
        println!(
            "| {} | {:.0} | {:.2} | {:.2} | {:.2} | {:.2} |",
            row.name,
            row.a_frame(),
            row.to_peer(),
            row.to_copies(),
            row.to_cache(),
            row.peer_to_copies()
        );
    }
}

fn print_held(held: &[Held]) {
    for Held { name, ours, peer } in held {
        println!("| {name} | {ours:.0} | {peer:.0} |");
    }
}

/// The units of rows: the peer's time to ours, and that of the copies that are needed, with a CRC where there is one.
const PEER: &str = "peer";
const COPIES: &str = "copies";

/// How much more an octet takes in the second of these rows.
fn growth(rows: &[Row], fewer: &str, more: &str) -> f64 {
    row(rows, more).an_octet() / row(rows, fewer).an_octet()
}

fn judge_rows(rows: &[Row], wanted: &mut Wanted) {
    let (plain, framed) = (row(rows, "plain"), row(rows, "markers and CRCs"));
    results::row("plain", plain.a_frame(), 0, "ns a frame");
    for (name, least) in [
        ("plain", 0.8),
        ("markers and CRCs", 0.95),
        ("receiving side, plain", 0.85),
        ("receiving side, markers", 0.85),
        ("receiving side, markers and CRCs", 0.85),
        ("reads, ULPDU 1,400, plain", 1.15),
        ("reads, ULPDU 1,400, markers and CRCs", 1.0),
        ("reads, ULPDU 64,512, plain", 1.3),
        ("reads, ULPDU 64,512, markers and CRCs", 1.0),
    ] {
        wanted.at_least(name, row(rows, name).to_peer(), least, PEER);
    }
    for name in ["Sends, plain", "deliveries of 100 octets, plain", "deliveries of 100 octets, markers and CRCs", "64 streams by turns, plain"] {
        results::at_least(name, row(rows, name).to_peer(), 2, 0.8, PEER);
    }
    wanted.at_least("receiving side, plain", row(rows, "receiving side, plain").to_copies(), 0.42, COPIES);
    for (name, without) in [
        ("start-up frames, plain", "plain"),
        ("start-up frames, markers", "markers"),
        ("start-up frames, markers and CRCs", "markers and CRCs"),
    ] {
        wanted.at_most(name, growth(rows, without, name), 1.03, "times without");
    }
    wanted.at_least("plain", plain.to_cache(), 0.25, "copies in cache");
    wanted.at_least("markers and CRCs", framed.to_cache(), 0.72, "copies in cache");
    for (name, row, least) in [("plain", plain, 0.55), ("markers and CRCs", framed, 0.75)] {
        wanted.at_least(name, row.peer_to_copies(), least, "copies to the peer's");
    }
}

/// The receiving side alone, with markers and CRCs: in order, and in the orders in which frames are placed before their turn.
fn judge_received(rows: &[Row], early: &[Row], wanted: &mut Wanted) {
    let in_order = row(rows, "receiving side, markers and CRCs");
    let all = || [(in_order, "in order", RECEIVED)].into_iter().chain(early.iter().map(|row| (row, row.name, RECEIVED_EARLY)));
    println!("The receiving side, with markers and CRCs:\n");
    println!("| | ns a frame | peer | two copies and a CRC | of the {RECEIVED} wanted in order |\n|---|---|---|---|---|");
    for (row, name, _) in all() {
        let ratio = row.to_copies();
        println!("| {name} | {:.0} | {:.2} | {ratio:.2} | {:.2} |", row.a_frame(), row.to_peer(), ratio / RECEIVED);
    }
    println!();
    for (row, name, least) in all() {
        wanted.at_least(&format!("received {name}"), row.to_copies(), least, COPIES);
    }
}

fn judge_limits(rows: &[Row], limits: &[Row], wanted: &mut Wanted) {
    for (name, fewer, more) in [
        ("first frame last, plain", "first frame last, 62,000 octets, plain", "first frame last, 225,000 octets, plain"),
        ("first frame last, markers", "first frame last, 62,000 octets, markers", "first frame last, 225,000 octets, markers"),
        (
            "first frame last, markers, ULPDU 128",
            "the same in ULPDUs of 128, 53,000 octets, markers",
            "the same in ULPDUs of 128, 190,000 octets, markers",
        ),
        (
            "every second first, 100 islands to 900",
            "every second first, 100 islands, ULPDU 128, markers",
            "every second first, 900 islands, ULPDU 128, markers",
        ),
    ] {
        let (fewer, more) = (row(limits, fewer), row(limits, more));
        let peer = more.peer_an_octet() / fewer.peer_an_octet();
        println!("growth of the peer's time of an octet, {name}: {peer:.2}");
        let ours = more.an_octet() / fewer.an_octet();
        wanted.at_most(name, ours, MAX_GROWTH_APART, "growth");
    }
    let fewest = row(rows, "plain").an_octet();
    let longest = row(limits, "Writes of 16 MiB, plain").an_octet();
    println!("an octet of a Write of 16 MiB, to one of 16 KiB, plain: {:.2}", longest / fewest);
}

/// Times 16 MiB and 64 MiB, and tells how much more an octet takes in these. Such long runs find little quiet on a machine
/// that does other work: they get more turns where that seems to be too much.
fn time_growth(name: &'static str, load: Load, turns: usize) -> f64 {
    let [mut fewer, mut more] = [16 << 20, 64 << 20].map(|octets| Row::new(name, load.carrying(octets)));
    let mut growth = f64::MAX;
    for _ in 0..GROWTH_TRIES {
        for _ in 0..turns {
            fewer.turn_ours();
            more.turn_ours();
        }
        growth = more.an_octet() / fewer.an_octet();
        if growth <= MAX_GROWTH {
            break;
        }
    }
    growth
}

fn judge_growth(turns: usize, wanted: &mut Wanted) {
    let swapped = |load| Load { batch: 2, late: 2, ..load };
    for (name, load) in [
        ("plain", Load::PLAIN),
        ("plain, pairs swapped", swapped(Load::PLAIN)),
        ("markers and CRCs", Load::FRAMED),
        ("markers and CRCs, pairs swapped", swapped(Load::FRAMED)),
    ] {
        let growth = time_growth(name, load, turns);
        wanted.at_most(&format!("16 MiB to 64 MiB, {name}"), growth, MAX_GROWTH, "growth");
    }
}

/// Reads of 16 KiB beside Writes of as many octets, ours alone: the Writes' time to the Reads', and the Reads' growth.
fn judge_reads(turns: usize, wanted: &mut Wanted) {
    for (name, load) in [("plain", Load::PLAIN), ("markers and CRCs", Load::FRAMED)] {
        let reading = Load { reads: true, ..load };
        let [mut writes, mut reads] = [load, reading].map(|load| Row::new(name, load.carrying(16 << 20)));
        reads.try_out_ours();
        for _ in 0..turns {
            writes.turn_ours();
            reads.turn_ours();
        }
        wanted.at_least(&format!("Writes' time to Reads', {name}"), writes.an_octet() / reads.an_octet(), 0.8, "ratio");
        let growth = time_growth(name, reading, turns);
        wanted.at_most(&format!("16 MiB to 64 MiB, Reads, {name}"), growth, MAX_GROWTH, "growth");
    }
}

/// Sends to 64 streams by turns, whose 1,024 receive buffers come from one pool, beside the same over queues of their own.
fn judge_pool(turns: usize, wanted: &mut Wanted) {
    let load = Load { sends: true, message: 1_024, ahead: 15, pairs: 64, ..Load::PLAIN }.carrying(4 << 20);
    let [mut own, mut pooled] =
        [load, Load { pooled: true, ..load }].map(|load| Row::new("Sends of 1 KiB, 64 streams by turns", load));
    own.try_out_ours();
    pooled.try_out_ours();
    for _ in 0..turns {
        own.turn_ours();
        pooled.turn_ours();
    }
    let ratio = pooled.an_octet() / own.an_octet();
    wanted.at_most("a Send to 64 streams of a pool", ratio, MAX_POOLED, "times own queues");
}

/// Frames that are placed before their turn, beside the same in order, with markers and CRCs.
fn judge_early(turns: usize, wanted: &mut Wanted) {
    let mut rows = rows::early();
    for (in_order, early) in &rows {
        in_order.try_out();
        early.try_out();
    }
    for _ in 0..turns {
        for (in_order, early) in &mut rows {
            in_order.turn_both();
            early.turn_both();
        }
    }
    println!("Placed before their turn, with markers and CRCs:\n\n| | ns a frame | in order | to in order | peer |\n|---|---|---|---|---|");
    for (in_order, early) in &rows {
        let ratio = early.an_octet() / in_order.an_octet();
        println!("| {} | {:.0} | {:.0} | {ratio:.2} | {:.2} |", early.name, early.a_frame(), in_order.a_frame(), early.to_peer());
    }
    println!();
    for (in_order, early) in &rows {
        let ratio = early.an_octet() / in_order.an_octet();
        wanted.at_most(&format!("early, {}", early.name), ratio, MAX_EARLY, "times in order");
    }
}

/// The time of a delivery in each of two windows of as many, in nanoseconds.
fn time_windows(loads: [Load; 2], turns: usize) -> [f64; 2] {
    let octets = row::octets(loads[0].message + load::SHIFT);
    let deliveries = ours::window(&loads[0], &octets);
    assert_ne!(deliveries, 0);
    let mut least = [f64::MAX; 2];
    for _ in 0..turns {
        for (load, least) in loads.iter().zip(&mut least) {
            row::less(least, || assert_eq!(ours::window(load, &octets), deliveries));
        }
    }
    least.map(|time| time / deliveries as f64)
}

/// Windows whose markers lie, each beside the same deliveries of honest frames.
fn judge_lying(turns: usize, wanted: &mut Wanted) {
    let ratio = |(name, lying)| {
        let honest = Load { lying: false, cut: false, ..lying };
        let [honest, lying] = time_windows([honest, lying], turns);
        println!("| {name} | {lying:.0} | {honest:.0} | {:.2} |", lying / honest);
        (name, lying / honest)
    };
    println!("Deliveries of 1,408 octets past a hole, with markers:\n\n| | ns a delivery | honest | to honest |\n|---|---|---|---|");
    let ratios = rows::lying().map(ratio);
    println!();
    for (name, ratio) in ratios {
        wanted.at_most(name, ratio, MAX_LYING, "times honest ones");
    }
}

fn take_crcs(crc32c: fn(&[u8]) -> u32, octets: &[u8]) {
    for _ in 0..100 {
        black_box(crc32c(black_box(octets)));
    }
}

/// The time of our CRC of so many octets, to that of the peer's.
fn crc_to_peer(turns: usize, len: usize) -> f64 {
    let octets = row::octets(len);
    let (mut ours, mut peer) = (f64::MAX, f64::MAX);
    for _ in 0..turns {
        row::less(&mut ours, || take_crcs(ours::crc32c, &octets));
        row::less(&mut peer, || take_crcs(peer::crc::crc32c, &octets));
    }
    ours / peer
}

/// How fast the peer's CRC is beside that of `iw_crc`. The rows with CRCs have mostly frames of 1,400 octets.
fn judge_crc(turns: usize, wanted: &mut Wanted) {
    for len in [128, 508, 8_900, 64_512] {
        println!("CRC of {len} octets, our time to the peer's: {:.2}", crc_to_peer(turns, len));
    }
    wanted.at_least("CRC of 1,400 octets", crc_to_peer(turns, 1_400), 0.9, "times the peer's");
}

fn judge_all(turns: usize, wanted: &mut Wanted) {
    let (mut rows, mut limits, mut early) = (rows::rows(), rows::limits(), rows::received_early());
    for row in rows.iter().chain(&limits).chain(&early) {
        row.try_out();
    }
    for turn in 0..turns {
        for row in rows.iter_mut().chain(&mut limits).chain(&mut early) {
            row.turn(turn);
        }
    }
    println!("Ratios: the time of the peer, of the copies and of the copies in cache (each with the CRCs) to ours.\n");
    print_rows(&rows);
    println!("\nNear the limits:\n");
    print_rows(&limits);
    println!("\nOctets that are held:\n\n| | ours | peer |\n|---|---|---|");
    let idle = held::idle();
    print_held(&idle);
    print_held(&held::used());
    println!();
    judge_rows(&rows, wanted);
    judge_received(&rows, &early, wanted);
    for held in &idle {
        wanted.at_most(held.name, held.ours.round(), MAX_IDLE, "octets");
    }
    judge_limits(&rows, &limits, wanted);
    judge_growth(turns / 10 + 1, wanted);
    judge_reads(turns / 10 + 1, wanted);
    judge_pool(turns, wanted);
    judge_early(turns / 4 + 1, wanted);
    judge_lying(turns / 4 + 1, wanted);
}

fn main() {
    let mut words = std::env::args().skip(1).peekable();
    let is_crc_alone = words.next_if(|word| word == "crc").is_some();
    let turns = words.next().map_or(TURNS, |word| word.parse().expect("a number of turns"));
    bit_by_bit::must_agree("ours", ours::crc32c);
    bit_by_bit::must_agree("the peer's", peer::crc::crc32c);
    let mut wanted = Wanted { missed: 0 };
    if !is_crc_alone {
        judge_all(turns, &mut wanted);
    }
    judge_crc(turns, &mut wanted);
    std::process::exit(if wanted.missed == 0 { 0 } else { 1 });
}
