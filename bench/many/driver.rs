//! Serves connections without end at one endpoint, in `crates/bench_many`. It prints what they hold and what each takes, and
//! ends with status 1 where a limit is missed. Then it reads connections that stay. Memory is counted as the allocator hands it out. Times
//! are the processor's time of this thread, the least of several runs that go by turns.

#[path = "../clock.rs"]
mod clock;
#[path = "../results.rs"]
mod results;
#[path = "../stream/heap.rs"]
mod heap;

use heap::most_held;

const TURNS: usize = 7;

/// How many connections there are at a time.
const ALIVE: u32 = 1_000;

/// What each Write carries; and a short one.
const WRITE: usize = 4_096;
const FEW: usize = 64;

/// The octets of the four regions, which are not counted.
const REGIONS: usize = 4 << 24;

/// How much more may be held at the most by many connections than by the first thousand.
const MAX_HELD: f64 = 1.05;

/// How much longer the look-up of a stream may take beside 100,000 than alone.
const MAX_LOOK: f64 = 1.1;

/// How many octets each of 10,000 idle streams may hold.
const MAX_IDLE: f64 = 2_700.0;

/// How many octets each of 4,000 streams may hold that brought few, by reads of as many as a read takes.
const MAX_FEW: f64 = 12_000.0;

/// How many octets each of 10,000 streams that have ended may hold.
const MAX_ENDED: f64 = 4_096.0;

/// How many octets an endpoint with a domain and no stream may hold.
const MAX_EMPTY: f64 = 2_048.0;

/// How many endpoints of 64 streams there are, one after the other.
const HANDLES: u32 = 1_563;

const LOOK_UPS: u64 = 50_000_000;

const IDLE: u32 = 10_000;

/// How many connections are read and stay.
const READ: u32 = 4_000;

unsafe extern "C" {
    fn many_serve(connections: u32, alive: u32, octets: *const u8, n: usize) -> u32;
    fn many_read(connections: u32, most: usize, octets: *const u8, n: usize) -> u32;
    fn many_idle(streams: u32, shares: bool) -> u32;
    fn many_handles(endpoints: u32, octets: *const u8, n: usize) -> u32;
    fn many_ended(streams: u32) -> u32;
    fn many_look(streams: u32, rounds: u64) -> u64;
}

fn serve(connections: u32, alive: u32) {
    let octets = [7; WRITE];
    assert_eq!(unsafe { many_serve(connections, alive, octets.as_ptr(), octets.len()) }, connections);
}

fn read(connections: u32, most: usize, octets: &[u8]) {
    assert_eq!(unsafe { many_read(connections, most, octets.as_ptr(), octets.len()) }, connections);
}

fn handles(endpoints: u32) {
    let octets = [7; WRITE];
    assert_eq!(unsafe { many_handles(endpoints, octets.as_ptr(), octets.len()) }, endpoints);
}

fn ended(streams: u32) -> usize {
    most_held(|| assert_eq!(unsafe { many_ended(streams) }, streams))
}

fn idle(streams: u32, shares: bool) -> usize {
    most_held(|| assert_eq!(unsafe { many_idle(streams, shares) }, streams))
}

fn look(streams: u32, rounds: u64) {
    assert_eq!(unsafe { many_look(streams, rounds) }, rounds);
}

/// The time of a run, in microseconds.
fn time(run: impl Fn()) -> f64 {
    let before = clock::now();
    run();
    (clock::now() - before) / 1_000.0
}

/// What is wanted, and whether it is had.
struct Wanted {
    missed: usize,
}

impl Wanted {
    fn at_most(&mut self, what: &str, value: f64, most: f64, unit: &str) {
        let places = if most > 100.0 { 0 } else { 3 };
        self.missed += usize::from(!results::at_most(what, value, places, most, unit));
    }
}

/// What is held at the most, and what a connection takes.
fn judge_served(connections: u32, alive: u32, wanted: &mut Wanted) {
    let mut took = 0.0;
    let first = most_held(|| serve(ALIVE, alive)) - REGIONS;
    let all = most_held(|| took = time(|| serve(connections, alive))) - REGIONS;
    println!("{connections} connections, {alive} at a time: {:.1} microseconds each, {all} octets held", took / f64::from(connections));
    let what = format!("{connections} connections, {alive} at a time");
    wanted.at_most(&what, all as f64 / first as f64, MAX_HELD, "held, to the first 1000");
}

/// The same connections, at a new endpoint for each 64.
fn judge_handles() {
    let mut took = 0.0;
    let held = most_held(|| took = time(|| handles(HANDLES))) - REGIONS;
    let connections = 64 * HANDLES;
    println!("{connections} connections, a new endpoint for each 64: {:.1} microseconds each, {held} octets held", took / f64::from(connections));
}

/// The least time of a look-up beside so many streams: with look-ups, less the same without.
fn look_up(streams: u32, turns: usize) -> f64 {
    let least = |rounds| (0..turns).map(|_| time(|| look(streams, rounds))).fold(f64::INFINITY, f64::min);
    (least(LOOK_UPS) - least(0)) / LOOK_UPS as f64
}

/// What each connection that was read holds, by reads of at most so many octets; 0 for as many as a read takes.
fn show_read(most: usize) {
    let mut took = 0.0;
    let held = most_held(|| took = time(|| read(READ, most, &[7; WRITE]))) - REGIONS;
    let each = (took / f64::from(READ), held as f64 / f64::from(READ));
    let most = if most == 0 { 65_536 } else { most };
    results::row(&format!("a stream read by {most}"), each.0, 1, "us a connection");
    results::row(&format!("a stream read by {most}"), each.1, 0, "octets");
}

fn main() {
    let turns = std::env::args().nth(1).and_then(|word| word.parse().ok()).unwrap_or(TURNS);
    let mut wanted = Wanted { missed: 0 };
    judge_served(10_000, ALIVE, &mut wanted);
    judge_served(100_000, 1, &mut wanted);
    judge_served(1_000_000, 1, &mut wanted);
    judge_handles();
    let (alone, beside) = (look_up(1, turns), look_up(100_000, turns));
    println!("a look-up alone: {:.2} ns", alone * 1_000.0);
    wanted.at_most("a look-up beside 100,000 streams", beside / alone, MAX_LOOK, "times alone");
    wanted.at_most("an endpoint without streams", idle(0, false) as f64, MAX_EMPTY, "octets");
    let a_stream = |shares| idle(IDLE, shares) as f64 / f64::from(IDLE);
    wanted.at_most("an idle stream of 10,000", a_stream(false), MAX_IDLE, "octets");
    results::row("one that shares a pool", a_stream(true), 0, "octets");
    wanted.at_most("a stream that has ended", ended(IDLE) as f64 / f64::from(IDLE), MAX_ENDED, "octets");
    let few = most_held(|| read(READ, 0, &[7; FEW])) - REGIONS;
    wanted.at_most("a stream that brought few octets", few as f64 / f64::from(READ), MAX_FEW, "octets");
    [0, 16_384, 4_096, 512].into_iter().for_each(show_read);
    std::process::exit((wanted.missed > 0).into());
}
