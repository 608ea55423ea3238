//! Times the proved code beside hand-written Rust: the sheet reader on the largest sound sheet, and in both kinds of time
//! closings of matrices of three sizes, growths, sees, waits and follows. A line has what was done, and the microseconds of
//! each.
mod closing;
mod growth;
mod reader;
mod rounds;
mod sheets;
mod watch;

use sheets::Extra;
use std::hint::black_box;
use std::time::Duration;

type Closings = unsafe extern "C" fn(usize, u32) -> u64;
type Growths = unsafe extern "C" fn(*const u8, usize, u64, u32) -> u64;
type Waits = unsafe extern "C" fn(*const u8, usize, u32) -> u64;
type Follows = unsafe extern "C" fn(*const u8, usize, *const u8, usize, u32) -> u64;

unsafe extern "C" {
    fn read_sheet_rounds(bytes: *const u8, len: usize, rounds: u32) -> u64;
    fn close_whole_rounds(side: usize, rounds: u32) -> u64;
    fn close_split_rounds(side: usize, rounds: u32) -> u64;
    fn grow_whole_rounds(sheet: *const u8, len: usize, w: u64, rounds: u32) -> u64;
    fn grow_split_rounds(sheet: *const u8, len: usize, w: u64, rounds: u32) -> u64;
    fn see_whole_rounds(sheet: *const u8, len: usize, w: u64, rounds: u32) -> u64;
    fn see_split_rounds(sheet: *const u8, len: usize, w: u64, rounds: u32) -> u64;
    fn wait_whole_rounds(sheet: *const u8, len: usize, waits: u32) -> u64;
    fn wait_split_rounds(sheet: *const u8, len: usize, waits: u32) -> u64;
    fn follow_whole_rounds(sheet: *const u8, len: usize, recording: *const u8, long: usize, rounds: u32) -> u64;
    fn follow_split_rounds(sheet: *const u8, len: usize, recording: *const u8, long: usize, rounds: u32) -> u64;
    fn clock_gettime(clock: i32, at: *mut [i64; 2]) -> i32;
}

/// The processor's time that this thread has taken (Linux's clock 3): other work on the machine does not count.
fn now() -> Duration {
    let mut at = [0; 2];
    assert_eq!(unsafe { clock_gettime(3, &mut at) }, 0);
    Duration::new(at[0] as u64, at[1] as u32)
}

/// Both do the work so many times, in turn, and answer alike: the best time of each, for the work once, and the answer.
fn race(what: &str, rounds: u32, proved: impl Fn() -> u64, by_hand: impl Fn() -> u64) -> u64 {
    let mut best = [Duration::MAX; 2];
    let mut answers = Vec::new();
    for _ in 0..15 {
        let start = now();
        answers.push(proved());
        let between = now();
        answers.push(by_hand());
        best[0] = best[0].min(between - start);
        best[1] = best[1].min(now() - between);
    }
    assert!(answers.iter().all(|a| *a == answers[0]), "{what}: all answer alike");
    let [proved, by_hand] = best.map(|d| d.as_secs_f64() * 1e6 / f64::from(rounds));
    println!("{what}\t{proved:.4}\t{by_hand:.4}");
    answers[0]
}

fn read_by_hand(sheet: &[u8], rounds: u32) -> u64 {
    let mut place = reader::Network::smallest();
    let mut edges = 0u64;
    for _ in 0..rounds {
        let _ = black_box(reader::read_sheet(black_box(sheet), &mut place));
        edges = edges.wrapping_add(black_box(&place).edge_count as u64);
    }
    edges
}

fn reading() {
    let sheet = sheets::largest();
    assert_eq!(sheet.len(), 5430);
    let rounds = 2_000;
    let edges = race(
        "sheet reader",
        rounds,
        || unsafe { read_sheet_rounds(black_box(sheet.as_ptr()), sheet.len(), rounds) },
        || read_by_hand(black_box(&sheet), rounds),
    );
    assert_eq!(edges, u64::from(rounds) * 128, "the sheet is sound");
}

fn closings(name: &str, proved: Closings, by_hand: fn(usize, u32) -> u64) {
    for side in [3usize, 6, 10] {
        let rounds = 2_000_000 / (side * side * side) as u32;
        race(
            &format!("closing, {name}, side {side}"),
            rounds,
            || unsafe { proved(black_box(side), rounds) },
            || by_hand(black_box(side), rounds),
        );
    }
}

/// So many growths or sees that they take about a hundredth of a second, each with so many entries.
fn entries_in(name: &str, sheet: &[u8], w: u64, proved: Growths, by_hand: fn(&[u8], u64, u32) -> u64) {
    let start = now();
    let entries = by_hand(sheet, w, 1);
    let rounds = (0.01 / (now() - start).as_secs_f64()).clamp(1.0, 10_000.0) as u32;
    let all = race(
        &format!("{name}, {entries} entries"),
        rounds,
        || unsafe { proved(black_box(sheet.as_ptr()), sheet.len(), w, rounds) },
        || by_hand(black_box(sheet), w, rounds),
    );
    assert!(entries > 0, "there is room");
    assert_eq!(all, entries * u64::from(rounds), "each takes the same entries");
}

fn growth(name: &str, sheet: &[u8], w: u64) {
    entries_in(&format!("growth, whole ticks, {name}"), sheet, w, grow_whole_rounds, rounds::grows::<closing::Whole>);
    entries_in(&format!("growth, split ticks, {name}"), sheet, w, grow_split_rounds, rounds::grows::<closing::Split>);
}

fn growths() {
    let full = sheets::full();
    for w in [0, 1, 3, 7, 11, 1000] {
        growth(&format!("60 edges, to tick {w}"), &full, w);
    }
    for clocks in [1, 2, 4, 6, 8] {
        growth(&format!("{clocks} clocks, 36 edges"), &sheets::with_clocks(clocks), 1000);
    }
    for (name, extra) in [("idle", Extra::Idle), ("alone", Extra::Alone), ("in pairs", Extra::Pairs)] {
        for count in [8, 32, 128] {
            growth(&format!("{count} edges, the more {name}"), &sheets::with_edges(extra, count), 1000);
        }
    }
}

fn see(name: &str, sheet: &[u8], w: u64) {
    entries_in(&format!("see, whole ticks, {name}"), sheet, w, see_whole_rounds, rounds::sees::<closing::Whole>);
    entries_in(&format!("see, split ticks, {name}"), sheet, w, see_split_rounds, rounds::sees::<closing::Split>);
}

fn sees() {
    see("bell", &sheets::bell(), 0);
    for w in [0, 1, 3, 7, 1000] {
        see(&format!("8 clocks, at tick {w}"), &sheets::seen(8), w);
    }
    for clocks in [1, 2, 4, 6] {
        see(&format!("{clocks} clocks, at tick 1000"), &sheets::seen(clocks), 1000);
    }
}

fn waits_in(name: &str, sheet: &[u8], count: u32, proved: Waits, by_hand: fn(&[u8], u32) -> u64) {
    let lasting = race(
        &format!("wait of a tick, {name}, the mean of {count}"),
        count,
        || unsafe { proved(black_box(sheet.as_ptr()), sheet.len(), count) },
        || by_hand(black_box(sheet), count),
    );
    assert_eq!(lasting, u64::from(count), "each wait lasts");
}

fn waits() {
    let bell = sheets::bell();
    let grid = sheets::with_clocks(8);
    waits_in("bell, whole ticks", &bell, 100_000, wait_whole_rounds, rounds::waits::<closing::Whole>);
    waits_in("bell, split ticks", &bell, 100_000, wait_split_rounds, rounds::waits::<closing::Split>);
    waits_in("8 clocks, whole ticks", &grid, 100, wait_whole_rounds, rounds::waits::<closing::Whole>);
    waits_in("8 clocks, split ticks", &grid, 100, wait_split_rounds, rounds::waits::<closing::Split>);
}

fn follows_in(name: &str, recording: &[u8], items: u64, proved: Follows, by_hand: fn(&[u8], &[u8], u32) -> u64) {
    let sheet = sheets::bell();
    let taken = race(
        &format!("item of a follow, bell, {name}, the mean of {items}"),
        items as u32,
        || unsafe { proved(black_box(sheet.as_ptr()), sheet.len(), black_box(recording.as_ptr()), recording.len(), 1) },
        || by_hand(black_box(&sheet), black_box(recording), 1),
    );
    assert_eq!(taken, items, "it is followed to its end");
}

fn follows() {
    let recording = sheets::rings(10_000);
    follows_in("whole ticks", &recording, 40_000, follow_whole_rounds, rounds::follows::<closing::Whole>);
    follows_in("split ticks", &recording, 40_000, follow_split_rounds, rounds::follows::<closing::Split>);
}

/// The time of one replay, by the clock on the wall.
fn replay_in(name: &str, sheet: &[u8], recording: &[u8], proved: Follows) {
    let start = std::time::Instant::now();
    let items = unsafe { proved(black_box(sheet.as_ptr()), sheet.len(), black_box(recording.as_ptr()), recording.len(), 1) };
    println!("replay of {name}: {items} items, {:.3} s", start.elapsed().as_secs_f64());
}

/// A million ticks in waits of one tick each, and a million ticks of bell's rings.
fn replays() {
    let idle = sheets::idle(1_000_000);
    let rings = sheets::rings(1_000_000 / 11);
    for (kind, proved) in [("whole", follow_whole_rounds as Follows), ("split", follow_split_rounds)] {
        replay_in(&format!("a million waits of a tick, bell, {kind} ticks"), &sheets::bell(), &idle, proved);
        replay_in(&format!("rings over a million ticks, bell, {kind} ticks"), &sheets::bell(), &rings, proved);
    }
}

fn main() {
    if std::env::args().nth(1).as_deref() == Some("replay") {
        return replays();
    }
    reading();
    closings("whole ticks", close_whole_rounds, closing::rounds::<closing::Whole>);
    closings("split ticks", close_split_rounds, closing::rounds::<closing::Split>);
    growths();
    sees();
    waits();
    follows();
}
