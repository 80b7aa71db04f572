//! Times offer and the Rust on a fixed file of records: a board of 16 full diaries and 1,000
//! orders, each with its requirements, its timings and one placing. There are two such files, one
//! for each of two boards, the same bytes every time, and each gives two ratios.
//!
//! The whole program: both sides as processes that read the file, and nothing is taken off.
//! A placing alone: in the Rust only the placings are timed, without reading; offer is timed as a
//! process, and the time of the same file is taken off in which a record that is refused unread
//! stands for each placing. The first is what one waits for who runs the program; the second
//! leaves out what reading costs.

use crate::compare::Stream;
use crate::records::{encode, Known, Record};
use crate::reference::Reference;
use crate::side::Side;
use crate::sources::scratch;
use crate::speed::timed;
use std::path::{Path, PathBuf};
use std::process::Command;
use std::time::Instant;

/// Runs of each, of which the least counts. A run is short, so there are many.
const RUNS: usize = 21;
/// From one booking's start to the next.
const PERIOD: u64 = 1_000;
const ORDERS: u64 = 1_000;

/// Sixteen full diaries of capacity 1 to 3, every other one with 32 windows and 32 blocks; four
/// types. With `all`, every resource takes one or two companions along, else every fifth takes one.
fn board(all: bool) -> Vec<Record> {
    let mut records = Vec::new();
    for n in 0..16 {
        let capacity = 1 + n % 3;
        records.push(Record::new(1, &[capacity]));
        for k in 0..64 {
            let start = k * PERIOD + 13 * ((k + n) % 7);
            let length = PERIOD - 100 + 400 * (capacity - 1);
            records.push(Record::new(4, &[start, start + length, 1]));
        }
        if n % 2 == 0 {
            for k in 0..32 {
                let begin = 3 * k * PERIOD + 17 * n;
                records.push(Record::new(2, &[begin, begin + 2 * PERIOD + 500]));
                records.push(Record::new(3, &[begin + 700, begin + 730]));
            }
        }
        let companions: &[u64] = match (all, n % 5) {
            (true, 0) => &[1, (n + 3) % 16],
            (true, _) => &[0],
            (false, 0) => &[(n + 3) % 16],
            (false, _) => &[],
        };
        let numbers: Vec<u64> = [n, n % 4, u64::MAX].iter().chain(companions).copied().collect();
        records.push(Record::new(16, &numbers));
    }
    records
}

/// The process time of an order, unless its timings give another.
fn process(k: u64) -> u64 {
    [20, 60, 150, 400, 900][(k % 5) as usize]
}

/// One to three requirements, one or two timings; every other order is resumable.
fn order(k: u64) -> Vec<Record> {
    let mut records = vec![Record::new(21, &[k % 16, 5, process(k), 5, k % 2, 0, 0, 0, 0])];
    for q in 0..1 + k % 3 {
        records.push(Record::new(22, &[(k + q) % 4, 0, 0, 1 + (k / 7) % 2, 1]));
    }
    records.extend((0..1 + k / 2 % 2).map(|t| timing(k, t)));
    records
}

/// A timing of a resource that serves the order: a speed or, by turns, own durations. The second
/// is of another resource, and of the next type where the order requires that too.
fn timing(k: u64, t: u64) -> Record {
    let number = (k + t.min(k % 3)) % 4 + 4 * ((k / 4 + t) % 4);
    if (k / 3 + t) % 2 == 0 {
        let speed: f64 = [0.5, 2.0, 1.5, 0.75][((k / 5 + t) % 4) as usize];
        return Record::new(23, &[number, speed.to_bits()]);
    }
    Record::new(24, &[number, 3 + k % 5, process(k) * (3 + k / 5 % 3) / 4, 8])
}

fn ready(k: u64) -> u64 {
    k * 7919 % (64 * PERIOD)
}

/// The file of a board: it, then each order with its placing, or with a record that is refused
/// unread instead.
fn stream(all: bool, placed: bool) -> Vec<u8> {
    let mut records = board(all);
    for k in 0..ORDERS {
        records.extend(order(k));
        records.push(match placed {
            true => Record::new(25, &[ready(k)]),
            false => Record::new(1, &[u64::from(u32::MAX)]),
        });
    }
    encode(&records)
}

/// Seconds of all placings in the Rust, and its replies.
fn rust(bytes: &[u8]) -> (f64, String) {
    let (mut side, mut seconds, mut text) = (Reference::new(false), 0.0, String::new());
    for record in &Stream::read(bytes, Known::Offer).records {
        let began = Instant::now();
        let reply = side.take(record);
        if record.kind == 25 {
            seconds += began.elapsed().as_secs_f64();
        }
        text += &reply;
    }
    (seconds, text)
}

/// The least seconds of each, over all runs.
struct Least {
    /// The Rust as a process.
    rust: f64,
    /// The placings alone in the Rust.
    placings: f64,
    /// Offer as a process.
    offer: f64,
    /// The same on the file without placings.
    unread: f64,
    /// Whether both processes always replied as the Rust does here, and offer refused each record
    /// that was to be refused, and no other.
    good: bool,
    /// How many orders were placed.
    placed: usize,
}

/// Times everything in turn on a file and on the same file without placings.
fn least(offer: &Path, bytes: &[u8], file: &Path, without: &Path) -> Least {
    let own = std::env::current_exe().expect("this program has a path");
    let most = f64::MAX;
    let mut least =
        Least { rust: most, placings: most, offer: most, unread: most, good: true, placed: 0 };
    for _ in 0..RUNS {
        let (whole, replied) =
            timed(Command::new(&own).args(["reply", "reference", "offer"]), file);
        let (placings, text) = rust(bytes);
        let (seconds, printed) = timed(&mut Command::new(offer), file);
        let (unread, refused) = timed(&mut Command::new(offer), without);
        least.rust = least.rust.min(whole);
        least.placings = least.placings.min(placings);
        least.offer = least.offer.min(seconds);
        least.unread = least.unread.min(unread);
        least.good &= printed == text && replied == text;
        least.good &= refused == "refused 1\n".repeat(ORDERS as usize);
        least.placed = text.lines().filter(|l| l.starts_with("placed")).count();
    }
    least
}

pub fn run(programs: &Path) -> bool {
    let offer = programs.join("offer");
    if !offer.exists() {
        println!("offer: not there yet");
        return true;
    }
    println!(
        "two fixed files of orders: the whole program and a placing alone on each, least of {RUNS}"
    );
    timed_board(&offer, true) & timed_board(&offer, false)
}

/// The files are written once, before any run, so that writing them never counts.
fn timed_board(offer: &Path, all: bool) -> bool {
    let bytes = stream(all, true);
    let files: [PathBuf; 2] = [scratch(), scratch().with_extension("unread")];
    for (file, bytes) in files.iter().zip([&bytes, &stream(all, false)]) {
        std::fs::write(file, bytes).expect("the build folder takes a stream");
    }
    let least = least(offer, &bytes, &files[0], &files[1]);
    for file in &files {
        let _ = std::fs::remove_file(file);
    }
    println!(
        "a file of {} bytes: 16 full diaries, {}, then {ORDERS} orders with timings, each placed once: {} placed",
        bytes.len(),
        if all { "all with companions" } else { "every fifth with a companion" },
        least.placed
    );
    tell(&least);
    least.good
}

/// Prints the two ratios.
fn tell(least: &Least) {
    let each = 1e6 / ORDERS as f64;
    println!(
        "  the whole program: the Rust {:.1} ms, {:.1} us an order, offer {:.1} ms, {:.1} us, {:.2} times the Rust's",
        least.rust * 1e3,
        least.rust * each,
        least.offer * 1e3,
        least.offer * each,
        least.offer / least.rust
    );
    let alone = least.offer - least.unread;
    println!(
        "  a placing alone: the Rust {:.1} us a placing, offer {:.1} us, {:.2} times the Rust's",
        least.placings * each,
        alone * each,
        alone / least.placings
    );
    if !least.good {
        println!("  the replies DIFFER: offer's, or those of the Rust as a process");
    }
}
