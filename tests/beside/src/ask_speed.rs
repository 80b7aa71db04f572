//! Times an ask of a diary, on the Rust and on slot, over the same file of records. In the Rust
//! only the asks are timed, without reading or printing. Slot is timed as a process, and the time
//! of a stream is taken off in which a record that is refused unread stands for each ask, so that
//! starting, reading and most of the printing do not count.

use crate::compare::Stream;
use crate::records::{encode, Known, Record};
use crate::reference::Reference;
use crate::side::Side;
use crate::speed::timed_on;
use std::hint::black_box;
use std::path::Path;
use std::time::Instant;

/// Runs of each, of which the least counts.
const RUNS: usize = 5;
/// From one booking's start to the next.
const PERIOD: u64 = 1_000;

struct Input {
    what: &'static str,
    capacity: u64,
    calendar: bool,
    kind: u8,
    units: u64,
    asks: u64,
}

const INPUTS: [Input; 4] = [
    Input { what: "gap walk, 64 bookings", capacity: 1, calendar: false, kind: 5, units: 1, asks: 1_000_000 },
    Input { what: "capacity 3, 64 bookings", capacity: 3, calendar: false, kind: 5, units: 2, asks: 100_000 },
    Input { what: "the same with 32 windows and 32 blocks", capacity: 3, calendar: true, kind: 5, units: 2, asks: 100_000 },
    Input { what: "the same, resumable", capacity: 3, calendar: true, kind: 6, units: 2, asks: 100_000 },
];

/// A full diary. Bookings overlap where the capacity is above 1; each has a small gap behind it.
fn diary(input: &Input) -> Vec<Record> {
    let mut records = vec![Record::new(1, &[input.capacity])];
    for k in 0..64 {
        let start = k * PERIOD + 10 * (k % 7);
        let length = if input.capacity == 1 { PERIOD - 100 } else { 2 * PERIOD + 300 };
        records.push(Record::new(4, &[start, start + length, 1 + k % input.capacity.min(2)]));
    }
    if input.calendar {
        for k in 0..32 {
            records.push(Record::new(2, &[2 * k * PERIOD, (2 * k + 2) * PERIOD]));
            records.push(Record::new(3, &[2 * k * PERIOD + 700, 2 * k * PERIOD + 730]));
        }
    }
    records
}

/// Asks from all over the diary, of spans that fit early, late and (with a calendar) never.
fn asks(input: &Input) -> impl Iterator<Item = Record> + '_ {
    (0..input.asks).map(|k| {
        let from = k * 7919 % (64 * PERIOD);
        let span = [20, 90, 150, 400, 900][(k % 5) as usize];
        Record::new(input.kind, &[from, span, input.units])
    })
}

/// Nanoseconds of an ask in the Rust, and the sum of the starts.
fn rust(bytes: &[u8]) -> (f64, u64) {
    let mut side = Reference::new(false);
    let (asks, diary): (Vec<Record>, Vec<Record>) =
        Stream::read(bytes, Known::Slot).records.into_iter().partition(|r| r.kind >= 5);
    diary.iter().for_each(|record| drop(side.take(record)));
    let timeline = side.timeline();
    let (mut sum, began) = (0, Instant::now());
    for ask in &asks {
        let (from, span, units) =
            (ask.numbers[0] as i64, ask.numbers[1] as i64, ask.numbers[2] as i32);
        let found = match ask.kind {
            5 => black_box(timeline).earliest_fit(from, span, units),
            _ => black_box(timeline).earliest_resumable(from, span, units).map(|f| f.0),
        };
        sum += found.map_or(0, |s| s as u64);
    }
    (began.elapsed().as_secs_f64() * 1e9 / asks.len() as f64, sum)
}

/// The sum of the starts that slot printed.
fn starts(printed: &str) -> u64 {
    printed.lines().filter_map(|l| l.split(' ').nth(1)?.parse::<u64>().ok()).sum()
}

pub fn run(programs: &Path) -> bool {
    let slot = programs.join("slot");
    if !slot.exists() {
        println!("slot: not there yet");
        return true;
    }
    let mut good = true;
    for input in &INPUTS {
        let mut records = diary(input);
        let unread = Record::new(1, &[u64::from(u32::MAX)]);
        let idle: Vec<Record> =
            records.iter().cloned().chain((0..input.asks).map(|_| unread.clone())).collect();
        records.extend(asks(input));
        let streams = [encode(&records), encode(&idle)];
        let (mut least, mut sum) = ([f64::MAX; 2], 0);
        let mut ours = f64::MAX;
        for _ in 0..RUNS {
            let (each, starts_here) = rust(&streams[0]);
            (ours, sum) = (ours.min(each), starts_here);
            for (part, bytes) in streams.iter().enumerate() {
                let (seconds, printed) = timed_on(&slot, bytes);
                least[part] = least[part].min(seconds);
                good &= part == 1 || starts(&printed) == sum;
            }
        }
        let slots = (least[0] - least[1]) * 1e9 / input.asks as f64;
        println!(
            "{}: {} asks, sum of starts {sum}\n  the Rust {ours:.0} ns an ask, slot {slots:.0} ns, {:.2} times the Rust's",
            input.what, input.asks, slots / ours
        );
    }
    if !good {
        println!("slot DIFFERS from the Rust in a sum of starts");
    }
    good
}
