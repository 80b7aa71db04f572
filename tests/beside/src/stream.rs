//! Random record streams inside 01's limits.

use crate::paper::{Instants, FROM, INSTANT, UNITS};
use crate::paper_side::PaperSide;
use crate::random::{Random, Size, Times};
use crate::records::Record;
use crate::side::Side;

/// A stream as it grows: the reading of 01 takes each record, so that a commitment can name what
/// was placed, and so that refused records can be left out.
pub struct Builder {
    pub records: Vec<Record>,
    side: PaperSide,
}

impl Builder {
    pub fn new() -> Self {
        Self { records: Vec::new(), side: PaperSide::new(Instants::Events) }
    }

    /// Adds the record, unless it is refused; gives the reply.
    pub fn push(&mut self, kind: u8, numbers: &[u64]) -> String {
        let record = Record::new(kind, numbers);
        let reply = self.side.take(&record);
        if !reply.starts_with("refused") {
            self.records.push(record);
        }
        reply
    }
}

/// Windows and blocks of the calendar in hand, of one of several sorts.
fn calendar(r: &mut Random, t: &Times, b: &mut Builder) {
    let last = t.base + t.unit * t.count;
    match r.below(8) {
        0 => shifts(r, t, b, 0), // touching windows
        1 | 2 => {
            let gap = r.range(1, 3);
            shifts(r, t, b, gap)
        }
        3 => {
            // full, or nearly so
            for _ in 0..32 {
                b.push(2, &t.short_pair(r));
            }
            for _ in 0..r.pick(&[0, 3, 32]) {
                b.push(3, &t.short_pair(r));
            }
        }
        4 => {
            // one long window with breaks
            b.push(2, &[t.base, last]);
            for _ in 0..r.below(4) {
                b.push(3, &t.short_pair(r));
            }
        }
        5 => {
            // blocks alone
            for _ in 0..r.range(1, 3) {
                b.push(3, &t.short_pair(r));
            }
        }
        _ => {
            for _ in 0..r.below(4) {
                b.push(2, &t.pair(r));
            }
            for _ in 0..r.below(3) {
                b.push(3, &t.short_pair(r));
            }
        }
    }
}

/// Windows one behind the other with a gap, now and then a block.
fn shifts(r: &mut Random, t: &Times, b: &mut Builder, gap: u64) {
    let mut at = t.base + t.unit * r.below(2);
    while at < t.base + t.unit * t.count {
        let end = (at + t.unit * r.range(1, 6)).min(INSTANT);
        b.push(2, &[at, end]);
        at = end + t.unit * gap;
    }
    if r.one_in(2) {
        b.push(3, &t.short_pair(r));
    }
}

/// A diary in hand. Gives the most units worth asking for.
fn diary(r: &mut Random, t: &Times, b: &mut Builder) -> u64 {
    let (capacity, units) = match r.below(12) {
        0 => (0, 2),
        1..=4 => (1, 2),
        5..=8 => (r.range(2, 4), 4),
        9 => (r.pick(&[UNITS, 12_000, 3 * UNITS]), UNITS),
        10 => ((1 << 31) - 1, UNITS),
        _ => (r.range(1, 8), 8),
    };
    b.push(1, &[capacity]);
    if r.one_in(2) {
        calendar(r, t, b);
    }
    let bookings = match r.below(40) {
        0 => 64,
        1 => r.range(8, 63),
        _ => r.below(6),
    };
    for _ in 0..bookings {
        booking(r, t, b, units);
    }
    units
}

fn booking(r: &mut Random, t: &Times, b: &mut Builder, units: u64) {
    let [start, end] = if r.one_in(3) { t.pair(r) } else { t.short_pair(r) };
    let units = some_units(r, units);
    b.push(4, &[start, end, units]);
}

fn some_units(r: &mut Random, most: u64) -> u64 {
    match r.below(8) {
        0 => most,
        1..=3 => r.range(1, most),
        _ => 1,
    }
}

/// Kinds 1 to 6: diaries with asks, more bookings in between.
pub fn slot(r: &mut Random, size: Size, diaries: usize) -> Vec<Record> {
    let mut b = Builder::new();
    for _ in 0..diaries {
        let t = Times::new(r, size);
        let units = diary(r, &t, &mut b);
        for _ in 0..r.range(2, 12) {
            let kind = r.pick(&[5, 6]);
            let (from, span, units) = (t.from(r), t.span(r), some_units(r, units));
            b.push(kind, &[from, span, units]);
            if r.one_in(6) {
                booking(r, &t, &mut b, units);
            }
        }
    }
    b.records
}

/// Kinds 2, 3 and 32 to 37: calendars alone and together. Now and then a kind 38, with a new
/// layout behind it.
pub fn calendars(r: &mut Random, size: Size, cases: usize) -> Vec<Record> {
    let mut b = Builder::new();
    for _ in 0..cases {
        let t = Times::new(r, size);
        let listed = match r.below(20) {
            0 => 25,
            1 => r.range(5, 24),
            _ => r.pick(&[0, 1, 1, 2, 2, 3, 4]),
        };
        for _ in 0..listed {
            calendar(r, &t, &mut b);
            for _ in 0..r.below(4) {
                calendar_ask(r, &t, &mut b);
            }
            b.push(34, &[]);
        }
        if r.one_in(16) {
            let (rounds, from, step) =
                (r.below(4), t.from(r).min(INSTANT), r.below(3) * t.unit.min(1 << 30));
            b.push(38, &[rounds, from, step, t.span(r)]);
        }
        let from = t.from(r);
        b.push(35, &[from]);
        for _ in 0..r.range(1, 8) {
            // any instant from the layout's on, and the instants about it
            let start = if r.one_in(3) { from + r.below(4) } else { t.from(r).max(from) };
            b.push(36, &[start.min(FROM), t.span(r)]);
        }
        b.push(37, &[]);
    }
    b.records
}

fn calendar_ask(r: &mut Random, t: &Times, b: &mut Builder) {
    if r.one_in(2) {
        let instant = t.instant(r);
        b.push(33, &[instant]);
        return;
    }
    let [start, end] = match r.below(4) {
        0 => [t.instant(r); 2],
        1 => t.pair(r),
        _ => t.short_pair(r),
    };
    b.push(32, &[start, end]);
}

pub const SPEEDS: [f64; 14] =
    [0.25, 0.5, 0.5, 0.75, 1.0, 1.25, 1.5, 2.0, 2.0, 3.0, 4.0, 0.1 + 0.2, 1.0 / 3.0, 1.1];

/// Any speed from 0.25 to 4.
pub fn any_speed(r: &mut Random) -> f64 {
    0.25 + 3.75 * ((r.next() >> 11) as f64 / (1u64 << 53) as f64)
}

/// What the orders of a board draw from.
struct Draw {
    t: Times,
    /// The numbers on the board, in board order.
    numbers: Vec<u64>,
    kinds: u64,
    categories: u64,
    units: u64,
}

/// Kinds 1 to 4 and 16 to 26: one board and some orders, placed and committed.
pub fn offer(r: &mut Random, size: Size, orders: usize) -> Vec<Record> {
    let mut b = Builder::new();
    let draw = board(r, size, &mut b);
    for _ in 0..orders {
        if r.one_in(8) {
            matrix(r, &draw, &mut b);
        }
        order(r, &draw, &mut b);
        place_and_commit(r, &draw, &mut b);
    }
    b.records
}

fn board(r: &mut Random, size: Size, b: &mut Builder) -> Draw {
    let t = Times::new(r, size);
    let count = match r.below(12) {
        0 => 16,
        1 => r.range(8, 15),
        2 => r.range(1, 2),
        _ => r.range(3, 7),
    };
    let mut numbers: Vec<u64> = (0..16).collect();
    for k in 0..16 {
        numbers.swap(k, r.below(16) as usize);
    }
    numbers.truncate(count as usize);
    let mut draw = Draw {
        t,
        numbers,
        kinds: r.pick(&[1, 1, 2, 2, 3]),
        categories: r.pick(&[2, 3, 3, 16]),
        units: 1,
    };
    for &number in &draw.numbers {
        if !r.one_in(6) {
            draw.units = draw.units.max(diary(r, &t, b));
        }
        let skills = if r.one_in(8) { r.next() } else { 1 << 63 | (3 & !(1 << r.below(6))) };
        let mut body = vec![number, r.below(draw.kinds), skills];
        let companions = match r.below(12) {
            0..=2 => r.range(1, 2),
            3 => r.range(1, 4),
            _ => 0,
        };
        for _ in 0..companions {
            body.push(if r.one_in(12) { r.below(16) } else { r.pick(&draw.numbers) });
        }
        b.push(16, &body);
    }
    if r.one_in(2) {
        for _ in 0..r.range(1, count) {
            matrix(r, &draw, b);
        }
    }
    if r.one_in(2) {
        for _ in 0..r.range(1, 3 * count) {
            let ms = t.duration(r, 6);
            b.push(20, &[r.pick(&draw.numbers), r.pick(&draw.numbers), ms]);
        }
    }
    draw
}

/// A matrix with some entries, or entries alone.
fn matrix(r: &mut Random, draw: &Draw, b: &mut Builder) {
    let number = r.pick(&draw.numbers);
    if !r.one_in(4) {
        let (default, initial) = (draw.t.duration(r, 4), draw.t.duration(r, 4));
        b.push(17, &[number, default, initial]);
    }
    for _ in 0..r.below(2 * draw.categories.min(4)) {
        let ms = if r.one_in(6) { u64::MAX } else { draw.t.duration(r, 5) };
        let (last, this) = (r.below(draw.categories), r.below(draw.categories));
        match r.below(3) {
            0 => b.push(19, &[number, this, ms]),
            1 => b.push(18, &[number, this, this, ms]),
            _ => b.push(18, &[number, last, this, ms]),
        };
    }
}

fn order(r: &mut Random, draw: &Draw, b: &mut Builder) {
    let t = &draw.t;
    let own = r.one_in(4);
    if own {
        calendar(r, t, b);
    }
    let release = r.one_in(4);
    let come_from = if r.one_in(2) { r.below(1 << 16) } else { 0 };
    b.push(
        21,
        &[
            r.below(draw.categories),
            t.duration(r, 3),
            t.duration(r, 6),
            t.duration(r, 2),
            r.below(2),
            u64::from(release),
            if release { t.instant(r) } else { 0 },
            come_from,
            u64::from(own),
        ],
    );
    let requirements = match r.below(12) {
        0 => 0,
        1..=6 => 1,
        7..=9 => 2,
        _ => r.range(3, 4),
    };
    let mut left = 8 - requirements;
    for _ in 0..requirements {
        let most = r.pick(&[0, 0, 0, 0, 1, 1, 2, draw.numbers.len() as u64]);
        let more = r.below(1 + most.min(left));
        left -= more;
        let candidates = match r.below(6) {
            0 => r.next() & r.next() & 0xffff,
            1 => draw.numbers.iter().fold(0, |set, n| set | r.below(4).min(1) << n),
            _ => 0,
        };
        let skills = if r.one_in(4) { r.pick(&[1, 2, 3, 1 << 63, 1 << 63 | 1]) } else { 0 };
        let most = r.pick(&[1, 1, 1, 1, 1, 1, 2, 3, draw.units]);
        let usage = some_units(r, most);
        b.push(22, &[r.below(draw.kinds), candidates, skills, 1 + more, usage]);
    }
    if r.one_in(2) {
        timings(r, draw, b);
    }
}

/// Speeds alone, own durations alone, or both.
fn timings(r: &mut Random, draw: &Draw, b: &mut Builder) {
    let (t, sort) = (&draw.t, r.below(3));
    let few = r.pick(&[2, 3]);
    for number in 0..16 {
        if !r.one_in(if draw.numbers.contains(&number) { 2 } else { 8 }) {
            continue;
        }
        if sort == 0 || (sort == 2 && r.one_in(2)) {
            let (setup, process, teardown) =
                (t.duration(r, few), t.duration(r, few), t.duration(r, few));
            b.push(24, &[number, setup, process, teardown]);
        } else {
            let speed = if r.one_in(3) { any_speed(r) } else { r.pick(&SPEEDS) };
            b.push(23, &[number, speed.to_bits()]);
        }
    }
}

/// Places the order in hand, mostly commits it, now and then places it again.
fn place_and_commit(r: &mut Random, draw: &Draw, b: &mut Builder) {
    let t = &draw.t;
    loop {
        let ready = t.instant(r);
        let reply = b.push(25, &[ready]);
        let words: Vec<&str> = reply.split_whitespace().collect();
        if let ["placed", _, start, end, count, ..] = words[..] {
            let number = |w: &str| w.parse::<u64>().expect("a reply's number");
            match r.below(8) {
                0 => {}
                1 => {
                    let [start, end] = t.pair(r);
                    b.push(26, &[r.below(number(count) + 1), start, end]);
                }
                _ => {
                    b.push(26, &[number(count), number(start), number(end)]);
                }
            }
        }
        if !r.one_in(4) {
            return;
        }
    }
}
