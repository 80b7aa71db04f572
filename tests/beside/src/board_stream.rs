//! Random record streams of kinds 1 to 4, 16 to 24 and 40 to 43: one board that grows, and orders
//! whose durations, setups, transports and servings are asked, all inside 01's limits.

use crate::paper::DURATION;
use crate::random::Random;
use crate::records::Record;
use crate::stream::{any_speed, Builder, SPEEDS};

/// What the asks of a stream draw from.
struct Draw {
    /// The numbers still to be added.
    later: Vec<u64>,
    /// The numbers on the board with their skills.
    on: Vec<(u64, u64)>,
    kinds: u64,
    categories: u64,
}

/// One board and so many orders.
pub fn asks(r: &mut Random, orders: usize) -> Vec<Record> {
    let mut b = Builder::new();
    let mut later: Vec<u64> = (0..16).collect();
    for k in 0..16 {
        later.swap(k, r.below(16) as usize);
    }
    later.truncate(r.pick(&[1, 3, 6, 10, 15, 16]));
    let mut draw =
        Draw { later, on: vec![], kinds: r.pick(&[1, 2, 3, 256]), categories: r.pick(&[2, 3, 16]) };
    for _ in 0..orders {
        for _ in 0..r.below(4) {
            grow(r, &mut draw, &mut b);
        }
        let timed = order(r, &mut b);
        for _ in 0..r.range(10, 40) {
            lasting(r, &timed, &mut b);
        }
        if draw.on.is_empty() {
            continue;
        }
        for _ in 0..r.range(5, 30) {
            setup(r, &draw, &mut b);
            journey(r, &draw, &mut b);
            serves(r, &draw, &mut b);
        }
    }
    b.records
}

/// A duration: few small ones, so that totals are often equal, the edges, and any.
fn duration(r: &mut Random) -> u64 {
    match r.below(8) {
        0 => r.pick(&[0, 1, DURATION - 1, DURATION]),
        1 | 2 => r.below(DURATION + 1),
        3 => r.next() >> r.range(28, 63),
        _ => r.below(5),
    }
}

/// One resource more, or something about those that are there.
fn grow(r: &mut Random, draw: &mut Draw, b: &mut Builder) {
    if r.one_in(3) {
        if let Some(number) = draw.later.pop() {
            let skills = r.pick(&[0, 1, u64::MAX, r.0, r.0 | 1 << 63, 1 << r.0 % 64]);
            if r.one_in(3) {
                b.push(1, &[r.below(4)]);
                b.push(4, &[0, 10, 1]);
            }
            b.push(16, &[number, r.below(draw.kinds), skills]);
            draw.on.push((number, skills));
        }
    }
    let Some(&(number, _)) = draw.on.last() else { return };
    let number = if r.one_in(2) { number } else { r.pick(&draw.on).0 };
    if r.one_in(4) {
        let (default, initial) = (duration(r), duration(r));
        b.push(17, &[number, default, initial]);
    }
    if r.one_in(3) {
        for _ in 0..r.below(2 * draw.categories) {
            let ms = if r.one_in(4) { u64::MAX } else { duration(r) };
            let (last, this) = (r.below(draw.categories), r.below(draw.categories));
            match r.below(4) {
                0 => b.push(19, &[number, this, ms]),
                1 => b.push(18, &[number, this, this, ms]),
                _ => b.push(18, &[number, last, this, ms]),
            };
        }
    }
    for _ in 0..r.below(5) {
        let ms = duration(r);
        b.push(20, &[r.pick(&draw.on).0, r.pick(&draw.on).0, ms]);
    }
}

/// A speed at which the process time comes to a half and a whole number, or next to it.
fn tie(r: &mut Random, process: u64, others: f64) -> f64 {
    let whole = (process as f64 / (others * any_speed(r))).floor() + 0.5;
    let speed = process as f64 / whole / others;
    if !(0.25..=4.0).contains(&speed) {
        return r.pick(&[2.0, 4.0, 0.5]);
    }
    f64::from_bits((speed.to_bits() + r.below(5)).wrapping_sub(2)).clamp(0.25, 4.0)
}

/// A new order with timings. Gives the numbers that have one.
fn order(r: &mut Random, b: &mut Builder) -> Vec<u64> {
    let (setup, process, teardown) = (duration(r), duration(r), duration(r));
    let category = r.below(16);
    b.push(21, &[category, setup, process, teardown, r.below(2), 0, 0, r.below(1 << 16), 0]);
    for _ in 0..r.below(5) {
        b.push(22, &[r.below(3), r.below(1 << 16), r.next(), r.range(1, 2), r.range(1, 10_000)]);
    }
    let (mut timed, mut product) = (vec![], 1.0);
    let sort = r.below(5);
    let three = [duration(r), duration(r), duration(r)];
    for number in 0..16 {
        if !r.one_in(2) {
            continue;
        }
        timed.push(number);
        if sort == 0 || (sort == 1 && r.one_in(3)) {
            let turned = r.below(3) as usize; // the same total in another order
            let own = match r.below(3) {
                0 => [duration(r), duration(r), duration(r)],
                _ => [0, 1, 2].map(|k| three[(k + turned) % 3]),
            };
            b.push(24, &[number, own[0], own[1], own[2]]);
            continue;
        }
        let speed = match r.below(6) {
            0 => r.pick(&SPEEDS),
            1 | 2 => tie(r, process, 1.0),
            3 => tie(r, process, product),
            _ => any_speed(r),
        };
        product *= speed;
        b.push(23, &[number, speed.to_bits()]);
    }
    timed
}

/// Kind 40: up to eight numbers; timed or not, on the board or not, one of them twice.
fn lasting(r: &mut Random, timed: &[u64], b: &mut Builder) {
    let count = r.below(9) as usize;
    let mut body = vec![count as u64];
    let one = r.below(16);
    for k in 0..8 {
        body.push(match r.below(8) {
            0 => r.below(16),
            1 => one,
            2 if k > 0 => body[k],
            _ if timed.is_empty() => one,
            _ => r.pick(timed),
        });
    }
    body[1 + count..].iter_mut().for_each(|n| *n = r.below(256));
    b.push(40, &body);
}

/// Kind 41: behind a category or none.
fn setup(r: &mut Random, draw: &Draw, b: &mut Builder) {
    let category = if r.one_in(8) { r.below(16) } else { r.below(draw.categories) };
    let last = match r.below(8) {
        0 => r.below(16),
        1 => category,
        2 | 3 => r.pick(&[16, 255]),
        _ => r.below(draw.categories),
    };
    let own = duration(r);
    b.push(41, &[r.pick(&draw.on).0, last, category, own]);
}

/// Kind 42: any set of places, bits off the board among them.
fn journey(r: &mut Random, draw: &Draw, b: &mut Builder) {
    let from = match r.below(5) {
        0 => 1 << r.below(16),
        1 => r.below(1 << 16),
        2 => draw.on.iter().fold(0, |set, n| set | r.below(2) << n.0),
        3 => r.pick(&[0, 0xffff]),
        _ => 1 << r.pick(&draw.on).0,
    };
    b.push(42, &[from, r.pick(&draw.on).0]);
}

/// Kind 43: skills that the resource has, all or some, or with one bit more.
fn serves(r: &mut Random, draw: &Draw, b: &mut Builder) {
    let (number, skills) = r.pick(&draw.on);
    let needed = match r.below(5) {
        0 => 0,
        1 => 1 << r.below(64),
        2 => skills & r.next(),
        3 => skills & r.next() | 1 << r.below(64),
        _ => skills,
    };
    let candidates = match r.below(4) {
        0 => 1 << r.below(16),
        1 => r.below(1 << 16),
        2 => 1 << number,
        _ => 0,
    };
    b.push(43, &[r.below(draw.kinds), candidates, needed, number]);
}
