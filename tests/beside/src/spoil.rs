//! Random record streams with records at and over 01's limits among the good ones.

use crate::paper::{DURATION, FROM, INSTANT, SPAN};
use crate::random::Random;
use crate::records::{encode, Form, Known, Record};

/// Numbers at and beside the limits.
#[rustfmt::skip]
const EDGES: [u64; 30] = [
    0, 1, 4, 5, 8, 9, 15, 16, 23, 24, 25, 31, 32, 33, 63, 64, 65, 255, 10_000, 10_001,
    DURATION, DURATION + 1, INSTANT, INSTANT + 1, FROM, FROM + 1, SPAN, SPAN + 1, 1 << 63, u64::MAX,
];

/// Speeds at and beside the limits, and no speeds at all: signs, infinities, sorts of NaN.
#[rustfmt::skip]
const EDGE_SPEEDS: [f64; 13] = [
    0.25, 0.24999999999999997, 4.0, 4.000000000000001, 0.0, -0.0, -1.0, 5e-324,
    f64::INFINITY, f64::NEG_INFINITY, f64::NAN, f64::from_bits(0xFFF8_0000_0000_0000),
    f64::from_bits(0x7FF0_0000_0000_0001),
];

/// A record with one or two of its numbers at an edge. Flags stay, of kind 38 the rounds are few
/// and not none, and the span of kind 32 stays a span.
fn spoilt(r: &mut Random, record: &Record) -> Record {
    let mut bad = record.clone();
    for _ in 0..r.range(1, 2) {
        if bad.numbers.is_empty() {
            return bad;
        }
        let k = r.below(bad.numbers.len() as u64) as usize;
        bad.numbers[k] = match bad.forms()[k] {
            Form::Flag => bad.numbers[k],
            Form::Double => r.pick(&EDGE_SPEEDS).to_bits(),
            Form::Bytes(4) if bad.kind == 38 => r.range(1, 3),
            Form::Bytes(n) if n < 8 => r.pick(&EDGES) & ((1 << (8 * n)) - 1),
            _ => r.pick(&EDGES),
        };
    }
    if bad.kind == 16 && r.one_in(4) {
        bad.numbers.resize(3 + r.below(7) as usize, r.below(16));
    }
    match bad.kind {
        32 => bad.numbers.sort_unstable(),
        38 => bad.numbers[0] = bad.numbers[0].max(1),
        _ => {}
    }
    bad
}

/// A stream with records at and over the limits among the good ones, and now and then a bad end.
/// The parts of an order are replaced, so that placing meets them; the rest is added.
pub fn spoil(r: &mut Random, records: &[Record], known: Known) -> Vec<u8> {
    let mut out: Vec<Record> = Vec::new();
    let rate = r.pick(&[3, 8, 20]);
    for record in records {
        let bad = r.one_in(rate).then(|| spoilt(r, record));
        let part = (21..=24).contains(&record.kind);
        if let (true, Some(bad)) = (part, &bad) {
            out.push(bad.clone());
            continue;
        }
        out.push(record.clone());
        out.extend(bad);
        if r.one_in(40) && (record.kind < 5 || record.kind == 34) {
            let again = r.range(20, 66); // until a list is full
            out.extend(std::iter::repeat_n(record.clone(), again as usize));
        }
        if record.kind == 22 && r.one_in(20) {
            out.extend(std::iter::repeat_n(record.clone(), 4));
        }
    }
    let mut bytes = encode(&out);
    match r.below(6) {
        0 => bytes.truncate(bytes.len().saturating_sub(r.range(1, 20) as usize)),
        1 => {
            let unknown: Vec<u8> = (0..=255).filter(|&k| k == 0 || !known.knows(k)).collect();
            bytes.push(r.pick(&unknown));
        }
        2 if matches!(known, Known::Offer | Known::Board) => {
            // an order with a bad flag
            let mut order = vec![21; 39];
            order[26] = r.pick(&[0, 1, 2, 255]);
            order[27] = r.pick(&[0, 1, 3]);
            order[38] = r.pick(&[0, 1, 2]);
            bytes.extend(order);
        }
        3 => bytes.extend((0..r.below(60)).map(|_| r.next() as u8).filter(|&x| x != 38)),
        _ => {}
    }
    bytes
}
