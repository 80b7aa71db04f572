//! Compares two sources on a stream, and makes a stream on which they differ as small as it can.

use crate::paper::Instants;
use crate::records::{encode, Form, Known, Reader, Record};
use crate::sources::Source;

/// A stream: whole records, and what stands behind them that is none.
#[derive(Clone)]
pub struct Stream {
    pub records: Vec<Record>,
    pub tail: Vec<u8>,
}

impl Stream {
    pub fn new(records: Vec<Record>) -> Self {
        Self { records, tail: Vec::new() }
    }

    pub fn read(bytes: &[u8], known: Known) -> Self {
        let records: Vec<Record> = Reader::new(bytes, known).map_while(Result::ok).collect();
        let tail = bytes[encode(&records).len()..].to_vec();
        Self { records, tail }
    }

    pub fn bytes(&self) -> Vec<u8> {
        let mut bytes = encode(&self.records);
        bytes.extend(&self.tail);
        bytes
    }

    fn without(&self, from: usize, to: usize) -> Self {
        let mut shorter = self.clone();
        shorter.records.drain(from..to);
        shorter
    }
}

/// Whether the two give other replies, or other totals where both tell them.
pub fn differ(a: &Source, b: &Source, bytes: &[u8], known: Known) -> bool {
    let ((text_a, totals_a), (text_b, totals_b)) =
        (a.replies(bytes, known), b.replies(bytes, known));
    let both = !matches!(a, Source::Program(_)) && !matches!(b, Source::Program(_));
    text_a.concat() != text_b.concat() || (both && totals_a != totals_b)
}

/// The Rust refuses nothing, so a stream made smaller for it must not be refused anywhere.
fn allowed(a: &Source, b: &Source, bytes: &[u8], known: Known) -> bool {
    let refused = || Source::Paper(Instants::Events).text(bytes, known).contains("refused");
    !(a.is_reference() || b.is_reference()) || !refused()
}

/// How many streams are tried at most in making one smaller.
const TRIES: usize = 20_000;

/// The smallest stream found on which the two still differ: records are taken out, many at once
/// and then one by one; then numbers are made smaller; until nothing helps.
pub fn smallest(a: &Source, b: &Source, stream: &Stream, known: Known) -> Stream {
    let mut tries = match (a, b) {
        (Source::Program(_), _) | (_, Source::Program(_)) => TRIES / 8,
        _ => TRIES,
    };
    let mut still = |s: &Stream| {
        tries = tries.saturating_sub(1);
        let bytes = s.bytes();
        tries > 0 && allowed(a, b, &bytes, known) && differ(a, b, &bytes, known)
    };
    let mut best = stream.clone();
    loop {
        let before = best.bytes();
        fewer_records(&mut best, &mut still);
        all_smaller(&mut best, &mut still);
        smaller_numbers(&mut best, &mut still);
        if best.bytes() == before {
            return best;
        }
    }
}

fn fewer_records(best: &mut Stream, still: &mut impl FnMut(&Stream) -> bool) {
    let bare = Stream { tail: Vec::new(), ..best.clone() };
    if !best.tail.is_empty() && still(&bare) {
        *best = bare;
    }
    let mut chunk = best.records.len().next_power_of_two();
    while chunk > 0 {
        let mut end = best.records.len();
        while end > 0 {
            let start = end.saturating_sub(chunk);
            let shorter = best.without(start, end);
            if still(&shorter) {
                *best = shorter;
            }
            end = start;
        }
        chunk /= 2;
    }
}

/// The large numbers of all records made smaller together: moved down by the least of them, or
/// divided.
fn all_smaller(best: &mut Stream, still: &mut impl FnMut(&Stream) -> bool) {
    const LARGE: u64 = 64;
    loop {
        let numbers =
            |s: &Stream| s.records.iter().flat_map(|r| r.numbers.clone()).collect::<Vec<_>>();
        let least = numbers(best).into_iter().filter(|&n| n > LARGE).min().unwrap_or(0);
        let steps = [(least, 0), (0, 20), (0, 8), (0, 1)];
        let found = steps.into_iter().find_map(|(down, shift)| {
            let mut smaller = best.clone();
            for record in &mut smaller.records {
                for (n, form) in record.forms().into_iter().enumerate() {
                    let number = &mut record.numbers[n];
                    if form == Form::Bytes(8) && *number > LARGE {
                        *number = (*number - down) >> shift;
                    }
                }
            }
            (numbers(&smaller) != numbers(best) && still(&smaller)).then_some(smaller)
        });
        match found {
            Some(smaller) => *best = smaller,
            None => return,
        }
    }
}

fn smaller_numbers(best: &mut Stream, still: &mut impl FnMut(&Stream) -> bool) {
    for r in 0..best.records.len() {
        while best.records[r].kind == 16 && best.records[r].numbers.len() > 3 {
            let mut fewer = best.clone();
            fewer.records[r].numbers.pop();
            if !still(&fewer) {
                break;
            }
            *best = fewer;
        }
        for n in 0..best.records[r].numbers.len() {
            smaller_number(best, r, n, still);
        }
    }
}

fn smaller_number(best: &mut Stream, r: usize, n: usize, still: &mut impl FnMut(&Stream) -> bool) {
    loop {
        let now = best.records[r].numbers[n];
        let tried = [0, 1, now / 2, now.saturating_sub(now / 8), now.saturating_sub(1)];
        let found = tried.into_iter().filter(|&x| x < now).find_map(|x| {
            let mut smaller = best.clone();
            smaller.records[r].numbers[n] = x;
            still(&smaller).then_some(smaller)
        });
        match found {
            Some(smaller) => *best = smaller,
            None => return,
        }
    }
}

/// Prints a difference with its smallest input as readable records.
pub fn report(a: &Source, b: &Source, stream: &Stream, known: Known) {
    let small = smallest(a, b, stream, known);
    println!("DIFFERENCE between {} and {}, smallest input found:", a.name(), b.name());
    small.records.iter().for_each(|r| println!("    {r}"));
    if !small.tail.is_empty() {
        println!("    then the bytes {:?}", small.tail);
    }
    let bytes = small.bytes();
    for source in [a, b] {
        let (text, totals) = source.replies(&bytes, known);
        println!("  {} replies:", source.name());
        text.concat().lines().for_each(|l| println!("    {l}"));
        if !totals.is_empty() {
            println!("    (booked totals and latest ends {totals:?})");
        }
    }
}
