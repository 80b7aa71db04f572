//! The record streams: one kind byte and a body of little-endian numbers, as 01 has them for
//! `slot` and docs/RECORDS.md for `offer`, and the kinds of the two test programs. A record
//! is kept as its kind and its numbers, so that it can be made smaller without knowing it.

use std::fmt;

/// A record: its kind and its numbers in order. Of kind 16 the numbers are number, type, skills
/// and then the companions; their count is how many there are.
#[derive(Clone, Debug, PartialEq)]
pub struct Record {
    pub kind: u8,
    pub numbers: Vec<u64>,
}

/// How a number stands in the body and is shown.
#[derive(Clone, Copy, PartialEq)]
pub enum Form {
    /// Unsigned, of so many bytes.
    Bytes(usize),
    /// Signed, 8 bytes.
    Signed,
    /// The bits of a double, 8 bytes.
    Double,
    /// One byte, 0 or 1; anything else ends the stream like an unknown kind.
    Flag,
}
use Form::{Bytes, Double, Flag, Signed};

impl Form {
    fn size(self) -> usize {
        match self {
            Bytes(n) => n,
            Signed | Double => 8,
            Flag => 1,
        }
    }
}

const B1: Form = Bytes(1);
const B2: Form = Bytes(2);
const B4: Form = Bytes(4);
const B8: Form = Bytes(8);

/// Kind, readable name, numbers. Kind 16 has a count and companions behind these.
pub const KINDS: [(u8, &str, &[Form]); 28] = [
    (1, "diary", &[B4]),                   // capacity
    (2, "window", &[B8, B8]),              // start, end
    (3, "block", &[B8, B8]),               // start, end
    (4, "booking", &[B8, B8, B4]),         // start, end, units
    (5, "fit", &[B8, B8, B4]),             // from, span, units
    (6, "resumable", &[B8, B8, B4]),       // from, span, units
    (16, "resource", &[B1, B1, B8]),       // number, type, skills, companions
    (17, "matrix", &[B1, Signed, Signed]), // number, default, initial
    (18, "pair", &[B1, B1, B1, Signed]),   // number, last, this, ms
    (19, "first", &[B1, B1, Signed]),      // number, category, ms
    (20, "transport", &[B1, B1, B8]),      // from, to, ms
    // category, setup, process, teardown, resumable, release present, release, come from, own
    // calendar
    (21, "order", &[B1, B8, B8, B8, Flag, Flag, B8, B2, Flag]),
    (22, "requirement", &[B1, B2, B8, B4, B4]), // type, candidates, skills, quantity, usage
    (23, "speed", &[B1, Double]),               // number, speed
    (24, "durations", &[B1, B8, B8, B8]),       // number, setup, process, teardown
    (25, "place", &[B8]),                       // ready
    (26, "commit", &[B4, B8, B8]),              // count, start, end
    (32, "span", &[B8, B8]),                    // start, end
    (33, "instant", &[B8]),                     // instant
    (34, "list", &[]),                          // the calendar in hand goes on the list
    (35, "layout", &[B8]),                      // from
    (36, "work", &[B8, B8]),                    // start, work
    (37, "unlist", &[]),                        // the list is empty again
    (38, "measure", &[B4, B8, B8, B8]),         // rounds, from, step, work
    (40, "lasting", &[B1; 9]),                  // count, eight numbers
    (41, "setup", &[B1, B1, B1, B8]),           // number, last, category, own setup
    (42, "journey", &[B2, B1]),                 // come from, to
    (43, "serves", &[B1, B2, B8, B1]),          // type, candidates, skills, number
];

/// Which kinds a program knows; every other kind is unknown to it.
#[derive(Clone, Copy, PartialEq, Debug)]
pub enum Known {
    Slot,
    Offer,
    Calendar,
    Board,
    All,
}

impl Known {
    pub fn knows(self, kind: u8) -> bool {
        match self {
            Known::Slot => kind <= 6,
            Known::Offer => kind <= 4 || (16..=26).contains(&kind),
            Known::Calendar => kind == 2 || kind == 3 || (32..=38).contains(&kind),
            Known::Board => {
                kind <= 4 || (16..=24).contains(&kind) || (40..=43).contains(&kind)
            }
            Known::All => true,
        }
    }

    pub fn named(name: &str) -> Option<Self> {
        [
            ("slot", Known::Slot),
            ("offer", Known::Offer),
            ("calendar", Known::Calendar),
            ("board", Known::Board),
            ("all", Known::All),
        ]
        .iter()
        .find(|k| k.0 == name)
        .map(|k| k.1)
    }
}

fn form(kind: u8) -> Option<(&'static str, &'static [Form])> {
    KINDS.iter().find(|k| k.0 == kind).map(|k| (k.1, k.2))
}

impl Record {
    pub fn new(kind: u8, numbers: &[u64]) -> Self {
        Self { kind, numbers: numbers.to_vec() }
    }

    /// The form of each number.
    pub fn forms(&self) -> Vec<Form> {
        let mut forms = form(self.kind).expect("a known kind").1.to_vec();
        forms.resize(self.numbers.len(), B1);
        forms
    }

    pub fn encode(&self, out: &mut Vec<u8>) {
        out.push(self.kind);
        for (k, (number, form)) in self.numbers.iter().zip(self.forms()).enumerate() {
            if self.kind == 16 && k == 3 {
                out.push((self.numbers.len() - 3) as u8);
            }
            out.extend(&number.to_le_bytes()[..form.size()]);
        }
        if self.kind == 16 && self.numbers.len() == 3 {
            out.push(0);
        }
    }
}

pub fn encode(records: &[Record]) -> Vec<u8> {
    let mut out = Vec::new();
    records.iter().for_each(|r| r.encode(&mut out));
    out
}

/// Reads a stream record by record. An unknown kind, a cut body or a flag other than 0 and 1
/// gives one last `Err(())`.
pub struct Reader<'a> {
    bytes: &'a [u8],
    known: Known,
}

impl<'a> Reader<'a> {
    pub fn new(bytes: &'a [u8], known: Known) -> Self {
        Self { bytes, known }
    }

    fn number(&mut self, size: usize) -> Option<u64> {
        let (body, rest) = self.bytes.split_at_checked(size)?;
        self.bytes = rest;
        let mut eight = [0; 8];
        eight[..size].copy_from_slice(body);
        Some(u64::from_le_bytes(eight))
    }

    fn record(&mut self) -> Option<Record> {
        let kind = self.number(1)? as u8;
        let (_, forms) = form(kind).filter(|_| self.known.knows(kind))?;
        let mut numbers = Vec::with_capacity(forms.len());
        for &form in forms {
            let number = self.number(form.size())?;
            if form == Flag && number > 1 {
                return None;
            }
            numbers.push(number);
        }
        if kind == 16 {
            for _ in 0..self.number(1)? {
                numbers.push(self.number(1)?);
            }
        }
        Some(Record { kind, numbers })
    }
}

impl Iterator for Reader<'_> {
    type Item = Result<Record, ()>;

    fn next(&mut self) -> Option<Self::Item> {
        if self.bytes.is_empty() {
            return None;
        }
        let record = self.record().ok_or(());
        if record.is_err() {
            self.bytes = &[];
        }
        Some(record)
    }
}

impl fmt::Display for Record {
    /// The record as a readable line: its name and its numbers.
    fn fmt(&self, f: &mut fmt::Formatter) -> fmt::Result {
        write!(f, "{}", form(self.kind).expect("a known kind").0)?;
        for (&number, form) in self.numbers.iter().zip(self.forms()) {
            match form {
                Signed => write!(f, " {}", number as i64)?,
                Double => write!(f, " {:?}", f64::from_bits(number))?,
                _ => write!(f, " {number}")?,
            }
        }
        Ok(())
    }
}

/// The record of one readable line, as `Display` writes it.
pub fn parse(line: &str) -> Record {
    let bad = || -> ! { panic!("not a record: {line}") };
    let mut words = line.split_whitespace();
    let name = words.next().unwrap_or_else(|| bad());
    let &(kind, _, forms) = KINDS.iter().find(|k| k.1 == name).unwrap_or_else(|| bad());
    let numbers: Vec<u64> = words
        .enumerate()
        .map(|(k, word)| match forms.get(k).copied().unwrap_or(B1) {
            Signed => word.parse::<i64>().map(|x| x as u64).unwrap_or_else(|_| bad()),
            Double => word.parse::<f64>().map(f64::to_bits).unwrap_or_else(|_| bad()),
            _ => word.parse().unwrap_or_else(|_| bad()),
        })
        .collect();
    if numbers.len() < forms.len() || (numbers.len() > forms.len() && kind != 16) {
        bad();
    }
    Record { kind, numbers }
}

/// The records of readable lines, divided by ends of line or semicolons.
pub fn parse_all(text: &str) -> Vec<Record> {
    text.split(['\n', ';']).map(str::trim).filter(|l| !l.is_empty()).map(parse).collect()
}
