//! The runs: random streams of each family, the Rust against the two readings of 01 and against
//! the Rattle programs.

use crate::board_stream;
use crate::compare::{differ, report, Stream};
use crate::count::Counts;
use crate::interval_set::{EMPTY, TOUCHING};
use crate::paper::Instants;
use crate::random::{Random, Size};
use crate::records::{encode, Known, Reader, Record};
use crate::sources::{Source, REFERENCE};
use crate::spoil::spoil;
use crate::stream;
use std::collections::BTreeMap;
use std::path::Path;
use std::time::Instant;

/// How much of each family a run has.
pub struct Plan {
    pub calendar_asks: u64,
    pub asks: u64,
    pub placings: u64,
    pub board_asks: u64,
    /// One stream in so many is also run with what the stand-in keeps and with empty calendars.
    pub variants: u64,
    /// One stream in so many is also spoilt: records at and over the limits among the good ones.
    pub spoilt: u64,
    /// One stream in so many goes to the readings of 01.
    pub readings: u64,
    /// One board in so many goes to `offer` too, which takes a process for each.
    pub boards: u64,
}

pub const FULL: Plan = Plan {
    calendar_asks: 2_000_000,
    asks: 2_000_000,
    placings: 400_000,
    board_asks: 5_000_000,
    variants: 4,
    spoilt: 4,
    readings: 1,
    boards: 4,
};
/// For `--offer`: every board goes to `offer`, one in 32 to the readings too.
pub const OFFER: Plan =
    Plan { placings: 2_700_000, boards: 1, readings: 32, variants: 64, spoilt: 16, ..FULL };
pub const SHORT: Plan = Plan {
    calendar_asks: 120_000,
    asks: 120_000,
    placings: 20_000,
    board_asks: 100_000,
    variants: 8,
    spoilt: 4,
    readings: 1,
    boards: 16,
};

/// The families: kinds, program, diaries, calendar cases or orders in one stream.
const FAMILIES: [(Known, &str, usize); 4] = [
    (Known::Calendar, "run_calendar", 100),
    (Known::Slot, "slot", 100),
    (Known::Offer, "offer", 0),
    (Known::Board, "run_board", 60),
];

/// A stream inside 01's limits.
pub fn make(r: &mut Random, known: Known, size: Size, cases: usize) -> Vec<Record> {
    match known {
        Known::Calendar => stream::calendars(r, size, cases),
        Known::Slot => stream::slot(r, size, cases),
        Known::Board => board_stream::asks(r, cases),
        _ => {
            let orders = r.range(3, 12) as usize;
            stream::offer(r, size, orders)
        }
    }
}

/// What the Rust may be given of a stream with refusals: all that the reading of 01 accepts,
/// which is the same stream but for the refused records, since these change nothing. Spans and
/// instants above 2^62 (kinds 32 and 33, which refuse nothing) are no numbers of the Rust.
fn accepted(bytes: &[u8], known: Known) -> Vec<Record> {
    let (replies, _) = Source::Paper(Instants::Events).replies(bytes, known);
    Reader::new(bytes, known)
        .map_while(Result::ok)
        .zip(replies)
        .filter(|(_, reply)| !reply.starts_with("refused"))
        .map(|(record, _)| record)
        .filter(|r| !matches!(r.kind, 32 | 33) || r.numbers.iter().all(|&n| n < 1 << 62))
        .collect()
}

/// One family's run: what was compared, what came up, what differs.
struct Run<'a> {
    plan: &'a Plan,
    known: Known,
    program: Option<Source>,
    counts: Counts,
    spoilt: Counts,
    sizes: BTreeMap<String, u64>,
    compared: BTreeMap<String, u64>,
    differences: u64,
}

/// Runs a plan, or one family of it. Gives whether there was no difference.
pub fn run(plan: &Plan, only: Option<Known>, seed: u64, programs: &Path) -> bool {
    let mut differences = 0;
    for (family, (known, program, cases)) in FAMILIES.into_iter().enumerate() {
        if only.is_some_and(|o| o != known) {
            continue;
        }
        let began = Instant::now();
        let path = programs.join(program);
        if !path.exists() {
            println!("{program}: not there yet");
        }
        let mut run = Run {
            plan,
            known,
            program: path.exists().then_some(Source::Program(path)),
            counts: Counts::default(),
            spoilt: Counts::default(),
            sizes: BTreeMap::new(),
            compared: BTreeMap::new(),
            differences: 0,
        };
        let mut n = 0;
        while !run.enough() {
            let random = Random(seed ^ (family as u64 + 1) << 56 ^ n << 16);
            run.stream(n, random, cases);
            n += 1;
            if n % 20_000 == 0 {
                println!("{n} streams, {} asks or placings, {} differences so far", run.asked(), run.differences);
            }
        }
        println!("{known:?} streams ({:.1} s):", began.elapsed().as_secs_f64());
        run.print();
        differences += run.differences;
    }
    println!("{differences} differences");
    differences == 0
}

impl Run<'_> {
    /// Asks or placings so far.
    fn asked(&self) -> u64 {
        match self.known {
            Known::Calendar => self.counts.calendar_asks,
            Known::Slot => self.counts.asks,
            Known::Board => self.counts.board_asks,
            _ => self.counts.placings,
        }
    }

    fn enough(&self) -> bool {
        let wanted = match self.known {
            Known::Calendar => self.plan.calendar_asks,
            Known::Slot => self.plan.asks,
            Known::Board => self.plan.board_asks,
            _ => self.plan.placings,
        };
        self.asked() >= wanted
    }

    /// Makes the n-th stream and compares all sides on it.
    fn stream(&mut self, n: u64, mut r: Random, cases: usize) {
        let size = Size::random(&mut r);
        *self.sizes.entry(format!("{size:?}")).or_default() += 1;
        let records = make(&mut r, self.known, size, cases);
        let bytes = encode(&records);
        self.counts.stream(&records, &REFERENCE.replies(&bytes, self.known).0);
        if n % self.plan.readings == 0 {
            self.readings(&bytes, size);
        }
        if n % self.plan.variants == 0 {
            self.variants(&bytes);
        }
        if self.known != Known::Offer || n % self.plan.boards == 0 {
            self.program(&REFERENCE, &bytes);
        }
        if n % self.plan.spoilt == 0 {
            let bytes = spoil(&mut r, &records, self.known);
            self.spoilt_stream(&bytes);
        }
    }

    /// The Rust against both readings of 01; every instant only where they lie close together.
    fn readings(&mut self, bytes: &[u8], size: Size) {
        self.compare(&REFERENCE, &Source::Paper(Instants::Events), bytes);
        if size.every_instant() {
            self.compare(&REFERENCE, &Source::Paper(Instants::Every), bytes);
        }
    }

    /// What 01 says changes no reply.
    fn variants(&mut self, bytes: &[u8]) {
        for keep in [TOUCHING, EMPTY, TOUCHING | EMPTY] {
            self.compare(&REFERENCE, &Source::Reference { keep, empty_calendars: false }, bytes);
        }
        self.compare(&REFERENCE, &Source::Reference { keep: 0, empty_calendars: true }, bytes);
    }

    fn program(&mut self, other: &Source, bytes: &[u8]) {
        if let Some(program) = self.program.clone() {
            self.compare(other, &program, bytes);
        }
    }

    /// A stream with refusals: whole against the program, its accepted part against the Rust.
    fn spoilt_stream(&mut self, bytes: &[u8]) {
        let paper = Source::Paper(Instants::Events);
        self.program(&paper, bytes);
        self.compare(&REFERENCE, &paper, &encode(&accepted(bytes, self.known)));
        let replies = paper.replies(bytes, self.known).0;
        self.spoilt.stream(&Stream::read(bytes, self.known).records, &replies);
    }

    /// Compares two sources and tells the first differences.
    fn compare(&mut self, a: &Source, b: &Source, bytes: &[u8]) {
        *self.compared.entry(format!("{} with {}", a.name(), b.name())).or_default() += 1;
        if differ(a, b, bytes, self.known) {
            self.differences += 1;
            if self.differences <= 3 {
                report(a, b, &Stream::read(bytes, self.known), self.known);
            }
        }
    }

    fn print(&self) {
        let line = |count: u64, what: &str| println!("  {count:>9}  {what}");
        line(self.counts.streams, "streams");
        line(self.asked(), "asks or placings in them");
        for (size, streams) in &self.sizes {
            line(*streams, &format!("streams with instants of size: {size}"));
        }
        for (sides, streams) in &self.compared {
            line(*streams, &format!("streams compared: {sides}"));
        }
        self.counts.print();
        line(self.spoilt.streams, "streams spoilt, with these refusals:");
        self.spoilt.print_refused();
        line(self.differences, "differences");
    }
}
