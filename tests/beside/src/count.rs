//! Counts what came up in the streams: replies of each kind, and placings by what took part.

use crate::records::Record;
use std::collections::{BTreeMap, HashMap};

/// What the records of a stream have built so far, as far as the counts need it.
#[derive(Default)]
struct Seen {
    given: u64,
    windows: bool,
    blocks: bool,
    resources: usize,
    matrices: u16,
    transport: bool,
    commits: usize,
    order: Vec<u64>,
    requirements: Vec<Vec<u64>>,
    speeds: u16,
    own_durations: u16,
    /// The numbers on the board, the totals of own durations, and the entries of matrices: by
    /// number, last category (16 for a first entry) and this one.
    on: u16,
    totals: [u64; 16],
    entries: HashMap<(u64, u64, u64), u64>,
}

impl Seen {
    fn take(&mut self, record: &Record) {
        let numbers = &record.numbers;
        match record.kind {
            1 => {
                self.given = numbers[0];
                (self.windows, self.blocks) = (false, false);
            }
            2 => self.windows = true,
            3 => self.blocks = true,
            16 => {
                self.resources += 1;
                self.on |= 1 << (numbers[0] & 15);
                (self.given, self.windows, self.blocks) = (1, false, false);
            }
            17..=19 => {
                self.matrices |= 1 << (numbers[0] & 15);
                match numbers[..] {
                    [number, last, this, ms] => {
                        self.entries.insert((number, last, this), ms);
                    }
                    [number, this, ms] if record.kind == 19 => {
                        self.entries.insert((number, 16, this), ms);
                    }
                    _ => self.entries.retain(|e, _| e.0 != numbers[0]),
                }
            }
            20 => self.transport = true,
            21 => {
                self.order = numbers.clone();
                self.requirements.clear();
                (self.speeds, self.own_durations) = (0, 0);
                if numbers[8] == 1 {
                    (self.given, self.windows, self.blocks) = (1, false, false);
                }
            }
            22 => self.requirements.push(numbers.clone()),
            23 => {
                self.speeds |= 1 << (numbers[0] & 15);
                self.own_durations &= !(1 << (numbers[0] & 15));
            }
            24 => {
                self.own_durations |= 1 << (numbers[0] & 15);
                self.totals[(numbers[0] & 15) as usize] = numbers[1..].iter().sum();
                self.speeds &= !(1 << (numbers[0] & 15));
            }
            34 => (self.windows, self.blocks) = (false, false),
            _ => {}
        }
    }
}

#[derive(Default)]
pub struct Counts {
    pub streams: u64,
    pub asks: u64,
    pub placings: u64,
    pub calendar_asks: u64,
    pub board_asks: u64,
    all: BTreeMap<String, u64>,
}

impl Counts {
    fn one(&mut self, what: &str) {
        *self.all.entry(what.to_string()).or_default() += 1;
    }

    /// Counts the replies of one stream.
    pub fn stream(&mut self, records: &[Record], replies: &[String]) {
        self.streams += 1;
        let mut seen = Seen { given: 1, order: vec![0; 9], ..Seen::default() };
        for (record, reply) in records.iter().zip(replies) {
            if let Some(number) = reply.strip_prefix("refused ") {
                self.one(&format!("refused {:2} of kind {:2}", number.trim(), record.kind));
                continue;
            }
            seen.take(record);
            let first = reply.split_whitespace().next().unwrap_or("");
            match record.kind {
                5 | 6 => self.ask(&seen, record, first, reply),
                25 => self.placing(&seen, record, reply),
                26 => {
                    seen.commits += 1;
                    self.one("commitments");
                    if record.numbers[0] == 0 {
                        self.one("commitments of no entries");
                    }
                }
                32 | 33 | 36 | 38 => {
                    self.calendar_asks += 1;
                    let sort = ["span", "instant", "", "", "work", "", "measure"]
                        [record.kind as usize - 32];
                    self.one(&format!("calendar: {sort}: {first}"));
                    let end = reply.strip_prefix("end ").and_then(|e| e.trim().parse::<u64>().ok());
                    if end.is_some_and(|e| e > record.numbers[0] + record.numbers[1]) {
                        self.one("calendar: work: end behind a pause");
                    }
                }
                40..=43 => self.board_ask(&seen, record, reply),
                _ => {}
            }
        }
        for _ in records.len()..replies.len() {
            self.one("refused  9");
        }
    }

    fn ask(&mut self, seen: &Seen, record: &Record, first: &str, reply: &str) {
        self.asks += 1;
        let sort = if record.kind == 5 { "unbroken" } else { "resumable" };
        let numbers = &record.numbers;
        self.one(&format!("diary: {sort}: {first}"));
        let calendar = seen.windows || seen.blocks;
        let start = reply.split_whitespace().nth(1).and_then(|w| w.parse::<u64>().ok());
        let end = reply.split_whitespace().nth(2).and_then(|w| w.parse::<u64>().ok());
        let facts = [
            ("later than asked", start.is_some_and(|s| s > numbers[0])),
            ("with a pause", start.zip(end).is_some_and(|(s, e)| e > s + numbers[1])),
            ("with a calendar", calendar),
            ("capacity 1, no calendar (gap walk)", seen.given <= 1 && !calendar),
            ("capacity given 0", seen.given == 0),
            ("span 0", numbers[1] == 0),
            ("units above 1", numbers[2] > 1),
            ("units above the capacity", numbers[2] > seen.given.max(1)),
        ];
        for (fact, _) in facts.iter().filter(|f| f.1) {
            self.one(&format!("diary: {fact}"));
        }
    }

    fn board_ask(&mut self, seen: &Seen, record: &Record, reply: &str) {
        self.board_asks += 1;
        let numbers = &record.numbers;
        let facts = match record.kind {
            40 => {
                let held = &numbers[1..1 + numbers[0] as usize];
                let among = |set: u16| held.iter().filter(move |&&n| set >> n & 1 == 1);
                let own = among(seen.own_durations).map(|&n| (seen.totals[n as usize], n));
                let most = own.clone().max().map_or(0, |m| m.0);
                let equal: u16 =
                    own.clone().filter(|o| o.0 == most).fold(0, |set, o| set | 1 << o.1);
                let twice = among(seen.speeds).any(|n| held.iter().filter(|m| *m == n).count() > 1);
                let speeds = among(seen.speeds).count();
                vec![
                    (format!("durations: {} held", held.len()), true),
                    ("durations: own ones".into(), own.count() > 0),
                    ("durations: own ones with equal totals".into(), equal.count_ones() > 1),
                    (format!("durations: {speeds} speeds alone"), most == 0 && equal == 0),
                    ("durations: one speed twice".into(), twice && equal == 0),
                ]
            }
            41 => {
                let last = numbers[1].min(16);
                let entry = seen.entries.get(&(numbers[0], last, numbers[2]));
                let set = entry.is_some_and(|&ms| ms != u64::MAX);
                let sort = match (seen.matrices >> numbers[0] & 1 == 1, last, set) {
                    (false, _, _) => "the order's own",
                    (_, 16, true) => "first entry",
                    (_, 16, false) => "first entry, absent",
                    (_, _, true) => "pair",
                    (_, last, false) if last == numbers[2] => "pair of equal ones, absent",
                    _ => "pair, absent",
                };
                vec![(format!("setup: {sort}"), true)]
            }
            42 => {
                let off = numbers[0] as u16 & !seen.on != 0;
                let none = reply == "transport 0\n";
                vec![
                    (format!("transport: {}", if none { "0" } else { "above 0" }), true),
                    ("transport: from numbers off the board too".into(), off),
                ]
            }
            _ => {
                let by = if numbers[1] == 0 { "type" } else { "candidates" };
                vec![(format!("serving: by {by}: {}", reply.trim()), true)]
            }
        };
        facts.iter().filter(|f| f.1).for_each(|(fact, _)| self.one(&format!("board: {fact}")));
    }

    fn placing(&mut self, seen: &Seen, record: &Record, reply: &str) {
        self.placings += 1;
        let words: Vec<u64> =
            reply.lines().next().unwrap_or("").split(' ').filter_map(|w| w.parse().ok()).collect();
        let entries: Vec<Vec<u64>> = reply
            .lines()
            .skip(1)
            .map(|l| l.split(' ').filter_map(|w| w.parse().ok()).collect())
            .collect();
        let held = || entries.iter().filter(|e| e[3] == 0).map(|e| e[0]);
        let among = |set: u16| held().filter(|n| set >> n & 1 == 1).count();
        let (placed, chosen) = (words.len() == 4, !words.is_empty());
        let outcome = if placed {
            "placed"
        } else if chosen {
            "chosen, none"
        } else {
            "none"
        };
        self.one(&format!("placing: {outcome}"));
        let release = seen.order[5] == 1 && seen.order[6] > record.numbers[0];
        let ready = if release { seen.order[6] } else { record.numbers[0] };
        let total: u64 = seen.requirements.iter().map(|r| r[3]).sum();
        let facts = [
            ("resumable", seen.order[4] == 1),
            ("own calendar", seen.order[8] == 1),
            ("release after ready", release),
            ("places come from, on a board with transport", seen.order[7] != 0 && seen.transport),
            ("without requirements", seen.requirements.is_empty()),
            ("several requirements", seen.requirements.len() > 1),
            ("quantity above 1", seen.requirements.iter().any(|r| r[3] > 1)),
            ("total quantity 5 to 8", total > 4),
            ("usage above 1", seen.requirements.iter().any(|r| r[4] > 1)),
            ("candidates", seen.requirements.iter().any(|r| r[1] != 0)),
            ("skills", seen.requirements.iter().any(|r| r[2] != 0)),
            ("board of 8 to 16", seen.resources > 7),
            ("after a commitment", seen.commits > 0),
            ("chosen later than ready", chosen && words[0] > ready),
            ("started later than chosen", placed && words[1] > words[0]),
            ("with companions", entries.iter().any(|e| e[3] == 1)),
            ("held with a matrix", among(seen.matrices) > 0),
            ("held with one speed", among(seen.speeds) == 1),
            ("held with several speeds", among(seen.speeds) > 1),
            ("held with own durations", among(seen.own_durations) > 0),
            ("one resource held twice", held().any(|n| held().filter(|m| *m == n).count() > 1)),
            ("9 entries and more", entries.len() > 8),
            ("starts above 2^42", placed && words[1] > 1 << 42),
        ];
        for (fact, _) in facts.iter().filter(|f| f.1) {
            self.one(&format!("placing: {fact}: {outcome}"));
        }
    }

    /// What came up at all.
    pub fn names(&self) -> impl Iterator<Item = &String> {
        self.all.keys()
    }

    /// The refusals alone.
    pub fn print_refused(&self) {
        for (what, count) in self.all.iter().filter(|x| x.0.starts_with("refused")) {
            println!("  {count:>9}  {what}");
        }
    }

    pub fn print(&self) {
        for (what, count) in &self.all {
            println!("  {count:>9}  {what}");
        }
    }
}
