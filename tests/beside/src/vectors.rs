//! The fixed sample in tests/vectors: streams with the replies that the Rust gives to them, or,
//! for streams with refusals, the reading of 01. Made anew from a fixed seed, the same each time.

use crate::compare::Stream;
use crate::count::Counts;
use crate::marked::marked_records;
use crate::paper::Instants;
use crate::random::{Random, Size};
use crate::records::{encode, parse, parse_all, Known, Record};
use crate::refusals::{program_of, refusal_streams};
use crate::runs::make;
use crate::sources::{Source, REFERENCE};
use crate::spoil::spoil;
use crate::wrong::{plant, Wrong, ALL};
use std::collections::{BTreeMap, BTreeSet};
use std::path::Path;

const SEED: u64 = 0x6761_6c6d_6565_6b75;
/// The reading of 01 in which the vectors' wrong readings are planted.
const EVERY: Source = Source::Paper(Instants::Every);
const EVENTS: Source = Source::Paper(Instants::Events);

/// A file's name without its ending, its records, its replies.
type Vector = (String, Vec<u8>, String);

/// What a stream has to show: the counts of the runs that it adds to, and, where every instant
/// can be tried, the wrong readings that it catches.
fn shows(records: &[Record], known: Known, size: Size) -> BTreeSet<String> {
    let bytes = encode(records);
    let replies = REFERENCE.replies(&bytes, known).0;
    let mut counts = Counts::default();
    counts.stream(records, &replies);
    let mut shown: BTreeSet<String> = counts.names().map(|n| format!("{size:?} {n}")).collect();
    if size.every_instant() {
        shown.extend(catches(&bytes, known, &replies.concat()).iter().map(|w| format!("{w:?}")));
    }
    shown
}

/// The wrong readings that a stream catches.
fn catches(bytes: &[u8], known: Known, replies: &str) -> Vec<Wrong> {
    let caught = ALL.iter().map(|w| w.0).filter(|&which| {
        plant(which);
        let given = EVERY.text(bytes, known);
        plant(Wrong::Nothing);
        given != replies
    });
    caught.collect()
}

/// Streams out of many that each show something which fewer than `times` before them have shown.
fn chosen(known: Known, cases: usize, drawn: u64, times: u32) -> Vec<Vec<Record>> {
    let mut seen: BTreeMap<String, u32> = BTreeMap::new();
    let mut out = Vec::new();
    for n in 0..drawn {
        let mut r = Random(SEED ^ n << 16 ^ (known as u64) << 56);
        let size = r.pick(&[Size::Small, Size::Small, Size::High, Size::Wide]);
        let mut records = make(&mut r, known, size, cases);
        records.retain(|x| x.kind != 38); // the measurement is no vector
        let shown = shows(&records, known, size);
        if shown.iter().any(|s| seen.get(s).is_none_or(|&c| c < times)) {
            shown.into_iter().for_each(|s| *seen.entry(s).or_default() += 1);
            out.push(records);
        }
    }
    out
}

/// A vector with the Rust's replies, which must be the reading's too.
fn answered(name: String, records: &[Record], known: Known) -> Vector {
    let bytes = encode(records);
    let replies = REFERENCE.text(&bytes, known);
    assert_eq!(replies, EVENTS.text(&bytes, known), "the sides differ on {name}");
    assert!(!replies.contains("refused"), "{name} is not inside the limits");
    (name, bytes, replies)
}

/// A vector with the replies of the reading of 01.
fn read(name: String, bytes: Vec<u8>, known: Known) -> Vector {
    let replies = EVENTS.text(&bytes, known);
    (name, bytes, replies)
}

fn name_of(known: Known) -> &'static str {
    match known {
        Known::Slot => "slot",
        Known::Offer => "offer",
        _ => "calendar",
    }
}

/// Calendars or diaries, all in one stream. The marked runs come first, on a new diary each.
fn in_one(known: Known) -> Vector {
    let mut records = Vec::new();
    for marked in marked_records(known) {
        records.push(parse("diary 1"));
        records.extend(marked);
    }
    records.extend(chosen(known, 1, 400, 2).concat());
    answered(name_of(known).to_string(), &records, known)
}

/// Boards, one in a stream.
fn boards() -> Vec<Vector> {
    let mut all = marked_records(Known::Offer);
    all.extend(chosen(Known::Offer, 0, 600, 1));
    all.iter()
        .enumerate()
        .map(|(n, records)| answered(format!("offer-{n:02}"), records, Known::Offer))
        .collect()
}

/// Streams with refusals: 01's sentences in one stream as far as that goes, those that need a
/// board of their own or end the stream in one each, then spoilt random streams.
fn refusals(known: Known) -> Vec<Vector> {
    let fresh = match known {
        Known::Slot => vec![parse("diary 1")],
        Known::Offer => vec![parse("order 0 0 0 0 0 0 0 0 0")],
        _ => parse_all("unlist; list; unlist; layout 0"),
    };
    let mut joined = Vec::new();
    let mut streams = Vec::new();
    for bytes in refusal_streams(known) {
        let ends = EVENTS.text(&bytes, known).ends_with("refused 9\n");
        let board = Stream::read(&bytes, known).records.iter().any(|r| r.kind == 16);
        if ends || board {
            streams.push(bytes);
        } else {
            joined.extend(encode(&fresh));
            joined.extend(bytes);
        }
    }
    streams.insert(0, joined);
    for n in 0..6 {
        let mut r = Random(SEED ^ 77 << 40 ^ n << 16 ^ (known as u64) << 56);
        let size = Size::random(&mut r);
        let mut records = make(&mut r, known, size, 4);
        records.retain(|x| x.kind != 38);
        streams.push(spoil(&mut r, &records, known));
    }
    let name = |n: usize| format!("{}-refusals-{n:02}", name_of(known));
    streams.into_iter().enumerate().map(|(n, bytes)| read(name(n), bytes, known)).collect()
}

fn all() -> Vec<Vector> {
    let mut all = vec![in_one(Known::Calendar), in_one(Known::Slot)];
    all.extend(boards());
    for known in [Known::Calendar, Known::Slot, Known::Offer] {
        all.extend(refusals(known));
    }
    all
}

fn known_by(name: &str) -> Known {
    Known::named(name.split('-').next().unwrap_or("")).expect("a vector is named after its kinds")
}

/// The wrong readings that no vector catches.
fn uncaught(all: &[Vector]) -> Vec<Wrong> {
    let mut left: Vec<Wrong> = ALL.iter().map(|w| w.0).collect();
    for (name, bytes, replies) in all.iter().filter(|v| !v.0.contains("refusals")) {
        let known = known_by(name);
        // With the events alone, since the vectors hold wide numbers too.
        left.retain(|&which| {
            plant(which);
            let given = EVENTS.text(bytes, known);
            plant(Wrong::Nothing);
            given == *replies
        });
    }
    left
}

/// The vectors' files in the folder: records and expected replies.
fn files(all: &[Vector]) -> BTreeMap<String, Vec<u8>> {
    let mut files = BTreeMap::new();
    for (name, bytes, replies) in all {
        files.insert(format!("{name}.records"), bytes.clone());
        files.insert(format!("{name}.expected"), replies.clone().into_bytes());
    }
    files
}

/// The files of vectors that are in the folder now.
fn present(folder: &Path) -> BTreeMap<String, Vec<u8>> {
    let entries = std::fs::read_dir(folder).into_iter().flatten().flatten();
    entries
        .map(|e| (e.file_name().to_string_lossy().into_owned(), e.path()))
        .filter(|(name, _)| name.ends_with(".records") || name.ends_with(".expected"))
        .map(|(name, path)| (name, std::fs::read(path).unwrap_or_default()))
        .collect()
}

/// Writes the vectors anew.
pub fn write(folder: &Path) -> bool {
    let all = all();
    for name in present(folder).keys() {
        std::fs::remove_file(folder.join(name)).expect("an old vector can be removed");
    }
    for (name, bytes) in files(&all) {
        std::fs::write(folder.join(name), bytes).expect("a vector can be written");
    }
    let lines: usize = all.iter().map(|v| v.2.lines().count()).sum();
    println!("vectors: {} streams, {lines} lines of replies", all.len());
    told_uncaught(&all)
}

fn told_uncaught(all: &[Vector]) -> bool {
    let left = uncaught(all);
    println!("vectors: {} of {} wrong readings caught", ALL.len() - left.len(), ALL.len());
    left.iter().for_each(|w| println!("vectors: NOT CAUGHT {w:?}"));
    left.is_empty()
}

/// The vectors on the Rattle programs that are there.
fn on_programs(all: &[Vector], programs: &Path) -> bool {
    let mut good = true;
    for known in [Known::Calendar, Known::Slot, Known::Offer] {
        let program = programs.join(program_of(known));
        if !program.exists() {
            continue;
        }
        let source = Source::Program(program);
        let of_kind: Vec<&Vector> = all.iter().filter(|v| known_by(&v.0) == known).collect();
        let bad = of_kind.iter().filter(|v| source.text(&v.1, known) != v.2);
        let bad: Vec<&str> = bad.map(|v| v.0.as_str()).collect();
        println!("vectors on {}: {} streams, differ: {bad:?}", source.name(), of_kind.len());
        good &= bad.is_empty();
    }
    good
}

/// Checks that the vectors in the folder are those that would be written, and that the programs
/// that are there give the same replies.
pub fn check(folder: &Path, programs: &Path) -> bool {
    let all = all();
    let (wanted, found) = (files(&all), present(folder));
    let names: BTreeSet<&String> = wanted.keys().chain(found.keys()).collect();
    let wrong: Vec<_> = names.into_iter().filter(|n| wanted.get(*n) != found.get(*n)).collect();
    println!(
        "vectors: {} files checked, {} differ from what would be written",
        wanted.len(),
        wrong.len()
    );
    wrong
        .iter()
        .take(5)
        .for_each(|n| println!("vectors: DIFFERS {n} (run --vectors writes them anew)"));
    told_uncaught(&all) & on_programs(&all, programs) && wrong.is_empty()
}
