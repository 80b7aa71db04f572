//! The marked runs M1 to M12 of 01 as record streams, with the replies that 01 gives.

use crate::paper::Instants;
use crate::records::{encode, parse_all, Known, Record};
use crate::sources::{Source, REFERENCE};
use std::path::Path;

const M8: &str = "window 0 100; block 40 60";
const M11: &str = "booking 0 100 1; resource 0 0 0; resource 1 0 0";
const M11_ORDER: &str = "order 0 0 30 0 0 0 0 0 0";
const M12: &str =
    "order 0 0 100 0 0 0 0 0 0; requirement 0 0 0 2 1; speed 0 2.0; speed 1 0.5; place 0";

/// Name, kinds, records, replies. In M10 the process time is the end of a placing from 0.
fn marked() -> Vec<(&'static str, Known, String, &'static str)> {
    let slot = |records: &str| (Known::Slot, records.to_string());
    let offer = |records: String| (Known::Offer, records);
    let placed = |process: u64, speed: &str| {
        offer(format!(
            "resource 0 0 0; order 0 0 {process} 0 0 0 0 0 0; requirement 0 0 0 1 1; speed 0 {speed}; place 0"
        ))
    };
    let all = [
        ("M1", slot("fit 50 0 1"), "fit 50 50"),
        ("M2, M3", slot("booking 100 200 1; fit 50 50 1; fit 50 51 1"), "fit 50 100; fit 200 251"),
        ("M4", slot("booking 100 200 1; fit 150 0 1; fit 100 0 1"), "fit 200 200; fit 100 100"),
        ("M5", slot("diary 2; booking 0 10 1; booking 10 20 1; fit 0 20 1"), "fit 0 20"),
        ("M6", slot("diary 2; booking 0 10 1; booking 10 20 1; fit 0 20 3"), "none"),
        ("M7", slot("window 0 10; window 10 20; fit 0 12 1; resumable 0 12 1"), "none; fit 0 12"),
        ("M8", slot(&format!("{M8}; resumable 30 30 1; fit 30 30 1")), "fit 30 80; fit 60 90"),
        (
            "M9",
            slot(&format!("{M8}; booking 70 75 1; resumable 30 30 1; resumable 30 25 1")),
            "none; fit 75 100",
        ),
        ("M10", placed(1001, "2.0"), "placed 0 0 501 1; entry 0 0 1 0"),
        ("M10", placed(1000, "1.5"), "placed 0 0 667 1; entry 0 0 1 0"),
        (
            "M11",
            offer(format!("{M11}; {M11_ORDER}; requirement 0 0 0 1 1; place 0")),
            "placed 0 0 30 1; entry 1 0 1 0",
        ),
        (
            "M11",
            offer(format!("{M11}; {M11_ORDER}; requirement 0 0 0 2 1; place 0")),
            "placed 100 100 130 2; entry 0 0 1 0; entry 1 0 1 0",
        ),
        (
            "M12",
            offer(format!("resource 0 0 0; resource 1 0 0; {M12}")),
            "placed 0 0 100 2; entry 0 0 1 0; entry 1 0 1 0",
        ),
        (
            "M12",
            offer(format!("resource 0 0 0; booking 150 160 1; resource 1 0 0; {M12}")),
            "placed 160 160 260 2; entry 0 0 1 0; entry 1 0 1 0",
        ),
    ];
    all.into_iter()
        .map(|(name, (known, records), replies)| (name, known, records, replies))
        .collect()
}

/// The records of the marked runs, for the vectors.
pub fn marked_records(known: Known) -> Vec<Vec<Record>> {
    marked().into_iter().filter(|m| m.1 == known).map(|m| parse_all(&m.2)).collect()
}

/// Checks one stream on one source; tells where it fails.
pub fn holds(name: &str, source: &Source, known: Known, records: &str, replies: &str) -> bool {
    let text = source.text(&encode(&parse_all(records)), known);
    let given = text.trim_end().replace('\n', "; ");
    if given == replies {
        return true;
    }
    println!(
        "{name} FAILS on {}: {records}\n    expected {replies}\n    given    {given}",
        source.name()
    );
    false
}

/// M1 to M12 on the Rust, on both readings of 01, and on the programs that are there.
pub fn run_marked(programs: &Path) -> bool {
    let mut sources = vec![
        (REFERENCE, None),
        (Source::Paper(Instants::Every), None),
        (Source::Paper(Instants::Events), None),
    ];
    for (program, known) in [("slot", Known::Slot), ("offer", Known::Offer)] {
        let path = programs.join(program);
        if path.exists() {
            sources.push((Source::Program(path), Some(known)));
        }
    }
    let mut bad = 0;
    for (source, only) in &sources {
        let mut count = 0;
        for (name, known, records, replies) in marked() {
            if only.is_none_or(|k| k == known) {
                count += 1;
                bad += u64::from(!holds(name, source, known, &records, replies));
            }
        }
        println!("marked runs on {}: {count} streams", source.name());
    }
    bad == 0
}
