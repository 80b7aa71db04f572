//! 01's sentences on refusals, each number alone and several at once, as record streams; and
//! what no stream reaches, as calls.

use crate::marked::holds;
use crate::paper::{window_run, Board, Diary, Entry, Instants, Order, Placing};
use crate::records::{encode, parse_all, Known};
use crate::sources::Source;
use std::path::Path;

/// Records that must be refused as told, on the reading of 01 and on the programs that are there.
/// `N*RECORD` stands for the record N times.
const REFUSALS: &[(Known, &str, &str)] = &[
    // The program slot.
    (Known::Slot, "diary 2147483647", ""),
    (Known::Slot, "diary 2147483648", "refused 1"),
    (Known::Slot, "booking 0 9 1; diary 2147483648; fit 0 1 1", "refused 1; fit 9 10"),
    // Windows and blocks: 1, 2, 4.
    (Known::Slot, "window 0 4398046511104; fit 0 4398046511104 1", "fit 0 4398046511104"),
    (Known::Slot, "window 0 4398046511105", "refused 1"),
    (Known::Slot, "block 4398046511105 4398046511106", "refused 1"),
    (Known::Slot, "window 4398046511105 1", "refused 1"),
    (Known::Slot, "window 18446744073709551615 0", "refused 1"),
    (Known::Slot, "window 5 5; block 6 5", "refused 2; refused 2"),
    (Known::Slot, "32*window 0 9; window 0 10", "refused 4"),
    (Known::Slot, "32*block 3 4; block 1 2; block 2 2; block 2 4398046511105", "refused 4; refused 2; refused 1"),
    (Known::Slot, "32*window 0 9; window 0 10; fit 0 10 1; fit 0 9 1", "refused 4; none; fit 0 9"),
    (Known::Slot, "32*window 0 9; block 0 5; fit 0 1 1", "fit 5 6"),
    // Bookings: 1, 2, 3, 4.
    (Known::Slot, "booking 0 4398046511104 10000; fit 0 1 1", "fit 4398046511104 4398046511105"),
    (Known::Slot, "booking 0 4398046511105 1", "refused 1"),
    (Known::Slot, "booking 4398046511105 0 0", "refused 1"),
    (Known::Slot, "booking 7 7 0", "refused 2"),
    (Known::Slot, "booking 7 8 0; booking 7 8 10001; booking 7 8 10000", "refused 3; refused 3"),
    (Known::Slot, "64*booking 0 1 1; booking 0 2 1; booking 0 2 0; fit 0 1 1", "refused 4; refused 3; fit 1 2"),
    // Asking a diary: 1, 3; units above the capacity are none.
    (Known::Slot, "fit 8796093022208 9007199254740992 1", "fit 8796093022208 9015995347763200"),
    (Known::Slot, "fit 8796093022209 0 1; resumable 8796093022209 0 1", "refused 1; refused 1"),
    (Known::Slot, "fit 0 9007199254740993 0; resumable 0 9007199254740993 1", "refused 1; refused 1"),
    (Known::Slot, "fit 0 1 0; fit 0 1 10001; resumable 0 1 0", "refused 3; refused 3; refused 3"),
    (Known::Slot, "fit 0 1 10000; resumable 0 1 2; diary 10000; fit 0 1 10000", "none; none; fit 0 1"),
    // Board entries: 5, 1, 4.
    (Known::Offer, "resource 16 0 0; resource 0 0 0 16; resource 255 0 0 1 2 3 4 5", "refused 5; refused 5; refused 5"),
    (Known::Offer, "resource 15 255 0 15 14 15 0; resource 15 0 0", "refused 4"),
    (Known::Offer, "resource 0 0 0 1 2 3 4 5; resource 0 0 0 1 2 3 4 16", "refused 4; refused 5"),
    (Known::Offer, "resource 3 0 0; resource 3 0 0 17; resource 3 0 0 1 2 3 4 5", "refused 5; refused 4"),
    (Known::Offer, "matrix 3 0 0; matrix 16 -1 -1; pair 3 0 0 0; first 3 0 0", "refused 5; refused 5; refused 5; refused 5"),
    (Known::Offer, "resource 3 0 0; matrix 3 68719476736 68719476736; matrix 3 68719476737 0; matrix 3 0 68719476737", "refused 1; refused 1"),
    (Known::Offer, "resource 3 0 0; matrix 3 -1 0; matrix 3 0 -1; matrix 3 -2 0", "refused 1; refused 1; refused 1"),
    (Known::Offer, "resource 3 0 0; pair 3 15 15 68719476736; pair 3 16 0 0; pair 3 0 16 -2; pair 3 0 0 68719476737", "refused 5; refused 5; refused 1"),
    (Known::Offer, "resource 3 0 0; pair 3 0 0 -1; pair 3 0 0 -2; first 3 15 -1; first 3 16 -2; first 3 0 -2", "refused 1; refused 5; refused 1"),
    (Known::Offer, "resource 3 0 0; transport 3 3 68719476736; transport 3 4 0; transport 4 3 68719476737; transport 3 3 68719476737", "refused 5; refused 5; refused 1"),
    // Timings of the order in hand.
    (Known::Offer, "speed 16 1.0; durations 16 0 0 0; speed 15 1.0; durations 15 0 0 0", "refused 5; refused 5"),
    // Placing: 5, 1, 6, 3, 8.
    (Known::Offer, "order 15 0 0 0 0 0 0 0 0; place 0; order 16 0 0 0 0 0 0 0 0; place 0", "placed 0 0 0 0; refused 5"),
    (Known::Offer, "order 16 68719476737 0 0 0 0 0 0 0; 5*requirement 0 0 0 0 0; speed 0 9.0; place 4398046511105", "refused 5"),
    (Known::Offer, "order 0 68719476736 68719476736 68719476736 0 0 0 0 0; place 4398046511104", "placed 4398046511104 4398046511104 4604204941312 0"),
    (Known::Offer, "place 4398046511105", "refused 1"),
    (Known::Offer, "order 0 68719476737 0 0 0 0 0 0 0; place 0; order 0 0 68719476737 0 0 0 0 0 0; place 0; order 0 0 0 68719476737 0 0 0 0 0; place 0", "refused 1; refused 1; refused 1"),
    (Known::Offer, "order 0 0 0 0 0 1 4398046511105 0 0; place 0; order 0 0 0 0 0 0 4398046511105 0 0; place 0", "refused 1; placed 0 0 0 0"),
    (Known::Offer, "durations 9 0 68719476737 0; place 0; durations 9 0 0 0; place 0", "refused 1; placed 0 0 0 0"),
    (Known::Offer, "order 0 68719476737 0 0 0 0 0 0 0; 5*requirement 0 0 0 0 0; speed 0 9.0; place 0", "refused 1"),
    (Known::Offer, "4*requirement 0 0 0 1 1; place 0; requirement 0 0 0 1 1; place 0", "none; refused 6"),
    (Known::Offer, "requirement 0 0 0 0 1; place 0", "refused 6"),
    (Known::Offer, "requirement 0 0 0 8 1; place 0; requirement 0 0 0 1 1; place 0", "none; refused 6"),
    (Known::Offer, "requirement 0 0 0 9 0; place 0; requirement 0 0 0 4294967295 1; place 0", "refused 6; refused 6"),
    (Known::Offer, "requirement 0 0 0 1 1; requirement 0 0 0 0 0; speed 0 9.0; place 0", "refused 6"),
    (Known::Offer, "requirement 0 0 0 1 0; place 0", "refused 3"),
    (Known::Offer, "requirement 0 0 0 1 10000; place 0; requirement 0 0 0 1 10001; place 0", "none; refused 3"),
    (Known::Offer, "requirement 0 0 0 1 0; speed 0 9.0; place 0", "refused 3"),
    (Known::Offer, "speed 0 4.0; place 0; speed 0 4.000000000000001; place 0", "placed 0 0 0 0; refused 8"),
    (Known::Offer, "speed 0 0.25; place 0; speed 0 0.24999999999999997; place 0", "placed 0 0 0 0; refused 8"),
    (Known::Offer, "speed 0 NaN; place 0; speed 0 inf; place 0; speed 0 -1.0; place 0; speed 0 0.0; place 0", "refused 8; refused 8; refused 8; refused 8"),
    (Known::Offer, "speed 0 NaN; durations 0 1 2 3; place 0", "placed 0 0 0 0"),
    // Committing: 7, 5, 1, 2, 3, 4; no entries are accepted.
    (Known::Offer, "commit 0 9 9; commit 0 4398046511105 0", "committed; committed"),
    (Known::Offer, "order 16 0 0 0 0 0 0 0 0; commit 0 1 0", "committed"),
    (Known::Offer, "commit 25 4398046511105 0; commit 4294967295 0 0", "refused 7; refused 7"),
    (Known::Offer, "commit 24 4398046511105 0", "refused 5"),
    (Known::Offer, "resource 0 0 0; order 16 0 0 0 0 0 0 0 0; commit 1 4398046511105 0", "refused 5"),
    (Known::Offer, "resource 0 0 0; commit 1 0 4398046511105; commit 1 4398046511105 0", "refused 1; refused 1"),
    (Known::Offer, "resource 0 0 0; commit 1 5 5; commit 1 6 5", "refused 2; refused 2"),
    (Known::Offer, "resource 0 0 0; commit 1 0 5", "refused 3"),
    (
        Known::Offer,
        "63*booking 0 1 1; resource 0 0 0; requirement 0 0 0 1 1; requirement 0 0 0 1 1; place 5; commit 2 5 6; commit 1 5 6; commit 1 5 6",
        "placed 5 5 5 2; entry 0 0 1 0; entry 0 0 1 0; refused 4; committed; refused 4",
    ),
    // A refused placing leaves the slate.
    (
        Known::Offer,
        "resource 0 0 0; requirement 0 0 0 1 1; place 5; place 4398046511105; commit 1 5 6",
        "placed 5 5 5 1; entry 0 0 1 0; refused 1; committed",
    ),
    // The calendar's test program.
    (Known::Calendar, "window 0 4398046511105; block 2 2; 33*window 0 1", "refused 1; refused 2; refused 4"),
    (Known::Calendar, "26*list; layout 8796093022208; layout 8796093022209; work 8796093022208 9007199254740992", "refused 4; refused 1; end 9015995347763200"),
    (Known::Calendar, "layout 7; work 6 0; work 7 0; work 8796093022209 0; work 7 9007199254740993", "refused 1; end 7; refused 1; refused 1"),
    (Known::Calendar, "work 0 5; window 2 4; list; layout 0; unlist; work 0 1; work 2 2; work 2 3", "end 5; none; end 4; none"),
];

/// Bad bytes: an unknown kind, a cut body, a flag that is none. `refused 9`, and the end.
const BAD_BYTES: &[(Known, &[u8], &str)] = &[
    (Known::Slot, &[], ""),
    (Known::Slot, &[0], "refused 9"),
    (Known::Slot, &[7, 1, 0, 0, 0, 0], "refused 9"),
    (Known::Slot, &[1, 0, 0, 0], "refused 9"),
    (Known::Slot, &[1, 0, 0, 0, 128, 16], "refused 1; refused 9"),
    (Known::Slot, &[16, 0, 0, 0, 0, 0, 0, 0, 0, 0, 0, 0], "refused 9"),
    (Known::Offer, &[5, 0, 0, 0, 0, 0, 0, 0, 0, 0, 0, 0, 0, 0, 0, 0, 0, 1, 0, 0, 0], "refused 9"),
    (Known::Offer, &[16, 0, 0, 0, 0, 0, 0, 0, 0, 0, 0, 2, 1], "refused 9"),
    (Known::Offer, &[27], "refused 9"),
    (Known::Calendar, &[34, 1, 0, 0, 0, 0], "refused 9"),
    (Known::Calendar, &[33, 0, 0, 0, 0, 0, 0, 0], "refused 9"),
];

/// The Rattle program that knows these kinds.
pub fn program_of(known: Known) -> &'static str {
    match known {
        Known::Slot => "slot",
        Known::Offer => "offer",
        _ => "run_calendar",
    }
}

fn repeated(records: &str) -> String {
    let one = |part: &str| match part.trim().split_once('*') {
        Some((n, record)) => vec![record; n.parse().expect("a count")].join("; "),
        None => part.to_string(),
    };
    records.split(';').map(one).collect::<Vec<_>>().join("; ")
}

/// The records that must be refused, for the vectors.
pub fn refusal_streams(known: Known) -> Vec<Vec<u8>> {
    let records =
        REFUSALS.iter().filter(|x| x.0 == known).map(|x| encode(&parse_all(&repeated(x.1))));
    records.chain(BAD_BYTES.iter().filter(|x| x.0 == known).map(|x| x.1.to_vec())).collect()
}

/// 01's refusals, one sentence at a time.
pub fn run_refusals(programs: &Path) -> bool {
    let (mut bad, mut count) = (0, 0);
    for known in [Known::Slot, Known::Offer, Known::Calendar] {
        let mut sources = vec![Source::Paper(Instants::Events)];
        let program = programs.join(program_of(known));
        if program.exists() {
            sources.push(Source::Program(program));
        }
        for source in &sources {
            for (_, records, replies) in REFUSALS.iter().filter(|x| x.0 == known) {
                count += 1;
                bad += u64::from(!holds("refusal", source, known, &repeated(records), replies));
            }
            for (_, bytes, replies) in BAD_BYTES.iter().filter(|x| x.0 == known) {
                count += 1;
                let given = source.text(bytes, known).trim_end().replace('\n', "; ");
                if given != *replies {
                    println!(
                        "refusal FAILS on {}: {bytes:?}: expected {replies}, given {given}",
                        source.name()
                    );
                    bad += 1;
                }
            }
        }
    }
    for flag in [26, 27, 38] {
        let mut order = vec![21u8; 39]; // every byte of the body 21, the flags 1 but for one
        (order[26], order[27], order[38]) = (1, 1, 1);
        order[flag] = 2;
        count += 1;
        bad +=
            u64::from(Source::Paper(Instants::Events).text(&order, Known::Offer) != "refused 9\n");
    }
    bad += not_in_streams(&mut count);
    println!("refusals of 01: {count} checks, {bad} fail");
    bad == 0
}

/// What no stream reaches: a short slate, a lent run of windows.
fn not_in_streams(count: &mut u64) -> u64 {
    let mut bad = 0;
    let mut check = |what: &str, holds: bool| {
        *count += 1;
        if !holds {
            println!("refusal FAILS: {what}");
            bad += 1;
        }
    };
    let mut order = Order { category: 16, ..Order::default() };
    let place = |order: &Order, slate| Board::default().place(Instants::Events, order, 0, slate);
    check("a slate of 23 is refused 7 before all else", place(&order, 23) == Placing::Refused(7));
    check("a slate of 24 is enough", place(&order, 24) == Placing::Refused(5));
    order.category = 0;
    check("a longer slate is enough", matches!(place(&order, 30), Placing::Placed { .. }));
    let mut board = Board::default();
    let rows = [Entry::default(); 3];
    check("4 entries of a slate of 3", board.commit(&rows, 4, 16, 1, 0) == Some(7));
    check("3 entries of a slate of 3", board.commit(&rows, 3, 16, 1, 0) == Some(5));
    let mut list = vec![(0, 1); 30];
    check(
        "a run over 32",
        window_run(&mut list, &[(0, 1), (0, 1), (0, 1)]) == Some(4) && list.len() == 30,
    );
    check(
        "a bad record before the 33rd",
        window_run(&mut list, &[(0, 1), (1, 1), (0, 1), (0, 1)]) == Some(2),
    );
    check(
        "a bad record that is the 33rd",
        window_run(&mut list, &[(0, 1), (0, 1), (1, 1)]) == Some(2),
    );
    check(
        "a bad record behind the 33rd",
        window_run(&mut list, &[(0, 1), (0, 1), (0, 1), (1, 1)]) == Some(4),
    );
    check("nothing was taken", list.len() == 30);
    check("a run up to 32", window_run(&mut list, &[(0, 1), (5, 6)]).is_none() && list.len() == 32);
    check("an empty run", window_run(&mut list, &[]).is_none() && list.len() == 32);
    check("a diary asked in 01's order", Diary::ask_refusal(1 << 44, 0, 0) == Some(1));
    bad
}
