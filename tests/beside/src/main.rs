//! The test beside the Rust: reads and makes record streams, and compares the Rust's replies
//! with a second reading of 01 and with the Rattle programs. `run` builds and calls it.

#![allow(dead_code)] // of the test copy of the Rust only a part is called

mod ask_speed;
mod board_stream;
mod compare;
mod count;
mod interval_set;
mod marked;
mod paper;
mod paper_side;
mod place_speed;
mod random;
mod records;
mod reference;
mod refusals;
mod runs;
mod side;
mod sources;
mod speed;
mod spoil;
mod stream;
mod teeth;
mod vectors;
mod wrong;

/// The test copy of the Rust.
#[path = "../build/rust/models"]
mod models {
    pub mod activity;
    pub mod calendar;
    pub mod constraint;
    pub mod resource;
    pub mod task;
    pub use activity::*;
    pub(crate) use calendar::JointTime;
    pub use calendar::*;
    pub use constraint::*;
    pub use resource::*;
    pub use task::*;
}

/// The test copy of the Rust.
#[path = "../build/rust/scheduler"]
mod scheduler {
    pub mod simple;
    pub mod timeline;
}

use records::Known;
use sources::{Source, REFERENCE};
use std::io::{Read, Write};
use std::path::Path;

/// beside MODE SEED PROGRAMS VECTORS, as `run` calls it. By hand, from standard input to standard
/// output: reply SIDE KINDS (what a side replies to a stream), show KINDS (a stream as readable
/// lines), make (readable lines as a stream), random KINDS SEED CASES (a stream of the runs).
fn main() {
    let args: Vec<String> = std::env::args().skip(1).collect();
    let words: Vec<&str> = args.iter().map(String::as_str).collect();
    let good = match words[..] {
        ["reply", side, kinds] => reply(side, kinds),
        ["show", kinds] => show(kinds),
        ["make"] => make(),
        ["random", kinds, seed, cases] => random(kinds, seed, cases),
        [mode, seed, programs, vectors] => {
            let seed = seed.parse().expect("a seed is a number");
            run(mode, seed, Path::new(programs), Path::new(vectors))
        }
        _ => panic!("called otherwise than `run` does"),
    };
    std::process::exit(i32::from(!good));
}

fn run(mode: &str, seed: u64, programs: &Path, folder: &Path) -> bool {
    // The vectors are made of replies on which the sides agree, so they are looked at only where these do.
    let all = |plan: &runs::Plan| {
        let agree = marked::run_marked(programs)
            & refusals::run_refusals(programs)
            & runs::run(plan, None, seed, programs);
        agree && vectors::check(folder, programs)
    };
    match mode {
        "full" => all(&runs::FULL),
        "short" => all(&runs::SHORT),
        "marked" => marked::run_marked(programs),
        "refusals" => refusals::run_refusals(programs),
        "board" => runs::run(&runs::FULL, Some(Known::Board), seed, programs),
        "offer" => runs::run(&runs::OFFER, Some(Known::Offer), seed, programs),
        "teeth" => teeth::run(seed),
        "vectors" => vectors::write(folder),
        "speed" => speed::run(programs) & ask_speed::run(programs) & place_speed::run(programs),
        _ => panic!("no such mode"),
    }
}

/// Prints what one side replies to the stream on standard input. `paper:NAME` has that wrong
/// reading planted, to try the runs themselves.
fn reply(side: &str, kinds: &str) -> bool {
    let (side, planted) = side.split_once(':').unwrap_or((side, "Nothing"));
    let which = wrong::ALL.iter().map(|w| w.0).find(|w| format!("{w:?}") == planted);
    wrong::plant(which.unwrap_or(wrong::Wrong::Nothing));
    let source = match side {
        "reference" => REFERENCE,
        "paper" => Source::Paper(paper::Instants::Events),
        _ => panic!("the sides are reference, paper and paper:NAME"),
    };
    print!("{}", source.text(&input(), known(kinds)));
    true
}

fn show(kinds: &str) -> bool {
    let stream = compare::Stream::read(&input(), known(kinds));
    stream.records.iter().for_each(|record| println!("{record}"));
    if !stream.tail.is_empty() {
        println!("bytes that are no record: {:?}", stream.tail);
    }
    true
}

fn make() -> bool {
    let lines = String::from_utf8(input()).expect("readable lines");
    let bytes = records::encode(&records::parse_all(&lines));
    std::io::stdout().write_all(&bytes).is_ok()
}

fn random(kinds: &str, seed: &str, cases: &str) -> bool {
    let mut r = random::Random(seed.parse().expect("a seed is a number"));
    let size = random::Size::random(&mut r);
    let cases = cases.parse().expect("how many cases");
    let bytes = records::encode(&runs::make(&mut r, known(kinds), size, cases));
    std::io::stdout().write_all(&bytes).is_ok()
}

fn known(kinds: &str) -> Known {
    Known::named(kinds).expect("the kinds are slot, offer, calendar, board or all")
}

fn input() -> Vec<u8> {
    let mut bytes = Vec::new();
    std::io::stdin().read_to_end(&mut bytes).expect("standard input can be read");
    bytes
}
