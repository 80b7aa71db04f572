//! Plants each wrong reading in paper.rs and sees that streams like those of the runs catch it.

use crate::paper::Instants;
use crate::random::{Random, Size};
use crate::records::{encode, Known};
use crate::runs::make;
use crate::sources::{Source, REFERENCE};
use crate::wrong::{plant, Wrong, ALL};

/// Streams of each family, all of the sort in which every instant is tried.
const STREAMS: [(Known, usize, usize); 3] =
    [(Known::Calendar, 500, 20), (Known::Slot, 1000, 20), (Known::Offer, 4000, 0)];

/// A stream with the Rust's replies to it.
type Answered = (Known, Vec<u8>, Vec<String>);

fn answered(seed: u64) -> Vec<Answered> {
    let mut all = Vec::new();
    for (family, (known, count, cases)) in STREAMS.into_iter().enumerate() {
        for n in 0..count as u64 {
            let mut r = Random(seed ^ (family as u64 + 9) << 56 ^ n << 16);
            let size = r.pick(&[Size::Small, Size::Small, Size::Small, Size::High]);
            let bytes = encode(&make(&mut r, known, size, cases));
            let replies = REFERENCE.replies(&bytes, known).0;
            all.push((known, bytes, replies));
        }
    }
    all
}

/// How many streams of each family the planted reading answers otherwise than the Rust.
fn caught(all: &[Answered]) -> [u64; 3] {
    let mut count = [0; 3];
    for (known, bytes, replies) in all {
        let family = STREAMS.iter().position(|s| s.0 == *known).expect("one of the three");
        let given = Source::Paper(Instants::Every).replies(bytes, *known).0;
        count[family] += u64::from(given != *replies);
    }
    count
}

pub fn run(seed: u64) -> bool {
    let all = answered(seed);
    println!(
        "streams that catch a wrong reading, of 500 calendar, 1000 diary and 4000 board streams:"
    );
    let mut good = true;
    for &(which, text) in [(Wrong::Nothing, "nothing planted")].iter().chain(ALL) {
        plant(which);
        let count = caught(&all);
        plant(Wrong::Nothing);
        let as_wanted = (count.iter().sum::<u64>() > 0) == (which != Wrong::Nothing);
        good &= as_wanted;
        let remark = if as_wanted { "" } else { "   NOT AS WANTED" };
        println!("  {:>5} {:>5} {:>5}  {text}{remark}", count[0], count[1], count[2]);
    }
    println!("{} wrong readings planted", ALL.len());
    good
}
