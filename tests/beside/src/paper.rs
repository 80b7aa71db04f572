//! A second reading of 01, written from its sentences and not from the Rust: every instant is
//! tried, nothing is clever. Replies and refusals; paper_side.rs feeds records to it.
//!
//! How far is far enough: an event is the start or end of a window, block or booking. After the
//! last event of the diaries and calendars asked, nothing changes any more: what holds one past
//! it holds at every later instant. So a search that has tried every instant up to one past the
//! last event has tried them all.
//!
//! `Instants::Every` tries each of them, for streams whose events lie close together.
//! `Instants::Events` tries only the first one and the events, for streams with large numbers;
//! runs at small numbers compare both with the Rust. Why it is enough: where a span, or work,
//! can start at s and not at s - 1, a window begins at s, or a block or booking ends there.

mod board;
mod calendar;
mod diary;
mod placing;

pub use board::*;
pub use calendar::*;
pub use diary::*;
pub use placing::*;

/// Greatest instant.
pub const INSTANT: u64 = 1 << 42;
/// Greatest instant that a diary may be asked from.
pub const FROM: u64 = 1 << 43;
/// Greatest span that may be asked.
pub const SPAN: u64 = 1 << 53;
/// Greatest setup, process, teardown, transport.
pub const DURATION: u64 = 1 << 36;
/// The most instants that can occur in choosing.
const INSTANTS_CHOSEN: usize = 2129;
/// Greatest number of units.
pub const UNITS: u64 = 10_000;

#[derive(Clone, Copy, PartialEq, Debug)]
pub enum Instants {
    Every,
    Events,
}

/// Refused with this number, or not.
pub type Refusal = Option<u8>;

/// The first number of the list whose fault is there.
pub fn first(faults: &[(u8, bool)]) -> Refusal {
    faults.iter().find(|f| f.1).map(|f| f.0)
}

/// The least instant from `from` on that passes the test, with what the test gave.
fn least<T>(
    how: Instants,
    from: u64,
    mut events: Vec<u64>,
    test: impl Fn(u64) -> Option<T>,
) -> Option<(u64, T)> {
    let past = events.iter().max().map_or(0, |last| last + 1).max(from);
    let at = |s: u64| test(s).map(|found| (s, found));
    if how == Instants::Every {
        return (from..=past).find_map(at);
    }
    events.extend([from, past]);
    events.retain(|&e| e >= from);
    events.sort_unstable();
    events.dedup();
    events.into_iter().find_map(at)
}
