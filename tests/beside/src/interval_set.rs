//! Stand-in for `IntervalSet` of the crate u_numflow, which the Rust calls and which is not in
//! its text. 01 takes it for a set of milliseconds; here it is a rising list of pieces.

use std::sync::atomic::{AtomicU8, Ordering};

/// Touching pieces stay apart.
pub const TOUCHING: u8 = 1;
/// Empty pieces stay.
pub const EMPTY: u8 = 2;

/// What is kept (TOUCHING, EMPTY, both or neither). 01 says that it changes no reply; runs with
/// each setting test that.
pub static KEEP: AtomicU8 = AtomicU8::new(0);

fn keeps(what: u8) -> bool {
    KEEP.load(Ordering::Relaxed) & what != 0
}

#[derive(Debug, Clone, PartialEq)]
pub struct IntervalSet<T> {
    pieces: Vec<(T, T)>,
}

/// Adds the piece [start, end), where it is to be kept.
fn push(pieces: &mut Vec<(i64, i64)>, start: i64, end: i64) {
    if start < end || (start == end && keeps(EMPTY)) {
        pieces.push((start, end));
    }
}

impl IntervalSet<i64> {
    pub fn new() -> Self {
        Self { pieces: Vec::new() }
    }

    /// The union of the pairs; none where one is reversed.
    pub fn from_intervals(pairs: impl Iterator<Item = (i64, i64)>) -> Option<Self> {
        let mut sorted = Vec::new();
        for (start, end) in pairs {
            if start > end {
                return None;
            }
            push(&mut sorted, start, end);
        }
        sorted.sort_unstable();
        let mut pieces: Vec<(i64, i64)> = Vec::with_capacity(sorted.len());
        for (start, end) in sorted {
            match pieces.last_mut() {
                Some(last) if start < last.1 || (start == last.1 && !keeps(TOUCHING)) => {
                    last.1 = last.1.max(end)
                }
                _ => pieces.push((start, end)),
            }
        }
        Some(Self { pieces })
    }

    pub fn iter(&self) -> impl Iterator<Item = (i64, i64)> + '_ {
        self.pieces.iter().copied()
    }

    /// What lies in [from, to); none where that is reversed.
    pub fn clip(&self, from: i64, to: i64) -> Option<Self> {
        if to < from {
            return None;
        }
        let mut pieces = Vec::new();
        for &(start, end) in &self.pieces {
            push(&mut pieces, start.max(from), end.min(to));
        }
        Some(Self { pieces })
    }

    pub fn intersection(&self, other: &Self) -> Self {
        let (mut i, mut j) = (0, 0);
        let mut pieces = Vec::new();
        while i < self.pieces.len() && j < other.pieces.len() {
            let (a, b) = (self.pieces[i], other.pieces[j]);
            push(&mut pieces, a.0.max(b.0), a.1.min(b.1));
            if a.1 <= b.1 {
                i += 1;
            } else {
                j += 1;
            }
        }
        Self { pieces }
    }

    pub fn difference(&self, other: &Self) -> Self {
        let mut pieces = Vec::new();
        let mut first = 0;
        for &(start, end) in &self.pieces {
            while first < other.pieces.len() && other.pieces[first].1 <= start {
                first += 1;
            }
            let mut at = start;
            for &(from, to) in other.pieces[first..].iter().take_while(|p| p.0 < end) {
                push(&mut pieces, at, from);
                at = at.max(to);
            }
            push(&mut pieces, at, end);
        }
        Self { pieces }
    }

    pub fn measure(&self) -> i128 {
        self.iter().map(|(start, end)| i128::from(end) - i128::from(start)).sum()
    }
}
