//! 01, Calendar: windows and blocks, working time, joint working time, and their refusals.

use super::{first, Instants, Refusal, INSTANT};
use crate::wrong::{wrong, Wrong};

#[derive(Clone, Default, Debug)]
pub struct Calendar {
    pub windows: Vec<(u64, u64)>,
    pub blocks: Vec<(u64, u64)>,
}

/// Touching windows made one (only for a wrong reading).
fn joined(windows: &[(u64, u64)]) -> Vec<(u64, u64)> {
    let mut sorted = windows.to_vec();
    sorted.sort_unstable();
    let mut out: Vec<(u64, u64)> = Vec::new();
    for w in sorted {
        match out.last_mut() {
            Some(last) if w.0 <= last.1 => last.1 = last.1.max(w.1),
            _ => out.push(w),
        }
    }
    out
}

impl Calendar {
    /// Whether the unbroken span [start, end) fits.
    pub fn fits(&self, start: u64, end: u64) -> bool {
        let holds = |w: &(u64, u64)| {
            w.0 <= start && end <= w.1 && !(wrong(Wrong::ZeroSpanAtWindowEnd) && start == w.1)
        };
        let inside = if wrong(Wrong::JoinedWindows) {
            joined(&self.windows).iter().any(holds)
        } else {
            self.windows.iter().any(holds)
        };
        let blocked = self
            .blocks
            .iter()
            .any(|b| b.0 < end && (start < b.1 || (wrong(Wrong::BlockEndBlocked) && start == b.1)));
        (self.windows.is_empty() || inside) && !blocked
    }

    /// Whether the millisecond at `p` is working time.
    pub fn working(&self, p: u64) -> bool {
        let inside = self
            .windows
            .iter()
            .any(|w| (w.0 <= p && p < w.1) || (wrong(Wrong::WindowEndWorking) && p == w.1));
        let blocked = self
            .blocks
            .iter()
            .any(|b| (b.0 <= p && p < b.1) || (wrong(Wrong::BlockEndBlocked) && p == b.1));
        let torn = wrong(Wrong::ApartWorking) && self.windows.iter().any(|w| p > 0 && w.1 == p);
        (self.windows.is_empty() || inside) && !blocked && !torn
    }

    pub fn events(&self) -> impl Iterator<Item = u64> + '_ {
        self.windows.iter().chain(&self.blocks).flat_map(|w| [w.0, w.1])
    }
}

/// A window or block more: refusals.
pub fn window_refusal(list: &[(u64, u64)], start: u64, end: u64) -> Refusal {
    first(&[(1, start > INSTANT || end > INSTANT), (2, end <= start), (4, list.len() >= 32)])
}

/// A lent run of windows or blocks: taken whole, or refused with the number of its first bad
/// record, and then nothing changes.
pub fn window_run(list: &mut Vec<(u64, u64)>, run: &[(u64, u64)]) -> Refusal {
    let mut taken = list.clone();
    for &(start, end) in run {
        if let Some(number) = window_refusal(&taken, start, end) {
            return Some(number);
        }
        taken.push((start, end));
    }
    *list = taken;
    None
}

/// The joint working time of some calendars from an instant on, cut into stretches that are
/// working or not from end to end: of one millisecond each (`Every`), or from event to event.
/// The last stretch begins at the last event, after which nothing changes.
pub struct JointWork {
    pub stretches: Vec<(u64, u64, bool)>,
}

impl JointWork {
    pub fn new(how: Instants, calendars: &[&Calendar], from: u64) -> Self {
        let events: Vec<u64> = calendars.iter().flat_map(|c| c.events()).collect();
        let last = events.iter().copied().max().unwrap_or(0).max(from);
        let mut cuts: Vec<u64> = if how == Instants::Every {
            (from..=last).collect()
        } else {
            events.into_iter().filter(|&e| e > from).chain([from]).collect()
        };
        cuts.sort_unstable();
        cuts.dedup();
        let stretches = (0..cuts.len())
            .map(|k| {
                let working = calendars.iter().all(|c| c.working(cuts[k]));
                (cuts[k], cuts.get(k + 1).copied().unwrap_or(u64::MAX), working)
            })
            .collect();
        Self { stretches }
    }

    /// When `work` from `start` on ends, `start` not being before the instant laid out from.
    pub fn work_end(&self, mut start: u64, work: u64) -> Option<u64> {
        if wrong(Wrong::StartInPause) {
            start = self.working_from(start)?;
        }
        let at = self.stretches.partition_point(|s| s.1 <= start);
        if !self.stretches[at].2 {
            return None;
        }
        if work == 0 {
            return Some(start);
        }
        let mut left = work;
        for &(from, to, _) in self.stretches[at..].iter().filter(|s| s.2) {
            let from = from.max(start);
            if left <= to - from {
                let end = from + left;
                return match wrong(Wrong::EndAfterPause) {
                    true => self.working_from(end).or(Some(end)),
                    false => Some(end),
                };
            }
            left -= to - from;
        }
        None
    }

    /// The first working millisecond from `p` on (only for wrong readings).
    fn working_from(&self, p: u64) -> Option<u64> {
        self.stretches.iter().find(|s| s.2 && s.1 > p).map(|s| s.0.max(p))
    }
}
