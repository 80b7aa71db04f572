//! 01, Diary: bookings, what is free, the least start, and their refusals.

use super::{first, least, Calendar, Instants, JointWork, Refusal, FROM, INSTANT, SPAN, UNITS};
use crate::wrong::{wrong, Wrong};

#[derive(Clone, Debug)]
pub struct Diary {
    /// As given; the capacity is max(given, 1).
    pub given: u64,
    pub calendar: Calendar,
    /// Start, end, units; in the order in which they were made.
    pub bookings: Vec<(u64, u64, u64)>,
}

impl Diary {
    pub fn new(given: u64) -> Self {
        Self { given, calendar: Calendar::default(), bookings: Vec::new() }
    }

    fn capacity(&self) -> u64 {
        if wrong(Wrong::CapacityAsGiven) {
            return self.given;
        }
        self.given.max(1)
    }

    /// The sum of length times units over all bookings.
    pub fn booked_total(&self) -> u64 {
        self.bookings.iter().map(|b| (b.1 - b.0) * b.2).sum()
    }

    pub fn latest_end(&self) -> Option<u64> {
        self.bookings.iter().map(|b| b.1).max()
    }

    pub fn booking_refusal(&self, start: u64, end: u64, units: u64) -> Refusal {
        first(&[
            (1, start > INSTANT || end > INSTANT),
            (2, end <= start),
            (3, !(1..=UNITS).contains(&units)),
            (4, self.bookings.len() >= 64),
        ])
    }

    pub fn ask_refusal(from: u64, span: u64, units: u64) -> Refusal {
        first(&[(1, from > FROM || span > SPAN), (3, !(1..=UNITS).contains(&units))])
    }

    /// The units of the bookings that overlap [s, e) and hold the instant p.
    fn load(&self, s: u64, e: u64, p: u64) -> u64 {
        let overlapping = self.bookings.iter().filter(|b| b.0 < e && s < b.1);
        if wrong(Wrong::SummedLoad) {
            return overlapping.map(|b| b.2).sum();
        }
        overlapping.filter(|b| b.0 <= p && p < b.1).map(|b| b.2).sum()
    }

    /// Whether `units` are free over [s, e). Behind the last booking's end the load is 0, and
    /// between events it stays, so `Events` looks at s and where a booking begins.
    pub fn free(&self, how: Instants, s: u64, e: u64, units: u64) -> bool {
        let fits = |p: u64| {
            self.load(s, e, p) + units + u64::from(wrong(Wrong::UnitsAtCapacity)) <= self.capacity()
        };
        if units > self.capacity() {
            return false;
        }
        if s == e && wrong(Wrong::ZeroSpanFree) {
            return true;
        }
        if how == Instants::Every {
            return fits(s) && (s..e.min(self.latest_end().unwrap_or(0))).all(fits);
        }
        fits(s) && self.bookings.iter().filter(|b| s < b.0 && b.0 < e).all(|b| fits(b.0))
    }

    pub fn events(&self) -> impl Iterator<Item = u64> + '_ {
        self.calendar.events().chain(self.bookings.iter().flat_map(|b| [b.0, b.1]))
    }

    /// The least start from `from` on where the calendar fits the span and the units are free.
    pub fn earliest_fit(
        &self,
        how: Instants,
        from: u64,
        span: u64,
        units: u64,
    ) -> Option<(u64, u64)> {
        let ask = Ask::unbroken(self, span, units);
        least(how, from, self.events().collect(), |s| ask.end(how, s))
    }

    /// The least working start from `from` on where the units are free up to the work's end.
    pub fn earliest_resumable(
        &self,
        how: Instants,
        from: u64,
        work: u64,
        units: u64,
    ) -> Option<(u64, u64)> {
        let joint = JointWork::new(how, &[&self.calendar], from);
        let ask = Ask { diary: self, units, span: work, joint: Some(joint) };
        least(how, from, self.events().collect(), |s| ask.end(how, s))
    }
}

/// One diary asked for some units over a span: unbroken, or resumable over a joint time.
pub struct Ask<'a> {
    pub diary: &'a Diary,
    pub units: u64,
    pub span: u64,
    pub joint: Option<JointWork>,
}

impl<'a> Ask<'a> {
    pub fn unbroken(diary: &'a Diary, span: u64, units: u64) -> Self {
        Self { diary, units, span, joint: None }
    }

    /// The end of a span that starts at `s`, if it can start there.
    pub fn end(&self, how: Instants, s: u64) -> Option<u64> {
        let Some(joint) = &self.joint else {
            let e = s + self.span;
            let fits = self.diary.calendar.fits(s, e) && self.diary.free(how, s, e, self.units);
            return fits.then_some(e);
        };
        let e = joint.work_end(s, self.span)?;
        held_free(how, self.diary, joint, s, e, self.units).then_some(e)
    }
}

/// Free from s to the work's end, pauses included.
pub fn held_free(
    how: Instants,
    diary: &Diary,
    joint: &JointWork,
    s: u64,
    e: u64,
    units: u64,
) -> bool {
    if wrong(Wrong::FreeWhileWorking) && s < e {
        let worked = joint.stretches.iter().filter(|x| x.2 && x.0 < e && s < x.1);
        return worked.into_iter().all(|x| diary.free(how, s.max(x.0), e.min(x.1), units));
    }
    diary.free(how, s, e, units)
}
