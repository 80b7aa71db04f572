//! 01, Placing: the order and its refusals, choosing, fitting; and Committing.

use super::*;
use crate::wrong::{wrong, Wrong};

#[derive(Clone, Copy, Debug)]
pub struct Requirement {
    pub kind: u8,
    pub candidates: u16,
    pub skills: u64,
    pub quantity: u64,
    pub usage: u64,
}

#[derive(Clone, Debug, Default)]
pub struct Order {
    pub category: u8,
    pub durations: Durations,
    pub resumable: bool,
    pub release: Option<u64>,
    pub come_from: u16,
    pub calendar: Calendar,
    pub requirements: Vec<Requirement>,
    /// By resource number.
    pub timings: [Timing; 16],
}

impl Order {
    /// The faults of an order in 01's order, each over the whole order before the next.
    pub fn refusal(&self, ready: u64, slate: usize) -> Refusal {
        let own_in_range = |t: &Timing| !matches!(t, Timing::Own(d) if !d.in_range());
        let speed_in_range =
            |t: &Timing| !matches!(t, Timing::Speed(s) if !(0.25..=4.0).contains(s));
        let quantities: u64 = self.requirements.iter().map(|r| r.quantity).sum();
        first(&[
            (7, slate < 24),
            (5, self.category > 15),
            (
                1,
                ready > INSTANT
                    || self.release.is_some_and(|r| r > INSTANT)
                    || !self.durations.in_range()
                    || !self.timings.iter().all(own_in_range),
            ),
            (
                6,
                self.requirements.len() > 4
                    || self.requirements.iter().any(|r| r.quantity < 1)
                    || quantities > 8,
            ),
            (3, self.requirements.iter().any(|r| !(1..=UNITS).contains(&r.usage))),
            (8, !self.timings.iter().all(speed_in_range)),
        ])
    }
}

#[derive(Clone, Copy, Debug, Default, PartialEq)]
pub struct Entry {
    pub number: u8,
    pub setup: u64,
    pub units: u64,
    pub companion: bool,
}

#[derive(Clone, Debug, PartialEq)]
pub enum Placing {
    Refused(u8),
    None,
    ChosenNone { choosing: u64 },
    Placed { choosing: u64, start: u64, end: u64, entries: Vec<Entry> },
}

/// A resource held for a requirement, with its units.
type Held<'a> = (&'a Resource, u64);

impl Board {
    pub fn place(&self, how: Instants, order: &Order, ready: u64, slate: usize) -> Placing {
        if let Some(number) = order.refusal(ready, slate) {
            return Placing::Refused(number);
        }
        let release = order.release.filter(|_| !wrong(Wrong::ReleaseIgnored));
        let ready = ready.max(release.unwrap_or(0));
        if order.requirements.is_empty() {
            return self.place_without_requirements(how, order, ready);
        }
        let Some((choosing, held)) = self.choose(how, order, ready) else {
            return Placing::None;
        };
        let (span, entries) = self.entries(order, &held);
        let from = if wrong(Wrong::FitFromReady) { ready } else { choosing };
        match self.fit(how, order, &entries, from, span) {
            None => Placing::ChosenNone { choosing },
            Some((start, end)) => Placing::Placed { choosing, start, end, entries },
        }
    }

    fn place_without_requirements(&self, how: Instants, order: &Order, ready: u64) -> Placing {
        let mut d = order.durations;
        if wrong(Wrong::TimingsWithoutRequirements) {
            d = durations_on(order, &(0..16).collect::<Vec<u8>>());
        }
        match self.fit(how, order, &[], ready, d.total()) {
            None => Placing::ChosenNone { choosing: ready },
            Some((start, end)) => Placing::Placed { choosing: ready, start, end, entries: vec![] },
        }
    }

    /// The choosing instant and the resources held, in holding order.
    fn choose(&self, how: Instants, order: &Order, ready: u64) -> Option<(u64, Vec<Held<'_>>)> {
        let mut t = ready;
        for _ in 0..INSTANTS_CHOSEN {
            let mut held = Vec::new();
            let mut greatest = t;
            for requirement in &order.requirements {
                let mut keys = Vec::new();
                for (place, resource) in self.resources.iter().enumerate() {
                    if !resource.serves(requirement) {
                        continue;
                    }
                    let process = durations_on(order, &[resource.number]).process;
                    let start = self.start_alone(how, order, requirement, resource, ready, t);
                    if let Some(start) = start {
                        let key = sort_key(start, process, place, resource.number);
                        keys.push((key, start, resource));
                    }
                }
                if (keys.len() as u64) < requirement.quantity {
                    return None;
                }
                keys.sort_by_key(|k| k.0);
                for &(_, start, resource) in keys.iter().take(requirement.quantity as usize) {
                    greatest = greatest.max(start);
                    held.push((resource, requirement.usage));
                }
            }
            if greatest == t || wrong(Wrong::OneRound) {
                return Some((greatest, held));
            }
            t = greatest;
        }
        panic!("01: at most {INSTANTS_CHOSEN} instants can occur in choosing");
    }

    /// The least start of one serving resource alone from the later of t and its arrival, where
    /// it and its companions, one unit each, fit.
    fn start_alone(
        &self,
        how: Instants,
        order: &Order,
        requirement: &Requirement,
        resource: &Resource,
        ready: u64,
        t: u64,
    ) -> Option<u64> {
        let d = match wrong(Wrong::JointSpan) {
            true => durations_on(order, &self.first_serving(order)),
            false => durations_on(order, &[resource.number]),
        };
        let span = resource.setup(order.category, d.setup) + d.process + d.teardown;
        let arrival = ready + self.transport_to(order.come_from, resource.number);
        let from = t.max(arrival);
        let mut group = vec![(&resource.diary, requirement.usage)];
        let units = if wrong(Wrong::CompanionUsage) { requirement.usage } else { 1 };
        for &c in resource.companions.iter().filter(|_| !wrong(Wrong::CompanionsLater)) {
            match self.find(c) {
                Some(companion) => group.push((&companion.diary, units)),
                None if wrong(Wrong::CompanionOffBoard) => {}
                None => return None,
            }
        }
        let all: Vec<&Calendar> = group.iter().map(|g| &g.0.calendar).collect();
        let asks: Vec<Ask> = group
            .iter()
            .map(|&(diary, units)| {
                let one = [&diary.calendar];
                let calendars = if wrong(Wrong::CompanionJoint) { &all[..] } else { &one[..] };
                let joint = order.resumable.then(|| JointWork::new(how, calendars, from));
                Ask { diary, units, span, joint }
            })
            .collect();
        let mut events: Vec<u64> = group.iter().flat_map(|g| g.0.events()).collect();
        let own = &order.calendar;
        let own_too = wrong(Wrong::OwnCalendarChoosing) && !order.resumable;
        events.extend(own.events().filter(|_| own_too));
        least(how, from, events, |s| {
            let suits = asks.iter().all(|a| a.end(how, s).is_some());
            (suits && !(own_too && !own.fits(s, s + span))).then_some(())
        })
        .map(|found| found.0)
    }

    /// The first serving resources of each requirement (only for a wrong reading).
    fn first_serving(&self, order: &Order) -> Vec<u8> {
        let of = |r: &Requirement| -> Vec<u8> {
            let serving = self.resources.iter().filter(|x| x.serves(r)).map(|x| x.number);
            serving.take(r.quantity as usize).collect()
        };
        order.requirements.iter().flat_map(of).collect()
    }

    /// The span of all held together and the entries: held ones first, then companions.
    fn entries(&self, order: &Order, held: &[Held]) -> (u64, Vec<Entry>) {
        let companions = self.companions(held);
        let mut numbers: Vec<u8> = held.iter().map(|h| h.0.number).collect();
        if wrong(Wrong::CompanionTiming) {
            numbers.extend(companions.iter().map(|c| c.number));
        }
        let d = durations_on(order, &numbers);
        let mut entries: Vec<Entry> = held
            .iter()
            .map(|&(r, units)| {
                let setup = r.setup(order.category, d.setup);
                Entry { number: r.number, setup, units, companion: false }
            })
            .collect();
        let mut setups: Vec<u64> = entries.iter().map(|e| e.setup).collect();
        if wrong(Wrong::CompanionSetup) {
            setups.extend(companions.iter().map(|c| c.setup(order.category, d.setup)));
        }
        let setup = match wrong(Wrong::LeastSetup) {
            true => setups.iter().min(),
            false => setups.iter().max(),
        };
        for c in companions {
            entries.push(Entry { number: c.number, setup: 0, units: 1, companion: true });
        }
        (setup.copied().unwrap_or(0) + d.process + d.teardown, entries)
    }

    /// The companions not already held, once each.
    fn companions(&self, held: &[Held]) -> Vec<&Resource> {
        let mut joined: Vec<&Resource> = Vec::new();
        let mut of: Vec<&Resource> = held.iter().map(|h| h.0).collect();
        let mut k = 0;
        while k < of.len() {
            for &c in &of[k].companions {
                let is_held = held.iter().any(|h| h.0.number == c);
                if (is_held && !wrong(Wrong::CompanionTwice))
                    || joined.iter().any(|j| j.number == c)
                {
                    continue;
                }
                if let Some(companion) = self.find(c) {
                    joined.push(companion);
                    if wrong(Wrong::CompanionsOfCompanions) {
                        of.push(companion);
                    }
                }
            }
            k += 1;
        }
        joined
    }

    /// The least start from `from` on where every entry and the order's own calendar fit.
    fn fit(
        &self,
        how: Instants,
        order: &Order,
        entries: &[Entry],
        from: u64,
        span: u64,
    ) -> Option<(u64, u64)> {
        let nothing = Calendar::default();
        let own = if wrong(Wrong::OwnCalendarIgnored) { &nothing } else { &order.calendar };
        let diaries: Vec<(&Diary, u64)> = entries
            .iter()
            .map(|e| (&self.find(e.number).expect("an entry is on the board").diary, e.units))
            .collect();
        let events: Vec<u64> =
            diaries.iter().flat_map(|d| d.0.events()).chain(own.events()).collect();
        if order.resumable {
            let calendars: Vec<&Calendar> =
                diaries.iter().map(|d| &d.0.calendar).chain([own]).collect();
            let joint = JointWork::new(how, &calendars, from);
            return least(how, from, events, |s| {
                let e = joint.work_end(s, span)?;
                diaries.iter().all(|d| held_free(how, d.0, &joint, s, e, d.1)).then_some(e)
            });
        }
        let asks: Vec<Ask> = diaries.iter().map(|d| Ask::unbroken(d.0, span, d.1)).collect();
        if wrong(Wrong::FitEachAlone) {
            let mut start =
                least(how, from, events.clone(), |s| own.fits(s, s + span).then_some(()))?.0;
            for ask in &asks {
                start = start.max(least(how, from, events.clone(), |s| ask.end(how, s))?.0);
            }
            return Some((start, start + span));
        }
        least(how, from, events, |s| {
            let suits = own.fits(s, s + span) && asks.iter().all(|a| a.end(how, s).is_some());
            suits.then_some(s + span)
        })
    }
}

/// Sort by start, then process, then board order.
fn sort_key(start: u64, process: u64, place: usize, number: u8) -> (u64, u64, usize) {
    if wrong(Wrong::TiesByBoardOrder) {
        return (start, 0, place);
    }
    if wrong(Wrong::TiesByNumber) {
        return (start, process, usize::from(number));
    }
    if wrong(Wrong::ProcessFirst) {
        return (process, start, place);
    }
    (start, process, place)
}

impl Board {
    /// Books the entries in turn over [start, end) and notes the category; or refuses. `count` is
    /// how many entries were asked for, `slate` all that the slate holds.
    pub fn commit(
        &mut self,
        slate: &[Entry],
        count: u64,
        category: u8,
        start: u64,
        end: u64,
    ) -> Refusal {
        if count == 0 {
            return None;
        }
        let entries = &slate[..slate.len().min(usize::try_from(count).unwrap_or(usize::MAX))];
        let refusal = first(&[
            (7, count > slate.len() as u64),
            (5, entries.iter().any(|e| !self.has(e.number)) || category > 15),
            (1, start > INSTANT || end > INSTANT),
            (2, end <= start),
            (3, entries.iter().any(|e| !(1..=UNITS).contains(&e.units))),
            (4, !self.places_for(entries)),
        ]);
        if refusal.is_some() {
            return refusal;
        }
        for entry in entries {
            let resource = self.find_mut(entry.number).expect("checked above");
            let units = if wrong(Wrong::CommitOneUnit) { 1 } else { entry.units };
            resource.diary.bookings.push((start, end, units));
            let held = !entry.companion || wrong(Wrong::CompanionTakesCategory);
            if held && (resource.matrix.is_some() || wrong(Wrong::CategoryWithoutMatrix)) {
                resource.last = Some(category);
            }
        }
        None
    }

    /// Whether each diary has places for all its entries.
    fn places_for(&self, entries: &[Entry]) -> bool {
        self.resources.iter().all(|r| {
            let more = entries.iter().filter(|e| e.number == r.number).count();
            more == 0 || r.diary.bookings.len() + more <= 64
        })
    }
}
