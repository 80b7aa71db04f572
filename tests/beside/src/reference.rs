//! The side that replies as the Rust does. It refuses nothing: its streams stay inside 01's
//! limits. Numbers become the Rust's string ids: resource 3 is "R03", category 2 is "C2".

use crate::models::*;
use crate::records::Record;
use crate::scheduler::simple::{own_timeline, time_only_span, SimpleScheduler};
use crate::scheduler::timeline::ResourceTimeline;
use crate::side::{end_line, fit_line, placing_lines, Row, Side};
use std::cell::Cell;
use std::collections::HashMap;

thread_local! {
    /// The choosing instant of the last placing that came to one, told by the one line that
    /// `prepare` adds.
    pub static CHOSEN: Cell<Option<i64>> = const { Cell::new(None) };
}

/// A matrix as the records give it; -1 is absent. The Rust's own takes no entry back.
struct MatrixTable {
    default: i64,
    initial: i64,
    pairs: HashMap<(u64, u64), i64>,
    firsts: HashMap<u64, i64>,
}

impl MatrixTable {
    fn new(default: i64, initial: i64) -> Self {
        Self { default, initial, pairs: HashMap::new(), firsts: HashMap::new() }
    }

    fn matrix(&self, resource: &str) -> TransitionMatrix {
        let mut matrix = TransitionMatrix::new("m", resource)
            .with_default(self.default)
            .with_initial(self.initial);
        for (&(last, this), &ms) in self.pairs.iter().filter(|p| *p.1 >= 0) {
            matrix.set_transition(category_id(last), category_id(this), ms);
        }
        for (&category, &ms) in self.firsts.iter().filter(|f| *f.1 >= 0) {
            matrix.set_initial(category_id(category), ms);
        }
        matrix
    }
}

/// The diary in hand, before it becomes a timeline.
#[derive(Clone)]
struct Hand {
    capacity: i32,
    calendar: Calendar,
    bookings: Vec<(i64, i64, i32)>,
}

impl Hand {
    fn new(capacity: i32) -> Self {
        Self { capacity, calendar: Calendar::new("c"), bookings: Vec::new() }
    }

    /// The resource with this diary. A calendar with no windows and no blocks is none, unless
    /// `empty_calendars` keeps it.
    fn resource(&self, id: &str, kind: u64, empty_calendars: bool) -> Resource {
        let resource = Resource::new(id, format!("K{kind}")).with_capacity(self.capacity);
        let c = &self.calendar;
        if !empty_calendars && c.time_windows.is_empty() && c.blocked_periods.is_empty() {
            return resource;
        }
        resource.with_calendar(c.clone())
    }

    fn timeline(&self, resource: &Resource) -> ResourceTimeline {
        let mut timeline = ResourceTimeline::new(resource);
        for &(start, end, units) in &self.bookings {
            timeline.book(start, end, units);
        }
        timeline
    }
}

fn resource_id(number: u64) -> String {
    format!("R{number:02}")
}

fn resource_number(id: &str) -> u64 {
    id[1..].parse().expect("an id made by resource_id")
}

fn category_id(category: u64) -> String {
    format!("C{category}")
}

fn ids(set: u64) -> impl Iterator<Item = String> {
    (0..16).filter(move |n| set >> n & 1 == 1).map(resource_id)
}

fn skills(set: u64) -> impl Iterator<Item = String> {
    (0..64).filter(move |n| set >> n & 1 == 1).map(|n| format!("S{n}"))
}

pub struct Reference {
    /// Whether a diary without windows and blocks has a calendar all the same.
    empty_calendars: bool,
    hand: Hand,
    /// The timeline of the diary in hand, made at the first ask.
    asked: Option<ResourceTimeline>,
    resources: Vec<Resource>,
    timelines: HashMap<String, ResourceTimeline>,
    tables: HashMap<u64, MatrixTable>,
    /// With the matrices of the tables; none once a table has changed.
    scheduler: Option<SimpleScheduler>,
    matrices: Option<TransitionMatrixCollection>,
    last_category: HashMap<String, String>,
    activity: Activity,
    task: Task,
    own: Option<ResourceTimeline>,
    came_from: Vec<String>,
    slate: Vec<Row>,
    list: Vec<Calendar>,
    layout: JointTime,
}

impl Reference {
    pub fn new(empty_calendars: bool) -> Self {
        let mut side = Self {
            empty_calendars,
            hand: Hand::new(1),
            asked: None,
            resources: Vec::new(),
            timelines: HashMap::new(),
            tables: HashMap::new(),
            scheduler: None,
            matrices: None,
            last_category: HashMap::new(),
            activity: Activity::new("A", "T", 0),
            task: Task::new("T"),
            own: None,
            came_from: Vec::new(),
            slate: vec![(0, 0, 0, false); 24],
            list: Vec::new(),
            layout: JointTime::new(&[], 0),
        };
        side.task.category = category_id(0);
        side
    }

    pub fn timeline(&mut self) -> &ResourceTimeline {
        let (hand, keep) = (&self.hand, self.empty_calendars);
        self.asked.get_or_insert_with(|| hand.timeline(&hand.resource("R", 0, keep)))
    }

    /// Takes a new diary in hand, empty and of capacity 1; gives the old one.
    fn hand_over(&mut self) -> Hand {
        self.asked = None;
        std::mem::replace(&mut self.hand, Hand::new(1))
    }

    fn add_resource(&mut self, number: u64, kind: u64, set: u64, companions: &[u64]) {
        let hand = self.hand_over();
        let id = resource_id(number);
        let mut resource = hand.resource(&id, kind, self.empty_calendars);
        for skill in skills(set) {
            resource = resource.with_skill(skill);
        }
        for &c in companions {
            resource = resource.with_companion(resource_id(c));
        }
        self.timelines.insert(id, hand.timeline(&resource));
        self.resources.push(resource);
    }

    fn table(&mut self, number: u64) -> &mut MatrixTable {
        self.scheduler = None;
        self.matrices = None;
        self.tables.entry(number).or_insert_with(|| MatrixTable::new(0, 0))
    }

    fn new_order(&mut self, numbers: &[u64; 9]) {
        let [category, setup, process, teardown, resumable, present, release, come_from, own] =
            numbers.map(|n| n as i64);
        let duration = ActivityDuration::new(setup, process, teardown);
        let mut activity = Activity::new("A", "T", 0).with_duration(duration);
        activity.resumable = resumable == 1;
        activity.release_time = (present == 1).then_some(release);
        if own == 1 {
            let hand = self.hand_over();
            activity.calendar = Some(hand.calendar);
        }
        self.own = own_timeline(&activity);
        self.activity = activity;
        self.task.category = category_id(category as u64);
        self.came_from = ids(come_from as u64).collect();
    }

    fn add_requirement(&mut self, kind: u64, candidates: u64, set: u64, quantity: u64, usage: u64) {
        let mut requirement = ResourceRequirement::new(format!("K{kind}"))
            .with_quantity(quantity as i32)
            .with_usage(usage as i32)
            .with_candidates(ids(candidates).collect());
        for skill in skills(set) {
            requirement = requirement.with_skill(skill);
        }
        self.activity.resource_requirements.push(requirement);
    }

    /// The setup of a category behind another, which is above 15 where nothing was last.
    fn setup(&mut self, number: u64, last: u64, category: u64, own: i64) -> i64 {
        let tables = &self.tables;
        let matrices = self.matrices.get_or_insert_with(|| {
            let mut all = TransitionMatrixCollection::new();
            tables.iter().for_each(|(n, t)| all.add(t.matrix(&resource_id(*n))));
            all
        });
        let last = (last <= 15).then(|| category_id(last));
        matrices.setup_ms(&resource_id(number), last.as_deref(), &category_id(category), own)
    }

    fn transport(&self, come_from: u64, to: u64) -> i64 {
        let from: Vec<String> = ids(come_from).collect();
        let found = |id: &str| self.resources.iter().find(|r| r.id == id);
        transport_between(found, from.iter().map(String::as_str), &[&resource_id(to)])
    }

    fn serves(&self, kind: u64, candidates: u64, set: u64, number: u64) -> bool {
        let mut requirement = ResourceRequirement::new(format!("K{kind}"))
            .with_candidates(ids(candidates).collect());
        for skill in skills(set) {
            requirement = requirement.with_skill(skill);
        }
        let id = resource_id(number);
        let resource = self.resources.iter().find(|r| r.id == id);
        requirement.accepts(resource.expect("inside the limits: on the board"))
    }

    /// An order without requirements goes as `schedule` routes it.
    fn place_time_only(&self, ready: i64) -> String {
        let from = self.activity.release_time.map_or(ready, |r| ready.max(r));
        let span = time_only_span(&self.activity, self.own.as_ref(), from);
        let placed = span.map(|(start, end)| (start as u64, end as u64, &[][..]));
        placing_lines(Some(from as u64), placed)
    }

    fn place(&mut self, ready: i64) -> String {
        if self.activity.resource_requirements.is_empty() {
            return self.place_time_only(ready);
        }
        let tables = &self.tables;
        let scheduler = self.scheduler.get_or_insert_with(|| {
            let mut matrices = TransitionMatrixCollection::new();
            tables.iter().for_each(|(n, t)| matrices.add(t.matrix(&resource_id(*n))));
            SimpleScheduler::new().with_transition_matrices(matrices)
        });
        CHOSEN.with(|c| c.set(None));
        let placed = scheduler.place_activity(
            &self.activity,
            &self.task,
            &self.timelines,
            self.own.as_ref(),
            &self.last_category,
            &self.resources,
            ready,
            &self.came_from,
        );
        let choosing = CHOSEN.with(|c| c.get()).map(|t| t as u64);
        let Some(placement) = placed else {
            return placing_lines(choosing, None);
        };
        let companion = |id: &String| placement.companions.contains(id);
        let rows: Vec<Row> = placement
            .selections
            .iter()
            .map(|(id, setup, usage)| {
                (resource_number(id), *setup as u64, *usage as u64, companion(id))
            })
            .collect();
        self.slate[..rows.len()].copy_from_slice(&rows);
        let (start, end) = (placement.start_ms as u64, placement.end_ms as u64);
        placing_lines(choosing, Some((start, end, &rows)))
    }

    /// As `schedule` books a placement: each entry's timeline, and the category where the entry
    /// is no companion and the resource has a matrix. An entry that is not on the board comes up
    /// only where the slates already differ, and is passed over.
    fn commit(&mut self, count: usize, start: i64, end: i64) {
        for &(number, _, units, companion) in &self.slate[..count] {
            let id = resource_id(number);
            let Some(timeline) = self.timelines.get_mut(&id) else { continue };
            timeline.book(start, end, units as i32);
            if !companion && self.tables.contains_key(&number) {
                self.last_category.insert(id, self.task.category.clone());
            }
        }
    }

    fn lay_out(&self, from: i64) -> JointTime {
        JointTime::new(&self.list.iter().collect::<Vec<_>>(), from)
    }

    fn measure(&self, rounds: i64, from: i64, step: i64, work: i64) -> u64 {
        let mut sum = 0u64;
        for r in 0..rounds {
            let joint = self.lay_out(from + r);
            for k in 0..100 {
                let end = joint.work_end(from + r + k * step, work);
                sum = sum.wrapping_add(end.map_or(0, |e| e as u64));
            }
        }
        sum
    }
}

impl Side for Reference {
    fn take(&mut self, record: &Record) -> String {
        let ms = |number: u64| number as i64;
        match (record.kind, &record.numbers[..]) {
            (1, &[capacity]) => {
                self.hand_over();
                self.hand.capacity = capacity as i32;
            }
            (2, &[start, end]) => {
                self.asked = None;
                self.hand.calendar.time_windows.push(TimeWindow::new(ms(start), ms(end)));
            }
            (3, &[start, end]) => {
                self.asked = None;
                self.hand.calendar.blocked_periods.push(TimeWindow::new(ms(start), ms(end)));
            }
            (4, &[start, end, units]) => {
                self.asked = None;
                self.hand.bookings.push((ms(start), ms(end), units as i32));
            }
            (5, &[from, span, units]) => {
                let found = self.timeline().earliest_fit(ms(from), ms(span), units as i32);
                return fit_line(found.map(|s| (s as u64, s as u64 + span)));
            }
            (6, &[from, span, units]) => {
                let found = self.timeline().earliest_resumable(ms(from), ms(span), units as i32);
                return fit_line(found.map(|(s, e)| (s as u64, e as u64)));
            }
            (16, &[number, kind, set, ref companions @ ..]) => {
                self.add_resource(number, kind, set, companions)
            }
            (17, &[number, default, initial]) => {
                *self.table(number) = MatrixTable::new(ms(default), ms(initial));
            }
            (18, &[number, last, this, entry]) => {
                self.table(number).pairs.insert((last, this), ms(entry));
            }
            (19, &[number, category, entry]) => {
                self.table(number).firsts.insert(category, ms(entry));
            }
            (20, &[from, to, time]) => {
                let from = resource_id(from);
                let resource = self.resources.iter_mut().find(|r| r.id == from);
                let resource = resource.expect("inside the limits: on the board");
                resource.transport_ms.insert(resource_id(to), ms(time));
            }
            (21, numbers) => self.new_order(numbers.try_into().expect("nine numbers")),
            (22, &[kind, candidates, set, quantity, usage]) => {
                self.add_requirement(kind, candidates, set, quantity, usage)
            }
            (23, &[number, speed]) => {
                let timing = ResourceTiming::Speed(f64::from_bits(speed));
                self.activity.resource_timings.insert(resource_id(number), timing);
            }
            (24, &[number, setup, process, teardown]) => {
                let own = ActivityDuration::new(ms(setup), ms(process), ms(teardown));
                let timing = ResourceTiming::Duration(own);
                self.activity.resource_timings.insert(resource_id(number), timing);
            }
            (25, &[ready]) => return self.place(ms(ready)),
            (26, &[count, start, end]) => {
                self.commit(count as usize, ms(start), ms(end));
                return "committed\n".to_string();
            }
            (32, &[start, end]) => {
                let fits = self.hand.calendar.interval_fits(ms(start), ms(end));
                return if fits { "fits\n" } else { "no\n" }.to_string();
            }
            (33, &[instant]) => {
                let working = self.hand.calendar.is_working_time(ms(instant));
                return if working { "working\n" } else { "pause\n" }.to_string();
            }
            (34, &[]) => {
                self.asked = None;
                let calendar = std::mem::replace(&mut self.hand.calendar, Calendar::new("c"));
                self.list.push(calendar);
            }
            (35, &[from]) => self.layout = self.lay_out(ms(from)),
            (36, &[start, work]) => {
                return end_line(self.layout.work_end(ms(start), ms(work)).map(|e| e as u64));
            }
            (37, &[]) => self.list.clear(),
            (38, &[rounds, from, step, work]) => {
                return format!("sum {}\n", self.measure(ms(rounds), ms(from), ms(step), ms(work)));
            }
            (40, &[count, ref held @ ..]) => {
                let held: Vec<String> =
                    held[..count as usize].iter().map(|&n| resource_id(n)).collect();
                let d = self.activity.duration_on(held.iter().map(String::as_str));
                return format!("duration {} {} {}\n", d.setup_ms, d.process_ms, d.teardown_ms);
            }
            (41, &[number, last, category, own]) => {
                return format!("setup {}\n", self.setup(number, last, category, ms(own)));
            }
            (42, &[come_from, to]) => {
                return format!("transport {}\n", self.transport(come_from, to));
            }
            (43, &[kind, candidates, set, number]) => {
                let serves = self.serves(kind, candidates, set, number);
                return if serves { "serves\n" } else { "no\n" }.to_string();
            }
            _ => unreachable!("the reader gives whole records of known kinds"),
        }
        String::new()
    }

    fn totals(&self) -> Vec<(u64, u64)> {
        let hand = self.hand.timeline(&self.hand.resource("R", 0, false));
        let on_board = self.resources.iter().map(|r| &self.timelines[&r.id]);
        let total =
            |t: &ResourceTimeline| (t.booked_ms() as u64, t.latest_end().unwrap_or(0) as u64);
        std::iter::once(&hand).chain(on_board).map(total).collect()
    }
}
