//! The side that replies as paper.rs reads 01, refusals included.

use crate::paper::*;
use crate::records::Record;
use crate::side::{end_line, fit_line, placing_lines, Row, Side};

/// Entries of the slate.
const SLATE: usize = 24;
/// Calendars of the list.
const LIST: usize = 25;

pub struct PaperSide {
    how: Instants,
    hand: Diary,
    board: Board,
    order: Order,
    slate: [Entry; SLATE],
    list: Vec<Calendar>,
    layout: JointWork,
    layout_from: u64,
}

impl PaperSide {
    pub fn new(how: Instants) -> Self {
        Self {
            how,
            hand: Diary::new(1),
            board: Board::default(),
            order: Order::default(),
            slate: [Entry::default(); SLATE],
            list: Vec::new(),
            layout: JointWork::new(how, &[], 0),
            layout_from: 0,
        }
    }

    fn lay_out(&self, from: u64) -> JointWork {
        JointWork::new(self.how, &self.list.iter().collect::<Vec<_>>(), from)
    }

    /// Takes a new diary in hand, empty and of capacity 1; gives the old one.
    fn hand_over(&mut self) -> Diary {
        std::mem::replace(&mut self.hand, Diary::new(1))
    }

    /// The matrix of a resource, which gets one where it has none.
    fn matrix(&mut self, number: u8) -> &mut Matrix {
        let resource = self.board.find_mut(number).expect("checked before");
        resource.matrix.get_or_insert_with(|| Box::new(Matrix::new(0, 0)))
    }

    fn ask(&self, resumable: bool, from: u64, span: u64, units: u64) -> Result<String, u8> {
        accept(Diary::ask_refusal(from, span, units))?;
        let found = match resumable {
            true => self.hand.earliest_resumable(self.how, from, span, units),
            false => self.hand.earliest_fit(self.how, from, span, units),
        };
        Ok(fit_line(found))
    }

    fn place(&mut self, ready: u64) -> Result<String, u8> {
        match self.board.place(self.how, &self.order, ready, SLATE) {
            Placing::Refused(number) => Err(number),
            Placing::None => Ok(placing_lines(None, None)),
            Placing::ChosenNone { choosing } => Ok(placing_lines(Some(choosing), None)),
            Placing::Placed { choosing, start, end, entries } => {
                self.slate[..entries.len()].copy_from_slice(&entries);
                let rows: Vec<Row> = entries
                    .iter()
                    .map(|e| (u64::from(e.number), e.setup, e.units, e.companion))
                    .collect();
                Ok(placing_lines(Some(choosing), Some((start, end, &rows))))
            }
        }
    }

    fn measure(&self, rounds: u64, from: u64, step: u64, work: u64) -> Result<String, u8> {
        let last = u128::from(from) + u128::from(rounds.max(1) - 1) + 99 * u128::from(step);
        if last > u128::from(FROM) || work > SPAN {
            return Err(1);
        }
        let mut sum = 0u64;
        for r in 0..rounds {
            let joint = self.lay_out(from + r);
            for k in 0..100 {
                sum = sum.wrapping_add(joint.work_end(from + r + k * step, work).unwrap_or(0));
            }
        }
        Ok(format!("sum {sum}\n"))
    }

    /// The reply to a record, or the number it is refused with.
    fn reply(&mut self, record: &Record) -> Result<String, u8> {
        let byte = |number: u64| number as u8;
        match (record.kind, &record.numbers[..]) {
            (1, &[capacity]) => {
                accept((capacity > 0x7fff_ffff).then_some(1))?;
                self.hand = Diary::new(capacity);
            }
            (2, &[start, end]) => {
                let windows = &mut self.hand.calendar.windows;
                accept(window_refusal(windows, start, end))?;
                windows.push((start, end));
            }
            (3, &[start, end]) => {
                let blocks = &mut self.hand.calendar.blocks;
                accept(window_refusal(blocks, start, end))?;
                blocks.push((start, end));
            }
            (4, &[start, end, units]) => {
                accept(self.hand.booking_refusal(start, end, units))?;
                self.hand.bookings.push((start, end, units));
            }
            (5, &[from, span, units]) => return self.ask(false, from, span, units),
            (6, &[from, span, units]) => return self.ask(true, from, span, units),
            (16, &[number, kind, skills, ref companions @ ..]) => {
                let companions: Vec<u8> = companions.iter().map(|&c| byte(c)).collect();
                accept(self.board.resource_refusal(byte(number), &companions))?;
                let diary = self.hand_over();
                self.board.resources.push(Resource {
                    number: byte(number),
                    kind: byte(kind),
                    skills,
                    companions,
                    diary,
                    matrix: None,
                    last: None,
                });
            }
            (17, &[number, default, initial]) => {
                accept(self.board.matrix_refusal(byte(number), default as i64, initial as i64))?;
                *self.matrix(byte(number)) = Matrix::new(default, initial);
            }
            (18, &[number, last, this, ms]) => {
                let categories = [byte(last), byte(this)];
                accept(self.board.matrix_entry_refusal(byte(number), &categories, ms as i64))?;
                self.matrix(byte(number)).pairs[last as usize][this as usize] = ms as i64;
            }
            (19, &[number, category, ms]) => {
                accept(self.board.matrix_entry_refusal(
                    byte(number),
                    &[byte(category)],
                    ms as i64,
                ))?;
                self.matrix(byte(number)).firsts[category as usize] = ms as i64;
            }
            (20, &[from, to, ms]) => {
                accept(self.board.transport_refusal(byte(from), byte(to), ms))?;
                self.board.transport[from as usize][to as usize] = ms;
            }
            (
                21,
                &[category, setup, process, teardown, resumable, present, release, come_from, own],
            ) => {
                self.order = Order {
                    category: byte(category),
                    durations: Durations { setup, process, teardown },
                    resumable: resumable == 1,
                    release: (present == 1).then_some(release),
                    come_from: come_from as u16,
                    ..Order::default()
                };
                if own == 1 {
                    self.order.calendar = self.hand_over().calendar;
                }
            }
            (22, &[kind, candidates, skills, quantity, usage]) => {
                let (kind, candidates) = (byte(kind), candidates as u16);
                let requirement = Requirement { kind, candidates, skills, quantity, usage };
                self.order.requirements.push(requirement);
            }
            (23, &[number, speed]) => {
                accept((number > 15).then_some(5))?;
                self.order.timings[number as usize] = Timing::Speed(f64::from_bits(speed));
            }
            (24, &[number, setup, process, teardown]) => {
                accept((number > 15).then_some(5))?;
                let own = Durations { setup, process, teardown };
                self.order.timings[number as usize] = Timing::Own(own);
            }
            (25, &[ready]) => return self.place(ready),
            (26, &[count, start, end]) => {
                accept(self.board.commit(&self.slate, count, self.order.category, start, end))?;
                return Ok("committed\n".to_string());
            }
            (32, &[start, end]) => {
                let fits = self.hand.calendar.fits(start, end);
                return Ok(if fits { "fits\n" } else { "no\n" }.to_string());
            }
            (33, &[instant]) => {
                let working = self.hand.calendar.working(instant);
                return Ok(if working { "working\n" } else { "pause\n" }.to_string());
            }
            (34, &[]) => {
                accept((self.list.len() >= LIST).then_some(4))?;
                self.list.push(std::mem::take(&mut self.hand.calendar));
            }
            (35, &[from]) => {
                accept((from > FROM).then_some(1))?;
                self.layout = self.lay_out(from);
                self.layout_from = from;
            }
            (36, &[start, work]) => {
                let outside = start < self.layout_from || start > FROM || work > SPAN;
                accept(outside.then_some(1))?;
                return Ok(end_line(self.layout.work_end(start, work)));
            }
            (37, &[]) => self.list.clear(),
            (38, &[rounds, from, step, work]) => return self.measure(rounds, from, step, work),
            (40, &[count, ref held @ ..]) => {
                let held: Vec<u8> = held.iter().map(|&n| byte(n)).collect();
                let bad = count > 8 || held[..count as usize].iter().any(|&n| n > 15);
                accept(bad.then_some(5))?;
                accept(self.order.refusal(0, SLATE))?;
                let d = durations_on(&self.order, &held[..count as usize]);
                return Ok(format!("duration {} {} {}\n", d.setup, d.process, d.teardown));
            }
            (41, &[number, last, category, own]) => {
                let resource = self.board.find(byte(number)).ok_or(5)?;
                accept(first(&[(5, category > 15), (1, own > DURATION)]))?;
                let last = (last <= 15).then_some(byte(last));
                return Ok(format!("setup {}\n", resource.setup_behind(last, byte(category), own)));
            }
            (42, &[come_from, to]) => {
                accept((!self.board.has(byte(to))).then_some(5))?;
                let ms = self.board.transport_to(come_from as u16, byte(to));
                return Ok(format!("transport {ms}\n"));
            }
            (43, &[kind, candidates, skills, number]) => {
                let resource = self.board.find(byte(number)).ok_or(5)?;
                let (kind, candidates) = (byte(kind), candidates as u16);
                let serves = resource.serves(&Requirement {
                    kind,
                    candidates,
                    skills,
                    quantity: 1,
                    usage: 1,
                });
                return Ok(if serves { "serves\n" } else { "no\n" }.to_string());
            }
            _ => unreachable!("the reader gives whole records of known kinds"),
        }
        Ok(String::new())
    }
}

fn accept(refusal: Refusal) -> Result<(), u8> {
    refusal.map_or(Ok(()), Err)
}

impl Side for PaperSide {
    fn take(&mut self, record: &Record) -> String {
        self.reply(record).unwrap_or_else(|number| format!("refused {number}\n"))
    }

    fn totals(&self) -> Vec<(u64, u64)> {
        let on_board = self.board.resources.iter().map(|r| &r.diary);
        let total = |d: &Diary| (d.booked_total(), d.latest_end().unwrap_or(0));
        std::iter::once(&self.hand).chain(on_board).map(total).collect()
    }
}
