//! 01, Durations, setups, transport; the board and the refusals of its entries.

use super::{first, Diary, Order, Refusal, Requirement, DURATION};
use crate::wrong::{wrong, Wrong};

#[derive(Clone, Copy, Default, PartialEq, Debug)]
pub struct Durations {
    pub setup: u64,
    pub process: u64,
    pub teardown: u64,
}

impl Durations {
    pub fn total(self) -> u64 {
        self.setup + self.process + self.teardown
    }

    pub fn in_range(self) -> bool {
        [self.setup, self.process, self.teardown].iter().all(|&d| d <= DURATION)
    }
}

#[derive(Clone, Copy, Default, Debug)]
pub enum Timing {
    #[default]
    Nothing,
    Speed(f64),
    Own(Durations),
}

/// `n / speed` as a double, rounded half away from zero, worked out from the double's bits.
/// n is below 2^37 and the speed above 2^-17, so the quotient is below 2^54 and not negative.
fn divided(n: u64, speed: f64) -> u64 {
    let bits = (n as f64 / speed).to_bits();
    let exponent = (bits >> 52) as i32;
    if exponent == 0 {
        return 0; // zero, or far below a half
    }
    let mantissa = (bits & ((1 << 52) - 1)) | (1 << 52);
    let right = 1075 - exponent; // the quotient is mantissa / 2^right
    if right <= 0 {
        return mantissa << -right;
    }
    if right > 54 {
        return 0; // below a half
    }
    let whole = mantissa >> right;
    let rest = mantissa - (whole << right);
    let half = 1 << (right - 1);
    if wrong(Wrong::RoundDown) || (wrong(Wrong::HalfToEven) && rest == half && whole % 2 == 0) {
        return whole;
    }
    whole + u64::from(rest >= half)
}

/// The durations on the resources held, in holding order.
pub fn durations_on(order: &Order, held: &[u8]) -> Durations {
    let mut own: Option<Durations> = None;
    let mut speed = 1.0;
    let mut seen = 0u16;
    for &number in held {
        match order.timings[usize::from(number)] {
            Timing::Nothing => {}
            Timing::Speed(_) if wrong(Wrong::SpeedOnce) && seen >> number & 1 == 1 => {}
            Timing::Speed(s) => speed *= s,
            Timing::Own(d) => {
                let better = own.is_none_or(|o| {
                    d.total() > o.total()
                        || (wrong(Wrong::LastEqualDurations) && d.total() == o.total())
                });
                let less = own.is_none_or(|o| d.total() < o.total());
                if if wrong(Wrong::LeastDurations) { less } else { better } {
                    own = Some(d);
                }
            }
        }
        seen |= 1 << number;
    }
    if let Some(d) = own.filter(|_| !(wrong(Wrong::SpeedBeforeDurations) && speed != 1.0)) {
        return d;
    }
    if speed == 1.0 {
        return order.durations;
    }
    Durations { process: divided(order.durations.process, speed), ..order.durations }
}

#[derive(Clone, Debug)]
pub struct Matrix {
    pub default: u64,
    pub initial: u64,
    /// By last and this category; -1 is absent.
    pub pairs: [[i64; 16]; 16],
    /// By category; -1 is absent.
    pub firsts: [i64; 16],
}

impl Matrix {
    pub fn new(default: u64, initial: u64) -> Self {
        Self { default, initial, pairs: [[-1; 16]; 16], firsts: [-1; 16] }
    }
}

#[derive(Clone, Debug)]
pub struct Resource {
    pub number: u8,
    pub kind: u8,
    pub skills: u64,
    pub companions: Vec<u8>,
    pub diary: Diary,
    pub matrix: Option<Box<Matrix>>,
    pub last: Option<u8>,
}

impl Resource {
    /// The setup for a category, `own` being the order's.
    pub fn setup(&self, category: u8, own: u64) -> u64 {
        self.setup_behind(self.last, category, own)
    }

    /// The same behind any category, or where nothing was last.
    pub fn setup_behind(&self, last: Option<u8>, category: u8, own: u64) -> u64 {
        let Some(matrix) = self.matrix.as_ref().filter(|_| !wrong(Wrong::OrderSetup)) else {
            return own;
        };
        let this = usize::from(category);
        let Some(last) = last.map(usize::from) else {
            if wrong(Wrong::FirstAsPair) {
                return matrix.pairs[this][this].max(0) as u64;
            }
            let absent = if wrong(Wrong::AbsentFirstZero) { 0 } else { matrix.initial };
            return u64::try_from(matrix.firsts[this]).unwrap_or(absent);
        };
        let pair = match wrong(Wrong::SwappedPair) {
            true => matrix.pairs[this][last],
            false => matrix.pairs[last][this],
        };
        let equal = last == this && !wrong(Wrong::EqualPairDefault);
        u64::try_from(pair).unwrap_or(if equal { 0 } else { matrix.default })
    }

    pub fn serves(&self, r: &Requirement) -> bool {
        let of_type = self.kind == r.kind;
        let candidate = r.candidates >> self.number & 1 == 1;
        let named = if r.candidates == 0 { of_type } else { candidate };
        let skilled = match wrong(Wrong::SkillsAny) {
            true => r.skills == 0 || self.skills & r.skills != 0,
            false => self.skills & r.skills == r.skills,
        };
        named && skilled && (of_type || !wrong(Wrong::TypeBesideCandidates))
    }
}

#[derive(Clone, Debug, Default)]
pub struct Board {
    /// In board order: the order in which they were added.
    pub resources: Vec<Resource>,
    /// By the two numbers.
    pub transport: [[u64; 16]; 16],
}

impl Board {
    pub fn find(&self, number: u8) -> Option<&Resource> {
        self.resources.iter().find(|r| r.number == number)
    }

    pub fn find_mut(&mut self, number: u8) -> Option<&mut Resource> {
        self.resources.iter_mut().find(|r| r.number == number)
    }

    pub fn has(&self, number: u8) -> bool {
        self.find(number).is_some()
    }

    /// The greatest transport to a resource over the places come from.
    pub fn transport_to(&self, come_from: u16, number: u8) -> u64 {
        let (to, back) = (usize::from(number), wrong(Wrong::TransportBack));
        let all = (0..16u8)
            .filter(|&k| come_from >> k & 1 == 1 && self.has(k))
            .map(usize::from)
            .map(|from| if back { self.transport[to][from] } else { self.transport[from][to] });
        match (wrong(Wrong::ArrivalIgnored), wrong(Wrong::LeastTransport)) {
            (true, _) => 0,
            (_, true) => all.min().unwrap_or(0),
            _ => all.max().unwrap_or(0),
        }
    }

    // Refusals of board entries.

    pub fn resource_refusal(&self, number: u8, companions: &[u8]) -> Refusal {
        first(&[
            (5, number > 15 || companions.iter().any(|&c| c > 15)),
            (4, self.has(number) || companions.len() > 4),
        ])
    }

    /// Default and initial cannot be absent.
    pub fn matrix_refusal(&self, number: u8, default: i64, initial: i64) -> Refusal {
        let range = 0..=DURATION as i64;
        first(&[
            (5, !self.has(number)),
            (1, !range.contains(&default) || !range.contains(&initial)),
        ])
    }

    /// A pair or a first entry, -1 being allowed.
    pub fn matrix_entry_refusal(&self, number: u8, categories: &[u8], ms: i64) -> Refusal {
        first(&[
            (5, !self.has(number) || categories.iter().any(|&c| c > 15)),
            (1, !(-1..=DURATION as i64).contains(&ms)),
        ])
    }

    pub fn transport_refusal(&self, from: u8, to: u8, ms: u64) -> Refusal {
        first(&[(5, !self.has(from) || !self.has(to)), (1, ms > DURATION)])
    }
}
