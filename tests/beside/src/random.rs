//! Random numbers, and the instants, spans and durations that the random streams draw: small
//! numbers, where everything collides; numbers just under the greatest instant; and numbers
//! spread over the whole range, edges included.

use crate::paper::{DURATION, FROM, INSTANT, SPAN};

/// SplitMix64.
pub struct Random(pub u64);

impl Random {
    pub fn next(&mut self) -> u64 {
        self.0 = self.0.wrapping_add(0x9E37_79B9_7F4A_7C15);
        let mut z = self.0;
        z = (z ^ (z >> 30)).wrapping_mul(0xBF58_476D_1CE4_E5B9);
        z = (z ^ (z >> 27)).wrapping_mul(0x94D0_49BB_1331_11EB);
        z ^ (z >> 31)
    }

    /// 0 to n - 1.
    pub fn below(&mut self, n: u64) -> u64 {
        self.next() % n
    }

    /// a to b.
    pub fn range(&mut self, a: u64, b: u64) -> u64 {
        a + self.below(b - a + 1)
    }

    pub fn one_in(&mut self, n: u64) -> bool {
        self.below(n) == 0
    }

    pub fn pick<T: Copy>(&mut self, from: &[T]) -> T {
        from[self.below(from.len() as u64) as usize]
    }
}

/// Where the instants of a stream lie. In the first two every instant can be tried.
#[derive(Clone, Copy, PartialEq, Debug)]
pub enum Size {
    Small,
    High,
    Wide,
}

impl Size {
    pub fn every_instant(self) -> bool {
        self != Size::Wide
    }

    /// Mostly small.
    pub fn random(r: &mut Random) -> Self {
        r.pick(&[Size::Small, Size::Small, Size::Small, Size::High, Size::Wide])
    }
}

/// The instants of a stream: base, base + unit, up to base + count * unit.
#[derive(Clone, Copy)]
pub struct Times {
    pub size: Size,
    pub base: u64,
    pub unit: u64,
    pub count: u64,
}

impl Times {
    pub fn new(r: &mut Random, size: Size) -> Self {
        let count = r.pick(&[8, 12, 12, 16, 24, 40]);
        match size {
            Size::Small => Self { size, base: 0, unit: 1, count },
            Size::High => Self { size, base: INSTANT - count, unit: 1, count },
            Size::Wide => {
                let unit = r.pick(&[1 << 20, 1 << 33, DURATION, DURATION, 1 << 38, 3 << 36]);
                let count = count.min(INSTANT / unit);
                let base = if r.one_in(2) { 0 } else { INSTANT - count * unit };
                Self { size, base, unit, count }
            }
        }
    }

    /// An instant; wide ones are now and then one beside.
    pub fn instant(&self, r: &mut Random) -> u64 {
        let at = self.base + self.unit * r.below(self.count + 1);
        if self.size == Size::Wide && r.one_in(4) {
            return (at + r.below(3)).saturating_sub(1).min(INSTANT);
        }
        at
    }

    /// Two instants with start < end.
    pub fn pair(&self, r: &mut Random) -> [u64; 2] {
        loop {
            let (a, b) = (self.instant(r), self.instant(r));
            if a != b {
                return [a.min(b), a.max(b)];
            }
        }
    }

    /// Two instants close together.
    pub fn short_pair(&self, r: &mut Random) -> [u64; 2] {
        let start = self.base + self.unit * r.below(self.count);
        [start, (start + self.unit * r.range(1, 3)).min(INSTANT)]
    }

    /// An instant to ask from, up to 2^43.
    pub fn from(&self, r: &mut Random) -> u64 {
        match r.below(12) {
            0 if self.size != Size::Small => r.pick(&[INSTANT, FROM, FROM - 1]),
            1 => self.base + self.unit * (self.count + r.below(3)),
            _ => self.instant(r),
        }
    }

    /// A span or work to ask for, up to 2^53.
    pub fn span(&self, r: &mut Random) -> u64 {
        match r.below(24) {
            0 => 0,
            1 if self.size == Size::Wide => r.pick(&[SPAN, SPAN - 1, DURATION, 1]),
            2 => self.unit * r.below(2 * self.count),
            3..=6 if self.size == Size::Wide => self.unit * r.below(6) + r.below(3),
            7..=12 => self.unit * r.range(3, 9),
            _ => self.unit * r.below(5),
        }
    }

    /// A duration, up to 2^36.
    pub fn duration(&self, r: &mut Random, most: u64) -> u64 {
        match (self.size, r.below(6)) {
            (Size::Wide, 0) => r.pick(&[DURATION, DURATION - 1, 1, 0]),
            (Size::Wide, 1) => r.below(DURATION + 1),
            (Size::Wide, _) => (self.unit * r.below(most + 1)).min(DURATION),
            _ => r.below(most + 1),
        }
    }
}
