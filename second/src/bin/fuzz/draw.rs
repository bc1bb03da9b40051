//! Draws what a call is given. Everything begins good; then some of it is spoilt. So many cases come far into a call,
//! and every check of it meets faults before and behind it.

use crate::lent::{Element, HUGE, Held, Room};
use second::random::{Random, mixed};
use second::rules::sample::LEVELS;

/// Bytes that are no digits.
const NO_DIGITS: [u8; 5] = [3, 4, 127, 128, 255];

/// Never, for odds.
const NEVER: usize = usize::MAX;

/// How many in a case are spoilt: one in so many numbers and lengths, and one in so many runs. Where numbers and lengths
/// are good the contents decide, and the other way round.
const ODDS: [(usize, usize); 8] =
    [(NEVER, NEVER), (NEVER, NEVER), (NEVER, 1), (NEVER, 2), (NEVER, 2), (8, NEVER), (4, 8), (2, 2)];

/// What is added to a number to make it huge while its low bits stay as they are.
const FAR: [usize; 5] = [1 << 8, 1 << 16, 1 << 32, 1 << 63, usize::MAX];

/// Levels out of range: one step outside each end, minus an end, zeros, subnormals, infinities, NaNs.
const BAD_LEVELS: [u32; 16] = [
    0x3a7f_ffff, 0x4480_0001, 0xba80_0000, 0xc480_0000, 0, 0x8000_0000, 1, 0x8000_0001, 0x007f_ffff, 0x7f7f_ffff,
    0x7f80_0000, 0xff80_0000, 0x7fc0_0000, 0xffc0_0000, 0x7f80_0001, 0xffbf_ffff,
];

/// The most elements of a run of a random length.
const SOME: usize = 4000;

/// Where a run is put: on the heap, right before a forbidden page, or right behind one.
const PLACES: [u8; 4] = [0, 1, 1, 2];

pub struct Draw {
    pub random: Random,
    /// One in so many numbers and lengths is spoilt, and what one in so many runs hold.
    odds: (usize, usize),
}

impl Draw {
    /// Every case has its own sequence, so that it can be repeated alone.
    pub fn new(seed: u64, case: u64) -> Draw {
        let mut random = Random::new(mixed(mixed(seed) ^ case));
        let odds = random.pick(&ODDS);
        Draw { random, odds }
    }

    /// Whether the next number or length is spoilt.
    fn spoils(&mut self) -> bool {
        self.random.below(self.odds.0) == 0
    }

    /// Whether what the next run holds is spoilt.
    fn spoils_contents(&mut self) -> bool {
        self.random.below(self.odds.1) == 0
    }

    pub fn coin(&mut self) -> bool {
        self.random.below(2) == 0
    }

    // Numbers

    pub fn number(&mut self, good: usize) -> usize {
        if !self.spoils() {
            return good;
        }
        let far = self.random.pick(&FAR);
        match self.random.below(6) {
            0 => good.wrapping_add(1),
            1 => good.wrapping_sub(1),
            2 => far,
            3 => good.wrapping_add(far),
            4 => self.random.next() as usize,
            _ => self.random.below(SOME),
        }
    }

    /// A number of the range -`limit` to `limit`: one in four is at an end.
    pub fn in_range(&mut self, limit: i64) -> i64 {
        match self.random.below(8) {
            0 => limit,
            1 => -limit,
            _ => self.random.below(2 * limit as usize + 1) as i64 - limit,
        }
    }

    /// Such a number, or one outside the range.
    pub fn whole(&mut self, limit: i64) -> i64 {
        let good = self.in_range(limit);
        if !self.spoils() {
            return good;
        }
        let far = self.random.pick(&FAR) as i64;
        match self.random.below(6) {
            0 => limit + 1,
            1 => -limit - 1,
            2 => far,
            3 => good.wrapping_add(far),
            4 => far.wrapping_neg(),
            _ => self.random.next() as i64,
        }
    }

    pub fn level(&mut self) -> f32 {
        let [low, high] = LEVELS.map(f32::to_bits);
        let good = match self.random.below(8) {
            0 => low,
            1 => high,
            _ => low + self.random.below((high - low) as usize + 1) as u32,
        };
        let bits = match self.spoils() {
            false => good,
            true if self.coin() => self.random.next() as u32,
            true => self.random.pick(&BAD_LEVELS),
        };
        f32::from_bits(bits)
    }

    // What a run holds

    /// A few digits damaged, or no plan at all.
    pub fn digits(&mut self, run: Vec<u8>) -> Vec<u8> {
        let length = run.len();
        self.digits_at(run, |random| random.below(length))
    }

    /// The same; `spot` draws where a digit is damaged. Most become other digits, which only the later checks refuse.
    pub fn digits_at(&mut self, mut run: Vec<u8>, spot: impl Fn(&mut Random) -> usize) -> Vec<u8> {
        if run.is_empty() || !self.spoils_contents() {
            return run;
        }
        match self.random.below(12) {
            0 => return self.random.digits(run.len(), 256),
            1 => return self.random.digits(run.len(), 4),
            2 => return self.random.digits(run.len(), 3),
            _ => {}
        }
        let mild = self.random.below(3) > 0;
        for _ in 0..1 + self.random.below(3) {
            let index = spot(&mut self.random);
            run[index] = if mild { self.random.below(3) as u8 } else { self.random.pick(&NO_DIGITS) };
        }
        run
    }

    /// A few values damaged, by one or to anything, or no plan at all.
    pub fn values(&mut self, mut run: Vec<i32>) -> Vec<i32> {
        if run.is_empty() || !self.spoils_contents() {
            return run;
        }
        if self.random.below(8) == 0 {
            return run.iter().map(|_| self.random.next() as i32).collect();
        }
        for _ in 0..1 + self.random.below(3) {
            let index = self.random.below(run.len());
            run[index] = match self.random.below(4) {
                0 => run[index].wrapping_add(1),
                1 => run[index].wrapping_sub(1),
                2 => self.random.pick(&[i32::MAX, i32::MIN, 1 << 16, 1 << 8, -(1 << 16)]),
                _ => self.random.next() as i32,
            };
        }
        run
    }

    // How a run is lent

    /// A length that is likely to be wrong where `right` is right.
    fn length(&mut self, right: usize) -> usize {
        match self.random.below(7) {
            0 => 0,
            1 => right + 1,
            2 => right.saturating_sub(1),
            3 => 2 * right,
            4 => right + 256,
            _ => self.random.below(SOME),
        }
    }

    /// A run that is read, of its own length or of another. What it held is repeated where it grows.
    pub fn lend<T: Element>(&mut self, run: Vec<T>) -> Held<T> {
        let place = self.random.pick(&PLACES);
        let length = if self.spoils() { self.length(run.len()) } else { run.len() };
        let filler = if run.is_empty() { vec![T::default()] } else { run };
        let run: Vec<T> = filler.into_iter().cycle().take(length).collect();
        Held { null: run.is_empty() && self.coin(), run, place }
    }

    /// A run that is read, of its own length.
    pub fn held<T: Element>(&mut self, run: Vec<T>) -> Held<T> {
        let place = self.random.pick(&PLACES);
        Held { null: run.is_empty() && self.coin(), run, place }
    }

    /// A run that may be written, of the right length or of another; one in eight of those is huge, and most of the huge
    /// ones are right in their low 32 bits.
    pub fn room(&mut self, right: usize) -> Room {
        let place = self.random.pick(&PLACES);
        let huge = HUGE * self.random.pick(&[1, 1, 2]) + right * self.random.pick(&[0, 1, 1]);
        let length = match self.spoils() {
            false => right,
            true if self.random.below(8) == 0 => huge,
            true => self.length(right),
        };
        Room { length, null: length == 0 && self.coin(), place }
    }

    /// One element that is written, which is always there.
    pub fn one(&mut self) -> Room {
        Room { length: 1, null: false, place: self.random.pick(&PLACES) }
    }
}
