//! Samples: the library's three calls against the rules. Parts are compared as bit patterns, since +0 and -0 are
//! equal as numbers and a NaN is equal to nothing.

use crate::answer::{Answer, Refusal};
use crate::ffi;
use crate::judge::Judge;
use crate::lent::Judged;
use crate::random::Random;
use crate::rules::sample::{self as rules, LEVELS, Sample, Setting, VALUE_LIMIT};

/// Values just outside -16 to 16, far outside, and equal to a good one in the low 8, 16 or 32 bits.
const NO_VALUES: [i64; 20] = [
    17, -17, 18, -18, 32, -32, 127, 255, 256, 65_536 + 3, -65_536, 1 << 32, (1 << 32) + 5, (1 << 32) + 16,
    -(1 << 32), -(1 << 32) - 16, 1 << 62, i64::MAX, i64::MIN, i64::MIN + 16,
];

/// Good levels as bit patterns: both ends, one step inside each, around 1, powers of two, and crowded fractions.
const GOOD: [u32; 20] = [
    0x3a80_0000, 0x3a80_0001, 0x447f_ffff, 0x4480_0000, 0x3f80_0000, 0x3f7f_ffff, 0x3f80_0001, 0x3f00_0000,
    0x4000_0000, 0x3aff_ffff, 0x4400_0001, 0x3fff_ffff, 0x3faa_aaaa, 0x3fd5_5555, 0x3fb6_db6d, 0x3dcc_cccd,
    0x3fc0_0001, 0x3fbf_ffff, 0x4049_0fdb, 0x447c_0001,
];

/// Bad levels as bit patterns: one step outside each end, the next powers of two, the ends and neighbours of good
/// levels with a minus sign, both zeros, subnormals, the smallest and largest normals, infinities, and NaNs, quiet
/// and signalling, of both signs and with many payloads.
const BAD: [u32; 40] = [
    0x3a7f_ffff, 0x4480_0001, 0x3a00_0000, 0x4500_0000, 0xba80_0000, 0xba7f_ffff, 0xc480_0000, 0xc480_0001,
    0xbf80_0000, 0xc47f_ffff, 0xc180_0000, 0x0000_0000, 0x8000_0000, 0x0000_0001, 0x8000_0001, 0x0040_0000,
    0x007f_ffff, 0x807f_ffff, 0x0080_0000, 0x8080_0000, 0x7f7f_ffff, 0xff7f_ffff, 0x7f80_0000, 0xff80_0000,
    0x7fc0_0000, 0xffc0_0000, 0x7f80_0001, 0xff80_0001, 0x7fbf_ffff, 0xffbf_ffff, 0x7fff_ffff, 0xffff_ffff,
    0x7fc1_2345, 0xffda_5a5a, 0x7fa5_a5a5, 0xff95_a5a5, 0x7f80_3a80, 0x7fba_8000, 0x7fc4_8000, 0x7fff_8000,
];

/// Antenna numbers other than 0 and 1: near, and equal to one of them in the low 8, 16 or 32 bits.
const NO_ANTENNAS: [usize; 12] = [
    2, 3, 255, 256, 257, 65_536, 65_537, 1 << 32, (1 << 32) + 1, 1 << 63, (1 << 63) + 1, usize::MAX,
];

/// Every comparison of the channel.
pub fn all(judge: &mut Judge) {
    every_value(judge);
    every_pair_of_levels(judge);
    every_exponent(judge);
    fractions(judge);
    random_patterns(judge);
    bad_values(judge);
    bad_antennas(judge);
    two_faults(judge);
    fault_sets(judge);
}

// One call each, compared.

/// Compares the call that the setting asks for, and answers what the rules give.
fn sample(judge: &mut Judge, values: [i64; 2], setting: Setting, antenna: usize) -> Result<Sample, Refusal> {
    let expected = rules::sample(values, setting, antenna);
    let [i, q] = values;
    let (call, (answer, got)) = match setting {
        Setting::Off => ("slt_sample_off", ffi::sample_off(i, q, antenna)),
        Setting::Shared(level) => ("slt_sample_shared", ffi::sample_shared(i, q, level, antenna)),
        Setting::Each(first, second) => ("slt_sample_each", ffi::sample_each(i, q, first, second, antenna)),
    };
    let parts = expected.unwrap_or(Sample::ZERO);
    let numbers = || format!("values {values:?}, setting {}, antenna {antenna}", in_words(setting));
    let inphase = Part { name: "in-phase", due: parts.inphase, got: got[0] };
    let quadrature = Part { name: "quadrature", due: parts.quadrature, got: got[1] };
    judge.compare(call, numbers, Answer::of(&expected), answer, [&inphase, &quadrature]);
    expected
}

/// One part of a sample. It comes by value: nothing is lent for it.
struct Part {
    name: &'static str,
    due: f32,
    got: u32,
}

impl Judged for Part {
    fn in_words(&self) -> String {
        format!("{} by value", self.name)
    }

    fn wrong(&self) -> Option<String> {
        let [due, got] = [self.due, f32::from_bits(self.got)].map(level_in_words);
        (self.due.to_bits() != self.got).then(|| format!("{}: expected {due}, got {got}", self.name))
    }
}

/// A setting in words.
fn in_words(setting: Setting) -> String {
    match setting {
        Setting::Off => "off".to_string(),
        Setting::Shared(level) => format!("shared {}", level_in_words(level)),
        Setting::Each(first, second) => format!("each {} and {}", level_in_words(first), level_in_words(second)),
    }
}

/// A number and its bit pattern: for a NaN the number does not say enough.
fn level_in_words(level: f32) -> String {
    format!("{level} ({:#010x})", level.to_bits())
}

// The inputs.

/// Good levels and bad ones, and among them some that are drawn from all bit patterns.
fn some_levels() -> Vec<f32> {
    let mut random = Random::new(1);
    let mut bits: Vec<u32> = GOOD.into_iter().chain(BAD).collect();
    bits.extend((0..6).map(|_| good_bits(&mut random)));
    bits.extend((0..6).map(|_| random.next() as u32));
    bits.into_iter().map(f32::from_bits).collect()
}

/// The bit pattern of any level in range: positive numbers stand in the order of their patterns.
fn good_bits(random: &mut Random) -> u32 {
    let [low, high] = LEVELS.map(f32::to_bits);
    low + random.below((high - low) as usize + 1) as u32
}

fn good_level(random: &mut Random) -> f32 {
    let bits = if random.below(4) == 0 { random.pick(&GOOD) } else { good_bits(random) };
    f32::from_bits(bits)
}

/// A bad level of the list, or one drawn from all bit patterns.
fn bad_level(random: &mut Random) -> f32 {
    let [low, high] = LEVELS.map(f32::to_bits);
    loop {
        let bits = if random.below(2) == 0 { random.pick(&BAD) } else { random.next() as u32 };
        if bits < low || bits > high {
            return f32::from_bits(bits);
        }
    }
}

fn good_value(random: &mut Random) -> i64 {
    random.below(33) as i64 - VALUE_LIMIT
}

/// A bad value of the list, or one drawn from all numbers.
fn bad_value(random: &mut Random) -> i64 {
    loop {
        let value = if random.below(2) == 0 { random.pick(&NO_VALUES) } else { random.next() as i64 };
        if value.unsigned_abs() > VALUE_LIMIT as u64 {
            return value;
        }
    }
}

/// The three calls with these levels; the second serves where the antennas have one each.
fn settings(first: f32, second: f32) -> [Setting; 3] {
    [Setting::Off, Setting::Shared(first), Setting::Each(first, second)]
}

// Levels

/// Every pair of values at each level, in every call and on every antenna. Beside a level for one antenna stands a
/// level for the other, good, then bad.
fn every_value(judge: &mut Judge) {
    let beside = [0x3fd5_5555, 0x7fc0_0000].map(f32::from_bits);
    for level in some_levels() {
        for i in -VALUE_LIMIT..=VALUE_LIMIT {
            for q in -VALUE_LIMIT..=VALUE_LIMIT {
                for antenna in [0, 1, 2, usize::MAX] {
                    for setting in settings(level, beside[0]) {
                        let _ = sample(judge, [i, q], setting, antenna);
                    }
                    let _ = sample(judge, [i, q], Setting::Each(beside[0], level), antenna);
                    let _ = sample(judge, [i, q], Setting::Each(level, beside[1]), antenna);
                    let _ = sample(judge, [i, q], Setting::Each(beside[1], level), antenna);
                }
            }
        }
    }
}

/// Every two levels, good and bad, one for each antenna: each is checked whichever antenna is asked for.
fn every_pair_of_levels(judge: &mut Judge) {
    let levels = some_levels();
    for first in &levels {
        for second in &levels {
            for antenna in [0, 1, 2, 3, (1 << 32) + 1, usize::MAX] {
                for values in [[0, 0], [1, -1], [16, -16], [-7, 13], [17, 1], [3, -17]] {
                    let _ = sample(judge, values, Setting::Each(*first, *second), antenna);
                }
            }
        }
    }
}

/// Both signs and every exponent, with fractions at their ends, in the middle and anywhere: so every kind of number
/// there is, at each place of a level.
fn every_exponent(judge: &mut Judge) {
    let mut random = Random::new(2);
    for top in 0..512_u32 {
        let ends = [0, 1, 2, 0x3f_ffff, 0x40_0000, 0x40_0001, 0x7f_fffe, 0x7f_ffff];
        let anywhere = [0; 8].map(|_| random.below(1 << 23) as u32);
        for fraction in ends.into_iter().chain(anywhere) {
            let level = f32::from_bits((top << 23) + fraction);
            let good = good_level(&mut random);
            for antenna in [0, 1] {
                let values = [good_value(&mut random), good_value(&mut random)];
                let _ = sample(judge, values, Setting::Shared(level), antenna);
                let _ = sample(judge, values, Setting::Each(level, good), antenna);
                let _ = sample(judge, values, Setting::Each(good, level), antenna);
            }
        }
    }
}

/// Every fraction there is, at an exponent that moves on: rounding depends on the fraction and the value alone.
fn fractions(judge: &mut Judge) {
    let mut random = Random::new(3);
    for fraction in 0..1_u32 << 23 {
        let level = f32::from_bits(((117 + fraction % 20) << 23) + fraction);
        let values = [good_value(&mut random), good_value(&mut random)];
        let antenna = random.below(2);
        let _ = sample(judge, values, Setting::Shared(level), antenna);
        // Every eighth with a level for each antenna too, where this one is asked for.
        if fraction / 20 % 8 == 0 {
            let levels = [level, good_level(&mut random)];
            let _ = sample(judge, values, Setting::Each(levels[antenna], levels[1 - antenna]), antenna);
        }
    }
}

/// Levels with no plan: most are bad, and so are some values and antennas.
fn random_patterns(judge: &mut Judge) {
    let mut random = Random::new(4);
    for _ in 0..300_000 {
        let pattern = [0; 2].map(|_| f32::from_bits(random.next() as u32));
        let good = good_level(&mut random);
        let values = [random.below(36) as i64 - 18, random.below(36) as i64 - 18];
        let antenna = random.below(3);
        let _ = sample(judge, values, Setting::Shared(pattern[0]), antenna);
        let _ = sample(judge, values, Setting::Each(pattern[0], pattern[1]), antenna);
        let _ = sample(judge, values, Setting::Each(good, pattern[1]), antenna);
        let _ = sample(judge, values, Setting::Each(pattern[0], good), antenna);
    }
}

// Other faults

/// Each bad value as each part, beside good values and bad ones. 16 and -16 themselves pass.
fn bad_values(judge: &mut Judge) {
    let mut random = Random::new(5);
    let many: Vec<i64> = NO_VALUES.into_iter().chain(-40..=40).collect();
    for i in &many {
        for q in &many {
            let levels = [good_level(&mut random), good_level(&mut random)];
            for setting in settings(levels[0], levels[1]) {
                for antenna in [0, 1, 2] {
                    let _ = sample(judge, [*i, *q], setting, antenna);
                }
            }
        }
    }
    for _ in 0..100_000 {
        let good = good_value(&mut random);
        // The same low bits as a good value, and something above them.
        let low_bits = random.pick(&[8, 16, 32, 48]);
        let bad = ((random.next() << low_bits) as i64).wrapping_add(good_value(&mut random));
        let setting = settings(good_level(&mut random), good_level(&mut random))[random.below(3)];
        let _ = sample(judge, [bad, good], setting, random.below(2));
        let _ = sample(judge, [good, bad], setting, random.below(2));
    }
}

/// Antenna numbers from 0 on, and huge ones, in every call.
fn bad_antennas(judge: &mut Judge) {
    let mut random = Random::new(6);
    for antenna in (0..300).chain(NO_ANTENNAS) {
        for _ in 0..30 {
            let values = [good_value(&mut random), good_value(&mut random)];
            for setting in settings(good_level(&mut random), good_level(&mut random)) {
                let _ = sample(judge, values, setting, antenna);
            }
        }
    }
}

/// Good and bad of each of the five at once, all combinations: so every two faults, and every more, meet.
fn two_faults(judge: &mut Judge) {
    let values = [0, 16, -16, -5, 17, -17, 1 << 32, i64::MAX, i64::MIN];
    let levels = [0x3a80_0000, 0x4480_0000, 0x3f80_0001, 0x3a7f_ffff, 0x4480_0001, 0, 0xbf80_0000, 0x7f80_0000,
        0x7fc0_0000, 0xff80_0001].map(f32::from_bits);
    for i in values {
        for q in values {
            for antenna in [0, 1, 2, 1 << 32, usize::MAX] {
                let _ = sample(judge, [i, q], Setting::Off, antenna);
                for first in levels {
                    let _ = sample(judge, [i, q], Setting::Shared(first), antenna);
                    for second in levels {
                        let _ = sample(judge, [i, q], Setting::Each(first, second), antenna);
                    }
                }
            }
        }
    }
}

/// Every set of the five faults, drawn many times. The place must be that of the first fault the call can have.
fn fault_sets(judge: &mut Judge) {
    let mut random = Random::new(7);
    for round in 0..1 << 16 {
        let has = |fault: usize| round >> fault & 1 == 1;
        let value = |random: &mut Random, bad: bool| if bad { bad_value(random) } else { good_value(random) };
        let level = |random: &mut Random, bad: bool| if bad { bad_level(random) } else { good_level(random) };
        let values = [value(&mut random, has(0)), value(&mut random, has(1))];
        let levels = [level(&mut random, has(2)), level(&mut random, has(3))];
        let antenna = if has(4) { random.pick(&NO_ANTENNAS) } else { random.below(2) };
        let possible: [&[usize]; 3] = [&[0, 1, 4], &[0, 1, 2, 4], &[0, 1, 2, 3, 4]];
        for (setting, faults) in settings(levels[0], levels[1]).into_iter().zip(possible) {
            let first = faults.iter().copied().find(|fault| has(*fault));
            let place = sample(judge, values, setting, antenna).err().map(|refusal| refusal.place as usize);
            assert_eq!(place, first, "the rules themselves: fault set {:#07b}", round & 31);
        }
    }
}
