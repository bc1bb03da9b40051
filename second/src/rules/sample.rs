//! Samples for a simulator. The product is worked out in whole numbers and rounded by hand: no multiplication of
//! floating-point numbers stands here.

use crate::answer::{Refusal, refuse};

/// Values: -16 to 16.
pub const VALUE_LIMIT: i64 = 16;

/// The lowest and the highest level: 1/1024 to 1024.
pub const LEVELS: [f32; 2] = [1.0 / 1024.0, 1024.0];

/// The transmit setting: off, one level for both antennas, or a level for each antenna.
#[derive(Clone, Copy, Debug)]
pub enum Setting {
    Off,
    Shared(f32),
    Each(f32, f32),
}

/// The in-phase and the quadrature part.
#[derive(Clone, Copy, Debug, PartialEq)]
pub struct Sample {
    pub inphase: f32,
    pub quadrature: f32,
}

impl Sample {
    /// What off gives, and what stands beside a refusal: +0, +0.
    pub const ZERO: Sample = Sample { inphase: 0.0, quadrature: 0.0 };
}

impl Setting {
    /// The levels in the order of their places: 2 (antenna 1 or shared), 3 (antenna 2).
    fn levels(self) -> Vec<f32> {
        match self {
            Setting::Off => vec![],
            Setting::Shared(level) => vec![level],
            Setting::Each(first, second) => vec![first, second],
        }
    }
}

/// Whether a level lies in its range. No range holds a NaN.
fn in_range(level: f32) -> bool {
    (LEVELS[0]..=LEVELS[1]).contains(&level)
}

/// How many bits of an f32 stand below the exponent; its significand has one more, which is 1 and not stored.
const FRACTION_BITS: u32 = 23;

/// Value times level, rounded once to the nearest f32, a tie to the even one.
///
/// A level in range is positive and normal: 24 significant bits, times a power of two. The product of those bits and
/// the value is exact, and then loses the bits that an f32 has no room for. It is far from the ends of the exponent.
fn product(value: i64, level: f32) -> f32 {
    if value == 0 {
        return 0.0;
    }
    let hidden = 1 << FRACTION_BITS;
    let exponent = level.to_bits() >> FRACTION_BITS;
    let significand = level.to_bits() % hidden + hidden;
    let exact = value.unsigned_abs() * u64::from(significand);
    let lost_bits = exact.ilog2() - FRACTION_BITS;
    let unit = 1 << lost_bits;
    let (below, rest) = (exact / unit, exact % unit);
    let up = 2 * rest > unit || (2 * rest == unit && below % 2 == 1);
    let rounded = below as u32 + u32::from(up);
    // Adding, not joining, the two: a significand rounded up to 25 bits would move on the exponent, as it should.
    let size = ((exponent + lost_bits) << FRACTION_BITS) + (rounded - hidden);
    let sign = if value < 0 { 1 << 31 } else { 0 };
    f32::from_bits(sign | size)
}

/// 11 for everything: values (places 0 and 1), each level of the setting (2 for antenna 1 or shared, 3 for antenna
/// 2) whichever antenna is asked for, antenna number 0 or 1 (place 4).
pub fn sample(values: [i64; 2], setting: Setting, antenna: usize) -> Result<Sample, Refusal> {
    for place in 0..2 {
        if values[place] < -VALUE_LIMIT || values[place] > VALUE_LIMIT {
            return refuse(11, place);
        }
    }
    for (index, level) in setting.levels().into_iter().enumerate() {
        if !in_range(level) {
            return refuse(11, 2 + index);
        }
    }
    if antenna > 1 {
        return refuse(11, 4);
    }
    let level = match setting {
        Setting::Off => return Ok(Sample::ZERO),
        Setting::Shared(level) => level,
        Setting::Each(first, second) => [first, second][antenna],
    };
    Ok(Sample { inphase: product(values[0], level), quadrature: product(values[1], level) })
}

#[cfg(test)]
mod tests {
    use super::{LEVELS, Sample, Setting, product, sample};
    use crate::answer::refuse;
    use crate::random::Random;

    #[test]
    fn the_product_is_that_of_f64_rounded_once() {
        // 5 bits times 24 bits fit the 53 of an f64, so the product is exact there and the cast rounds it.
        let mut random = Random::new(1);
        let ends = LEVELS.map(f32::to_bits);
        let spread = (ends[1] - ends[0]) as usize;
        for round in 0..300_000 {
            let bits = if round < 2 { ends[round] } else { ends[0] + random.below(spread + 1) as u32 };
            let level = f32::from_bits(bits);
            for value in -16..=16 {
                let wide = (value as f64 * f64::from(level)) as f32;
                assert_eq!(product(value, level).to_bits(), wide.to_bits(), "{value} times {level}");
            }
        }
    }

    #[test]
    fn ties_go_to_the_even_one() {
        // 3 times an odd significand is odd and has one bit too many: always a tie.
        for (fraction, rounded) in [(1, 0x40_0002), (3, 0x40_0004), (5, 0x40_0008), (7, 0x40_000a)] {
            let exact = product(3, f32::from_bits(0x3f80_0000 + fraction));
            assert_eq!(exact.to_bits(), 0x4000_0000 + rounded);
        }
    }

    #[test]
    fn the_ends_of_a_level() {
        let [low, high] = LEVELS;
        let good = Ok(Sample { inphase: low, quadrature: -low });
        assert_eq!(sample([1, -1], Setting::Shared(low), 1), good);
        assert_eq!(sample([1, -1], Setting::Shared(low.next_down()), 1), refuse(11, 2));
        assert_eq!(sample([1, -1], Setting::Each(low, high.next_up()), 0), refuse(11, 3));
        assert_eq!(sample([1, -1], Setting::Each(low, high), 0), good);
    }
}
