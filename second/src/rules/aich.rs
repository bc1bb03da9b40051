//! AICH.

use crate::answer::{Refusal, refuse};
use crate::rules::checks;

pub const SIGNATURES: usize = 16;
pub const VALUES: usize = 32;

/// b(s,j) is +1 exactly when s and floor(j/2) have an even number of one bits in common, else -1.
pub fn b(s: usize, j: usize) -> i64 {
    let in_common = (s & (j / 2)).count_ones();
    if in_common.is_multiple_of(2) { 1 } else { -1 }
}

/// a(j) = sum over s of indicator(s)·b(s,j).
fn mapped(indicators: &[i32]) -> Vec<i32> {
    let a = |j: usize| (0..SIGNATURES).map(|s| i64::from(indicators[s]) * b(s, j)).sum::<i64>();
    (0..VALUES).map(|j| a(j) as i32).collect()
}

/// 3 (indicators, values), 11 at the index.
pub fn map(indicators: &[i32], n_values: usize) -> Result<Vec<i32>, Refusal> {
    checks::lengths(&[(indicators.len(), SIGNATURES), (n_values, VALUES)])?;
    checks::range(indicators, 1, 0)?;
    Ok(mapped(indicators))
}

/// 3 (values, indicators), 10.
///
/// The only indicators that can have given the values are 1/32 of the correlations, since two different rows of b
/// agree as often as they differ. But values that no indicators give have correlations too, so what the indicators
/// give is worked out and compared.
pub fn read(values: &[i32], n_indicators: usize) -> Result<Vec<i32>, Refusal> {
    checks::lengths(&[(values.len(), VALUES), (n_indicators, SIGNATURES)])?;
    let mut indicators = Vec::new();
    for s in 0..SIGNATURES {
        let correlation: i64 = (0..VALUES).map(|j| i64::from(values[j]) * b(s, j)).sum();
        match correlation {
            -32 => indicators.push(-1),
            0 => indicators.push(0),
            32 => indicators.push(1),
            _ => return refuse(10, 0),
        }
    }
    if mapped(&indicators) != values {
        return refuse(10, 0);
    }
    Ok(indicators)
}

/// Of a set of available signatures bit s is signature s. A signature that is not in the set must have the indicator 0
/// (docs/RULES.md, 'AICH'; TS 25.211, 5.3.3.7); the lowest that has another is 26.
fn within(available: u16, indicators: &[i32]) -> Result<(), Refusal> {
    for s in 0..SIGNATURES {
        let offered = available & (1 << s) != 0;
        if !offered && indicators[s] != 0 {
            return refuse(26, s);
        }
    }
    Ok(())
}

/// 3 and 11 as in mapping, then 26.
pub fn map_available(available: u16, indicators: &[i32], n_values: usize) -> Result<Vec<i32>, Refusal> {
    let values = map(indicators, n_values)?;
    within(available, indicators)?;
    Ok(values)
}

/// 3 and 10 as in reading, then 26 for the indicators that the values give.
pub fn read_available(available: u16, values: &[i32], n_indicators: usize) -> Result<Vec<i32>, Refusal> {
    let indicators = read(values, n_indicators)?;
    within(available, &indicators)?;
    Ok(indicators)
}

#[cfg(test)]
mod tests {
    use super::{map, map_available, read, read_available};
    use crate::answer::refuse;

    #[test]
    fn marked_example_p9() {
        let values = map(&[1; 16], 32).unwrap();
        assert_eq!(values[..2], [16, 16]);
        assert_eq!(values[2..], [0; 30]);
    }

    #[test]
    fn marked_example_p10() {
        let mut indicators = [0; 16];
        indicators[0] = 1;
        indicators[1] = -1;
        assert_eq!(map(&indicators, 32), Ok([0, 0, 2, 2].repeat(8)));
    }

    #[test]
    fn marked_example_p11_and_another() {
        assert_eq!(read(&[2; 32], 16), refuse(10, 0));
        let mut values = [1; 32];
        values[31] = -1;
        assert_eq!(read(&values, 16), refuse(10, 0));
    }

    #[test]
    fn a_signature_outside_the_set() {
        let mut indicators = [0; 16];
        indicators[1] = -1;
        indicators[15] = 1;
        let values = map(&indicators, 32).unwrap();
        assert_eq!(map_available(0x8002, &indicators, 32), Ok(values.clone()));
        assert_eq!(read_available(0x8002, &values, 16), Ok(indicators.to_vec()));
        assert_eq!(map_available(0x8000, &indicators, 32), refuse(26, 1));
        assert_eq!(read_available(0x0002, &values, 16), refuse(26, 15));
        indicators[7] = 2;
        assert_eq!(map_available(0, &indicators, 32), refuse(11, 7));
        assert_eq!(read_available(0, &[2; 32], 16), refuse(10, 0));
    }
}
