//! The AICH combiner for two antennas, in 128-bit whole numbers.

use crate::answer::{Refusal, refuse};
use crate::rules::aich::{SIGNATURES, VALUES, b};
use crate::rules::checks;

/// Gain parts: -4096 to 4096.
pub const GAIN_LIMIT: i64 = 4096;

/// Received parts: -1048576 to 1048576.
pub const RECEIVED_LIMIT: i32 = 1_048_576;

/// A complex number with whole parts.
#[derive(Clone, Copy, Debug, PartialEq, Eq)]
pub struct Complex {
    pub re: i128,
    pub im: i128,
}

impl Complex {
    pub fn new(re: i128, im: i128) -> Complex {
        Complex { re, im }
    }

    pub fn plus(self, other: Complex) -> Complex {
        Complex::new(self.re + other.re, self.im + other.im)
    }

    pub fn minus(self, other: Complex) -> Complex {
        Complex::new(self.re - other.re, self.im - other.im)
    }

    pub fn times(self, other: Complex) -> Complex {
        Complex::new(self.re * other.re - self.im * other.im, self.re * other.im + self.im * other.re)
    }

    pub fn conj(self) -> Complex {
        Complex::new(self.re, -self.im)
    }

    /// |h|^2.
    pub fn size_squared(self) -> i128 {
        self.re * self.re + self.im * self.im
    }
}

/// Values 2k and 2k+1 are the real and imaginary part of symbol k.
pub fn symbols(parts: &[i128]) -> Vec<Complex> {
    parts.chunks(2).map(|part| Complex::new(part[0], part[1])).collect()
}

/// For a pair: T1 = conj(h1)·r1 + h2·conj(r2), T2 = conj(h1)·r2 - h2·conj(r1). The number for signature s is the sum
/// of the 32 real components of T times b(s,j). No range is asked for here.
pub fn combined(h1: Complex, h2: Complex, received: &[i128]) -> Vec<i128> {
    let mut parts = Vec::new();
    for pair in symbols(received).chunks(2) {
        let (r1, r2) = (pair[0], pair[1]);
        let t1 = h1.conj().times(r1).plus(h2.times(r2.conj()));
        let t2 = h1.conj().times(r2).minus(h2.times(r1.conj()));
        parts.extend([t1.re, t1.im, t2.re, t2.im]);
    }
    let number = |s: usize| (0..VALUES).map(|j| parts[j] * i128::from(b(s, j))).sum();
    (0..SIGNATURES).map(number).collect()
}

/// 3 (received, results), 11 (h1 real, h1 imaginary, h2 real, h2 imaginary as places 0 to 3, received part i at
/// 4 + i), 12 where both gains are zero.
pub fn combine(gains: [i64; 4], received: &[i32], n_results: usize) -> Result<Vec<i64>, Refusal> {
    checks::lengths(&[(received.len(), VALUES), (n_results, SIGNATURES)])?;
    checks::range(&gains, GAIN_LIMIT, 0)?;
    checks::range(received, RECEIVED_LIMIT.into(), 4)?;
    if gains == [0; 4] {
        return refuse(12, 0);
    }
    let [h1, h2] = gain_pair(gains);
    let parts: Vec<i128> = received.iter().map(|part| i128::from(*part)).collect();
    let results = combined(h1, h2, &parts);
    Ok(results.into_iter().map(|number| i64::try_from(number).expect("results fit 64 bits")).collect())
}

/// The four gain parts as h1 and h2.
pub fn gain_pair(gains: [i64; 4]) -> [Complex; 2] {
    let part = gains.map(i128::from);
    [Complex::new(part[0], part[1]), Complex::new(part[2], part[3])]
}

#[cfg(test)]
mod tests {
    use super::combine;
    use crate::answer::refuse;
    use crate::rules::aich::b;

    #[test]
    fn marked_example_p12() {
        // Indicator -1 on 5 only, through gains 3+4i and 0: every symbol is -b·(1+i), times 3+4i.
        let received: Vec<i32> = (0..32).map(|j| -b(5, j) as i32 * [3 - 4, 3 + 4][j % 2]).collect();
        let mut expected = vec![0; 16];
        expected[5] = -800;
        assert_eq!(combine([3, 4, 0, 0], &received, 16), Ok(expected));
    }

    #[test]
    fn the_edge_of_a_gain() {
        assert_eq!(combine([4097, 0, 0, 0], &[0; 32], 16), refuse(11, 0));
        assert_eq!(combine([4096, 0, 0, 0], &[0; 32], 16), Ok(vec![0; 16]));
    }
}
