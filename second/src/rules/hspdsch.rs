//! The HS-PDSCH subframe on two antennas. What antenna 2 sends is computed from the symbols, by complex arithmetic: it
//! sends -conj(S2), conj(S1) where antenna 1 sends S1, S2.

use crate::answer::{Refusal, refuse};
use crate::rules::checks;
use std::sync::OnceLock;

/// Formats 0 and 1.
pub const FORMATS: usize = 2;

/// A subframe is three slots; a slot has 320 digits in format 0 and 640 in format 1.
pub fn size(format: usize) -> usize {
    3 * [320, 640][format]
}

/// How many digits make a symbol: two in QPSK, four in 16QAM.
pub fn per_symbol(format: usize) -> usize {
    [2, 4][format]
}

/// A complex number whose parts are whole.
#[derive(Clone, Copy, Debug, PartialEq)]
pub struct Complex {
    pub re: i32,
    pub im: i32,
}

impl Complex {
    /// The complex conjugate.
    fn conj(self) -> Complex {
        Complex { re: self.re, im: -self.im }
    }

    /// The product with -1.
    fn negated(self) -> Complex {
        Complex { re: -self.re, im: -self.im }
    }
}

/// A digit as a sign: 0 is +1, 1 is -1.
fn sign(digit: u8) -> i32 {
    1 - 2 * i32::from(digit)
}

/// The symbol of its digits: i, q in QPSK; i1, q1, i2, q2 in 16QAM, where i1 and q1 are signs and i2 and q2 sizes, 1 or 3.
pub fn symbol(digits: &[u8]) -> Complex {
    match digits {
        [i, q] => Complex { re: sign(*i), im: sign(*q) },
        [i1, q1, i2, q2] => {
            let size = |digit: &u8| 1 + 2 * i32::from(*digit);
            Complex { re: sign(*i1) * size(i2), im: sign(*q1) * size(q2) }
        }
        _ => panic!("no symbol has {} digits", digits.len()),
    }
}

/// The digits of a symbol: of all that there are, those whose symbol it is.
fn digits_of(wanted: Complex, count: usize) -> Vec<u8> {
    let all = (0..1_u8 << count).map(|set| (0..count).map(|place| set >> place & 1).collect::<Vec<u8>>());
    let mut fitting = all.filter(|digits| symbol(digits) == wanted);
    let found = fitting.next().expect("a symbol of the constellation");
    assert!(fitting.next().is_none(), "two sets of digits make one symbol");
    found
}

/// What antenna 2 sends of a block of two symbols.
pub fn coded(block: &[u8]) -> Vec<u8> {
    let count = block.len() / 2;
    let (s1, s2) = (symbol(&block[..count]), symbol(&block[count..]));
    [digits_of(s2.conj().negated(), count), digits_of(s1.conj(), count)].concat()
}

/// What antenna 2 sends of every block of a format, each computed once; block b has digit b0 in its lowest bit.
fn table(format: usize) -> &'static [Vec<u8>] {
    static TABLES: [OnceLock<Vec<Vec<u8>>>; FORMATS] = [const { OnceLock::new() }; FORMATS];
    TABLES[format].get_or_init(|| {
        let width = 2 * per_symbol(format);
        let block = |set: usize| (0..width).map(|place| (set >> place & 1) as u8).collect::<Vec<u8>>();
        (0..1 << width).map(|set| coded(&block(set))).collect()
    })
}

/// What antenna 2 sends of the data, two symbols at a time.
pub fn second(format: usize, data: &[u8]) -> Vec<u8> {
    let number = |block: &[u8]| block.iter().rev().fold(0, |sum, digit| 2 * sum + usize::from(*digit));
    data.chunks(2 * per_symbol(format)).flat_map(|block| table(format)[number(block)].iter().copied()).collect()
}

/// 1 (format above 1), 3 at the first run that is not as long as a subframe.
fn head(format: usize, lengths: [usize; 3]) -> Result<(), Refusal> {
    if format >= FORMATS {
        return refuse(1, 0);
    }
    checks::lengths(&lengths.map(|length| (length, size(format))))
}

/// 1, 3 (data, antenna 1, antenna 2), 4 above 1. Answers the subframes of both antennas.
pub fn map(format: usize, data: &[u8], n_antenna1: usize, n_antenna2: usize) -> Result<[Vec<u8>; 2], Refusal> {
    head(format, [data.len(), n_antenna1, n_antenna2])?;
    checks::digits(data, 1, 0)?;
    Ok([data.to_vec(), second(format, data)])
}

/// 1, 3 (antenna 1, antenna 2, data), 4 above 1, 9 where antenna 2 first differs from what antenna 1 gives. Antenna 2's
/// places start at the subframe's length.
pub fn read(format: usize, antenna1: &[u8], antenna2: &[u8], n_data: usize) -> Result<Vec<u8>, Refusal> {
    head(format, [antenna1.len(), antenna2.len(), n_data])?;
    checks::digits(antenna1, 1, 0)?;
    checks::digits(antenna2, 1, size(format))?;
    checks::same(9, antenna2, &second(format, antenna1), size(format))?;
    Ok(antenna1.to_vec())
}

#[cfg(test)]
mod tests {
    use super::{Complex, coded, symbol};

    #[test]
    fn symbols() {
        assert_eq!(symbol(&[0, 1]), Complex { re: 1, im: -1 });
        assert_eq!(symbol(&[1, 0, 0, 1]), Complex { re: -1, im: 3 });
    }

    #[test]
    fn a_sign_changes_and_a_size_does_not() {
        assert_eq!(coded(&[0, 0, 0, 0, 0, 0, 0, 0]), [1, 0, 0, 0, 0, 1, 0, 0]);
        assert_eq!(coded(&[1, 1, 1, 1, 1, 1, 1, 1]), [0, 1, 1, 1, 1, 0, 1, 1]);
        assert_eq!(coded(&[0, 0, 1, 0, 0, 0, 0, 1]), [1, 0, 0, 1, 0, 1, 1, 0]);
    }
}
