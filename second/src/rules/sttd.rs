//! STTD.

use crate::answer::{Refusal, refuse};
use crate::rules::checks;

/// How many values an AICH run has.
pub const VALUES: usize = 32;

/// The bar of a digit swaps 0 with 1 and leaves 2.
pub fn bar(digit: u8) -> u8 {
    match digit {
        0 => 1,
        1 => 0,
        other => other,
    }
}

/// As a real value 0 is +1, 1 is -1, DTX is 0.
pub fn value(digit: u8) -> i32 {
    match digit {
        0 => 1,
        1 => -1,
        _ => 0,
    }
}

/// For AICH values the bar is negation.
pub fn negated(value: i32) -> i32 {
    -value
}

/// b0 b1 b2 b3 on antenna 1 give, on antenna 2: bar b2, b3, b0, bar b1.
fn block<T: Copy>(bar: fn(T) -> T, b: &[T]) -> [T; 4] {
    [bar(b[2]), b[3], b[0], bar(b[1])]
}

/// What antenna 2 sends, block by block; one to three entries behind the last whole block are not encoded.
pub fn encoded<T: Copy>(bar: fn(T) -> T, run: &[T]) -> Vec<T> {
    let blocks = run.chunks_exact(4);
    let tail = blocks.remainder();
    blocks.flat_map(|b| block(bar, b)).chain(tail.iter().copied()).collect()
}

/// 3 (input: a multiple of 4, 0 included; output: as long as the input), 4 above 2.
pub fn digits(input: &[u8], n_out: usize) -> Result<Vec<u8>, Refusal> {
    if !input.len().is_multiple_of(4) {
        return refuse(3, 0);
    }
    if n_out != input.len() {
        return refuse(3, 1);
    }
    checks::digits(input, 2, 0)?;
    Ok(encoded(bar, input))
}

/// Exactly 32 values, each -16 to 16. 3 (input, output), then 11 at the index.
pub fn values(input: &[i32], n_out: usize) -> Result<Vec<i32>, Refusal> {
    checks::lengths(&[(input.len(), VALUES), (n_out, VALUES)])?;
    checks::range(input, 16, 0)?;
    Ok(encoded(negated, input))
}

#[cfg(test)]
mod tests {
    use super::digits;

    #[test]
    fn marked_examples_p5_and_p6() {
        assert_eq!(digits(&[0, 0, 0, 1], 4), Ok(vec![1, 1, 0, 1]));
        assert_eq!(digits(&[1, 2, 0, 2], 4), Ok(vec![1, 2, 1, 2]));
    }
}
