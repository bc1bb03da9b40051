//! The checks that more than one rule has.

use crate::answer::{Refusal, refuse};

/// 2: slot number above 14.
pub fn slot(slot: usize) -> Result<(), Refusal> {
    if slot > 14 { refuse(2, 0) } else { Ok(()) }
}

/// 3: the first run that has not the length it should have, told by its number. Each pair is a length and the right one.
pub fn lengths(pairs: &[(usize, usize)]) -> Result<(), Refusal> {
    first_bad(3, 0, pairs, |(length, right)| length != right)
}

/// 4: the first digit above `most`.
pub fn digits(run: &[u8], most: u8, from: usize) -> Result<(), Refusal> {
    first_bad(4, from, run, |digit| *digit > most)
}

/// 11: the first number that is not from `-limit` to `limit`.
pub fn range<T: Copy + Into<i64>>(run: &[T], limit: i64, from: usize) -> Result<(), Refusal> {
    first_bad(11, from, run, |number| !(-limit..=limit).contains(&(*number).into()))
}

/// The first digit that is not what it should be.
pub fn same(number: u16, run: &[u8], right: &[u8], from: usize) -> Result<(), Refusal> {
    first_bad(number, from, run.iter().zip(right), |(digit, right)| digit != right)
}

/// The first bad entry of a run that begins at index `from` of what the places count in.
pub fn first_bad<T>(
    number: u16, from: usize, run: impl IntoIterator<Item = T>, bad: impl Fn(T) -> bool,
) -> Result<(), Refusal> {
    match run.into_iter().position(bad) {
        Some(index) => refuse(number, from + index),
        None => Ok(()),
    }
}
