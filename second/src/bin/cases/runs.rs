//! The runs that cases are made of, and how they are written.

use second::answer::Refusal;
use std::fmt::Display;

/// What a lent run of digits holds before the call: no digit that a call could write.
pub const MARK: u8 = 9;

/// The same for whole numbers.
pub const FAR: i32 = 99;

/// A few digits over and over.
pub fn repeated(part: &[u8], length: usize) -> Vec<u8> {
    part.iter().copied().cycle().take(length).collect()
}

/// A run with the digit at a place turned to another, where the run has that place.
pub fn damaged(run: &[u8], place: usize, digit: u8) -> Vec<u8> {
    let mut other = run.to_vec();
    if let Some(there) = other.get_mut(place) {
        *there = digit;
    }
    other
}

/// What a lent run holds afterwards: a refused call writes nothing.
pub fn left<T: Copy>(outcome: &Result<Vec<T>, Refusal>, length: usize, mark: T) -> Vec<T> {
    match outcome {
        Ok(run) => run.clone(),
        Err(_) => vec![mark; length],
    }
}

/// The digits of a run with nothing between them.
pub fn digits(run: &[u8]) -> String {
    run.iter().map(u8::to_string).collect()
}

/// The digits of a lent run before the call.
pub fn marks(length: usize) -> String {
    digits(&vec![MARK; length])
}

/// The numbers of a run with commas between them.
pub fn numbers<T: Display>(run: &[T]) -> String {
    run.iter().map(T::to_string).collect::<Vec<_>>().join(",")
}

/// The numbers of a lent run before the call.
pub fn far(length: usize) -> String {
    numbers(&vec![FAR; length])
}
