//! The random access desk.

use crate::answer::{Refusal, refuse};
use crate::rules::aich::{self, SIGNATURES, VALUES};
use crate::rules::checks;

/// What a fresh desk holds.
pub const FRESH: usize = 15;

/// What an access slot gives: an indicator for each signature, and the desk afterwards.
#[derive(Clone, Debug, PartialEq, Eq)]
pub struct Slot {
    pub indicators: Vec<i32>,
    pub last: usize,
}

/// The signatures in circular order: from just after the last one served, round to that one itself.
fn circle(last: usize) -> Vec<usize> {
    let (after, up_to) = (last + 1..SIGNATURES, 0..=last);
    after.chain(up_to).collect()
}

fn has(set: u16, s: usize) -> bool {
    set & (1 << s) != 0
}

/// Those that are heard and available queue up in circular order; the first n of the queue get +1, the rest of it -1.
pub fn slot(last: usize, heard: u16, available: u16, n: usize) -> Slot {
    let queue: Vec<usize> = circle(last).into_iter().filter(|&s| has(heard, s) && has(available, s)).collect();
    let served = &queue[..n.min(queue.len())];
    let mut indicators = vec![0; SIGNATURES];
    for &s in &queue {
        indicators[s] = if served.contains(&s) { 1 } else { -1 };
    }
    Slot { indicators, last: *served.last().unwrap_or(&last) }
}

/// 3, 11 at place 0 (n), 11 at place 2 (the desk). The values, and the desk afterwards.
pub fn serve(last: usize, heard: u16, available: u16, n: usize, n_values: usize) -> Result<(Vec<i32>, usize), Refusal> {
    checks::lengths(&[(n_values, VALUES)])?;
    if !(1..=16).contains(&n) {
        return refuse(11, 0);
    }
    if last > 15 {
        return refuse(11, 2);
    }
    let slot = slot(last, heard, available, n);
    let values = aich::map_available(available, &slot.indicators, n_values).expect("the set allows these indicators");
    Ok((values, slot.last))
}

/// Of a distance: 11 at place 1.
fn by_timing(timing: usize, chips: [usize; 2]) -> Result<usize, Refusal> {
    match chips.get(timing) {
        Some(&distance) => Ok(distance),
        None => refuse(11, 1),
    }
}

/// Chips from the preamble to the AICH.
pub fn to_aich(timing: usize) -> Result<usize, Refusal> {
    by_timing(timing, [7680, 12800])
}

/// Chips from the preamble to the message.
pub fn to_message(timing: usize) -> Result<usize, Refusal> {
    by_timing(timing, [15360, 20480])
}

/// 16/n slots, rounded up: how long a signature that is heard in every slot can have to wait.
pub fn longest_wait(n: usize) -> usize {
    SIGNATURES.div_ceil(n)
}

#[cfg(test)]
mod tests {
    use super::{FRESH, longest_wait, serve, slot, to_aich, to_message};
    use crate::answer::refuse;

    #[test]
    fn three_slots_of_the_page() {
        // docs/DESK.md: signatures 2, 5, 9 and 14, all available, two a slot
        let heard = 0x4224;
        let first = slot(FRESH, heard, 0xffff, 2);
        assert_eq!(first.last, 5);
        assert_eq!([2, 5, 9, 14].map(|s| first.indicators[s]), [1, 1, -1, -1]);
        let second = slot(first.last, 0x4204, 0xffff, 2);
        assert_eq!(second.last, 14);
        assert_eq!([2, 9, 14].map(|s| second.indicators[s]), [-1, 1, 1]);
        let third = slot(second.last, 0x0004, 0xfffb, 2);
        assert_eq!((third.last, third.indicators), (14, vec![0; 16]));
    }

    #[test]
    fn the_last_one_served_comes_last() {
        let again = slot(3, 1 << 3 | 1 << 2, u16::MAX, 1);
        assert_eq!((again.indicators[2], again.indicators[3], again.last), (1, -1, 2));
    }

    #[test]
    fn refusals_in_order() {
        assert_eq!(serve(16, 0, 0, 0, 31), refuse(3, 0));
        assert_eq!(serve(16, 0, 0, 0, 32), refuse(11, 0));
        assert_eq!(serve(16, 0, 0, 17, 32), refuse(11, 0));
        assert_eq!(serve(16, 0, 0, 16, 32), refuse(11, 2));
        assert_eq!(serve(15, 0, 0, 16, 32), Ok((vec![0; 32], 15)));
    }

    #[test]
    fn distances() {
        assert_eq!([to_aich(0), to_aich(1)], [Ok(7680), Ok(12800)]);
        assert_eq!([to_message(0), to_message(1)], [Ok(15360), Ok(20480)]);
        assert_eq!([to_aich(2), to_message(2)], [refuse(11, 1), refuse(11, 1)]);
    }

    #[test]
    fn waits() {
        assert_eq!([1, 2, 3, 5, 8, 15, 16].map(longest_wait), [16, 8, 6, 4, 2, 2, 1]);
    }
}
