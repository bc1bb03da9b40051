//! Fields of a slot that keep the rules, and how they are damaged: both programs of this package try the same ones.

use crate::random::Random;
use crate::rules::dpch::{self, Format};

/// Digits that are never allowed.
pub const NO_DIGITS: [u8; 5] = [3, 4, 127, 128, 255];

/// Commands that are none.
pub const NO_COMMANDS: [u8; 5] = [2, 3, 127, 128, 255];

/// The lengths of a format that exists.
pub fn lengths_of(number: usize) -> Format {
    dpch::format(number).expect("formats 0 to 16")
}

/// TFCI digits that keep the rule: bits, or now and then all DTX.
pub fn random_tfci(random: &mut Random, format: &Format) -> Vec<u8> {
    if random.below(3) == 0 {
        return vec![2; format.tfci];
    }
    random.digits(format.tfci, 2)
}

/// Puts one of `values` somewhere in the run, unless it is empty.
pub fn put_somewhere(run: &mut [u8], values: &[u8], random: &mut Random) {
    if !run.is_empty() {
        run[random.below(run.len())] = random.pick(values);
    }
}

/// Turns a digit of the TFCI to the other kind, DTX or not; that breaks the rule where the field was good.
pub fn break_tfci(tfci: &mut [u8], random: &mut Random) {
    if !tfci.is_empty() {
        let index = random.below(tfci.len());
        tfci[index] = if tfci[index] == 2 { random.below(2) as u8 } else { 2 };
    }
}
