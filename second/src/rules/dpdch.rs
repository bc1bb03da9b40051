//! The uplink DPDCH: a slot is its data, a frame fifteen slots, and there is no slot number.

use crate::answer::{Refusal, refuse};
use crate::rules::checks;

/// Data digits of a slot, one number a format.
const SLOT: [usize; 7] = [10, 20, 40, 80, 160, 320, 640];

/// 1: format above 6. Else the digits of one slot.
pub fn slot_length(number: usize) -> Result<usize, Refusal> {
    if number > 6 {
        return refuse(1, 0);
    }
    Ok(SLOT[number])
}

/// Each of the four calls, for one slot or for the fifteen of a frame: 1, 3 (the run that is given, the one that is to be
/// written), 4 above 1. Slots and their data are the same digits, so mapping and reading are alike.
pub fn carry(number: usize, slots: usize, given: &[u8], n_to: usize) -> Result<Vec<u8>, Refusal> {
    let length = slots * slot_length(number)?;
    checks::lengths(&[(given.len(), length), (n_to, length)])?;
    checks::digits(given, 1, 0)?;
    Ok(given.to_vec())
}

#[cfg(test)]
mod tests {
    use super::{carry, slot_length};
    use crate::answer::refuse;

    #[test]
    fn a_slot_has_ten_digits_times_two_to_the_format() {
        for number in 0..7 {
            assert_eq!(slot_length(number), Ok(10 << number));
        }
        assert_eq!(slot_length(7), refuse(1, 0));
    }

    #[test]
    fn worked() {
        let data = [0, 1, 1, 0, 0, 1, 0, 1, 1, 1];
        assert_eq!(carry(0, 1, &data, 10), Ok(data.to_vec()));
        assert_eq!(carry(0, 15, &data.repeat(15), 150), Ok(data.repeat(15)));
        assert_eq!(carry(7, 1, &data, 10), refuse(1, 0));
        assert_eq!(carry(0, 15, &data, 150), refuse(3, 0));
        assert_eq!(carry(1, 1, &[0; 20], 10), refuse(3, 1));
        assert_eq!(carry(0, 1, &[0, 1, 2, 0, 3, 0, 0, 0, 0, 0], 10), refuse(4, 2));
    }
}
