//! The P-CCPCH frame on two antennas.

use crate::answer::{Refusal, refuse};
use crate::rules::{checks, sttd};

pub const DATA: usize = 270;
pub const FRAME: usize = 300;

const DTX: u8 = 2;

/// Data digit d stands at 20·floor(d/18) + 2 + (d mod 18).
pub fn stands_at(d: usize) -> usize {
    20 * (d / 18) + 2 + d % 18
}

/// A whole frame starts as DTX; then each data digit is put in its place.
fn frame_of(data: &[u8]) -> Vec<u8> {
    let mut frame = vec![DTX; FRAME];
    for d in 0..DATA {
        frame[stands_at(d)] = data[d];
    }
    frame
}

/// STTD over digits 0 to 267 in fours, whatever slot they stand in; digits 268 and 269 are the same.
fn second_antenna(data: &[u8]) -> Vec<u8> {
    let mut other = sttd::encoded(sttd::bar, &data[..268]);
    other.extend_from_slice(&data[268..]);
    other
}

/// 3 (data, antenna 1, antenna 2), 4 above 1. Answers the frames of both antennas.
pub fn map(data: &[u8], n_antenna1: usize, n_antenna2: usize) -> Result<[Vec<u8>; 2], Refusal> {
    checks::lengths(&[(data.len(), DATA), (n_antenna1, FRAME), (n_antenna2, FRAME)])?;
    checks::digits(data, 1, 0)?;
    Ok([frame_of(data), frame_of(&second_antenna(data))])
}

/// 3 (antenna 1, antenna 2, data), 4 above 2, 9; places 0 to 299 on antenna 1, 300 to 599 on antenna 2.
pub fn read(antenna1: &[u8], antenna2: &[u8], n_data: usize) -> Result<Vec<u8>, Refusal> {
    checks::lengths(&[(antenna1.len(), FRAME), (antenna2.len(), FRAME), (n_data, DATA)])?;
    checks::digits(antenna1, 2, 0)?;
    checks::digits(antenna2, 2, FRAME)?;
    check_fields(antenna1, antenna2)
}

/// 9 at the first antenna 1 digit of the wrong kind (DTX or not), else at the first antenna 2 digit that differs from
/// what antenna 1 implies.
fn check_fields(antenna1: &[u8], antenna2: &[u8]) -> Result<Vec<u8>, Refusal> {
    // Any data shows which digits of a frame are DTX.
    let kinds = frame_of(&[0; DATA]);
    for index in 0..FRAME {
        if (antenna1[index] == DTX) != (kinds[index] == DTX) {
            return refuse(9, index);
        }
    }
    let data: Vec<u8> = (0..DATA).map(|d| antenna1[stands_at(d)]).collect();
    checks::same(9, antenna2, &frame_of(&second_antenna(&data)), FRAME)?;
    Ok(data)
}

#[cfg(test)]
mod tests {
    use super::{DATA, FRAME, map, stands_at};

    #[test]
    fn blocks_cross_from_even_to_odd_slots() {
        // Block 4 is digits 16 to 19: two stand at the end of slot 0, two in slot 1.
        assert_eq!([16, 17, 18, 19].map(stands_at), [18, 19, 22, 23]);
        let mut data = [0; DATA];
        data[18] = 1;
        let [_, antenna2] = map(&data, FRAME, FRAME).unwrap();
        assert_eq!([18, 19, 22, 23].map(|at| antenna2[at]), [0, 0, 0, 1]);
    }
}
