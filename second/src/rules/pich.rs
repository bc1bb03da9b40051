//! PICH.

use crate::answer::{Refusal, refuse};
use crate::rules::checks;

pub const FRAME: usize = 300;

/// Digits 0 to 287 carry indicators, 288 to 299 are DTX.
pub const TAIL: usize = 288;

const DTX: u8 = 2;

/// Np is 18, 36, 72 or 144: else 8.
pub fn check_np(np: usize) -> Result<(), Refusal> {
    match np {
        18 | 36 | 72 | 144 => Ok(()),
        _ => refuse(8, 0),
    }
}

/// q = (PI + floor(((18·(SFN + floor(SFN/8) + floor(SFN/64) + floor(SFN/512))) mod 144)·Np/144)) mod Np.
/// Order: 8, then 11 (place 0 PI, 1 SFN).
pub fn q(np: usize, pi: usize, sfn: usize) -> Result<u16, Refusal> {
    check_np(np)?;
    if pi > np - 1 {
        return refuse(11, 0);
    }
    if sfn > 4095 {
        return refuse(11, 1);
    }
    let sum = sfn + sfn / 8 + sfn / 64 + sfn / 512;
    let remainder = (18 * sum) % 144;
    // The product comes first: a floor of Np/144 would be 0 for every Np but 144.
    let product = remainder * np;
    let q = (pi + product / 144) % np;
    Ok(q as u16)
}

/// Order: 8, 3 (indicators, frame), 4 above 1.
pub fn map(np: usize, indicators: &[u8], n_frame: usize) -> Result<Vec<u8>, Refusal> {
    check_np(np)?;
    checks::lengths(&[(indicators.len(), np), (n_frame, FRAME)])?;
    checks::digits(indicators, 1, 0)?;
    Ok(mapped(np, indicators))
}

/// Indicator q fills 288/Np digits from (288/Np)·q; everything else is DTX.
fn mapped(np: usize, indicators: &[u8]) -> Vec<u8> {
    let size = 288 / np;
    let mut frame = vec![DTX; FRAME];
    for q in 0..np {
        for k in 0..size {
            frame[size * q + k] = indicators[q];
        }
    }
    frame
}

/// Order: 8, 3 (frame, indicators), 4 above 2, then 9.
pub fn read(np: usize, frame: &[u8], n_indicators: usize) -> Result<Vec<u8>, Refusal> {
    check_np(np)?;
    checks::lengths(&[(frame.len(), FRAME), (n_indicators, np)])?;
    checks::digits(frame, 2, 0)?;
    check_fields(np, frame)?;
    let size = 288 / np;
    Ok((0..np).map(|q| frame[size * q]).collect())
}

/// 9 at the first of digits 0 to 287 that is DTX or differs from the first of its group, else at the first tail
/// digit not DTX.
fn check_fields(np: usize, frame: &[u8]) -> Result<(), Refusal> {
    let size = 288 / np;
    for index in 0..TAIL {
        let first_of_group = frame[index / size * size];
        if frame[index] == DTX || frame[index] != first_of_group {
            return refuse(9, index);
        }
    }
    for index in TAIL..FRAME {
        if frame[index] != DTX {
            return refuse(9, index);
        }
    }
    Ok(())
}

#[cfg(test)]
mod tests {
    use super::q;
    use crate::answer::refuse;

    #[test]
    fn marked_example_p7() {
        assert_eq!(q(18, 5, 1), Ok(7));
    }

    #[test]
    fn marked_example_p8() {
        assert_eq!(q(36, 35, 4095), Ok(17));
    }

    #[test]
    fn the_other_marked_examples() {
        assert_eq!(q(18, 0, 4096), refuse(11, 1));
        assert_eq!(q(73, 0, 0), refuse(8, 0));
    }
}
