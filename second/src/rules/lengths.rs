//! How long each run of a mapper is. Runs are counted from 0, in the order in which the mapper tells 3 of them.

use crate::answer::{Refusal, refuse};
use crate::rules::compressed::{self, Frame};
use crate::rules::frame::SLOTS;
use crate::rules::{dpcch, dpch, dpdch, hspdsch};

/// 11, place 0: a run that there is not. Else its length.
fn told(lengths: &[usize], run: usize) -> Result<usize, Refusal> {
    match lengths.get(run) {
        Some(length) => Ok(*length),
        None => refuse(11, 0),
    }
}

/// Data, TFCI, slot.
pub fn slot(format: usize, run: usize) -> Result<usize, Refusal> {
    let row = dpch::format(format)?;
    told(&[row.data(), row.tfci, row.slot], run)
}

/// Data, TFCI, frame, commands.
pub fn frame(format: usize, run: usize) -> Result<usize, Refusal> {
    let row = dpch::format(format)?;
    told(&[SLOTS * row.data(), SLOTS * row.tfci, SLOTS * row.slot, SLOTS], run)
}

/// Data, TFCI, frame, commands; the frame alone has the missing slots.
pub fn compressed(of: Frame, run: usize) -> Result<usize, Refusal> {
    let row = compressed::format(of.format, of.kind)?;
    let sent = compressed::transmitted(&compressed::gap(of.first, of.missing)?).len();
    told(&[sent * row.data(), sent * row.tfci, SLOTS * row.slot, sent], run)
}

/// Data, slot.
pub fn dpdch(format: usize, run: usize) -> Result<usize, Refusal> {
    let slot = dpdch::slot_length(format)?;
    told(&[slot, slot], run)
}

/// Data, frame.
pub fn dpdch_frame(format: usize, run: usize) -> Result<usize, Refusal> {
    let frame = SLOTS * dpdch::slot_length(format)?;
    told(&[frame, frame], run)
}

/// TFCI, FBI, slot.
pub fn dpcch(format: usize, run: usize) -> Result<usize, Refusal> {
    let row = dpcch::format(format)?;
    told(&[row.tfci, row.fbi, dpcch::SLOT], run)
}

/// TFCI, FBI, frame, commands.
pub fn dpcch_frame(format: usize, run: usize) -> Result<usize, Refusal> {
    let row = dpcch::format(format)?;
    told(&[SLOTS * row.tfci, SLOTS * row.fbi, SLOTS * dpcch::SLOT, SLOTS], run)
}

/// Data, antenna 1, antenna 2.
pub fn hspdsch(format: usize, run: usize) -> Result<usize, Refusal> {
    if format >= hspdsch::FORMATS {
        return refuse(1, 0);
    }
    let size = hspdsch::size(format);
    told(&[size, size, size], run)
}

#[cfg(test)]
mod tests {
    use super::{compressed, dpcch, dpcch_frame, dpdch, dpdch_frame, frame, hspdsch, slot};
    use crate::answer::refuse;
    use crate::rules::compressed::Frame;

    #[test]
    fn worked() {
        assert_eq!([0, 1, 2].map(|run| slot(9, run)), [Ok(32), Ok(2), Ok(40)]);
        assert_eq!([0, 1, 2, 3].map(|run| frame(9, run)), [Ok(480), Ok(30), Ok(600), Ok(15)]);
        let of = Frame { format: 9, kind: 2, first: 4, missing: 3 };
        assert_eq!([0, 1, 2, 3].map(|run| compressed(of, run)), [Ok(768), Ok(48), Ok(1200), Ok(12)]);
        assert_eq!([dpdch(6, 1), dpdch_frame(6, 0), hspdsch(1, 2)], [Ok(640), Ok(9600), Ok(1920)]);
        assert_eq!([0, 1, 2].map(|run| dpcch(3, run)), [Ok(0), Ok(1), Ok(10)]);
        assert_eq!([0, 1, 2, 3].map(|run| dpcch_frame(2, run)), [Ok(30), Ok(15), Ok(150), Ok(15)]);
    }

    #[test]
    fn refused() {
        assert_eq!([slot(17, 9), frame(17, 0), dpdch(7, 0), dpcch(4, 0), hspdsch(2, 0)], [refuse(1, 0); 5]);
        assert_eq!([slot(0, 3), frame(0, 4), dpdch(0, 2), dpdch_frame(0, 2), dpcch(0, 3), hspdsch(0, 3)], [refuse(11, 0); 6]);
        let of = |format, kind, first| Frame { format, kind, first, missing: 3 };
        assert_eq!(compressed(of(1, 1, 13), 0), refuse(1, 0));
        assert_eq!(compressed(of(0, 2, 13), 4), refuse(27, 0));
        assert_eq!(compressed(of(0, 2, 12), 4), refuse(11, 0));
    }
}
