//! Wake simulation: when a handset would wake to recorded PICH frames.

use crate::answer::{Refusal, refuse};
use crate::rules::pich;

/// A count that stands here takes no frame more.
pub const FULL: u32 = u32::MAX;

/// How many SFNs there are: 4095 is followed by 0.
pub const SFNS: usize = 4096;

/// Frames read, frames that woke the handset, and the SFN of the next frame.
#[derive(Clone, Copy, Debug, PartialEq, Eq)]
pub struct Tally {
    pub read: u32,
    pub woke: u32,
    pub next_sfn: u32,
}

/// Whether a frame of some SFN wakes the handset: indicator q is 1. Order: as for q (8, 11), then as for the reader (4, 9).
fn wakes(np: usize, pi: usize, sfn: usize, frame: &[u8]) -> Result<bool, Refusal> {
    let q = pich::q(np, pi, sfn)?;
    let indicators = pich::read(np, frame, np)?;
    Ok(indicators[usize::from(q)] == 1)
}

/// One frame: 3 for another length than a frame's, then 32, then whether it wakes. Answers the tally after it.
pub fn step(np: usize, pi: usize, frame: &[u8], tally: Tally) -> Result<Tally, Refusal> {
    if frame.len() != pich::FRAME {
        return refuse(3, 0);
    }
    if tally.read == FULL || tally.woke == FULL {
        return refuse(32, 0);
    }
    let woken = wakes(np, pi, tally.next_sfn as usize, frame)?;
    Ok(Tally {
        read: tally.read + 1,
        woke: tally.woke + u32::from(woken),
        next_sfn: if tally.next_sfn == 4095 { 0 } else { tally.next_sfn + 1 },
    })
}

/// The SFN of frame k of a list.
fn sfn_at(first: u32, k: usize) -> usize {
    (first as usize + k) % SFNS
}

/// A run as it is counted over the list of frames: each frame is judged by itself, at the SFN and with the counts that its
/// place in the list gives. The tally is told for refused runs too.
pub fn run(np: usize, pi: usize, frames: &[u8], first: Tally) -> (Result<(), Refusal>, Tally) {
    if frames.len() % pich::FRAME != 0 {
        return (refuse(3, 0), first);
    }
    let mut woken = 0;
    for (k, frame) in frames.chunks(pich::FRAME).enumerate() {
        let at = first.read as usize + k;
        let sfn = if k == 0 { first.next_sfn as usize } else { sfn_at(first.next_sfn, k) };
        let judged = match at == FULL as usize || first.woke + woken == FULL {
            true => refuse(32, 0),
            false => wakes(np, pi, sfn, frame),
        };
        match judged {
            Err(refusal) => return (Err(refusal), counted(first, k, woken)),
            Ok(one) => woken += u32::from(one),
        }
    }
    (Ok(()), counted(first, frames.len() / pich::FRAME, woken))
}

/// The tally after `read` more frames, of which `woken` woke the handset.
fn counted(first: Tally, read: usize, woken: u32) -> Tally {
    if read == 0 {
        return first;
    }
    Tally { read: first.read + read as u32, woke: first.woke + woken, next_sfn: sfn_at(first.next_sfn, read) as u32 }
}

#[cfg(test)]
mod tests {
    use super::{FULL, Tally, run, step};
    use crate::answer::refuse;
    use crate::rules::pich;

    /// Two frames of Np 18 from SFN 4095 on: PI 0 has indicator q 17, then 0.
    fn two_frames() -> Vec<u8> {
        let mut frames = Vec::new();
        for q in [pich::q(18, 0, 4095), pich::q(18, 0, 0)] {
            let mut indicators = vec![0; 18];
            indicators[usize::from(q.unwrap())] = 1;
            frames.extend(pich::map(18, &indicators, 300).unwrap());
        }
        frames
    }

    #[test]
    fn the_sfn_turns_and_both_frames_wake() {
        let first = Tally { read: 7, woke: 2, next_sfn: 4095 };
        let after = Tally { read: 9, woke: 4, next_sfn: 1 };
        assert_eq!(run(18, 0, &two_frames(), first), (Ok(()), after));
    }

    #[test]
    fn a_full_count_stops_the_run_where_it_stands() {
        let first = Tally { read: FULL - 1, woke: 0, next_sfn: 4095 };
        let after = Tally { read: FULL, woke: 1, next_sfn: 0 };
        assert_eq!(run(18, 0, &two_frames(), first), (refuse(32, 0), after));
    }

    #[test]
    fn no_frames_are_done_and_a_step_wants_one() {
        let first = Tally { read: FULL, woke: FULL, next_sfn: 9999 };
        assert_eq!(run(0, 99, &[], first), (Ok(()), first));
        assert_eq!(step(0, 99, &[], first), refuse(3, 0));
    }
}
