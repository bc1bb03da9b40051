//! A case of each call of the wake simulation.

use crate::case::Case;
use crate::draw::Draw;
use crate::lent::{Held, Room};
use second::answer::Answer;
use second::rules::pich;
use second::rules::wake::{self, FULL, Tally};

const NPS: [usize; 4] = [18, 36, 72, 144];

/// What both calls are given.
struct Given {
    np: usize,
    pi: usize,
    tally: Tally,
    frames: Held<u8>,
}

impl Given {
    /// The numbers before the frames: of the tally, what it holds before the call.
    fn case(&self) -> Case {
        let Tally { read, woke, next_sfn } = self.tally;
        let tally = [read, woke, next_sfn].map(|number| number as usize);
        Case::of(&[self.np, self.pi, tally[0], tally[1], tally[2]]).held(&self.frames)
    }
}

/// One in eight counts is at its end or just before it.
fn count(draw: &mut Draw) -> u32 {
    let near = FULL - draw.random.below(4) as u32;
    let far = draw.random.below(1 << 30) as u32;
    draw.random.pick(&[0, far, far, far, far, far, far, near])
}

fn given(draw: &mut Draw, frames: usize) -> Given {
    let good = draw.random.pick(&NPS);
    let mut sent = Vec::new();
    for _ in 0..frames {
        sent.extend(pich::map(good, &draw.random.digits(good, 2), pich::FRAME).expect("good indicators"));
    }
    let sent = draw.digits(sent);
    let (pi, sfn) = (draw.random.below(good), draw.random.below(4096));
    let sfn = draw.random.pick(&[sfn, sfn, 4095, 4094]);
    let (np, pi, next_sfn) = (draw.number(good), draw.number(pi), draw.number(sfn) as u32);
    let tally = Tally { read: count(draw), woke: count(draw), next_sfn };
    Given { np, pi, tally, frames: draw.lend(sent) }
}

/// Each of the three numbers is a run of one, which is told for refused runs too.
pub fn run(draw: &mut Draw) -> Case {
    let frames = draw.random.pick(&[0, 1, 2, 3, 5, 12]);
    let given = given(draw, frames);
    let (outcome, after) = wake::run(given.np, given.pi, &given.frames.run, given.tally);
    let mut case = given.case();
    for number in [after.read, after.woke, after.next_sfn] {
        case = case.room(&draw.one(), Some(&[number]));
    }
    case.answers(Answer::of(&outcome))
}

/// The tally is a run of three numbers, as the struct lies in memory.
pub fn step(draw: &mut Draw) -> Case {
    let given = given(draw, 1);
    let outcome = wake::step(given.np, given.pi, &given.frames.run, given.tally);
    let Tally { read, woke, next_sfn } = outcome.unwrap_or(given.tally);
    let tally = Room { length: 3, ..draw.one() };
    given.case().room(&tally, Some(&[read, woke, next_sfn])).answers(Answer::of(&outcome))
}
