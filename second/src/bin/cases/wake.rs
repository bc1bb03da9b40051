//! Wake simulation: runs through the turn of the SFN, runs that stop, and steps.

use crate::case::{Case, Line};
use crate::runs::{damaged, digits};
use second::answer::Refusal;
use second::rules::pich;
use second::rules::wake::{self, FULL, Tally};

const NP: usize = 18;

const PI: usize = 5;

/// One short of the turn.
const FIRST: Tally = Tally { read: 7, woke: 2, next_sfn: 4095 };

/// What both calls are asked and answer: the tally is told for refused calls too.
fn told(name: &str, call: &str, np: usize, first: Tally, frames: &[u8], outcome: (Result<(), Refusal>, Tally)) -> Case {
    let Tally { read, woke, next_sfn } = first;
    let line = Line::new(name, call).key("Np", np).key("PI", PI).key("read", read).key("woke", woke);
    let line = line.key("SFN", next_sfn).key("frames", digits(frames));
    let (answer, after) = outcome;
    line.gives("read", after.read).gives("woke", after.woke).gives("SFN", after.next_sfn).answered(&answer)
}

fn run(name: &str, np: usize, first: Tally, frames: &[u8]) -> Case {
    told(name, "wake run", np, first, frames, wake::run(np, PI, frames, first))
}

fn step(name: &str, np: usize, first: Tally, frame: &[u8]) -> Case {
    let outcome = wake::step(np, PI, frame, first);
    told(name, "wake step", np, first, frame, (outcome.map(|_| ()), outcome.unwrap_or(first)))
}

/// The frame of an SFN in which this indicator alone is 1, counted from the handset's own.
fn frame(sfn: usize, beside: usize) -> Vec<u8> {
    let own = usize::from(pich::q(NP, PI, sfn).expect("numbers in range"));
    let indicators: Vec<u8> = (0..NP).map(|q| u8::from(q == (own + beside) % NP)).collect();
    pich::map(NP, &indicators, pich::FRAME).expect("good indicators")
}

fn runs() -> Vec<Case> {
    let both = [frame(4095, 0), frame(0, 0)].concat();
    vec![
        // 4095 is followed by 0; q is that of each frame's own SFN
        run("done", NP, FIRST, &both),
        // no frames are done, whatever the numbers are
        run("done", 73, Tally { read: FULL, woke: FULL, next_sfn: 4096 }, &[]),
        run("refusal 3", 73, Tally { next_sfn: 4096, ..FIRST }, &both[..12]),
        // the tally is left as the first frame left it
        run("refusal 4", NP, FIRST, &damaged(&both, 300 + 299, 3)),
        run("refusal 32", NP, Tally { woke: FULL - 1, ..FIRST }, &both),
    ]
}

fn steps() -> Vec<Case> {
    let own = frame(4095, 0);
    vec![
        step("done", NP, FIRST, &frame(4095, 1)),
        step("refusal 3", 73, FIRST, &own[..12]),
        step("refusal 32", 73, Tally { read: FULL, ..FIRST }, &own),
        step("refusal 8", 73, Tally { next_sfn: 4096, ..FIRST }, &own),
        step("refusal 11", NP, Tally { next_sfn: 4096, ..FIRST }, &own),
        step("refusal 9", NP, FIRST, &damaged(&own, 299, 0)),
    ]
}

pub fn all() -> Vec<Case> {
    [runs(), steps()].concat()
}
