//! A case of each call that tells the length of a run.

use crate::case::Case;
use crate::draw::Draw;
use second::answer::{Answer, Refusal};
use second::rules::compressed::Frame;
use second::rules::lengths as rules;

fn told(numbers: &[usize], outcome: Result<usize, Refusal>) -> Case {
    let told = |length: &usize| u16::try_from(*length).expect("a length fits 16 bits");
    Case::of(numbers).answers(Answer::telling(&outcome, told))
}

/// A format up to `last` and one of `runs` runs, each spoilt now and then.
fn of(draw: &mut Draw, last: usize, runs: usize, rule: fn(usize, usize) -> Result<usize, Refusal>) -> Case {
    let (format, run) = (draw.random.below(last + 1), draw.random.below(runs));
    let (format, run) = (draw.number(format), draw.number(run));
    told(&[format, run], rule(format, run))
}

pub fn slot(draw: &mut Draw) -> Case {
    of(draw, 16, 3, rules::slot)
}

pub fn frame(draw: &mut Draw) -> Case {
    of(draw, 16, 4, rules::frame)
}

pub fn compressed(draw: &mut Draw) -> Case {
    let (format, kind, missing) = (draw.random.below(17), 1 + draw.random.below(2), 1 + draw.random.below(7));
    let (first, run) = (draw.random.below(16 - missing), draw.random.below(4));
    let (format, kind) = (draw.number(format), draw.number(kind));
    let of = Frame { format, kind, first: draw.number(first), missing: draw.number(missing) };
    let run = draw.number(run);
    told(&[of.format, of.kind, of.first, of.missing, run], rules::compressed(of, run))
}

pub fn dpdch(draw: &mut Draw) -> Case {
    of(draw, 6, 2, rules::dpdch)
}

pub fn dpdch_frame(draw: &mut Draw) -> Case {
    of(draw, 6, 2, rules::dpdch_frame)
}

pub fn dpcch(draw: &mut Draw) -> Case {
    of(draw, 3, 3, rules::dpcch)
}

pub fn dpcch_frame(draw: &mut Draw) -> Case {
    of(draw, 3, 4, rules::dpcch_frame)
}

pub fn hspdsch(draw: &mut Draw) -> Case {
    of(draw, 1, 3, rules::hspdsch)
}
