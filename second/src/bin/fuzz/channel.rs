//! A case of a map and one of a read, of whatever channel: what is given is spoilt now and then, lent, and told with what the
//! rules say of it.

use crate::case::Case;
use crate::draw::Draw;
use crate::lent::Held;
use second::answer::{Answer, Refusal};

fn runs<const N: usize>(held: &[Held<u8>; N]) -> [&[u8]; N] {
    held.each_ref().map(|held| &held.run[..])
}

/// A map: two runs, the one that is written, and those that are left, as a frame's commands.
pub fn map<const N: usize>(
    draw: &mut Draw, numbers: &[usize], given: [Vec<u8>; N], length: usize,
    rule: impl FnOnce([&[u8]; N], usize) -> Result<Vec<u8>, Refusal>,
) -> Case {
    let given = given.map(|run| draw.digits(run)).map(|run| draw.lend(run));
    let out = draw.room(length);
    let outcome = rule(runs(&given), out.length);
    let case = given[..2].iter().fold(Case::of(numbers), Case::held);
    let case = case.room(&out, outcome.as_deref().ok());
    given[2..].iter().fold(case, Case::held).answers(Answer::of(&outcome))
}

/// A read of streams that are spoilt already. The rules give a value and a run for each length.
pub fn read<const N: usize, const M: usize>(
    draw: &mut Draw, numbers: &[usize], streams: [Vec<u8>; N], lengths: [usize; M],
    rule: impl FnOnce([&[u8]; N], [usize; M]) -> Result<(u8, [Vec<u8>; M]), Refusal>,
) -> Case {
    let streams = streams.map(|run| draw.lend(run));
    let rooms = lengths.map(|length| draw.room(length));
    let outcome = rule(runs(&streams), rooms.each_ref().map(|room| room.length));
    let mut case = streams.iter().fold(Case::of(numbers), Case::held);
    for (k, room) in rooms.iter().enumerate() {
        case = case.room(room, outcome.as_ref().ok().map(|(_, runs)| &runs[k][..]));
    }
    case.answers(Answer::telling(&outcome, |(value, _)| (*value).into()))
}
