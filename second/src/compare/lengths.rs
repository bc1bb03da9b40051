//! Lengths of runs: what the library tells against the rules, and against the library's own mappers, which must ask for
//! just what it tells.

use crate::answer::{Answer, Refusal};
use crate::ffi;
use crate::judge::Judge;
use crate::lent::Lent;
use crate::rules::compressed::Frame;
use crate::rules::lengths as rules;

/// What is added to a number to make it huge while its low bits stay as they are.
const FAR: [usize; 5] = [1 << 8, 1 << 16, 1 << 32, 1 << 63, usize::MAX];

/// Every comparison of the lengths.
pub fn all(judge: &mut Judge) {
    for call in CALLS {
        told(judge, &call);
        asked(judge, &call);
        judge.must_have_seen(call.mapper, &[0, 3]);
    }
    gaps(judge);
    gaps_asked(judge);
    judge.must_have_seen("slt_compressed_map", &[0, 3]);
}

fn answer(outcome: Result<usize, Refusal>) -> Answer {
    Answer::telling(&outcome, |length| u16::try_from(*length).expect("a length fits 16 bits"))
}

/// Every number below a bound, and huge ones that are such numbers in their low bits.
fn numbers(below: usize) -> impl Iterator<Item = usize> + Clone {
    let far = FAR.into_iter().flat_map(move |far| (0..below).map(move |low| far.wrapping_add(low)));
    (0..below).chain(far.filter(move |number| *number >= below))
}

// The calls that take a format and a run.

struct Call {
    name: &'static str,
    mapper: &'static str,
    runs: usize,
    rule: fn(usize, usize) -> Result<usize, Refusal>,
    library: fn(usize, usize) -> Answer,
    /// The mapper on zeros, with runs of these lengths.
    map: fn(usize, &mut [Lent<u8>]) -> Answer,
}

const CALLS: [Call; 8] = [
    Call {
        name: "slt_slot_lengths",
        mapper: "slt_slot_map",
        runs: 3,
        rule: rules::slot,
        library: ffi::slot_lengths,
        map: |format, runs| {
            let [data, tfci, out] = each(runs);
            ffi::slot_map(format, 14, 0, data, tfci, out)
        },
    },
    Call {
        name: "slt_slot_lengths",
        mapper: "slt_slot_map_antenna",
        runs: 3,
        rule: rules::slot,
        library: ffi::slot_lengths,
        map: |format, runs| {
            let [data, tfci, out] = each(runs);
            ffi::slot_map_antenna(format, 0, 1, 0, data, tfci, out)
        },
    },
    Call {
        name: "slt_frame_lengths",
        mapper: "slt_frame_map",
        runs: 4,
        rule: rules::frame,
        library: ffi::frame_lengths,
        map: |format, runs| {
            let [data, tfci, out, commands] = each(runs);
            ffi::frame_map(format, data, tfci, out, commands)
        },
    },
    Call {
        name: "slt_dpdch_lengths",
        mapper: "slt_dpdch_map",
        runs: 2,
        rule: rules::dpdch,
        library: ffi::dpdch_lengths,
        map: |format, runs| {
            let [data, out] = each(runs);
            ffi::dpdch_map(format, data, out)
        },
    },
    Call {
        name: "slt_dpdch_frame_lengths",
        mapper: "slt_dpdch_frame_map",
        runs: 2,
        rule: rules::dpdch_frame,
        library: ffi::dpdch_frame_lengths,
        map: |format, runs| {
            let [data, out] = each(runs);
            ffi::dpdch_frame_map(format, data, out)
        },
    },
    Call {
        name: "slt_dpcch_lengths",
        mapper: "slt_dpcch_map",
        runs: 3,
        rule: rules::dpcch,
        library: ffi::dpcch_lengths,
        map: |format, runs| {
            let [tfci, fbi, out] = each(runs);
            ffi::dpcch_map(format, 14, 0, tfci, fbi, out)
        },
    },
    Call {
        name: "slt_dpcch_frame_lengths",
        mapper: "slt_dpcch_frame_map",
        runs: 4,
        rule: rules::dpcch_frame,
        library: ffi::dpcch_frame_lengths,
        map: |format, runs| {
            let [tfci, fbi, out, commands] = each(runs);
            ffi::dpcch_frame_map(format, tfci, fbi, out, commands)
        },
    },
    Call {
        name: "slt_hspdsch_lengths",
        mapper: "slt_hspdsch_map",
        runs: 3,
        rule: rules::hspdsch,
        library: ffi::hspdsch_lengths,
        map: |format, runs| {
            let [data, first, second] = each(runs);
            ffi::hspdsch_map(format, data, first, second)
        },
    },
];

/// The runs one by one.
fn each<'a, 'b, const N: usize>(runs: &'a mut [Lent<'b, u8>]) -> [&'a mut Lent<'b, u8>; N] {
    let all: Vec<&mut Lent<u8>> = runs.iter_mut().collect();
    all.try_into().unwrap_or_else(|_| panic!("{N} runs"))
}

/// Formats 0 to 40 and runs 0 to 10, and huge numbers.
fn told(judge: &mut Judge, call: &Call) {
    for format in numbers(41) {
        for run in numbers(11) {
            let inputs = || format!("format {format}, run {run}");
            judge.compare(call.name, inputs, answer((call.rule)(format, run)), (call.library)(format, run), []);
        }
    }
}

/// The runs of a mapper as long as told, each all zeros.
fn lent(judge: &Judge, lengths: &[usize]) -> Vec<Lent<'static, u8>> {
    let zeros = |length: &usize| judge.given("zeros", Some(&vec![0; *length]));
    lengths.iter().map(zeros).collect()
}

/// With runs as long as told a mapper does its work; where one of them is shorter or longer by one, it says 3 of that one.
fn one_off(judge: &mut Judge, mapper: &'static str, lengths: &[usize], map: impl Fn(&mut [Lent<u8>]) -> Answer) {
    let mut runs = lent(judge, lengths);
    judge.compare(mapper, || format!("runs as told, {lengths:?}"), Answer::done(0), map(&mut runs), []);
    for run in 0..lengths.len() {
        for off in [lengths[run].checked_sub(1), Some(lengths[run] + 1)].into_iter().flatten() {
            let mut other = lengths.to_vec();
            other[run] = off;
            let mut runs = lent(judge, &other);
            let expected = Answer { number: 3, place: run as u32, value: 0 };
            judge.compare(mapper, || format!("runs of {other:?}, told are {lengths:?}"), expected, map(&mut runs), []);
        }
    }
}

fn asked(judge: &mut Judge, call: &Call) {
    for format in (0..).take_while(|format| (call.library)(*format, 0).number == 0) {
        let lengths: Vec<usize> = (0..call.runs).map(|run| (call.library)(format, run).value.into()).collect();
        one_off(judge, call.mapper, &lengths, |runs| (call.map)(format, runs));
    }
}

// Compressed frames.

/// Formats 0 to 40, kinds 0 to 4, gaps of 0 to 16 slots from slot 0 to 16 on, runs 0 to 10; then one number huge.
fn gaps(judge: &mut Judge) {
    let mut compare = |format, kind, first, missing, run| {
        let of = Frame { format, kind, first, missing };
        let inputs = || format!("{of:?}, run {run}");
        judge.compare("slt_compressed_lengths", inputs, answer(rules::compressed(of, run)), ffi::compressed_lengths(of, run), []);
    };
    for format in 0..41 {
        for kind in 0..5 {
            for first in 0..17 {
                for missing in 0..17 {
                    (0..11).for_each(|run| compare(format, kind, first, missing, run));
                }
            }
        }
    }
    for kind in 1..3 {
        for number in numbers(17) {
            compare(number, kind, 4, 3, 0);
            compare(5, number, 4, 3, 1);
            compare(5, kind, number, 3, 2);
            compare(5, kind, 4, number, 3);
            compare(5, kind, 4, 3, number);
        }
    }
}

/// Every row, and every gap that stands.
fn gaps_asked(judge: &mut Judge) {
    for format in 0..17 {
        for kind in 1..3 {
            for missing in 1..8 {
                for first in 0..16 - missing {
                    let of = Frame { format, kind, first, missing };
                    if ffi::compressed_lengths(of, 0).number != 0 {
                        continue;
                    }
                    let lengths: Vec<usize> = (0..4).map(|run| ffi::compressed_lengths(of, run).value.into()).collect();
                    let map = |runs: &mut [Lent<u8>]| {
                        let [data, tfci, out, commands] = each(runs);
                        ffi::compressed_map(of, data, tfci, out, commands)
                    };
                    one_off(judge, "slt_compressed_map", &lengths, map);
                }
            }
        }
    }
}
