//! A case of each call but those of dedicated channels.

use crate::case::Case;
use crate::channel;
use crate::draw::Draw;
use crate::lent::{HUGE, Room};
use second::answer::{Answer, Refusal};
use second::rules::sample::{Setting, VALUE_LIMIT, sample};
use second::rules::{aich, combiner, hspdsch, desk, pccpch, pich, sttd};

const NPS: [usize; 4] = [18, 36, 72, 144];

// PICH

pub fn pich_q(draw: &mut Draw) -> Case {
    let good = draw.random.pick(&NPS);
    let (pi, sfn) = (draw.random.below(good), draw.random.below(4096));
    let (pi, sfn) = (draw.random.pick(&[pi, pi, good - 1]), draw.random.pick(&[sfn, sfn, 4095]));
    let (np, pi, sfn) = (draw.number(good), draw.number(pi), draw.number(sfn));
    Case::of(&[np, pi, sfn]).answers(Answer::telling(&pich::q(np, pi, sfn), |q| *q))
}

pub fn pich_map(draw: &mut Draw) -> Case {
    let good = draw.random.pick(&NPS);
    let np = draw.number(good);
    let indicators = draw.random.digits(good, 2);
    let indicators = draw.digits(indicators);
    let (indicators, frame) = (draw.lend(indicators), draw.room(pich::FRAME));
    let outcome = pich::map(np, &indicators.run, frame.length);
    let after = outcome.as_deref().ok();
    Case::of(&[np]).held(&indicators).room(&frame, after).answers(Answer::of(&outcome))
}

pub fn pich_read(draw: &mut Draw) -> Case {
    let good = draw.random.pick(&NPS);
    let np = draw.number(good);
    let sent = pich::map(good, &draw.random.digits(good, 2), pich::FRAME).expect("good indicators");
    let sent = draw.digits(sent);
    let (frame, indicators) = (draw.lend(sent), draw.room(good));
    let outcome = pich::read(np, &frame.run, indicators.length);
    let after = outcome.as_deref().ok();
    Case::of(&[np]).held(&frame).room(&indicators, after).answers(Answer::of(&outcome))
}

// STTD

pub fn sttd_digits(draw: &mut Draw) -> Case {
    if draw.random.below(4000) == 0 {
        return sttd_too_long(draw);
    }
    let length = 4 * draw.random.below(500);
    let length = draw.random.pick(&[length, length, length, length % 40, 0]);
    let digits = draw.random.digits(length, 3);
    let digits = draw.digits(digits);
    let (input, out) = (draw.lend(digits), draw.room(length));
    let outcome = sttd::digits(&input.run, out.length);
    Case::of(&[]).held(&input).room(&out, outcome.as_deref().ok()).answers(Answer::of(&outcome))
}

/// More digits than the place of an answer can count: `include/slt.h` says that the call refuses such an input for its
/// length. It does so before it looks at a digit, so no memory need stand behind the input, as behind a huge room.
fn sttd_too_long(draw: &mut Draw) -> Case {
    let input = Room { length: HUGE + 4 * draw.random.below(1000), null: false, place: 0 };
    let out = draw.room(input.length - HUGE);
    let refused = Refusal { number: 3, place: 0 };
    Case::of(&[]).room::<u8>(&input, None).room::<u8>(&out, None).answers(Answer::refused(refused))
}

pub fn sttd_values(draw: &mut Draw) -> Case {
    let values = (0..sttd::VALUES).map(|_| draw.in_range(16) as i32).collect();
    let values = draw.values(values);
    let (input, out) = (draw.lend(values), draw.room(sttd::VALUES));
    let outcome = sttd::values(&input.run, out.length);
    Case::of(&[]).held(&input).room(&out, outcome.as_deref().ok()).answers(Answer::of(&outcome))
}

// P-CCPCH

pub fn pccpch_map(draw: &mut Draw) -> Case {
    let data = draw.random.digits(pccpch::DATA, 2);
    on_two_antennas(draw, &[], data, pccpch::FRAME, pccpch::map)
}

pub fn pccpch_read(draw: &mut Draw) -> Case {
    let data = draw.random.digits(pccpch::DATA, 2);
    let sent = pccpch::map(&data, pccpch::FRAME, pccpch::FRAME).expect("good data").map(|run| draw.digits(run));
    channel::read(draw, &[], sent, [pccpch::DATA], |[antenna1, antenna2], [n_data]| {
        pccpch::read(antenna1, antenna2, n_data).map(|data| (0, [data]))
    })
}

/// A map of data to the runs of two antennas, both of one length.
fn on_two_antennas(
    draw: &mut Draw, numbers: &[usize], data: Vec<u8>, length: usize,
    rule: impl FnOnce(&[u8], usize, usize) -> Result<[Vec<u8>; 2], Refusal>,
) -> Case {
    let data = draw.digits(data);
    let data = draw.lend(data);
    let [antenna1, antenna2] = [length; 2].map(|length| draw.room(length));
    let outcome = rule(&data.run, antenna1.length, antenna2.length);
    let [after1, after2] = [0, 1].map(|antenna| outcome.as_ref().ok().map(|both| &both[antenna][..]));
    Case::of(numbers).held(&data).room(&antenna1, after1).room(&antenna2, after2).answers(Answer::of(&outcome))
}

// HS-PDSCH

pub fn hspdsch_map(draw: &mut Draw) -> Case {
    let good = draw.random.below(hspdsch::FORMATS);
    let (n, format) = (hspdsch::size(good), draw.number(good));
    let data = draw.random.digits(n, 2);
    on_two_antennas(draw, &[format], data, n, |data, n1, n2| hspdsch::map(format, data, n1, n2))
}

pub fn hspdsch_read(draw: &mut Draw) -> Case {
    let good = draw.random.below(hspdsch::FORMATS);
    let (n, format) = (hspdsch::size(good), draw.number(good));
    let sent = hspdsch::map(good, &draw.random.digits(n, 2), n, n).expect("good data").map(|run| draw.digits(run));
    channel::read(draw, &[format], sent, [n], |[antenna1, antenna2], [n_data]| {
        hspdsch::read(format, antenna1, antenna2, n_data).map(|data| (0, [data]))
    })
}

// AICH

pub fn aich_map(draw: &mut Draw) -> Case {
    let indicators = (0..aich::SIGNATURES).map(|_| draw.in_range(1) as i32).collect();
    let indicators = draw.values(indicators);
    let (indicators, values) = (draw.lend(indicators), draw.room(aich::VALUES));
    let outcome = aich::map(&indicators.run, values.length);
    Case::of(&[]).held(&indicators).room(&values, outcome.as_deref().ok()).answers(Answer::of(&outcome))
}

pub fn aich_read(draw: &mut Draw) -> Case {
    let indicators: Vec<i32> = (0..aich::SIGNATURES).map(|_| draw.in_range(1) as i32).collect();
    let sent = aich::map(&indicators, aich::VALUES).expect("good indicators");
    let sent = draw.values(sent);
    let (values, indicators) = (draw.lend(sent), draw.room(aich::SIGNATURES));
    let outcome = aich::read(&values.run, indicators.length);
    Case::of(&[]).held(&values).room(&indicators, outcome.as_deref().ok()).answers(Answer::of(&outcome))
}

/// A set of available signatures, and indicators that it allows; one in four sets then lacks a signature more, which may
/// have an indicator.
fn available_and_indicators(draw: &mut Draw) -> (u16, Vec<i32>) {
    let (half, more) = (draw.random.next() as u16, draw.random.next() as u16);
    let set = draw.random.pick(&[half, half | more, half | more, u16::MAX]);
    let indicators = (0..aich::SIGNATURES).map(|s| if set >> s & 1 == 1 { draw.in_range(1) as i32 } else { 0 });
    let indicators = indicators.collect();
    let lacking = if draw.random.below(4) == 0 { 1 << draw.random.below(aich::SIGNATURES) } else { 0 };
    (set & !lacking, indicators)
}

pub fn aich_map_available(draw: &mut Draw) -> Case {
    let (available, indicators) = available_and_indicators(draw);
    let indicators = draw.values(indicators);
    let (indicators, values) = (draw.lend(indicators), draw.room(aich::VALUES));
    let outcome = aich::map_available(available, &indicators.run, values.length);
    let case = Case::of(&[available.into()]).held(&indicators);
    case.room(&values, outcome.as_deref().ok()).answers(Answer::of(&outcome))
}

pub fn aich_read_available(draw: &mut Draw) -> Case {
    let (available, indicators) = available_and_indicators(draw);
    let sent = aich::map(&indicators, aich::VALUES).expect("good indicators");
    let sent = draw.values(sent);
    let (values, indicators) = (draw.lend(sent), draw.room(aich::SIGNATURES));
    let outcome = aich::read_available(available, &values.run, indicators.length);
    let case = Case::of(&[available.into()]).held(&values);
    case.room(&indicators, outcome.as_deref().ok()).answers(Answer::of(&outcome))
}

// Random access desk

/// The desk is a run of one number. Its number before the call is told beside it; a refused call leaves it.
pub fn desk_serve(draw: &mut Draw) -> Case {
    let bits = draw.random.next();
    let (heard, available) = (bits as u16, draw.random.pick(&[(bits >> 16) as u16, u16::MAX]));
    let (last, n) = (draw.random.below(aich::SIGNATURES), 1 + draw.random.below(aich::SIGNATURES));
    let (last, n) = (draw.number(last), draw.number(n));
    let (desk, values) = (draw.one(), draw.room(aich::VALUES));
    let outcome = desk::serve(last, heard, available, n, values.length);
    let after = outcome.as_ref().map_or(last, |(_, after)| *after) as i64;
    let written = outcome.as_ref().ok().map(|(values, _)| values.as_slice());
    let case = Case::of(&[last, heard.into(), available.into(), n]).room(&desk, Some(&[after]));
    case.room(&values, written).answers(Answer::of(&outcome))
}

fn distance(timing: usize, outcome: Result<usize, Refusal>) -> Case {
    Case::of(&[timing]).answers(Answer::telling(&outcome, |chips| *chips as u16))
}

pub fn desk_to_aich(draw: &mut Draw) -> Case {
    let good = draw.random.below(2);
    let timing = draw.number(good);
    distance(timing, desk::to_aich(timing))
}

pub fn desk_to_message(draw: &mut Draw) -> Case {
    let good = draw.random.below(2);
    let timing = draw.number(good);
    distance(timing, desk::to_message(timing))
}

pub fn aich_combine(draw: &mut Draw) -> Case {
    let silent = draw.random.below(12) == 0;
    let gains = [0; 4].map(|_| if silent { 0 } else { draw.whole(combiner::GAIN_LIMIT) });
    let parts = (0..aich::VALUES).map(|_| draw.in_range(combiner::RECEIVED_LIMIT.into()) as i32).collect();
    let parts = draw.values(parts);
    let (received, results) = (draw.lend(parts), draw.room(aich::SIGNATURES));
    let outcome = combiner::combine(gains, &received.run, results.length);
    Case::of_whole(&gains).held(&received).room(&results, outcome.as_deref().ok()).answers(Answer::of(&outcome))
}

// Samples

/// Two values and an antenna number.
fn values_and_antenna(draw: &mut Draw) -> ([i64; 2], usize) {
    let values = [draw.whole(VALUE_LIMIT), draw.whole(VALUE_LIMIT)];
    let good = draw.random.below(2);
    (values, draw.number(good))
}

pub fn sample_off(draw: &mut Draw) -> Case {
    let (values, antenna) = values_and_antenna(draw);
    let outcome = sample(values, Setting::Off, antenna);
    Case::of_whole(&values).numbers([antenna as u64].into_iter()).samples(outcome)
}

pub fn sample_shared(draw: &mut Draw) -> Case {
    let (values, antenna) = values_and_antenna(draw);
    let level = draw.level();
    let outcome = sample(values, Setting::Shared(level), antenna);
    Case::of_whole(&values).levels(&[level]).numbers([antenna as u64].into_iter()).samples(outcome)
}

pub fn sample_each(draw: &mut Draw) -> Case {
    let (values, antenna) = values_and_antenna(draw);
    let (first, second) = (draw.level(), draw.level());
    let outcome = sample(values, Setting::Each(first, second), antenna);
    Case::of_whole(&values).levels(&[first, second]).numbers([antenna as u64].into_iter()).samples(outcome)
}
