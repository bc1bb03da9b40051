//! PICH: the library's three calls against the rules.

use crate::answer::Answer;
use crate::ffi;
use crate::judge::Judge;
use crate::random::Random;
use crate::rules::pich::{self as rules, FRAME, TAIL};

const NPS: [usize; 4] = [18, 36, 72, 144];

/// Neighbours of the four, and numbers that look like one of them to a program that keeps too few bits.
const BAD_NPS: [usize; 22] = [
    0, 1, 2, 9, 17, 19, 35, 37, 71, 73, 143, 145, 288, 300, 256 + 18, 65536 + 36,
    (1 << 32) + 72, (1 << 48) + 144, 1 << 63, (1 << 63) + 18, usize::MAX - 17, usize::MAX,
];

/// Numbers far outside every range, some of which wrap round to a small one in a careless sum or product.
const HUGE: [usize; 10] = [
    1 << 16, (1 << 16) + 5, 1 << 32, (1 << 32) + 5, (1 << 63) - 1, 1 << 63, (1 << 63) + 5,
    usize::MAX - 143, usize::MAX - 17, usize::MAX,
];

/// What a digit is damaged to.
const DAMAGE: [u8; 5] = [0, 1, 2, 3, 255];

/// Every comparison of the channel.
pub fn all(judge: &mut Judge) {
    q_in_range(judge);
    q_faults(judge);
    for np in NPS {
        map_good(judge, np);
        map_damaged(judge, np);
        map_lengths(judge, np);
        read_single_damage(judge, np);
        read_any_byte(judge, np);
        read_double_damage(judge, np);
        read_random(judge, np);
        read_tails(judge, np);
        read_lengths(judge, np);
    }
    bad_np(judge);
    every_set_of_18(judge);
}

// One call each, compared.

fn q(judge: &mut Judge, np: usize, pi: usize, sfn: usize) {
    let expected = Answer::telling(&rules::q(np, pi, sfn), |q| *q);
    judge.compare("slt_pich_q", || format!("np {np}, pi {pi}, sfn {sfn}"), expected, ffi::pich_q(np, pi, sfn), []);
}

/// Compares one map and answers the frame, if the rules give one.
fn map(judge: &mut Judge, np: usize, indicators: Option<&[u8]>, room: Option<usize>) -> Option<Vec<u8>> {
    let expected = rules::map(np, indicators.unwrap_or(&[]), room.unwrap_or(0));
    let mut lent = judge.given("indicators", indicators);
    let mut frame = judge.room("frame", room, expected.as_deref().ok());
    let got = ffi::pich_map(np, &mut lent, &mut frame);
    judge.compare("slt_pich_map", || format!("np {np}"), Answer::of(&expected), got, [&lent, &frame]);
    expected.ok()
}

/// Compares one read and answers the indicators, if the rules give them.
fn read(judge: &mut Judge, np: usize, frame: Option<&[u8]>, room: Option<usize>) -> Option<Vec<u8>> {
    let expected = rules::read(np, frame.unwrap_or(&[]), room.unwrap_or(0));
    let mut lent = judge.given("frame", frame);
    let mut indicators = judge.room("indicators", room, expected.as_deref().ok());
    let got = ffi::pich_read(np, &mut lent, &mut indicators);
    judge.compare("slt_pich_read", || format!("np {np}"), Answer::of(&expected), got, [&lent, &indicators]);
    expected.ok()
}

/// Maps good indicators, reads the frame back, and sees that they come back.
fn round_trip(judge: &mut Judge, np: usize, indicators: &[u8]) {
    let frame = map(judge, np, Some(indicators), Some(FRAME)).expect("good indicators");
    let back = read(judge, np, Some(&frame), Some(np)).expect("a mapped frame");
    assert_eq!(back, indicators, "the rules themselves do not round trip");
}

// The inputs.

/// All zero, all one, alternating both ways, one in each of a few places, and random.
fn some_indicators(np: usize) -> Vec<Vec<u8>> {
    let mut random = Random::new(np as u64);
    let mut sets = vec![vec![0; np], vec![1; np]];
    sets.push((0..np).map(|q| (q % 2) as u8).collect());
    sets.push((0..np).map(|q| ((q + 1) % 2) as u8).collect());
    for only in [0, 1, np / 2, np - 1] {
        sets.push((0..np).map(|q| (q == only) as u8).collect());
    }
    for _ in 0..4 {
        sets.push(random.digits(np, 2));
    }
    sets
}

/// A good frame to start from: the rules' own.
fn good_frame(np: usize, indicators: &[u8]) -> Vec<u8> {
    rules::map(np, indicators, FRAME).expect("good indicators")
}

/// Lengths near and far, and those of another Np.
fn lengths(right: usize) -> Vec<Option<usize>> {
    let mut all = super::lengths(right);
    all.extend([18, 36, 72, 144, 288, 299, 300, 301].map(Some));
    all
}

// q

/// Every Np, PI and SFN in range, and the first of each beyond it.
fn q_in_range(judge: &mut Judge) {
    for np in NPS {
        for pi in 0..=np {
            for sfn in 0..=4096 {
                q(judge, np, pi, sfn);
            }
        }
    }
}

/// One, two and three faults at once, near and far, so that the order of the checks shows.
fn q_faults(judge: &mut Judge) {
    let small = [0, 1, 5, 17, 18, 35, 36, 71, 72, 143, 144, 145, 288, 4095, 4096, 4097, 8191, 65535];
    let numbers: Vec<usize> = small.into_iter().chain(HUGE).collect();
    for np in NPS.into_iter().chain(BAD_NPS) {
        for pi in &numbers {
            for sfn in &numbers {
                q(judge, np, *pi, *sfn);
            }
        }
    }
}

// Map

fn map_good(judge: &mut Judge, np: usize) {
    for indicators in some_indicators(np) {
        round_trip(judge, np, &indicators);
    }
    let mut random = Random::new(1000 + np as u64);
    for _ in 0..5000 {
        let indicators = random.digits(np, 2);
        round_trip(judge, np, &indicators);
    }
}

/// One bad indicator at each index, then two, then all bytes.
fn map_damaged(judge: &mut Judge, np: usize) {
    for indicators in some_indicators(np) {
        for index in 0..np {
            for to in DAMAGE {
                let mut damaged = indicators.clone();
                damaged[index] = to;
                map(judge, np, Some(&damaged), Some(FRAME));
            }
        }
    }
    let mut random = Random::new(2000 + np as u64);
    for _ in 0..5000 {
        let mut damaged = random.digits(np, 2);
        for _ in 0..2 {
            let index = random.below(np);
            damaged[index] = random.pick(&[2, 3, 127, 128, 254, 255]);
        }
        map(judge, np, Some(&damaged), Some(FRAME));
        let bytes = random.digits(np, 256);
        map(judge, np, Some(&bytes), Some(FRAME));
    }
}

/// Either run of a wrong length, both at once, and with bad indicators beside them.
fn map_lengths(judge: &mut Judge, np: usize) {
    for n_indicators in lengths(np) {
        for n_frame in lengths(FRAME) {
            for digit in [0, 1, 2, 255] {
                let run = n_indicators.map(|length| vec![digit; length]);
                map(judge, np, run.as_deref(), n_frame);
            }
        }
    }
}

// Read

/// Every digit of a few frames damaged to each value.
fn read_single_damage(judge: &mut Judge, np: usize) {
    for indicators in some_indicators(np) {
        let frame = good_frame(np, &indicators);
        for index in 0..FRAME {
            for to in DAMAGE {
                let mut damaged = frame.clone();
                damaged[index] = to;
                read(judge, np, Some(&damaged), Some(np));
            }
        }
    }
}

/// Every digit of one frame damaged to every byte there is.
fn read_any_byte(judge: &mut Judge, np: usize) {
    let indicators = Random::new(3000 + np as u64).digits(np, 2);
    let mut frame = good_frame(np, &indicators);
    for index in 0..FRAME {
        let good = frame[index];
        for to in 0..=255 {
            frame[index] = to;
            read(judge, np, Some(&frame), Some(np));
        }
        frame[index] = good;
    }
}

/// Two to four damages at once: 4 wins over 9 wherever they stand, and the lower place within each.
fn read_double_damage(judge: &mut Judge, np: usize) {
    let mut random = Random::new(4000 + np as u64);
    for round in 0..40_000 {
        let indicators = random.digits(np, 2);
        let mut frame = good_frame(np, &indicators);
        for _ in 0..2 + round % 3 {
            // Every fourth damage is aimed at the tail, which is small.
            let index = if random.below(4) == 0 { TAIL + random.below(12) } else { random.below(FRAME) };
            frame[index] = random.pick(&DAMAGE);
        }
        read(judge, np, Some(&frame), Some(np));
    }
}

/// Digits with no plan, bytes with no plan, and groups that are whole but may be DTX.
fn read_random(judge: &mut Judge, np: usize) {
    let mut random = Random::new(5000 + np as u64);
    let size = 288 / np;
    for _ in 0..5000 {
        let digits = random.digits(FRAME, 3);
        read(judge, np, Some(&digits), Some(np));
        let bytes = random.digits(FRAME, 256);
        read(judge, np, Some(&bytes), Some(np));
        let mut grouped = vec![2; FRAME];
        for q in 0..np {
            let digit = if random.below(2 * np) == 0 { 2 } else { random.below(2) as u8 };
            grouped[size * q..size * (q + 1)].fill(digit);
        }
        read(judge, np, Some(&grouped), Some(np));
    }
}

/// The twelve tail digits: every set over 0, 1 and DTX for Np 18, many for the others.
fn read_tails(judge: &mut Judge, np: usize) {
    let indicators = Random::new(6000 + np as u64).digits(np, 2);
    let mut frame = good_frame(np, &indicators);
    let sets = 3_usize.pow(12);
    let step = if np == 18 { 1 } else { 23 };
    for set in (0..sets).step_by(step) {
        let mut rest = set;
        for index in TAIL..FRAME {
            frame[index] = (rest % 3) as u8;
            rest /= 3;
        }
        read(judge, np, Some(&frame), Some(np));
    }
}

/// Either run of a wrong length, both at once, and with bad digits beside them.
fn read_lengths(judge: &mut Judge, np: usize) {
    for n_frame in lengths(FRAME) {
        for n_indicators in lengths(np) {
            for digit in [0, 1, 2, 255] {
                let run = n_frame.map(|length| vec![digit; length]);
                read(judge, np, run.as_deref(), n_indicators);
            }
        }
    }
    let frame = good_frame(np, &vec![1; np]);
    for n_indicators in lengths(np) {
        read(judge, np, Some(&frame), n_indicators);
    }
}

// Both

/// A bad Np wins over every other fault, and is refused with none beside it.
fn bad_np(judge: &mut Judge) {
    for np in BAD_NPS {
        for length in [None, Some(0), Some(1), Some(18), Some(36), Some(72), Some(144), Some(np.min(1000))] {
            for digit in [0, 1, 2, 255] {
                let run = length.map(|elements| vec![digit; elements]);
                map(judge, np, run.as_deref(), Some(FRAME));
                map(judge, np, run.as_deref(), Some(FRAME - 1));
                map(judge, np, run.as_deref(), None);
                read(judge, np, run.as_deref(), length);
            }
            for good in NPS {
                let frame = good_frame(good, &vec![1; good]);
                read(judge, np, Some(&frame), length);
            }
        }
    }
}

/// All 2^18 sets of indicators, there and back.
fn every_set_of_18(judge: &mut Judge) {
    for set in 0..1_u32 << 18 {
        let indicators: Vec<u8> = (0..18).map(|q| (set >> q & 1) as u8).collect();
        round_trip(judge, 18, &indicators);
    }
}
