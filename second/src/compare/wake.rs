//! Wake simulation: the library's two calls against the rules, and runs against steps.

use crate::answer::{Answer, Refusal};
use crate::ffi;
use crate::judge::Judge;
use crate::random::Random;
use crate::rules::pich::{self, FRAME, TAIL};
use crate::rules::wake::{self as rules, FULL, Tally};

const NPS: [usize; 4] = [18, 36, 72, 144];

/// Numbers that are no Np, some of which look like one to a program that keeps too few bits.
const NO_NPS: [usize; 8] = [0, 17, 73, 145, 256 + 18, (1 << 32) + 36, 1 << 63, usize::MAX];

/// Numbers that are no PI of any frame.
const NO_PIS: [usize; 5] = [144, 145, (1 << 32) + 3, 1 << 63, usize::MAX];

/// Numbers of 32 bits that are no SFN.
const NO_SFNS: [u32; 6] = [4096, 4097, 8191, 65536, 1 << 31, u32::MAX];

const FIRST: Tally = Tally { read: 0, woke: 0, next_sfn: 0 };

/// Every comparison of the simulation.
pub fn all(judge: &mut Judge) {
    for np in NPS {
        through_the_turn(judge, np);
        long_runs(judge, np);
        every_sfn(judge, np);
        faulty_frames(judge, np);
        full_counts(judge, np);
    }
    no_frames(judge);
    wrong_numbers(judge);
    wrong_lengths(judge);
    two_runs(judge);
}

// One call each, compared.

/// Compares one run, and answers the tally that it leaves and what it answers.
fn run(judge: &mut Judge, np: usize, pi: usize, frames: Option<&[u8]>, first: Tally) -> (Result<(), Refusal>, Tally) {
    let (expected, after) = rules::run(np, pi, frames.unwrap_or(&[]), first);
    let mut lent = judge.given("frames", frames);
    let due = [[after.read], [after.woke], [after.next_sfn]];
    let mut read = judge.changed("read", Some(&[first.read]), Some(&due[0]));
    let mut woke = judge.changed("woke", Some(&[first.woke]), Some(&due[1]));
    let mut next = judge.changed("next SFN", Some(&[first.next_sfn]), Some(&due[2]));
    let got = ffi::wake_run(np, pi, &mut lent, [&mut read, &mut woke, &mut next]);
    let numbers = || format!("np {np}, pi {pi}");
    judge.compare("slt_wake_run", numbers, Answer::of(&expected), got, [&lent, &read, &woke, &next]);
    (expected, after)
}

/// Compares one step, and answers the tally after it, or the refusal.
fn step(judge: &mut Judge, np: usize, pi: usize, frame: Option<&[u8]>, tally: Tally) -> Result<Tally, Refusal> {
    let expected = rules::step(np, pi, frame.unwrap_or(&[]), tally);
    let [before, after] = [tally, expected.unwrap_or(tally)].map(|tally| [tally.read, tally.woke, tally.next_sfn]);
    let mut lent = judge.given("frame", frame);
    let mut tally = judge.changed("tally", Some(&before), Some(&after));
    let got = ffi::wake_step(&mut tally, np, pi, &mut lent);
    judge.compare("slt_wake_step", || format!("np {np}, pi {pi}"), Answer::of(&expected), got, [&lent, &tally]);
    expected
}

/// A run, and a step for each of its frames up to the first refusal: the tally and the refusal are the same.
fn both(judge: &mut Judge, np: usize, pi: usize, frames: &[u8], first: Tally) {
    let over_all = run(judge, np, pi, Some(frames), first);
    let mut tally = first;
    let mut refused = Ok(());
    for frame in frames.chunks(FRAME) {
        match step(judge, np, pi, Some(frame), tally) {
            Ok(after) => tally = after,
            Err(refusal) => {
                refused = Err(refusal);
                break;
            }
        }
    }
    assert_eq!((refused, tally), over_all, "the rules themselves differ between a run and its steps");
}

// The inputs.

/// Recorded frames: good ones, each with indicators of its own.
fn recorded(random: &mut Random, np: usize, frames: usize) -> Vec<u8> {
    let mut all = Vec::with_capacity(FRAME * frames);
    for _ in 0..frames {
        all.extend(pich::map(np, &random.digits(np, 2), FRAME).expect("good indicators"));
    }
    all
}

/// What is wrong with a frame: a byte that is no digit, DTX in a group, a group's digit unlike its first, a tail digit.
fn spoilt(random: &mut Random, np: usize, kind: usize, frame: &mut [u8]) {
    let index = random.below(TAIL);
    match kind {
        0 => frame[random.below(FRAME)] = random.pick(&[3, 4, 127, 255]),
        1 => frame[index] = 2,
        2 => frame[index] = 1 - frame[index],
        3 => frame[TAIL + random.below(FRAME - TAIL)] = random.below(2) as u8,
        _ => {
            // the last digit of all groups at once
            let size = 288 / np;
            frame[size * random.below(np) + size - 1] = 2;
        }
    }
}

const KINDS: usize = 5;

/// SFN 4090 to 4095 and on through 0: short runs that start before the turn.
fn through_the_turn(judge: &mut Judge, np: usize) {
    let mut random = Random::new(7000 + np as u64);
    for next_sfn in (4090..4096).chain(0..4) {
        for frames in [1, 2, 5, 6, 7, 12] {
            for pi in [0, 1, np / 2, np - 1] {
                let frames = recorded(&mut random, np, frames);
                both(judge, np, pi, &frames, Tally { next_sfn, ..FIRST });
            }
        }
    }
}

/// Runs of up to 5000 frames, which turn more than once round.
fn long_runs(judge: &mut Judge, np: usize) {
    let mut random = Random::new(7100 + np as u64);
    let all = recorded(&mut random, np, 5000);
    for frames in [0, 1, 2, 3, 17, 255, 256, 1000, 4095, 4096, 4097, 5000] {
        let (pi, next_sfn) = (random.below(np), random.below(4096) as u32);
        let first = Tally { read: random.next() as u32 / 2, woke: random.next() as u32 / 2, next_sfn };
        both(judge, np, pi, &all[..FRAME * frames], first);
    }
    let (_, after) = run(judge, np, 3, Some(&all[..FRAME * 4096]), Tally { next_sfn: 77, ..FIRST });
    assert_eq!(after.next_sfn, 77, "the rules themselves do not come back after 4096 frames");
}

/// One step at every SFN, with each indicator by itself set: the handset wakes at its own q alone.
fn every_sfn(judge: &mut Judge, np: usize) {
    let mut random = Random::new(7200 + np as u64);
    for sfn in 0..4096 {
        let pi = random.below(np);
        let q = usize::from(pich::q(np, pi, sfn).expect("numbers in range"));
        for set in [q, (q + 1) % np, random.below(np)] {
            let indicators: Vec<u8> = (0..np).map(|one| u8::from(one == set)).collect();
            let frame = pich::map(np, &indicators, FRAME).expect("good indicators");
            let tally = Tally { next_sfn: sfn as u32, ..FIRST };
            let after = step(judge, np, pi, Some(&frame), tally).expect("a good frame");
            assert_eq!(after.woke, u32::from(set == q), "the rules themselves wake at another indicator");
        }
    }
}

/// A fault of each kind in the first, a middle and the last frame of a run, alone and with another behind it.
fn faulty_frames(judge: &mut Judge, np: usize) {
    let mut random = Random::new(7300 + np as u64);
    for round in 0..400 {
        let frames = random.pick(&[1, 2, 3, 9, 20]);
        let mut all = recorded(&mut random, np, frames);
        let place = [0, frames / 2, frames - 1][round % 3];
        spoilt(&mut random, np, round % KINDS, &mut all[FRAME * place..FRAME * (place + 1)]);
        if round % 4 == 0 {
            let kind = random.below(KINDS);
            spoilt(&mut random, np, kind, &mut all[FRAME * (frames - 1)..]);
        }
        let (pi, next_sfn) = (random.below(np), 4090 + random.below(6) as u32);
        both(judge, np, pi, &all, Tally { read: 5, woke: 3, next_sfn });
    }
}

/// Either count at its end, one short of it and some short of it, alone and with a faulty frame: 32 comes first.
fn full_counts(judge: &mut Judge, np: usize) {
    let mut random = Random::new(7400 + np as u64);
    for short in 0..4 {
        for (read, woke) in [(FULL - short, 0), (0, FULL - short), (FULL - short, FULL - short), (FULL - short, FULL)] {
            for round in 0..8 {
                let mut all = recorded(&mut random, np, 6);
                if round % 2 == 0 {
                    let (place, kind) = (random.below(6), random.below(KINDS));
                    spoilt(&mut random, np, kind, &mut all[FRAME * place..FRAME * (place + 1)]);
                }
                let (pi, next_sfn) = (random.below(np), 4093);
                both(judge, np, pi, &all, Tally { read, woke, next_sfn });
            }
        }
    }
}

/// No frames are done, whatever the numbers are; a step is refused.
fn no_frames(judge: &mut Judge) {
    for np in NPS.into_iter().chain(NO_NPS) {
        for pi in [0, 17].into_iter().chain(NO_PIS) {
            for next_sfn in [0, 4095].into_iter().chain(NO_SFNS) {
                for (read, woke) in [(0, 0), (FULL, 0), (0, FULL), (FULL, FULL)] {
                    let tally = Tally { read, woke, next_sfn };
                    for none in [None, Some(&[][..])] {
                        run(judge, np, pi, none, tally).0.expect("no frames");
                        step(judge, np, pi, none, tally).expect_err("no frame");
                    }
                }
            }
        }
    }
}

/// One, two and three wrong numbers at once with one good frame and with a faulty one, so that the order of the checks shows.
fn wrong_numbers(judge: &mut Judge) {
    let mut random = Random::new(7500);
    for good in NPS {
        let fine = recorded(&mut random, good, 2);
        let mut faulty = fine.clone();
        faulty[7] = 9;
        for frames in [&fine, &faulty] {
            for np in NPS.into_iter().chain(NO_NPS) {
                for pi in [0, good - 1, good].into_iter().chain(NO_PIS) {
                    for next_sfn in [0, 4095].into_iter().chain(NO_SFNS) {
                        for read in [0, FULL] {
                            both(judge, np, pi, frames, Tally { read, woke: 0, next_sfn });
                        }
                    }
                }
            }
        }
    }
}

/// Lengths that are no multiple of 300 win over every other fault; a step takes one frame and no more.
fn wrong_lengths(judge: &mut Judge) {
    let mut random = Random::new(7600);
    let all = recorded(&mut random, 36, 4);
    for length in [1, 2, 12, 288, 299, 300, 301, 599, 600, 601, 900, 1199] {
        for (np, pi, next_sfn) in [(36, 3, 4095), (37, 3, 0), (36, 36, 0), (36, 3, 4096)] {
            for read in [0, FULL] {
                let tally = Tally { read, woke: 0, next_sfn };
                let _ = run(judge, np, pi, Some(&all[..length]), tally);
                let _ = step(judge, np, pi, Some(&all[..length]), tally);
            }
        }
    }
}

/// A run over two lists is the run over one and then over the other, where the first is not refused.
fn two_runs(judge: &mut Judge) {
    let mut random = Random::new(7700);
    for round in 0..300 {
        let np = random.pick(&NPS);
        let (first, second) = (random.below(6), random.below(6));
        let mut all = recorded(&mut random, np, first + second);
        if round % 3 == 0 && first + second > 0 {
            let (place, kind) = (random.below(first + second), random.below(KINDS));
            spoilt(&mut random, np, kind, &mut all[FRAME * place..FRAME * (place + 1)]);
        }
        let (pi, next_sfn) = (random.below(np), random.below(4096) as u32);
        let tally = Tally { read: 1, woke: 1, next_sfn };
        let over_all = run(judge, np, pi, Some(&all), tally);
        let (refused, middle) = run(judge, np, pi, Some(&all[..FRAME * first]), tally);
        let in_two = match refused {
            Ok(()) => run(judge, np, pi, Some(&all[FRAME * first..]), middle),
            Err(refusal) => (Err(refusal), middle),
        };
        assert_eq!(in_two, over_all, "the rules themselves differ between one run and two");
    }
}
