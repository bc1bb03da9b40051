//! P-CCPCH: the library's two calls against the rules.

use super::lengths;
use crate::answer::Answer;
use crate::ffi;
use crate::judge::Judge;
use crate::lent::Judged;
use crate::random::Random;
use crate::rules::pccpch::{self as rules, DATA, FRAME, stands_at};

/// What a digit is damaged to.
const DAMAGE: [u8; 5] = [0, 1, 2, 3, 255];

/// Every comparison of the channel.
pub fn all(judge: &mut Judge) {
    there_and_back(judge);
    map_damaged(judge);
    map_lengths(judge);
    read_single_damage(judge);
    read_double_damage(judge);
    read_last_digits(judge);
    read_blocks(judge);
    read_gaps(judge);
    read_random(judge);
    read_lengths(judge);
}

// One call each, compared.

/// Compares one map and answers both frames, if the rules give them.
fn map(judge: &mut Judge, data: Option<&[u8]>, room1: Option<usize>, room2: Option<usize>) -> Option<[Vec<u8>; 2]> {
    let expected = rules::map(data.unwrap_or(&[]), room1.unwrap_or(0), room2.unwrap_or(0));
    let [first, second] = [0, 1].map(|antenna| expected.as_ref().ok().map(|both| &both[antenna][..]));
    let mut lent = judge.given("data", data);
    let mut antenna1 = judge.room("antenna 1", room1, first);
    let mut antenna2 = judge.room("antenna 2", room2, second);
    let got = ffi::pccpch_map(&mut lent, &mut antenna1, &mut antenna2);
    let runs: [&dyn Judged; 3] = [&lent, &antenna1, &antenna2];
    judge.compare("slt_pccpch_map", String::new, Answer::of(&expected), got, runs);
    expected.ok()
}

/// Compares one read and answers the data, if the rules give them.
fn read(judge: &mut Judge, antennas: [Option<&[u8]>; 2], room: Option<usize>) -> Option<Vec<u8>> {
    let [antenna1, antenna2] = antennas;
    let expected = rules::read(antenna1.unwrap_or(&[]), antenna2.unwrap_or(&[]), room.unwrap_or(0));
    let mut lent1 = judge.given("antenna 1", antenna1);
    let mut lent2 = judge.given("antenna 2", antenna2);
    let mut data = judge.room("data", room, expected.as_deref().ok());
    let got = ffi::pccpch_read(&mut lent1, &mut lent2, &mut data);
    judge.compare("slt_pccpch_read", String::new, Answer::of(&expected), got, [&lent1, &lent2, &data]);
    expected.ok()
}

/// A read of two whole frames with room for the data.
fn read_both(judge: &mut Judge, frames: &[Vec<u8>; 2]) -> Option<Vec<u8>> {
    read(judge, [Some(&frames[0]), Some(&frames[1])], Some(DATA))
}

// The inputs.

/// All zero, all one, alternating in ones, twos and fours, and random.
fn some_data() -> Vec<Vec<u8>> {
    let mut random = Random::new(1);
    let mut sets = vec![vec![0; DATA], vec![1; DATA]];
    for run in [1, 2, 4, 18] {
        sets.push((0..DATA).map(|d| (d / run % 2) as u8).collect());
    }
    for _ in 0..4 {
        sets.push(random.digits(DATA, 2));
    }
    sets
}

/// Good frames to start from: the rules' own.
fn good_frames(data: &[u8]) -> [Vec<u8>; 2] {
    rules::map(data, FRAME, FRAME).expect("good data")
}

// Map

/// A few sets of data, each single one, and random ones; what was mapped is read and must come back.
fn there_and_back(judge: &mut Judge) {
    let mut random = Random::new(2);
    let mut sets = some_data();
    for d in 0..DATA {
        sets.push((0..DATA).map(|other| (other == d) as u8).collect());
    }
    for _ in 0..20_000 {
        sets.push(random.digits(DATA, 2));
    }
    for data in sets {
        let frames = map(judge, Some(&data), Some(FRAME), Some(FRAME)).expect("good data");
        let back = read_both(judge, &frames).expect("mapped frames");
        assert_eq!(back, data, "the rules themselves do not round trip");
    }
}

/// A digit that is neither 0 nor 1 at each index, two of them, and bytes with no plan.
fn map_damaged(judge: &mut Judge) {
    let mut random = Random::new(3);
    for index in 0..DATA {
        for to in [2, 3, 127, 128, 254, 255] {
            let mut data = random.digits(DATA, 2);
            data[index] = to;
            map(judge, Some(&data), Some(FRAME), Some(FRAME));
            data[random.below(DATA)] = random.pick(&[2, 3, 255]);
            map(judge, Some(&data), Some(FRAME), Some(FRAME));
        }
        let bytes = random.digits(DATA, 256);
        map(judge, Some(&bytes), Some(FRAME), Some(FRAME));
    }
}

/// Each run of a wrong length, two and three at once, with good and bad digits.
fn map_lengths(judge: &mut Judge) {
    for n_data in lengths(DATA) {
        for room1 in lengths(FRAME) {
            for room2 in lengths(FRAME) {
                for digit in [0, 2] {
                    let data = n_data.map(|length| vec![digit; length]);
                    map(judge, data.as_deref(), room1, room2);
                }
            }
        }
    }
}

// Read

/// Every digit of both antennas of a few frames damaged to each value.
fn read_single_damage(judge: &mut Judge) {
    for data in some_data() {
        let good = good_frames(&data);
        for antenna in 0..2 {
            for index in 0..FRAME {
                for to in DAMAGE {
                    let mut frames = good.clone();
                    frames[antenna][index] = to;
                    read_both(judge, &frames);
                }
            }
        }
    }
}

/// Two to four damages at once on either antenna: 4 wins over 9, antenna 1 over antenna 2, then the lower place.
fn read_double_damage(judge: &mut Judge) {
    let mut random = Random::new(4);
    for round in 0..200_000 {
        let mut frames = good_frames(&random.digits(DATA, 2));
        let values = random.pick(&[&DAMAGE[..2], &DAMAGE[..3], &DAMAGE[..]]);
        for _ in 0..2 + round % 3 {
            let antenna = random.below(2);
            let index = random.below(FRAME);
            frames[antenna][index] = random.pick(values);
        }
        read_both(judge, &frames);
    }
}

/// Digits 268 and 269 on both antennas, in all combinations of 0, 1, DTX, 3 and 255.
fn read_last_digits(judge: &mut Judge) {
    for data in some_data() {
        let mut frames = good_frames(&data);
        for set in 0..5_usize.pow(4) {
            for place in 0..4 {
                let to = DAMAGE[set / 5_usize.pow(place as u32) % 5];
                frames[place / 2][stands_at(268 + place % 2)] = to;
            }
            read_both(judge, &frames);
        }
    }
}

/// Every block of four on antenna 1 with every block of four on antenna 2, over 0 and 1, for each of the 67 blocks:
/// exactly one of the sixteen belongs to each.
fn read_blocks(judge: &mut Judge) {
    let data = Random::new(5).digits(DATA, 2);
    for block in 0..67 {
        let mut frames = good_frames(&data);
        for set in 0..1 << 8 {
            for place in 0..8 {
                frames[place / 4][stands_at(4 * block + place % 4)] = (set >> place & 1) as u8;
            }
            read_both(judge, &frames);
        }
    }
}

/// The first two digits of each slot, on both antennas, in all combinations of 0, 1 and DTX.
fn read_gaps(judge: &mut Judge) {
    let data = Random::new(6).digits(DATA, 2);
    for slot in 0..15 {
        let mut frames = good_frames(&data);
        for set in 0..3_usize.pow(4) {
            for place in 0..4 {
                frames[place / 2][20 * slot + place % 2] = (set / 3_usize.pow(place as u32) % 3) as u8;
            }
            read_both(judge, &frames);
        }
    }
}

/// Digits with no plan, bytes with no plan, antennas that carry different data, and antennas exchanged.
fn read_random(judge: &mut Judge) {
    let mut random = Random::new(7);
    for _ in 0..5000 {
        for limit in [2, 3, 256] {
            let frames = [random.digits(FRAME, limit), random.digits(FRAME, limit)];
            read_both(judge, &frames);
        }
        let [antenna1, antenna2] = good_frames(&random.digits(DATA, 2));
        let [_, unlike] = good_frames(&random.digits(DATA, 2));
        read_both(judge, &[antenna1.clone(), unlike]);
        read_both(judge, &[antenna1.clone(), antenna1.clone()]);
        read_both(judge, &[antenna2, antenna1]);
    }
}

/// Each run of a wrong length, two and three at once, with good and bad digits.
fn read_lengths(judge: &mut Judge) {
    for n1 in lengths(FRAME) {
        for n2 in lengths(FRAME) {
            for room in lengths(DATA) {
                for digit in [2, 255] {
                    let antenna1 = n1.map(|length| vec![digit; length]);
                    let antenna2 = n2.map(|length| vec![digit; length]);
                    read(judge, [antenna1.as_deref(), antenna2.as_deref()], room);
                }
            }
        }
    }
    let frames = good_frames(&[1; DATA]);
    for room in lengths(DATA) {
        read(judge, [Some(&frames[0]), Some(&frames[1])], room);
    }
}
