//! HS-PDSCH: the library's two calls against the rules.

use super::lengths;
use crate::answer::Answer;
use crate::ffi;
use crate::judge::Judge;
use crate::lent::Judged;
use crate::random::Random;
use crate::rules::hspdsch::{self as rules, FORMATS, coded, per_symbol, size, symbol};

/// What a digit is damaged to.
const DAMAGE: [u8; 5] = [0, 1, 2, 3, 255];

/// The first bad formats, formats of other channels, and numbers that look like a good one to a program that keeps too few bits.
const BAD_FORMATS: [usize; 12] =
    [2, 3, 4, 7, 16, 255, 256, 257, 65537, (1 << 32) + 1, (1 << 63) + 1, usize::MAX];

/// Every comparison of the channel.
pub fn all(judge: &mut Judge) {
    for format in 0..FORMATS {
        every_block(judge, format);
        there_and_back(judge, format);
        map_damaged(judge, format);
        map_lengths(judge, format);
        block_damage(judge, format);
        double_damage(judge, format);
        read_random(judge, format);
        read_lengths(judge, format);
        other_format(judge, format);
    }
    bad_formats(judge);
}

// One call each, compared.

/// Compares one map and answers both subframes, if the rules give them.
fn map(
    judge: &mut Judge, format: usize, data: Option<&[u8]>, room1: Option<usize>, room2: Option<usize>,
) -> Option<[Vec<u8>; 2]> {
    let expected = rules::map(format, data.unwrap_or(&[]), room1.unwrap_or(0), room2.unwrap_or(0));
    let [first, second] = [0, 1].map(|antenna| expected.as_ref().ok().map(|both| &both[antenna][..]));
    let mut lent = judge.given("data", data);
    let mut antenna1 = judge.room("antenna 1", room1, first);
    let mut antenna2 = judge.room("antenna 2", room2, second);
    let got = ffi::hspdsch_map(format, &mut lent, &mut antenna1, &mut antenna2);
    let runs: [&dyn Judged; 3] = [&lent, &antenna1, &antenna2];
    judge.compare("slt_hspdsch_map", || format!("format {format}"), Answer::of(&expected), got, runs);
    expected.ok()
}

/// Compares one read and answers the data, if the rules give them.
fn read(judge: &mut Judge, format: usize, antennas: [Option<&[u8]>; 2], room: Option<usize>) -> Option<Vec<u8>> {
    let [antenna1, antenna2] = antennas;
    let expected = rules::read(format, antenna1.unwrap_or(&[]), antenna2.unwrap_or(&[]), room.unwrap_or(0));
    let mut lent1 = judge.given("antenna 1", antenna1);
    let mut lent2 = judge.given("antenna 2", antenna2);
    let mut data = judge.room("data", room, expected.as_deref().ok());
    let got = ffi::hspdsch_read(format, &mut lent1, &mut lent2, &mut data);
    judge.compare("slt_hspdsch_read", || format!("format {format}"), Answer::of(&expected), got, [&lent1, &lent2, &data]);
    expected.ok()
}

/// A read of two whole subframes with room for the data.
fn read_both(judge: &mut Judge, format: usize, subframes: &[Vec<u8>; 2]) -> Option<Vec<u8>> {
    read(judge, format, [Some(&subframes[0]), Some(&subframes[1])], Some(size(format)))
}

/// Good subframes to start from: the rules' own.
fn good(format: usize, data: &[u8]) -> [Vec<u8>; 2] {
    rules::map(format, data, data.len(), data.len()).expect("good data")
}

// Map

/// Every block, 16 of four and 256 of eight, at every place of a block in a subframe: 240 blocks stand in one. What the
/// library sends on antenna 2 is taken for symbols, and they are -conj(S2), conj(S1).
fn every_block(judge: &mut Judge, format: usize) {
    let count = per_symbol(format);
    let width = 2 * count;
    let blocks: Vec<Vec<u8>> =
        (0..1_usize << width).map(|set| (0..width).map(|place| (set >> place & 1) as u8).collect()).collect();
    for from in 0..blocks.len() {
        let data: Vec<u8> = blocks.iter().cycle().skip(from).take(size(format) / width).flatten().copied().collect();
        let room = Some(data.len());
        let [antenna1, antenna2] = map(judge, format, Some(&data), room, room).expect("good data");
        for (sent, other) in antenna1.chunks(width).zip(antenna2.chunks(width)) {
            let (s1, s2) = (symbol(&sent[..count]), symbol(&sent[count..]));
            let (first, second) = (symbol(&other[..count]), symbol(&other[count..]));
            assert_eq!([first.re, first.im, second.re, second.im], [-s2.re, s2.im, s1.re, -s1.im], "{sent:?}");
            assert_eq!(coded(sent), other);
        }
        read_both(judge, format, &[antenna1, antenna2]).expect("mapped subframes");
    }
}

/// All zero, all one, each single one, and random ones; what was mapped is read and must come back.
fn there_and_back(judge: &mut Judge, format: usize) {
    let mut random = Random::new(21);
    let n = size(format);
    let mut sets = vec![vec![0; n], vec![1; n]];
    for index in 0..n {
        sets.push((0..n).map(|other| (other == index) as u8).collect());
    }
    for _ in 0..2000 {
        sets.push(random.digits(n, 2));
    }
    for data in sets {
        let subframes = map(judge, format, Some(&data), Some(n), Some(n)).expect("good data");
        let back = read_both(judge, format, &subframes).expect("mapped subframes");
        assert_eq!(back, data, "the rules themselves do not round trip");
    }
}

/// A digit that is neither 0 nor 1 at each index, two of them, and bytes with no plan.
fn map_damaged(judge: &mut Judge, format: usize) {
    let mut random = Random::new(22);
    let n = size(format);
    for index in 0..n {
        let mut data = random.digits(n, 2);
        data[index] = random.pick(&[2, 3, 127, 128, 254, 255]);
        map(judge, format, Some(&data), Some(n), Some(n));
        data[random.below(n)] = random.pick(&[2, 3, 255]);
        map(judge, format, Some(&data), Some(n), Some(n));
    }
    for _ in 0..100 {
        let bytes = random.digits(n, 256);
        map(judge, format, Some(&bytes), Some(n), Some(n));
    }
}

/// Each run of a wrong length, two and three at once, with good and bad digits.
fn map_lengths(judge: &mut Judge, format: usize) {
    for n_data in lengths(size(format)) {
        for room1 in lengths(size(format)) {
            for room2 in lengths(size(format)) {
                for digit in [0, 2] {
                    let data = n_data.map(|length| vec![digit; length]);
                    map(judge, format, data.as_deref(), room1, room2);
                }
            }
        }
    }
}

// Read

/// Every digit of the first, a middle and the last block, on each antenna, damaged to each value; and every other digit
/// changed once.
fn block_damage(judge: &mut Judge, format: usize) {
    let mut random = Random::new(23);
    let width = 2 * per_symbol(format);
    for block in [0, 120, 239] {
        for index in width * block..width * (block + 1) {
            for antenna in 0..2 {
                for to in DAMAGE {
                    let mut subframes = good(format, &random.digits(size(format), 2));
                    subframes[antenna][index] = to;
                    read_both(judge, format, &subframes);
                }
            }
        }
    }
    for index in 0..size(format) {
        for antenna in 0..2 {
            let mut subframes = good(format, &random.digits(size(format), 2));
            subframes[antenna][index] ^= 1;
            read_both(judge, format, &subframes);
        }
    }
}

/// Two to four damages at once on either antenna: 4 wins over 9, antenna 1 over antenna 2, then the lower place.
fn double_damage(judge: &mut Judge, format: usize) {
    let mut random = Random::new(24);
    for round in 0..4000 {
        let mut subframes = good(format, &random.digits(size(format), 2));
        let values = random.pick(&[&DAMAGE[..2], &DAMAGE[..3], &DAMAGE[..]]);
        for _ in 0..2 + round % 3 {
            let antenna = random.below(2);
            let index = random.below(size(format));
            subframes[antenna][index] = random.pick(values);
        }
        read_both(judge, format, &subframes);
    }
}

/// Digits with no plan, bytes with no plan, antennas that carry different data, and antennas exchanged.
fn read_random(judge: &mut Judge, format: usize) {
    let mut random = Random::new(25);
    let n = size(format);
    for _ in 0..300 {
        for limit in [2, 3, 256] {
            let subframes = [random.digits(n, limit), random.digits(n, limit)];
            read_both(judge, format, &subframes);
        }
        let [antenna1, antenna2] = good(format, &random.digits(n, 2));
        let [_, unlike] = good(format, &random.digits(n, 2));
        read_both(judge, format, &[antenna1.clone(), unlike]);
        read_both(judge, format, &[antenna1.clone(), antenna1.clone()]);
        read_both(judge, format, &[antenna2, antenna1]);
    }
}

/// Each run of a wrong length, two and three at once, with good and bad digits.
fn read_lengths(judge: &mut Judge, format: usize) {
    for n1 in lengths(size(format)) {
        for n2 in lengths(size(format)) {
            for room in lengths(size(format)) {
                for digit in [1, 2] {
                    let antenna1 = n1.map(|length| vec![digit; length]);
                    let antenna2 = n2.map(|length| vec![digit; length]);
                    read(judge, format, [antenna1.as_deref(), antenna2.as_deref()], room);
                }
            }
        }
    }
}

/// A good subframe of one format under the number of the other, and format 1 encoded in fours.
fn other_format(judge: &mut Judge, format: usize) {
    let mut random = Random::new(26);
    for _ in 0..100 {
        let data = random.digits(size(format), 2);
        let subframes = good(format, &data);
        read_both(judge, 1 - format, &subframes);
        let n = data.len();
        read(judge, format, [Some(&data), Some(&rules::second(1 - format, &data))], Some(n));
        map(judge, 1 - format, Some(&data), Some(n), Some(n));
    }
}

/// A format that there is not, with runs of each format's length and of none.
fn bad_formats(judge: &mut Judge) {
    for format in BAD_FORMATS {
        for n in [0, size(0), size(1)] {
            for digit in [0, 2] {
                let run = vec![digit; n];
                map(judge, format, Some(&run), Some(n), Some(n));
                read(judge, format, [Some(&run), Some(&run)], Some(n));
            }
        }
        map(judge, format, None, None, None);
        read(judge, format, [None, None], None);
    }
}
