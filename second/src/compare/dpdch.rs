//! The uplink DPDCH: the library's four calls against the rules.

use super::dpch::{DAMAGE, change_length, digits_of, other_length};
use super::lengths;
use crate::answer::Answer;
use crate::ffi;
use crate::judge::Judge;
use crate::random::Random;
use crate::rules::dpdch as rules;

/// Formats 0 to 6.
const FORMATS: usize = 7;

/// A frame is so many slots.
const SLOTS: usize = 15;

/// The first bad formats, formats of other channels, and numbers that look like a good one to a program that keeps too few bits.
const BAD_FORMATS: [usize; 16] = [
    7, 8, 9, 15, 16, 17, 63, 64, 255, 256, 256 + 3, 65536 + 6, 1 << 32, (1 << 32) + 6, (1 << 63) + 2, usize::MAX,
];

/// A call: its name, the library's function, and of how many slots it is.
struct Call {
    name: &'static str,
    library: ffi::Carry,
    slots: usize,
}

const CALLS: [Call; 4] = [
    Call { name: "slt_dpdch_map", library: ffi::dpdch_map, slots: 1 },
    Call { name: "slt_dpdch_read", library: ffi::dpdch_read, slots: 1 },
    Call { name: "slt_dpdch_frame_map", library: ffi::dpdch_frame_map, slots: SLOTS },
    Call { name: "slt_dpdch_frame_read", library: ffi::dpdch_frame_read, slots: SLOTS },
];

/// Every comparison of the channel.
pub fn all(judge: &mut Judge) {
    for pair in CALLS.chunks(2) {
        (0..FORMATS).for_each(|number| there_and_back(judge, &pair[0], &pair[1], number));
    }
    for call in &CALLS {
        bad_formats(judge, call);
        every_string(judge, call);
        for number in 0..FORMATS {
            damaged(judge, call, number);
            two_damages(judge, call, number);
            fault_sets(judge, call, number);
            wrong_lengths(judge, call, number);
            other_formats(judge, call, number);
        }
    }
}

// One call, compared.

/// What one call is given.
#[derive(Clone)]
struct Given {
    number: usize,
    run: Option<Vec<u8>>,
    room: Option<usize>,
}

impl Call {
    /// Compares the call and answers what is written, if the rules give it.
    fn compare(&self, judge: &mut Judge, given: &Given) -> Option<Vec<u8>> {
        let run = given.run.as_deref();
        let expected = rules::carry(given.number, self.slots, run.unwrap_or(&[]), given.room.unwrap_or(0));
        let mut lent = judge.given("given", run);
        let mut room = judge.room("to be written", given.room, expected.as_deref().ok());
        let got = (self.library)(given.number, &mut lent, &mut room);
        judge.compare(self.name, || format!("format {}", given.number), Answer::of(&expected), got, [&lent, &room]);
        expected.ok()
    }

    /// The digits of a run, by a format that exists.
    fn length(&self, number: usize) -> usize {
        self.slots * rules::slot_length(number).expect("formats 0 to 6")
    }

    /// A call that is done.
    fn good(&self, random: &mut Random, number: usize) -> Given {
        let length = self.length(number);
        Given { number, run: Some(random.digits(length, 2)), room: Some(length) }
    }
}

// The inputs.

/// All zero, all one, alternating in ones and twos, each single one of a slot, and random: mapped, and what was mapped read.
fn there_and_back(judge: &mut Judge, map: &Call, read: &Call, number: usize) {
    let mut random = Random::new(number as u64);
    let length = map.length(number);
    let mut sets = vec![vec![0; length], vec![1; length]];
    for run in [1, 2, length / 2] {
        sets.push((0..length).map(|index| (index / run % 2) as u8).collect());
    }
    for one in (0..length).step_by(map.slots) {
        sets.push((0..length).map(|index| (index == one) as u8).collect());
    }
    for _ in 0..100 {
        sets.push(random.digits(length, 2));
    }
    for data in sets {
        let given = Given { number, run: Some(data.clone()), room: Some(length) };
        let mapped = map.compare(judge, &given).expect("good data");
        let back = read.compare(judge, &Given { run: Some(mapped), ..given }).expect("a mapped slot or frame");
        assert_eq!(back, data, "the rules themselves do not round trip");
    }
}

/// Format 0: every string of ten over 0, 1 and 2, as a slot, and as one of the slots of a frame.
fn every_string(judge: &mut Judge, call: &Call) {
    let mut random = Random::new(20);
    let step = if call.slots == 1 { 1 } else { 7 };
    for set in (0..3_usize.pow(10)).step_by(step) {
        let mut given = call.good(&mut random, 0);
        let from = 10 * (set % call.slots);
        given.run.as_mut().unwrap()[from..from + 10].copy_from_slice(&digits_of(set, 3, 10));
        let taken = call.compare(judge, &given).is_some();
        assert_eq!(taken, !digits_of(set, 3, 10).contains(&2), "the rules themselves take DTX");
    }
}

/// Each digit of a slot, and the first and the last digits of each slot of a frame, damaged to each value.
fn damaged(judge: &mut Judge, call: &Call, number: usize) {
    let mut random = Random::new(40 + number as u64);
    let slot = call.length(number) / call.slots;
    for index in 0..call.length(number) {
        let within = index % slot;
        if call.slots == 1 || within < 2 || within + 2 >= slot {
            for to in DAMAGE {
                let mut given = call.good(&mut random, number);
                given.run.as_mut().unwrap()[index] = to;
                call.compare(judge, &given);
            }
        }
    }
}

/// Two digits that are none, the lower of which must win, and bytes with no plan.
fn two_damages(judge: &mut Judge, call: &Call, number: usize) {
    let mut random = Random::new(60 + number as u64);
    let length = call.length(number);
    for _ in 0..1000 {
        let mut given = call.good(&mut random, number);
        for _ in 0..2 {
            given.run.as_mut().unwrap()[random.below(length)] = random.pick(&[2, 3, 127, 128, 255]);
        }
        call.compare(judge, &given);
    }
    for limit in [3, 256] {
        for _ in 0..20 {
            let given = Given { number, run: Some(random.digits(length, limit)), room: Some(length) };
            call.compare(judge, &given);
        }
    }
}

/// Every set of the four faults at once: the earliest check must win.
fn fault_sets(judge: &mut Judge, call: &Call, number: usize) {
    let mut random = Random::new(80 + number as u64);
    for set in 0..1 << 4 {
        for _ in 0..20 {
            let mut given = call.good(&mut random, number);
            // The digits are spoiled before the length, so that they are there to be spoiled.
            for fault in (0..4).rev().filter(|fault| set >> fault & 1 == 1) {
                match fault {
                    0 => given.number = random.pick(&BAD_FORMATS),
                    1 => change_length(&mut given.run, &mut random),
                    2 => given.room = other_length(given.room, &mut random),
                    _ => given.run.as_mut().unwrap()[random.below(call.length(number))] = random.pick(&[2, 3, 255]),
                }
            }
            call.compare(judge, &given);
        }
    }
}

/// Each run of a wrong length, both at once, with good and bad digits in the one that is given; a slot's length for a frame's
/// and the other way round.
fn wrong_lengths(judge: &mut Judge, call: &Call, number: usize) {
    let right = call.length(number);
    let others = [right / call.slots, right / call.slots * SLOTS].map(Some);
    let tried: Vec<Option<usize>> = lengths(right).into_iter().chain(others).collect();
    for n_run in &tried {
        for (round, room) in tried.iter().enumerate() {
            let run = n_run.map(|length| vec![[0, 1, 2, 255][round % 4]; length]);
            call.compare(judge, &Given { number, run, room: *room });
        }
    }
}

/// Runs of one format given as another.
fn other_formats(judge: &mut Judge, call: &Call, number: usize) {
    let mut random = Random::new(100 + number as u64);
    for other in 0..FORMATS {
        let given = call.good(&mut random, number);
        call.compare(judge, &Given { number: other, ..given.clone() });
        call.compare(judge, &Given { number: other, room: Some(call.length(other)), ..given });
    }
}

/// A bad format wins over every other fault, and is refused with none beside it.
fn bad_formats(judge: &mut Judge, call: &Call) {
    let mut random = Random::new(120);
    for bad in BAD_FORMATS {
        for number in 0..FORMATS {
            let given = call.good(&mut random, number);
            call.compare(judge, &Given { number: bad, ..given });
        }
        call.compare(judge, &Given { number: bad, run: None, room: None });
    }
}
