//! Slots mapped, good and bad.

use super::*;
use crate::compare::lengths;

/// Formats 0 and 1 in every slot: every command 0 to 2 and every string over 0 to 3.
pub fn small(judge: &mut Judge) {
    for slot in 0..15 {
        for tpc in 0..3 {
            for set in 0..4_usize.pow(4) {
                let four = digits_of(set, 4, 4);
                let zero = Map { number: 0, slot, tpc, data: Some(four.clone()), tfci: None, room: Some(10) };
                zero.compare(judge);
                let (data, tfci) = (Some(four[..2].to_vec()), Some(four[2..].to_vec()));
                let one = Map { number: 1, slot, tpc, data, tfci, room: Some(10) };
                one.compare(judge);
            }
        }
    }
}

/// Formats, slots and commands out of range, near and far, alone and together.
pub fn numbers(judge: &mut Judge) {
    let mut random = Random::new(10);
    for number in (0..=16).chain(BAD_FORMATS) {
        for slot in (0..=14).chain(BAD_SLOTS) {
            for tpc in (0..=1).chain(BAD_COMMANDS) {
                let mut call = good_map(&mut random, if number > 12 { 1 } else { number }, 0);
                (call.number, call.slot, call.tpc) = (number, slot, tpc);
                call.compare(judge);
            }
        }
    }
}

/// One of the faults a map can have, in the order of the checks.
fn spoil_map(call: &mut Map, fault: usize, random: &mut Random) {
    match fault {
        0 => call.number = random.pick(&BAD_FORMATS),
        1 => call.slot = random.pick(&BAD_SLOTS),
        2 => change_length(&mut call.data, random),
        3 => change_length(&mut call.tfci, random),
        4 => call.room = other_length(call.room, random),
        5 => call.tpc = random.pick(&BAD_COMMANDS),
        6 => put_somewhere(call.tfci.as_mut().unwrap(), &NO_DIGITS, random),
        7 => break_tfci(call.tfci.as_mut().unwrap(), random),
        8 => put_somewhere(call.data.as_mut().unwrap(), &NO_DIGITS, random),
        _ => unreachable!("nine faults"),
    }
}

/// Every set of the nine faults at once: the earliest check must win.
pub fn fault_sets(judge: &mut Judge, number: usize) {
    let mut random = Random::new(40 + number as u64);
    for set in 0..1 << 9 {
        for _ in 0..8 {
            let slot = random.below(15);
            let mut call = good_map(&mut random, number, slot);
            // The digits are spoiled before the lengths, so that they are there to be spoiled.
            for fault in (0..9).rev().filter(|fault| set >> fault & 1 == 1) {
                spoil_map(&mut call, fault, &mut random);
            }
            call.compare(judge);
        }
    }
}

/// Each data digit damaged, then two digits at once in either run: the lower place must win.
pub fn two_digits(judge: &mut Judge, number: usize) {
    let mut random = Random::new(60 + number as u64);
    for index in 0..lengths_of(number).data() {
        for to in DAMAGE {
            let mut call = good_map(&mut random, number, index % 15);
            call.data.as_mut().unwrap()[index] = to;
            call.compare(judge);
        }
    }
    for _ in 0..1000 {
        let slot = random.below(15);
        let mut call = good_map(&mut random, number, slot);
        for _ in 0..2 {
            let fault = 6 + random.below(3);
            spoil_map(&mut call, fault, &mut random);
        }
        call.compare(judge);
        call.data = Some(random.digits(lengths_of(number).data(), 256));
        call.compare(judge);
    }
}

/// Every TFCI over 0, 1 and DTX, and each with a digit that is none.
pub fn every_tfci(judge: &mut Judge, number: usize) {
    let mut random = Random::new(80 + number as u64);
    let length = lengths_of(number).tfci;
    for set in 0..3_usize.pow(length as u32) {
        let mut call = good_map(&mut random, number, set % 15);
        call.tfci = Some(digits_of(set, 3, length));
        call.compare(judge);
        put_somewhere(call.tfci.as_mut().unwrap(), &NO_DIGITS, &mut random);
        call.compare(judge);
    }
}

/// Each run of a wrong length, two and three at once, with good and bad digits in them.
pub fn wrong_lengths(judge: &mut Judge, number: usize) {
    let format = lengths_of(number);
    for n_data in lengths(format.data()) {
        for n_tfci in lengths(format.tfci) {
            for (round, room) in lengths(format.slot).into_iter().enumerate() {
                let digit = [0, 1, 2, 255][round % 4];
                let data = n_data.map(|length| vec![digit; length]);
                let tfci = n_tfci.map(|length| vec![digit; length]);
                Map { number, slot: round, tpc: round % 3, data, tfci, room }.compare(judge);
            }
        }
    }
}
