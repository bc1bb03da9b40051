//! Slots mapped, good and bad.

use super::*;

/// Every slot, every command 0 to 2, every TFCI and every FBI over 0 to 3; a field that the format lacks also as NULL. What is
/// mapped is read and must come back.
pub fn every_field(judge: &mut Judge, number: usize) {
    let format = lengths_of(number);
    let given = format.tfci + format.fbi;
    for slot in 0..SLOTS {
        for tpc in 0..3 {
            for set in 0..4_usize.pow(given as u32) {
                let digits = digits_of(set, 4, given);
                let (tfci, fbi) = digits.split_at(format.tfci);
                let run = |part: &[u8]| (!part.is_empty() || set % 2 == 0).then(|| part.to_vec());
                let call = Map { number, slot, tpc, tfci: run(tfci), fbi: run(fbi), room: Some(SLOT) };
                if let Some(mapped) = call.compare(judge) {
                    let sent = Fields { tpc: tpc as u8, tfci: tfci.to_vec(), fbi: fbi.to_vec() };
                    let mut reading = read_of(number, slot, mapped);
                    (reading.tfci, reading.fbi) = (run(tfci).map(|r| r.len()), run(fbi).map(|r| r.len()));
                    assert_eq!(reading.compare(judge), Some(sent), "the rules themselves do not round trip");
                }
            }
        }
    }
}

/// Formats, slots and commands out of range, near and far, alone and together.
pub fn numbers(judge: &mut Judge) {
    let mut random = Random::new(10);
    for number in (0..FORMATS).chain(BAD_FORMATS) {
        for slot in (0..SLOTS).chain(BAD_SLOTS) {
            for tpc in (0..=1).chain(BAD_COMMANDS) {
                let mut call = good_map(&mut random, number % FORMATS, 0);
                (call.number, call.slot, call.tpc) = (number, slot, tpc);
                call.compare(judge);
            }
        }
    }
}

/// One of the faults a map can have, in the order of the checks.
fn spoil_map(call: &mut Map, fault: usize, random: &mut Random) {
    match fault {
        0 => call.number = random.pick(&BAD_FORMATS),
        1 => call.slot = random.pick(&BAD_SLOTS),
        2 => change_length(&mut call.tfci, random),
        3 => change_length(&mut call.fbi, random),
        4 => call.room = other_length(call.room, random),
        5 => call.tpc = random.pick(&BAD_COMMANDS),
        6 => put_somewhere(call.tfci.as_mut().unwrap(), &NO_BITS, random),
        7 => put_somewhere(call.fbi.as_mut().unwrap(), &NO_BITS, random),
        _ => unreachable!("eight faults"),
    }
}

/// Every set of the eight faults at once, and so each by itself and each pair: the earliest check must win.
pub fn fault_sets(judge: &mut Judge, number: usize) {
    let mut random = Random::new(40 + number as u64);
    for set in 0..1 << 8 {
        for slot in 0..SLOTS {
            let mut call = good_map(&mut random, number, slot);
            // The digits are spoiled before the lengths, so that they are there to be spoiled.
            for fault in (0..8).rev().filter(|fault| set >> fault & 1 == 1) {
                spoil_map(&mut call, fault, &mut random);
            }
            call.compare(judge);
        }
    }
}

/// Each run of a wrong length, two and three at once, with good and bad digits in them.
pub fn wrong_lengths(judge: &mut Judge, number: usize) {
    let format = lengths_of(number);
    for n_tfci in lengths(format.tfci) {
        for n_fbi in lengths(format.fbi) {
            for (round, room) in lengths(SLOT).into_iter().enumerate() {
                let digit = [0, 1, 2, 255][round % 4];
                let tfci = n_tfci.map(|length| vec![digit; length]);
                let fbi = n_fbi.map(|length| vec![digit; length]);
                Map { number, slot: round, tpc: round % 3, tfci, fbi, room }.compare(judge);
            }
        }
    }
}
