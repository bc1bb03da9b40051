//! Slots read, good and damaged.

use super::*;
use std::collections::HashMap;

/// In every slot every string of ten over 0, 1 and 2: all 1024 over 0 and 1 are among them, and all with a single 2. What is
/// accepted must be exactly what some fields give, and the fields must be those: worked out by mapping all fields there are.
pub fn every_string(judge: &mut Judge, number: usize) {
    for slot in 0..SLOTS {
        let images = every_image(number, slot);
        for set in 0..3_usize.pow(10) {
            let run = digits_of(set, 3, 10);
            let fields = read_of(number, slot, run.clone()).compare(judge);
            assert_eq!(fields.as_ref(), images.get(&run), "the rules themselves: {number} {slot} {run:?}");
        }
    }
}

/// Every slot that the format gives in one slot, with the fields that give it.
fn every_image(number: usize, slot: usize) -> HashMap<Vec<u8>, Fields> {
    let format = lengths_of(number);
    let given = format.tfci + format.fbi;
    let mut images = HashMap::new();
    for set in 0..2 << given {
        let digits = digits_of(set / 2, 2, given);
        let (tfci, fbi) = digits.split_at(format.tfci);
        let fields = Fields { tpc: (set % 2) as u8, tfci: tfci.to_vec(), fbi: fbi.to_vec() };
        let twice = images.insert(rules::mapped(&format, slot, &fields), fields);
        assert_eq!(twice, None, "two sets of fields give one slot");
    }
    images
}

/// In every slot every string of nine over 0 and 1, with a byte that is no digit at each place.
pub fn every_place(judge: &mut Judge, number: usize) {
    for slot in 0..SLOTS {
        for index in 0..SLOT {
            for set in 0..1 << 9 {
                let mut run = digits_of(set, 2, 9);
                run.insert(index, [3, 4, 127, 128, 254, 255][(set + slot) % 6]);
                assert_eq!(read_of(number, slot, run).compare(judge), None, "no byte but 0 and 1 is taken");
            }
        }
    }
}

/// Formats and slots out of range, near and far, alone and together, and beside each other fault.
pub fn numbers(judge: &mut Judge) {
    let mut random = Random::new(110);
    for number in (0..FORMATS).chain(BAD_FORMATS) {
        for slot in (0..SLOTS).chain(BAD_SLOTS) {
            for fault in 1..8 {
                let made_for = number % FORMATS;
                let mut call = good_read(&mut random, made_for, slot.min(14));
                (call.number, call.slot) = (number, slot);
                if fault > 1 {
                    spoil_read(&mut call, fault, made_for, &mut random);
                }
                call.compare(judge);
            }
        }
    }
}

/// One of the faults a read can have, in the order of the checks. `number` is the format the run was made for.
fn spoil_read(call: &mut Read, fault: usize, number: usize, random: &mut Random) {
    match fault {
        0 => call.number = random.pick(&BAD_FORMATS),
        1 => call.slot = random.pick(&BAD_SLOTS),
        2 => change_length(&mut call.run, random),
        3 => call.tfci = other_length(call.tfci, random),
        4 => call.fbi = other_length(call.fbi, random),
        _ => spoil_slot(call.run.as_mut().unwrap(), &lengths_of(number), fault - 5, random),
    }
}

/// Every set of the eight faults at once, and so each by itself and each pair: the earliest check must win.
pub fn fault_sets(judge: &mut Judge, number: usize) {
    let mut random = Random::new(160 + number as u64);
    for set in 0..1 << 8 {
        for slot in 0..SLOTS {
            let mut call = good_read(&mut random, number, slot);
            // The digits are spoiled before the length, and a digit that is none comes last of them.
            for fault in (0..8).rev().filter(|fault| set >> fault & 1 == 1) {
                spoil_read(&mut call, fault, number, &mut random);
            }
            call.compare(judge);
        }
    }
}

/// A slot mapped for one slot number or one format and read as another: their pilots may or may not be alike.
pub fn as_another(judge: &mut Judge, number: usize) {
    let mut random = Random::new(220 + number as u64);
    for slot in 0..SLOTS {
        for other in 0..SLOTS {
            let mut call = good_read(&mut random, number, slot);
            call.slot = other;
            call.compare(judge);
            let run = call.run.unwrap();
            (0..FORMATS).for_each(|format| drop(read_of(format, slot, run.clone()).compare(judge)));
        }
    }
}

/// Each run of a wrong length, two and three at once, with good and bad digits in them.
pub fn wrong_lengths(judge: &mut Judge, number: usize) {
    let format = lengths_of(number);
    for n_run in lengths(SLOT) {
        for tfci in lengths(format.tfci) {
            for (round, fbi) in lengths(format.fbi).into_iter().enumerate() {
                let digit = [0, 1, 2, 255][round % 4];
                let run = n_run.map(|length| vec![digit; length]);
                Read { number, slot: round, run, tfci, fbi }.compare(judge);
            }
        }
    }
}

/// Bytes with no plan, and one to four damages.
pub fn no_plan(judge: &mut Judge, number: usize) {
    let mut random = Random::new(240 + number as u64);
    for round in 0..20_000 {
        let slot = round % SLOTS;
        read_of(number, slot, random.digits(SLOT, 256)).compare(judge);
        let mut call = good_read(&mut random, number, slot);
        for _ in 0..1 + round % 4 {
            put_somewhere(call.run.as_mut().unwrap(), &DAMAGE, &mut random);
        }
        call.compare(judge);
    }
}
