//! Slots read, good and damaged.

use super::*;
use std::collections::HashMap;
use crate::compare::lengths;
use crate::rules::dpch::Format;

/// Formats 0 and 1 in every slot: every string of ten over 0, 1 and DTX. What is accepted must be exactly what some
/// fields give, and the fields must be those: worked out by mapping all fields there are.
pub fn small(judge: &mut Judge) {
    for number in 0..2 {
        for slot in 0..15 {
            let images = every_image(number, slot);
            for set in 0..3_usize.pow(10) {
                let run = digits_of(set, 3, 10);
                let fields = read_of(number, slot, run.clone()).compare(judge);
                assert_eq!(fields.as_ref(), images.get(&run), "the rules themselves: {number} {slot} {run:?}");
            }
        }
    }
}

/// Every slot that format 0 or 1 gives in one slot, with the fields that give it.
fn every_image(number: usize, slot: usize) -> HashMap<Vec<u8>, Fields> {
    let format = lengths_of(number);
    let mut images = HashMap::new();
    for set in 0..2 * 3_usize.pow(4) {
        let four = digits_of(set / 2, 3, 4);
        let (tfci, data) = four.split_at(format.tfci);
        if let Ok(run) = rules::map(number, slot, set % 2, data, tfci, 10) {
            let fields = Fields { tpc: (set % 2) as u8, data: data.to_vec(), tfci: tfci.to_vec() };
            let twice = images.insert(run, fields);
            assert_eq!(twice, None, "two sets of fields give one slot");
        }
    }
    images
}

/// Formats and slots out of range, near and far, alone and together.
pub fn numbers(judge: &mut Judge) {
    let mut random = Random::new(110);
    for number in (0..=16).chain(BAD_FORMATS) {
        for slot in (0..=14).chain(BAD_SLOTS) {
            for spoiled in 0..6 {
                let mut call = good_read(&mut random, number.min(16), slot.min(14));
                (call.number, call.slot) = (number, slot);
                if spoiled > 0 {
                    spoil_read(&mut call, 1 + spoiled, number.min(16), &mut random);
                }
                call.compare(judge);
            }
        }
    }
}

/// Every digit of a mapped slot damaged to each value, in every slot.
pub fn single_damage(judge: &mut Judge, number: usize) {
    let mut random = Random::new(120 + number as u64);
    for slot in 0..15 {
        let mut call = good_read(&mut random, number, slot);
        for index in 0..lengths_of(number).slot {
            let good = call.run.as_ref().unwrap()[index];
            for to in DAMAGE {
                call.run.as_mut().unwrap()[index] = to;
                call.compare(judge);
            }
            call.run.as_mut().unwrap()[index] = good;
        }
    }
}

/// Two to five digits damaged at once, often in the small fields; then digits and bytes with no plan.
pub fn random_damage(judge: &mut Judge, number: usize) {
    let mut random = Random::new(140 + number as u64);
    let format = lengths_of(number);
    for round in 0..3000 {
        let slot = round % 15;
        let mut call = good_read(&mut random, number, slot);
        let run = call.run.as_mut().unwrap();
        for _ in 0..2 + random.below(4) {
            let values = random.pick(&[&DAMAGE[..3], &DAMAGE[..]]);
            match random.below(4) {
                0 => put_somewhere(&mut run[format.tpc_at()..format.tfci_at()], values, &mut random),
                1 => put_somewhere(&mut run[format.tfci_at()..format.data2_at()], values, &mut random),
                2 => put_somewhere(&mut run[format.pilot_at()..], values, &mut random),
                _ => put_somewhere(run, values, &mut random),
            }
        }
        call.compare(judge);
        if round % 10 == 0 {
            read_of(number, slot, random.digits(format.slot, 3)).compare(judge);
            read_of(number, slot, random.digits(format.slot, 256)).compare(judge);
        }
    }
}

/// One of the faults a read can have, in the order of the checks. `number` is the format the run was made for.
fn spoil_read(call: &mut Read, fault: usize, number: usize, random: &mut Random) {
    match fault {
        0 => call.number = random.pick(&BAD_FORMATS),
        1 => call.slot = random.pick(&BAD_SLOTS),
        2 => change_length(&mut call.run, random),
        3 => call.data = other_length(call.data, random),
        4 => call.tfci = other_length(call.tfci, random),
        _ => spoil_slot(call.run.as_mut().unwrap(), &lengths_of(number), fault - 5, random),
    }
}

/// One of the faults that the digits of a slot can have, in the order of the checks: a digit that is none, TPC digits that
/// are DTX or unlike, TFCI digits of two kinds, a pilot of another slot.
pub fn spoil_slot(digits: &mut [u8], format: &Format, fault: usize, random: &mut Random) {
    match fault {
        0 => put_somewhere(digits, &NO_DIGITS, random),
        1 => spoil_tpc(&mut digits[format.tpc_at()..format.tfci_at()], random),
        2 => break_tfci(&mut digits[format.tfci_at()..format.data2_at()], random),
        3 => {
            let index = format.pilot_at() + random.below(format.pilot);
            digits[index] = (digits[index] + 1 + random.below(2) as u8) % 3;
        }
        _ => unreachable!("four faults"),
    }
}

/// TPC digits that are DTX or unlike: one of them, or all DTX.
pub fn spoil_tpc(tpc: &mut [u8], random: &mut Random) {
    if random.below(4) == 0 {
        tpc.fill(2);
        return;
    }
    let index = random.below(tpc.len());
    tpc[index] = if random.below(2) == 0 { 2 } else { 1 - tpc[index].min(1) };
}

/// Every set of the nine faults at once: the earliest check must win.
pub fn fault_sets(judge: &mut Judge, number: usize) {
    let mut random = Random::new(160 + number as u64);
    for set in 0..1 << 9 {
        for _ in 0..8 {
            let slot = random.below(15);
            let mut call = good_read(&mut random, number, slot);
            // The digits are spoiled before the length, and a digit that is none comes last of them.
            for fault in [8, 7, 6, 5, 4, 3, 2, 1, 0].into_iter().filter(|fault| set >> fault & 1 == 1) {
                spoil_read(&mut call, fault, number, &mut random);
            }
            call.compare(judge);
        }
    }
}

/// Every TPC field and every TFCI field over 0, 1 and DTX.
pub fn every_tpc_and_tfci(judge: &mut Judge, number: usize) {
    let mut random = Random::new(180 + number as u64);
    let format = lengths_of(number);
    for (from, length) in [(format.tpc_at(), format.tpc), (format.tfci_at(), format.tfci)] {
        for set in 0..3_usize.pow(length as u32) {
            let mut call = good_read(&mut random, number, set % 15);
            call.run.as_mut().unwrap()[from..from + length].copy_from_slice(&digits_of(set, 3, length));
            call.compare(judge);
        }
    }
}

/// Every pilot field over 0, 1 and DTX; of the sixteen-bit ones every one over 0 and 1.
pub fn every_pilot(judge: &mut Judge, number: usize) {
    let mut random = Random::new(200 + number as u64);
    let format = lengths_of(number);
    let (base, slots) = match format.pilot {
        16 => (2, 1),
        _ => (3_usize, 15),
    };
    for slot in 0..slots {
        let slot = (slot + number) % 15;
        let mut call = good_read(&mut random, number, slot);
        for set in 0..base.pow(format.pilot as u32) {
            let digits = digits_of(set, base, format.pilot);
            call.run.as_mut().unwrap()[format.pilot_at()..].copy_from_slice(&digits);
            call.compare(judge);
        }
    }
}

/// A slot mapped for one slot number and read as another: their pilots may or may not be alike.
pub fn as_another_slot(judge: &mut Judge, number: usize) {
    let mut random = Random::new(220 + number as u64);
    for slot in 0..15 {
        for other in 0..15 {
            let mut call = good_read(&mut random, number, slot);
            call.slot = other;
            call.compare(judge);
        }
    }
}

/// Each run of a wrong length, two and three at once, with good and bad digits in them.
pub fn wrong_lengths(judge: &mut Judge, number: usize) {
    let format = lengths_of(number);
    for n_run in lengths(format.slot) {
        for data in lengths(format.data()) {
            for (round, tfci) in lengths(format.tfci).into_iter().enumerate() {
                let digit = [0, 1, 2, 255][round % 4];
                let run = n_run.map(|length| vec![digit; length]);
                Read { number, slot: round, run, data, tfci }.compare(judge);
            }
        }
    }
}
