//! The uplink DPCCH: the library's four calls against the rules.

mod frames;
mod map;
mod read;

use super::dpch::{BAD_COMMANDS, BAD_SLOTS, DAMAGE, change_length, digits_of, other_length};
use super::lengths;
use crate::answer::Answer;
use crate::ffi;
use crate::fields::put_somewhere;
use crate::judge::Judge;
use crate::random::Random;
use crate::rules::dpcch::{self as rules, Fields, Format, SLOT, SLOTS};

/// Formats 0 to 3.
const FORMATS: usize = 4;

/// The first bad formats, which the satellite variant has, formats of other channels, and numbers that look like a good one
/// to a program that keeps too few bits.
const BAD_FORMATS: [usize; 16] = [
    4, 5, 6, 7, 8, 15, 16, 17, 255, 256, 256 + 3, 65536 + 2, 1 << 32, (1 << 32) + 1, (1 << 63) + 2, usize::MAX,
];

/// Digits that are never allowed on the uplink: DTX is one of them.
const NO_BITS: [u8; 6] = [2, 3, 4, 127, 128, 255];

/// Every comparison of the channel.
pub fn all(judge: &mut Judge) {
    map::numbers(judge);
    read::numbers(judge);
    for number in 0..FORMATS {
        map::every_field(judge, number);
        map::fault_sets(judge, number);
        map::wrong_lengths(judge, number);
        read::every_string(judge, number);
        read::every_place(judge, number);
        read::fault_sets(judge, number);
        read::as_another(judge, number);
        read::wrong_lengths(judge, number);
        read::no_plan(judge, number);
    }
    frames::all(judge);
}

// One call of a slot each, compared.

/// What one map is given.
#[derive(Clone)]
struct Map {
    number: usize,
    slot: usize,
    tpc: usize,
    tfci: Option<Vec<u8>>,
    fbi: Option<Vec<u8>>,
    room: Option<usize>,
}

impl Map {
    /// Compares the call and answers the slot, if the rules give one.
    fn compare(&self, judge: &mut Judge) -> Option<Vec<u8>> {
        let expected = self.expected();
        let mut tfci = judge.given("tfci", self.tfci.as_deref());
        let mut fbi = judge.given("fbi", self.fbi.as_deref());
        let mut out = judge.room("out", self.room, expected.as_deref().ok());
        let got = ffi::dpcch_map(self.number, self.slot, self.tpc, &mut tfci, &mut fbi, &mut out);
        let numbers = || format!("format {}, slot {}, tpc {}", self.number, self.slot, self.tpc);
        judge.compare("slt_dpcch_map", numbers, Answer::of(&expected), got, [&tfci, &fbi, &out]);
        expected.ok()
    }

    /// What the rules say of the call.
    fn expected(&self) -> Result<Vec<u8>, crate::answer::Refusal> {
        let (tfci, fbi) = (self.tfci.as_deref().unwrap_or(&[]), self.fbi.as_deref().unwrap_or(&[]));
        rules::map(self.number, self.slot, self.tpc, tfci, fbi, self.room.unwrap_or(0))
    }
}

/// What one read is given.
#[derive(Clone)]
struct Read {
    number: usize,
    slot: usize,
    run: Option<Vec<u8>>,
    tfci: Option<usize>,
    fbi: Option<usize>,
}

impl Read {
    /// Compares the call and answers the fields, if the rules give them.
    fn compare(&self, judge: &mut Judge) -> Option<Fields> {
        let run = self.run.as_deref();
        let (n_tfci, n_fbi) = (self.tfci.unwrap_or(0), self.fbi.unwrap_or(0));
        let outcome = rules::read(self.number, self.slot, run.unwrap_or(&[]), n_tfci, n_fbi);
        let expected = Answer::telling(&outcome, |fields| fields.tpc.into());
        let fields = outcome.as_ref().ok();
        let mut run = judge.given("run", run);
        let mut tfci = judge.room("tfci", self.tfci, fields.map(|fields| &fields.tfci[..]));
        let mut fbi = judge.room("fbi", self.fbi, fields.map(|fields| &fields.fbi[..]));
        let got = ffi::dpcch_read(self.number, self.slot, &mut run, &mut tfci, &mut fbi);
        let numbers = || format!("format {}, slot {}", self.number, self.slot);
        judge.compare("slt_dpcch_read", numbers, expected, got, [&run, &tfci, &fbi]);
        outcome.ok()
    }
}

// The inputs.

/// The lengths of a format that exists.
fn lengths_of(number: usize) -> Format {
    rules::format(number).expect("formats 0 to 3")
}

/// A call that is done: right lengths, random bits.
fn good_map(random: &mut Random, number: usize, slot: usize) -> Map {
    let format = lengths_of(number);
    let (tfci, fbi) = (Some(random.digits(format.tfci, 2)), Some(random.digits(format.fbi, 2)));
    Map { number, slot, tpc: random.below(2), tfci, fbi, room: Some(SLOT) }
}

/// The read of a run that has the right length.
fn read_of(number: usize, slot: usize, run: Vec<u8>) -> Read {
    let format = lengths_of(number);
    Read { number, slot, run: Some(run), tfci: Some(format.tfci), fbi: Some(format.fbi) }
}

/// A read that is done: what the rules give for a good map.
fn good_read(random: &mut Random, number: usize, slot: usize) -> Read {
    read_of(number, slot, good_map(random, number, slot).expected().expect("a good call"))
}

/// One of the faults that the digits of a slot can have, in the order of the checks: a digit that is none, TPC digits that
/// are unlike, a pilot of another slot.
fn spoil_slot(digits: &mut [u8], format: &Format, fault: usize, random: &mut Random) {
    let index = match fault {
        0 => return put_somewhere(digits, &NO_BITS, random),
        1 => format.tpc_at() + random.below(format.tpc),
        2 => random.below(format.pilot),
        _ => unreachable!("three faults"),
    };
    digits[index] = u8::from(digits[index] == 0);
}
