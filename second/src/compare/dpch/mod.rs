//! The DPCH slot: the library's two calls against the rules.

mod map;
mod read;

use crate::answer::Answer;
use crate::ffi;
use crate::fields::{NO_DIGITS, break_tfci, lengths_of, put_somewhere, random_tfci};
use crate::judge::Judge;
use crate::random::Random;
use crate::rules::dpch::{self as rules, Fields};
pub use read::{spoil_slot, spoil_tpc};

/// The first bad formats, and numbers that look like a good one to a program that keeps too few bits.
pub const BAD_FORMATS: [usize; 14] = [
    17, 18, 31, 32, 255, 256, 256 + 3, 65536, 65536 + 1, 1 << 32, (1 << 32) + 16, (1 << 63) + 2,
    usize::MAX - 16, usize::MAX,
];

pub const BAD_SLOTS: [usize; 13] = [
    15, 16, 30, 255, 256, 256 + 14, 65536, 65536 + 7, 1 << 32, (1 << 32) + 1, (1 << 63) + 2,
    usize::MAX - 14, usize::MAX,
];

pub const BAD_COMMANDS: [usize; 12] = [
    2, 3, 255, 256, 257, 65536, 65537, 1 << 32, (1 << 32) + 1, 1 << 63, (1 << 63) + 1, usize::MAX,
];

/// What a digit is damaged to.
pub const DAMAGE: [u8; 5] = [0, 1, 2, 3, 255];

/// Every comparison of the channel.
pub fn all(judge: &mut Judge) {
    map::small(judge);
    map::numbers(judge);
    read::small(judge);
    read::numbers(judge);
    for number in 0..=16 {
        there_and_back(judge, number);
        silence(judge, number);
        mixed_digits(judge, number);
        map::fault_sets(judge, number);
        map::two_digits(judge, number);
        map::every_tfci(judge, number);
        map::wrong_lengths(judge, number);
        read::single_damage(judge, number);
        read::random_damage(judge, number);
        read::fault_sets(judge, number);
        read::every_tpc_and_tfci(judge, number);
        read::every_pilot(judge, number);
        read::as_another_slot(judge, number);
        read::wrong_lengths(judge, number);
    }
}

// One call each, compared.

/// What one map is given.
#[derive(Clone)]
struct Map {
    number: usize,
    slot: usize,
    tpc: usize,
    data: Option<Vec<u8>>,
    tfci: Option<Vec<u8>>,
    room: Option<usize>,
}

impl Map {
    /// Compares the call and answers the slot, if the rules give one.
    fn compare(&self, judge: &mut Judge) -> Option<Vec<u8>> {
        let (data, tfci) = (self.data.as_deref(), self.tfci.as_deref());
        let (data_run, tfci_run, n_out) = (data.unwrap_or(&[]), tfci.unwrap_or(&[]), self.room.unwrap_or(0));
        let expected = rules::map(self.number, self.slot, self.tpc, data_run, tfci_run, n_out);
        let mut data = judge.given("data", data);
        let mut tfci = judge.given("tfci", tfci);
        let mut out = judge.room("out", self.room, expected.as_deref().ok());
        let got = ffi::slot_map(self.number, self.slot, self.tpc, &mut data, &mut tfci, &mut out);
        let numbers = || format!("format {}, slot {}, tpc {}", self.number, self.slot, self.tpc);
        judge.compare("slt_slot_map", numbers, Answer::of(&expected), got, [&data, &tfci, &out]);
        expected.ok()
    }
}

/// What one read is given.
#[derive(Clone)]
struct Read {
    number: usize,
    slot: usize,
    run: Option<Vec<u8>>,
    data: Option<usize>,
    tfci: Option<usize>,
}

impl Read {
    /// Compares the call and answers the fields, if the rules give them.
    fn compare(&self, judge: &mut Judge) -> Option<Fields> {
        let run = self.run.as_deref();
        let (n_data, n_tfci) = (self.data.unwrap_or(0), self.tfci.unwrap_or(0));
        let outcome = rules::read(self.number, self.slot, run.unwrap_or(&[]), n_data, n_tfci);
        let expected = Answer::telling(&outcome, |fields| fields.tpc.into());
        let fields = outcome.as_ref().ok();
        let mut run = judge.given("run", run);
        let mut data = judge.room("data", self.data, fields.map(|fields| &fields.data[..]));
        let mut tfci = judge.room("tfci", self.tfci, fields.map(|fields| &fields.tfci[..]));
        let got = ffi::slot_read(self.number, self.slot, &mut run, &mut data, &mut tfci);
        let numbers = || format!("format {}, slot {}", self.number, self.slot);
        judge.compare("slt_slot_read", numbers, expected, got, [&run, &data, &tfci]);
        outcome.ok()
    }
}

// The inputs.

/// The digits of a number in base `base`, `length` of them.
pub fn digits_of(number: usize, base: usize, length: usize) -> Vec<u8> {
    (0..length as u32).map(|place| (number / base.pow(place) % base) as u8).collect()
}

/// A call that is done: right lengths, random good digits.
fn good_map(random: &mut Random, number: usize, slot: usize) -> Map {
    let format = lengths_of(number);
    let data = Some(random.digits(format.data(), 3));
    let tfci = Some(random_tfci(random, &format));
    Map { number, slot, tpc: random.below(2), data, tfci, room: Some(format.slot) }
}

/// The read of a run that has the right length.
fn read_of(number: usize, slot: usize, run: Vec<u8>) -> Read {
    let format = lengths_of(number);
    Read { number, slot, run: Some(run), data: Some(format.data()), tfci: Some(format.tfci) }
}

/// A read that is done: what the rules give for a good map.
fn good_read(random: &mut Random, number: usize, slot: usize) -> Read {
    let call = good_map(random, number, slot);
    let (data, tfci) = (call.data.unwrap(), call.tfci.unwrap());
    let run = rules::map(number, slot, call.tpc, &data, &tfci, call.room.unwrap()).expect("a good call");
    read_of(number, slot, run)
}

/// A length that is not `right`, or NULL.
pub fn other_length(right: Option<usize>, random: &mut Random) -> Option<usize> {
    let right = right.unwrap_or(0);
    let wrong = [None, Some(right + 1), Some(right + 256), Some(2 * right), Some(right / 2), Some(right.max(1) - 1)];
    loop {
        let picked = random.pick(&wrong);
        if picked.unwrap_or(0) != right {
            return picked;
        }
    }
}

/// Gives a run another length, or makes it NULL; what it held stays at its front.
pub fn change_length(run: &mut Option<Vec<u8>>, random: &mut Random) {
    let length = other_length(run.as_ref().map(Vec::len), random);
    let mut held = run.take().unwrap_or_default();
    *run = length.map(|elements| {
        held.resize(elements, 1);
        held
    });
}

// Map

/// Every slot with extreme and random digits; what was mapped is read and must come back.
fn there_and_back(judge: &mut Judge, number: usize) {
    let mut random = Random::new(20 + number as u64);
    let format = lengths_of(number);
    for slot in 0..15 {
        for round in 0..40 {
            let mut call = good_map(&mut random, number, slot);
            if round < 6 {
                call.data = Some(vec![(round % 3) as u8; format.data()]);
                call.tpc = round / 3;
            }
            // An empty TFCI run may be NULL.
            if format.tfci == 0 && round % 2 == 0 {
                call.tfci = None;
            }
            let run = call.compare(judge).expect("a good call");
            let mut reading = read_of(number, slot, run);
            if format.tfci == 0 && round % 4 < 2 {
                reading.tfci = None;
            }
            let back = reading.compare(judge).expect("a mapped slot");
            let sent =
                Fields { tpc: call.tpc as u8, data: call.data.unwrap(), tfci: call.tfci.unwrap_or_default() };
            assert_eq!(back, sent, "the rules themselves do not round trip");
        }
    }
}

/// A silent TFCI field in every slot, mapped and read back.
fn silence(judge: &mut Judge, number: usize) {
    let mut random = Random::new(240 + number as u64);
    let format = lengths_of(number);
    for slot in 0..15 {
        let mut call = good_map(&mut random, number, slot);
        call.tfci = Some(vec![2; format.tfci]);
        let run = call.compare(judge).expect("silence is taken in every format");
        let back = read_of(number, slot, run).compare(judge).expect("a mapped slot");
        assert_eq!(back.tfci, vec![2; format.tfci], "the rules themselves lose the silence");
    }
}

/// One TFCI digit of the other kind, in a field of bits and in a silent one, mapped and read: told at that digit, and
/// where it is the first one, at the second.
fn mixed_digits(judge: &mut Judge, number: usize) {
    let mut random = Random::new(260 + number as u64);
    let format = lengths_of(number);
    for index in 0..format.tfci {
        for (others, digit) in [(0, 2), (1, 2), (2, 0), (2, 1)] {
            let slot = random.below(15);
            let mut call = good_map(&mut random, number, slot);
            let good = vec![others; format.tfci];
            let tpc = call.tpc as u8;
            let mut run = rules::mapped(&format, slot, tpc, call.data.as_ref().unwrap(), &good);
            let mut tfci = good;
            tfci[index] = digit;
            run[format.tfci_at() + index] = digit;
            call.tfci = Some(tfci);
            assert_eq!(call.compare(judge), None, "a mixed field is refused");
            assert_eq!(read_of(number, slot, run).compare(judge), None, "a mixed field is refused");
        }
    }
}

// Read
