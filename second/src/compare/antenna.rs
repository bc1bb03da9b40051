//! The DPCH slot on two antennas: the library's two calls against the rules.

use crate::answer::Answer;
use crate::compare::dpch::{
    BAD_COMMANDS, BAD_FORMATS, BAD_SLOTS, DAMAGE, change_length, digits_of, other_length, spoil_tpc,
};
use crate::compare::lengths;
use crate::ffi;
use crate::fields::{NO_DIGITS, break_tfci, lengths_of, put_somewhere, random_tfci};
use crate::judge::Judge;
use crate::random::Random;
use crate::rules::antenna::{self as rules, Given};
use crate::rules::dpch::{self, Fields};

const BAD_ANTENNAS: [usize; 10] =
    [2, 3, 255, 256, 257, 65536, 65537, 1 << 32, (1 << 32) + 1, usize::MAX];

/// Every comparison of the two calls.
pub fn all(judge: &mut Judge) {
    every_field(judge);
    neighbours(judge);
    numbers(judge);
    for number in 0..=16 {
        there_and_back(judge, number);
        map_faults(judge, number);
        read_faults(judge, number);
        random_streams(judge, number);
        wrong_lengths(judge, number);
        if number <= 11 {
            single_damage(judge, number);
        }
    }
}

// One call each, compared.

/// What one map is given: format, slot, antenna and command, then the runs.
#[derive(Clone)]
struct Map {
    numbers: [usize; 4],
    data: Option<Vec<u8>>,
    tfci: Option<Vec<u8>>,
    room: Option<usize>,
}

impl Map {
    /// Compares the call and answers the slot, if the rules give one.
    fn compare(&self, judge: &mut Judge) -> Option<Vec<u8>> {
        let (data, tfci) = (self.data.as_deref(), self.tfci.as_deref());
        let (numbers, n_out) = (self.numbers, self.room.unwrap_or(0));
        let expected = rules::map(&Given { numbers, data: data.unwrap_or(&[]), tfci: tfci.unwrap_or(&[]), n_out });
        let mut data = judge.given("data", data);
        let mut tfci = judge.given("tfci", tfci);
        let mut out = judge.room("out", self.room, expected.as_deref().ok());
        let [number, slot, antenna, tpc] = numbers;
        let got = ffi::slot_map_antenna(number, slot, antenna, tpc, &mut data, &mut tfci, &mut out);
        let numbers = || format!("format {number}, slot {slot}, antenna {antenna}, tpc {tpc}");
        judge.compare("slt_slot_map_antenna", numbers, Answer::of(&expected), got, [&data, &tfci, &out]);
        expected.ok()
    }

    /// The slots of both antennas.
    fn both(&self, judge: &mut Judge) -> [Vec<u8>; 2] {
        [0, 1].map(|antenna| {
            let mut call = self.clone();
            call.numbers[2] = antenna;
            call.compare(judge).expect("a good call")
        })
    }
}

/// What one read is given.
#[derive(Clone)]
struct Read {
    number: usize,
    slot: usize,
    streams: [Option<Vec<u8>>; 2],
    data: Option<usize>,
    tfci: Option<usize>,
}

impl Read {
    /// Compares the call and answers the fields, if the rules give them.
    fn compare(&self, judge: &mut Judge) -> Option<Fields> {
        let [first, second] = [self.streams[0].as_deref(), self.streams[1].as_deref()];
        let (n_data, n_tfci) = (self.data.unwrap_or(0), self.tfci.unwrap_or(0));
        let outcome =
            rules::read(self.number, self.slot, first.unwrap_or(&[]), second.unwrap_or(&[]), n_data, n_tfci);
        let expected = Answer::telling(&outcome, |fields| fields.tpc.into());
        let fields = outcome.as_ref().ok();
        let mut first = judge.given("first", first);
        let mut second = judge.given("second", second);
        let mut data = judge.room("data", self.data, fields.map(|fields| &fields.data[..]));
        let mut tfci = judge.room("tfci", self.tfci, fields.map(|fields| &fields.tfci[..]));
        let got = ffi::slot_read_antennas(self.number, self.slot, &mut first, &mut second, &mut data, &mut tfci);
        let numbers = || format!("format {}, slot {}", self.number, self.slot);
        judge.compare("slt_slot_read_antennas", numbers, expected, got, [&first, &second, &data, &tfci]);
        outcome.ok()
    }
}

// The inputs.

/// A call that is done: right lengths, random good digits.
fn good_map(random: &mut Random, number: usize, slot: usize) -> Map {
    let format = lengths_of(number);
    let data = Some(random.digits(format.data(), 3));
    let tfci = Some(random_tfci(random, &format));
    let numbers = [number, slot, random.below(2), random.below(2)];
    Map { numbers, data, tfci, room: Some(format.slot) }
}

/// The read of a pair that has the right lengths.
fn read_of(number: usize, slot: usize, [first, second]: [Vec<u8>; 2]) -> Read {
    let format = lengths_of(number);
    let streams = [Some(first), Some(second)];
    Read { number, slot, streams, data: Some(format.data()), tfci: Some(format.tfci) }
}

/// A read that is done: what the rules give for good fields.
fn good_read(random: &mut Random, number: usize, slot: usize) -> Read {
    let call = good_map(random, number, slot);
    let (data, tfci) = (call.data.unwrap(), call.tfci.unwrap());
    let first = dpch::mapped(&lengths_of(number), slot, call.numbers[3] as u8, &data, &tfci);
    let second = rules::second(number, slot, &first);
    read_of(number, slot, [first, second])
}

/// Maps both antennas, reads the pair, and the fields must come back.
fn round_trip(judge: &mut Judge, call: &Map) {
    let [number, slot, _, tpc] = call.numbers;
    let pair = call.both(judge);
    let back = read_of(number, slot, pair).compare(judge).expect("a mapped pair");
    let (data, tfci) = (call.data.clone().unwrap(), call.tfci.clone().unwrap_or_default());
    assert_eq!(back, Fields { tpc: tpc as u8, data, tfci }, "the rules themselves do not round trip");
}

/// All fields of formats 0 and 1, in every slot.
fn every_field(judge: &mut Judge) {
    for number in 0..2 {
        let n_tfci = lengths_of(number).tfci;
        for slot in 0..15 {
            for set in 0..2 * 3_usize.pow(4) {
                let four = digits_of(set / 2, 3, 4);
                let (tfci, data) = (Some(four[..n_tfci].to_vec()), Some(four[n_tfci..].to_vec()));
                let call = Map { numbers: [number, slot, 1, set % 2], data, tfci, room: Some(10) };
                // A mixed TFCI field is refused, and then there is no pair.
                if call.compare(judge).is_some() {
                    round_trip(judge, &call);
                }
            }
        }
    }
}

/// Formats 2 and 3 in every slot: every value of each four neighbouring data digits, the rest at random.
fn neighbours(judge: &mut Judge) {
    let mut random = Random::new(700);
    for number in 2..4 {
        for slot in 0..15 {
            for from in 0..=lengths_of(number).data() - 4 {
                for set in 0..3_usize.pow(4) {
                    let mut call = good_map(&mut random, number, slot);
                    call.data.as_mut().unwrap()[from..from + 4].copy_from_slice(&digits_of(set, 3, 4));
                    round_trip(judge, &call);
                }
            }
        }
    }
}

/// Formats, slots, antennas and commands out of range, near and far, alone and together.
fn numbers(judge: &mut Judge) {
    let mut random = Random::new(710);
    for number in (0..=16).chain(BAD_FORMATS) {
        for slot in [0, 7, 14].into_iter().chain(BAD_SLOTS) {
            for antenna in (0..2).chain(BAD_ANTENNAS) {
                for tpc in (0..=1).chain(BAD_COMMANDS) {
                    let mut call = good_map(&mut random, if number > 12 { 1 } else { number }, 0);
                    call.numbers = [number, slot, antenna, tpc];
                    call.compare(judge);
                }
            }
            let mut call = good_read(&mut random, if number > 16 { 1 } else { number }, slot.min(14));
            (call.number, call.slot) = (number, slot);
            call.compare(judge);
            call.streams[1] = None;
            call.compare(judge);
        }
    }
}

/// Every slot with extreme and random digits, silent TFCI among them; what was mapped is read and must come back.
fn there_and_back(judge: &mut Judge, number: usize) {
    let mut random = Random::new(720 + number as u64);
    let format = lengths_of(number);
    for slot in 0..15 {
        for round in 0..40 {
            let mut call = good_map(&mut random, number, slot);
            if round < 6 {
                call.data = Some(vec![(round % 3) as u8; format.data()]);
                call.numbers[3] = round / 3;
            }
            if round % 5 == 0 {
                call.tfci = Some(vec![2; format.tfci]);
            }
            // An empty TFCI run may be NULL.
            if format.tfci == 0 && round % 2 == 0 {
                call.tfci = None;
            }
            round_trip(judge, &call);
        }
    }
}

/// Every set of the ten faults that a map can have: the earliest check must win.
fn map_faults(judge: &mut Judge, number: usize) {
    let mut random = Random::new(740 + number as u64);
    for set in 0..1 << 10 {
        for _ in 0..2 {
            let slot = random.below(15);
            let mut call = good_map(&mut random, number, slot);
            // The digits are spoiled before the lengths, so that they are there to be spoiled.
            for fault in (0..10).rev().filter(|fault| set >> fault & 1 == 1) {
                match fault {
                    0 => call.numbers[0] = random.pick(&BAD_FORMATS),
                    1 => call.numbers[1] = random.pick(&BAD_SLOTS),
                    2 => call.numbers[2] = random.pick(&BAD_ANTENNAS),
                    3 => change_length(&mut call.data, &mut random),
                    4 => change_length(&mut call.tfci, &mut random),
                    5 => call.room = other_length(call.room, &mut random),
                    6 => call.numbers[3] = random.pick(&BAD_COMMANDS),
                    7 => put_somewhere(call.tfci.as_mut().unwrap(), &NO_DIGITS, &mut random),
                    8 => break_tfci(call.tfci.as_mut().unwrap(), &mut random),
                    _ => put_somewhere(call.data.as_mut().unwrap(), &NO_DIGITS, &mut random),
                }
            }
            call.compare(judge);
        }
    }
}

/// Every set of the twelve faults that a read can have.
fn read_faults(judge: &mut Judge, number: usize) {
    let mut random = Random::new(760 + number as u64);
    let format = lengths_of(number);
    for set in 0..1 << 12 {
        let slot = random.below(15);
        let mut call = good_read(&mut random, number, slot);
        for fault in (0..12).rev().filter(|fault| set >> fault & 1 == 1) {
            let Read { streams: [Some(first), Some(second)], .. } = &mut call else { continue };
            match fault {
                0 => call.number = random.pick(&BAD_FORMATS),
                1 => call.slot = random.pick(&BAD_SLOTS),
                2 => change_length(&mut call.streams[0], &mut random),
                3 => change_length(&mut call.streams[1], &mut random),
                4 => call.data = other_length(call.data, &mut random),
                5 => call.tfci = other_length(call.tfci, &mut random),
                6 => put_somewhere(first, &NO_DIGITS, &mut random),
                7 => put_somewhere(second, &NO_DIGITS, &mut random),
                8 => spoil_tpc(&mut first[format.tpc_at()..format.tfci_at()], &mut random),
                9 => break_tfci(&mut first[format.tfci_at()..format.data2_at()], &mut random),
                10 => put_somewhere(&mut first[format.pilot_at()..], &[0, 1, 2], &mut random),
                _ => put_somewhere(second, &[0, 1, 2], &mut random),
            }
        }
        call.compare(judge);
    }
}

/// Every digit of either stream damaged to each value, in every slot.
fn single_damage(judge: &mut Judge, number: usize) {
    let mut random = Random::new(780 + number as u64);
    for slot in 0..15 {
        let mut call = good_read(&mut random, number, slot);
        for stream in 0..2 {
            for index in 0..lengths_of(number).slot {
                let good = call.streams[stream].as_ref().unwrap()[index];
                for to in DAMAGE {
                    call.streams[stream].as_mut().unwrap()[index] = to;
                    call.compare(judge);
                }
                call.streams[stream].as_mut().unwrap()[index] = good;
            }
        }
    }
}

/// Streams of different fields, of another slot, exchanged, twice the same, and with no plan.
fn random_streams(judge: &mut Judge, number: usize) {
    let mut random = Random::new(800 + number as u64);
    let n = lengths_of(number).slot;
    for round in 0..600 {
        let slot = round % 15;
        let good = good_read(&mut random, number, slot);
        let unlike = good_read(&mut random, number, slot);
        let mut call = good.clone();
        call.streams[1] = unlike.streams[1].clone();
        call.compare(judge);
        call.streams = [good.streams[1].clone(), good.streams[0].clone()];
        call.compare(judge);
        call.streams = [good.streams[0].clone(), good.streams[0].clone()];
        call.compare(judge);
        call = good.clone();
        call.slot = random.below(15);
        call.compare(judge);
        let limit = random.pick(&[2, 3, 256]);
        call.streams = [good.streams[0].clone(), Some(random.digits(n, limit))];
        call.compare(judge);
        call.streams[0] = Some(random.digits(n, limit));
        call.compare(judge);
        // Two or three digits of either stream at once: the lower place of the earlier check must win.
        call = good;
        for _ in 0..2 + random.below(2) {
            let stream = random.below(2);
            put_somewhere(call.streams[stream].as_mut().unwrap(), &DAMAGE, &mut random);
        }
        call.compare(judge);
    }
}

/// Each run of a wrong length, two at once, with good and bad digits in them.
fn wrong_lengths(judge: &mut Judge, number: usize) {
    let mut random = Random::new(820 + number as u64);
    let format = lengths_of(number);
    for (round, n) in lengths(format.slot).into_iter().enumerate() {
        for other in lengths(format.data()) {
            let mut call = good_map(&mut random, number, round);
            call.room = n;
            call.data = other.map(|length| random.digits(length, 4));
            call.compare(judge);
            for stream in 0..2 {
                let mut call = good_read(&mut random, number, round);
                call.streams[stream] = n.map(|length| random.digits(length, 4));
                call.data = other;
                call.compare(judge);
            }
        }
        for other in lengths(format.tfci) {
            let mut call = good_map(&mut random, number, round);
            call.room = n;
            call.tfci = other.map(|length| random.digits(length, 4));
            call.compare(judge);
            let mut call = good_read(&mut random, number, round);
            call.streams[1] = n.map(|length| random.digits(length, 4));
            call.tfci = other;
            call.compare(judge);
        }
    }
}
