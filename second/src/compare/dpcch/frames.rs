//! Frames of the DPCCH: the calls, what spoils them, and the inputs that these frames alone are tried with.

use super::{BAD_FORMATS, FORMATS, NO_BITS, lengths_of, spoil_slot};
use crate::answer::{Answer, Refusal};
use crate::compare::dpch::DAMAGE;
use crate::compare::frames::{self, COMMANDS, Faulty, Frame, Map, SLOTS, good_map, good_read, read_of};
use crate::ffi;
use crate::fields::{NO_COMMANDS, put_somewhere};
use crate::judge::Judge;
use crate::lent::Lent;
use crate::random::Random;
use crate::rules::dpcch::{self as rules, SLOT};

/// Every comparison of frames.
pub fn all(judge: &mut Judge) {
    for of in (0..FORMATS).map(Uplink) {
        there_and_back(judge, of);
        map_damaged(judge, of);
        read_damaged(judge, of);
        frames::faults_in_two_slots(judge, of);
        frames::map_fault_sets(judge, of);
        frames::read_fault_sets(judge, of);
        frames::wrong_lengths(judge, of);
        frames::no_plan(judge, of, 2000, &[2, 3, 256], 20);
        frames::slots_moved(judge, of);
        as_another(judge, of);
    }
    frames::bad_formats::<Uplink>(judge);
}

/// The frame of a format.
#[derive(Clone, Copy)]
struct Uplink(usize);

impl Frame for Uplink {
    const CALLS: [&'static str; 2] = ["slt_dpcch_frame_map", "slt_dpcch_frame_read"];
    const FIELDS: [&'static str; 2] = ["tfci", "fbi"];

    fn in_words(self) -> String {
        format!("format {}", self.0)
    }

    fn lengths(self) -> ([usize; 3], usize) {
        let format = lengths_of(self.0);
        ([SLOTS * format.tfci, SLOTS * format.fbi, SLOTS], SLOTS * SLOT)
    }

    fn fields(self, random: &mut Random) -> [Vec<u8>; 3] {
        self.lengths().0.map(|length| random.digits(length, 2))
    }

    fn rule_map(self, [tfci, fbi, commands]: [&[u8]; 3], n_out: usize) -> Result<Vec<u8>, Refusal> {
        rules::frame_map(self.0, tfci, fbi, n_out, commands)
    }

    fn rule_read(self, frame: &[u8], [tfci, fbi, commands]: [usize; 3]) -> Result<[Vec<u8>; 3], Refusal> {
        rules::frame_read(self.0, frame, tfci, fbi, commands).map(Into::into)
    }

    fn library_map(self, [tfci, fbi, commands]: [&mut Lent<u8>; 3], out: &mut Lent<u8>) -> Answer {
        ffi::dpcch_frame_map(self.0, tfci, fbi, out, commands)
    }

    fn library_read(self, frame: &mut Lent<u8>, [tfci, fbi, commands]: [&mut Lent<u8>; 3]) -> Answer {
        ffi::dpcch_frame_read(self.0, frame, tfci, fbi, commands)
    }
}

impl Faulty for Uplink {
    const FORMATS: usize = FORMATS;
    const FAULTS: [usize; 2] = [3, 3];
    const ROUNDS: usize = 8;
    const BAD: &'static [usize] = &BAD_FORMATS;

    fn of(number: usize) -> Uplink {
        Uplink(number)
    }

    fn number(self) -> usize {
        self.0
    }

    /// The slot's command, its TFCI, its FBI.
    fn spoil_fields(call: &mut Map<Uplink>, slot: usize, fault: usize, random: &mut Random) {
        let (run, values) = [(COMMANDS, &NO_COMMANDS[..]), (0, &NO_BITS[..]), (1, &NO_BITS[..])][fault];
        let part = call.run(run).len() / SLOTS;
        put_somewhere(&mut call.run(run)[slot * part..(slot + 1) * part], values, random);
    }

    fn spoil_slot(self, digits: &mut [u8], fault: usize, random: &mut Random) {
        spoil_slot(digits, &lengths_of(self.0), fault, random);
    }
}

/// Extreme and random bits; what was mapped is read and must come back.
fn there_and_back(judge: &mut Judge, of: Uplink) {
    let mut random = Random::new(of.0 as u64);
    for round in 0..2000 {
        let mut call = good_map(&mut random, of);
        if round < 8 {
            (0..3).for_each(|run| call.run(run).fill((round >> run & 1) as u8));
        }
        frames::there_and_back(judge, call, [round % 2 == 0, round % 4 < 2]);
    }
}

/// Each digit of TFCI and FBI, and each command, damaged to each value: so the first and last of each slot are.
fn map_damaged(judge: &mut Judge, of: Uplink) {
    let mut random = Random::new(20 + of.0 as u64);
    for to in DAMAGE {
        let mut call = good_map(&mut random, of);
        for run in 0..3 {
            for index in 0..call.run(run).len() {
                let good = std::mem::replace(&mut call.run(run)[index], to);
                call.compare(judge);
                call.run(run)[index] = good;
            }
        }
    }
}

/// Every digit of every slot damaged to each value: so the first and last of each field are.
fn read_damaged(judge: &mut Judge, of: Uplink) {
    let mut random = Random::new(80 + of.0 as u64);
    for index in 0..SLOTS * SLOT {
        let mut call = good_read(&mut random, of);
        for to in DAMAGE {
            call.frame.as_mut().unwrap()[index] = to;
            call.compare(judge);
        }
    }
}

/// A frame of one format read as another.
fn as_another(judge: &mut Judge, of: Uplink) {
    let mut random = Random::new(180 + of.0 as u64);
    for round in 0..100 {
        let frame = good_read(&mut random, of).frame.unwrap();
        read_of(Uplink(round % FORMATS), frame).compare(judge);
    }
}
