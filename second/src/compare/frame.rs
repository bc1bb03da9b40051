//! The DPCH frame: the library's two calls against the rules.

use super::dpch::{BAD_FORMATS, DAMAGE, spoil_slot};
use super::frames::{self, COMMANDS, Faulty, Frame, Map, SLOTS, good_map, good_read, read_of};
use crate::answer::{Answer, Refusal};
use crate::ffi;
use crate::fields::{NO_COMMANDS, NO_DIGITS, break_tfci, lengths_of, put_somewhere, random_tfci};
use crate::judge::Judge;
use crate::lent::Lent;
use crate::random::Random;
use crate::rules::dpch::Format;
use crate::rules::frame as rules;

/// Which of the three runs is which.
pub const DATA: usize = 0;
pub const TFCI: usize = 1;

/// Every comparison of the channel.
pub fn all(judge: &mut Judge) {
    for of in (0..Normal::FORMATS).map(Normal) {
        there_and_back(judge, of);
        silence_in_turn(judge, of);
        map_damaged(judge, of);
        read_damaged(judge, of);
        frames::faults_in_two_slots(judge, of);
        frames::map_fault_sets(judge, of);
        frames::read_fault_sets(judge, of);
        frames::wrong_lengths(judge, of);
        frames::no_plan(judge, of, 300, &[3, 256], 10);
        frames::slots_moved(judge, of);
    }
    frames::bad_formats::<Normal>(judge);
}

// The calls, and what spoils them.

/// The frame of a normal format.
#[derive(Clone, Copy)]
struct Normal(usize);

impl Frame for Normal {
    const CALLS: [&'static str; 2] = ["slt_frame_map", "slt_frame_read"];
    const FIELDS: [&'static str; 2] = ["data", "tfci"];

    fn in_words(self) -> String {
        format!("format {}", self.0)
    }

    fn lengths(self) -> ([usize; 3], usize) {
        let format = lengths_of(self.0);
        ([SLOTS * format.data(), SLOTS * format.tfci, SLOTS], SLOTS * format.slot)
    }

    fn fields(self, random: &mut Random) -> [Vec<u8>; 3] {
        slots_of(random, &lengths_of(self.0), SLOTS)
    }

    fn rule_map(self, [data, tfci, commands]: [&[u8]; 3], n_out: usize) -> Result<Vec<u8>, Refusal> {
        rules::map(self.0, data, tfci, n_out, commands)
    }

    fn rule_read(self, frame: &[u8], [data, tfci, commands]: [usize; 3]) -> Result<[Vec<u8>; 3], Refusal> {
        rules::read(self.0, frame, data, tfci, commands).map(Into::into)
    }

    fn library_map(self, [data, tfci, commands]: [&mut Lent<u8>; 3], out: &mut Lent<u8>) -> Answer {
        ffi::frame_map(self.0, data, tfci, out, commands)
    }

    fn library_read(self, frame: &mut Lent<u8>, [data, tfci, commands]: [&mut Lent<u8>; 3]) -> Answer {
        ffi::frame_read(self.0, frame, data, tfci, commands)
    }
}

impl Faulty for Normal {
    const FORMATS: usize = 17;
    const FAULTS: [usize; 2] = [4, 4];
    const ROUNDS: usize = 1;
    const BAD: &'static [usize] = &BAD_FORMATS;

    fn of(number: usize) -> Normal {
        Normal(number)
    }

    fn number(self) -> usize {
        self.0
    }

    fn spoil_fields(call: &mut Map<Normal>, slot: usize, fault: usize, random: &mut Random) {
        spoil_fields(call, &lengths_of(call.of.0), slot, fault, random);
    }

    fn spoil_slot(self, digits: &mut [u8], fault: usize, random: &mut Random) {
        spoil_slot(digits, &lengths_of(self.0), fault, random);
    }
}

/// Random good digits for so many slots, each slot's TFCI of its own kind.
pub fn slots_of(random: &mut Random, format: &Format, slots: usize) -> [Vec<u8>; 3] {
    let data = random.digits(slots * format.data(), 3);
    let tfci = (0..slots).flat_map(|_| random_tfci(random, format)).collect();
    [data, tfci, random.digits(slots, 2)]
}

/// One of the four faults that the fields of a slot can have, in the order of the checks.
pub fn spoil_fields<F: Frame>(call: &mut Map<F>, format: &Format, slot: usize, fault: usize, random: &mut Random) {
    let tfci = slot * format.tfci..(slot + 1) * format.tfci;
    match fault {
        0 => call.run(COMMANDS)[slot] = random.pick(&NO_COMMANDS),
        1 => put_somewhere(&mut call.run(TFCI)[tfci], &NO_DIGITS, random),
        2 => break_tfci(&mut call.run(TFCI)[tfci], random),
        3 => put_somewhere(&mut call.run(DATA)[slot * format.data()..(slot + 1) * format.data()], &NO_DIGITS, random),
        _ => unreachable!("four faults"),
    }
}

// The inputs that this frame alone is tried with.

/// Extreme and random digits; what was mapped is read and must come back.
fn there_and_back(judge: &mut Judge, of: Normal) {
    let mut random = Random::new(of.0 as u64);
    for round in 0..60 {
        let mut call = good_map(&mut random, of);
        if round < 6 {
            call.run(DATA).fill((round % 3) as u8);
            call.run(COMMANDS).fill((round / 3) as u8);
        }
        frames::there_and_back(judge, call, [round % 2 == 0, round % 4 < 2]);
    }
}

/// Silent and spoken slots in turn, from either on, and one silent slot among spoken ones and the other way round: mapped
/// and read back.
fn silence_in_turn(judge: &mut Judge, of: Normal) {
    let mut random = Random::new(200 + of.0 as u64);
    let tfci = lengths_of(of.0).tfci;
    let turns = (0..2).map(|first| (0..SLOTS).map(|slot| slot % 2 == first).collect());
    let alone = (0..SLOTS).map(|one| (0..SLOTS).map(|slot| slot == one).collect());
    for silent in turns.chain(alone).collect::<Vec<Vec<bool>>>() {
        for turned in [false, true] {
            let mut call = good_map(&mut random, of);
            for slot in 0..SLOTS {
                let digits = if silent[slot] != turned { vec![2; tfci] } else { random.digits(tfci, 2) };
                call.run(TFCI)[slot * tfci..(slot + 1) * tfci].copy_from_slice(&digits);
            }
            frames::there_and_back(judge, call, [false, false]);
        }
    }
}

/// The first and last digit of each slot's data and TFCI, and each command, damaged to each value.
fn map_damaged(judge: &mut Judge, of: Normal) {
    let mut random = Random::new(20 + of.0 as u64);
    for slot in 0..SLOTS {
        for to in DAMAGE {
            let good = good_map(&mut random, of);
            for (run, length) in of.lengths().0.into_iter().enumerate() {
                let part = length / SLOTS;
                let ends = [slot * part, ((slot + 1) * part).saturating_sub(1)];
                // A run of no digits has no end, and one of a command a slot only one.
                for index in &ends[..part.min(2)] {
                    let mut call = good.clone();
                    call.run(run)[*index] = to;
                    call.compare(judge);
                }
            }
        }
    }
}

/// The first and last digit of every field of every slot damaged to each value; in the shorter formats every digit.
fn read_damaged(judge: &mut Judge, of: Normal) {
    let mut random = Random::new(80 + of.0 as u64);
    let format = lengths_of(of.0);
    let edges = [0, format.tpc_at(), format.tfci_at(), format.data2_at(), format.pilot_at(), format.slot];
    for slot in 0..SLOTS {
        let call = good_read(&mut random, of);
        for within in 0..format.slot {
            let at_an_edge = edges.contains(&within) || edges.contains(&(within + 1));
            if at_an_edge || of.0 <= 12 {
                for to in DAMAGE {
                    let mut damaged = call.frame.clone().unwrap();
                    damaged[slot * format.slot + within] = to;
                    read_of(of, damaged).compare(judge);
                }
            }
        }
    }
}
