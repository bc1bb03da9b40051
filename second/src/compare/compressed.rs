//! The compressed DPCH frame: the library's two calls against the rules.

use super::dpch::{BAD_FORMATS, DAMAGE, change_length, other_length};
use super::frame::{slots_of, spoil_fields};
use super::frames::{self, Map, Read, SLOTS, good_map, good_read, read_of};
use crate::answer::{Answer, Refusal};
use crate::ffi;
use crate::judge::Judge;
use crate::lent::Lent;
use crate::random::Random;
use crate::rules::compressed::{self as rules, Frame};
use crate::rules::dpch::Format;

/// Numbers that no slot and no count of slots has.
const HUGE: [usize; 9] = [
    16, 17, 255, 256 + 4, 65536, (1 << 32) + 3, (1 << 63) + 5, usize::MAX - 3, usize::MAX,
];

/// Kinds that are none; 0 is the normal one, which these calls do not take.
const BAD_KINDS: [usize; 8] = [0, 3, 4, 255, 256 + 1, 65536 + 2, (1 << 32) + 1, usize::MAX];

/// Every comparison of the channel.
pub fn all(judge: &mut Judge) {
    for (format, kind) in rows() {
        every_gap(judge, format, kind);
        some_gaps(judge, format, kind);
        frames::wrong_lengths(judge, Frame { format, kind, first: 3, missing: 4 });
        faults(judge, format, kind);
    }
    for (format, kind) in [(0, 2), (3, 1), (12, 2)] {
        for gap in gaps() {
            there_and_back(judge, format, kind, gap);
            damaged_slots(judge, format, kind, gap);
            wrong_gap(judge, format, kind, gap);
        }
    }
    no_row(judge);
    huge_numbers(judge);
}

/// The formats and kinds that the table has.
fn rows() -> Vec<(usize, usize)> {
    let all = (0..=16).flat_map(|format| [(format, 1), (format, 2)]);
    all.filter(|(format, kind)| rules::format(*format, *kind).is_ok()).collect()
}

/// The gaps that the rules permit.
fn gaps() -> Vec<(usize, usize)> {
    let all = (0..SLOTS).flat_map(|first| (0..=SLOTS).map(move |missing| (first, missing)));
    all.filter(|(first, missing)| rules::gap(*first, *missing).is_ok()).collect()
}

// The calls.

impl frames::Frame for Frame {
    const CALLS: [&'static str; 2] = ["slt_compressed_map", "slt_compressed_read"];
    const FIELDS: [&'static str; 2] = ["data", "tfci"];

    fn in_words(self) -> String {
        format!("{self:?}")
    }

    fn lengths(self) -> ([usize; 3], usize) {
        let (format, sent) = (format_of(self), sent(self));
        ([sent * format.data(), sent * format.tfci, sent], SLOTS * format.slot)
    }

    fn fields(self, random: &mut Random) -> [Vec<u8>; 3] {
        slots_of(random, &format_of(self), sent(self))
    }

    fn rule_map(self, [data, tfci, commands]: [&[u8]; 3], n_out: usize) -> Result<Vec<u8>, Refusal> {
        rules::map(self, data, tfci, n_out, commands)
    }

    fn rule_read(self, frame: &[u8], [data, tfci, commands]: [usize; 3]) -> Result<[Vec<u8>; 3], Refusal> {
        rules::read(self, frame, data, tfci, commands).map(Into::into)
    }

    fn library_map(self, [data, tfci, commands]: [&mut Lent<u8>; 3], out: &mut Lent<u8>) -> Answer {
        ffi::compressed_map(self, data, tfci, out, commands)
    }

    fn library_read(self, frame: &mut Lent<u8>, [data, tfci, commands]: [&mut Lent<u8>; 3]) -> Answer {
        ffi::compressed_read(self, frame, data, tfci, commands)
    }
}

fn format_of(of: Frame) -> Format {
    rules::format(of.format, of.kind).expect("a row of the table")
}

/// How many slots are transmitted, as far as there is an answer.
fn sent(of: Frame) -> usize {
    SLOTS.saturating_sub(of.missing)
}

// The inputs.

/// Every first slot and every number of missing ones, whether the gap stands or not, each with the lengths that it would
/// have, and with one run too long.
fn every_gap(judge: &mut Judge, format: usize, kind: usize) {
    let mut random = Random::new((40 * format + kind) as u64);
    for first in 0..SLOTS {
        for missing in 0..=SLOTS {
            let of = Frame { format, kind, first, missing };
            let call = good_map(&mut random, of);
            let frame = call.compare(judge).unwrap_or(vec![2; SLOTS * format_of(of).slot]);
            read_of(of, frame.clone()).compare(judge);
            let mut long = call;
            let mut long_read = read_of(of, frame);
            match (first + missing) % 4 {
                3 => {
                    long.room = other_length(long.room, &mut random);
                    change_length(&mut long_read.frame, &mut random);
                }
                run => {
                    change_length(&mut long.runs[run], &mut random);
                    long_read.rooms[run] = other_length(long_read.rooms[run], &mut random);
                }
            }
            long.compare(judge);
            long_read.compare(judge);
        }
    }
}

/// A few gaps of every row, there and back and damaged.
fn some_gaps(judge: &mut Judge, format: usize, kind: usize) {
    for gap in [(0, 1), (0, 7), (4, 5), (7, 1), (8, 7), (14, 1)] {
        there_and_back(judge, format, kind, gap);
        damaged_slots(judge, format, kind, gap);
    }
}

/// Random fields mapped, and what was mapped read: they come back.
fn there_and_back(judge: &mut Judge, format: usize, kind: usize, (first, missing): (usize, usize)) {
    let of = Frame { format, kind, first, missing };
    let mut random = Random::new((format * 4096 + kind * 256 + first * 16 + missing) as u64);
    for round in 0..4 {
        let call = good_map(&mut random, of);
        frames::there_and_back(judge, call, [round % 2 == 0, false]);
    }
}

/// Digits damaged in the first, a middle and the last missing slot, and in the slots beside the gap.
fn damaged_slots(judge: &mut Judge, format: usize, kind: usize, (first, missing): (usize, usize)) {
    let of = Frame { format, kind, first, missing };
    let mut random = Random::new((format * 8192 + kind * 512 + first * 32 + missing) as u64);
    let row = format_of(of);
    let frame = good_map(&mut random, of).expected().expect("a good call");
    let mut slots = vec![first, first + missing / 2, first + missing - 1];
    slots.extend(first.checked_sub(1));
    slots.extend(Some(first + missing).filter(|slot| *slot < SLOTS));
    let edges = [0, row.tpc_at(), row.tfci_at(), row.data2_at(), row.pilot_at(), row.slot];
    for slot in slots {
        for edge in edges {
            for within in [edge.checked_sub(1), Some(edge).filter(|at| *at < row.slot)].into_iter().flatten() {
                for to in DAMAGE {
                    let mut damaged = frame.clone();
                    damaged[slot * row.slot + within] = to;
                    read_of(of, damaged).compare(judge);
                }
            }
        }
        // 4 wins over 9, and the lower place wins.
        let mut two = frame.clone();
        two[slot * row.slot + row.slot / 2] = random.below(2) as u8;
        two[(slot + 1) * row.slot - 1] = random.pick(&[0, 1, 3, 255]);
        read_of(of, two).compare(judge);
    }
}

/// A frame read with another gap than it was mapped with.
fn wrong_gap(judge: &mut Judge, format: usize, kind: usize, (first, missing): (usize, usize)) {
    let mut random = Random::new((format * 16384 + kind * 1024 + first * 64 + missing) as u64);
    let frame = good_map(&mut random, Frame { format, kind, first, missing }).expected().expect("a good call");
    for (other, count) in gaps() {
        let near = other.abs_diff(first) <= 1 && count.abs_diff(missing) <= 1;
        if near || count == missing {
            read_of(Frame { format, kind, first: other, missing: count }, frame.clone()).compare(judge);
        }
    }
}

/// A fault of the fields in each of two transmitted slots: the lower one wins, then the earlier check.
fn faults(judge: &mut Judge, format: usize, kind: usize) {
    let of = Frame { format, kind, first: 2, missing: 3 };
    let row = format_of(of);
    let mut random = Random::new((format * 2 + kind) as u64);
    for (low, high) in [(0, 1), (1, 2), (2, 11), (5, 5)] {
        for kinds in 0..16 {
            let mut call = good_map(&mut random, of);
            for (index, fault) in [(high, kinds / 4), (low, kinds % 4)] {
                spoil_fields(&mut call, &row, index, fault, &mut random);
            }
            call.compare(judge);
        }
    }
}

/// The numbers of a frame with the runs of another, which is a good one.
fn with_good_runs(judge: &mut Judge, random: &mut Random, of: Frame) {
    let good = Frame { format: 3, kind: 1, first: 3, missing: 4 };
    let (mapping, reading) = (good_map(random, good), good_read(random, good));
    Map { of, ..mapping }.compare(judge);
    Read { of, ..reading }.compare(judge);
}

/// A format, a kind, or a kind of a format that the table lacks wins over every other fault.
fn no_row(judge: &mut Judge) {
    let mut random = Random::new(7);
    let lacking = [(1, 1), (16, 2)].into_iter();
    let formats = BAD_FORMATS.into_iter().flat_map(|format| [(format, 1), (format, 2)]);
    let kinds = BAD_KINDS.into_iter().flat_map(|kind| (0..=17).map(move |format| (format, kind)));
    for (format, kind) in lacking.chain(formats).chain(kinds) {
        for (first, missing) in [(3, 4), (9, 9), (usize::MAX, usize::MAX)] {
            with_good_runs(judge, &mut random, Frame { format, kind, first, missing });
        }
    }
}

/// First slots and numbers of missing ones that are huge are refused; a sum that would wrap is none.
fn huge_numbers(judge: &mut Judge) {
    let mut random = Random::new(8);
    let pairs = HUGE.into_iter().flat_map(|huge| {
        let small = (0..=SLOTS).flat_map(move |other| [(huge, other), (other, huge), (huge.wrapping_neg(), huge)]);
        small.chain(HUGE.map(|other| (huge, other)))
    });
    for (first, missing) in pairs {
        with_good_runs(judge, &mut random, Frame { format: 3, kind: 1, first, missing });
    }
}
