//! The uplink: DPDCH and DPCCH, slots and frames.

use crate::case::{Case, Line};
use crate::runs::{MARK, damaged, digits, left, marks, repeated};
use second::rules::dpcch::{self, Fields, FrameFields};
use second::rules::dpdch;

// DPDCH

/// A map or a read, of a slot or of a frame: they differ in their names and in the names of their runs.
fn carry(name: &str, call: &str, format: usize, given: &[u8], n_to: usize) -> Case {
    let slots = if call.contains("frame") { 15 } else { 1 };
    let keys = if call.ends_with("map") { ["data", "out"] } else { ["digits", "data"] };
    let outcome = dpdch::carry(format, slots, given, n_to);
    let line = Line::new(name, call).key("format", format).key(keys[0], digits(given));
    line.lent(keys[1], marks(n_to), digits(&left(&outcome, n_to, MARK))).answered(&outcome)
}

/// A few digits over and over, to a run of the same length.
fn carry_alike(name: &str, call: &str, format: usize, part: &[u8], length: usize) -> Case {
    carry(name, call, format, &repeated(part, length), length)
}

fn dpdch_slots() -> Vec<Case> {
    let worked = [0, 1, 1, 0, 0, 1, 0, 1, 1, 1];
    vec![
        carry("other", "DPDCH map", 0, &worked, 10),
        carry_alike("done", "DPDCH map", 4, &worked, 160),
        carry("other", "DPDCH map", 7, &worked, 10),
        carry("refusal 1", "DPDCH map", 7, &[3], 1),
        carry("refusal 3", "DPDCH map", 1, &[3], 1),
        carry("refusal 3", "DPDCH map", 1, &repeated(&[3], 20), 10),
        carry_alike("refusal 4", "DPDCH map", 1, &[0, 1, 1, 0, 1, 0, 1, 2, 3], 20),
        carry("done", "DPDCH read", 0, &worked, 10),
        carry_alike("done", "DPDCH read", 3, &[1, 1, 0], 80),
        carry("refusal 1", "DPDCH read", 8, &[3], 1),
        carry("refusal 3", "DPDCH read", 0, &[3], 1),
        carry("refusal 3", "DPDCH read", 0, &repeated(&[3], 10), 9),
        carry_alike("refusal 4", "DPDCH read", 0, &[1, 0, 1, 2], 10),
    ]
}

fn dpdch_frames() -> Vec<Case> {
    let sent = repeated(&[1, 0, 0, 1, 1, 1, 0], 150);
    vec![
        carry("done", "DPDCH frame map", 0, &sent, 150),
        carry_alike("done", "DPDCH frame map", 1, &[0, 1, 1], 300),
        carry("refusal 1", "DPDCH frame map", 7, &sent, 150),
        carry("refusal 3", "DPDCH frame map", 0, &[3; 10], 10),
        carry("refusal 3", "DPDCH frame map", 0, &repeated(&[3], 150), 10),
        carry("refusal 4", "DPDCH frame map", 0, &damaged(&sent, 149, 2), 150),
        carry("done", "DPDCH frame read", 0, &sent, 150),
        carry("refusal 1", "DPDCH frame read", 16, &sent, 150),
        carry("refusal 3", "DPDCH frame read", 1, &sent, 150),
        carry("refusal 3", "DPDCH frame read", 0, &sent, 151),
        carry("refusal 4", "DPDCH frame read", 0, &damaged(&sent, 70, 7), 150),
    ]
}

// DPCCH slots

/// The numbers are format, slot and TPC command.
fn map(name: &str, numbers: [usize; 3], tfci: &[u8], fbi: &[u8], n_out: usize) -> Case {
    let [format, slot, tpc] = numbers;
    let outcome = dpcch::map(format, slot, tpc, tfci, fbi, n_out);
    let line = Line::new(name, "DPCCH map").key("format", format).key("slot", slot).key("TPC", tpc);
    let line = line.key("TFCI", digits(tfci)).key("FBI", digits(fbi));
    line.lent("out", marks(n_out), digits(&left(&outcome, n_out, MARK))).answered(&outcome)
}

fn read(name: &str, format: usize, slot: usize, run: &[u8], n_tfci: usize, n_fbi: usize) -> Case {
    let outcome = dpcch::read(format, slot, run, n_tfci, n_fbi);
    let untouched = Fields { tpc: 0, tfci: vec![MARK; n_tfci], fbi: vec![MARK; n_fbi] };
    let fields = outcome.clone().unwrap_or(untouched);
    let line = Line::new(name, "DPCCH read").key("format", format).key("slot", slot).key("digits", digits(run));
    let line = line.gives("TPC", fields.tpc).lent("TFCI", marks(n_tfci), digits(&fields.tfci));
    line.lent("FBI", marks(n_fbi), digits(&fields.fbi)).answered(&outcome)
}

/// A slot of format 2, which has every field: five digits of pilot, then TFCI, FBI and TPC.
fn read_2(name: &str, slot: usize, run: [u8; 10]) -> Case {
    read(name, 2, slot, &run, 2, 1)
}

fn dpcch_maps() -> Vec<Case> {
    vec![
        map("other", [2, 1, 1], &[0, 1], &[1], 10),
        map("other", [0, 0, 0], &[1, 0], &[], 10),
        map("other", [1, 2, 1], &[], &[], 10),
        map("other", [3, 14, 0], &[], &[0], 10),
        map("other", [4, 0, 0], &[], &[1, 1], 10),
        map("other", [5, 0, 0], &[0, 1], &[1, 1], 10),
        map("refusal 1", [4, 15, 2], &[3], &[3], 9),
        map("refusal 2", [2, 15, 2], &[3], &[3], 9),
        map("refusal 3", [2, 14, 2], &[3], &[], 9),
        map("refusal 3", [2, 14, 2], &[3, 3], &[], 9),
        map("refusal 3", [2, 14, 2], &[3, 3], &[3], 9),
        map("refusal 5", [2, 14, 2], &[3, 3], &[3], 10),
        map("refusal 4", [2, 14, 1], &[1, 2], &[3], 10),
        map("refusal 4", [2, 14, 1], &[1, 0], &[2], 10),
        map("refusal 4", [0, 14, 1], &[2, 2], &[], 10),
    ]
}

fn dpcch_reads() -> Vec<Case> {
    vec![
        read_2("other", 1, [0, 0, 1, 1, 0, 0, 1, 1, 1, 1]),
        read_2("other", 2, [0, 0, 1, 1, 0, 0, 1, 1, 1, 1]),
        read_2("other", 1, [0, 0, 1, 1, 0, 0, 1, 1, 1, 0]),
        read_2("other", 1, [0, 0, 1, 1, 0, 2, 1, 1, 1, 1]),
        read("done", 0, 0, &[1, 1, 1, 1, 1, 0, 1, 0, 0, 0], 2, 0),
        read("done", 1, 2, &[1, 0, 1, 1, 1, 0, 1, 1, 1, 1], 0, 0),
        read("done", 3, 14, &[1, 0, 0, 1, 1, 1, 1, 0, 0, 0], 0, 1),
        read("refusal 1", 4, 15, &[3], 1, 0),
        read("refusal 2", 2, 15, &[3], 1, 0),
        read("refusal 3", 2, 1, &[3], 1, 0),
        read("refusal 3", 2, 1, &[3; 10], 1, 0),
        read("refusal 3", 2, 1, &[3; 10], 2, 0),
        // what the checks behind would refuse as well is not told
        read_2("refusal 4", 1, [1, 0, 1, 1, 0, 0, 1, 1, 0, 2]),
        read_2("refusal 5", 1, [1, 0, 1, 1, 0, 0, 1, 1, 0, 1]),
        read_2("refusal 7", 1, [0, 0, 0, 1, 1, 0, 1, 1, 0, 0]),
    ]
}

// DPCCH frames of format 2

const COMMANDS: [u8; 15] = [0, 1, 0, 0, 1, 1, 0, 0, 0, 1, 1, 1, 0, 1, 1];

const TFCI: [u8; 7] = [0, 1, 1, 1, 0, 0, 1];

const FBI: [u8; 4] = [1, 1, 0, 1];

/// A frame of 30 TFCI digits, 15 of FBI and 15 commands.
fn frame_map(name: &str, format: usize, tfci: &[u8], fbi: &[u8], commands: &[u8]) -> Case {
    let outcome = dpcch::frame_map(format, tfci, fbi, 150, commands);
    let line = Line::new(name, "DPCCH frame map").key("format", format).key("commands", digits(commands));
    let line = line.key("TFCI", digits(tfci)).key("FBI", digits(fbi));
    line.lent("out", marks(150), digits(&left(&outcome, 150, MARK))).answered(&outcome)
}

fn frame_read(name: &str, format: usize, run: &[u8]) -> Case {
    let outcome = dpcch::frame_read(format, run, 30, 15, 15);
    let untouched = FrameFields { tfci: vec![MARK; 30], fbi: vec![MARK; 15], commands: vec![MARK; 15] };
    let fields = outcome.clone().unwrap_or(untouched);
    let line = Line::new(name, "DPCCH frame read").key("format", format).key("digits", digits(run));
    let line = line.lent("commands", marks(15), digits(&fields.commands));
    let line = line.lent("TFCI", marks(30), digits(&fields.tfci));
    line.lent("FBI", marks(15), digits(&fields.fbi)).answered(&outcome)
}

/// A frame, read back with the digit at a place turned to another.
fn frame_damaged(name: &str, place: usize, digit: u8) -> Case {
    let outcome = dpcch::frame_map(2, &repeated(&TFCI, 30), &repeated(&FBI, 15), 150, &COMMANDS);
    frame_read(name, 2, &damaged(&outcome.expect("the rules take these fields"), place, digit))
}

fn dpcch_frame_maps() -> Vec<Case> {
    let (tfci, fbi) = (repeated(&TFCI, 30), repeated(&FBI, 15));
    // command 10 is none, but what is wrong in an earlier slot is told first
    let ten = damaged(&COMMANDS, 10, 2);
    vec![
        frame_map("done", 2, &tfci, &fbi, &COMMANDS),
        frame_map("done", 3, &[], &fbi, &COMMANDS),
        frame_map("refusal 1", 4, &[3], &[3], &[2]),
        frame_map("refusal 3", 2, &[3], &[3], &[2]),
        frame_map("refusal 3", 0, &tfci, &fbi, &[2]),
        frame_map("refusal 3", 2, &tfci, &fbi, &[2]),
        frame_map("refusal 5", 2, &damaged(&tfci, 22, 2), &damaged(&fbi, 11, 2), &ten),
        frame_map("refusal 4", 2, &damaged(&tfci, 19, 2), &damaged(&fbi, 9, 3), &ten),
        frame_map("refusal 4", 2, &damaged(&tfci, 20, 2), &damaged(&fbi, 9, 3), &ten),
    ]
}

fn dpcch_frame_reads() -> Vec<Case> {
    vec![
        frame_damaged("done", 150, 0),
        frame_damaged("refusal 4", 45, 2),
        frame_damaged("refusal 5", 109, 0),
        frame_damaged("refusal 7", 140, 1),
        frame_damaged("refusal 7", 4, 1),
        frame_read("refusal 1", 4, &[3]),
        frame_read("refusal 3", 2, &[3]),
        frame_read("refusal 3", 3, &[3; 150]),
        frame_read("refusal 3", 0, &[3; 150]),
    ]
}

pub fn all() -> Vec<Case> {
    let data = [dpdch_slots(), dpdch_frames()].concat();
    [data, dpcch_maps(), dpcch_reads(), dpcch_frame_maps(), dpcch_frame_reads()].concat()
}
