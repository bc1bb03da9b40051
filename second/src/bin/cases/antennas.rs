//! Two antennas: STTD of digits and of AICH values, P5 and P6, the DPCH slot, and the P-CCPCH frame.

use crate::case::{Case, Line};
use crate::runs::{self, FAR, MARK, damaged, far, left, marks, numbers, repeated};
use second::rules::antenna::Given;
use second::rules::dpch::Fields;
use second::rules::{antenna, dpch, pccpch, sttd};

fn digits(name: &str, input: &[u8], n_out: usize) -> Case {
    let outcome = sttd::digits(input, n_out);
    let line = Line::new(name, "STTD digits").key("digits", runs::digits(input));
    line.lent("out", marks(n_out), runs::digits(&left(&outcome, n_out, MARK))).answered(&outcome)
}

fn values(name: &str, input: &[i32]) -> Case {
    let outcome = sttd::values(input, 32);
    let line = Line::new(name, "STTD values").key("values", numbers(input));
    line.lent("out", far(32), numbers(&left(&outcome, 32, FAR))).answered(&outcome)
}

fn encoding() -> Vec<Case> {
    vec![
        digits("P5", &[0, 0, 0, 1], 4),
        digits("P6", &[1, 2, 0, 2], 4),
        // b2 is barred and b3 is not; the bar of DTX is DTX
        digits("slip", &[0, 0, 1, 0], 4),
        digits("slip", &[2, 2, 2, 2], 4),
        digits("done", &[], 0),
        digits("refusal 3", &[0, 3, 1, 0, 1, 0], 6),
        digits("refusal 3", &[0, 3, 1, 0], 8),
        digits("refusal 4", &[0, 1, 1, 0, 2, 3, 2, 4], 8),
        digits("done", &[0, 1, 1, 0, 1, 0, 2, 1], 8),
    ]
}

/// 16, -16, then 0, 1, -1, 2, -2 and so on to 15.
fn encoding_values() -> Vec<Case> {
    let mut input = vec![16, -16, 0];
    for size in 1..15 {
        input.extend([size, -size]);
    }
    input.push(15);
    let mut other = input.clone();
    other[31] = -17;
    vec![values("done", &input), values("refusal 11", &other), values("refusal 3", &[17, 0, 0, 0])]
}

// DPCH slots

/// The numbers are format, slot, antenna and TPC command.
fn slot_map(name: &str, numbers: [usize; 4], tfci: &[u8], data: &[u8], n_out: usize) -> Case {
    let outcome = antenna::map(&Given { numbers, data, tfci, n_out });
    let [format, slot, number, tpc] = numbers;
    let line = Line::new(name, "antenna map").key("format", format).key("slot", slot).key("antenna", number);
    let line = line.key("TPC", tpc).key("TFCI", runs::digits(tfci)).key("data", runs::digits(data));
    line.lent("out", marks(n_out), runs::digits(&left(&outcome, n_out, MARK))).answered(&outcome)
}

fn slot_read(name: &str, numbers: [usize; 2], streams: [&[u8]; 2], n_data: usize, n_tfci: usize) -> Case {
    let ([format, slot], [first, second]) = (numbers, streams);
    let outcome = antenna::read(format, slot, first, second, n_data, n_tfci);
    let untouched = Fields { tpc: 0, data: vec![MARK; n_data], tfci: vec![MARK; n_tfci] };
    let fields = outcome.clone().unwrap_or(untouched);
    let line = Line::new(name, "antennas read").key("format", format).key("slot", slot);
    let line = line.key("first", runs::digits(first)).key("second", runs::digits(second));
    let line = line.gives("TPC", fields.tpc).lent("TFCI", marks(n_tfci), runs::digits(&fields.tfci));
    line.lent("data", marks(n_data), runs::digits(&fields.data)).answered(&outcome)
}

/// A slot of some fields, read back with the digit at a place of either stream turned to another.
fn slot_damaged(name: &str, format: usize, place1: usize, place2: usize, digit: u8) -> Case {
    let lengths = dpch::format(format).expect("formats 0 to 16");
    let (data, tfci) = (repeated(&[1, 0, 2, 0, 1], lengths.data()), repeated(&[1, 0], lengths.tfci));
    let first = dpch::mapped(&lengths, 6, 1, &data, &tfci);
    let second = antenna::second(format, 6, &first);
    let streams = [damaged(&first, place1, digit), damaged(&second, place2, digit)];
    slot_read(name, [format, 6], [&streams[0], &streams[1]], lengths.data(), lengths.tfci)
}

fn mapping_slots() -> Vec<Case> {
    let sixteen = repeated(&[0, 1, 1, 2, 0], 16);
    vec![
        slot_map("other", [0, 0, 0, 0], &[], &[1, 0, 1, 0], 10),
        slot_map("other", [0, 0, 1, 0], &[], &[1, 0, 1, 0], 10),
        // TPC is not encoded at spreading factor 512
        slot_map("slip", [1, 1, 1, 1], &[0, 1], &[1, 0], 10),
        slot_map("slip", [1, 14, 1, 1], &[2, 2], &[2, 1], 10),
        // the two pilot bits come before the last two data digits
        slot_map("other", [2, 1, 0, 0], &[], &sixteen, 20),
        slot_map("other", [2, 1, 1, 0], &[], &sixteen, 20),
        slot_map("slip", [3, 8, 1, 1], &[2, 2], &repeated(&[1, 0, 0], 14), 20),
        // blocks that start afresh at each field give another slot
        slot_map("slip", [4, 5, 1, 1], &[], &repeated(&[1, 0, 0], 14), 20),
        slot_map("slip", [7, 3, 1, 0], &[1, 0], &repeated(&[1, 2, 0], 8), 20),
        slot_map("done", [9, 4, 1, 1], &[0, 1], &repeated(&[1, 1, 0, 2, 0], 32), 40),
        slot_map("done", [12, 9, 1, 0], &[2; 8], &repeated(&[0, 1, 1], 60), 80),
        slot_map("refusal 1", [17, 15, 2, 2], &[3], &[3], 9),
        slot_map("refusal 2", [1, 15, 2, 2], &[3], &[3], 9),
        slot_map("refusal 11", [1, 14, 2, 2], &[3], &[3], 9),
        slot_map("refusal 3", [1, 14, 1, 2], &[3], &[3], 9),
        slot_map("refusal 3", [1, 14, 1, 2], &[3], &[3, 3], 9),
        slot_map("refusal 3", [1, 14, 1, 2], &[3, 3], &[3, 3], 9),
        slot_map("refusal 5", [1, 14, 1, 2], &[3, 3], &[3, 3], 10),
        slot_map("refusal 4", [1, 14, 1, 1], &[2, 3], &[3, 3], 10),
        slot_map("refusal 6", [1, 14, 1, 1], &[0, 2], &[3, 3], 10),
        slot_map("refusal 4", [1, 14, 1, 1], &[0, 1], &[2, 3], 10),
    ]
}

fn reading_slots() -> Vec<Case> {
    let far = usize::MAX;
    vec![
        slot_read("other", [0, 0], [&[0, 0, 1, 0, 1, 0, 1, 1, 1, 1], &[0, 0, 0, 0, 1, 1, 0, 1, 1, 0]], 4, 0),
        slot_damaged("done", 3, far, far, 0),
        slot_damaged("done", 10, far, far, 0),
        slot_damaged("refusal 4", 5, 19, 3, 3),
        slot_damaged("refusal 4", 5, far, 3, 3),
        slot_damaged("refusal 5", 5, 3, 0, 2),
        slot_damaged("refusal 6", 5, 5, 0, 2),
        slot_damaged("refusal 7", 5, 17, 0, 2),
        slot_damaged("refusal 9", 5, far, 0, 2),
        slot_damaged("refusal 9", 2, far, 19, 2),
        slot_damaged("refusal 9", 0, far, 1, 0),
        slot_read("refusal 1", [17, 15], [&[3], &[3]], 1, 1),
        slot_read("refusal 2", [1, 15], [&[3], &[3]], 1, 1),
        slot_read("refusal 3", [1, 1], [&[3], &[3]], 1, 1),
        slot_read("refusal 3", [1, 1], [&[3; 10], &[3]], 1, 1),
        slot_read("refusal 3", [1, 1], [&[3; 10], &[3; 10]], 1, 1),
        slot_read("refusal 3", [1, 1], [&[3; 10], &[3; 10]], 2, 1),
    ]
}

// P-CCPCH frames

/// Seven digits over and over, so that the blocks of four differ.
fn data_of_sevens() -> Vec<u8> {
    repeated(&[0, 0, 1, 0, 1, 1, 1], 270)
}

fn map(name: &str, data: &[u8], n_antenna2: usize) -> Case {
    let outcome = pccpch::map(data, 300, n_antenna2);
    let untouched = [vec![MARK; 300], vec![MARK; n_antenna2]];
    let [antenna1, antenna2] = outcome.clone().unwrap_or(untouched);
    let line = Line::new(name, "P-CCPCH map").key("data", runs::digits(data));
    let line = line.lent("antenna1", marks(300), runs::digits(&antenna1));
    line.lent("antenna2", marks(n_antenna2), runs::digits(&antenna2)).answered(&outcome)
}

fn read(name: &str, antenna1: &[u8], antenna2: &[u8]) -> Case {
    let outcome = pccpch::read(antenna1, antenna2, 270);
    let line = Line::new(name, "P-CCPCH read").key("antenna1", runs::digits(antenna1));
    let line = line.key("antenna2", runs::digits(antenna2));
    line.lent("data", marks(270), runs::digits(&left(&outcome, 270, MARK))).answered(&outcome)
}

/// The two frames of such data, read back with the digit at a place of antenna 1 and one of antenna 2 turned to another.
fn read_damaged(name: &str, place1: usize, place2: usize, digit: u8) -> Case {
    let [antenna1, antenna2] = pccpch::map(&data_of_sevens(), 300, 300).expect("the rules take this data");
    read(name, &damaged(&antenna1, place1, digit), &damaged(&antenna2, place2, digit))
}

fn broadcasting() -> Vec<Case> {
    vec![
        // blocks that are started afresh in each slot give another frame on antenna 2, first where slot 0 ends
        map("slip", &data_of_sevens(), 300),
        map("refusal 4", &damaged(&data_of_sevens(), 19, 2), 300),
        map("refusal 3", &[2], 299),
        map("refusal 3", &[2; 270], 299),
        read_damaged("done", 300, 300, 0),
        read_damaged("refusal 4", 300, 7, 3),
        read_damaged("slip", 300, 18, 1),
        read_damaged("refusal 9", 20, 300, 0),
        read_damaged("refusal 9", 22, 7, 2),
        read_damaged("refusal 9", 300, 299, 1),
        read_damaged("refusal 9", 300, 20, 0),
        read("refusal 3", &[3], &[MARK; 299]),
        read("refusal 3", &[MARK; 300], &[MARK; 299]),
    ]
}

pub fn all() -> Vec<Case> {
    [encoding(), encoding_values(), mapping_slots(), reading_slots(), broadcasting()].concat()
}
