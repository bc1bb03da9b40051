//! DPCH slots: P1 to P4, and the refusals 1 to 7.

use crate::case::{Case, Line};
use crate::runs::{MARK, digits, left, marks, repeated};
use second::rules::dpch::{self, Fields};

/// The numbers are format, slot and TPC command.
fn map(name: &str, numbers: [usize; 3], tfci: &[u8], data: &[u8], n_out: usize) -> Case {
    let [format, slot, tpc] = numbers;
    let outcome = dpch::map(format, slot, tpc, data, tfci, n_out);
    let line = Line::new(name, "slot map").key("format", format).key("slot", slot).key("TPC", tpc);
    let line = line.key("TFCI", digits(tfci)).key("data", digits(data));
    line.lent("out", marks(n_out), digits(&left(&outcome, n_out, MARK))).answered(&outcome)
}

fn read(name: &str, format: usize, slot: usize, run: &[u8], n_data: usize, n_tfci: usize) -> Case {
    let outcome = dpch::read(format, slot, run, n_data, n_tfci);
    let untouched = Fields { tpc: 0, data: vec![MARK; n_data], tfci: vec![MARK; n_tfci] };
    let fields = outcome.clone().unwrap_or(untouched);
    let line = Line::new(name, "slot read").key("format", format).key("slot", slot).key("digits", digits(run));
    let line = line.gives("TPC", fields.tpc).lent("TFCI", marks(n_tfci), digits(&fields.tfci));
    line.lent("data", marks(n_data), digits(&fields.data)).answered(&outcome)
}

/// A slot of format 1, whose ten digits are TPC, TFCI, data and pilot.
fn read_1(name: &str, slot: usize, run: &[u8]) -> Case {
    read(name, 1, slot, run, 2, 2)
}

fn map_1(name: &str, numbers: [usize; 3], tfci: &[u8], data: &[u8]) -> Case {
    map(name, numbers, tfci, data, 10)
}

/// A slot of format 12, with eight TFCI digits.
fn map_12(name: &str, tpc: usize, tfci: &[u8]) -> Case {
    map(name, [12, 7, tpc], tfci, &repeated(&[1, 0, 0, 2], 60), 80)
}

fn marked() -> Vec<Case> {
    vec![
        map_1("P1", [0, 0, 0], &[], &[1, 0, 1, 0]),
        map_1("P2", [1, 1, 1], &[0, 1], &[1, 0]),
        map_1("P3", [17, 0, 0], &[], &[1, 0, 1, 0]),
        map_1("P4", [0, 15, 0], &[], &[1, 0, 1, 0]),
    ]
}

fn map_numbers() -> Vec<Case> {
    vec![
        map_1("refusal 1", [18, 15, 2], &[3], &[3]),
        map_1("refusal 2", [1, 15, 2], &[3], &[3]),
        map_1("refusal 5", [1, 14, 2], &[3, 3], &[3, 3]),
    ]
}

fn map_lengths() -> Vec<Case> {
    vec![
        map_1("refusal 3", [1, 14, 2], &[3], &[3]),
        map_1("refusal 3", [1, 14, 2], &[3], &[3, 3]),
        map("refusal 3", [1, 14, 2], &[3, 3], &[3, 3], 9),
    ]
}

fn map_digits() -> Vec<Case> {
    vec![
        map_1("refusal 4", [1, 14, 1], &[2, 3], &[3, 3]),
        map_1("refusal 6", [1, 14, 1], &[0, 2], &[3, 3]),
        map_1("refusal 4", [1, 14, 1], &[0, 1], &[2, 3]),
        map_1("done", [1, 14, 1], &[0, 1], &[2, 1]),
    ]
}

/// A slot of format 9, with two.
fn map_9(name: &str, tfci: &[u8]) -> Case {
    map(name, [9, 4, 1], tfci, &repeated(&[0, 1, 2], 32), 40)
}

fn map_silence() -> Vec<Case> {
    vec![
        map_1("done", [1, 14, 1], &[2, 2], &[2, 1]),
        map_9("done", &[2, 2]),
        map_9("refusal 6", &[2, 1]),
        map_9("refusal 6", &[1, 2]),
        map_12("done", 1, &[2; 8]),
        map_12("done", 0, &[1, 0, 0, 1, 1, 0, 1, 0]),
        map_12("refusal 6", 0, &[2, 2, 2, 2, 2, 1, 2, 0]),
        map_12("refusal 6", 0, &[0, 1, 1, 2, 0, 1, 2, 2]),
    ]
}

fn read_numbers() -> Vec<Case> {
    vec![
        read("refusal 1", 17, 15, &[3], 1, 1),
        read("refusal 2", 1, 15, &[3], 1, 1),
    ]
}

fn read_lengths() -> Vec<Case> {
    vec![
        read("refusal 3", 1, 1, &[3], 1, 1),
        read("refusal 3", 1, 1, &[1, 1, 0, 1, 1, 3, 1, 1, 0, 0], 1, 1),
        read("refusal 3", 1, 1, &[1, 1, 0, 1, 1, 3, 1, 1, 0, 0], 2, 1),
    ]
}

fn read_fields() -> Vec<Case> {
    vec![
        read_1("done", 1, &[1, 1, 0, 1, 1, 0, 1, 1, 0, 0]),
        read_1("refusal 4", 1, &[1, 0, 2, 1, 1, 0, 0, 1, 0, 3]),
        read_1("refusal 5", 1, &[1, 0, 2, 1, 1, 0, 0, 1, 0, 0]),
        read_1("refusal 5", 1, &[2, 2, 2, 1, 1, 0, 0, 1, 0, 0]),
    ]
}

fn read_pilots() -> Vec<Case> {
    vec![
        read_1("done", 1, &[1, 1, 2, 2, 1, 0, 1, 1, 0, 0]),
        read_1("refusal 6", 1, &[1, 1, 0, 2, 1, 0, 0, 1, 0, 0]),
        read_1("refusal 7", 1, &[1, 1, 0, 1, 1, 0, 1, 1, 0, 1]),
        read_1("refusal 7", 2, &[1, 1, 0, 1, 1, 0, 1, 1, 0, 0]),
    ]
}

pub fn all() -> Vec<Case> {
    let mapped = [marked(), map_numbers(), map_lengths(), map_digits(), map_silence()].concat();
    let read = [read_numbers(), read_lengths(), read_fields(), read_pilots()].concat();
    [mapped, read].concat()
}
