//! DPCH frames: fifteen slots of format 1, each with a command, TFCI, data and pilot of its own.

use crate::case::{Case, Line};
use crate::runs::{MARK, damaged, digits, left, marks, repeated};
use second::rules::frame::{self, Fields};

const COMMANDS: [u8; 15] = [0, 1, 0, 0, 1, 1, 0, 0, 0, 1, 1, 1, 0, 1, 1];

const DATA: [u8; 5] = [1, 0, 0, 2, 1];

const TFCI: [u8; 7] = [0, 1, 1, 1, 0, 0, 1];

/// A frame of 30 data digits, 30 of TFCI and 15 commands, each run a few digits over and over.
fn map_1(name: &str, format: usize, data_part: &[u8], tfci_part: &[u8], commands: &[u8]) -> Case {
    let (data, tfci) = (repeated(data_part, 30), repeated(tfci_part, 30));
    let outcome = frame::map(format, &data, &tfci, 150, commands);
    let line = Line::new(name, "frame map").key("format", format).key("commands", digits(commands));
    let line = line.key("TFCI", digits(&tfci)).key("data", digits(&data));
    line.lent("out", marks(150), digits(&left(&outcome, 150, MARK))).answered(&outcome)
}

fn read_1(name: &str, run: &[u8]) -> Case {
    let outcome = frame::read(1, run, 30, 30, 15);
    let untouched = Fields { data: vec![MARK; 30], tfci: vec![MARK; 30], commands: vec![MARK; 15] };
    let fields = outcome.clone().unwrap_or(untouched);
    let line = Line::new(name, "frame read").key("format", 1).key("digits", digits(run));
    let line = line.lent("commands", marks(15), digits(&fields.commands));
    let line = line.lent("TFCI", marks(30), digits(&fields.tfci));
    line.lent("data", marks(30), digits(&fields.data)).answered(&outcome)
}

/// A frame, read back with the digit at a place turned to another.
fn read_damaged(name: &str, place: usize, digit: u8) -> Case {
    let outcome = frame::map(1, &repeated(&DATA, 30), &repeated(&TFCI, 30), 150, &COMMANDS);
    let run = outcome.expect("the rules take these fields");
    read_1(name, &damaged(&run, place, digit))
}

pub fn all() -> Vec<Case> {
    // command 10 is none, but what is wrong in an earlier slot is told first
    let ten = [0, 0, 0, 0, 0, 0, 0, 0, 0, 0, 2, 0, 0, 2, 0];
    vec![
        map_1("done", 1, &DATA, &TFCI, &COMMANDS),
        map_1("done", 1, &DATA, &[0, 1, 2, 2], &COMMANDS),
        map_1("refusal 1", 17, &[3], &[3], &[2]),
        map_1("refusal 3", 0, &[3], &[3], &[2]),
        map_1("refusal 3", 1, &[3], &[3], &[2]),
        map_1("refusal 5", 1, &[0, 1], &[0, 1], &ten),
        map_1("refusal 6", 1, &[0, 1], &[0, 1, 1, 0, 1, 0, 0, 0, 1, 2], &ten),
        map_1("refusal 4", 1, &[0, 0, 0, 0, 0, 0, 0, 3], &[0, 1, 1, 0, 1, 0, 0, 0, 3], &ten),
        read_damaged("done", 150, 0),
        read_damaged("refusal 4", 43, 7),
        read_damaged("refusal 5", 101, 2),
        read_damaged("refusal 6", 142, 2),
        read_damaged("refusal 7", 19, 1),
    ]
}
