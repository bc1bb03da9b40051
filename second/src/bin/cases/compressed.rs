//! Compressed DPCH frames: 0B, whose pilot and TPC are doubled, and 3A, whose TFCI is.

use crate::case::{Case, Line};
use crate::runs::{MARK, damaged, digits, left, marks, repeated};
use second::rules::compressed::{self, Frame};
use second::rules::frame::Fields;

const COMMANDS: [u8; 14] = [0, 1, 1, 0, 1, 0, 0, 0, 1, 1, 1, 0, 1, 1];

const DATA: [u8; 5] = [1, 0, 0, 2, 1];

const TFCI: [u8; 7] = [0, 1, 1, 0, 0, 1, 1];

/// 0B with slots 4 to 6 missing, and 3A with slots 8 to 14.
const MIDDLE: Frame = Frame { format: 0, kind: 2, first: 4, missing: 3 };
const END: Frame = Frame { format: 3, kind: 1, first: 8, missing: 7 };

fn numbered(line: Line, of: Frame) -> Line {
    let line = line.key("format", of.format).key("kind", of.kind);
    line.key("first", of.first).key("missing", of.missing)
}

/// The lengths of data, TFCI and commands of the two frames.
fn lengths(of: Frame) -> [usize; 3] {
    if of.kind == 2 { [96, 0, 12] } else { [96, 32, 8] }
}

/// Any runs, into one of so many digits.
fn map_runs(name: &str, of: Frame, data: &[u8], tfci: &[u8], commands: &[u8], n_out: usize) -> Case {
    let outcome = compressed::map(of, data, tfci, n_out, commands);
    let line = numbered(Line::new(name, "compressed map"), of).key("commands", digits(commands));
    let line = line.key("TFCI", digits(tfci)).key("data", digits(data));
    line.lent("out", marks(n_out), digits(&left(&outcome, n_out, MARK))).answered(&outcome)
}

/// A few digits over and over, in the lengths of one of the two frames.
fn map(name: &str, of: Frame, data_part: &[u8], tfci_part: &[u8], commands: &[u8]) -> Case {
    let [n_data, n_tfci, n_commands] = lengths(of);
    map_runs(name, of, &repeated(data_part, n_data), &repeated(tfci_part, n_tfci), &commands[..n_commands], 300)
}

fn read_runs(name: &str, of: Frame, run: &[u8], [n_data, n_tfci, n_commands]: [usize; 3]) -> Case {
    let outcome = compressed::read(of, run, n_data, n_tfci, n_commands);
    let untouched = Fields { data: vec![MARK; n_data], tfci: vec![MARK; n_tfci], commands: vec![MARK; n_commands] };
    let fields = outcome.clone().unwrap_or(untouched);
    let line = numbered(Line::new(name, "compressed read"), of).key("digits", digits(run));
    let line = line.lent("commands", marks(n_commands), digits(&fields.commands));
    let line = line.lent("TFCI", marks(n_tfci), digits(&fields.tfci));
    line.lent("data", marks(n_data), digits(&fields.data)).answered(&outcome)
}

fn read(name: &str, of: Frame, run: &[u8]) -> Case {
    read_runs(name, of, run, lengths(of))
}

/// What the rules make of a frame's fields, with the digit at a place turned to another.
fn sent(of: Frame, place: usize, digit: u8) -> Vec<u8> {
    let [n_data, n_tfci, n_commands] = lengths(of);
    let (data, tfci) = (repeated(&DATA, n_data), repeated(&TFCI, n_tfci));
    let outcome = compressed::map(of, &data, &tfci, 300, &COMMANDS[..n_commands]);
    damaged(&outcome.expect("the rules take these fields"), place, digit)
}

pub fn all() -> Vec<Case> {
    let of = |format, kind, first, missing| Frame { format, kind, first, missing };
    // where row or gap is refused nobody looks at the runs
    let bad = |name, frame| map_runs(name, frame, &[3], &[3], &[2], 1);
    vec![
        map("done", MIDDLE, &DATA, &TFCI, &COMMANDS),
        map("done", END, &DATA, &TFCI, &COMMANDS),
        bad("refusal 1", of(1, 1, 4, 3)),
        bad("refusal 1", of(16, 2, 4, 3)),
        bad("refusal 1", of(17, 1, 4, 3)),
        bad("refusal 1", of(0, 0, 4, 3)),
        bad("refusal 1", of(0, 3, 14, 3)),
        bad("refusal 27", of(0, 2, 13, 3)),
        bad("refusal 27", of(0, 2, 0, 0)),
        bad("refusal 27", of(0, 2, 4, 8)),
        bad("refusal 3", MIDDLE),
        map_runs("refusal 3", MIDDLE, &repeated(&[3], 96), &[], &COMMANDS[..12], 1),
        map("refusal 5", MIDDLE, &DATA, &TFCI, &[0, 1, 1, 0, 1, 2, 0, 0, 0, 2, 0, 0]),
        map("refusal 6", END, &DATA, &[0, 1, 1, 0, 0, 1, 0, 2], &COMMANDS),
        map("refusal 4", END, &[0, 1, 2, 2, 1, 0, 0, 1, 1, 0, 2, 1, 0, 3], &TFCI, &COMMANDS),
        read("done", MIDDLE, &sent(MIDDLE, 300, 0)),
        read("done", END, &sent(END, 300, 0)),
        read_runs("refusal 27", of(0, 2, 4, 0), &[3], [1, 1, 1]),
        read_runs("refusal 3", MIDDLE, &[3], [1, 1, 1]),
        read("refusal 9", MIDDLE, &sent(MIDDLE, 99, 0)),
        read("refusal 4", MIDDLE, &sent(MIDDLE, 139, 3)),
        read("refusal 7", MIDDLE, &sent(MIDDLE, 159, 2)),
        // read with the gap one slot later: its first slot is silent, and the slot behind its last is not
        read("refusal 5", of(0, 2, 5, 3), &sent(MIDDLE, 300, 0)),
    ]
}
