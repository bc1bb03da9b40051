//! PICH: P7 and P8, and the frame of paging indicators.

use crate::case::{Case, Line};
use crate::runs::{MARK, damaged, digits, left, marks, repeated};
use second::rules::pich;

const MAPPED: [u8; 18] = [1, 0, 0, 1, 1, 1, 0, 1, 0, 0, 0, 1, 0, 1, 1, 0, 0, 1];

const READ: [u8; 18] = [0, 1, 0, 1, 1, 1, 0, 1, 0, 0, 0, 1, 0, 1, 1, 0, 0, 1];

/// The value beside a refusal is 0.
fn q(name: &str, np: usize, sfn: usize, pi: usize) -> Case {
    let outcome = pich::q(np, pi, sfn);
    let line = Line::new(name, "PICH q").key("Np", np).key("SFN", sfn).key("PI", pi);
    line.gives("q", outcome.unwrap_or(0)).answered(&outcome)
}

fn map(name: &str, np: usize, indicators: &[u8], n_frame: usize) -> Case {
    let outcome = pich::map(np, indicators, n_frame);
    let line = Line::new(name, "PICH map").key("Np", np).key("indicators", digits(indicators));
    line.lent("frame", marks(n_frame), digits(&left(&outcome, n_frame, MARK))).answered(&outcome)
}

fn read(name: &str, np: usize, frame: &[u8]) -> Case {
    let outcome = pich::read(np, frame, 18);
    let line = Line::new(name, "PICH read").key("Np", np).key("frame", digits(frame));
    line.lent("indicators", marks(18), digits(&left(&outcome, 18, MARK))).answered(&outcome)
}

fn numbers() -> Vec<Case> {
    vec![
        q("P7", 18, 1, 5),
        q("P8", 36, 4095, 35),
        q("other", 18, 4096, 5),
        q("other", 73, 4096, 73),
        q("refusal 11", 18, 4096, 18),
        // a floor before the product with Np is 0, and each of these would be its PI
        q("slip", 36, 1, 0),
        q("slip", 72, 511, 10),
        q("slip", 144, 4094, 143),
    ]
}

fn mapping() -> Vec<Case> {
    let many = repeated(&[1, 0, 0, 1, 0], 144);
    vec![
        // the last twelve digits are DTX
        map("slip", 18, &MAPPED, 300),
        map("done", 144, &many, 300),
        map("refusal 8", 73, &[2], 300),
        map("refusal 3", 36, &[2], 300),
        map("refusal 3", 144, &many, 288),
        map("refusal 4", 18, &damaged(&damaged(&MAPPED, 4, 2), 17, 3), 300),
    ]
}

/// A frame of Np 18, in which an indicator fills sixteen digits, read back with the digit at a place turned to another.
fn read_damaged(name: &str, np: usize, place: usize, digit: u8) -> Case {
    let frame = pich::map(18, &READ, 300).expect("the rules take these indicators");
    read(name, np, &damaged(&frame, place, digit))
}

fn reading() -> Vec<Case> {
    vec![
        read_damaged("done", 18, 300, 0),
        read_damaged("refusal 8", 17, 300, 0),
        read_damaged("refusal 3", 36, 300, 0),
        read_damaged("refusal 4", 18, 299, 3),
        read_damaged("refusal 9", 18, 33, 1),
        read_damaged("refusal 9", 18, 32, 2),
        read_damaged("slip", 18, 288, 0),
        read_damaged("slip", 18, 299, 0),
    ]
}

pub fn all() -> Vec<Case> {
    [numbers(), mapping(), reading()].concat()
}
