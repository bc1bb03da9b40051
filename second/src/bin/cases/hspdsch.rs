//! The HS-PDSCH. Its subframes are long, so a question says a run by what it repeats: `0110*960` is 0110 over and over,
//! 960 digits in all. Such parts, and digits as they are, follow each other with commas between them.

use crate::case::{Case, Line};
use crate::runs::{self, MARK, left, repeated};
use second::rules::hspdsch::{self as rules, size};

/// A run and how it is said.
#[derive(Clone)]
struct Said {
    digits: Vec<u8>,
    text: String,
}

/// A few digits over and over.
fn over(part: &[u8], length: usize) -> Said {
    Said { digits: repeated(part, length), text: format!("{}*{length}", runs::digits(part)) }
}

/// Eight digits over and over, with the digit at a place turned to another.
fn turned(part: &[u8; 8], length: usize, place: usize, digit: u8) -> Said {
    let mut behind = *part;
    behind.rotate_left((place + 1) % 8);
    let pieces = [over(part, place), Said { digits: vec![digit], text: digit.to_string() }, over(&behind, length - place - 1)];
    let texts: Vec<&str> = pieces.iter().filter(|piece| !piece.digits.is_empty()).map(|piece| &piece.text[..]).collect();
    Said { digits: pieces.iter().flat_map(|piece| piece.digits.clone()).collect(), text: texts.join(",") }
}

/// What a lent run is said to hold before the call.
fn marks(length: usize) -> String {
    over(&[MARK], length).text
}

fn map(name: &str, format: usize, data: &Said, n1: usize, n2: usize) -> Case {
    let outcome = rules::map(format, &data.digits, n1, n2);
    let untouched = [vec![MARK; n1], vec![MARK; n2]];
    let [antenna1, antenna2] = outcome.clone().unwrap_or(untouched);
    let line = Line::new(name, "HS-PDSCH map").key("format", format).key("data", &data.text);
    let line = line.lent("antenna1", marks(n1), runs::digits(&antenna1));
    line.lent("antenna2", marks(n2), runs::digits(&antenna2)).answered(&outcome)
}

fn read(name: &str, format: usize, antenna1: &Said, antenna2: &Said, n_data: usize) -> Case {
    let outcome = rules::read(format, &antenna1.digits, &antenna2.digits, n_data);
    let line = Line::new(name, "HS-PDSCH read").key("format", format);
    let line = line.key("antenna1", &antenna1.text).key("antenna2", &antenna2.text);
    line.lent("data", marks(n_data), runs::digits(&left(&outcome, n_data, MARK))).answered(&outcome)
}

/// Eight digits of data over and over, and what antenna 2 sends of them in each format: as the page has it.
const DATA: [u8; 8] = [0, 0, 1, 0, 0, 1, 1, 1];
const SECOND: [[u8; 8]; 2] = [[0, 0, 0, 1, 0, 1, 0, 0], [1, 1, 1, 1, 0, 1, 1, 0]];

fn mapping() -> Vec<Case> {
    let good = |format: usize| over(&DATA, size(format));
    vec![
        map("other", 0, &good(0), 960, 960),
        map("other", 1, &good(1), 1920, 1920),
        map("refusal 1", 2, &over(&[3], 7), 8, 9),
        map("refusal 3", 1, &over(&[3], 960), 8, 9),
        map("refusal 3", 1, &over(&[3], 1920), 9, 8),
        map("refusal 3", 0, &over(&[3], 960), 960, 9),
        map("refusal 4", 0, &turned(&DATA, 960, 959, 2), 960, 960),
        map("refusal 4", 0, &turned(&DATA, 960, 0, 3), 960, 960),
    ]
}

fn reading() -> Vec<Case> {
    let first = |format: usize| over(&DATA, size(format));
    let second = |format: usize| over(&SECOND[format], size(format));
    vec![
        read("other", 0, &first(0), &second(0), 960),
        read("other", 1, &first(1), &second(1), 1920),
        read("refusal 1", 2, &over(&[3], 7), &over(&[3], 8), 9),
        read("refusal 3", 0, &over(&[3], 1920), &over(&[3], 8), 9),
        read("refusal 3", 0, &over(&[3], 960), &over(&[3], 8), 9),
        read("refusal 3", 0, &over(&[3], 960), &over(&[3], 960), 9),
        // 4 comes before 9, antenna 1 before antenna 2
        read("refusal 4", 0, &turned(&DATA, 960, 959, 2), &over(&[2], 960), 960),
        read("refusal 4", 1, &first(1), &turned(&[1; 8], 1920, 1919, 2), 1920),
        // 9 tells the first place, counted from the subframe's length
        read("refusal 9", 0, &first(0), &over(&[1], 960), 960),
        read("refusal 9", 1, &first(1), &turned(&SECOND[1], 1920, 1919, 1), 1920),
        // 16QAM sent in fours, and on antenna 2 what antenna 1 sends
        read("slip", 1, &first(1), &over(&SECOND[0], 1920), 1920),
        read("slip", 0, &first(0), &first(0), 960),
    ]
}

pub fn all() -> Vec<Case> {
    for (format, sent) in SECOND.iter().enumerate() {
        assert_eq!(rules::second(format, &DATA), sent, "the block of docs/RULES.md");
    }
    [mapping(), reading()].concat()
}
