//! The bank. Its bytes are written as those of a job file are, a byte from 0 to 9 as that digit and any other as its letter, so lengths and
//! totals are chosen to be letters: slots have 33 digits (`!`), and the total of one slot is `-`, of two `R`.

use crate::case::{Case, Line};
use crate::jobs::letters;
use crate::runs::{MARK, damaged, digits, left, marks, repeated};
use second::answer::Refusal;
use second::rules::bank::{self, Slot};

const LENGTH: usize = 33;

fn slot(number: u8, part: &[u8]) -> Slot {
    Slot { number, digits: repeated(part, LENGTH) }
}

/// A bank of these slots, with so many free bytes.
fn held(slots: &[Slot], room: usize) -> Vec<u8> {
    [bank::layout(slots), vec![MARK; room]].concat()
}

/// A call that is lent the bank.
fn lent(line: Line, bank: &[u8], outcome: &Result<Vec<u8>, Refusal>) -> Case {
    let after = outcome.as_deref().unwrap_or(bank);
    line.lent("bank", letters(bank), letters(after)).answered(outcome)
}

fn empty(name: &str, bank: &[u8]) -> Case {
    lent(Line::new(name, "bank empty"), bank, &bank::empty(bank))
}

fn store(name: &str, number: usize, slot: &[u8], bank: &[u8]) -> Case {
    let line = Line::new(name, "bank store").key("number", number).key("slot", digits(slot));
    lent(line, bank, &bank::store(bank, number, slot))
}

fn drop(name: &str, number: usize, bank: &[u8]) -> Case {
    lent(Line::new(name, "bank drop").key("number", number), bank, &bank::drop(bank, number))
}

fn fetch(name: &str, bank: &[u8], number: usize, room: usize) -> Case {
    let outcome = bank::fetch(bank, number, room);
    let line = Line::new(name, "bank fetch").key("bank", letters(bank)).key("number", number);
    line.lent("out", marks(room), digits(&left(&outcome, room, MARK))).answered(&outcome)
}

fn length(name: &str, bank: &[u8], number: usize) -> Case {
    let outcome = bank::length(bank, number);
    let line = Line::new(name, "bank length").key("bank", letters(bank)).key("number", number);
    line.gives("length", outcome.unwrap_or(0)).answered(&outcome)
}

fn room(name: &str, bank: &[u8]) -> Case {
    let outcome = bank::room(bank);
    let line = Line::new(name, "bank room").key("bank", letters(bank));
    line.gives("room", outcome.unwrap_or(0)).answered(&outcome)
}

fn writers(one: &Slot, two: &[Slot]) -> Vec<Case> {
    let none = held(&[], 0);
    let few = repeated(&one.digits, 10);
    vec![
        // bytes 0 to 7 and no other
        empty("done", &[MARK; 10]),
        empty("refusal 28", &[MARK; 7]),
        // exactly the room that it takes, and a byte less
        store("done", 2, &one.digits, &held(&[], LENGTH + 4)),
        store("refusal 31", 2, &one.digits, &held(&[], LENGTH + 3)),
        // there, and no room either
        store("refusal 30", 2, &one.digits, &held(std::slice::from_ref(one), 0)),
        // a digit above 2, last, and no room either
        store("refusal 4", 2, &damaged(&few, 9, 3), &none),
        // a digit too few, and one above 2
        store("refusal 3", 2, &damaged(&few[1..], 0, 3), &none),
        store("refusal 11", 256, &few[1..], &none),
        // the low byte of the total first
        store("refusal 28", 256, &few[1..], b"SLTB\x08\x00\x00\x00"),
        // the slot behind comes down, and what stood behind the new total stays
        drop("done", 2, &held(two, 1)),
        drop("refusal 29", 3, &none),
        drop("refusal 11", 256, &none),
        // the total is one more than the buffer
        drop("refusal 28", 256, b"SLTB\x00\x00\x00\x09"),
    ]
}

fn readers(one: &Slot, two: &[Slot]) -> Vec<Case> {
    let none = held(&[], 0);
    let full = held(std::slice::from_ref(one), 0);
    let double = [one.clone(), Slot { number: one.number, ..two[1].clone() }];
    vec![
        fetch("done", &held(two, 0), 5, LENGTH),
        fetch("refusal 3", &full, 2, 1),
        // no such slot, and an output that no slot fits
        fetch("refusal 29", &none, 2, 1),
        fetch("refusal 11", &none, 256, 1),
        // a number twice
        fetch("refusal 28", &held(&double, 0), 2, 1),
        length("done", &full, 2),
        length("refusal 29", &none, 2),
        length("refusal 11", &none, 256),
        // the low byte of a slot's length first
        length("refusal 28", &damaged(&damaged(&full, 10, 33), 11, 0), 2),
        room("done", &held(&[], 3)),
        // the byte between a slot's number and its length is not zero
        room("refusal 28", &damaged(&full, 9, 1)),
        // a digit above 2
        room("refusal 28", &damaged(&full, 44, 3)),
    ]
}

pub fn all() -> Vec<Case> {
    let one = slot(2, &[1, 1, 0]);
    let two = [one.clone(), slot(5, &[0, 2, 1, 0])];
    [writers(&one, &two), readers(&one, &two)].concat()
}
