//! A case of each call on a bank of slots.

use crate::case::Case;
use crate::draw::Draw;
use crate::lent::Held;
use second::answer::Answer;
use second::rules::bank::{self as rules, Slot};

/// A bank as calls could have left it, and the number of a slot that it may hold.
fn some_bank(draw: &mut Draw) -> (Vec<u8>, usize) {
    // The longest buffer is rare: it takes the time of many others.
    let most = if draw.random.below(64) == 0 { 65536 } else { 1000 };
    let buffer = draw.random.pick(&[8, 22, 26, 60, 200, most]);
    let mut slots: Vec<Slot> = Vec::new();
    for _ in 0..8 {
        let length = 10 + draw.random.below(90);
        let digits = draw.random.digits(length, 3);
        let number = draw.random.below(12);
        if let Ok(number) = rules::check_store(&slots, buffer, number, &digits) {
            slots.push(Slot { number, digits });
        }
    }
    let number = slots.first().map_or(3, |slot| usize::from(slot.number));
    let number = draw.random.pick(&[number, number, number, 3, 11]);
    let bytes = draw.random.digits(buffer, 256);
    (rules::laid(&slots, &bytes), number)
}

/// Most are lent as they are; some have damaged bytes, and some a wrong length.
fn lent_bank(draw: &mut Draw, bank: Vec<u8>) -> Held<u8> {
    let mut bank = bank;
    if draw.random.below(4) == 0 {
        for _ in 0..1 + draw.random.below(2) {
            let near = bank.len().min(60);
            let index = draw.random.below(near);
            bank[index] = draw.random.pick(&[0, 1, 2, 3, 10, 0x53, 255]);
        }
    }
    if draw.random.below(40) == 0 {
        let length = draw.random.pick(&[0, 4, 7, 7, 65537]);
        bank.resize(length, 0);
    }
    draw.held(bank)
}

pub fn empty(draw: &mut Draw) -> Case {
    let (bank, _) = some_bank(draw);
    let bank = lent_bank(draw, bank);
    let outcome = rules::empty(&bank.run);
    Case::of(&[]).changed(&bank, outcome.as_deref().ok()).answers(Answer::of(&outcome))
}

pub fn store(draw: &mut Draw) -> Case {
    let (bank, number) = some_bank(draw);
    let number = draw.number(number);
    let bank = lent_bank(draw, bank);
    let length = draw.random.pick(&[10, 14, 40, 9, 0, 1280, 1281]);
    let slot = draw.random.digits(length, 3);
    let slot = draw.digits(slot);
    let slot = draw.held(slot);
    let outcome = rules::store(&bank.run, number, &slot.run);
    Case::of(&[number]).changed(&bank, outcome.as_deref().ok()).held(&slot).answers(Answer::of(&outcome))
}

pub fn fetch(draw: &mut Draw) -> Case {
    let (bank, number) = some_bank(draw);
    let number = draw.number(number);
    let bank = lent_bank(draw, bank);
    let stored = rules::length(&bank.run, number).map_or(10, usize::from);
    let out = draw.room(stored);
    let outcome = rules::fetch(&bank.run, number, out.length);
    Case::of(&[number]).held(&bank).room(&out, outcome.as_deref().ok()).answers(Answer::of(&outcome))
}

pub fn drop(draw: &mut Draw) -> Case {
    let (bank, number) = some_bank(draw);
    let number = draw.number(number);
    let bank = lent_bank(draw, bank);
    let outcome = rules::drop(&bank.run, number);
    Case::of(&[number]).changed(&bank, outcome.as_deref().ok()).answers(Answer::of(&outcome))
}

pub fn length(draw: &mut Draw) -> Case {
    let (bank, number) = some_bank(draw);
    let number = draw.number(number);
    let bank = lent_bank(draw, bank);
    let outcome = rules::length(&bank.run, number);
    Case::of(&[number]).held(&bank).answers(Answer::telling(&outcome, |length| *length))
}

pub fn room(draw: &mut Draw) -> Case {
    let (bank, _) = some_bank(draw);
    let bank = lent_bank(draw, bank);
    let outcome = rules::room(&bank.run);
    Case::of(&[]).held(&bank).answers(Answer::telling(&outcome, |room| *room))
}
