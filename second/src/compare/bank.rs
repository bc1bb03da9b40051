//! The bank of slots: the library's six calls against the rules, and long sequences of calls against a plain list.

use crate::answer::{Answer, Refusal};
use crate::ffi;
use crate::judge::Judge;
use crate::random::Random;
use crate::rules::bank::{self as rules, Slot};

/// The buffers of the long sequences: a bank with no room, one with room for a slot of 10 digits, of 14, and two larger.
const BUFFERS: [usize; 5] = [8, 22, 26, 1000, 65536];

const CALLS: usize = 10_000;

/// Numbers beyond 255, some of which look like a small one to a program that keeps too few bits.
const BAD_NUMBERS: [usize; 7] = [256, 257, 511, 65536, (1 << 32) + 1, 1 << 63, usize::MAX];

/// Every comparison of the bank.
pub fn all(judge: &mut Judge) {
    for buffer in BUFFERS {
        sequence(judge, buffer, buffer as u64);
        sequence(judge, buffer, 1 + buffer as u64);
    }
    buffer_lengths(judge);
    damage(judge);
    totals(judge);
    doubles(judge);
    random_bytes(judge);
    full_banks(judge);
    rooms(judge);
    orders(judge);
}

// One call each, compared with what is expected of it. Those that are lent the bank for writing answer the bytes it leaves.

fn empty(judge: &mut Judge, bank: Option<&[u8]>, expected: Result<Vec<u8>, Refusal>) {
    let mut lent = judge.changed("bank", bank, expected.as_deref().ok());
    let got = ffi::bank_empty(&mut lent);
    judge.compare("slt_bank_empty", String::new, Answer::of(&expected), got, [&lent]);
}

fn store(judge: &mut Judge, bank: Option<&[u8]>, number: usize, slot: Option<&[u8]>, expected: Result<Vec<u8>, Refusal>) {
    let mut lent = judge.changed("bank", bank, expected.as_deref().ok());
    let mut slot = judge.given("slot", slot);
    let got = ffi::bank_store(&mut lent, number, &mut slot);
    judge.compare("slt_bank_store", || format!("number {number}"), Answer::of(&expected), got, [&lent, &slot]);
}

fn fetch(judge: &mut Judge, bank: Option<&[u8]>, number: usize, room: Option<usize>, expected: Result<Vec<u8>, Refusal>) {
    let mut lent = judge.given("bank", bank);
    let mut out = judge.room("output", room, expected.as_deref().ok());
    let got = ffi::bank_fetch(&mut lent, number, &mut out);
    judge.compare("slt_bank_fetch", || format!("number {number}"), Answer::of(&expected), got, [&lent, &out]);
}

fn drop(judge: &mut Judge, bank: Option<&[u8]>, number: usize, expected: Result<Vec<u8>, Refusal>) {
    let mut lent = judge.changed("bank", bank, expected.as_deref().ok());
    let got = ffi::bank_drop(&mut lent, number);
    judge.compare("slt_bank_drop", || format!("number {number}"), Answer::of(&expected), got, [&lent]);
}

fn length(judge: &mut Judge, bank: Option<&[u8]>, number: usize, expected: Result<u16, Refusal>) {
    let mut lent = judge.given("bank", bank);
    let got = ffi::bank_length(&mut lent, number);
    let expected = Answer::telling(&expected, |length| *length);
    judge.compare("slt_bank_length", || format!("number {number}"), expected, got, [&lent]);
}

fn room(judge: &mut Judge, bank: Option<&[u8]>, expected: Result<u16, Refusal>) {
    let mut lent = judge.given("bank", bank);
    let got = ffi::bank_room(&mut lent);
    judge.compare("slt_bank_room", String::new, Answer::telling(&expected, |room| *room), got, [&lent]);
}

/// Every call on some bytes, with what the rules read from them.
fn all_calls(judge: &mut Judge, bank: Option<&[u8]>, number: usize, slot: &[u8]) {
    let bytes = bank.unwrap_or(&[]);
    empty(judge, bank, rules::empty(bytes));
    store(judge, bank, number, Some(slot), rules::store(bytes, number, slot));
    fetch(judge, bank, number, Some(slot.len()), rules::fetch(bytes, number, slot.len()));
    drop(judge, bank, number, rules::drop(bytes, number));
    length(judge, bank, number, rules::length(bytes, number));
    room(judge, bank, rules::room(bytes));
}

// Long sequences against a plain list. What the calls made so far leave is kept beside the buffer and never read from it.

struct Model {
    bytes: Vec<u8>,
    slots: Vec<Slot>,
}

fn sequence(judge: &mut Judge, buffer: usize, seed: u64) {
    let mut random = Random::new(seed);
    let bytes = random.digits(buffer, 256);
    let emptied = rules::laid(&[], &bytes);
    empty(judge, Some(&bytes), Ok(emptied.clone()));
    let mut model = Model { bytes: emptied, slots: Vec::new() };
    for _ in 0..CALLS {
        // Few numbers, so that they meet; now and then one out of range.
        let number = if random.below(50) == 0 { random.pick(&BAD_NUMBERS) } else { random.below(1 + buffer / 200).min(255) };
        match random.below(10) {
            0..=3 => sequence_store(judge, &mut model, number, &some_slot(&mut random, buffer)),
            4..=6 => sequence_drop(judge, &mut model, number),
            7 => sequence_fetch(judge, &model, number, &mut random),
            8 => {
                let expected = rules::find(&model.slots, number).map(|at| model.slots[at].digits.len() as u16);
                length(judge, Some(&model.bytes), number, expected);
            }
            _ => room(judge, Some(&model.bytes), Ok((buffer - rules::taken(&model.slots)) as u16)),
        }
        if random.below(2000) == 0 {
            model.slots.clear();
            let emptied = rules::laid(&[], &model.bytes);
            empty(judge, Some(&model.bytes), Ok(emptied.clone()));
            model.bytes = emptied;
        }
    }
}

/// Mostly good, of a length that the buffer can take; sometimes of a wrong length or with a bad digit.
fn some_slot(random: &mut Random, buffer: usize) -> Vec<u8> {
    let most = (buffer / 4).clamp(14, 1280);
    let length = match random.below(20) {
        0 => random.pick(&[0, 1, 9, 10, 1280, 1281, 2000]),
        1 => 10,
        _ => 10 + random.below(most - 9),
    };
    let mut slot = random.digits(length, 3);
    if random.below(20) == 0 && length > 0 {
        let index = random.below(length);
        slot[index] = random.pick(&[3, 4, 127, 128, 255]);
    }
    slot
}

fn sequence_store(judge: &mut Judge, model: &mut Model, number: usize, slot: &[u8]) {
    let expected = rules::check_store(&model.slots, model.bytes.len(), number, slot).map(|number| {
        model.slots.push(Slot { number, digits: slot.to_vec() });
        rules::laid(&model.slots, &model.bytes)
    });
    store(judge, Some(&model.bytes), number, Some(slot), expected.clone());
    model.bytes = expected.unwrap_or_else(|_| std::mem::take(&mut model.bytes));
}

fn sequence_drop(judge: &mut Judge, model: &mut Model, number: usize) {
    let expected = rules::find(&model.slots, number).map(|at| {
        model.slots.remove(at);
        rules::laid(&model.slots, &model.bytes)
    });
    drop(judge, Some(&model.bytes), number, expected.clone());
    model.bytes = expected.unwrap_or_else(|_| std::mem::take(&mut model.bytes));
}

fn sequence_fetch(judge: &mut Judge, model: &Model, number: usize, random: &mut Random) {
    let stored = rules::find(&model.slots, number).map_or(10, |at| model.slots[at].digits.len());
    let room = if random.below(8) == 0 { stored + random.below(3) - 1 } else { stored };
    let expected = rules::find(&model.slots, number).and_then(|at| {
        let digits = model.slots[at].digits.clone();
        if digits.len() == room { Ok(digits) } else { Err(Refusal { number: 3, place: 0 }) }
    });
    fetch(judge, Some(&model.bytes), number, Some(room), expected);
}

// Bytes that no call made.

/// Three slots and some room behind them.
fn three_slots() -> (Vec<u8>, Vec<Slot>) {
    let mut random = Random::new(7);
    let slots: Vec<Slot> = [(7, 10), (0, 300), (255, 11)]
        .map(|(number, length)| Slot { number, digits: random.digits(length, 3) })
        .into();
    let bytes = rules::laid(&slots, &random.digits(400, 256));
    (bytes, slots)
}

/// Buffers of every length near a limit.
fn buffer_lengths(judge: &mut Judge) {
    let slot = [1; 10];
    all_calls(judge, None, 0, &slot);
    for length in (0..40).chain([1000, 65535, 65536, 65537, 65536 + 8, 2 * 65536]) {
        let zeros = vec![0; length];
        all_calls(judge, Some(&zeros), 0, &slot);
        if length >= 8 {
            all_calls(judge, Some(&rules::laid(&[], &zeros)), 0, &slot);
        }
    }
}

/// Bytes damaged to every value: all of the header, of the first and the last slot, and of the middle one's front; and some behind the total, which are not read. Then any bytes, a few at a time.
fn damage(judge: &mut Judge) {
    let (bytes, slots) = three_slots();
    let used = rules::taken(&slots);
    for index in (0..60).chain(used - 20..used + 10) {
        for to in 0..=255 {
            let mut damaged = bytes.clone();
            damaged[index] = to;
            for number in [7, 0, 255, 8] {
                let expected = rules::drop(&damaged, number);
                drop(judge, Some(&damaged), number, expected);
                let held = rules::length(&damaged, number);
                let out = held.map_or(10, usize::from);
                fetch(judge, Some(&damaged), number, Some(out), rules::fetch(&damaged, number, out));
                length(judge, Some(&damaged), number, held);
            }
            all_calls(judge, Some(&damaged), 9, &[2; 12]);
        }
    }
    let mut random = Random::new(8);
    for _ in 0..20_000 {
        let mut damaged = bytes.clone();
        for _ in 0..1 + random.below(3) {
            let index = random.below(used + 4);
            damaged[index] = random.pick(&[0, 1, 2, 3, 4, 5, 10, 255]);
        }
        all_calls(judge, Some(&damaged), random.pick(&[7, 0, 255, 9]), &[1; 10]);
    }
}

/// Every total there is room for, and others.
fn totals(judge: &mut Judge) {
    let (bytes, _) = three_slots();
    for total in (0..bytes.len() + 10).chain([65535, 65536, 65537, 1 << 16, 1 << 24, 0xffff_ffff]) {
        let mut damaged = bytes.clone();
        damaged[4..8].copy_from_slice(&(total as u32).to_be_bytes());
        all_calls(judge, Some(&damaged), 0, &[0; 300]);
    }
}

/// Every number twice, with and without others between.
fn doubles(judge: &mut Judge) {
    for number in 0..=255_u8 {
        for between in 0..3_u8 {
            let mut slots = vec![Slot { number, digits: vec![0; 10] }];
            for other in 1..=between {
                slots.push(Slot { number: number.wrapping_add(other), digits: vec![1; 11] });
            }
            let once = rules::laid(&slots, &[9; 200]);
            all_calls(judge, Some(&once), usize::from(number), &[2; 10]);
            slots.push(Slot { number, digits: vec![2; 12] });
            let twice = rules::laid(&slots, &[9; 200]);
            all_calls(judge, Some(&twice), usize::from(number), &[2; 10]);
        }
    }
}

/// Bytes with no plan, and bytes with no plan behind a good header.
fn random_bytes(judge: &mut Judge) {
    let mut random = Random::new(9);
    for _ in 0..5000 {
        let size = random.below(120);
        let mut bytes = random.digits(size, 256);
        all_calls(judge, Some(&bytes), random.below(300), &[1; 10]);
        if size >= 8 {
            bytes[..4].copy_from_slice(b"SLTB");
            bytes[4..8].copy_from_slice(&(random.below(size + 2) as u32).to_be_bytes());
            all_calls(judge, Some(&bytes), random.below(300), &[1; 10]);
        }
    }
}

/// A bank that is full to its last byte, dropped from the front, the middle and the back, and filled again.
fn full_banks(judge: &mut Judge) {
    for (count, size) in [(1, 1280), (200, 80), (256, 10), (256, 251), (51, 1280), (254, 253)] {
        full_bank(judge, &vec![size; count]);
    }
    // Every number there is, in the longest buffer, to its last byte.
    let mut sizes = vec![252; 256];
    sizes[255] = 244;
    full_bank(judge, &sizes);
}

fn full_bank(judge: &mut Judge, sizes: &[usize]) {
    let count = sizes.len();
    let slots: Vec<Slot> =
        (0..count).map(|number| Slot { number: number as u8, digits: vec![(number % 3) as u8; sizes[number]] }).collect();
    for (first, step) in [(0, 1), (count - 1, count - 1), (count / 2, 7)] {
        let mut model = Model { bytes: rules::layout(&slots), slots: slots.clone() };
        for turn in 0..count.min(60) {
            let number = (first + turn * step) % count;
            let size = sizes[number];
            sequence_store(judge, &mut model, number, &vec![1; size]);
            sequence_drop(judge, &mut model, number);
            if turn % 3 == 2 {
                sequence_store(judge, &mut model, number, &vec![2; (size + 1).min(1280)]);
                sequence_store(judge, &mut model, number, &vec![2; size]);
            }
        }
    }
}

/// 31 to the byte: every length of a slot in every room near it.
fn rooms(judge: &mut Judge) {
    for size in [10, 11, 79, 80, 255, 256, 257, 1279, 1280] {
        for buffer in (8 + 4 + size - 3)..(8 + 4 + size + 3) {
            let bank = rules::laid(&[], &vec![5; buffer]);
            store(judge, Some(&bank), 3, Some(&vec![2; size]), rules::store(&bank, 3, &vec![2; size]));
        }
    }
    for size in 0..1300 {
        let bank = rules::laid(&[], &[5; 1292]);
        store(judge, Some(&bank), 3, Some(&vec![2; size]), rules::store(&bank, 3, &vec![2; size]));
    }
}

/// Several faults at once, so that the order of the checks shows.
fn orders(judge: &mut Judge) {
    let (bytes, _) = three_slots();
    let mut broken = bytes.clone();
    broken[0] = b'T';
    for bank in [Some(&bytes[..]), Some(&broken[..]), Some(&bytes[..7]), None] {
        for number in [7, 0, 255, 8].into_iter().chain(BAD_NUMBERS) {
            for size in [0_usize, 9, 10, 60, 300, 1280, 1281] {
                for bad in [None, Some(0), Some(size / 2), Some(size.saturating_sub(1))] {
                    let mut slot = vec![1; size];
                    if let Some(index) = bad.filter(|index| *index < size) {
                        slot[index] = 3;
                    }
                    all_calls(judge, bank, number, &slot);
                }
            }
            store(judge, bank, number, None, rules::store(bank.unwrap_or(&[]), number, &[]));
            fetch(judge, bank, number, None, rules::fetch(bank.unwrap_or(&[]), number, 0));
        }
    }
}
