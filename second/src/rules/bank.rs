//! The bank of stimulus slots: docs/BANK.md has the layout.

use crate::answer::{Refusal, refuse};

/// The bank itself takes 8 bytes: the mark, and the total taken.
const HEAD: usize = 8;

const MARK: &[u8; 4] = b"SLTB";

/// A buffer has 8 to 65536 bytes.
const BUFFER: std::ops::RangeInclusive<usize> = 8..=65536;

/// A slot has 10 to 1280 digits.
const DIGITS: std::ops::RangeInclusive<usize> = 10..=1280;

#[derive(Clone, Debug, PartialEq, Eq)]
pub struct Slot {
    pub number: u8,
    pub digits: Vec<u8>,
}

/// 8, and for each slot still held its digits plus 4.
pub fn taken(slots: &[Slot]) -> usize {
    HEAD + slots.iter().map(|slot| slot.digits.len() + 4).sum::<usize>()
}

/// The layout of a list of slots.
pub fn layout(slots: &[Slot]) -> Vec<u8> {
    let mut bytes = MARK.to_vec();
    bytes.extend((taken(slots) as u32).to_be_bytes());
    for slot in slots {
        bytes.push(slot.number);
        bytes.push(0);
        bytes.extend((slot.digits.len() as u16).to_be_bytes());
        bytes.extend(&slot.digits);
    }
    bytes
}

/// The layout of a list over the old bytes: behind the total they stay what they were.
pub fn laid(slots: &[Slot], bank: &[u8]) -> Vec<u8> {
    let mut bytes = layout(slots);
    bytes.extend(&bank[bytes.len()..]);
    bytes
}

/// The slots that the layout reads from the bytes: 28 where it reads no list.
pub fn slots(bank: &[u8]) -> Result<Vec<Slot>, Refusal> {
    check_buffer(bank.len())?;
    let total = u32::from_be_bytes([bank[4], bank[5], bank[6], bank[7]]) as usize;
    if &bank[..4] != MARK || total < HEAD || total > bank.len() {
        return refuse(28, 0);
    }
    let mut held: Vec<Slot> = Vec::new();
    let mut rest = &bank[HEAD..total];
    while !rest.is_empty() {
        let Some((slot, behind)) = first_slot(rest) else { return refuse(28, 0) };
        if held.iter().any(|other| other.number == slot.number) {
            return refuse(28, 0);
        }
        held.push(slot);
        rest = behind;
    }
    Ok(held)
}

/// The slot at the front of the bytes, and the bytes behind it.
fn first_slot(bytes: &[u8]) -> Option<(Slot, &[u8])> {
    let [number, 0, high, low, rest @ ..] = bytes else { return None };
    let length = usize::from(u16::from_be_bytes([*high, *low]));
    if !DIGITS.contains(&length) || rest.len() < length {
        return None;
    }
    let (digits, behind) = rest.split_at(length);
    if digits.iter().any(|digit| *digit > 2) {
        return None;
    }
    Some((Slot { number: *number, digits: digits.to_vec() }, behind))
}

fn check_buffer(length: usize) -> Result<(), Refusal> {
    if BUFFER.contains(&length) { Ok(()) } else { refuse(28, 0) }
}

/// A number is 0 to 255: else 11.
fn check_number(number: usize) -> Result<u8, Refusal> {
    u8::try_from(number).or_else(|_| refuse(11, 0))
}

/// The checks of a store on a plain list that a buffer of so many bytes holds: 11, 3, 4, 30, 31.
pub fn check_store(slots: &[Slot], buffer: usize, number: usize, digits: &[u8]) -> Result<u8, Refusal> {
    let number = check_number(number)?;
    if !DIGITS.contains(&digits.len()) {
        return refuse(3, 0);
    }
    for (index, digit) in digits.iter().enumerate() {
        if *digit > 2 {
            return refuse(4, index);
        }
    }
    if slots.iter().any(|slot| slot.number == number) {
        return refuse(30, 0);
    }
    if taken(slots) + digits.len() + 4 > buffer {
        return refuse(31, 0);
    }
    Ok(number)
}

/// Where the slot with the number stands in a plain list: 11, 29.
pub fn find(slots: &[Slot], number: usize) -> Result<usize, Refusal> {
    let number = check_number(number)?;
    slots.iter().position(|slot| slot.number == number).map_or_else(|| refuse(29, 0), Ok)
}

// The calls. Each answers the run that it leaves, or its value.

/// 28 for the buffer's length alone.
pub fn empty(bank: &[u8]) -> Result<Vec<u8>, Refusal> {
    check_buffer(bank.len())?;
    Ok(laid(&[], bank))
}

/// Order: 28, 11, 3, 4, 30, 31.
pub fn store(bank: &[u8], number: usize, digits: &[u8]) -> Result<Vec<u8>, Refusal> {
    let mut held = slots(bank)?;
    let number = check_store(&held, bank.len(), number, digits)?;
    held.push(Slot { number, digits: digits.to_vec() });
    Ok(laid(&held, bank))
}

/// Order: 28, 11, 29, 3.
pub fn fetch(bank: &[u8], number: usize, n_out: usize) -> Result<Vec<u8>, Refusal> {
    let held = slots(bank)?;
    let slot = &held[find(&held, number)?];
    if n_out != slot.digits.len() {
        return refuse(3, 0);
    }
    Ok(slot.digits.clone())
}

/// Order: 28, 11, 29.
pub fn drop(bank: &[u8], number: usize) -> Result<Vec<u8>, Refusal> {
    let mut held = slots(bank)?;
    held.remove(find(&held, number)?);
    Ok(laid(&held, bank))
}

/// Order: 28, 11, 29.
pub fn length(bank: &[u8], number: usize) -> Result<u16, Refusal> {
    let held = slots(bank)?;
    Ok(held[find(&held, number)?].digits.len() as u16)
}

/// 28 alone.
pub fn room(bank: &[u8]) -> Result<u16, Refusal> {
    Ok((bank.len() - taken(&slots(bank)?)) as u16)
}

#[cfg(test)]
mod tests {
    use super::{Slot, drop, empty, fetch, length, room, store};
    use crate::answer::refuse;

    /// The bytes that docs/BANK.md gives.
    #[test]
    fn the_example_of_the_page() {
        let slot = [1, 1, 0, 1, 1, 0, 1, 1, 0, 0];
        let bank = empty(&[9; 26]).expect("a buffer of 26 bytes");
        assert_eq!(bank[..8], [0x53, 0x4c, 0x54, 0x42, 0, 0, 0, 8]);
        let bank = store(&bank, 7, &slot).expect("room for ten digits");
        let wanted = [0x53, 0x4c, 0x54, 0x42, 0, 0, 0, 0x16, 7, 0, 0, 0x0a, 1, 1, 0, 1, 1, 0, 1, 1, 0, 0, 9, 9, 9, 9];
        assert_eq!(bank, wanted);
        assert_eq!(super::slots(&bank), Ok(vec![Slot { number: 7, digits: slot.to_vec() }]));
        assert_eq!(fetch(&bank, 7, 10), Ok(slot.to_vec()));
        assert_eq!(length(&bank, 7), Ok(10));
        assert_eq!(room(&bank), Ok(4));
        assert_eq!(store(&bank, 8, &slot), refuse(31, 0));
        let dropped = drop(&bank, 7).expect("the slot is there");
        assert_eq!(dropped[..8], [0x53, 0x4c, 0x54, 0x42, 0, 0, 0, 8]);
        assert_eq!(dropped[8..], bank[8..]);
    }
}
