//! One case as bytes:
//!
//! - each number that the call is given, 64 bits (a level as its bit pattern);
//! - each run: what it is, where it is put, its length in elements (64 bits), and its elements, if any are told;
//! - the packed answer (64 bits) and the bit patterns of a sample's parts (32 bits each, 0 where there is no sample).
//!
//! How many numbers and runs there are, and how wide the elements, depends on the call alone.

use crate::lent::{Element, HUGE, Held, Room};
use second::answer::{Answer, Refusal};
use second::rules::sample::Sample;

/// What a run is. The elements of the first two are told: those before the call, and those after it; and both of the last.
const HELD: u8 = 0;
const WRITTEN: u8 = 1;
const KEPT: u8 = 2;
const NULL: u8 = 3;
const HUGE_ROOM: u8 = 4;
const CHANGED: u8 = 5;

/// A case that is put together: its numbers, its runs, and at last what the rules say.
pub struct Case {
    bytes: Vec<u8>,
    expected: u16,
}

impl Case {
    pub fn of(numbers: &[usize]) -> Case {
        Case { bytes: Vec::new(), expected: 0 }.numbers(numbers.iter().map(|number| *number as u64))
    }

    pub fn of_whole(numbers: &[i64]) -> Case {
        Case::of(&[]).numbers(numbers.iter().map(|number| *number as u64))
    }

    pub fn levels(self, levels: &[f32]) -> Case {
        self.numbers(levels.iter().map(|level| u64::from(level.to_bits())))
    }

    pub fn numbers(mut self, numbers: impl Iterator<Item = u64>) -> Case {
        numbers.for_each(|number| self.bytes.extend(number.to_le_bytes()));
        self
    }

    /// A run that is read.
    pub fn held<T: Element>(mut self, held: &Held<T>) -> Case {
        let what = if held.null { NULL } else { HELD };
        self.run(what, held.place, held.run.len());
        held.run.iter().for_each(|element| element.put(&mut self.bytes));
        self
    }

    /// A run that is written, if the call is done: then `after` says with what.
    pub fn room<T: Element>(mut self, room: &Room, after: Option<&[T]>) -> Case {
        let what = match after {
            _ if room.null => NULL,
            Some(_) => WRITTEN,
            None if room.length < HUGE => KEPT,
            None => HUGE_ROOM,
        };
        self.run(what, room.place, room.length);
        if let Some(run) = after {
            assert_eq!(run.len(), room.length, "a call that is done fills its rooms");
            run.iter().for_each(|element| element.put(&mut self.bytes));
        }
        self
    }

    /// A run that is read and then written, if the call is done: then `after` says with what. One that is kept is held.
    pub fn changed<T: Element>(mut self, held: &Held<T>, after: Option<&[T]>) -> Case {
        let Some(after) = after.filter(|_| !held.null) else { return self.held(held) };
        assert_eq!(after.len(), held.run.len(), "a call changes no length");
        self.run(CHANGED, held.place, held.run.len());
        held.run.iter().chain(after).for_each(|element| element.put(&mut self.bytes));
        self
    }

    fn run(&mut self, what: u8, place: u8, length: usize) {
        self.bytes.extend([what, place]);
        self.bytes.extend((length as u64).to_le_bytes());
    }

    pub fn answers(self, answer: Answer) -> Case {
        self.ends(answer, [0, 0])
    }

    pub fn samples(self, outcome: Result<Sample, Refusal>) -> Case {
        let parts = outcome.unwrap_or(Sample::ZERO);
        self.ends(Answer::of(&outcome), [parts.inphase.to_bits(), parts.quadrature.to_bits()])
    }

    fn ends(mut self, answer: Answer, parts: [u32; 2]) -> Case {
        self.expected = answer.number;
        self.bytes.extend(answer.pack().to_le_bytes());
        parts.iter().for_each(|part| self.bytes.extend(part.to_le_bytes()));
        self
    }

    pub fn bytes(&self) -> &[u8] {
        &self.bytes
    }

    pub fn expected_number(&self) -> u16 {
        self.expected
    }
}
