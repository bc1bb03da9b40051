//! What a call answers, and how the 64-bit answer is unpacked.

use std::fmt;

/// A refusal as docs/RULES.md, 'Numbers a call can return', has it: a number and a place.
#[derive(Clone, Copy, Debug, PartialEq, Eq)]
pub struct Refusal {
    pub number: u16,
    pub place: u32,
}

/// A refusal by number and place, in the form that ends a chain of checks.
pub fn refuse<T>(number: u16, place: usize) -> Result<T, Refusal> {
    let place = u32::try_from(place).expect("a place fits 32 bits");
    Err(Refusal { number, place })
}

/// The number, place and value of one call.
#[derive(Clone, Copy, Debug, PartialEq, Eq)]
pub struct Answer {
    pub number: u16,
    pub place: u32,
    pub value: u16,
}

impl Answer {
    /// Number 0 means done; the place is then 0.
    pub fn done(value: u16) -> Answer {
        Answer { number: 0, place: 0, value }
    }

    /// The value beside a refusal is 0.
    pub fn refused(refusal: Refusal) -> Answer {
        Answer { number: refusal.number, place: refusal.place, value: 0 }
    }

    /// Bits 0 to 15 are the number, 16 to 47 the place, 48 to 63 the value.
    pub fn unpack(packed: u64) -> Answer {
        Answer {
            number: (packed & 0xffff) as u16,
            place: ((packed >> 16) & 0xffff_ffff) as u32,
            value: (packed >> 48) as u16,
        }
    }

    /// The 64 bits that `unpack` takes apart.
    pub fn pack(self) -> u64 {
        u64::from(self.number) | u64::from(self.place) << 16 | u64::from(self.value) << 48
    }

    /// The answer of a call that hands back runs only: done with value 0, or the refusal.
    pub fn of<T>(outcome: &Result<T, Refusal>) -> Answer {
        Answer::telling(outcome, |_| 0)
    }

    /// The answer of a call that tells a value of what it gives, or the refusal.
    pub fn telling<T>(outcome: &Result<T, Refusal>, value: impl FnOnce(&T) -> u16) -> Answer {
        match outcome {
            Ok(given) => Answer::done(value(given)),
            Err(refusal) => Answer::refused(*refusal),
        }
    }
}

impl fmt::Display for Answer {
    fn fmt(&self, out: &mut fmt::Formatter<'_>) -> fmt::Result {
        write!(out, "number {} place {} value {}", self.number, self.place, self.value)
    }
}

#[cfg(test)]
mod tests {
    use super::Answer;

    #[test]
    fn the_three_parts_stand_where_the_header_says() {
        let answer = Answer::unpack(0x0007_1234_5678_000b);
        assert_eq!(answer, Answer { number: 11, place: 0x1234_5678, value: 7 });
        assert_eq!(answer.pack(), 0x0007_1234_5678_000b);
    }
}
