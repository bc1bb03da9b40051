//! Buffers that are lent to the library for one call.
//!
//! A lent buffer is a run with guard elements on both sides. Guards, and the run itself where the library is to
//! write it, hold a pattern that can never be meant: so a stray write shows, and so does a missing one. The pattern
//! changes from call to call, so that what an earlier call left behind cannot pass for an answer.

use std::fmt::Debug;

/// How many guard elements stand on each side of the run.
const GUARD: usize = 16;

/// How many elements of a run a message shows.
const SHOWN: usize = 40;

/// What a lent run is made of.
pub trait Element: Copy + PartialEq + Debug {
    /// A filling that no rule ever gives, different from salt to salt and from index to index.
    fn pattern(salt: u64, index: usize) -> Self;
}

/// Five bits that depend on the salt and on the index.
fn five_bits(salt: u64, index: usize) -> u64 {
    ((salt >> (index % 59)) ^ index as u64) & 0x1f
}

impl Element for u8 {
    /// 160 to 191: no digit, no indicator, no command.
    fn pattern(salt: u64, index: usize) -> u8 {
        0xa0 | five_bits(salt, index) as u8
    }
}

/// Numbers hold one that is far beyond every value, indicator, signature, count, SFN and result.
macro_rules! far_beyond {
    ($($number:ty: $far:literal),*) => {
        $(impl Element for $number {
            fn pattern(salt: u64, index: usize) -> $number {
                $far | five_bits(salt, index) as $number
            }
        })*
    };
}

far_beyond!(i32: 0x5a5a_5a00, u32: 0x5a5a_5a00, usize: 0x5a5a_5a00, i64: 0x5a5a_5a5a_5a5a_5a00);

/// A run that is lent for one call: its name, what it holds, and what it must hold after the call.
pub struct Lent<'a, T> {
    name: &'static str,
    /// Guard, run, guard.
    store: Vec<T>,
    /// The same as it was before the call.
    before: Vec<T>,
    /// What the run is to hold after the call. Where there is nothing, it is to stay as it was: a run that is only read, or
    /// a refusal.
    due: Option<&'a [T]>,
    /// Whether the run held anything before the call.
    held: bool,
    /// Whether the library is given NULL, which is allowed with length 0 only.
    null: bool,
}

impl<'a, T: Element> Lent<'a, T> {
    /// A run that holds something, and is to hold `due` after the call. `None` is NULL with length 0.
    pub fn holding(name: &'static str, run: Option<&[T]>, due: Option<&'a [T]>, salt: u64) -> Lent<'a, T> {
        let mut lent = Lent::room(name, run.map(<[T]>::len), due, salt);
        let run = run.unwrap_or(&[]);
        lent.store[GUARD..GUARD + run.len()].copy_from_slice(run);
        lent.before.copy_from_slice(&lent.store);
        lent.held = true;
        lent
    }

    /// A run of the given length that is to hold `due` after the call. `None` is NULL with length 0.
    pub fn room(name: &'static str, length: Option<usize>, due: Option<&'a [T]>, salt: u64) -> Lent<'a, T> {
        let all = GUARD + length.unwrap_or(0) + GUARD;
        let store: Vec<T> = (0..all).map(|index| T::pattern(salt, index)).collect();
        let before = store.clone();
        Lent { name, store, before, due, held: false, null: length.is_none() }
    }

    /// The length that is passed with the pointer, in elements.
    pub fn len(&self) -> usize {
        self.store.len() - 2 * GUARD
    }

    /// The pointer that is passed. It is taken mutably for runs that are only read, too: a library that writes
    /// there all the same must be caught, and must not be undefined behaviour of this program.
    pub fn pointer(&mut self) -> *mut T {
        if self.null {
            return std::ptr::null_mut();
        }
        self.store.as_mut_ptr().wrapping_add(GUARD)
    }

    /// What the run holds now.
    pub fn run(&self) -> &[T] {
        &self.store[GUARD..GUARD + self.len()]
    }
}

/// What a judge asks of a lent run, whatever it is made of.
pub trait Judged {
    /// What was lent.
    fn in_words(&self) -> String;

    /// What is wrong after the call.
    fn wrong(&self) -> Option<String>;
}

impl<T: Element> Judged for Lent<'_, T> {
    fn in_words(&self) -> String {
        let held = &self.before[GUARD..GUARD + self.len()];
        let what = match held {
            _ if self.null => "NULL".to_string(),
            _ if !self.held => format!("room for {}", held.len()),
            _ if held.len() <= SHOWN => format!("{held:?}"),
            _ => format!("{:?} and {} more", &held[..SHOWN], held.len() - SHOWN),
        };
        format!("{} {what}", self.name)
    }

    fn wrong(&self) -> Option<String> {
        let end = GUARD + self.len();
        let head = first_difference(&self.before[..GUARD], &self.store[..GUARD]);
        let run = first_difference(self.due.unwrap_or(&self.before[GUARD..end]), &self.store[GUARD..end]);
        let tail = first_difference(&self.before[end..], &self.store[end..]);
        let said = |part: &str, what: String| format!("{}{part}{what}", self.name);
        head.map(|what| said(", guard before it", what))
            .or_else(|| run.map(|what| said("", what)))
            .or_else(|| tail.map(|what| said(", guard after it", what)))
    }
}

/// The first index at which two runs differ, in words, or that their lengths do.
fn first_difference<T: Element>(expected: &[T], got: &[T]) -> Option<String> {
    if expected == got {
        return None;
    }
    let pairs = expected.iter().zip(got);
    match pairs.enumerate().find(|(_, (wanted, found))| wanted != found) {
        Some((index, (wanted, found))) => Some(format!("[{index}]: expected {wanted:?}, got {found:?}")),
        None => Some(format!(": expected {} elements, room for {}", expected.len(), got.len())),
    }
}

#[cfg(test)]
mod tests {
    use super::{GUARD, Judged, Lent};

    /// What is wrong with a run when the library has written a byte at a place, counted from the guard before it.
    fn after(mut lent: Lent<u8>, place: usize, byte: u8) -> Option<String> {
        lent.store[place] = byte;
        lent.wrong()
    }

    #[test]
    fn a_run_that_is_read_is_kept() {
        let run = || Lent::holding("run", Some(&[1, 2, 3]), None, 5);
        assert_eq!(run().wrong(), None);
        assert_eq!(after(run(), GUARD + 1, 7), Some("run[1]: expected 2, got 7".to_string()));
    }

    #[test]
    fn a_room_is_written_or_kept() {
        let due = [0, 1];
        let mut written = Lent::room("out", Some(2), Some(&due), 5);
        assert!(written.wrong().is_some());
        written.store[GUARD..GUARD + 2].copy_from_slice(&due);
        assert_eq!(written.wrong(), None);
        assert!(after(Lent::room("out", Some(2), None, 5), GUARD, 0).is_some());
        assert!(Lent::room("out", Some(3), Some(&due), 5).wrong().is_some());
    }

    #[test]
    fn no_byte_beside_a_run_changes() {
        for place in [0, GUARD - 1, GUARD + 1, GUARD + 16] {
            assert!(after(Lent::holding("run", Some(&[1]), Some(&[1]), 5), place, 0).unwrap().contains("guard"));
        }
    }

    #[test]
    fn in_words() {
        assert_eq!(Lent::holding("run", Some(&[1_u8, 2]), None, 5).in_words(), "run [1, 2]");
        assert_eq!(Lent::<u8>::room("out", Some(2), None, 5).in_words(), "out room for 2");
        assert_eq!(Lent::<u8>::room("out", None, None, 5).in_words(), "out NULL");
    }
}
