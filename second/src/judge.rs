//! Counts the comparisons and ends the run at the first difference.

use crate::answer::Answer;
use crate::lent::{Element, Judged, Lent};
use crate::numbers::Seen;
use crate::random::mixed;

pub struct Judge {
    comparisons: u64,
    /// The numbers that were expected of each call.
    seen: Seen,
}

impl Judge {
    pub fn new() -> Judge {
        Judge { comparisons: 0, seen: Seen::new() }
    }

    pub fn comparisons(&self) -> u64 {
        self.comparisons
    }

    /// A number that is different for every call; it colours the patterns of the lent buffers.
    fn salt(&self) -> u64 {
        mixed(self.comparisons)
    }

    /// A run that the library reads.
    pub fn given<T: Element>(&self, name: &'static str, run: Option<&[T]>) -> Lent<'static, T> {
        Lent::holding(name, run, None, self.salt())
    }

    /// A run that the library reads and is to change to `due`.
    pub fn changed<'a, T: Element>(&self, name: &'static str, run: Option<&[T]>, due: Option<&'a [T]>) -> Lent<'a, T> {
        Lent::holding(name, run, due, self.salt())
    }

    /// A run of the given length in which the library is to write `due`, or nothing at all where there is none.
    pub fn room<'a, T: Element>(&self, name: &'static str, length: Option<usize>, due: Option<&'a [T]>) -> Lent<'a, T> {
        Lent::room(name, length, due, self.salt())
    }

    /// Compares one call. `numbers` says in words what was passed beside the runs, which know by themselves what they held
    /// and what they are to hold now.
    pub fn compare<const RUNS: usize>(
        &mut self,
        call: &'static str,
        numbers: impl Fn() -> String,
        expected: Answer,
        got: Answer,
        runs: [&dyn Judged; RUNS],
    ) {
        self.comparisons += 1;
        self.seen.entry(call).or_default().insert(expected.number);
        let wrong_run = runs.iter().find_map(|run| run.wrong());
        if expected == got && wrong_run.is_none() {
            return;
        }
        println!("DIFFERENCE in {call}, comparison {}", self.comparisons);
        println!("  numbers:  {}", numbers());
        runs.iter().for_each(|run| println!("  lent:     {}", run.in_words()));
        println!("  expected: {expected}");
        println!("  got:      {got}");
        println!("  runs:     {}", wrong_run.unwrap_or("as expected".to_string()));
        std::process::exit(1);
    }

    /// The numbers that were expected of each call, all equal to those that the library gave.
    pub fn seen(&self) -> &Seen {
        &self.seen
    }

    /// Ends the run where a call was not compared on just these numbers so far.
    pub fn must_have_seen(&self, call: &'static str, numbers: &[u16]) {
        let seen: Vec<u16> = self.seen.get(call).into_iter().flatten().copied().collect();
        if seen != numbers {
            println!("INCOMPLETE: {call} was to be compared on the numbers {numbers:?}, but was on {seen:?}");
            std::process::exit(1);
        }
    }
}
