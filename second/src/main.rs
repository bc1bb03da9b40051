//! The independent second program.
//!
//! Every rule is written here a second time, from docs/RULES.md alone (`rules/`), and every call of the
//! library is made on many inputs and compared with it (`compare/`): the number, the place, the value, and every
//! element of every lent run afterwards. The first difference is printed and ends the run with status 1; so does, at the
//! end, a number that a call can answer and that no comparison reached (`numbers.rs`).
//!
//! One channel is one file in `rules/` and one in `compare/`; it is run by one line of `CHANNELS` below. Programs
//! of their own compare the program that reads job files (`bin/jobs/`), print the cases that docs/RULES.md names
//! (`bin/cases/`), and draw calls at random for a C driver (`bin/fuzz/`).

#![deny(warnings)]
#![deny(unsafe_code)]
// The page speaks of digits by their index, and so do the loops here.
#![allow(clippy::needless_range_loop)]

mod compare;
#[allow(unsafe_code)]
mod ffi;
mod judge;

use judge::Judge;
use second::{answer, fields, laws, lent, numbers, random, rules};

/// The name of a channel and what runs all of its comparisons.
type Channel = (&'static str, fn(&mut Judge));

const CHANNELS: &[Channel] = &[
    ("pich", compare::pich::all),
    ("wake", compare::wake::all),
    ("dpch", compare::dpch::all),
    ("antenna", compare::antenna::all),
    ("frame", compare::frame::all),
    ("compressed", compare::compressed::all),
    ("dpdch", compare::dpdch::all),
    ("dpcch", compare::dpcch::all),
    ("sttd", compare::sttd::all),
    ("pccpch", compare::pccpch::all),
    ("hspdsch", compare::hspdsch::all),
    ("lengths", compare::lengths::all),
    ("aich", compare::aich::all),
    ("aich_available", compare::aich_available::all),
    ("desk", compare::desk::all),
    ("combiner", compare::combiner::all),
    ("sample", compare::sample::all),
    ("bank", compare::bank::all),
];

fn main() {
    let mut total = 0;
    let mut seen = numbers::Seen::new();
    for (name, all) in CHANNELS {
        let mut judge = Judge::new();
        all(&mut judge);
        println!("{name}: {} comparisons", judge.comparisons());
        total += judge.comparisons();
        for (call, given) in judge.seen() {
            seen.entry(call).or_default().extend(given);
        }
    }
    let wrong = numbers::differences(&seen);
    if !wrong.is_empty() {
        println!("INCOMPLETE: {}", wrong.join("\nINCOMPLETE: "));
        std::process::exit(1);
    }
    println!("second: {total} comparisons, all equal, on each number that each of {} calls can answer", seen.len());
}
