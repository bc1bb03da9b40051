//! What the programs of this package stand on: the rules, written a second time from docs/RULES.md alone
//! (`rules/`), which numbers each call can answer (`numbers.rs`), the laws that the encoder of the second antenna keeps
//! (`laws.rs`), the inputs that several try, and the buffers that are lent for a call (`lent.rs`).
//! Nothing here knows the library or the program that is judged.

#![deny(warnings)]
#![deny(unsafe_code)]
// The page speaks of digits by their index, and so do the loops here.
#![allow(clippy::needless_range_loop)]

pub mod answer;
pub mod fields;
pub mod laws;
pub mod lent;
pub mod numbers;
pub mod random;
pub mod rules;
