//! The rules, written from docs/RULES.md alone, the plain way.
//!
//! A rule takes what the call is given: numbers, the runs it reads, and the lengths of the runs it is to write. It
//! answers the runs it would write, or the refusal. Numbers of refusals stand as digits, as they do on that page.
//! `job` is the rule of the program: it takes the bytes of a file and answers the text that is printed.

pub mod aich;
pub mod antenna;
pub mod bank;
mod checks;
pub mod combiner;
pub mod compressed;
pub mod desk;
pub mod dpcch;
pub mod dpch;
pub mod dpdch;
pub mod frame;
pub mod hspdsch;
pub mod job;
pub mod lengths;
pub mod pccpch;
pub mod pich;
pub mod sample;
pub mod sttd;
pub mod wake;
