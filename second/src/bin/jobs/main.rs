//! The comparison of job files: the program `slotline` is run on many files, and every byte that it prints is compared
//! with what the rules print (`rules/job.rs`). The first difference is printed and ends the run with status 1.
//!
//!     jobs SLOTLINE EXAMPLES          compares; the stored examples are made anew and compared, too
//!     jobs --write-examples EXAMPLES  stores the examples
//!     jobs --fuzz SEED SLOTLINE       compares on files of that seed, with no plan
//!     jobs --print                    prints what the rules print for the file on standard input
//!
//! Files come in lists. Each list is one line of `LISTS` below, with a name that says what it covers.

#![deny(warnings)]
#![deny(unsafe_code)]

mod chance;
mod examples;
mod faults;
mod fields;
mod fuzz;
mod good;
mod header;
mod limit;
mod limits;
mod run;
mod shapes;
mod valid;
mod version_2;

use good::Job;
use run::Tally;
use second::rules;
use std::io::{Read, Write};
use std::path::Path;
use std::process::ExitCode;

/// The name of a list and what makes its files.
type List = (&'static str, fn() -> Vec<Job>);

const LISTS: &[List] = &[
    ("every format in every slot, both commands, TFCI spoken and silent", valid::formats),
    ("data that is all 0, all 1, all DTX, and each in turn", valid::extreme_data),
    ("every Np, with none, one, some and all indicators", valid::paging),
    ("AICH indicators: one of each sign, all, and some", valid::acquisition),
    ("records of all kinds together", valid::mixes),
    ("each header byte, every wrong value", header::wrong_bytes),
    ("headers cut short, with and without wrong bytes", header::cut_short),
    ("every count byte", header::counts),
    ("every unknown kind", shapes::unknown_kinds),
    ("every Np byte", shapes::np_bytes),
    ("every format byte", shapes::format_bytes),
    ("each truncation of a file of all three kinds", shapes::truncations),
    ("every format and Np, cut round the ends of its fields", shapes::cut_fields),
    ("bytes after the last record", shapes::bytes_after),
    ("every slot byte and every command byte", fields::slots_and_commands),
    ("the fields of every format, damaged at their ends", fields::dpch),
    ("AICH bytes that are no indicators", fields::aich),
    ("PICH bytes that are no indicators", fields::pich),
    ("two faults in one record, or in the file and a record", faults::together),
    ("two faults in two records", faults::apart),
    ("the longest file, and longer ones", limits::lengths),
    ("255 records", limits::records),
    ("files that arrive in pieces", limits::pieces),
    ("fields damaged at random", chance::damaged_fields),
    ("random bytes after a good header", chance::random_bytes),
    ("good files flipped, cut, lengthened and torn at random", chance::mutations),
];

/// The lists of version 2 alone. Those above are compared as version 2 too.
const LISTS_2: &[List] = &[
    ("version 2: 0 to 65535 records, as counted and one off", version_2::counts),
    ("version 2: every byte of the count", version_2::count_bytes),
    ("version 2: lengths near each limit", version_2::lengths),
    ("version 2: the longest file, bad at its end", version_2::bad_at_the_end),
    ("version 2: records that cross the limit at each byte", version_2::crossing_the_limit),
    ("version 2: the limit at a kind, an Np, a format, behind the last record", version_2::at_the_limit),
    ("version 2: records that cross the end of what is held", version_2::crossing_what_is_held),
    ("version 2: records of one length", version_2::one_length),
    ("version 2: some thousand records", version_2::thousands),
    ("version 2: files that arrive in pieces", version_2::pieces),
    ("version 2: long files, flipped, cut, lengthened and torn", version_2::long_and_damaged),
];

/// Every number that a job can be refused with, and 0 for done.
const NUMBERS: [u16; 14] = [0, 1, 2, 4, 5, 6, 8, 11, 20, 21, 22, 23, 24, 25];

const USAGE: &str = "usage: jobs SLOTLINE EXAMPLES | --write-examples EXAMPLES | --fuzz SEED SLOTLINE | --print";

fn main() -> ExitCode {
    let arguments: Vec<String> = std::env::args().skip(1).collect();
    let words: Vec<&str> = arguments.iter().map(String::as_str).collect();
    let outcome = match words[..] {
        ["--print"] => print(),
        ["--write-examples", directory] => examples::write(Path::new(directory)),
        ["--fuzz", seed, slotline] => fuzz(seed, Path::new(slotline)),
        [slotline, directory] => compare(Path::new(slotline), Path::new(directory)),
        _ => Err(USAGE.to_string()),
    };
    match outcome {
        Ok(()) => ExitCode::SUCCESS,
        Err(what) => {
            println!("{what}");
            ExitCode::FAILURE
        }
    }
}

/// Every list in turn, then the examples.
fn compare(slotline: &Path, directory: &Path) -> Result<(), String> {
    let mut tally = Tally::new(slotline);
    for (name, list) in LISTS {
        tally.compare(name, &list())?;
        tally.compare(&format!("as version 2: {name}"), &version_2::again(list()))?;
    }
    for (name, list) in LISTS_2 {
        tally.compare(name, &list())?;
    }
    limit::reads_no_more(slotline, &std::env::temp_dir().join(format!("jobs.{}", std::process::id())))?;
    limit::ends_at_the_limit(slotline)?;
    examples::check_stored(directory)?;
    tally.compare("the stored examples", &examples::jobs())?;
    tally.must_have_seen(&NUMBERS)?;
    println!("jobs: {} files, all equal", tally.files());
    Ok(())
}

/// Every list of a seed in turn.
fn fuzz(seed: &str, slotline: &Path) -> Result<(), String> {
    let number: u64 = seed.parse().map_err(|error| format!("seed {seed}: {error}"))?;
    let mut tally = Tally::new(slotline);
    for (name, jobs) in fuzz::lists(number) {
        tally.compare(name, &jobs).map_err(|what| format!("{what}\nseed {seed}"))?;
    }
    tally.must_have_seen(&NUMBERS)?;
    println!("jobs: seed {seed}, {} files, all equal", tally.files());
    Ok(())
}

/// What the rules print, for a look at one file.
fn print() -> Result<(), String> {
    let mut file = Vec::new();
    std::io::stdin().read_to_end(&mut file).map_err(|error| format!("standard input: {error}"))?;
    let text = rules::job::printed(&file);
    std::io::stdout().write_all(text.as_bytes()).map_err(|error| format!("standard output: {error}"))
}
