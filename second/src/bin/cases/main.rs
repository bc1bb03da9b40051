//! The cases of docs/RULES.md, run through the rules of this package: one line for each, its name, the call with
//! its inputs, and what is answered and left in each lent run. The program `cases` of the library is given the
//! questions alone, which `--questions` prints, and must print the whole text.
//!
//! The names say where a case is from: `P1` to `P12` are the marked examples, `other` the other examples, `refusal N`
//! a row of the table of numbers, `slip` a slip that has been seen, `done` any other call that is done.

#![deny(warnings)]
#![deny(unsafe_code)]

mod access;
mod antennas;
mod bank;
mod case;
mod compressed;
mod desk;
mod frames;
mod hspdsch;
mod jobs;
mod lengths;
mod paging;
mod runs;
mod samples;
mod slots;
mod uplink;
mod wake;

fn main() {
    let questions_only = match std::env::args().nth(1).as_deref() {
        None => false,
        Some("--questions") => true,
        Some(other) => panic!("{other} is not --questions"),
    };
    let dedicated = [slots::all(), frames::all(), compressed::all(), uplink::all()];
    let others = [antennas::all(), paging::all(), access::all(), desk::all(), samples::all(), wake::all(), jobs::all(), hspdsch::all(), bank::all(), lengths::all()];
    for case in [dedicated.concat(), others.concat()].concat() {
        if questions_only {
            println!("{}", case.question);
        } else {
            print!("{}{}", case.question, case.answer);
        }
    }
}
