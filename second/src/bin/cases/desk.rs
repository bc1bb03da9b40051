//! The random access desk: slots by themselves and in a row, and the distances.

use crate::case::{Case, Line};
use crate::runs::{FAR, far, left, numbers};
use second::rules::desk;

fn serve(name: &str, last: usize, heard: u16, available: u16, n: usize, n_values: usize) -> Case {
    let outcome = desk::serve(last, heard, available, n, n_values);
    let line = Line::new(name, "desk serve").key("last", last).key("heard", heard);
    let line = line.key("available", available).key("n", n);
    let after = outcome.as_ref().map_or(last, |(_, after)| *after);
    let values = outcome.map(|(values, _)| values);
    line.gives("last", after).lent("values", far(n_values), numbers(&left(&values, n_values, FAR))).answered(&values)
}

fn to_aich(name: &str, timing: usize) -> Case {
    let outcome = desk::to_aich(timing);
    Line::new(name, "desk to AICH").key("timing", timing).gives("chips", outcome.unwrap_or(0)).answered(&outcome)
}

fn to_message(name: &str, timing: usize) -> Case {
    let outcome = desk::to_message(timing);
    Line::new(name, "desk to message").key("timing", timing).gives("chips", outcome.unwrap_or(0)).answered(&outcome)
}

fn slots() -> Vec<Case> {
    vec![
        // the three slots of docs/DESK.md
        serve("done", 15, 0x4224, 0xffff, 2, 32),
        serve("done", 5, 0x4204, 0xffff, 2, 32),
        serve("done", 14, 0x0004, 0xfffb, 2, 32),
        // the order starts after the last one served, which comes last
        serve("done", 5, 0x0060, 0xffff, 1, 32),
        serve("done", 5, 0x0020, 0xffff, 1, 32),
        // the last in the order is not the last in number
        serve("done", 12, 0x6003, 0xffff, 3, 32),
        serve("done", 9, 0xffff, 0xffff, 8, 32),
        // nobody is heard, nobody is available
        serve("done", 9, 0, 0xffff, 16, 32),
        serve("done", 9, 0xffff, 0, 16, 32),
        serve("done", 3, 0xffff, 0x8001, 1, 32),
        serve("done", 0, 0xffff, 0xffff, 16, 32),
    ]
}

fn refused() -> Vec<Case> {
    vec![
        serve("refusal 3", 16, 0xffff, 0xffff, 0, 31),
        serve("refusal 11", 16, 0xffff, 0xffff, 0, 32),
        serve("refusal 11", 16, 0xffff, 0xffff, 17, 32),
        serve("refusal 11", 16, 0xffff, 0xffff, 16, 32),
    ]
}

fn distances() -> Vec<Case> {
    vec![
        to_aich("done", 0),
        to_aich("done", 1),
        to_aich("refusal 11", 2),
        to_message("done", 0),
        to_message("done", 1),
        to_message("refusal 11", 2),
    ]
}

pub fn all() -> Vec<Case> {
    [slots(), refused(), distances()].concat()
}
