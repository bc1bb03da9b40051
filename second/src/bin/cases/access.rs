//! AICH: P9 to P12, indicators, values, sets of available signatures and the combiner.

use crate::case::{Case, Line};
use crate::runs::{FAR, far, left, numbers};
use second::rules::combiner::{Complex, combine, gain_pair, symbols};
use second::rules::{aich, sttd};

fn map(name: &str, indicators: &[i32], n_values: usize) -> Case {
    let outcome = aich::map(indicators, n_values);
    let line = Line::new(name, "AICH map").key("indicators", numbers(indicators));
    line.lent("values", far(n_values), numbers(&left(&outcome, n_values, FAR))).answered(&outcome)
}

fn read(name: &str, values: &[i32]) -> Case {
    let outcome = aich::read(values, 16);
    let line = Line::new(name, "AICH read").key("values", numbers(values));
    line.lent("indicators", far(16), numbers(&left(&outcome, 16, FAR))).answered(&outcome)
}

fn mapping() -> Vec<Case> {
    vec![
        map("P9", &[1; 16], 32),
        map("P10", &[1, -1, 0, 0, 0, 0, 0, 0, 0, 0, 0, 0, 0, 0, 0, 0], 32),
        map("done", &[1, 0, -1, 0, 0, 1, 1, 0, 0, 0, -1, 0, 0, 0, 0, -1], 32),
        map("refusal 11", &[1, 0, -1, 0, 0, 1, 1, 2, 0, 0, -1, 0, 0, -2, 0, -1], 32),
        map("refusal 3", &[2, 2], 32),
        map("refusal 3", &[2; 16], 31),
    ]
}

fn reading() -> Vec<Case> {
    let mut ones = [1; 32];
    ones[31] = -1;
    let values = [0, 0, 2, 2].repeat(8);
    // unlike neighbours with the same sum: every correlation is that of the values before
    let mut unlike = values.clone();
    unlike[6] = 1;
    unlike[7] = 3;
    let mut pair = [0; 32];
    pair[0] = 1;
    pair[1] = 1;
    vec![
        read("P11", &[2; 32]),
        read("other", &ones),
        read("done", &values),
        read("slip", &unlike),
        read("refusal 10", &pair),
        read("refusal 3", &[2]),
    ]
}

fn map_available(name: &str, available: u16, indicators: &[i32], n_values: usize) -> Case {
    let outcome = aich::map_available(available, indicators, n_values);
    let line = Line::new(name, "AICH available map").key("set", available).key("indicators", numbers(indicators));
    line.lent("values", far(n_values), numbers(&left(&outcome, n_values, FAR))).answered(&outcome)
}

fn read_available(name: &str, available: u16, values: &[i32], n_indicators: usize) -> Case {
    let outcome = aich::read_available(available, values, n_indicators);
    let line = Line::new(name, "AICH available read").key("set", available).key("values", numbers(values));
    line.lent("indicators", far(n_indicators), numbers(&left(&outcome, n_indicators, FAR))).answered(&outcome)
}

/// Signatures 0 and 15 have indicators, and one in between that is out of range or not.
fn ends(between: i32) -> [i32; 16] {
    let mut indicators = [0; 16];
    indicators[0] = 1;
    indicators[9] = between;
    indicators[15] = -1;
    indicators
}

fn mapping_available() -> Vec<Case> {
    vec![
        map_available("done", 0xffff, &[1; 16], 32),
        map_available("done", 0x8001, &ends(0), 32),
        map_available("done", 0, &[0; 16], 32),
        // a negative indicator outside the set was once mapped without a word
        map_available("slip", 0x7fff, &ends(0), 32),
        map_available("refusal 26", 0x7ffe, &ends(1), 32),
        map_available("refusal 26", 0x8001, &ends(-1), 32),
        map_available("refusal 11", 0x7ffe, &ends(2), 32),
        map_available("refusal 3", 0, &[2; 15], 31),
        map_available("refusal 3", 0, &[2; 16], 31),
    ]
}

fn reading_available() -> Vec<Case> {
    let values = aich::map(&ends(1), 32).expect("these are indicators");
    // unlike neighbours with the same sum: the correlations show the same indicators, which no longer give the values
    let mut unlike = values.clone();
    unlike[0] += 1;
    unlike[1] -= 1;
    vec![
        read_available("done", 0xffff, &values, 16),
        read_available("done", 0x8201, &values, 16),
        read_available("refusal 26", 0x7ffe, &values, 16),
        read_available("refusal 26", 0x8001, &values, 16),
        read_available("refusal 10", 0x7ffe, &unlike, 16),
        read_available("refusal 3", 0x7ffe, &values, 17),
        read_available("refusal 3", 0x7ffe, &values[1..], 17),
    ]
}

/// The gains are the parts of h1 and h2.
fn combined(name: &str, gains: [i64; 4], received: &[i32]) -> Case {
    let outcome = combine(gains, received, 16);
    let line = Line::new(name, "AICH combine").key("gains", numbers(&gains)).key("received", numbers(received));
    line.lent("results", far(16), numbers(&left(&outcome, 16, i64::from(FAR)))).answered(&outcome)
}

/// What arrives with no noise when one indicator is sent from both antennas: the values of antenna 1 times h1, and
/// what STTD makes of them times h2.
fn clean(gains: [i64; 4], signature: usize, indicator: i32) -> Vec<i32> {
    let mut indicators = [0; 16];
    indicators[signature] = indicator;
    let antenna1 = aich::map(&indicators, 32).expect("these are indicators");
    let antenna2 = sttd::values(&antenna1, 32).expect("these are values");
    let [h1, h2] = gain_pair(gains);
    let sent = |values: &[i32]| symbols(&values.iter().map(|value| i128::from(*value)).collect::<Vec<_>>());
    let arriving = |(s1, s2): (Complex, Complex)| h1.times(s1).plus(h2.times(s2));
    let heard = sent(&antenna1).into_iter().zip(sent(&antenna2)).map(arriving);
    heard.flat_map(|symbol| [symbol.re as i32, symbol.im as i32]).collect()
}

fn combining() -> Vec<Case> {
    let none = [0; 32];
    let (mut above, mut lowest) = (none, none);
    above[30] = 1_048_577;
    lowest[30] = -1_048_576;
    vec![
        combined("P12", [3, 4, 0, 0], &clean([3, 4, 0, 0], 5, -1)),
        combined("other", [4097, 0, 0, 0], &none),
        combined("other", [4096, 0, 0, 0], &none),
        combined("other", [1, 1, 2, -1], &clean([1, 1, 2, -1], 0, 1)),
        combined("refusal 11", [0, 0, 0, 0], &above),
        combined("refusal 11", [0, -4097, 4097, -4097], &above),
        combined("refusal 11", [0, 0, 4097, -4097], &above),
        combined("refusal 11", [0, 0, 0, -4097], &above),
        combined("refusal 12", [0, 0, 0, 0], &lowest),
        combined("done", [-4096, 4096, -4096, -4096], &lowest),
        combined("refusal 3", [4097, 0, 0, 0], &[0]),
    ]
}

pub fn all() -> Vec<Case> {
    [mapping(), reading(), mapping_available(), reading_available(), combining()].concat()
}
