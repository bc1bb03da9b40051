//! AICH under a set of available signatures: the library's two calls against the rules.

use super::aich::{NO_INDICATORS, good_values, random_set};
use super::lengths;
use crate::answer::Answer;
use crate::ffi;
use crate::judge::Judge;
use crate::random::Random;
use crate::rules::aich::{self as rules, SIGNATURES, VALUES};

const ALL: u16 = u16::MAX;

/// Every comparison of the two calls.
pub fn all(judge: &mut Judge) {
    one_missing_and_one_alone(judge);
    every_set(judge);
    random_sets(judge);
    values_from_outside(judge);
    out_of_range_and_outside(judge);
    given_by_none_and_outside(judge);
    wrong_lengths(judge);
}

// One call each, compared.

fn map(judge: &mut Judge, available: u16, indicators: Option<&[i32]>, room: Option<usize>) {
    let expected = rules::map_available(available, indicators.unwrap_or(&[]), room.unwrap_or(0));
    let mut lent = judge.given("indicators", indicators);
    let mut values = judge.room("values", room, expected.as_deref().ok());
    let got = ffi::aich_map_available(available, &mut lent, &mut values);
    judge.compare("slt_aich_map_available", || set(available), Answer::of(&expected), got, [&lent, &values]);
}

fn read(judge: &mut Judge, available: u16, values: Option<&[i32]>, room: Option<usize>) {
    let expected = rules::read_available(available, values.unwrap_or(&[]), room.unwrap_or(0));
    let mut lent = judge.given("values", values);
    let mut indicators = judge.room("indicators", room, expected.as_deref().ok());
    let got = ffi::aich_read_available(available, &mut lent, &mut indicators);
    judge.compare("slt_aich_read_available", || set(available), Answer::of(&expected), got, [&lent, &indicators]);
}

fn set(available: u16) -> String {
    format!("set {available:#06x}")
}

/// Good indicators mapped under a set, and the values that they give without one read under it.
fn both(judge: &mut Judge, available: u16, indicators: &[i32]) {
    map(judge, available, Some(indicators), Some(VALUES));
    read(judge, available, Some(&good_values(indicators)), Some(SIGNATURES));
}

// The inputs.

/// The set with signature s alone.
fn only(s: usize) -> u16 {
    1 << s
}

/// The sets with one signature, those with all but one, and the two that have none and all.
fn plain_sets() -> Vec<u16> {
    let one = (0..SIGNATURES).map(only);
    one.flat_map(|set| [set, !set]).chain([0, ALL]).collect()
}

/// Indicators with those outside the set turned to 0.
fn silenced(available: u16, indicators: &[i32]) -> Vec<i32> {
    (0..SIGNATURES).map(|s| if available & only(s) != 0 { indicators[s] } else { 0 }).collect()
}

/// All three indicators at each place under the plain sets: among zeros, and where every signature of the set has one.
fn one_missing_and_one_alone(judge: &mut Judge) {
    for available in plain_sets() {
        for s in 0..SIGNATURES {
            for indicator in [-1, 0, 1] {
                for others in [0, 1, -1] {
                    let mut indicators = silenced(available, &[others; SIGNATURES]);
                    indicators[s] = indicator;
                    both(judge, available, &indicators);
                }
            }
        }
    }
}

/// Every set there is: all indicators of one kind, those that the set allows, and those that it does not.
fn every_set(judge: &mut Judge) {
    for available in 0..=ALL {
        let indicator = if available % 3 == 0 { 1 } else { -1 };
        let full = [indicator; SIGNATURES];
        both(judge, available, &full);
        both(judge, available, &silenced(available, &full));
        both(judge, available, &silenced(!available, &full));
    }
}

/// Random sets and indicators: as they come, as the set allows them, and with one more that it may not allow.
fn random_sets(judge: &mut Judge) {
    let mut random = Random::new(6);
    for _ in 0..200_000 {
        let available = random.next() as u16;
        let indicators = random_set(&mut random);
        both(judge, available, &indicators);
        let mut allowed = silenced(available, &indicators);
        both(judge, available, &allowed);
        both(judge, ALL, &allowed);
        allowed[random.below(SIGNATURES)] = random.pick(&[-1, 1]);
        both(judge, available, &allowed);
    }
}

/// The values of one or two signatures, of which the set lacks one, the other or both.
fn values_from_outside(judge: &mut Judge) {
    for first in 0..SIGNATURES {
        for second in 0..SIGNATURES {
            for signs in [[1, 1], [1, -1], [-1, 1], [-1, -1]] {
                let mut indicators = [0; SIGNATURES];
                indicators[first] = signs[0];
                indicators[second] = signs[1];
                let values = good_values(&indicators);
                for lacking in [only(first), only(second), only(first) | only(second)] {
                    read(judge, !lacking, Some(&values), Some(SIGNATURES));
                    read(judge, lacking, Some(&values), Some(SIGNATURES));
                }
            }
        }
    }
}

/// An indicator out of range at one place and one outside the set at another, before and behind it: 11 comes first.
fn out_of_range_and_outside(judge: &mut Judge) {
    for damaged in 0..SIGNATURES {
        for outside in 0..SIGNATURES {
            for to in NO_INDICATORS {
                for indicator in [-1, 1] {
                    let mut indicators = [0; SIGNATURES];
                    indicators[outside] = indicator;
                    indicators[damaged] = to;
                    for available in [!only(outside), !(only(outside) | only(damaged)), only(damaged), 0, ALL] {
                        map(judge, available, Some(&indicators), Some(VALUES));
                    }
                }
            }
        }
    }
}

/// Values that no indicators give, though each correlation is one that indicators have, among them some of signatures
/// outside the set: 10, whatever the set is. Neighbours are unlike in some pairs, which no correlation sees.
fn given_by_none_and_outside(judge: &mut Judge) {
    let mut random = Random::new(7);
    for _ in 0..100_000 {
        let mut values = good_values(&random_set(&mut random));
        for _ in 0..1 + random.below(4) {
            let k = random.below(VALUES / 2);
            let change = 1 + random.below(20) as i32;
            values[2 * k] += change;
            values[2 * k + 1] -= change;
        }
        let available = random.next() as u16;
        for set in [available, 0, ALL] {
            read(judge, set, Some(&values), Some(SIGNATURES));
        }
    }
    for available in plain_sets() {
        for value in [2, 17, i32::MAX, i32::MIN] {
            read(judge, available, Some(&[value; VALUES]), Some(SIGNATURES));
        }
    }
}

/// Either run of a wrong length, both at once, under sets that allow the contents and that do not.
fn wrong_lengths(judge: &mut Judge) {
    for available in [0, 1, ALL] {
        for n in lengths(SIGNATURES) {
            for room in lengths(VALUES) {
                for indicator in [0, 1, 2] {
                    let run = n.map(|length| vec![indicator; length]);
                    map(judge, available, run.as_deref(), room);
                }
            }
        }
        for n in lengths(VALUES) {
            for room in lengths(SIGNATURES) {
                // 0 is what no indicators at all give, and 1 what signature 0 alone gives.
                for value in [0, 1, 2] {
                    let run = n.map(|length| vec![value; length]);
                    read(judge, available, run.as_deref(), room);
                }
            }
        }
    }
}
