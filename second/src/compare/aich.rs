//! AICH: the library's two calls against the rules.

use super::lengths;
use crate::answer::Answer;
use crate::ffi;
use crate::judge::Judge;
use crate::random::Random;
use crate::rules::aich::{self as rules, SIGNATURES, VALUES, b};

/// Indicators just outside -1 to 1, and far outside.
pub const NO_INDICATORS: [i32; 10] = [2, -2, 3, -3, 255, 256, 65536, 65537, i32::MAX, i32::MIN];

/// What a value is changed by; the damaged value wraps round where it must.
const CHANGES: [i32; 16] =
    [1, -1, 2, -2, 4, -4, 16, -16, 32, -32, 64, 1 << 16, 1 << 24, 1 << 27, 1 << 30, i32::MIN];

/// Every comparison of the channel.
pub fn all(judge: &mut Judge) {
    few_indicators(judge);
    random_indicators(judge);
    damaged_indicators(judge);
    map_lengths(judge);
    read_single_damage(judge);
    read_pairs(judge);
    read_other_multiples(judge);
    read_correlations_that_pass(judge);
    read_extremes(judge);
    read_random(judge);
    read_lengths(judge);
}

// One call each, compared.

/// Compares one map and answers the values, if the rules give them.
fn map(judge: &mut Judge, indicators: Option<&[i32]>, room: Option<usize>) -> Option<Vec<i32>> {
    let expected = rules::map(indicators.unwrap_or(&[]), room.unwrap_or(0));
    let mut lent = judge.given("indicators", indicators);
    let mut values = judge.room("values", room, expected.as_deref().ok());
    let got = ffi::aich_map(&mut lent, &mut values);
    judge.compare("slt_aich_map", String::new, Answer::of(&expected), got, [&lent, &values]);
    expected.ok()
}

/// Compares one read and answers the indicators, if the rules give them.
fn read(judge: &mut Judge, values: Option<&[i32]>, room: Option<usize>) -> Option<Vec<i32>> {
    let expected = rules::read(values.unwrap_or(&[]), room.unwrap_or(0));
    let mut lent = judge.given("values", values);
    let mut indicators = judge.room("indicators", room, expected.as_deref().ok());
    let got = ffi::aich_read(&mut lent, &mut indicators);
    judge.compare("slt_aich_read", String::new, Answer::of(&expected), got, [&lent, &indicators]);
    expected.ok()
}

/// Maps good indicators, reads the values back, and sees that they come back.
fn round_trip(judge: &mut Judge, indicators: &[i32]) {
    let values = map(judge, Some(indicators), Some(VALUES)).expect("good indicators");
    let back = read(judge, Some(&values), Some(SIGNATURES)).expect("mapped values");
    assert_eq!(back, indicators, "the rules themselves do not round trip");
}

// The inputs.

/// Sixteen indicators -1, 0, +1.
pub fn random_set(random: &mut Random) -> Vec<i32> {
    (0..SIGNATURES).map(|_| random.below(3) as i32 - 1).collect()
}

/// A few runs of values that are read: none, one signature, all, and random.
fn some_values() -> Vec<Vec<i32>> {
    let mut random = Random::new(1);
    let mut sets = vec![vec![0; SIGNATURES], vec![1; SIGNATURES], vec![-1; SIGNATURES]];
    for only in [0, 1, 5, 15] {
        sets.push((0..SIGNATURES).map(|s| (s == only) as i32).collect());
        sets.push((0..SIGNATURES).map(|s| -i32::from(s == only)).collect());
    }
    for _ in 0..10 {
        sets.push(random_set(&mut random));
    }
    sets.iter().map(|set| good_values(set)).collect()
}

/// The values of good indicators: the rules' own.
pub fn good_values(indicators: &[i32]) -> Vec<i32> {
    rules::map(indicators, VALUES).expect("good indicators")
}

// Map

/// All sets of indicators with at most three that are not zero.
fn few_indicators(judge: &mut Judge) {
    let signs = [0, 1, -1];
    round_trip(judge, &[0; SIGNATURES]);
    for first in 0..SIGNATURES {
        for second in first + 1..=SIGNATURES {
            for third in second + 1..=SIGNATURES + 1 {
                for choice in 0..27 {
                    // Two places beyond the sixteen stand for "no further indicator".
                    let mut set = [0; SIGNATURES + 2];
                    set[first] = signs[choice % 3];
                    set[second] = signs[choice / 3 % 3];
                    set[third] = signs[choice / 9];
                    round_trip(judge, &set[..SIGNATURES]);
                }
            }
        }
    }
}

fn random_indicators(judge: &mut Judge) {
    let mut random = Random::new(2);
    for _ in 0..1_000_000 {
        let set = random_set(&mut random);
        round_trip(judge, &set);
    }
}

/// An indicator out of range at each index, two of them, and numbers with no plan.
fn damaged_indicators(judge: &mut Judge) {
    let mut random = Random::new(3);
    for index in 0..SIGNATURES {
        for to in NO_INDICATORS {
            for _ in 0..50 {
                let mut set = random_set(&mut random);
                set[index] = to;
                map(judge, Some(&set), Some(VALUES));
                set[random.below(SIGNATURES)] = random.pick(&NO_INDICATORS);
                map(judge, Some(&set), Some(VALUES));
            }
        }
        let set: Vec<i32> = (0..SIGNATURES).map(|_| random.next() as i32).collect();
        map(judge, Some(&set), Some(VALUES));
    }
}

/// Either run of a wrong length, both at once, with good and bad indicators.
fn map_lengths(judge: &mut Judge) {
    for n_indicators in lengths(SIGNATURES) {
        for room in lengths(VALUES) {
            for indicator in [0, 1, 2, i32::MIN] {
                let run = n_indicators.map(|length| vec![indicator; length]);
                map(judge, run.as_deref(), room);
            }
        }
    }
}

// Read

/// Every value of a few runs changed by each amount.
fn read_single_damage(judge: &mut Judge) {
    for values in some_values() {
        for j in 0..VALUES {
            for change in CHANGES {
                let mut damaged = values.clone();
                damaged[j] = damaged[j].wrapping_add(change);
                read(judge, Some(&damaged), Some(SIGNATURES));
            }
        }
    }
}

/// Neighbours of a pair changed by opposite amounts, which no correlation sees, and by the same amount.
fn read_pairs(judge: &mut Judge) {
    for values in some_values() {
        for k in 0..VALUES / 2 {
            for change in CHANGES {
                let mut unlike = values.clone();
                unlike[2 * k] = unlike[2 * k].wrapping_add(change);
                unlike[2 * k + 1] = unlike[2 * k + 1].wrapping_sub(change);
                read(judge, Some(&unlike), Some(SIGNATURES));
                let mut alike = values.clone();
                alike[2 * k] = alike[2 * k].wrapping_add(change);
                alike[2 * k + 1] = alike[2 * k + 1].wrapping_add(change);
                read(judge, Some(&alike), Some(SIGNATURES));
            }
        }
    }
}

/// A signature added once more, twice more, and so often that 32 bits lose the correlation.
fn read_other_multiples(judge: &mut Judge) {
    for values in some_values() {
        for s in 0..SIGNATURES {
            for times in [1, -1, 2, -2, 3, 1 << 26, 1 << 27, -(1 << 27), 1 << 28, 1 << 30] {
                let mut more = values.clone();
                for j in 0..VALUES {
                    more[j] = more[j].wrapping_add(times * b(s, j) as i32);
                }
                read(judge, Some(&more), Some(SIGNATURES));
            }
        }
    }
}

/// Runs whose correlations all are -32, 0 or 32, but whose neighbours are unlike in many pairs.
fn read_correlations_that_pass(judge: &mut Judge) {
    let mut random = Random::new(4);
    for _ in 0..100_000 {
        let mut values = good_values(&random_set(&mut random));
        for _ in 0..1 + random.below(16) {
            let k = random.below(VALUES / 2);
            let change = random.below(41) as i32 - 20;
            values[2 * k] += change;
            values[2 * k + 1] -= change;
        }
        read(judge, Some(&values), Some(SIGNATURES));
    }
}

/// The same extreme number everywhere, by turns with its opposite, and at one place only.
fn read_extremes(judge: &mut Judge) {
    let extremes = [i32::MIN, i32::MIN + 1, i32::MAX, i32::MAX - 1, -1, 1, 2, 16, 17, 1 << 27, 1 << 30];
    for extreme in extremes {
        read(judge, Some(&[extreme; VALUES]), Some(SIGNATURES));
        for s in 0..SIGNATURES {
            let signs: Vec<i32> = (0..VALUES).map(|j| if b(s, j) == 1 { extreme } else { !extreme }).collect();
            read(judge, Some(&signs), Some(SIGNATURES));
        }
        for values in some_values() {
            for j in 0..VALUES {
                let mut damaged = values.clone();
                damaged[j] = extreme;
                read(judge, Some(&damaged), Some(SIGNATURES));
            }
        }
    }
    let mut values = [1; VALUES];
    values[31] = -1;
    read(judge, Some(&values), Some(SIGNATURES));
}

/// Small values with no plan, alike in pairs and not, and numbers with no plan.
fn read_random(judge: &mut Judge) {
    let mut random = Random::new(5);
    for _ in 0..100_000 {
        let small: Vec<i32> = (0..VALUES).map(|_| random.below(33) as i32 - 16).collect();
        read(judge, Some(&small), Some(SIGNATURES));
        let paired: Vec<i32> = (0..VALUES).map(|j| small[j / 2]).collect();
        read(judge, Some(&paired), Some(SIGNATURES));
        let any: Vec<i32> = (0..VALUES).map(|_| random.next() as i32).collect();
        read(judge, Some(&any), Some(SIGNATURES));
    }
}

/// Either run of a wrong length, both at once, with values that are read and values that are not.
fn read_lengths(judge: &mut Judge) {
    for n_values in lengths(VALUES) {
        for room in lengths(SIGNATURES) {
            for value in [0, 1, 2, i32::MIN] {
                let run = n_values.map(|length| vec![value; length]);
                read(judge, run.as_deref(), room);
            }
        }
    }
}
