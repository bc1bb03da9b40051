//! STTD: the library's two calls against the rules.

use super::lengths;
use crate::answer::Answer;
use crate::ffi;
use crate::judge::Judge;
use crate::laws::{self, Kept, every_run};
use crate::random::Random;
use crate::rules::sttd::{self as rules, VALUES};

/// Values just outside -16 to 16, and far outside.
const NO_VALUES: [i32; 10] = [17, -17, 18, -18, 240, 65536, 0x1_0005, -0x1_0000, i32::MAX, i32::MIN];

/// Every comparison of the channel.
pub fn all(judge: &mut Judge) {
    every_block(judge);
    longer_runs(judge);
    damaged_digits(judge);
    digit_lengths(judge);
    every_value(judge);
    random_values(judge);
    damaged_values(judge);
    value_lengths(judge);
    signatures_before_summing(judge);
    laws_of_digits(judge);
    laws_of_values(judge);
}

// One call each, compared.

/// Compares one call and answers what the library left in the output.
fn digits(judge: &mut Judge, input: Option<&[u8]>, room: Option<usize>) -> Vec<u8> {
    let expected = rules::digits(input.unwrap_or(&[]), room.unwrap_or(0));
    let mut lent = judge.given("in", input);
    let mut out = judge.room("out", room, expected.as_deref().ok());
    let got = ffi::sttd_digits(&mut lent, &mut out);
    judge.compare("slt_sttd_digits", String::new, Answer::of(&expected), got, [&lent, &out]);
    out.run().to_vec()
}

/// Compares one call and answers what the library left in the output, if the rules take the input.
fn values(judge: &mut Judge, input: Option<&[i32]>, room: Option<usize>) -> Option<Vec<i32>> {
    let expected = rules::values(input.unwrap_or(&[]), room.unwrap_or(0));
    let mut lent = judge.given("in", input);
    let mut out = judge.room("out", room, expected.as_deref().ok());
    let got = ffi::sttd_values(&mut lent, &mut out);
    judge.compare("slt_sttd_values", String::new, Answer::of(&expected), got, [&lent, &out]);
    expected.is_ok().then(|| out.run().to_vec())
}

// Digits

/// Every block of four over 0, 1, DTX, 3 and 255, and every two blocks over 0, 1 and DTX.
fn every_block(judge: &mut Judge) {
    let choices = [0, 1, 2, 3, 255];
    for set in 0..5_usize.pow(4) {
        let block: Vec<u8> = (0..4).map(|place| choices[set / 5_usize.pow(place) % 5]).collect();
        digits(judge, Some(&block), Some(4));
    }
    for blocks in every_run(8) {
        digits(judge, Some(&blocks), Some(8));
    }
}

/// Every multiple of four up to 400, a frame's worth of the longest slots, and more than 16 bits can count.
fn longer_runs(judge: &mut Judge) {
    let mut random = Random::new(1);
    for length in (0..=400).step_by(4).chain([19_200, 65_532, 65_536, 65_540, 100_000]) {
        for _ in 0..10 {
            digits(judge, Some(&random.digits(length, 3)), Some(length));
        }
        digits(judge, Some(&random.digits(length, 256)), Some(length));
    }
}

/// A digit that is none at each index, and two of them: the lower place must win.
fn damaged_digits(judge: &mut Judge) {
    let mut random = Random::new(2);
    for length in [4, 8, 32, 268, 300] {
        for index in 0..length {
            for to in [3, 4, 127, 128, 254, 255] {
                let mut run = random.digits(length, 3);
                run[index] = to;
                digits(judge, Some(&run), Some(length));
                run[random.below(length)] = 3;
                digits(judge, Some(&run), Some(length));
            }
        }
    }
}

/// Inputs that are no multiple of four, outputs of another length, both, and NULL; with good and bad digits.
fn digit_lengths(judge: &mut Judge) {
    for right in (0..=40).chain([298, 299, 300, 301, 302]) {
        for digit in [0, 1, 2, 3, 255] {
            let run = vec![digit; right];
            for room in lengths(right) {
                digits(judge, Some(&run), room);
            }
            for room in 0..=44 {
                digits(judge, Some(&run), Some(room));
            }
        }
    }
    for room in [None, Some(0), Some(1), Some(3), Some(4), Some(8)] {
        digits(judge, None, room);
        digits(judge, Some(&[]), room);
    }
}

// Values

/// Each value -16 to 16 at each index, all else zero, and everywhere.
fn every_value(judge: &mut Judge) {
    for value in -16..=16 {
        for index in 0..VALUES {
            let mut run = [0; VALUES];
            run[index] = value;
            values(judge, Some(&run), Some(VALUES));
        }
        values(judge, Some(&[value; VALUES]), Some(VALUES));
    }
}

fn random_value(random: &mut Random) -> i32 {
    random.below(33) as i32 - 16
}

fn random_values(judge: &mut Judge) {
    let mut random = Random::new(3);
    for _ in 0..100_000 {
        let run: Vec<i32> = (0..VALUES).map(|_| random_value(&mut random)).collect();
        values(judge, Some(&run), Some(VALUES));
    }
}

/// A value out of range at each index, two of them, and numbers with no plan.
fn damaged_values(judge: &mut Judge) {
    let mut random = Random::new(4);
    for index in 0..VALUES {
        for to in NO_VALUES {
            for _ in 0..20 {
                let mut run: Vec<i32> = (0..VALUES).map(|_| random_value(&mut random)).collect();
                run[index] = to;
                values(judge, Some(&run), Some(VALUES));
                run[random.below(VALUES)] = random.pick(&NO_VALUES);
                values(judge, Some(&run), Some(VALUES));
            }
        }
        let run: Vec<i32> = (0..VALUES).map(|_| random.next() as i32).collect();
        values(judge, Some(&run), Some(VALUES));
    }
}

/// Either run of a wrong length, both at once, with good and bad values.
fn value_lengths(judge: &mut Judge) {
    let mut all = lengths(VALUES);
    all.extend([4, 8, 28, 36].map(Some));
    for n_input in &all {
        for room in &all {
            for value in [0, 16, 17, i32::MIN] {
                let run = n_input.map(|length| vec![value; length]);
                values(judge, run.as_deref(), *room);
            }
        }
    }
}

/// Encoding each signature before summing gives the same values as encoding the sum. Row s of the signatures is +1
/// where s and floor(j/2) have an even number of one bits in common, else -1.
fn signatures_before_summing(judge: &mut Judge) {
    let mut random = Random::new(5);
    let row = |s: usize| -> Vec<i32> {
        (0..VALUES).map(|j| if (s & (j / 2)).count_ones().is_multiple_of(2) { 1 } else { -1 }).collect()
    };
    for _ in 0..2000 {
        let mut sum = [0; VALUES];
        let mut sum_of_encoded = [0; VALUES];
        for s in 0..16 {
            let indicator = random.below(3) as i32 - 1;
            let signature: Vec<i32> = row(s).iter().map(|value| indicator * value).collect();
            let encoded = values(judge, Some(&signature), Some(VALUES)).expect("values in range");
            for j in 0..VALUES {
                sum[j] += signature[j];
                sum_of_encoded[j] += encoded[j];
            }
        }
        let encoded_sum = values(judge, Some(&sum), Some(VALUES)).expect("values in range");
        assert_eq!(encoded_sum, sum_of_encoded, "summing first or last differs");
    }
}

// The laws of the second antenna, of what the library writes. It is lent what it wrote before.

/// Every block and every two blocks, and longer runs.
fn laws_of_digits(judge: &mut Judge) {
    let mut random = Random::new(6);
    let mut runs: Vec<Vec<u8>> = every_run(4).chain(every_run(8)).collect();
    for length in (0..=300).step_by(4) {
        runs.push(random.digits(length, 3));
        runs.push(random.digits(length, 2));
    }
    for run in &runs {
        let encode = |s: &[u8]| digits(judge, Some(s), Some(s.len()));
        assert_eq!(laws::kept(encode, rules::bar, rules::value, run), Kept::ALL, "laws of digits: {run:?}");
    }
}

/// Random values, and sums and multiples that stay within -16 to 16.
fn laws_of_values(judge: &mut Judge) {
    let mut random = Random::new(7);
    let mut draw = |limit: i32| -> Vec<i32> {
        (0..VALUES).map(|_| random.below(2 * limit as usize + 1) as i32 - limit).collect()
    };
    for _ in 0..2000 {
        let mut encode = |s: &[i32]| values(judge, Some(s), Some(VALUES)).expect("values in range");
        let run = draw(16);
        assert_eq!(laws::kept(&mut encode, rules::negated, |z| z, &run), Kept::ALL, "laws of values: {run:?}");
        for terms in [vec![(1, draw(8)), (1, draw(8))], vec![(-4, draw(4))], vec![(3, draw(2)), (-2, draw(5))]] {
            assert!(laws::adds(&mut encode, &terms), "encoding a sum: {terms:?}");
        }
    }
}
