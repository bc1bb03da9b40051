//! Headers that are wrong, short, or count something else than what follows.

use crate::good::{Job, dpch, file, file_counting};
use second::random::Random;
use second::rules::job::MARK_AND_VERSION;

/// A good file of one record.
fn one_record() -> Vec<u8> {
    file(&[dpch(&mut Random::new(200), 1, 1, 1)])
}

/// Every wrong value of each byte of mark and version.
pub fn wrong_bytes() -> Vec<Job> {
    let good = one_record();
    let mut jobs = Vec::new();
    for offset in 0..MARK_AND_VERSION.len() {
        for byte in (0..=255).filter(|byte| *byte != good[offset]) {
            let mut bytes = good.clone();
            bytes[offset] = byte;
            jobs.push(Job::new(format!("byte {offset} is {byte}"), bytes));
        }
    }
    jobs
}

/// The first bytes of a file, all right, or with one or two of them wrong: a wrong byte comes before a missing one.
pub fn cut_short() -> Vec<Job> {
    let good = one_record();
    let mut jobs = vec![Job::new("the empty file", Vec::new())];
    for length in 1..=6 {
        jobs.push(Job::new(format!("{length} bytes"), good[..length].to_vec()));
        for first in 0..length.min(5) {
            for second in first..length.min(5) {
                let mut bytes = good[..length].to_vec();
                bytes[first] ^= 0x20;
                bytes[second] |= 0x80;
                jobs.push(Job::new(format!("{length} bytes, {first} and {second} wrong"), bytes));
            }
        }
    }
    jobs
}

/// Every count before two records, and every count before nothing at all.
pub fn counts() -> Vec<Job> {
    let mut random = Random::new(201);
    let records = [dpch(&mut random, 0, 2, 0), dpch(&mut random, 1, 3, 1)];
    let mut jobs = Vec::new();
    for count in 0..=255 {
        jobs.push(Job::new(format!("count {count}, two records"), file_counting(count, &records)));
        jobs.push(Job::new(format!("count {count}, no record"), file_counting(count, &[])));
    }
    jobs
}
