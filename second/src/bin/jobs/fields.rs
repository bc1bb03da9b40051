//! Fields that the mappers refuse, one in a file.

use crate::good::{self, COMMAND_AT, Job, NPS, SLOT_AT, TFCI_AT, dpch_of, file};
use second::fields::{NO_COMMANDS, lengths_of};
use second::random::Random;

/// The record between two good ones: what stands before it is printed, what stands behind it is not.
fn between(random: &mut Random, record: Vec<u8>) -> Vec<u8> {
    file(&[good::dpch(random, 0, 8, 0), record, good::aich(random)])
}

/// Every byte as slot number and as command.
pub fn slots_and_commands() -> Vec<Job> {
    let mut random = Random::new(400);
    let mut jobs = Vec::new();
    for byte in 0..=255 {
        for (name, at) in [("slot", SLOT_AT), ("command", COMMAND_AT)] {
            let mut record = good::dpch(&mut random, 1, 9, 1);
            record[at] = byte;
            jobs.push(Job::new(format!("{name} {byte}"), between(&mut random, record)));
        }
    }
    jobs
}

/// For each format: the first and the last digit of each field, and whole TFCI fields.
fn damaged_dpch(random: &mut Random, format: u8) -> Vec<(String, Vec<u8>)> {
    let lengths = lengths_of(format.into());
    let data_at = TFCI_AT + lengths.tfci;
    let data2_at = data_at + lengths.data1;
    let end = data_at + lengths.data();
    let bits = dpch_of(format, 10, 0, &random.digits(lengths.tfci, 2), &random.digits(lengths.data(), 3));
    let mut damaged = Vec::new();
    let mut put = |record: &[u8], at: usize, byte: u8| {
        let mut record = record.to_vec();
        record[at] = byte;
        damaged.push((format!("format {format}, byte {at} of the record is {byte}"), record));
    };
    for at in [data_at, data2_at.max(1) - 1, data2_at, end - 1].into_iter().filter(|at| *at >= data_at) {
        put(&bits, at, 3);
        put(&bits, at, 255);
    }
    if lengths.tfci > 0 {
        let silent = dpch_of(format, 10, 0, &vec![2; lengths.tfci], &random.digits(lengths.data(), 3));
        for at in [TFCI_AT, data_at - 1] {
            put(&bits, at, 2);
            put(&bits, at, 3);
            put(&silent, at, 0);
            put(&silent, at, 255);
        }
        // A silent field is no damage: the record is printed, and the one behind it, too.
        damaged.push((format!("format {format}, silent TFCI"), silent));
    }
    damaged
}

/// The damaged fields of every format.
pub fn dpch() -> Vec<Job> {
    let mut random = Random::new(401);
    let mut jobs = Vec::new();
    for format in 0..=16 {
        for (what, record) in damaged_dpch(&mut random, format) {
            jobs.push(Job::new(what, between(&mut random, record)));
        }
    }
    jobs
}

/// Every byte that is no indicator, at one index or another; and each index, with a second bad byte behind it.
pub fn aich() -> Vec<Job> {
    let mut random = Random::new(402);
    let mut jobs = Vec::new();
    for byte in 3..=255_u8 {
        let index = usize::from(byte) % 16;
        let mut record = good::aich(&mut random);
        record[1 + index] = byte;
        jobs.push(Job::new(format!("indicator {index} is {byte}"), between(&mut random, record)));
    }
    for index in 0..16 {
        let mut record = vec![good::AICH; 17];
        record[1 + index] = 3;
        record[16] = 255;
        jobs.push(Job::new(format!("indicators {index} and 15 are bad"), between(&mut random, record)));
    }
    jobs
}

/// For each Np, bytes above 1 at the first, a middle and the last index, alone and with another behind it.
pub fn pich() -> Vec<Job> {
    let mut random = Random::new(403);
    let mut jobs = Vec::new();
    for np in NPS {
        let last = usize::from(np) - 1;
        for index in [0, 1, last / 2, last - 1, last] {
            for byte in NO_COMMANDS {
                let mut record = good::pich(&mut random, np);
                record[2 + index] = byte;
                let one = between(&mut random, record.clone());
                jobs.push(Job::new(format!("Np {np}, indicator {index} is {byte}"), one));
                record[2 + last] = 9;
                let two = between(&mut random, record);
                jobs.push(Job::new(format!("Np {np}, indicators {index} and {last} are bad"), two));
            }
        }
    }
    jobs
}
