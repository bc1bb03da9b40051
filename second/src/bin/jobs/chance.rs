//! Files with no plan. The sequences of the lists are fixed, so that every run compares the same ones; `fuzz.rs` gives its
//! own.

use crate::good::{AICH, COMMAND_AT, Job, PICH, SLOT_AT, TFCI_AT, file, file_counting, some};
use second::fields::{NO_COMMANDS, NO_DIGITS, break_tfci, lengths_of, put_somewhere};
use second::random::Random;

pub fn damaged_fields() -> Vec<Job> {
    some_damaged(Random::new(700), 700)
}

/// Good files of which one to three fields are damaged; each record keeps its length.
pub fn some_damaged(mut random: Random, files: usize) -> Vec<Job> {
    (0..files)
        .map(|round| {
            let mut records = some(&mut random, 5, 14);
            for _ in 0..1 + random.below(3) {
                let index = random.below(records.len());
                damage(&mut records[index], &mut random);
            }
            Job::new(format!("damaged {round}"), file(&records))
        })
        .collect()
}

/// Damages one field of a record. The record may have been damaged before.
fn damage(record: &mut [u8], random: &mut Random) {
    match record[0] {
        AICH => put_somewhere(&mut record[1..], &NO_DIGITS, random),
        PICH => put_somewhere(&mut record[2..], &NO_COMMANDS, random),
        _ => damage_dpch(record, random),
    }
    if random.below(8) == 0 {
        // Kind, Np or format, or a byte behind them.
        record[random.below(3)] = random.below(256) as u8;
    }
}

/// Slot, command, TFCI or data. A record whose format is no longer good is left as it is.
fn damage_dpch(record: &mut [u8], random: &mut Random) {
    let format = usize::from(record[1]);
    if format > 16 || record.len() < TFCI_AT + lengths_of(format).tfci {
        return;
    }
    let (before_data, data) = record.split_at_mut(TFCI_AT + lengths_of(format).tfci);
    let tfci = &mut before_data[TFCI_AT..];
    match random.below(5) {
        0 => put_somewhere(tfci, &NO_DIGITS, random),
        1 => break_tfci(tfci, random),
        2 => put_somewhere(data, &NO_DIGITS, random),
        3 => before_data[SLOT_AT] = 15 + random.below(241) as u8,
        _ => before_data[COMMAND_AT] = random.pick(&NO_COMMANDS),
    }
}

pub fn random_bytes() -> Vec<Job> {
    some_bytes(Random::new(701), 500)
}

/// Bytes of every value, and small ones: of those many are kinds, formats and digits, so that lines are printed first.
pub fn some_bytes(mut random: Random, files: usize) -> Vec<Job> {
    (0..files)
        .map(|round| {
            let limit = random.pick(&[2, 3, 4, 4, 4, 5, 19, 256]);
            let length = random.below(400);
            let bytes = random.digits(length, limit);
            let count = random.below(256) as u8;
            Job::new(format!("random {round}, bytes below {limit}"), file_counting(count, &[bytes]))
        })
        .collect()
}

pub fn mutations() -> Vec<Job> {
    some_mutations(Random::new(702), 1200)
}

/// Good files that are changed in one to three places.
pub fn some_mutations(mut random: Random, files: usize) -> Vec<Job> {
    (0..files)
        .map(|round| {
            let bytes = file(&some(&mut random, 4, 13));
            mutation(&format!("mutation {round}"), bytes, &mut random)
        })
        .collect()
}

/// The file changed in one to three places, whatever stands there.
pub fn mutation(what: &str, mut bytes: Vec<u8>, random: &mut Random) -> Job {
    let changes: Vec<String> = (0..1 + random.below(3)).map(|_| mutate(&mut bytes, random)).collect();
    Job::new(format!("{what}: {}", changes.join(", ")), bytes)
}

/// Changes the bytes at a random place, and says how.
fn mutate(bytes: &mut Vec<u8>, random: &mut Random) -> String {
    let byte = if random.below(2) == 0 { random.below(4) } else { random.below(256) } as u8;
    // One in three near the beginning, where the header and the first record's numbers are.
    let reach = if random.below(3) == 0 { bytes.len().min(12) } else { bytes.len() };
    let at = random.below(reach + 1);
    match random.below(6) {
        0 if at < bytes.len() => {
            bytes[at] ^= 1 << random.below(8);
            format!("bit flipped at {at}")
        }
        1 if at < bytes.len() => {
            bytes[at] = byte;
            format!("{byte} at {at}")
        }
        2 if at < bytes.len() => {
            bytes.remove(at);
            format!("byte {at} taken out")
        }
        3 => {
            bytes.truncate(at);
            format!("cut to {at} bytes")
        }
        4 => {
            let length = 1 + random.below(40);
            bytes.extend(random.digits(length, 4));
            format!("{length} bytes added")
        }
        _ => {
            bytes.insert(at, byte);
            format!("{byte} put in at {at}")
        }
    }
}
