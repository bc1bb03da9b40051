//! The bytes that decide how long a record is, records that are cut, and bytes after the last one.

use crate::good::{AICH, DPCH, Job, NPS, PICH, TFCI_AT, aich, dpch, file, file_counting, pich, three_kinds};
use second::fields::lengths_of;
use second::random::Random;

/// A good record, then one that begins with each byte that is no kind.
pub fn unknown_kinds() -> Vec<Job> {
    let mut random = Random::new(300);
    let good = dpch(&mut random, 0, 4, 1);
    let unknown = (0..=255).filter(|kind| ![AICH, PICH, DPCH].contains(kind));
    unknown.map(|kind| Job::new(format!("kind {kind}"), file(&[good.clone(), vec![kind; 20]]))).collect()
}

/// As many indicators as the Np says, whether there is such an Np or not; and a file that ends with its Np.
pub fn np_bytes() -> Vec<Job> {
    let mut random = Random::new(301);
    let mut jobs = Vec::new();
    for np in 0..=255 {
        jobs.push(Job::new(format!("Np {np}"), file(&[pich(&mut random, np)])));
        jobs.push(Job::new(format!("Np {np}, the last byte"), file(&[vec![PICH, np]])));
    }
    jobs
}

/// A good record for each format, and a few zeros for each byte that is none; and a file that ends with its format.
pub fn format_bytes() -> Vec<Job> {
    let mut random = Random::new(302);
    let mut jobs = Vec::new();
    for format in 0..=255 {
        let record = if format > 16 { vec![DPCH, format, 0, 0, 0, 0, 0, 0] } else { dpch(&mut random, format, 5, 0) };
        jobs.push(Job::new(format!("format {format}"), file(&[record])));
        jobs.push(Job::new(format!("format {format}, the last byte"), file(&[vec![DPCH, format]])));
    }
    jobs
}

/// Three small files, each cut after every byte; the whole files as well.
pub fn truncations() -> Vec<Job> {
    let mut jobs = Vec::new();
    for (turn, records) in three_kinds(&mut Random::new(303)).iter().enumerate() {
        let whole = file(records);
        for length in 0..=whole.len() {
            jobs.push(Job::new(format!("file {turn} cut to {length} bytes"), whole[..length].to_vec()));
        }
    }
    jobs
}

/// A last record of each format and Np, cut at the end of each of its fields, a byte before and a byte behind it.
pub fn cut_fields() -> Vec<Job> {
    let mut random = Random::new(304);
    let mut jobs = Vec::new();
    for np in NPS {
        let record = pich(&mut random, np);
        push_cuts(&mut jobs, &format!("Np {np}"), &record, &[2, 2 + usize::from(np) / 2]);
    }
    for format in 0..=16 {
        let record = dpch(&mut random, format, 6, 1);
        let lengths = lengths_of(format.into());
        let data_at = TFCI_AT + lengths.tfci;
        push_cuts(&mut jobs, &format!("format {format}"), &record, &[2, TFCI_AT, data_at, data_at + lengths.data1]);
    }
    jobs
}

/// The record behind a good one, cut near each of the places and near its end.
fn push_cuts(jobs: &mut Vec<Job>, what: &str, record: &[u8], places: &[usize]) {
    let good = aich(&mut Random::new(305));
    let near = places.iter().flat_map(|place| [place - 1, *place, place + 1]);
    let mut kept: Vec<usize> = near.chain([0, record.len() - 2, record.len() - 1]).collect();
    kept.sort_unstable();
    kept.dedup();
    for length in kept.into_iter().filter(|length| *length < record.len()) {
        let bytes = file(&[good.clone(), record[..length].to_vec()]);
        jobs.push(Job::new(format!("{what}, {length} of {} bytes", record.len()), bytes));
    }
}

/// One or more bytes after a last record of each kind, and after none: bytes that could be a record, and others.
pub fn bytes_after() -> Vec<Job> {
    let mut random = Random::new(306);
    let mut before = vec![vec![]];
    before.extend(three_kinds(&mut random));
    let mut jobs = Vec::new();
    for records in before {
        let good = file(&records);
        let last_kind = records.last().map_or(0, |record| record[0]);
        let mut push = |after: Vec<u8>| {
            let what = format!("{} bytes after kind {last_kind}, the first is {}", after.len(), after[0]);
            jobs.push(Job::new(what, [&good[..], &after].concat()));
        };
        for byte in [0, 1, 2, 3, 10, 13, 26, 255] {
            push(vec![byte]);
            push(vec![byte; 100]);
        }
        // Whole records that are not counted, and a whole file.
        push(aich(&mut random));
        push(dpch(&mut random, 0, 0, 0));
        push(file_counting(0, &[]));
    }
    jobs
}
