//! Files that are printed to their end.

use crate::good::{AICH, Job, NPS, PICH, aich, dpch, dpch_of, file, pich, some};
use second::fields::lengths_of;
use second::random::Random;

/// A file for each format and slot: a record for each command, and where the format has TFCI one that is silent.
pub fn formats() -> Vec<Job> {
    let mut random = Random::new(100);
    let mut jobs = Vec::new();
    for format in 0..=16 {
        let lengths = lengths_of(format.into());
        for slot in 0..15 {
            let mut records = vec![dpch(&mut random, format, slot, 0), dpch(&mut random, format, slot, 1)];
            if lengths.tfci > 0 {
                let data = random.digits(lengths.data(), 3);
                records.push(dpch_of(format, slot, slot % 2, &vec![2; lengths.tfci], &data));
            }
            jobs.push(Job::new(format!("format {format}, slot {slot}"), file(&records)));
        }
    }
    jobs
}

/// A file for each format: the data all alike, and the digits in turn.
pub fn extreme_data() -> Vec<Job> {
    (0..=16_u8)
        .map(|format| {
            let lengths = lengths_of(format.into());
            let tfci = vec![format % 2; lengths.tfci];
            let in_turn: Vec<u8> = (0..lengths.data()).map(|index| (index % 3) as u8).collect();
            let runs = [vec![0; lengths.data()], vec![1; lengths.data()], vec![2; lengths.data()], in_turn];
            let records: Vec<Vec<u8>> = runs.iter().map(|data| dpch_of(format, 3, 1, &tfci, data)).collect();
            Job::new(format!("format {format}"), file(&records))
        })
        .collect()
}

/// For each Np a file of one record, and one with records of many sets of indicators.
pub fn paging() -> Vec<Job> {
    let mut random = Random::new(101);
    let mut jobs = Vec::new();
    for np in NPS {
        let of = |choose: &dyn Fn(u8) -> bool| [vec![PICH, np], (0..np).map(|q| choose(q).into()).collect()].concat();
        let mut records = vec![of(&|_| false), of(&|_| true), of(&|q| q % 2 == 0), of(&|q| q % 2 == 1)];
        records.extend([0, 1, np / 2, np - 1].map(|only| of(&move |q| q == only)));
        records.extend((0..20).map(|_| pich(&mut random, np)));
        jobs.push(Job::new(format!("Np {np}, many sets"), file(&records)));
        jobs.push(Job::new(format!("Np {np}, one record"), file(&[pich(&mut random, np)])));
    }
    jobs
}

/// Each signature alone with each sign, all of one sign, and files of random indicators.
pub fn acquisition() -> Vec<Job> {
    let mut random = Random::new(102);
    let of = |choose: &dyn Fn(usize) -> u8| [vec![AICH], (0..16).map(choose).collect()].concat();
    let mut alone = vec![of(&|_| 0), of(&|_| 1), of(&|_| 2)];
    for s in 0..16 {
        alone.push(of(&|other| u8::from(other == s)));
        alone.push(of(&|other| 2 * u8::from(other == s)));
    }
    let mut jobs = vec![Job::new("one signature, and all", file(&alone))];
    for round in 0..10 {
        let records: Vec<Vec<u8>> = (0..200).map(|_| aich(&mut random)).collect();
        jobs.push(Job::new(format!("random indicators {round}"), file(&records)));
    }
    jobs
}

/// One to eight records of any kind and format; and no record at all.
pub fn mixes() -> Vec<Job> {
    let mut random = Random::new(103);
    let mut jobs = vec![Job::new("no record", file(&[]))];
    jobs.extend((0..200).map(|round| Job::new(format!("mix {round}"), file(&some(&mut random, 8, 16)))));
    jobs
}

#[cfg(test)]
mod tests {
    use second::rules::job::printed;

    #[test]
    fn no_file_is_refused() {
        for jobs in [super::formats(), super::extreme_data(), super::paging(), super::acquisition(), super::mixes()] {
            for job in jobs {
                assert!(!printed(&job.bytes).contains("refused"), "{}", job.what);
            }
        }
    }
}
