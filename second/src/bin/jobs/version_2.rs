//! Files of version 2: its count, its limit, the end of the 64 KiB that a program may hold at a time, and files that arrive
//! in pieces. Every list of version 1 is tried as version 2 as well (`again`).

use crate::chance::mutation;
use crate::good::{AICH, DPCH, Job, LAST, PICH, aich, any, dpch, file_2, file_2_counting, filling, pich, three_kinds};
use second::random::Random;
use second::rules::job::{LONGEST, LONGEST_2, MARK_AND_VERSION_2};

/// Mark, version and count.
const HEADER: usize = 7;

/// As much of a file as a program may hold at a time.
const HELD: usize = 65536;

/// A file of version 1 as one of version 2: the version's low byte, and a byte more for the count. What is no such file, or
/// ends in its header, is left as it is but for these.
fn as_version_2(bytes: &[u8]) -> Vec<u8> {
    let mut bytes = bytes.to_vec();
    if bytes.get(4) == Some(&1) {
        bytes[4] = 2;
    }
    if bytes.len() > 5 {
        bytes.insert(5, 0);
    }
    bytes
}

/// The files of a list of version 1 as version 2.
pub fn again(jobs: Vec<Job>) -> Vec<Job> {
    jobs.into_iter().map(|job| Job { bytes: as_version_2(&job.bytes), ..job }).collect()
}

/// As many records as are counted, one fewer and one more: 0, 1, 255, 256, 257 and 65535 of them. Many are the shortest
/// there are.
pub fn counts() -> Vec<Job> {
    let mut random = Random::new(800);
    let all: Vec<Vec<u8>> = (0..65536).map(|index| dpch(&mut random, (index % 2) as u8, (index % 15) as u8, 1)).collect();
    let mut jobs = Vec::new();
    for count in [0, 1, 255, 256, 257, 65535] {
        for there in [usize::from(count).saturating_sub(1), count.into(), usize::from(count) + 1] {
            let bytes = file_2_counting(count, &all[..there]);
            jobs.push(Job::new(format!("{count} counted, {there} there"), bytes));
        }
    }
    jobs
}

/// Every byte of the count before two records: its high byte and its low one.
pub fn count_bytes() -> Vec<Job> {
    let mut random = Random::new(801);
    let records = [dpch(&mut random, 0, 2, 0), dpch(&mut random, 1, 3, 1)];
    let mut jobs = Vec::new();
    for byte in 0..=255 {
        for count in [[0, byte], [byte, 0], [byte, 2]] {
            let bytes = file_2_counting(u16::from_be_bytes(count), &records);
            jobs.push(Job::new(format!("count {count:?}, two records"), bytes));
        }
    }
    jobs
}

/// A file of exactly the given length.
fn exactly(length: usize) -> Vec<u8> {
    file_2(&filling(length - HEADER))
}

/// Near the limit, near that of version 1 and near what may be held, good but for the length; and much longer.
pub fn lengths() -> Vec<Job> {
    let near = |length: usize| length - 2..=length + 2;
    let lengths = near(LONGEST).chain([HELD + 2]).chain(near(2 * HELD)).chain(near(LONGEST_2)).chain([LONGEST_2 + HELD, 2 * LONGEST_2]);
    let mut jobs: Vec<Job> = lengths.map(|length| Job::new(format!("{length} bytes"), exactly(length))).collect();
    for length in [LONGEST_2 - 1, LONGEST_2, LONGEST_2 + 1] {
        let zeros = [&MARK_AND_VERSION_2[..], &vec![0; length - 5]].concat();
        jobs.push(Job::new(format!("{length} bytes, no record and zeros"), zeros));
        let mut unknown = exactly(length);
        unknown[HEADER] = 0;
        jobs.push(Job::new(format!("{length} bytes, the first kind unknown"), unknown));
        let mut wrong = exactly(length);
        wrong[2] = b't';
        jobs.push(Job::new(format!("{length} bytes, a wrong mark"), wrong));
    }
    jobs
}

/// The longest file, with a fault in its last record or in its count, alone and with a byte at the limit.
pub fn bad_at_the_end() -> Vec<Job> {
    let records = filling(LONGEST_2 - HEADER);
    let count = records.len() as u16;
    let good = file_2(&records);
    let last_at = LONGEST_2 - LAST;
    let mut jobs = vec![
        Job::new("a record too few counted", file_2_counting(count - 1, &records)),
        Job::new("a record too many counted", file_2_counting(count + 1, &records)),
        Job::new("all but the last byte", good[..LONGEST_2 - 1].to_vec()),
    ];
    let faults = [("kind", 0, 0), ("format", 1, 255), ("record too long", 1, 16), ("slot", 2, 15), ("digit", LAST - 1, 3)];
    for (name, at, byte) in faults {
        let mut bytes = good.clone();
        bytes[last_at + at] = byte;
        jobs.push(Job::new(format!("the last {name}"), bytes.clone()));
        bytes.push(AICH);
        jobs.push(Job::new(format!("the last {name}, and a byte"), bytes));
    }
    let mut more = file_2_counting(count + 1, &records);
    more.push(0);
    jobs.push(Job::new("a record too many counted, and a byte that is no kind", more));
    jobs
}

/// A record of each kind, and one that is longer.
fn crossing_records() -> [(&'static str, Vec<u8>); 4] {
    let mut random = Random::new(802);
    [
        ("AICH", aich(&mut random)),
        ("PICH", pich(&mut random, 18)),
        ("DPCH", dpch(&mut random, 1, 7, 1)),
        ("DPCH of format 12", dpch(&mut random, 12, 7, 1)),
    ]
}

/// A last record that has so many bytes before the limit, and what follows it.
fn at_limit(before: usize, last: &[u8]) -> Vec<u8> {
    let mut records = filling(LONGEST_2 - before - HEADER);
    records.push(last.to_vec());
    file_2(&records)
}

/// A record that crosses the limit at each of its bytes, or ends before it: whole; with the file's end at the limit and a
/// byte before and behind it; and with a bad digit before the limit.
pub fn crossing_the_limit() -> Vec<Job> {
    let mut jobs = Vec::new();
    for (name, record) in crossing_records() {
        for before in 0..=record.len() {
            let whole = at_limit(before, &record);
            let what = |case: &str| format!("{name}, {before} bytes before the limit, {case}");
            for end in [LONGEST_2 - 1, LONGEST_2, LONGEST_2 + 1] {
                if end < whole.len() {
                    jobs.push(Job::new(what(&format!("cut to {end} bytes")), whole[..end].to_vec()));
                }
            }
            if before > 2 {
                let mut bad = whole.clone();
                bad[LONGEST_2 - 1] = 99;
                jobs.push(Job::new(what("the digit before it bad"), bad));
            }
            jobs.push(Job::new(what("whole"), whole));
        }
    }
    jobs
}

/// The limit at a kind, at an Np or a format, behind them, and behind the last record, whatever stands there.
pub fn at_the_limit() -> Vec<Job> {
    let mut jobs = Vec::new();
    let beginnings = [vec![], vec![AICH], vec![PICH], vec![DPCH], vec![PICH, 18], vec![PICH, 19], vec![DPCH, 0], vec![DPCH, 16], vec![DPCH, 17], vec![9]];
    for beginning in beginnings {
        for byte in [0, 1, 2, 3, 18, 255] {
            let last = [&beginning[..], &[byte]].concat();
            jobs.push(Job::new(format!("{last:?}, the last byte at the limit"), at_limit(beginning.len(), &last)));
        }
        jobs.push(Job::new(format!("{beginning:?} and the file's end"), at_limit(beginning.len(), &beginning)));
    }
    let records = filling(LONGEST_2 - HEADER);
    for byte in [0, 1, 3, 255] {
        jobs.push(Job::new(format!("{byte} behind the last record"), [file_2(&records), vec![byte]].concat()));
    }
    jobs
}

/// Records that cross the end of what may be held at a time, at each of their bytes; of the longest at some.
pub fn crossing_what_is_held() -> Vec<Job> {
    let mut random = Random::new(803);
    let long = dpch(&mut random, 16, 7, 1);
    let mut jobs = Vec::new();
    for (name, record) in crossing_records().into_iter().chain([("DPCH of format 16", long)]) {
        for before in (0..=record.len()).step_by(1 + record.len() / 100) {
            let mut records = filling(HELD - before - HEADER);
            records.extend([record.clone(), any(&mut random, 16), any(&mut random, 16)]);
            jobs.push(Job::new(format!("{name}, {before} bytes before the end"), file_2(&records)));
        }
    }
    jobs
}

/// The longest records and the shortest alone, so that the end of what is held moves through them.
pub fn one_length() -> Vec<Job> {
    let mut random = Random::new(804);
    let mut jobs = Vec::new();
    for format in [0, 8, 13, 15, 16] {
        let record = dpch(&mut random, format, 3, 0);
        let most = ((LONGEST_2 - HEADER) / record.len()).min(65535);
        jobs.push(Job::new(format!("{most} records of format {format}"), file_2(&vec![record; most])));
    }
    jobs
}

/// Some thousand records of all kinds: a job as a generator writes it.
pub fn thousands() -> Vec<Job> {
    let mut random = Random::new(805);
    let sizes = [1000, 3000, 5000];
    sizes.map(|count| Job::new(format!("{count} records"), file_2(&(0..count).map(|_| any(&mut random, 13)).collect::<Vec<_>>()))).into()
}

/// The program is given the file a little at a time: 1, 7, 4096 bytes, and pieces of any length.
pub fn pieces() -> Vec<Job> {
    let mut jobs = Vec::new();
    let small = file_2(&three_kinds(&mut Random::new(806))[0]);
    let files = [(small, vec![1, 7, 40]), (exactly(HELD + 4000), vec![1, 7, 4096]), (exactly(3 * HELD), vec![7, 4096])];
    for (bytes, lengths) in files.into_iter().chain([(exactly(LONGEST_2), vec![4096]), (exactly(LONGEST_2 + 1), vec![4096])]) {
        for piece in lengths {
            jobs.push(Job { piece, ..Job::new(format!("{} bytes in pieces of {piece}", bytes.len()), bytes.clone()) });
        }
        let whole = bytes.len();
        for (seed, piece) in [(1, 3000), (2, 9000)] {
            jobs.push(Job { piece, uneven: Some(seed), ..Job::new(format!("{whole} bytes in pieces of any length"), bytes.clone()) });
        }
    }
    jobs
}

/// Long files with one to three changes, wherever they are.
pub fn long_and_damaged() -> Vec<Job> {
    some_long_and_damaged(Random::new(807), 60)
}

pub fn some_long_and_damaged(mut random: Random, files: usize) -> Vec<Job> {
    (0..files)
        .map(|round| {
            let length = if round % 3 == 0 { LONGEST_2 - random.below(3) } else { HELD + random.below(3 * HELD) };
            mutation(&format!("{length} bytes {round}"), exactly(length), &mut random)
        })
        .collect()
}

#[cfg(test)]
mod tests {
    use super::{at_the_limit, bad_at_the_end, exactly, thousands};
    use second::rules::job::{LONGEST_2, printed};

    #[test]
    fn the_longest_file_is_good_and_the_next_is_not() {
        let text = printed(&exactly(LONGEST_2));
        assert!(text.starts_with("SLT 2 ") && !text.contains("refused"));
        let next = printed(&exactly(LONGEST_2 + 1));
        assert!(next.lines().count() > 800 && next.ends_with("\nrefused 20 1048576\n"));
    }

    #[test]
    fn what_is_at_the_limit_is_not_looked_at() {
        for job in at_the_limit() {
            let text = printed(&job.bytes);
            let last = text.lines().last().expect("a line");
            let expected = match job.bytes.len() {
                LONGEST_2 => ["refused 24 1048576", "refused 1 0", "refused 8 0", "refused 23 1048575"].contains(&last),
                _ => ["refused 20 1048576", "refused 1 0", "refused 8 0", "refused 23 1048575"].contains(&last),
            };
            assert!(expected, "{}: {last}", job.what);
        }
    }

    #[test]
    fn every_file_that_is_bad_at_its_end_is_refused_there() {
        for job in bad_at_the_end() {
            let text = printed(&job.bytes);
            assert!(text.lines().count() > 800 && text.lines().last().expect("a line").starts_with("refused "), "{}", job.what);
        }
    }

    #[test]
    fn thousands_of_records_are_printed() {
        for job in thousands() {
            assert!(!printed(&job.bytes).contains("refused"), "{}", job.what);
        }
    }
}
