//! Files near the longest, files of the most records, and files that arrive in pieces.

use crate::good::{Job, LAST, aich, any, dpch, file, file_counting, filling, pich, three_kinds};
use second::random::Random;
use second::rules::job::LONGEST;

/// Good records for a file of version 1 of exactly the given length.
fn exactly(length: usize) -> Vec<Vec<u8>> {
    filling(length - 6)
}

/// Good but for their length, or bad at their very end.
pub fn lengths() -> Vec<Job> {
    let mut jobs = Vec::new();
    for length in [LONGEST - 1, LONGEST, LONGEST + 1, LONGEST + 2, 70_000, 131_071, 131_072] {
        jobs.push(Job::new(format!("{length} bytes"), file(&exactly(length))));
    }
    for length in [LONGEST, LONGEST + 1, 1 << 20] {
        jobs.push(Job::new(format!("{length} zeros"), vec![0; length]));
    }
    // A length that looks like 14 to a program that keeps 16 bits of it, and a file that is good up to there.
    let small = file(&[dpch(&mut Random::new(600), 1, 1, 1)]);
    jobs.push(Job::new("65536 bytes after a good file", [small, vec![0; 65536]].concat()));
    jobs.extend(bad_at_the_end());
    jobs
}

/// The longest file, with a fault in its last record or in its count.
fn bad_at_the_end() -> Vec<Job> {
    let records = exactly(LONGEST);
    let count = records.len() as u8;
    let good = file(&records);
    let last_at = LONGEST - LAST;
    let damaged = |at: usize, byte: u8| {
        let mut bytes = good.clone();
        bytes[at] = byte;
        bytes
    };
    vec![
        Job::new("the longest file, last kind unknown", damaged(last_at, 0)),
        Job::new("the longest file, last format bad", damaged(last_at + 1, 255)),
        Job::new("the longest file, last record too long", damaged(last_at + 1, 16)),
        Job::new("the longest file, last slot bad", damaged(last_at + 2, 15)),
        Job::new("the longest file, last digit bad", damaged(LONGEST - 1, 3)),
        Job::new("the longest file, first kind unknown", damaged(6, 255)),
        Job::new("the longest file, a record too few counted", file_counting(count - 1, &records)),
        Job::new("the longest file, a record too many counted", file_counting(count + 1, &records)),
        Job::new("the longest file but its last byte", good[..LONGEST - 1].to_vec()),
        Job::new("the longest file and a byte", [&good[..], &[1]].concat()),
        Job::new("the longest file, last digit bad, and a byte", [&damaged(LONGEST - 1, 3)[..], &[1]].concat()),
    ]
}

/// 255 records of one kind and of all kinds, one fewer, and one more.
pub fn records() -> Vec<Job> {
    let mut random = Random::new(601);
    let mut jobs = Vec::new();
    let sets: [(&str, Vec<Vec<u8>>); 4] = [
        ("AICH", (0..256).map(|_| aich(&mut random)).collect()),
        ("PICH", (0..256).map(|_| pich(&mut random, 144)).collect()),
        ("DPCH", (0..256).map(|index| dpch(&mut random, 12, (index % 15) as u8, 1)).collect()),
        ("all kinds", (0..256).map(|_| any(&mut random, 13)).collect()),
    ];
    for (name, all) in sets {
        for there in [254, 255, 256] {
            jobs.push(Job::new(format!("{name}: 255 counted, {there} there"), file_counting(255, &all[..there])));
        }
        let mut bad = all[..255].to_vec();
        bad[254][0] = 7;
        jobs.push(Job::new(format!("{name}: the last kind unknown"), file(&bad)));
    }
    jobs
}

/// The program is given the file a little at a time: it must read to the end, whatever one read gives.
pub fn pieces() -> Vec<Job> {
    let mut jobs = Vec::new();
    let small = file(&three_kinds(&mut Random::new(602))[0]);
    for piece in [1, 5, 6, 7, 40] {
        jobs.push(Job { piece, ..Job::new(format!("three kinds in pieces of {piece}"), small.clone()) });
    }
    let over = LONGEST + 1;
    for (length, piece) in [(LONGEST, 1000), (LONGEST, 4096), (LONGEST, 65534), (over, 4096), (over, LONGEST)] {
        let bytes = file(&exactly(length));
        jobs.push(Job { piece, ..Job::new(format!("{length} bytes in pieces of {piece}"), bytes) });
    }
    jobs
}

#[cfg(test)]
mod tests {
    use super::exactly;
    use crate::good::file;
    use second::rules::job::{LONGEST, printed};

    #[test]
    fn the_longest_file_is_good_and_the_next_is_not() {
        let text = printed(&file(&exactly(LONGEST)));
        assert!(text.starts_with("SLT 1 ") && !text.contains("refused"));
        assert_eq!(printed(&file(&exactly(LONGEST + 1))), "refused 20 65535\n");
    }
}
