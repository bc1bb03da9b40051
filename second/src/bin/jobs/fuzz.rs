//! Files of a seed: what `chance.rs` makes, and files that have no good header, that began as an example, or that are huge.

use crate::chance::{mutation, some_bytes, some_damaged, some_mutations};
use crate::examples;
use crate::good::{Job, file, some};
use crate::version_2::{again, some_long_and_damaged};
use second::random::{Random, mixed};
use second::rules::job::LONGEST;

/// The lists of a seed. How many files they have is fixed.
pub fn lists(seed: u64) -> Vec<(&'static str, Vec<Job>)> {
    let random = |list: u64| Random::new(mixed(mixed(seed) ^ list));
    vec![
        ("bytes of any value, from the first on", no_header(random(0), 800)),
        ("a good header and random bytes", some_bytes(random(1), 500)),
        ("good files with damaged fields", some_damaged(random(2), 500)),
        ("good files flipped, cut, lengthened and torn", some_mutations(random(3), 800)),
        ("the examples, changed in the same ways", changed_examples(random(4), 600)),
        ("small files in small pieces", small_pieces(random(5), 60)),
        ("huge files in pieces", huge(random(6), 24)),
        ("version 2: damaged fields", again(some_damaged(random(7), 300))),
        ("version 2: flipped, cut, lengthened and torn", again(some_mutations(random(8), 500))),
        ("version 2: small files in small pieces", again(small_pieces(random(9), 40))),
        ("version 2: huge files in pieces", again(huge(random(10), 16))),
        ("version 2: long files, damaged", some_long_and_damaged(random(11), 24)),
    ]
}

/// The first is empty. Of the others half begin as a good file does, and then leave it.
fn no_header(mut random: Random, files: usize) -> Vec<Job> {
    (0..files)
        .map(|round| {
            let length = if round == 0 { 0 } else { random.below(600) };
            let limit = random.pick(&[4, 128, 256, 256]);
            let mut bytes = random.digits(length, limit);
            let good = file(&some(&mut random, 2, 8));
            let kept = random.pick(&[0, 0, 0, 1, 3, 5, 6, 7]).min(length);
            bytes[..kept].copy_from_slice(&good[..kept]);
            Job::new(format!("no plan {round}, {length} bytes below {limit}"), bytes)
        })
        .collect()
}

fn changed_examples(mut random: Random, files: usize) -> Vec<Job> {
    let examples = examples::jobs();
    (0..files)
        .map(|round| {
            let example = &examples[round % examples.len()];
            mutation(&format!("{} {round}", example.what), example.bytes.clone(), &mut random)
        })
        .collect()
}

/// A few records, good or with damage, some bytes at a time.
fn small_pieces(mut random: Random, files: usize) -> Vec<Job> {
    (0..files)
        .map(|round| {
            let piece = 1 + random.below(20);
            let good = file(&some(&mut random, 3, 6));
            let job = mutation(&format!("file {round} in pieces of {piece}"), good, &mut random);
            Job { piece, ..job }
        })
        .collect()
}

/// As long as a file may be, longer, and much longer: what a program reads must be bounded, whatever a pipe brings.
fn huge(mut random: Random, files: usize) -> Vec<Job> {
    (0..files)
        .map(|round| {
            let length = match round % 4 {
                0 => LONGEST - random.below(3),
                1 => LONGEST + 1 + random.below(3),
                2 => LONGEST + random.below(LONGEST),
                _ => 1 << 22,
            };
            // Records repeated, so that most files have a good header and would print much.
            let good = file(&some(&mut random, 30, 16));
            let bytes: Vec<u8> = good.into_iter().cycle().take(length).collect();
            let piece = length / 300 + random.below(LONGEST / 20);
            Job { piece, ..Job::new(format!("huge {round}, {length} bytes in pieces of {piece}"), bytes) }
        })
        .collect()
}
