//! The random access desk: the library's three calls against the rules, slot by slot and in sequences.

use super::lengths;
use crate::answer::Answer;
use crate::ffi;
use crate::judge::Judge;
use crate::random::Random;
use crate::rules::aich::{SIGNATURES, VALUES, read_available};
use crate::rules::desk::{self as rules, FRESH};

const ALL: u16 = u16::MAX;

/// Six signatures: both ends of the circle, neighbours, and some apart.
const SIX: [usize; 6] = [0, 1, 5, 10, 14, 15];

/// Numbers beside those that may be served, and equal to them in the low 8, 16 or 32 bits.
const NO_NUMBERS: [usize; 10] = [0, 17, 18, 255, 256, 257, 65536 + 4, 1 << 32, (1 << 32) + 1, usize::MAX];

/// Numbers above 15, and equal to a signature in the low bits.
const NO_SIGNATURES: [usize; 9] = [16, 17, 31, 255, 256, 65536, 1 << 32, (1 << 32) + 15, usize::MAX];

/// How many slots a sequence has.
const SLOTS: usize = 200;

/// Every comparison of the desk.
pub fn all(judge: &mut Judge) {
    six_signatures(judge);
    random_slots(judge);
    random_sequences(judge);
    waits(judge);
    refused(judge);
    distances(judge);
}

// One call, compared.

/// What one slot is given beside the desk.
#[derive(Clone, Copy)]
struct Given {
    heard: u16,
    available: u16,
    n: usize,
}

/// Compares one slot, and answers the values that the library wrote and the desk that it left.
fn serve(judge: &mut Judge, last: usize, given: Given, room: Option<usize>) -> (Vec<i32>, usize) {
    let Given { heard, available, n } = given;
    let expected = rules::serve(last, heard, available, n, room.unwrap_or(0));
    let after = expected.as_ref().ok().map(|(_, after)| [*after]);
    let mut desk = judge.changed("desk", Some(&[last]), after.as_ref().map(|one| &one[..]));
    let mut values = judge.room("values", room, expected.as_ref().ok().map(|(values, _)| &values[..]));
    let got = ffi::desk_serve(&mut desk, heard, available, n, &mut values);
    let numbers = || format!("heard {heard:#06x}, available {available:#06x}, n {n}");
    judge.compare("slt_desk_serve", numbers, Answer::of(&expected), got, [&desk, &values]);
    (values.run().to_vec(), desk.run()[0])
}

fn good(judge: &mut Judge, last: usize, given: Given) -> (Vec<i32>, usize) {
    serve(judge, last, given, Some(VALUES))
}

// Slots by themselves.

/// The chosen signatures whose bits are in a number of six bits.
fn chosen(bits: usize) -> u16 {
    (0..SIX.len()).filter(|&k| bits >> k & 1 == 1).map(|k| 1 << SIX[k]).sum()
}

/// All sets of six signatures, heard and available, all n, all desks.
fn six_signatures(judge: &mut Judge) {
    for heard in (0..64).map(chosen) {
        for available in (0..64).map(chosen) {
            for n in 1..=16 {
                for last in 0..SIGNATURES {
                    good(judge, last, Given { heard, available, n });
                }
            }
        }
    }
}

fn random_given(random: &mut Random) -> Given {
    let bits = random.next();
    // now and then more is heard, and now and then all is available
    let heard = if random.below(2) == 0 { bits as u16 } else { bits as u16 | (bits >> 16) as u16 };
    let available = if random.below(4) == 0 { ALL } else { (bits >> 32) as u16 };
    Given { heard, available, n: 1 + random.below(16) }
}

fn random_slots(judge: &mut Judge) {
    let mut random = Random::new(800);
    for _ in 0..500_000 {
        let given = random_given(&mut random);
        good(judge, random.below(SIGNATURES), given);
    }
}

// Sequences. The desk that the library left goes into its next call.

fn random_sequences(judge: &mut Judge) {
    let mut random = Random::new(801);
    for start in [FRESH, 0, 7, 14] {
        for _ in 0..200 {
            let mut last = start;
            let fixed = random_given(&mut random);
            // half of them keep n and the set, the others change both in every slot
            let changing = random.below(2) == 0;
            for _ in 0..SLOTS {
                let drawn = random_given(&mut random);
                let given = if changing { drawn } else { Given { heard: drawn.heard, ..fixed } };
                last = good(judge, last, given).1;
            }
        }
    }
}

/// What is heard beside the signature that waits: it is told the desk and n.
type Others = fn(&mut Random, usize, usize) -> u16;

/// Who else can be heard: nobody, everybody, anybody, and just the n that stand next, so that the desk moves as little
/// as it can.
const OTHERS: [Others; 4] = [
    |_, _, _| 0,
    |_, _, _| ALL,
    |random, _, _| random.next() as u16,
    |_, last, n| (1..=n).map(|step| 1u16 << ((last + step) % SIGNATURES)).sum(),
];

/// What does not change in a sequence.
#[derive(Clone, Copy)]
struct Kept {
    available: u16,
    n: usize,
}

/// How many slots a signature that is heard in each of them waits for +1, as the library's values say.
fn wait(judge: &mut Judge, random: &mut Random, start: usize, s: usize, kept: Kept, others: Others) -> usize {
    let Kept { available, n } = kept;
    let mut last = start;
    for slot in 1..=rules::longest_wait(n) {
        let heard = others(random, last, n) | 1 << s;
        let (values, after) = good(judge, last, Given { heard, available, n });
        let indicators = read_available(available, &values, SIGNATURES).expect("the reader takes what the desk wrote");
        if indicators[s] == 1 {
            return slot;
        }
        last = after;
    }
    println!("TOO LONG: signature {s} from desk {start} with n {n}, available {available:#06x}");
    std::process::exit(1);
}

/// No signature waits longer than the bound, whoever else is heard; and for each n one waits that long.
fn waits(judge: &mut Judge) {
    let mut random = Random::new(802);
    for n in 1..=16 {
        let mut longest = 0;
        for others in OTHERS {
            for start in 0..SIGNATURES {
                for s in 0..SIGNATURES {
                    for available in [ALL, random.next() as u16 | 1 << s, random.next() as u16 | 1 << s] {
                        let kept = Kept { available, n };
                        longest = longest.max(wait(judge, &mut random, start, s, kept, others));
                    }
                }
            }
        }
        assert_eq!(longest, rules::longest_wait(n), "the longest wait with n {n}");
    }
}

// Refused.

/// Each number out of range with each length, and several at once.
fn refused(judge: &mut Judge) {
    let mut random = Random::new(803);
    let numbers: Vec<usize> = NO_NUMBERS.into_iter().chain([1, 16]).collect();
    let desks: Vec<usize> = NO_SIGNATURES.into_iter().chain([0, 15]).collect();
    for room in lengths(VALUES) {
        for &n in &numbers {
            for &last in &desks {
                let Given { heard, available, .. } = random_given(&mut random);
                serve(judge, last, Given { heard, available, n }, room);
            }
        }
    }
}

fn distances(judge: &mut Judge) {
    let timings = (0..1000).chain([65535, 65536, 65537, 1 << 32, (1 << 32) + 1, 1 << 63, usize::MAX]);
    for timing in timings {
        let numbers = || format!("timing {timing}");
        let [to_aich, to_message] = [rules::to_aich(timing), rules::to_message(timing)]
            .map(|distance| Answer::telling(&distance, |chips| *chips as u16));
        judge.compare("slt_desk_to_aich", numbers, to_aich, ffi::desk_to_aich(timing), []);
        judge.compare("slt_desk_to_message", numbers, to_message, ffi::desk_to_message(timing), []);
    }
}
