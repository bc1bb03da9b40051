//! The AICH combiner: the library's call against the rules, and both against a channel of two antennas.

use super::aich::random_set;
use super::lengths;
use crate::answer::Answer;
use crate::ffi;
use crate::judge::Judge;
use crate::random::Random;
use crate::rules::aich::{self, SIGNATURES, VALUES};
use crate::rules::combiner::{self as rules, GAIN_LIMIT, RECEIVED_LIMIT, combined, gain_pair, symbols};

/// Gain parts just outside -4096 to 4096, and far outside: some look good to a program that keeps too few bits.
const NO_GAINS: [i64; 12] = [
    4097, -4097, 5000, 65536, 65537, 1 << 32, (1 << 32) + 1, -(1 << 32), 1 << 62, i64::MAX, i64::MIN, i64::MIN + 1,
];

/// Received parts just outside -1048576 to 1048576, and far outside.
const NO_PARTS: [i32; 8] = [
    RECEIVED_LIMIT + 1, -RECEIVED_LIMIT - 1, 1 << 21, -(1 << 21), 1 << 30, i32::MAX, i32::MIN, i32::MIN + 1,
];

/// Every comparison of the channel.
pub fn all(judge: &mut Judge) {
    marked_examples(judge);
    each_signature_alone(judge);
    clean(judge);
    noisy(judge);
    edges_of_received(judge);
    bad_gains(judge);
    bad_received(judge);
    zero_gains(judge);
    wrong_lengths(judge);
    fault_sets(judge);
}

// One call, compared.

/// Compares one call and answers the results, if the rules give them.
fn combine(judge: &mut Judge, gains: [i64; 4], received: Option<&[i32]>, room: Option<usize>) -> Option<Vec<i64>> {
    let expected = rules::combine(gains, received.unwrap_or(&[]), room.unwrap_or(0));
    let mut lent = judge.given("received", received);
    let mut results = judge.room("results", room, expected.as_deref().ok());
    let [h1_re, h1_im, h2_re, h2_im] = gains;
    let got = ffi::aich_combine(h1_re, h1_im, h2_re, h2_im, &mut lent, &mut results);
    judge.compare("slt_aich_combine", || format!("gains {gains:?}"), Answer::of(&expected), got, [&lent, &results]);
    expected.ok()
}

// The channel of two antennas.

/// What arrives without noise: for a pair S1, S2 antenna 2 sends -conj(S2), conj(S1), and the gains are h1 and h2.
fn arrives(gains: [i64; 4], indicators: &[i32]) -> Vec<i128> {
    let [h1, h2] = gain_pair(gains);
    let sent = aich::map(indicators, VALUES).expect("good indicators");
    let sent: Vec<i128> = sent.into_iter().map(i128::from).collect();
    let mut received = Vec::new();
    for pair in symbols(&sent).chunks(2) {
        let (s1, s2) = (pair[0], pair[1]);
        let r1 = h1.times(s1).minus(h2.times(s2.conj()));
        let r2 = h1.times(s2).plus(h2.times(s1.conj()));
        received.extend([r1.re, r1.im, r2.re, r2.im]);
    }
    received
}

/// Sends the indicators, adds the noise, compares the call, and checks the equation: each result is
/// 32·(|h1|^2 + |h2|^2) times its indicator, and what the noise alone would give.
fn through_channel(judge: &mut Judge, gains: [i64; 4], indicators: &[i32], noise: &[i128]) {
    let clean = arrives(gains, indicators);
    let received: Vec<i32> = (0..VALUES).map(|i| (clean[i] + noise[i]) as i32).collect();
    let results = combine(judge, gains, Some(&received), Some(SIGNATURES)).expect("a good call");
    let [h1, h2] = gain_pair(gains);
    let of_noise = combined(h1, h2, noise);
    for s in 0..SIGNATURES {
        let strength = 32 * (h1.size_squared() + h2.size_squared());
        let equation = strength * i128::from(indicators[s]) + of_noise[s];
        assert_eq!(i128::from(results[s]), equation, "the rules themselves: gains {gains:?}, signature {s}");
    }
}

// The inputs.

/// One signature alone.
fn only(signature: usize, indicator: i32) -> Vec<i32> {
    (0..SIGNATURES).map(|s| if s == signature { indicator } else { 0 }).collect()
}

/// A gain part: zero, small, at the edge, or anywhere in range.
fn random_part(random: &mut Random) -> i64 {
    match random.below(5) {
        0 => 0,
        1 => random.below(7) as i64 - 3,
        2 => random.pick(&[-GAIN_LIMIT, GAIN_LIMIT, GAIN_LIMIT - 1, 1 - GAIN_LIMIT]),
        _ => random.below(8193) as i64 - GAIN_LIMIT,
    }
}

/// Gains in range that are not both zero.
fn random_gains(random: &mut Random) -> [i64; 4] {
    loop {
        let gains = [0; 4].map(|_| random_part(random));
        if gains != [0; 4] {
            return gains;
        }
    }
}

/// Gains whose parts are all at an edge, zero or one: every combination but both zero.
fn gains_at_edges() -> Vec<[i64; 4]> {
    let parts = [0, 1, -1, GAIN_LIMIT, -GAIN_LIMIT];
    let all = (1..5_usize.pow(4)).map(|set| [1, 5, 25, 125].map(|unit| parts[set / unit % 5]));
    all.collect()
}

/// A received part anywhere in range.
fn random_received(random: &mut Random) -> i32 {
    random.below(2 * RECEIVED_LIMIT as usize + 1) as i32 - RECEIVED_LIMIT
}

/// Noise that takes a received part from what is clean to anywhere in range, its edges included.
fn random_noise(random: &mut Random, clean: &[i128], kind: usize) -> Vec<i128> {
    let limit = i128::from(RECEIVED_LIMIT);
    let one = |part: &i128| match kind {
        0 => random.below(11) as i128 - 5,
        1 => random.below(2001) as i128 - 1000,
        2 => i128::from(random_received(random)) - part,
        _ => random.pick(&[-limit, limit]) - part,
    };
    clean.iter().map(one).collect()
}

// Done

/// Gains 1+i and 2-i with indicator +1 give 224; gains 3+4i and 0 with -1 on 5 give -800 there and 0 elsewhere.
fn marked_examples(judge: &mut Judge) {
    for (gains, signature, indicator, number) in [([1, 1, 2, -1], 0, 1, 224), ([3, 4, 0, 0], 5, -1, -800)] {
        let received: Vec<i32> =
            arrives(gains, &only(signature, indicator)).into_iter().map(|part| part as i32).collect();
        let results = combine(judge, gains, Some(&received), Some(SIGNATURES)).expect("a good call");
        for s in 0..SIGNATURES {
            assert_eq!(results[s], if s == signature { number } else { 0 }, "a marked example");
        }
    }
}

/// Each signature alone, both signs, through all gains at the edges.
fn each_signature_alone(judge: &mut Judge) {
    for gains in gains_at_edges() {
        for s in 0..SIGNATURES {
            for indicator in [1, -1] {
                through_channel(judge, gains, &only(s, indicator), &[0; VALUES]);
            }
        }
    }
}

/// All indicators at once without noise; all alike give the largest values.
fn clean(judge: &mut Judge) {
    let mut random = Random::new(1);
    for gains in gains_at_edges() {
        for indicator in [-1, 0, 1] {
            through_channel(judge, gains, &[indicator; SIGNATURES], &[0; VALUES]);
        }
        through_channel(judge, gains, &random_set(&mut random), &[0; VALUES]);
    }
    for _ in 0..100_000 {
        let (gains, indicators) = (random_gains(&mut random), random_set(&mut random));
        through_channel(judge, gains, &indicators, &[0; VALUES]);
    }
}

/// Little noise, more of it, and so much that the received parts lie anywhere or at the edges of their range.
fn noisy(judge: &mut Judge) {
    let mut random = Random::new(2);
    for round in 0..200_000 {
        let (gains, indicators) = (random_gains(&mut random), random_set(&mut random));
        let noise = random_noise(&mut random, &arrives(gains, &indicators), round % 4);
        through_channel(judge, gains, &indicators, &noise);
    }
}

/// Received parts that are all at an edge, with gains at the edge: the largest results there are. One part alone at
/// an edge shows what each part adds.
fn edges_of_received(judge: &mut Judge) {
    for gains in gains_at_edges() {
        for signs in 0..16 {
            let received: Vec<i32> =
                (0..VALUES).map(|i| if signs >> (i % 4) & 1 == 1 { RECEIVED_LIMIT } else { -RECEIVED_LIMIT }).collect();
            combine(judge, gains, Some(&received), Some(SIGNATURES));
        }
        for i in 0..VALUES {
            for part in [1, RECEIVED_LIMIT, -RECEIVED_LIMIT] {
                let mut received = [0; VALUES];
                received[i] = part;
                combine(judge, gains, Some(&received), Some(SIGNATURES));
            }
        }
    }
}

// Refused

/// Each gain part out of range, then two of them: the lower place must win. 4096 itself passes.
fn bad_gains(judge: &mut Judge) {
    let mut random = Random::new(3);
    for place in 0..4 {
        for bad in NO_GAINS.into_iter().chain([GAIN_LIMIT, -GAIN_LIMIT]) {
            for _ in 0..30 {
                let received: Vec<i32> = (0..VALUES).map(|_| random_received(&mut random)).collect();
                let mut gains = random_gains(&mut random);
                gains[place] = bad;
                combine(judge, gains, Some(&received), Some(SIGNATURES));
                gains[random.below(4)] = random.pick(&NO_GAINS);
                combine(judge, gains, Some(&received), Some(SIGNATURES));
            }
            let mut alone = [0; 4];
            alone[place] = bad;
            combine(judge, alone, Some(&[0; VALUES]), Some(SIGNATURES));
        }
    }
}

/// Each received part at the edge of its range and beyond, then two of them, with good, bad and zero gains.
fn bad_received(judge: &mut Judge) {
    let mut random = Random::new(4);
    for i in 0..VALUES {
        for bad in NO_PARTS.into_iter().chain([RECEIVED_LIMIT, -RECEIVED_LIMIT]) {
            for _ in 0..10 {
                let mut received: Vec<i32> = (0..VALUES).map(|_| random_received(&mut random)).collect();
                received[i] = bad;
                let mut gains = random_gains(&mut random);
                combine(judge, gains, Some(&received), Some(SIGNATURES));
                combine(judge, [0; 4], Some(&received), Some(SIGNATURES));
                received[random.below(VALUES)] = random.pick(&NO_PARTS);
                combine(judge, gains, Some(&received), Some(SIGNATURES));
                gains[random.below(4)] = random.pick(&NO_GAINS);
                combine(judge, gains, Some(&received), Some(SIGNATURES));
            }
        }
    }
}

/// Both gains zero is 12; one part that is not zero is enough.
fn zero_gains(judge: &mut Judge) {
    let mut random = Random::new(5);
    for _ in 0..100 {
        let received: Vec<i32> = (0..VALUES).map(|_| random_received(&mut random)).collect();
        combine(judge, [0; 4], Some(&received), Some(SIGNATURES));
        for place in 0..4 {
            for part in [1, -1] {
                let mut gains = [0; 4];
                gains[place] = part;
                combine(judge, gains, Some(&received), Some(SIGNATURES));
            }
        }
    }
}

/// Either run of a wrong length, both at once, with good, zero and bad gains and good and bad parts.
fn wrong_lengths(judge: &mut Judge) {
    for n_received in lengths(VALUES) {
        for room in lengths(SIGNATURES) {
            for gains in [[1, 0, 0, 0], [0; 4], [4097, 0, 0, 0], [0, 0, 0, i64::MIN]] {
                for part in [0, RECEIVED_LIMIT + 1] {
                    let received = n_received.map(|length| vec![part; length]);
                    combine(judge, gains, received.as_deref(), room);
                }
            }
        }
    }
}

/// Every set of these faults at once: received length, results length, each gain part, a received part, zero gains.
fn fault_sets(judge: &mut Judge) {
    let mut random = Random::new(6);
    for round in 0..1 << 13 {
        let has = |fault: usize| round >> fault & 1 == 1;
        let mut gains = if has(7) { [0; 4] } else { random_gains(&mut random) };
        for place in (0..4).filter(|place| has(2 + place)) {
            gains[place] = random.pick(&NO_GAINS);
        }
        let mut received: Vec<i32> = (0..VALUES).map(|_| random_received(&mut random)).collect();
        if has(6) {
            received[random.below(VALUES)] = random.pick(&NO_PARTS);
        }
        if has(0) {
            received.resize(random.pick(&[0, 16, 31, 33, 64]), 0);
        }
        let room = if has(1) { random.pick(&[None, Some(0), Some(15), Some(17), Some(32)]) } else { Some(SIGNATURES) };
        combine(judge, gains, Some(&received), room);
    }
}
