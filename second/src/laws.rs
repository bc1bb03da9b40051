//! The laws of the second antenna, as tests of any encoder on one run; `docs/STTD.md` has them in words.
//!
//! An encoder is any function from runs to runs: the rule, the library's call, or one with a slip in it. The tests at
//! the end say which laws each slip breaks, so that no law here is kept whatever is done.

use crate::rules::combiner::Complex;

/// Which laws an encoder keeps on a run.
#[derive(Clone, Copy, Debug, PartialEq, Eq)]
pub struct Kept {
    /// Encoding twice puts a bar on every entry of the whole blocks; one to three entries behind them stay.
    pub twice: bool,
    /// Three encodings read back what one encoded.
    pub three: bool,
    /// Four encodings are none.
    pub four: bool,
    /// The products of each block's two symbols, antenna 1's times the conjugate of antenna 2's, add up to zero.
    pub block: bool,
    /// So do those of any whole blocks in a row.
    pub blocks: bool,
}

impl Kept {
    pub const ALL: Kept = Kept { twice: true, three: true, four: true, block: true, blocks: true };

    /// What is kept on both of two runs.
    pub fn and(self, other: Kept) -> Kept {
        Kept {
            twice: self.twice && other.twice,
            three: self.three && other.three,
            four: self.four && other.four,
            block: self.block && other.block,
            blocks: self.blocks && other.blocks,
        }
    }
}

pub fn kept<T: Copy + PartialEq>(
    mut encode: impl FnMut(&[T]) -> Vec<T>, bar: fn(T) -> T, value: fn(T) -> i32, run: &[T],
) -> Kept {
    let once = encode(run);
    let twice = encode(&once);
    let three = encode(&twice);
    let four = encode(&three);
    let first: Vec<i32> = run.iter().map(|&entry| value(entry)).collect();
    let second: Vec<i32> = once.iter().map(|&entry| value(entry)).collect();
    Kept {
        twice: twice == by_blocks(run, |b| [bar(b[0]), bar(b[1]), bar(b[2]), bar(b[3])]),
        three: three == by_blocks(run, |c| [c[2], bar(c[3]), bar(c[0]), c[1]]),
        four: four == run,
        block: (0..run.len() / 4).all(|k| product(&first, &second, 2 * k, 2 * k + 2) == NOTHING),
        blocks: every_stretch(run.len() / 4).all(|(k, end)| product(&first, &second, 2 * k, 2 * end) == NOTHING),
    }
}

const NOTHING: Complex = Complex { re: 0, im: 0 };

/// Each whole block changed, the tail as it is.
fn by_blocks<T: Copy>(run: &[T], change: impl Fn(&[T]) -> [T; 4]) -> Vec<T> {
    let (whole, tail) = run.split_at(run.len() / 4 * 4);
    whole.chunks(4).flat_map(change).chain(tail.iter().copied()).collect()
}

/// Blocks `k` to `end` - 1 in a row: every choice of the first for a short run, all from the first on for a long one.
fn every_stretch(blocks: usize) -> impl Iterator<Item = (usize, usize)> {
    let firsts = if blocks <= 16 { blocks } else { 1 };
    (0..firsts).flat_map(move |k| (k..=blocks).map(move |end| (k, end)))
}

/// Entries 2k and 2k+1 are the real and imaginary part of symbol k. The sum over the symbols `from` to `end` - 1 of
/// antenna 1's symbol times the conjugate of antenna 2's.
pub fn product(first: &[i32], second: &[i32], from: usize, end: usize) -> Complex {
    let symbol = |run: &[i32], k: usize| Complex::new(run[2 * k].into(), run[2 * k + 1].into());
    (from..end).fold(NOTHING, |sum, k| sum.plus(symbol(first, k).times(symbol(second, k).conj())))
}

/// Whether encoding a sum of runs, each times its whole number, is the sum of their encodings, each times its own.
pub fn adds(mut encode: impl FnMut(&[i32]) -> Vec<i32>, terms: &[(i32, Vec<i32>)]) -> bool {
    let encodings: Vec<(i32, Vec<i32>)> = terms.iter().map(|(times, run)| (*times, encode(run))).collect();
    encode(&sum(terms)) == sum(&encodings)
}

/// Runs of one length, each times its whole number, added entry by entry.
pub fn sum(terms: &[(i32, Vec<i32>)]) -> Vec<i32> {
    (0..terms[0].1.len()).map(|j| terms.iter().map(|(times, run)| times * run[j]).sum()).collect()
}

/// Every run of the given length over 0, 1 and DTX.
pub fn every_run(length: u32) -> impl Iterator<Item = Vec<u8>> {
    (0..3_usize.pow(length)).map(move |set| (0..length).map(|j| (set / 3_usize.pow(j) % 3) as u8).collect())
}

#[cfg(test)]
mod tests {
    use super::{Kept, adds, by_blocks, every_run, kept, product, sum};
    use crate::random::Random;
    use crate::rules::combiner::Complex;
    use crate::rules::sttd::{bar, encoded, negated, value};

    fn random_run(random: &mut Random, length: usize) -> Vec<i32> {
        (0..length).map(|_| random.below(201) as i32 - 100).collect()
    }

    #[test]
    fn the_rule_keeps_every_law_of_digits() {
        let mut random = Random::new(1);
        let short = (0..=8).flat_map(every_run);
        let long = (0..2000).map(|_| {
            let length = random.below(300);
            random.digits(length, 3)
        });
        for run in short.chain(long) {
            assert_eq!(kept(|s| encoded(bar, s), bar, value, &run), Kept::ALL, "{run:?}");
        }
    }

    #[test]
    fn the_rule_keeps_every_law_of_whole_numbers() {
        let mut random = Random::new(2);
        let encode = |run: &[i32]| encoded(negated, run);
        for _ in 0..2000 {
            let length = random.below(70);
            let run = random_run(&mut random, length);
            assert_eq!(kept(encode, negated, |z| z, &run), Kept::ALL, "{run:?}");
            let other = random_run(&mut random, length);
            let times = random.below(41) as i32 - 20;
            assert!(adds(encode, &[(1, run.clone()), (1, other.clone())]));
            assert!(adds(encode, &[(times, run.clone())]));
            let third = random_run(&mut random, length);
            assert!(adds(encode, &[(times, run), (-7, other), (3, third)]));
        }
    }

    // Encoders with a slip in them. Each is given as what it makes of a block.

    type Slip = fn(&[u8]) -> [u8; 4];

    fn kept_with(slip: Slip) -> Kept {
        let runs = every_run(4).chain(every_run(8));
        runs.map(|run| kept(|s| by_blocks(s, slip), bar, value, &run)).fold(Kept::ALL, Kept::and)
    }

    const NONE: Kept = Kept { twice: false, three: false, four: false, block: false, blocks: false };

    #[test]
    fn a_slip_breaks_the_laws() {
        let b3_barred: Slip = |b| [b[2], bar(b[3]), b[0], bar(b[1])];
        let b0_barred: Slip = |b| [bar(b[2]), b[3], bar(b[0]), b[1]];
        let not_swapped: Slip = |b| [b[0], bar(b[1]), bar(b[2]), b[3]];
        let no_bars: Slip = |b| [b[2], b[3], b[0], b[1]];
        let moved_on: Slip = |b| [b[1], b[2], b[3], bar(b[0])];
        for slip in [b3_barred, b0_barred, not_swapped, no_bars] {
            assert_eq!(kept_with(slip), Kept { four: true, ..NONE });
        }
        assert_eq!(kept_with(moved_on), NONE);
    }

    /// A bar that turns DTX into a bit does not undo itself.
    #[test]
    fn dtx_as_a_bit_breaks_the_laws() {
        let dtx_to_bit: Slip = |b| [u8::from(b[2] == 0), b[3], b[0], u8::from(b[1] == 0)];
        assert_eq!(kept_with(dtx_to_bit), NONE);
    }

    /// The laws do not say which encoder it is. What reads back has its bars where the encoder has none, and keeps all
    /// of them but the one that says what reads back.
    #[test]
    fn the_reader_keeps_the_laws_too() {
        let reader: Slip = |b| [b[2], bar(b[3]), bar(b[0]), b[1]];
        assert_eq!(kept_with(reader), Kept { three: false, ..Kept::ALL });
        let of_values = |run: &[i32]| by_blocks(run, |b| [b[2], -b[3], -b[0], b[1]]);
        assert!(adds(of_values, &[(2, vec![3, -1, 2, 5]), (-1, vec![1, 4, -2, 0])]));
        assert!(every_run(4).any(|run| by_blocks(&run, reader) != encoded(bar, &run)));
    }

    /// Half a block that is encoded as if it were one.
    #[test]
    fn an_encoded_tail_breaks_the_laws_of_chains() {
        let half_block_encoded = |run: &[u8]| {
            let mut out = encoded(bar, run);
            let whole = run.len() / 4 * 4;
            (out[whole], out[whole + 1]) = (bar(out[whole + 1]), out[whole]);
            out
        };
        let found = every_run(6).map(|run| kept(half_block_encoded, bar, value, &run)).fold(Kept::ALL, Kept::and);
        assert_eq!(found, Kept { twice: false, three: false, ..Kept::ALL });
    }

    #[test]
    fn an_encoder_with_a_limit_does_not_add() {
        let limited = |run: &[i32]| encoded(negated, run).iter().map(|v| (*v).clamp(-16, 16)).collect::<Vec<_>>();
        let (s, t) = (vec![9, 9, 9, 9], vec![8, 8, 8, 8]);
        assert!(!adds(limited, &[(1, s.clone()), (1, t.clone())]));
        assert!(!adds(limited, &[(2, s.clone())]));
        assert!(adds(|run| encoded(negated, run), &[(1, s), (1, t)]));
    }

    // The worked blocks of docs/STTD.md.

    /// What `times` encodings make of a run.
    fn chained<T: Copy>(bar: fn(T) -> T, run: &[T], times: usize) -> Vec<T> {
        (0..times).fold(run.to_vec(), |s, _| encoded(bar, &s))
    }

    #[test]
    fn worked_chains() {
        let d: [[u8; 4]; 5] = [[0, 0, 0, 1], [1, 1, 0, 1], [1, 1, 1, 0], [0, 0, 1, 0], [0, 0, 0, 1]];
        let e: [[u8; 4]; 3] = [[1, 2, 0, 2], [1, 2, 1, 2], [0, 2, 1, 2]];
        let v = [[3, -1, 2, 5], [-2, 5, 3, 1], [-3, 1, -2, -5]];
        let tail = [[3, 4, 1, 2, 5, 6], [-1, 2, 3, -4, 5, 6], [-3, -4, -1, -2, 5, 6]];
        (0..5).for_each(|times| assert_eq!(chained(bar, &d[0], times), d[times]));
        (0..3).for_each(|times| assert_eq!(chained(bar, &e[0], times), e[times]));
        (0..3).for_each(|times| assert_eq!(chained(negated, &v[0], times), v[times]));
        (0..3).for_each(|times| assert_eq!(chained(negated, &tail[0], times), tail[times]));
        assert_eq!(encoded(bar, &[0; 8]), [1, 0, 0, 1, 1, 0, 0, 1]);
        assert_eq!((encoded(bar, &[0; 2]), encoded(bar, &[0; 6])), (vec![0, 0], vec![1, 0, 0, 1, 0, 0]));
    }

    /// The products of both symbols of each block. Behind the last whole block both antennas send the same symbol,
    /// which adds its own power.
    #[test]
    fn worked_products() {
        let values = |run: [u8; 4]| run.map(value).to_vec();
        assert_eq!((values([0, 0, 0, 1]), values([1, 1, 0, 1])), (vec![1, 1, 1, -1], vec![-1, -1, 1, -1]));
        assert_eq!((values([1, 2, 0, 2]), values([1, 2, 1, 2])), (vec![-1, 0, 1, 0], vec![-1, 0, -1, 0]));
        assert_eq!(encoded(negated, &[1, 1, 1, -1]), [-1, -1, 1, -1]);
        let of = |run: &[i32], k: usize| product(run, &encoded(negated, run), k, k + 1);
        let (d, e, v) = ([1, 1, 1, -1], [-1, 0, 1, 0], [3, -1, 2, 5]);
        assert_eq!((of(&d, 0), of(&d, 1)), (Complex::new(-2, 0), Complex::new(2, 0)));
        assert_eq!((of(&e, 0), of(&e, 1)), (Complex::new(1, 0), Complex::new(-1, 0)));
        assert_eq!((of(&v, 0), of(&v, 1)), (Complex::new(-11, -13), Complex::new(11, 13)));
        let tail = [3, 4, 1, 2, 5, 6];
        assert_eq!(product(&tail, &encoded(negated, &tail), 0, 2), Complex::new(0, 0));
        assert_eq!(of(&tail, 2), Complex::new(61, 0));
    }

    #[test]
    fn worked_sums() {
        let (v, w) = (vec![3, -1, 2, 5], vec![1, 4, -2, 0]);
        assert_eq!(encoded(negated, &w), [2, 0, 1, -4]);
        assert_eq!(sum(&[(1, v.clone()), (1, w)]), [4, 3, 0, 5]);
        assert_eq!(encoded(negated, &[4, 3, 0, 5]), [0, 5, 4, -3]);
        assert_eq!(sum(&[(3, v)]), [9, -3, 6, 15]);
        assert_eq!(encoded(negated, &[9, -3, 6, 15]), [-6, 15, 9, 3]);
    }
}
