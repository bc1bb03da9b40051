//! Job files, and the good records that every list begins with.

use second::fields::{lengths_of, random_tfci};
use second::random::Random;
use second::rules::job::{MARK_AND_VERSION, MARK_AND_VERSION_2};

/// One file to be compared.
pub struct Job {
    /// In words, so that a reader of a difference knows what the file was meant to be.
    pub what: String,
    pub bytes: Vec<u8>,
    /// How many bytes the program is given at a time.
    pub piece: usize,
    /// Where a seed stands here, each piece has from one byte to that many.
    pub uneven: Option<u64>,
}

impl Job {
    pub fn new(what: impl Into<String>, bytes: Vec<u8>) -> Job {
        Job { what: what.into(), bytes, piece: usize::MAX, uneven: None }
    }
}

/// Kinds of record.
pub const AICH: u8 = 1;
pub const PICH: u8 = 2;
pub const DPCH: u8 = 3;

pub const NPS: [u8; 4] = [18, 36, 72, 144];

/// Where the slot, the TPC command and the TFCI digits stand in a DPCH record.
pub const SLOT_AT: usize = 2;
pub const COMMAND_AT: usize = 3;
pub const TFCI_AT: usize = 4;

/// A file that counts its records rightly.
pub fn file(records: &[Vec<u8>]) -> Vec<u8> {
    file_counting(u8::try_from(records.len()).expect("at most 255 records"), records)
}

pub fn file_counting(count: u8, records: &[Vec<u8>]) -> Vec<u8> {
    [&MARK_AND_VERSION[..], &[count], &records.concat()].concat()
}

/// The same of version 2.
pub fn file_2(records: &[Vec<u8>]) -> Vec<u8> {
    file_2_counting(u16::try_from(records.len()).expect("at most 65535 records"), records)
}

pub fn file_2_counting(count: u16, records: &[Vec<u8>]) -> Vec<u8> {
    [&MARK_AND_VERSION_2[..], &count.to_be_bytes(), &records.concat()].concat()
}

pub fn aich(random: &mut Random) -> Vec<u8> {
    [vec![AICH], random.digits(16, 3)].concat()
}

pub fn pich(random: &mut Random, np: u8) -> Vec<u8> {
    [vec![PICH, np], random.digits(np.into(), 2)].concat()
}

/// A DPCH record of the given fields.
pub fn dpch_of(format: u8, slot: u8, command: u8, tfci: &[u8], data: &[u8]) -> Vec<u8> {
    [&[DPCH, format, slot, command], tfci, data].concat()
}

/// A DPCH record with random TFCI and data.
pub fn dpch(random: &mut Random, format: u8, slot: u8, command: u8) -> Vec<u8> {
    let lengths = lengths_of(format.into());
    let tfci = random_tfci(random, &lengths);
    let data = random.digits(lengths.data(), 3);
    dpch_of(format, slot, command, &tfci, &data)
}

/// A record of any kind, with a format up to the given one: the longest are left out where files should be small.
pub fn any(random: &mut Random, highest_format: u8) -> Vec<u8> {
    match random.below(5) {
        0 => aich(random),
        1 => {
            let np = random.pick(&NPS);
            pich(random, np)
        }
        _ => {
            let format = random.below(usize::from(highest_format) + 1) as u8;
            let (slot, command) = (random.below(15) as u8, random.below(2) as u8);
            dpch(random, format, slot, command)
        }
    }
}

/// A few records of any kind.
pub fn some(random: &mut Random, most: usize, highest_format: u8) -> Vec<Vec<u8>> {
    (0..1 + random.below(most)).map(|_| any(random, highest_format)).collect()
}

/// The length of the last record that `filling` gives, which is of format 0.
pub const LAST: usize = 8;

/// Good records of every kind, Np and format that fill exactly so many bytes.
pub fn filling(length: usize) -> Vec<Vec<u8>> {
    let mut random = Random::new(length as u64);
    let mut records = vec![aich(&mut random)];
    records.extend(NPS.map(|np| pich(&mut random, np)));
    records.extend((0..=16).map(|format| dpch(&mut random, format, format % 15, format % 2)));
    let mut rest = length - records.concat().len();
    // The longest records that leave room for seven of AICH.
    for format in (0..=16).rev() {
        let mut record = dpch(&mut random, format, 13, 1);
        while record.len() + 7 * 17 <= rest {
            rest -= record.len();
            records.push(record);
            record = dpch(&mut random, format, 13, 0);
        }
    }
    // 17 bytes of AICH are one more than two of format 0, so some of either fill what is left.
    for _ in 0..rest % LAST {
        records.push(aich(&mut random));
        rest -= 17;
    }
    records.extend((0..rest / LAST).map(|_| dpch(&mut random, 0, 1, 0)));
    assert_eq!(records.concat().len(), length, "the records have the length asked for");
    records
}

/// The smallest records of each kind, in each order that begins with another kind.
pub fn three_kinds(random: &mut Random) -> [Vec<Vec<u8>>; 3] {
    [0, 1, 2].map(|turn| {
        let mut records = vec![aich(random), pich(random, 18), dpch(random, 1, 7, 1)];
        records.rotate_left(turn);
        records
    })
}
