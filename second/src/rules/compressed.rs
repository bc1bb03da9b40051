//! The compressed frame of the downlink DPCH: fifteen slots of a format A or B, of which a run is missing.

use crate::answer::{Refusal, refuse};
use crate::rules::checks;
use crate::rules::dpch::{self, Control, Format};
use crate::rules::frame::{Fields, SLOTS};

const DTX: u8 = 2;

/// The table's rows of formats A and B, as printed: format and kind (1 is A, 2 is B); Data1, Data2, TPC, TFCI, pilot, and
/// the whole slot. 8 to 14 slots of a frame are transmitted in each.
const ROWS: [[usize; 8]; 32] = [
    [0, 1, 0, 4, 2, 0, 4, 10],
    [0, 2, 0, 8, 4, 0, 8, 20],
    [1, 2, 0, 4, 4, 4, 8, 20],
    [2, 1, 2, 14, 2, 0, 2, 20],
    [2, 2, 4, 28, 4, 0, 4, 40],
    [3, 1, 2, 10, 2, 4, 2, 20],
    [3, 2, 4, 24, 4, 4, 4, 40],
    [4, 1, 2, 12, 2, 0, 4, 20],
    [4, 2, 4, 24, 4, 0, 8, 40],
    [5, 1, 2, 8, 2, 4, 4, 20],
    [5, 2, 4, 20, 4, 4, 8, 40],
    [6, 1, 2, 8, 2, 0, 8, 20],
    [6, 2, 4, 16, 4, 0, 16, 40],
    [7, 1, 2, 4, 2, 4, 8, 20],
    [7, 2, 4, 12, 4, 4, 16, 40],
    [8, 1, 6, 28, 2, 0, 4, 40],
    [8, 2, 12, 56, 4, 0, 8, 80],
    [9, 1, 6, 24, 2, 4, 4, 40],
    [9, 2, 12, 52, 4, 4, 8, 80],
    [10, 1, 6, 24, 2, 0, 8, 40],
    [10, 2, 12, 48, 4, 0, 16, 80],
    [11, 1, 6, 20, 2, 4, 8, 40],
    [11, 2, 12, 44, 4, 4, 16, 80],
    [12, 1, 12, 40, 4, 16, 8, 80],
    [12, 2, 24, 96, 8, 16, 16, 160],
    [13, 1, 28, 104, 4, 16, 8, 160],
    [13, 2, 56, 224, 8, 16, 16, 320],
    [14, 1, 56, 224, 8, 16, 16, 320],
    [14, 2, 112, 464, 16, 16, 32, 640],
    [15, 1, 120, 480, 8, 16, 16, 640],
    [15, 2, 240, 976, 16, 16, 32, 1280],
    [16, 1, 248, 992, 8, 16, 16, 1280],
];

/// The fewest and the most slots that a compressed format permits.
pub const FEWEST: usize = 8;
pub const MOST: usize = 14;

/// 1: format above 16, a kind that is neither 1 nor 2, or one that the table lacks for the format.
pub fn format(number: usize, kind: usize) -> Result<Format, Refusal> {
    for [of, kind_of, data1, data2, tpc, tfci, pilot, slot] in ROWS {
        if of == number && kind_of == kind {
            return Ok(Format { data1, data2, tpc, tfci, pilot, slot });
        }
    }
    refuse(1, 0)
}

/// Which slots are missing. 27: the gap leaves too few or too many slots, or runs past slot 14.
pub fn gap(first: usize, missing: usize) -> Result<Vec<usize>, Refusal> {
    if missing > SLOTS || SLOTS - missing < FEWEST || SLOTS - missing > MOST {
        return refuse(27, 0);
    }
    if first > SLOTS || first + missing > SLOTS {
        return refuse(27, 0);
    }
    Ok((first..first + missing).collect())
}

/// The slots that are transmitted, in order.
pub fn transmitted(gap: &[usize]) -> Vec<usize> {
    (0..SLOTS).filter(|slot| !gap.contains(slot)).collect()
}

/// x1 x2 x1 x2 x3 x4 x3 x4 ..: each pair of bits twice.
fn doubled(bits: &[u8]) -> Vec<u8> {
    bits.chunks(2).flat_map(|pair| [pair, pair].concat()).collect()
}

/// The pilot of a slot: of A the normal pattern, of B that of half as many bits, doubled.
pub fn pilot(format: &Format, kind: usize, slot: usize) -> Vec<u8> {
    if kind == 2 {
        return doubled(&dpch::pilot(format.pilot / 2, slot));
    }
    dpch::pilot(format.pilot, slot)
}

/// The TPC digits of a command: of B the normal field, doubled.
fn commanded(format: &Format, kind: usize, tpc: u8) -> Vec<u8> {
    if kind == 2 {
        return doubled(&vec![tpc; format.tpc / 2]);
    }
    vec![tpc; format.tpc]
}

/// The digits of a transmitted slot. All checks have passed.
fn mapped(format: &Format, kind: usize, slot: usize, fields: &dpch::Fields) -> Vec<u8> {
    let control = Control { tpc: commanded(format, kind, fields.tpc), pilot: pilot(format, kind, slot) };
    dpch::filled(format, &control, &fields.data, &fields.tfci)
}

/// What a map is given beside its runs.
#[derive(Clone, Copy, Debug)]
pub struct Frame {
    pub format: usize,
    pub kind: usize,
    pub first: usize,
    pub missing: usize,
}

/// Map: 1, 27, 3 (data, TFCI, output, commands), then transmitted slot by transmitted slot: 5 at the index in the commands,
/// TFCI 4 and 6, data 4; places index the whole runs.
pub fn map(of: Frame, data: &[u8], tfci: &[u8], n_out: usize, commands: &[u8]) -> Result<Vec<u8>, Refusal> {
    let format = format(of.format, of.kind)?;
    let sent = transmitted(&gap(of.first, of.missing)?);
    let (data, tfci, commands) = (data.to_vec(), tfci.to_vec(), commands.to_vec());
    let (out, all) = ((n_out, SLOTS * format.slot), (commands.len(), sent.len()));
    checks::lengths(&[(data.len(), sent.len() * format.data()), (tfci.len(), sent.len() * format.tfci), out, all])?;
    let given = Fields { data, tfci, commands };
    let mut frame = vec![DTX; n_out];
    for (index, slot) in sent.into_iter().enumerate() {
        let digits = mapped(&format, of.kind, slot, &given.of_slot(&format, index)?);
        frame[slot * format.slot..(slot + 1) * format.slot].copy_from_slice(&digits);
    }
    Ok(frame)
}

/// The digits of a missing slot that begins at `from`: 4 above 2, then 9 at the first digit other than DTX.
fn read_missing(run: &[u8], from: usize) -> Result<(), Refusal> {
    checks::digits(run, 2, from)?;
    checks::first_bad(9, from, run, |digit| *digit != DTX)
}

/// Read: 1, 27, 3 (frame, data, TFCI, commands), then slot by slot, missing or not; places index the frame.
pub fn read(of: Frame, frame: &[u8], n_data: usize, n_tfci: usize, n_commands: usize) -> Result<Fields, Refusal> {
    let format = format(of.format, of.kind)?;
    let gap = gap(of.first, of.missing)?;
    let sent = transmitted(&gap).len();
    let (run, all) = ((frame.len(), SLOTS * format.slot), (n_commands, sent));
    checks::lengths(&[run, (n_data, sent * format.data()), (n_tfci, sent * format.tfci), all])?;
    let mut fields = Fields::default();
    for slot in 0..SLOTS {
        let from = slot * format.slot;
        let run = &frame[from..from + format.slot];
        if gap.contains(&slot) {
            read_missing(run, from)?;
        } else {
            fields.extend(dpch::read_slot(&format, &pilot(&format, of.kind, slot), run, from)?);
        }
    }
    Ok(fields)
}
