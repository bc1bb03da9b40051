//! The uplink DPCCH: slots, and frames of slots 0 to 14 with 15 commands.

use crate::answer::{Refusal, refuse};
use crate::rules::checks;

pub const SLOTS: usize = 15;

/// Every slot has ten digits.
pub const SLOT: usize = 10;

/// Bits per field, one row a format: pilot, TFCI, FBI, TPC.
const FORMATS: [[usize; 4]; 4] = [[6, 2, 0, 2], [8, 0, 0, 2], [5, 2, 1, 2], [7, 0, 1, 2]];

/// Pilot bits for slots 0 to 14, one row for each length from 3 on.
const PILOTS: [&str; 6] = [
    "111 001 011 001 101 111 111 101 011 111 011 101 101 001 001",
    "1111 1001 1011 1001 1101 1111 1111 1101 1011 1111 1011 1101 1101 1001 1001",
    "11110 00110 01101 00100 10101 11110 11100 10100 01110 11111 01101 10111 10100 00111 00111",
    "111110 100110 101101 100100 110101 111110 111100 110100 101110 111111 101101 110111 110100 100111 100111",
    "1111101 1001101 1011011 1001001 1101011 1111101 1111001 1101001 1011101 1111111 1011011 1101111 1101001 \
     1001111 1001111",
    "11111110 10101110 10111011 10101010 11101011 11111110 11111010 11101010 10111110 11111111 10111011 11101111 \
     11101010 10101111 10101111",
];

/// The field lengths of one format.
#[derive(Clone, Copy)]
pub struct Format {
    pub pilot: usize,
    pub tfci: usize,
    pub fbi: usize,
    pub tpc: usize,
}

impl Format {
    // Field order: pilot, TFCI, FBI, TPC. Each begins where the one before it ends.

    pub fn tfci_at(&self) -> usize {
        self.pilot
    }

    pub fn fbi_at(&self) -> usize {
        self.tfci_at() + self.tfci
    }

    pub fn tpc_at(&self) -> usize {
        self.fbi_at() + self.fbi
    }
}

/// What a slot carries.
#[derive(Clone, Debug, PartialEq, Eq)]
pub struct Fields {
    pub tpc: u8,
    pub tfci: Vec<u8>,
    pub fbi: Vec<u8>,
}

/// What a frame carries: the runs of the fifteen slots, one after the other.
#[derive(Clone, Debug, Default, PartialEq, Eq)]
pub struct FrameFields {
    pub tfci: Vec<u8>,
    pub fbi: Vec<u8>,
    pub commands: Vec<u8>,
}

impl From<FrameFields> for [Vec<u8>; 3] {
    fn from(fields: FrameFields) -> [Vec<u8>; 3] {
        [fields.tfci, fields.fbi, fields.commands]
    }
}

/// 1: format above 3.
pub fn format(number: usize) -> Result<Format, Refusal> {
    if number > 3 {
        return refuse(1, 0);
    }
    let [pilot, tfci, fbi, tpc] = FORMATS[number];
    Ok(Format { pilot, tfci, fbi, tpc })
}

/// The pilot digits of a slot.
pub fn pilot(bits: usize, slot: usize) -> Vec<u8> {
    let text = PILOTS[bits - 3].split_whitespace().nth(slot).expect("fifteen slots");
    text.bytes().map(|letter| letter - b'0').collect()
}

/// The fields one after the other. All checks have passed.
pub fn mapped(format: &Format, slot: usize, fields: &Fields) -> Vec<u8> {
    let run = [&pilot(format.pilot, slot)[..], &fields.tfci, &fields.fbi, &[fields.tpc, fields.tpc]].concat();
    assert_eq!(run.len(), SLOT, "the four fields fill the slot exactly");
    run
}

/// Map order: 1, 2, 3 (TFCI, FBI, output), 5, TFCI 4, FBI 4.
pub fn map(number: usize, slot: usize, tpc: usize, tfci: &[u8], fbi: &[u8], n_out: usize) -> Result<Vec<u8>, Refusal> {
    let format = format(number)?;
    checks::slot(slot)?;
    checks::lengths(&[(tfci.len(), format.tfci), (fbi.len(), format.fbi), (n_out, SLOT)])?;
    if tpc > 1 {
        return refuse(5, 0);
    }
    checks::digits(tfci, 1, 0)?;
    checks::digits(fbi, 1, 0)?;
    Ok(mapped(&format, slot, &Fields { tpc: tpc as u8, tfci: tfci.to_vec(), fbi: fbi.to_vec() }))
}

/// Read order: 1, 2, 3 (slot, TFCI, FBI), then the digits.
pub fn read(number: usize, slot: usize, run: &[u8], n_tfci: usize, n_fbi: usize) -> Result<Fields, Refusal> {
    let format = format(number)?;
    checks::slot(slot)?;
    checks::lengths(&[(run.len(), SLOT), (n_tfci, format.tfci), (n_fbi, format.fbi)])?;
    read_slot(&format, slot, run, 0)
}

/// The digits of one slot that begins at index `from`: 4 above 1 anywhere, 5 (first TPC digit unlike the first), 7 (first
/// pilot digit that differs).
fn read_slot(format: &Format, slot: usize, run: &[u8], from: usize) -> Result<Fields, Refusal> {
    checks::digits(run, 1, from)?;
    let tpc = &run[format.tpc_at()..];
    checks::first_bad(5, from + format.tpc_at(), tpc, |digit| *digit != tpc[0])?;
    checks::same(7, &run[..format.pilot], &pilot(format.pilot, slot), from)?;
    let tfci = run[format.tfci_at()..format.fbi_at()].to_vec();
    Ok(Fields { tpc: tpc[0], tfci, fbi: run[format.fbi_at()..format.tpc_at()].to_vec() })
}

/// Map: 1, 3 (TFCI, FBI, output, commands), then slot by slot: 5 at the slot, TFCI 4, FBI 4; places index the whole runs.
pub fn frame_map(number: usize, tfci: &[u8], fbi: &[u8], n_out: usize, commands: &[u8]) -> Result<Vec<u8>, Refusal> {
    let format = format(number)?;
    let (all_tfci, all_fbi) = (SLOTS * format.tfci, SLOTS * format.fbi);
    checks::lengths(&[(tfci.len(), all_tfci), (fbi.len(), all_fbi), (n_out, SLOTS * SLOT), (commands.len(), SLOTS)])?;
    let mut frame = Vec::new();
    for slot in 0..SLOTS {
        let (tfci_from, fbi_from) = (slot * format.tfci, slot * format.fbi);
        let (tfci, fbi) = (&tfci[tfci_from..tfci_from + format.tfci], &fbi[fbi_from..fbi_from + format.fbi]);
        let tpc = commands[slot];
        if tpc > 1 {
            return refuse(5, slot);
        }
        checks::digits(tfci, 1, tfci_from)?;
        checks::digits(fbi, 1, fbi_from)?;
        frame.extend(mapped(&format, slot, &Fields { tpc, tfci: tfci.to_vec(), fbi: fbi.to_vec() }));
    }
    Ok(frame)
}

/// Read: 1, 3 (frame, TFCI, FBI, commands), then slot by slot: 4, 5, 7; places index the frame.
pub fn frame_read(
    number: usize, frame: &[u8], n_tfci: usize, n_fbi: usize, n_commands: usize,
) -> Result<FrameFields, Refusal> {
    let format = format(number)?;
    let (all_tfci, all_fbi) = (SLOTS * format.tfci, SLOTS * format.fbi);
    checks::lengths(&[(frame.len(), SLOTS * SLOT), (n_tfci, all_tfci), (n_fbi, all_fbi), (n_commands, SLOTS)])?;
    let mut all = FrameFields::default();
    for slot in 0..SLOTS {
        let from = slot * SLOT;
        let fields = read_slot(&format, slot, &frame[from..from + SLOT], from)?;
        all.tfci.extend(fields.tfci);
        all.fbi.extend(fields.fbi);
        all.commands.push(fields.tpc);
    }
    Ok(all)
}

#[cfg(test)]
mod tests {
    use super::{Fields, PILOTS, SLOT, SLOTS, format, map, pilot, read};
    use crate::answer::refuse;
    use crate::rules::dpch;

    fn digits(text: &str) -> Vec<u8> {
        text.bytes().map(|letter| letter - b'0').collect()
    }

    #[test]
    fn the_fields_of_every_format_fill_the_slot() {
        for number in 0..4 {
            let format = format(number).unwrap();
            assert_eq!(format.tpc_at() + format.tpc, SLOT, "format {number}");
        }
        assert!(format(4).is_err() && format(5).is_err());
    }

    /// The frame synchronisation words are symbols 1 and 3 of the downlink's pilot, and every other bit is 1.
    #[test]
    fn the_pilots_are_pinned_by_the_downlinks() {
        let columns: [&[usize]; 6] =
            [&[0, 1], &[1, 2], &[0, 1, 3, 4], &[1, 2, 4, 5], &[1, 2, 4, 5], &[1, 3, 5, 7]];
        for slot in 0..SLOTS {
            let downlink = dpch::pilot(8, slot);
            let words = [downlink[2], downlink[3], downlink[6], downlink[7]];
            for bits in 3..=8 {
                let mut pinned = vec![1; bits];
                columns[bits - 3].iter().zip(words).for_each(|(column, bit)| pinned[*column] = bit);
                assert_eq!(pilot(bits, slot), pinned, "{bits} bits, slot {slot}");
            }
        }
        assert!(PILOTS.iter().all(|row| row.split_whitespace().count() == SLOTS));
    }

    #[test]
    fn worked_maps() {
        assert_eq!(map(2, 1, 1, &[0, 1], &[1], 10), Ok(digits("0011001111")));
        assert_eq!(map(0, 0, 0, &[1, 0], &[], 10), Ok(digits("1111101000")));
        assert_eq!(map(1, 2, 1, &[], &[], 10), Ok(digits("1011101111")));
        assert_eq!(map(3, 14, 0, &[], &[0], 10), Ok(digits("1001111000")));
        assert_eq!(map(4, 15, 2, &[], &[], 0), refuse(1, 0));
        assert_eq!(map(2, 1, 1, &[0, 2], &[2], 10), refuse(4, 1));
        assert_eq!(map(2, 1, 1, &[0, 1], &[2], 10), refuse(4, 0));
    }

    #[test]
    fn worked_reads() {
        let fields = Fields { tpc: 1, tfci: vec![0, 1], fbi: vec![1] };
        assert_eq!(read(2, 1, &digits("0011001111"), 2, 1), Ok(fields));
        assert_eq!(read(2, 2, &digits("0011001111"), 2, 1), refuse(7, 1));
        assert_eq!(read(2, 1, &digits("0011001110"), 2, 1), refuse(5, 9));
        assert_eq!(read(2, 2, &digits("0011001110"), 2, 1), refuse(5, 9));
        assert_eq!(read(2, 1, &digits("0011021111"), 2, 1), refuse(4, 5));
    }
}
