//! The downlink DPCH slot.

use crate::answer::{Refusal, refuse};
use crate::rules::checks;

const DTX: u8 = 2;

/// Bits per field, one row a format: Data1, Data2, TPC, TFCI, pilot, and the whole slot.
const FORMATS: [[usize; 6]; 17] = [
    [0, 4, 2, 0, 4, 10],
    [0, 2, 2, 2, 4, 10],
    [2, 14, 2, 0, 2, 20],
    [2, 12, 2, 2, 2, 20],
    [2, 12, 2, 0, 4, 20],
    [2, 10, 2, 2, 4, 20],
    [2, 8, 2, 0, 8, 20],
    [2, 6, 2, 2, 8, 20],
    [6, 28, 2, 0, 4, 40],
    [6, 26, 2, 2, 4, 40],
    [6, 24, 2, 0, 8, 40],
    [6, 22, 2, 2, 8, 40],
    [12, 48, 4, 8, 8, 80],
    [28, 112, 4, 8, 8, 160],
    [56, 232, 8, 8, 16, 320],
    [120, 488, 8, 8, 16, 640],
    [248, 1000, 8, 8, 16, 1280],
];

/// Pilot symbols 1, 3, 5 and 7 for slots 0 to 14.
const SYMBOLS: [&str; 4] = [
    "11 00 01 00 10 11 11 10 01 11 01 10 10 00 00",
    "10 10 01 00 01 10 00 00 10 11 01 11 00 11 11",
    "11 11 10 01 11 01 10 10 00 00 11 00 01 00 10",
    "10 00 00 10 11 01 11 00 11 11 10 10 01 00 01",
];

/// The field lengths of one format.
#[derive(Clone, Copy)]
pub struct Format {
    pub data1: usize,
    pub data2: usize,
    pub tpc: usize,
    pub tfci: usize,
    pub pilot: usize,
    pub slot: usize,
}

impl Format {
    /// Data1 before Data2 in one run.
    pub fn data(&self) -> usize {
        self.data1 + self.data2
    }

    // Field order: Data1, TPC, TFCI, Data2, pilot. Each begins where the one before it ends.

    pub fn tpc_at(&self) -> usize {
        self.data1
    }

    pub fn tfci_at(&self) -> usize {
        self.tpc_at() + self.tpc
    }

    pub fn data2_at(&self) -> usize {
        self.tfci_at() + self.tfci
    }

    pub fn pilot_at(&self) -> usize {
        self.data2_at() + self.data2
    }
}

/// What a slot carries.
#[derive(Clone, Debug, PartialEq, Eq)]
pub struct Fields {
    pub tpc: u8,
    pub data: Vec<u8>,
    pub tfci: Vec<u8>,
}

/// 1: format above 16.
pub fn format(number: usize) -> Result<Format, Refusal> {
    if number > 16 {
        return refuse(1, 0);
    }
    let [data1, data2, tpc, tfci, pilot, slot] = FORMATS[number];
    Ok(Format { data1, data2, tpc, tfci, pilot, slot })
}

/// Symbol `number` of a slot's pattern: 0, 2, 4, 6 are 11, the others stand in the list.
fn symbol(number: usize, slot: usize) -> [u8; 2] {
    if number.is_multiple_of(2) {
        return [1, 1];
    }
    let text = SYMBOLS[number / 2].split(' ').nth(slot).expect("fifteen slots").as_bytes();
    [text[0] - b'0', text[1] - b'0']
}

/// The pilot digits of a slot: 16 bits are symbols 0 to 7, 8 bits symbols 0 to 3, 4 bits symbols 0 and 1, 2 bits
/// symbol 1.
pub fn pilot(bits: usize, slot: usize) -> Vec<u8> {
    let symbols = match bits {
        16 => 0..8,
        8 => 0..4,
        4 => 0..2,
        2 => 1..2,
        _ => unreachable!("no format has {bits} pilot bits"),
    };
    symbols.flat_map(|number| symbol(number, slot)).collect()
}

/// 6: a TFCI field is all bits or all DTX, in every format that has one. A mixed field is told at the first digit whose
/// kind (DTX or not) differs from the first TFCI digit's.
fn check_tfci(tfci: &[u8], from: usize) -> Result<(), Refusal> {
    checks::first_bad(6, from, tfci, |digit| (*digit == DTX) != (tfci[0] == DTX))
}

/// What a slot is given: TFCI 4 and 6, then data 4; each run begins at its own index of what the places count in.
pub fn check_fields(tfci: &[u8], tfci_from: usize, data: &[u8], data_from: usize) -> Result<(), Refusal> {
    checks::digits(tfci, 2, tfci_from)?;
    check_tfci(tfci, tfci_from)?;
    checks::digits(data, 2, data_from)
}

/// The digits of a slot's TPC field and of its pilot.
pub struct Control {
    pub tpc: Vec<u8>,
    pub pilot: Vec<u8>,
}

/// The fields one after the other, each in its own stretch. All checks have passed.
pub fn mapped(format: &Format, slot: usize, tpc: u8, data: &[u8], tfci: &[u8]) -> Vec<u8> {
    filled(format, &Control { tpc: vec![tpc; format.tpc], pilot: pilot(format.pilot, slot) }, data, tfci)
}

/// The same, whatever the digits of TPC and pilot are.
pub fn filled(format: &Format, control: &Control, data: &[u8], tfci: &[u8]) -> Vec<u8> {
    let (data1, data2) = data.split_at(format.data1);
    let run = [data1, &control.tpc, tfci, data2, &control.pilot].concat();
    assert_eq!(run.len(), format.slot, "the five fields fill the slot exactly");
    run
}

/// Map order: 1, 2, 3 (data, TFCI, output), 5, then TFCI: 4, 6; then data 4.
pub fn map(number: usize, slot: usize, tpc: usize, data: &[u8], tfci: &[u8], n_out: usize) -> Result<Vec<u8>, Refusal> {
    let format = format(number)?;
    checks::slot(slot)?;
    checks::lengths(&[(data.len(), format.data()), (tfci.len(), format.tfci), (n_out, format.slot)])?;
    if tpc > 1 {
        return refuse(5, 0);
    }
    check_fields(tfci, 0, data, 0)?;
    Ok(mapped(&format, slot, tpc as u8, data, tfci))
}

/// Read order: 1, 2, 3 (slot, data, TFCI), then the digits.
pub fn read(number: usize, slot: usize, run: &[u8], n_data: usize, n_tfci: usize) -> Result<Fields, Refusal> {
    let format = format(number)?;
    checks::slot(slot)?;
    checks::lengths(&[(run.len(), format.slot), (n_data, format.data()), (n_tfci, format.tfci)])?;
    read_slot(&format, &pilot(format.pilot, slot), run, 0)
}

/// The digits of one slot that begins at index `from`: 4 above 2, 5 (first TPC digit that is DTX or unlike the
/// first), 6, 7 (first digit that differs from the slot's pilot).
pub fn read_slot(format: &Format, pilot: &[u8], run: &[u8], from: usize) -> Result<Fields, Refusal> {
    checks::digits(run, 2, from)?;
    let tpc = &run[format.tpc_at()..format.tfci_at()];
    let tfci = &run[format.tfci_at()..format.data2_at()];
    checks::first_bad(5, from + format.tpc_at(), tpc, |digit| *digit == DTX || *digit != tpc[0])?;
    check_tfci(tfci, from + format.tfci_at())?;
    checks::same(7, &run[format.pilot_at()..], pilot, from + format.pilot_at())?;
    let data1 = &run[..format.data1];
    let data2 = &run[format.data2_at()..format.pilot_at()];
    Ok(Fields { tpc: tpc[0], data: [data1, data2].concat(), tfci: tfci.to_vec() })
}

#[cfg(test)]
mod tests {
    use super::{Fields, format, map, read};
    use crate::answer::refuse;

    #[test]
    fn marked_example_p1() {
        assert_eq!(map(0, 0, 0, &[1, 0, 1, 0], &[], 10), Ok(vec![0, 0, 1, 0, 1, 0, 1, 1, 1, 1]));
    }

    #[test]
    fn marked_example_p2() {
        assert_eq!(map(1, 1, 1, &[1, 0], &[0, 1], 10), Ok(vec![1, 1, 0, 1, 1, 0, 1, 1, 0, 0]));
    }

    #[test]
    fn marked_examples_p3_and_p4() {
        assert_eq!(map(17, 0, 0, &[], &[], 0), refuse(1, 0));
        assert_eq!(map(0, 15, 0, &[1, 0, 1, 0], &[], 10), refuse(2, 0));
    }

    #[test]
    fn silence_is_taken_in_every_format_with_tfci_and_a_mix_in_none() {
        for number in 0..=16 {
            let format = format(number).unwrap();
            let (data, silent) = (vec![0; format.data()], vec![2; format.tfci]);
            let run = map(number, 3, 1, &data, &silent, format.slot).unwrap();
            let back = read(number, 3, &run, format.data(), format.tfci).unwrap();
            assert_eq!(back, Fields { tpc: 1, data: data.clone(), tfci: silent.clone() }, "format {number}");
            for index in 0..format.tfci {
                let (mut bit_in_silence, mut dtx_in_bits) = (silent.clone(), vec![1; format.tfci]);
                (bit_in_silence[index], dtx_in_bits[index]) = (0, 2);
                for tfci in [bit_in_silence, dtx_in_bits] {
                    assert_eq!(map(number, 3, 1, &data, &tfci, format.slot), refuse(6, index.max(1)), "format {number}");
                }
            }
        }
    }

    #[test]
    fn the_fields_of_every_format_fill_the_slot() {
        for number in 0..=16 {
            let format = format(number).unwrap();
            assert_eq!(format.pilot_at() + format.pilot, format.slot, "format {number}");
        }
    }
}
