//! The downlink DPCH slot on two antennas.

use crate::answer::{Refusal, refuse};
use crate::rules::dpch::{self, Fields};
use crate::rules::{checks, sttd};

/// Table 14, a row a slot: the patterns of 2, 4, 8 and 16 bits, symbol by symbol.
const TABLE_14: [[&str; 4]; 15] = [
    ["01", "01 10", "11 00 00 10", "11 00 00 10 11 00 00 10"],
    ["10", "10 10", "11 00 00 01", "11 00 00 01 11 10 00 10"],
    ["11", "11 10", "11 11 00 00", "11 11 00 00 11 10 00 11"],
    ["10", "10 10", "11 10 00 01", "11 10 00 01 11 00 00 00"],
    ["00", "00 10", "11 11 00 11", "11 11 00 11 11 01 00 10"],
    ["01", "01 10", "11 00 00 10", "11 00 00 10 11 11 00 00"],
    ["01", "01 10", "11 10 00 10", "11 10 00 10 11 01 00 11"],
    ["00", "00 10", "11 10 00 11", "11 10 00 11 11 10 00 11"],
    ["11", "11 10", "11 00 00 00", "11 00 00 00 11 01 00 01"],
    ["01", "01 10", "11 01 00 10", "11 01 00 10 11 01 00 01"],
    ["11", "11 10", "11 11 00 00", "11 11 00 00 11 00 00 10"],
    ["00", "00 10", "11 01 00 11", "11 01 00 11 11 00 00 01"],
    ["00", "00 10", "11 10 00 11", "11 10 00 11 11 11 00 00"],
    ["10", "10 10", "11 01 00 01", "11 01 00 01 11 10 00 01"],
    ["10", "10 10", "11 01 00 01", "11 01 00 01 11 11 00 11"],
];

/// The pilot bits that the table prints for antenna 2.
pub fn pilot(bits: usize, slot: usize) -> Vec<u8> {
    let column = match bits {
        2 => 0,
        4 => 1,
        8 => 2,
        16 => 3,
        _ => unreachable!("no format has {bits} pilot bits"),
    };
    let text = TABLE_14[slot][column].bytes();
    text.filter(|byte| *byte != b' ').map(|byte| byte - b'0').collect()
}

/// What antenna 2 sends where antenna 1 sends `first`.
pub fn second(number: usize, slot: usize, first: &[u8]) -> Vec<u8> {
    let format = dpch::format(number).expect("formats 0 to 16");
    if number <= 1 {
        // Spreading factor 512: TPC is the same on both antennas, the next four are encoded.
        let coded = sttd::encoded(sttd::bar, &first[2..6]);
        return [first[..2].to_vec(), coded, pilot(4, slot)].concat();
    }
    if format.pilot == 2 {
        return sttd::encoded(sttd::bar, first);
    }
    let coded = sttd::encoded(sttd::bar, &first[..format.pilot_at()]);
    [coded, pilot(format.pilot, slot)].concat()
}

/// What a map is given: format, slot, antenna and command; data and TFCI; the room of the output.
pub struct Given<'a> {
    pub numbers: [usize; 4],
    pub data: &'a [u8],
    pub tfci: &'a [u8],
    pub n_out: usize,
}

/// Map order: 1, 2, 11 for an antenna above 1, 3 (data, TFCI, output), 5, TFCI 4, 6, data 4.
pub fn map(given: &Given) -> Result<Vec<u8>, Refusal> {
    let [number, slot, antenna, tpc] = given.numbers;
    dpch::format(number)?;
    checks::slot(slot)?;
    if antenna > 1 {
        return refuse(11, 0);
    }
    let first = dpch::map(number, slot, tpc, given.data, given.tfci, given.n_out)?;
    Ok(if antenna == 0 { first } else { second(number, slot, &first) })
}

/// Read order: 1, 2, 3 (first stream, second stream, data, TFCI), 4 in the first and then in the second, 5, 6, 7, then 9
/// where the second differs from what the first one's fields give. The second's places start at the slot length.
pub fn read(
    number: usize, slot: usize, first: &[u8], other: &[u8], n_data: usize, n_tfci: usize,
) -> Result<Fields, Refusal> {
    let format = dpch::format(number)?;
    checks::slot(slot)?;
    let (data, tfci) = ((n_data, format.data()), (n_tfci, format.tfci));
    checks::lengths(&[(first.len(), format.slot), (other.len(), format.slot), data, tfci])?;
    checks::digits(first, 2, 0)?;
    checks::digits(other, 2, format.slot)?;
    let fields = dpch::read_slot(&format, &dpch::pilot(format.pilot, slot), first, 0)?;
    let sent = dpch::mapped(&format, slot, fields.tpc, &fields.data, &fields.tfci);
    checks::same(9, other, &second(number, slot, &sent), format.slot)?;
    Ok(fields)
}

#[cfg(test)]
mod tests {
    use super::{pilot, second};
    use crate::rules::{dpch, sttd};

    /// Symbol `k` of a pattern.
    fn symbol(k: usize, pattern: &[u8]) -> Vec<u8> {
        pattern[2 * k..2 * k + 2].to_vec()
    }

    #[test]
    fn table_14_is_pinned_by_table_12() {
        for slot in 0..15 {
            assert_eq!(pilot(4, slot), sttd::encoded(sttd::bar, &dpch::pilot(4, slot)), "slot {slot}");
            for (bits, pairs) in [(8, vec![(1, 3)]), (16, vec![(1, 3), (5, 7)])] {
                let (one, two) = (dpch::pilot(bits, slot), pilot(bits, slot));
                for (j, k) in pairs {
                    let block = [symbol(j, &one), symbol(k, &one)].concat();
                    let coded = [symbol(j, &two), symbol(k, &two)].concat();
                    assert_eq!(coded, sttd::encoded(sttd::bar, &block), "slot {slot}");
                    assert_eq!((symbol(j - 1, &two), symbol(k - 1, &two)), (vec![1, 1], vec![0, 0]), "slot {slot}");
                }
            }
            let block = [vec![2, 0], dpch::pilot(2, slot)].concat();
            assert_eq!(sttd::encoded(sttd::bar, &block), [pilot(2, slot), vec![2, 1]].concat(), "slot {slot}");
        }
    }

    #[test]
    fn whole_blocks_are_encoded() {
        for number in 0..=16 {
            let format = dpch::format(number).unwrap();
            let coded = match number {
                0 | 1 => 4,
                2 | 3 => format.slot,
                _ => format.pilot_at(),
            };
            assert_eq!(coded % 4, 0, "format {number}");
        }
    }

    #[test]
    fn the_two_bit_pilot_comes_before_the_last_data_digits() {
        let first = dpch::map(2, 1, 0, &[0; 16], &[], 20).unwrap();
        assert_eq!(first[16..], [0, 0, 0, 0]);
        assert_eq!(second(2, 1, &first)[16..], [1, 0, 0, 1]);
    }
}
