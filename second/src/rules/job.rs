//! The job file, and the text that the program prints for one.

use crate::answer::{Refusal, refuse};
use crate::rules::{aich, dpch, pich};

/// Version 1: at most 65535 bytes, and one byte that counts the records.
pub const LONGEST: usize = 65535;

/// Version 2: at most 1048576 bytes, and two bytes that count the records, high byte first.
pub const LONGEST_2: usize = 1_048_576;

/// `SLT`, then the version as 16 bits, high byte first: 1.
pub const MARK_AND_VERSION: [u8; 5] = *b"SLT\x00\x01";

/// The same of version 2.
pub const MARK_AND_VERSION_2: [u8; 5] = *b"SLT\x00\x02";

/// The mark, and the high byte of the version.
const BEGINNING: [u8; 4] = *b"SLT\x00";

/// How many of these bytes are the mark.
const MARK: usize = 3;

/// Everything that is printed for a file: the lines of what it holds, and a line for the refusal that ends the run.
pub fn printed(file: &[u8]) -> String {
    let mut text = String::new();
    if let Err(refusal) = print(file, &mut text) {
        text += &format!("refused {} {}\n", refusal.number, refusal.place);
    }
    text
}

/// Order: mark and version, byte after byte; an over-long file of version 1, 20 at 65535; the count; the records; a
/// byte after the last record, 25 there. No line is printed before the header is known to be good.
fn print(file: &[u8], text: &mut String) -> Result<(), Refusal> {
    let mut reader = Reader { file, at: 0, limit: LONGEST_2 };
    let version = version(&mut reader)?;
    if version == 1 {
        if file.len() > LONGEST {
            return refuse(20, LONGEST);
        }
        reader.limit = LONGEST;
    }
    let mut count = usize::from(reader.byte()?);
    if version == 2 {
        count = 256 * count + usize::from(reader.byte()?);
    }
    *text += &format!("SLT {version} {count}\n");
    for _ in 0..count {
        *text += &record(&mut reader)?;
        *text += "\n";
    }
    let behind = reader.at;
    match reader.look() {
        Look::Missing => Ok(()),
        Look::AtTheLimit => refuse(20, reader.limit),
        Look::There(_) => refuse(25, behind),
    }
}

/// A file, how much of it has been read, and how many bytes it may have.
struct Reader<'a> {
    file: &'a [u8],
    at: usize,
    limit: usize,
}

/// What is found where the next byte is looked for.
enum Look {
    Missing,
    AtTheLimit,
    There(u8),
}

impl Reader<'_> {
    fn look(&self) -> Look {
        match self.file.get(self.at) {
            None => Look::Missing,
            Some(_) if self.at == self.limit => Look::AtTheLimit,
            Some(byte) => Look::There(*byte),
        }
    }

    /// The next byte. A missing one is 24 at the file's length; one at the limit is 20, whatever it would be.
    fn byte(&mut self) -> Result<u8, Refusal> {
        match self.look() {
            Look::Missing => refuse(24, self.file.len()),
            Look::AtTheLimit => refuse(20, self.limit),
            Look::There(byte) => {
                self.at += 1;
                Ok(byte)
            }
        }
    }

    /// The next bytes, looked for one after the other.
    fn run(&mut self, length: usize) -> Result<Vec<u8>, Refusal> {
        (0..length).map(|_| self.byte()).collect()
    }
}

/// Mark and version, each byte in turn: 21 where the mark is wrong, 22 where the version is. Answers the version.
fn version(reader: &mut Reader) -> Result<u8, Refusal> {
    for (offset, right) in BEGINNING.into_iter().enumerate() {
        if reader.byte()? != right {
            return refuse(if offset < MARK { 21 } else { 22 }, offset);
        }
    }
    match reader.byte()? {
        version @ (1 | 2) => Ok(version),
        _ => refuse(22, BEGINNING.len()),
    }
}

/// The line of the next record. An unknown kind is 23 where it stands.
fn record(reader: &mut Reader) -> Result<String, Refusal> {
    let begin = reader.at;
    match reader.byte()? {
        1 => aich_line(reader),
        2 => pich_line(reader),
        3 => dpch_line(reader),
        _ => refuse(23, begin),
    }
}

/// 16 bytes: short 24, then the mapper's 11.
fn aich_line(reader: &mut Reader) -> Result<String, Refusal> {
    let bytes = reader.run(aich::SIGNATURES)?;
    let indicators: Vec<i32> = bytes.iter().map(|byte| indicator(*byte)).collect();
    let values = aich::map(&indicators, aich::VALUES)?;
    let words: Vec<String> = values.iter().map(i32::to_string).collect();
    Ok(format!("AICH {}", words.join(" ")))
}

/// 0, 1, 2 stand for 0, +1, -1. Any other byte stays what it is: 3 to 255 are no indicators, so the mapper refuses it.
fn indicator(byte: u8) -> i32 {
    match byte {
        2 => -1,
        other => i32::from(other),
    }
}

/// Np and its indicators: Np 8 comes before short 24, since the length is not known without it.
fn pich_line(reader: &mut Reader) -> Result<String, Refusal> {
    let np = usize::from(reader.byte()?);
    pich::check_np(np)?;
    let indicators = reader.run(np)?;
    let frame = pich::map(np, &indicators, pich::FRAME)?;
    Ok(format!("PICH {np} {}", digits(&frame)))
}

/// Format, slot, TPC, TFCI, data: format 1 comes before short 24, and short 24 before every other check of the mapper.
fn dpch_line(reader: &mut Reader) -> Result<String, Refusal> {
    let number = usize::from(reader.byte()?);
    let format = dpch::format(number)?;
    let rest = reader.run(2 + format.tfci + format.data())?;
    let (slot, tpc) = (usize::from(rest[0]), usize::from(rest[1]));
    let (tfci, data) = rest[2..].split_at(format.tfci);
    let run = dpch::map(number, slot, tpc, data, tfci, format.slot)?;
    Ok(format!("DPCH {number} {slot} {}", digits(&run)))
}

/// Digits as they are printed: DTX as `-`.
fn digits(run: &[u8]) -> String {
    run.iter().map(|digit| if *digit == 2 { '-' } else { char::from(b'0' + digit) }).collect()
}

#[cfg(test)]
mod tests {
    use super::{LONGEST, LONGEST_2, printed};

    /// A header that counts `count` records, and what follows it.
    fn file(count: u8, rest: &[u8]) -> Vec<u8> {
        [b"SLT\x00\x01", &[count][..], rest].concat()
    }

    #[test]
    fn the_example_of_the_rules() {
        let bytes = [0x53, 0x4c, 0x54, 0x00, 0x01, 0x01, 0x03, 0x01, 0x01, 0x01, 0x00, 0x01, 0x01, 0x00];
        assert_eq!(printed(&bytes), "SLT 1 1\nDPCH 1 1 1101101100\n");
    }

    #[test]
    fn dtx_is_a_dash() {
        assert_eq!(printed(&file(1, &[3, 0, 0, 0, 1, 2, 1, 2])), "SLT 1 1\nDPCH 0 0 001-1-1111\n");
        let silent = [&[3, 12, 14, 1][..], &[2; 8], &[0; 60]].concat();
        let line = format!("DPCH 12 14 {}1111--------{}11001111", "0".repeat(12), "0".repeat(48));
        assert_eq!(printed(&file(1, &silent)), format!("SLT 1 1\n{line}\n"));
    }

    #[test]
    fn aich_values_with_their_signs() {
        let all = [&[1][..], &[1; 16]].concat();
        assert_eq!(printed(&file(1, &all)), format!("SLT 1 1\nAICH 16 16{}\n", " 0".repeat(30)));
        let none_but_minus = [&[1, 2][..], &[0; 15]].concat();
        assert_eq!(printed(&file(1, &none_but_minus)), format!("SLT 1 1\nAICH{}\n", " -1".repeat(32)));
    }

    #[test]
    fn pich_repeats_its_indicators_and_ends_silent() {
        let mut record = vec![2, 144];
        record.extend([1, 0, 0].repeat(48));
        let line = format!("PICH 144 {}{}", "110000".repeat(48), "-".repeat(12));
        assert_eq!(printed(&file(1, &record)), format!("SLT 1 1\n{line}\n"));
    }

    #[test]
    fn header_and_length_print_one_line() {
        assert_eq!(printed(b""), "refused 24 0\n");
        assert_eq!(printed(b"SLT\x00\x01"), "refused 24 5\n");
        assert_eq!(printed(b"SL"), "refused 24 2\n");
        assert_eq!(printed(b"SLX"), "refused 21 2\n");
        assert_eq!(printed(b"SLT\x01\x01\x00"), "refused 22 3\n");
        assert_eq!(printed(b"SLT\x00\x03\x00"), "refused 22 4\n");
        assert_eq!(printed(b"SLT\x00\x02\x00"), "refused 24 6\n");
        assert_eq!(printed(&vec![0; LONGEST]), "refused 21 0\n");
        assert_eq!(printed(&vec![0; LONGEST + 1]), "refused 21 0\n");
        assert_eq!(printed(&[b"SLT\x00\x03", &vec![0; LONGEST][..]].concat()), "refused 22 4\n");
        assert_eq!(printed(&file(0, &vec![0; LONGEST - 5])), "refused 20 65535\n");
        assert_eq!(printed(&file(0, &vec![0; LONGEST - 6])), "SLT 1 0\nrefused 25 6\n");
    }

    #[test]
    fn records_are_refused_after_the_lines_before_them() {
        assert_eq!(printed(&file(0, &[])), "SLT 1 0\n");
        assert_eq!(printed(&file(0, &[9])), "SLT 1 0\nrefused 25 6\n");
        assert_eq!(printed(&file(255, &[])), "SLT 1 255\nrefused 24 6\n");
        let good = [3, 0, 0, 0, 1, 0, 1, 0];
        let line = "DPCH 0 0 0010101111";
        assert_eq!(printed(&file(1, &[&good[..], &[0]].concat())), format!("SLT 1 1\n{line}\nrefused 25 14\n"));
        assert_eq!(printed(&file(2, &[&good[..], &[4]].concat())), format!("SLT 1 2\n{line}\nrefused 23 14\n"));
        assert_eq!(printed(&file(2, &[&good[..], &[3]].concat())), format!("SLT 1 2\n{line}\nrefused 24 15\n"));
        assert_eq!(printed(&file(2, &[&good[..], &[3, 17]].concat())), format!("SLT 1 2\n{line}\nrefused 1 0\n"));
    }

    #[test]
    fn short_comes_after_np_and_format_and_before_the_mapper() {
        assert_eq!(printed(&file(1, &[2, 19])), "SLT 1 1\nrefused 8 0\n");
        assert_eq!(printed(&file(1, &[2, 18, 9])), "SLT 1 1\nrefused 24 9\n");
        assert_eq!(printed(&file(1, &[3, 1, 15, 2, 3, 3, 3])), "SLT 1 1\nrefused 24 13\n");
        assert_eq!(printed(&file(1, &[3, 1, 15, 2, 3, 3, 3, 3])), "SLT 1 1\nrefused 2 0\n");
        assert_eq!(printed(&file(1, &[3, 1, 14, 2, 3, 3, 3, 3])), "SLT 1 1\nrefused 5 0\n");
        assert_eq!(printed(&file(1, &[3, 1, 14, 1, 2, 3, 3, 3])), "SLT 1 1\nrefused 4 1\n");
        assert_eq!(printed(&file(1, &[3, 1, 14, 1, 0, 2, 3, 3])), "SLT 1 1\nrefused 6 1\n");
        assert_eq!(printed(&file(1, &[3, 1, 14, 1, 0, 1, 2, 3])), "SLT 1 1\nrefused 4 1\n");
    }

    /// Version 2 with two bytes of count.
    fn file_2(count: u16, rest: &[u8]) -> Vec<u8> {
        [b"SLT\x00\x02", &count.to_be_bytes()[..], rest].concat()
    }

    /// A file of version 2 whose last record, of any bytes, begins so many bytes before the limit. Before it stand slots
    /// of format 16 (1260 bytes), and of AICH (17 bytes, one more than two slots of format 0) and of format 0 as many as
    /// fill what is left. Answers how many records stand before the last, and all bytes behind the header.
    fn up_to_the_limit(before: usize, last: &[u8]) -> (u16, Vec<u8>) {
        let length = LONGEST_2 - before - 7;
        let long = length / 1260 - 1;
        let aich = (length - 1260 * long) % 8;
        let short = (length - 1260 * long - 17 * aich) / 8;
        let records = [
            [vec![3, 16], vec![0; 1258]].concat().repeat(long),
            [vec![1], vec![0; 16]].concat().repeat(aich),
            [3, 0, 0, 0, 0, 0, 0, 0].repeat(short),
            last.to_vec(),
        ];
        ((long + aich + short) as u16, records.concat())
    }

    /// The last line for such a file.
    fn told(before: usize, last: &[u8]) -> String {
        let (count, records) = up_to_the_limit(before, last);
        let text = printed(&file_2(count + 1, &records));
        text.lines().last().expect("a line").to_string()
    }

    #[test]
    fn version_2_counts_in_two_bytes() {
        let good = [3, 0, 0, 0, 1, 0, 1, 0];
        let line = "DPCH 0 0 0010101111\n";
        assert_eq!(printed(&file_2(1, &good)), format!("SLT 2 1\n{line}"));
        assert_eq!(printed(&file_2(256, &good.repeat(256))), format!("SLT 2 256\n{}", line.repeat(256)));
        assert_eq!(printed(&file_2(0, &good)), "SLT 2 0\nrefused 25 7\n");
        assert_eq!(printed(&file_2(0, &[])), "SLT 2 0\n");
        assert_eq!(printed(&file_2(2, &good)), format!("SLT 2 2\n{line}refused 24 15\n"));
        assert_eq!(printed(b"SLT\x00\x02"), "refused 24 5\n");
    }

    #[test]
    fn the_byte_at_the_limit_of_version_2_comes_before_any_other_check_on_it() {
        let good = [3, 0, 0, 0, 1, 0, 1, 0];
        // The record ends with the last byte that a file may have.
        assert!(told(8, &good).starts_with("DPCH 0 0 "));
        // The limit is at the kind, at the format, at a digit, at the last byte; behind the last record.
        for before in 0..8 {
            assert_eq!(told(before, &good), "refused 20 1048576");
        }
        assert_eq!(told(8, &[&good[..], &[7]].concat()), "refused 20 1048576");
        assert_eq!(told(9, &[&good[..], &[7]].concat()), "refused 25 1048575");
        // A kind, a format, an Np that there is not is told before the limit, and not at it.
        assert_eq!(told(1, &[7, 0]), "refused 23 1048575");
        assert_eq!(told(0, &[7, 0]), "refused 20 1048576");
        assert_eq!(told(2, &[3, 17, 0]), "refused 1 0");
        assert_eq!(told(1, &[3, 17, 0]), "refused 20 1048576");
        assert_eq!(told(2, &[2, 17, 0]), "refused 8 0");
        assert_eq!(told(1, &[2, 17, 0]), "refused 20 1048576");
        // The file ends before the record does, or a digit before the limit is bad: the limit's byte is there.
        assert_eq!(told(4, &good[..5]), "refused 20 1048576");
        assert_eq!(told(4, &good[..4]), "refused 24 1048576");
        assert_eq!(told(4, &good[..3]), "refused 24 1048575");
        assert_eq!(told(4, &[3, 0, 99, 99, 0, 0, 0, 0]), "refused 20 1048576");
    }
}
