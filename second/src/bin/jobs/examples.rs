//! The examples: job files to look at, each beside the text that is printed for it.

use crate::good::{AICH, Job, PICH, dpch_of, file};
use second::fields::lengths_of;
use second::rules::job::printed;
use std::fs;
use std::path::Path;

/// Every example: its name and its bytes.
fn all() -> Vec<(&'static str, Vec<u8>)> {
    vec![
        ("dpch", file(&[slot()])),
        ("three_kinds", file(&[acquisition(), paging(), dpch_of(0, 0, 0, &[], &[1, 0, 1, 0])])),
        ("refused", file(&[slot(), dpch_of(1, 2, 0, &[0, 2], &[1, 0]), slot()])),
        ("all_formats", file(&(0..=16).map(one_of_format).collect::<Vec<_>>())),
    ]
}

/// The record of the rules' own example: format 1, slot 1, command 1, TFCI 01, data 10.
fn slot() -> Vec<u8> {
    dpch_of(1, 1, 1, &[0, 1], &[1, 0])
}

/// +1 on signature 0, -1 on signature 1.
fn acquisition() -> Vec<u8> {
    [&[AICH, 1, 2][..], &[0; 14]].concat()
}

/// Np 18, indicator 7 set.
fn paging() -> Vec<u8> {
    let mut record = [&[PICH, 18][..], &[0; 18]].concat();
    record[2 + 7] = 1;
    record
}

/// A slot of each format, each slot number once or twice; data with DTX, and in formats 9, 13 and 15 a silent TFCI.
fn one_of_format(format: u8) -> Vec<u8> {
    let lengths = lengths_of(format.into());
    let silent = matches!(format, 9 | 13 | 15);
    let tfci: Vec<u8> = (0..lengths.tfci).map(|index| if silent { 2 } else { (index % 2) as u8 }).collect();
    let data: Vec<u8> = (0..lengths.data()).map(|index| (index * 7 % 3) as u8).collect();
    dpch_of(format, format % 15, format % 2, &tfci, &data)
}

/// The files and texts of every example, by name.
fn stored() -> Vec<(String, Vec<u8>)> {
    all()
        .into_iter()
        .flat_map(|(name, bytes)| {
            let text = printed(&bytes).into_bytes();
            [(format!("{name}.slt"), bytes), (format!("{name}.txt"), text)]
        })
        .collect()
}

pub fn write(directory: &Path) -> Result<(), String> {
    for (name, bytes) in stored() {
        let path = directory.join(name);
        fs::write(&path, bytes).map_err(|error| format!("{}: {error}", path.display()))?;
    }
    Ok(())
}

/// What is stored must be what would be stored now.
pub fn check_stored(directory: &Path) -> Result<(), String> {
    for (name, bytes) in stored() {
        let path = directory.join(name);
        let found = fs::read(&path).map_err(|error| format!("{}: {error}", path.display()))?;
        if found != bytes {
            return Err(format!("DIFFERENCE: {} is not the example that the rules give", path.display()));
        }
    }
    Ok(())
}

/// The examples as files to be compared.
pub fn jobs() -> Vec<Job> {
    all().into_iter().map(|(name, bytes)| Job::new(format!("{name}.slt"), bytes)).collect()
}

#[cfg(test)]
mod tests {
    use super::{all, printed};

    #[test]
    fn what_the_examples_are_to_show() {
        let texts: Vec<String> = all().iter().map(|(_, bytes)| printed(bytes)).collect();
        assert_eq!(texts[0], "SLT 1 1\nDPCH 1 1 1101101100\n");
        let kinds: Vec<&str> = texts[1].lines().map(|line| &line[..4]).collect();
        assert_eq!(kinds, ["SLT ", "AICH", "PICH", "DPCH"]);
        assert_eq!(texts[2], "SLT 1 3\nDPCH 1 1 1101101100\nrefused 6 1\n");
        assert_eq!(texts[3].lines().count(), 18);
        assert!(!texts[3].contains("refused"));
    }
}
