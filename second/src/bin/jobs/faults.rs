//! Two faults in one file: the order of the checks decides which is told.

use crate::good::{AICH, COMMAND_AT, DPCH, Job, PICH, SLOT_AT, TFCI_AT, aich, dpch_of, pich};
use second::fields::lengths_of;
use second::random::Random;
use second::rules::job::{LONGEST, MARK_AND_VERSION};

/// The faults, and the list of them all.
macro_rules! faults {
    ($($name:ident),* $(,)?) => {
        #[derive(Clone, Copy, Debug, PartialEq, Eq)]
        enum Fault {
            $($name),*
        }

        use Fault::*;

        const FAULTS: &[Fault] = &[$($name),*];
    };
}

faults! {
    OverLong,
    WrongMark,
    WrongVersion,
    MissingByte,
    UnknownKind,
    BadFormat,
    BadNp,
    Short,
    BadSlot,
    BadCommand,
    TfciDigit,
    TfciRule,
    DataDigit,
    AichByte,
    PichDigit,
    ByteAfter,
}

/// Where a fault can be.
#[derive(Clone, Copy, PartialEq, Eq)]
enum Home {
    File,
    AnyRecord,
    Record(u8),
}

impl Fault {
    fn home(self) -> Home {
        match self {
            OverLong | WrongMark | WrongVersion | ByteAfter => Home::File,
            MissingByte | UnknownKind | Short => Home::AnyRecord,
            AichByte => Home::Record(AICH),
            BadNp | PichDigit => Home::Record(PICH),
            _ => Home::Record(DPCH),
        }
    }

    /// Whether the file ends there, so that nothing can stand behind it.
    fn ends_the_file(self) -> bool {
        matches!(self, MissingByte | Short)
    }
}

/// A format with TFCI: every fault of a DPCH record can be made in it.
const FORMAT: u8 = 12;

fn good_dpch(random: &mut Random) -> Vec<u8> {
    let lengths = lengths_of(FORMAT.into());
    dpch_of(FORMAT, 11, 1, &random.digits(lengths.tfci, 2), &random.digits(lengths.data(), 3))
}

/// A good record in which the fault can be made.
fn record_for(random: &mut Random, home: Home) -> Vec<u8> {
    match home {
        Home::Record(AICH) => aich(random),
        Home::Record(PICH) => pich(random, 36),
        _ => good_dpch(random),
    }
}

/// A file that has not been put together yet.
struct Draft {
    /// Whether many long records stand before the others.
    padded: bool,
    header: [u8; 5],
    records: Vec<Vec<u8>>,
    /// A record that is the last, and how many of its bytes there are.
    cut: Option<(usize, usize)>,
    after: Vec<u8>,
}

impl Draft {
    fn new(records: Vec<Vec<u8>>) -> Draft {
        Draft { padded: false, header: MARK_AND_VERSION, records, cut: None, after: Vec::new() }
    }

    /// Makes the fault, in the record of that index if it is a record's.
    fn make(&mut self, fault: Fault, index: usize) {
        let data_at = TFCI_AT + lengths_of(FORMAT.into()).tfci;
        let record = &mut self.records[index];
        match fault {
            OverLong => self.padded = true,
            WrongMark => self.header[2] = b't',
            WrongVersion => self.header[4] = 3,
            ByteAfter => self.after = vec![AICH],
            // The kind is still there.
            MissingByte => self.cut = Some((index, 1)),
            Short => self.cut = Some((index, record.len() - 1)),
            UnknownKind => record[0] = 4,
            BadFormat => record[1] = 17,
            BadNp => record[1] = 37,
            BadSlot => record[SLOT_AT] = 15,
            BadCommand => record[COMMAND_AT] = 2,
            // The later digit is the one that is checked earlier.
            TfciDigit => record[TFCI_AT + 5] = 3,
            TfciRule => record[TFCI_AT + 1] = 2,
            DataDigit => record[data_at + 3] = 3,
            AichByte => record[1 + 6] = 3,
            PichDigit => record[2 + 9] = 2,
        }
    }

    fn bytes(self) -> Vec<u8> {
        let lengths = lengths_of(16);
        let long = dpch_of(16, 12, 0, &vec![1; lengths.tfci], &vec![2; lengths.data()]);
        let padding = if self.padded { vec![long; 52] } else { vec![] };
        let count = (padding.len() + self.records.len()) as u8;
        let mut bytes = [&self.header[..], &[count], &padding.concat()].concat();
        for (index, record) in self.records.into_iter().enumerate() {
            if let Some((last, kept)) = self.cut
                && index == last
            {
                bytes.extend_from_slice(&record[..kept]);
                break;
            }
            bytes.extend(record);
        }
        bytes.extend(self.after);
        assert_eq!(bytes.len() > LONGEST, self.padded, "only a padded file is over-long");
        bytes
    }
}

/// The home of two faults that can be in one record, or in the file and a record. Not every two can: an end of the
/// file leaves nothing behind it.
fn shared_home(first: Fault, second: Fault) -> Option<Home> {
    let ends = [first, second].into_iter().filter(|fault| fault.ends_the_file()).count();
    if ends == 2 || (ends == 1 && [first, second].contains(&ByteAfter)) {
        return None;
    }
    match (first.home(), second.home()) {
        (Home::File, other) | (other, Home::File) => Some(other),
        // Of a record that ends after its kind, only the kind can be bad.
        _ if [first, second].contains(&MissingByte) && ![first, second].contains(&UnknownKind) => None,
        (Home::AnyRecord, other) | (other, Home::AnyRecord) => Some(other),
        (one, other) => (one == other).then_some(one),
    }
}

/// Every two faults that can be in one record, or of which one at least is the file's.
pub fn together() -> Vec<Job> {
    let mut random = Random::new(500);
    let mut jobs = Vec::new();
    for (place, first) in FAULTS.iter().copied().enumerate() {
        for second in FAULTS.iter().copied().skip(place + 1) {
            if let Some(home) = shared_home(first, second) {
                let records = vec![good_dpch(&mut random), record_for(&mut random, home), aich(&mut random)];
                let mut draft = Draft::new(records);
                draft.make(first, 1);
                draft.make(second, 1);
                jobs.push(Job::new(format!("{first:?} and {second:?}"), draft.bytes()));
            }
        }
    }
    jobs
}

/// Every two faults of records, each in its own: the earlier record's is told, whatever the faults are.
pub fn apart() -> Vec<Job> {
    let mut random = Random::new(501);
    let mut jobs = Vec::new();
    let of_records = || FAULTS.iter().copied().filter(|fault| fault.home() != Home::File);
    for first in of_records().filter(|fault| !fault.ends_the_file()) {
        for second in of_records() {
            let mut draft = Draft::new(vec![
                aich(&mut random),
                record_for(&mut random, first.home()),
                pich(&mut random, 18),
                record_for(&mut random, second.home()),
                good_dpch(&mut random),
            ]);
            draft.make(first, 1);
            draft.make(second, 3);
            jobs.push(Job::new(format!("{first:?}, then {second:?}"), draft.bytes()));
        }
    }
    jobs
}

#[cfg(test)]
mod tests {
    use super::{ByteAfter, FAULTS, apart, together};
    use second::rules::job::printed;

    /// What is told of two faults in one file.
    fn told(what: &str) -> String {
        let job = together().into_iter().find(|job| job.what == what).expect("a file of these faults");
        printed(&job.bytes).lines().last().expect("a line").to_string()
    }

    #[test]
    fn the_earlier_check_is_told() {
        assert_eq!(told("OverLong and WrongMark"), "refused 21 2");
        assert_eq!(told("OverLong and WrongVersion"), "refused 22 4");
        assert_eq!(told("OverLong and UnknownKind"), "refused 20 65535");
        assert_eq!(told("WrongMark and WrongVersion"), "refused 21 2");
        assert_eq!(told("WrongVersion and UnknownKind"), "refused 22 4");
        assert_eq!(told("WrongVersion and ByteAfter"), "refused 22 4");
        assert_eq!(told("TfciDigit and TfciRule"), "refused 4 5");
        assert_eq!(told("BadFormat and Short"), "refused 1 0");
        assert_eq!(told("BadSlot and DataDigit"), "refused 2 0");
        // The file's length: header, a good record of 72 bytes, and all but one of the next.
        assert_eq!(told("Short and BadSlot"), format!("refused 24 {}", 6 + 72 + 71));
        assert_eq!(told("MissingByte and UnknownKind"), format!("refused 23 {}", 6 + 72));
        assert_eq!(told("UnknownKind and ByteAfter"), format!("refused 23 {}", 6 + 72));
    }

    #[test]
    fn every_two_faults_are_tried() {
        let tried: Vec<String> = together().into_iter().chain(apart()).map(|job| job.what).collect();
        for (place, first) in FAULTS.iter().copied().enumerate() {
            for second in FAULTS.iter().copied().skip(place + 1) {
                // A file cannot end in two places, nor end early and have a byte after its end.
                let impossible = first.ends_the_file() && (second.ends_the_file() || second == ByteAfter);
                let names = [
                    format!("{first:?} and {second:?}"),
                    format!("{first:?}, then {second:?}"),
                    format!("{second:?}, then {first:?}"),
                ];
                let is_tried = names.iter().any(|name| tried.contains(name));
                assert_ne!(is_tried, impossible, "{first:?} and {second:?}");
            }
        }
    }

    #[test]
    fn every_file_is_refused() {
        for job in together().into_iter().chain(apart()) {
            assert!(printed(&job.bytes).lines().last().expect("a line").starts_with("refused"), "{}", job.what);
        }
    }
}
