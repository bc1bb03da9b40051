//! Job files of one record: the example of docs/RULES.md, 'Job file and program', and the refusals 20 to 25. What a job prints comes on
//! lines of its own. A long file is said by what it repeats.

use crate::case::{Case, Line};
use crate::runs::repeated;
use second::rules::job;

const EXAMPLE: [u8; 14] = *b"SLT\x00\x01\x01\x03\x01\x01\x01\x00\x01\x01\x00";

/// The same record in a file of version 2, whose count has two bytes.
const EXAMPLE_2: [u8; 15] = *b"SLT\x00\x02\x00\x01\x03\x01\x01\x01\x00\x01\x01\x00";

/// A byte from 0 to 9 as that digit, any other as its letter.
pub fn letters(file: &[u8]) -> String {
    file.iter().map(|byte| if *byte < 10 { char::from(b'0' + byte) } else { char::from(*byte) }).collect()
}

fn printed(name: &str, file: &[u8]) -> Case {
    Line::new(name, "job").key("file", letters(file)).printed(&job::printed(file))
}

/// The header of a file of version 1 with one record, and zeros behind it up to this length.
fn zeros(name: &str, length: usize) -> Case {
    let (header, behind) = (&EXAMPLE[..6], length - 6);
    let text = format!("{},0*{behind}", letters(header));
    Line::new(name, "job").key("file", text).printed(&job::printed(&[header, &repeated(&[0], behind)].concat()))
}

fn changed(places: &[(usize, u8)]) -> Vec<u8> {
    let mut file = EXAMPLE.to_vec();
    for &(place, byte) in places {
        file[place] = byte;
    }
    file
}

pub fn all() -> Vec<Case> {
    vec![
        printed("other", &EXAMPLE),
        printed("other", &EXAMPLE_2),
        // one byte too many is told before the record's kind, which is 0; a file of the greatest length is not over-long
        zeros("refusal 20", 65536),
        zeros("refusal 23", 65535),
        // the mark in small letters, and the last letter of it alone with a wrong version
        printed("refusal 21", &changed(&[(0, b's'), (1, b'l'), (2, b't')])),
        printed("refusal 21", &changed(&[(2, b'X'), (4, 3)])),
        // the low byte of the version first, and another version
        printed("refusal 22", &changed(&[(3, 1), (4, 0)])),
        printed("refusal 22", &changed(&[(4, 3)])),
        // kinds are 1, 2 and 3; a bad kind comes before a bad format
        printed("refusal 23", &changed(&[(6, 0)])),
        printed("refusal 23", &changed(&[(6, 4), (7, b'Z')])),
        // a byte is missing, and so is TFCI's rule broken
        printed("refusal 24", &changed(&[(11, 2)])[..13]),
        // nothing but the header; no count; half a mark
        printed("refusal 24", &EXAMPLE[..6]),
        printed("refusal 24", &EXAMPLE[..5]),
        printed("refusal 24", &EXAMPLE[..2]),
        // of version 2 the second byte of the count, and the record's last
        printed("refusal 24", &EXAMPLE_2[..6]),
        printed("refusal 24", &EXAMPLE_2[..14]),
        // a byte stands behind the record
        printed("refusal 25", &[EXAMPLE.as_slice(), &[0]].concat()),
        printed("refusal 25", &[EXAMPLE_2.as_slice(), &[0]].concat()),
        // the record is not the last: a second one that is not counted
        printed("refusal 25", &[EXAMPLE.as_slice(), &EXAMPLE[6..]].concat()),
    ]
}
