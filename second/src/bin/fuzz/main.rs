//! The cases of a fuzz run: calls of the C boundary on inputs drawn at random, and what the rules say of each. The C
//! program in `fuzz/` makes the calls under the sanitizers and compares; no rule stands there.
//!
//!     fuzz SEED         writes all cases of the seed on standard output
//!     fuzz SEED CASE    writes that case alone, to repeat it
//!
//! The stream is `SLTFUZZ1`, the seed, the first case and how many there are (64 bits each); then the cases, as
//! `case.rs` lays them out; then `SLTDONE1`, so that a stream that was cut is known. Numbers have their low byte first.

#![deny(warnings)]
#![deny(unsafe_code)]

mod bank;
mod calls;
mod case;
mod channel;
mod compressed;
mod dpch;
mod draw;
mod lengths;
mod lent;
mod uplink;
mod wake;

use case::Case;
use draw::Draw;
use std::collections::BTreeSet;
use std::io::{self, BufWriter, Write};
use std::process::ExitCode;

/// The numbers that a call can answer, and what draws a case of it.
type Call = (&'static [u16], fn(&mut Draw) -> Case);

/// In the order of `include/slt.h`, which is that of the table in `fuzz/calls.c`.
const CALLS: [Call; 52] = [
    (&[0, 8, 11], calls::pich_q),
    (&[0, 3, 4, 8], calls::pich_map),
    (&[0, 3, 4, 8, 9], calls::pich_read),
    (&[0, 3, 4, 8, 9, 11, 32], wake::run),
    (&[0, 3, 4, 8, 9, 11, 32], wake::step),
    (&[0, 1, 2, 3, 4, 5, 6], dpch::slot_map),
    (&[0, 1, 2, 3, 4, 5, 6, 7], dpch::slot_read),
    (&[0, 1, 2, 3, 4, 5, 6, 11], dpch::slot_map_antenna),
    (&[0, 1, 2, 3, 4, 5, 6, 7, 9], dpch::slot_read_antennas),
    (&[0, 1, 3, 4, 5, 6], dpch::frame_map),
    (&[0, 1, 3, 4, 5, 6, 7], dpch::frame_read),
    (&[0, 1, 3, 4, 5, 6, 27], compressed::map),
    (&[0, 1, 3, 4, 5, 6, 7, 9, 27], compressed::read),
    (&[0, 1, 3, 4], uplink::dpdch_slot),
    (&[0, 1, 3, 4], uplink::dpdch_slot),
    (&[0, 1, 3, 4], uplink::dpdch_frame),
    (&[0, 1, 3, 4], uplink::dpdch_frame),
    (&[0, 1, 2, 3, 4, 5], uplink::dpcch_map),
    (&[0, 1, 2, 3, 4, 5, 7], uplink::dpcch_read),
    (&[0, 1, 3, 4, 5], uplink::dpcch_frame_map),
    (&[0, 1, 3, 4, 5, 7], uplink::dpcch_frame_read),
    (&[0, 3, 4], calls::sttd_digits),
    (&[0, 3, 11], calls::sttd_values),
    (&[0, 3, 4], calls::pccpch_map),
    (&[0, 3, 4, 9], calls::pccpch_read),
    (&[0, 1, 3, 4], calls::hspdsch_map),
    (&[0, 1, 3, 4, 9], calls::hspdsch_read),
    (&[0, 1, 11], lengths::slot),
    (&[0, 1, 11], lengths::frame),
    (&[0, 1, 11, 27], lengths::compressed),
    (&[0, 1, 11], lengths::dpdch),
    (&[0, 1, 11], lengths::dpdch_frame),
    (&[0, 1, 11], lengths::dpcch),
    (&[0, 1, 11], lengths::dpcch_frame),
    (&[0, 1, 11], lengths::hspdsch),
    (&[0, 3, 11], calls::aich_map),
    (&[0, 3, 10], calls::aich_read),
    (&[0, 3, 11, 26], calls::aich_map_available),
    (&[0, 3, 10, 26], calls::aich_read_available),
    (&[0, 3, 11], calls::desk_serve),
    (&[0, 11], calls::desk_to_aich),
    (&[0, 11], calls::desk_to_message),
    (&[0, 3, 11, 12], calls::aich_combine),
    (&[0, 11], calls::sample_off),
    (&[0, 11], calls::sample_shared),
    (&[0, 11], calls::sample_each),
    (&[0, 28], bank::empty),
    (&[0, 3, 4, 11, 28, 30, 31], bank::store),
    (&[0, 3, 11, 28, 29], bank::fetch),
    (&[0, 11, 28, 29], bank::drop),
    (&[0, 11, 28, 29], bank::length),
    (&[0, 28], bank::room),
];

/// As many of each call.
const CASES: u64 = CALLS.len() as u64 * 40_000;

fn main() -> ExitCode {
    let words: Result<Vec<u64>, _> = std::env::args().skip(1).map(|word| word.parse()).collect();
    let written = match words.as_deref() {
        Ok([seed]) => write_all(*seed),
        Ok([seed, case]) => write_one(*seed, *case),
        _ => Err(io::Error::other("usage: fuzz SEED [CASE]")),
    };
    match written {
        Ok(()) => ExitCode::SUCCESS,
        // The program that reads the cases has ended, and has said why.
        Err(error) if error.kind() == io::ErrorKind::BrokenPipe => ExitCode::FAILURE,
        Err(error) => {
            eprintln!("fuzz: {error}");
            ExitCode::FAILURE
        }
    }
}

/// A run that never expects one of a call's numbers proves nothing about it: such a stream is not brought to its end.
fn write_all(seed: u64) -> io::Result<()> {
    let mut out = BufWriter::with_capacity(1 << 16, io::stdout().lock());
    write_head(&mut out, [seed, 0, CASES])?;
    let mut seen: [BTreeSet<u16>; CALLS.len()] = std::array::from_fn(|_| BTreeSet::new());
    for case in 0..CASES {
        seen[call_of(case)].insert(write_case(&mut out, seed, case)?);
    }
    for (call, (numbers, _)) in CALLS.iter().enumerate() {
        if !seen[call].iter().eq(*numbers) {
            let found = &seen[call];
            return Err(io::Error::other(format!("INCOMPLETE: call {call} was to meet {numbers:?}, but met {found:?}")));
        }
    }
    write_end(&mut out)
}

fn write_one(seed: u64, case: u64) -> io::Result<()> {
    let mut out = io::stdout().lock();
    write_head(&mut out, [seed, case, 1])?;
    write_case(&mut out, seed, case)?;
    write_end(&mut out)
}

fn write_head(out: &mut impl Write, numbers: [u64; 3]) -> io::Result<()> {
    out.write_all(b"SLTFUZZ1")?;
    numbers.iter().try_for_each(|number| out.write_all(&number.to_le_bytes()))
}

fn write_end(out: &mut impl Write) -> io::Result<()> {
    out.write_all(b"SLTDONE1")?;
    out.flush()
}

/// Which call a case makes: each in turn.
fn call_of(case: u64) -> usize {
    (case % CALLS.len() as u64) as usize
}

/// Writes a case behind the number of its call, and answers the number that the rules give for it.
fn write_case(out: &mut impl Write, seed: u64, case: u64) -> io::Result<u16> {
    let call = call_of(case);
    let (_, draw_case) = CALLS[call];
    let drawn = draw_case(&mut Draw::new(seed, case));
    out.write_all(&[call as u8])?;
    out.write_all(drawn.bytes())?;
    Ok(drawn.expected_number())
}
