//! The library's calls. All `unsafe` of this program stands here.
//!
//! A lent buffer owns the elements behind its pointer and gives its true length, no two buffers overlap, and this
//! program has one thread: that is all a caller owes.
//!
//! The archive is linked here, once for all calls: so the comparison of job files does without it.

use crate::answer::Answer;
use crate::lent::Lent;
use crate::rules::compressed::Frame;

/// Calls that take numbers, then runs, and answer a packed answer. Each is declared as `include/slt.h` has it, where a run is a
/// pointer and its length, and gets a safe function that takes the numbers and lends the runs.
macro_rules! calls {
    ($($name:ident = $call:ident($($number:ident: $kind:ty),*; $($run:ident: $way:tt $element:ty),*);)*) => {
        unsafe extern "C" {
            $(fn $call($($number: $kind,)* $($run: *$way $element, _: usize),*) -> u64;)*
        }

        $(pub fn $name($($number: $kind,)* $($run: &mut Lent<$element>),*) -> Answer {
            Answer::unpack(unsafe { $call($($number,)* $($run.pointer(), $run.len()),*) })
        })*
    };
}

#[link(name = "slt", kind = "static")]
unsafe extern "C" {}

// PICH
calls! {
    pich_q = slt_pich_q(np: usize, pi: usize, sfn: usize;);
    pich_map = slt_pich_map(np: usize; indicators: const u8, frame: mut u8);
    pich_read = slt_pich_read(np: usize; frame: const u8, indicators: mut u8);
}

// DPCH slots and frames
calls! {
    slot_map = slt_slot_map(format: usize, slot: usize, tpc: usize; data: const u8, tfci: const u8, out: mut u8);
    slot_read = slt_slot_read(format: usize, slot: usize; run: const u8, data: mut u8, tfci: mut u8);
    frame_map = slt_frame_map(format: usize; data: const u8, tfci: const u8, out: mut u8, commands: const u8);
    frame_read = slt_frame_read(format: usize; frame: const u8, data: mut u8, tfci: mut u8, commands: mut u8);
}

// DPCH slot on two antennas
calls! {
    slot_map_antenna = slt_slot_map_antenna(
        format: usize, slot: usize, antenna: usize, tpc: usize; data: const u8, tfci: const u8, out: mut u8
    );
    slot_read_antennas = slt_slot_read_antennas(
        format: usize, slot: usize; first: const u8, second: const u8, data: mut u8, tfci: mut u8
    );
}

// Uplink
calls! {
    dpdch_map = slt_dpdch_map(format: usize; data: const u8, out: mut u8);
    dpdch_read = slt_dpdch_read(format: usize; run: const u8, data: mut u8);
    dpdch_frame_map = slt_dpdch_frame_map(format: usize; data: const u8, out: mut u8);
    dpdch_frame_read = slt_dpdch_frame_read(format: usize; frame: const u8, data: mut u8);
    dpcch_map = slt_dpcch_map(format: usize, slot: usize, tpc: usize; tfci: const u8, fbi: const u8, out: mut u8);
    dpcch_read = slt_dpcch_read(format: usize, slot: usize; run: const u8, tfci: mut u8, fbi: mut u8);
    dpcch_frame_map = slt_dpcch_frame_map(format: usize; tfci: const u8, fbi: const u8, out: mut u8, commands: const u8);
    dpcch_frame_read = slt_dpcch_frame_read(format: usize; frame: const u8, tfci: mut u8, fbi: mut u8, commands: mut u8);
}

/// A call of the DPDCH: a format, the run that is given, and the one that is to be written.
pub type Carry = fn(usize, &mut Lent<u8>, &mut Lent<u8>) -> Answer;

// STTD, P-CCPCH and HS-PDSCH
calls! {
    sttd_digits = slt_sttd_digits(; input: const u8, out: mut u8);
    sttd_values = slt_sttd_values(; input: const i32, out: mut i32);
    pccpch_map = slt_pccpch_map(; data: const u8, antenna1: mut u8, antenna2: mut u8);
    pccpch_read = slt_pccpch_read(; antenna1: const u8, antenna2: const u8, data: mut u8);
    hspdsch_map = slt_hspdsch_map(format: usize; data: const u8, antenna1: mut u8, antenna2: mut u8);
    hspdsch_read = slt_hspdsch_read(format: usize; antenna1: const u8, antenna2: const u8, data: mut u8);
}

// Lengths of runs
calls! {
    slot_lengths = slt_slot_lengths(format: usize, run: usize;);
    frame_lengths = slt_frame_lengths(format: usize, run: usize;);
    dpdch_lengths = slt_dpdch_lengths(format: usize, run: usize;);
    dpdch_frame_lengths = slt_dpdch_frame_lengths(format: usize, run: usize;);
    dpcch_lengths = slt_dpcch_lengths(format: usize, run: usize;);
    dpcch_frame_lengths = slt_dpcch_frame_lengths(format: usize, run: usize;);
    hspdsch_lengths = slt_hspdsch_lengths(format: usize, run: usize;);
}

// AICH, its combiner, and the distances of the desk
calls! {
    aich_map = slt_aich_map(; indicators: const i32, values: mut i32);
    aich_read = slt_aich_read(; values: const i32, indicators: mut i32);
    aich_map_available = slt_aich_map_available(available: u16; indicators: const i32, values: mut i32);
    aich_read_available = slt_aich_read_available(available: u16; values: const i32, indicators: mut i32);
    aich_combine = slt_aich_combine(
        h1_re: i64, h1_im: i64, h2_re: i64, h2_im: i64; received: const i32, results: mut i64
    );
    desk_to_aich = slt_desk_to_aich(timing: usize;);
    desk_to_message = slt_desk_to_message(timing: usize;);
}

// The calls of another form: their numbers come as one struct, stand behind a pointer, or come behind a run.

// Compressed DPCH frame

unsafe extern "C" {
    fn slt_compressed_map(
        format: usize, kind: usize, first: usize, missing: usize, data: *const u8, n_data: usize, tfci: *const u8,
        n_tfci: usize, out: *mut u8, n_out: usize, commands: *const u8, n_commands: usize,
    ) -> u64;
    fn slt_compressed_read(
        format: usize, kind: usize, first: usize, missing: usize, frame: *const u8, n_frame: usize, data: *mut u8,
        n_data: usize, tfci: *mut u8, n_tfci: usize, commands: *mut u8, n_commands: usize,
    ) -> u64;
    fn slt_compressed_lengths(format: usize, kind: usize, first: usize, missing: usize, run: usize) -> u64;
}

pub fn compressed_map(
    of: Frame, data: &mut Lent<u8>, tfci: &mut Lent<u8>, out: &mut Lent<u8>, commands: &mut Lent<u8>,
) -> Answer {
    let (n_data, n_tfci, n_out, n_commands) = (data.len(), tfci.len(), out.len(), commands.len());
    Answer::unpack(unsafe {
        slt_compressed_map(
            of.format, of.kind, of.first, of.missing, data.pointer(), n_data, tfci.pointer(), n_tfci, out.pointer(),
            n_out, commands.pointer(), n_commands,
        )
    })
}

pub fn compressed_read(
    of: Frame, frame: &mut Lent<u8>, data: &mut Lent<u8>, tfci: &mut Lent<u8>, commands: &mut Lent<u8>,
) -> Answer {
    let (n_frame, n_data, n_tfci, n_commands) = (frame.len(), data.len(), tfci.len(), commands.len());
    Answer::unpack(unsafe {
        slt_compressed_read(
            of.format, of.kind, of.first, of.missing, frame.pointer(), n_frame, data.pointer(), n_data,
            tfci.pointer(), n_tfci, commands.pointer(), n_commands,
        )
    })
}

pub fn compressed_lengths(of: Frame, run: usize) -> Answer {
    Answer::unpack(unsafe { slt_compressed_lengths(of.format, of.kind, of.first, of.missing, run) })
}

// Wake simulation

/// `slt_tally` of `include/slt.h`.
#[repr(C)]
#[derive(Clone, Copy)]
struct SltTally {
    read: u32,
    woke: u32,
    next_sfn: u32,
}

unsafe extern "C" {
    fn slt_wake_run(
        np: usize, pi: usize, frames: *const u8, n: usize, read: *mut u32, woke: *mut u32, next_sfn: *mut u32,
    ) -> u64;
    fn slt_wake_step(tally: *mut SltTally, np: usize, pi: usize, frame: *const u8, n: usize) -> u64;
}

/// Each of the three numbers is a run of one.
pub fn wake_run(np: usize, pi: usize, frames: &mut Lent<u8>, [read, woke, next_sfn]: [&mut Lent<u32>; 3]) -> Answer {
    assert!(read.len() == 1 && woke.len() == 1 && next_sfn.len() == 1, "a tally is three numbers");
    let n = frames.len();
    Answer::unpack(unsafe {
        slt_wake_run(np, pi, frames.pointer(), n, read.pointer(), woke.pointer(), next_sfn.pointer())
    })
}

/// The tally is a run of three numbers, which is what the struct is in memory.
pub fn wake_step(tally: &mut Lent<u32>, np: usize, pi: usize, frame: &mut Lent<u8>) -> Answer {
    assert_eq!((tally.len(), size_of::<SltTally>()), (3, 12), "a tally is three numbers");
    let n = frame.len();
    Answer::unpack(unsafe { slt_wake_step(tally.pointer().cast(), np, pi, frame.pointer(), n) })
}

// Random access desk

unsafe extern "C" {
    fn slt_desk_serve(last: *mut usize, heard: u16, available: u16, n: usize, values: *mut i32, n_values: usize) -> u64;
}

/// The desk is a run of one number.
pub fn desk_serve(last: &mut Lent<usize>, heard: u16, available: u16, n: usize, values: &mut Lent<i32>) -> Answer {
    assert_eq!(last.len(), 1, "a desk is one number");
    let n_values = values.len();
    Answer::unpack(unsafe { slt_desk_serve(last.pointer(), heard, available, n, values.pointer(), n_values) })
}

// Samples

/// A sample as the library hands it back, by value.
#[repr(C)]
struct RawSample {
    answer: u64,
    inphase: f32,
    quadrature: f32,
}

unsafe extern "C" {
    fn slt_sample_off(i: i64, q: i64, antenna: usize) -> RawSample;
    fn slt_sample_shared(i: i64, q: i64, level: f32, antenna: usize) -> RawSample;
    fn slt_sample_each(i: i64, q: i64, first: f32, second: f32, antenna: usize) -> RawSample;
}

/// The answer, and the bit patterns of the in-phase and the quadrature part.
pub type SampleBits = (Answer, [u32; 2]);

fn in_bits(raw: RawSample) -> SampleBits {
    (Answer::unpack(raw.answer), [raw.inphase.to_bits(), raw.quadrature.to_bits()])
}

pub fn sample_off(i: i64, q: i64, antenna: usize) -> SampleBits {
    in_bits(unsafe { slt_sample_off(i, q, antenna) })
}

pub fn sample_shared(i: i64, q: i64, level: f32, antenna: usize) -> SampleBits {
    in_bits(unsafe { slt_sample_shared(i, q, level, antenna) })
}

pub fn sample_each(i: i64, q: i64, first: f32, second: f32, antenna: usize) -> SampleBits {
    in_bits(unsafe { slt_sample_each(i, q, first, second, antenna) })
}

// Bank of slots

unsafe extern "C" {
    fn slt_bank_empty(bank: *mut u8, n_bank: usize) -> u64;
    fn slt_bank_store(bank: *mut u8, n_bank: usize, number: usize, slot: *const u8, n_slot: usize) -> u64;
    fn slt_bank_fetch(bank: *const u8, n_bank: usize, number: usize, out: *mut u8, n_out: usize) -> u64;
    fn slt_bank_drop(bank: *mut u8, n_bank: usize, number: usize) -> u64;
    fn slt_bank_length(bank: *const u8, n_bank: usize, number: usize) -> u64;
    fn slt_bank_room(bank: *const u8, n_bank: usize) -> u64;
}

pub fn bank_empty(bank: &mut Lent<u8>) -> Answer {
    Answer::unpack(unsafe { slt_bank_empty(bank.pointer(), bank.len()) })
}

pub fn bank_store(bank: &mut Lent<u8>, number: usize, slot: &mut Lent<u8>) -> Answer {
    Answer::unpack(unsafe { slt_bank_store(bank.pointer(), bank.len(), number, slot.pointer(), slot.len()) })
}

pub fn bank_fetch(bank: &mut Lent<u8>, number: usize, out: &mut Lent<u8>) -> Answer {
    Answer::unpack(unsafe { slt_bank_fetch(bank.pointer(), bank.len(), number, out.pointer(), out.len()) })
}

pub fn bank_drop(bank: &mut Lent<u8>, number: usize) -> Answer {
    Answer::unpack(unsafe { slt_bank_drop(bank.pointer(), bank.len(), number) })
}

pub fn bank_length(bank: &mut Lent<u8>, number: usize) -> Answer {
    Answer::unpack(unsafe { slt_bank_length(bank.pointer(), bank.len(), number) })
}

pub fn bank_room(bank: &mut Lent<u8>) -> Answer {
    Answer::unpack(unsafe { slt_bank_room(bank.pointer(), bank.len()) })
}
