//! A case of each call of the uplink.

use crate::case::Case;
use crate::channel;
use crate::draw::Draw;
use second::answer::Answer;
use second::rules::dpcch::{self, Fields, Format, SLOT, SLOTS};
use second::rules::dpdch;

// DPDCH: map and read are given the same.

pub fn dpdch_slot(draw: &mut Draw) -> Case {
    carry(draw, 1)
}

pub fn dpdch_frame(draw: &mut Draw) -> Case {
    carry(draw, SLOTS)
}

/// A run of so many slots, of any format; the long ones less often, since they cost the most.
fn carry(draw: &mut Draw, slots: usize) -> Case {
    let highest = draw.random.pick(&[2, 4, 6]);
    let good = draw.random.below(highest + 1);
    let length = slots * dpdch::slot_length(good).expect("formats 0 to 6");
    let number = draw.number(good);
    let given = draw.random.digits(length, 2);
    let given = draw.digits(given);
    let (given, to) = (draw.lend(given), draw.room(length));
    let outcome = dpdch::carry(number, slots, &given.run, to.length);
    Case::of(&[number]).held(&given).room(&to, outcome.as_deref().ok()).answers(Answer::of(&outcome))
}

// DPCCH

/// Any format with its lengths.
fn some_format(draw: &mut Draw) -> (usize, Format) {
    let good = draw.random.below(4);
    (good, dpcch::format(good).expect("formats 0 to 3"))
}

pub fn dpcch_map(draw: &mut Draw) -> Case {
    let (good, lengths) = some_format(draw);
    let (slot, tpc) = (draw.random.below(SLOTS), draw.random.below(2));
    let (number, slot, tpc) = (draw.number(good), draw.number(slot), draw.number(tpc));
    let (tfci, fbi) = (draw.random.digits(lengths.tfci, 2), draw.random.digits(lengths.fbi, 2));
    channel::map(draw, &[number, slot, tpc], [tfci, fbi], SLOT, |[tfci, fbi], n_out| {
        dpcch::map(number, slot, tpc, tfci, fbi, n_out)
    })
}

pub fn dpcch_read(draw: &mut Draw) -> Case {
    let (good, lengths) = some_format(draw);
    let slot = draw.random.below(SLOTS);
    let sent = good_slot(draw, &lengths, slot);
    let sent = draw.digits(sent);
    let (number, slot) = (draw.number(good), draw.number(slot));
    channel::read(draw, &[number, slot], [sent], [lengths.tfci, lengths.fbi], |[run], [n_tfci, n_fbi]| {
        dpcch::read(number, slot, run, n_tfci, n_fbi).map(|fields| (fields.tpc, [fields.tfci, fields.fbi]))
    })
}

/// What a slot of random fields holds.
fn good_slot(draw: &mut Draw, lengths: &Format, slot: usize) -> Vec<u8> {
    let (tfci, fbi) = (draw.random.digits(lengths.tfci, 2), draw.random.digits(lengths.fbi, 2));
    dpcch::mapped(lengths, slot, &Fields { tpc: draw.random.below(2) as u8, tfci, fbi })
}

pub fn dpcch_frame_map(draw: &mut Draw) -> Case {
    let (good, lengths) = some_format(draw);
    let number = draw.number(good);
    let fields = frame_runs(&lengths).map(|length| draw.random.digits(length, 2));
    channel::map(draw, &[number], fields, SLOTS * SLOT, |[tfci, fbi, commands], n_out| {
        dpcch::frame_map(number, tfci, fbi, n_out, commands)
    })
}

/// How long the TFCI, FBI and commands of a frame are.
fn frame_runs(lengths: &Format) -> [usize; 3] {
    [SLOTS * lengths.tfci, SLOTS * lengths.fbi, SLOTS]
}

pub fn dpcch_frame_read(draw: &mut Draw) -> Case {
    let (good, lengths) = some_format(draw);
    let number = draw.number(good);
    let sent: Vec<u8> = (0..SLOTS).flat_map(|slot| good_slot(draw, &lengths, slot)).collect();
    let sent = draw.digits(sent);
    channel::read(draw, &[number], [sent], frame_runs(&lengths), |[run], [n_tfci, n_fbi, n_commands]| {
        Ok((0, dpcch::frame_read(number, run, n_tfci, n_fbi, n_commands)?.into()))
    })
}
