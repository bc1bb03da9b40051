//! A case of each call of DPCH.

use crate::case::Case;
use crate::channel;
use crate::draw::Draw;
use second::fields::{lengths_of, random_tfci};
use second::random::Random;
use second::rules::antenna::{self, Given};
use second::rules::dpch::{self, Format};
use second::rules::frame::{self, SLOTS};

/// Any format; the long ones less often, since they cost the most.
fn some_format(draw: &mut Draw) -> usize {
    let highest = draw.random.pick(&[11, 14, 16]);
    draw.random.below(highest + 1)
}

// Slots

pub fn slot_map(draw: &mut Draw) -> Case {
    let good = some_format(draw);
    let lengths = lengths_of(good);
    let (slot, tpc) = (draw.random.below(15), draw.random.below(2));
    let (number, slot, tpc) = (draw.number(good), draw.number(slot), draw.number(tpc));
    let data = draw.random.digits(lengths.data(), 3);
    let tfci = random_tfci(&mut draw.random, &lengths);
    let rule = |[data, tfci]: [&[u8]; 2], n_out| dpch::map(number, slot, tpc, data, tfci, n_out);
    channel::map(draw, &[number, slot, tpc], [data, tfci], lengths.slot, rule)
}

pub fn slot_read(draw: &mut Draw) -> Case {
    let good = some_format(draw);
    let lengths = lengths_of(good);
    let slot = draw.random.below(15);
    let sent = good_slot(draw, &lengths, slot);
    let sent = draw.digits_at(sent, |random| some_index(random, &lengths));
    let (number, slot) = (draw.number(good), draw.number(slot));
    channel::read(draw, &[number, slot], [sent], [lengths.data(), lengths.tfci], |[run], [n_data, n_tfci]| {
        dpch::read(number, slot, run, n_data, n_tfci).map(|fields| (fields.tpc, [fields.data, fields.tfci]))
    })
}

/// What a slot of random fields holds.
fn good_slot(draw: &mut Draw, lengths: &Format, slot: usize) -> Vec<u8> {
    let (data, tfci) = (draw.random.digits(lengths.data(), 3), random_tfci(&mut draw.random, lengths));
    dpch::mapped(lengths, slot, draw.random.below(2) as u8, &data, &tfci)
}

/// An index in a slot. Data is the longest field by far, so every second one is in the others.
fn some_index(random: &mut Random, lengths: &Format) -> usize {
    let control = random.below(lengths.tpc + lengths.tfci + lengths.pilot);
    match random.below(2) {
        0 => random.below(lengths.slot),
        _ if control < lengths.pilot => lengths.pilot_at() + control,
        _ => lengths.tpc_at() + control - lengths.pilot,
    }
}

// Slots on two antennas

pub fn slot_map_antenna(draw: &mut Draw) -> Case {
    let good = some_format(draw);
    let lengths = lengths_of(good);
    let (slot, antenna, tpc) = (draw.random.below(15), draw.random.below(2), draw.random.below(2));
    let numbers = [good, slot, antenna, tpc].map(|number| draw.number(number));
    let data = draw.random.digits(lengths.data(), 3);
    let tfci = random_tfci(&mut draw.random, &lengths);
    let rule = |[data, tfci]: [&[u8]; 2], n_out| antenna::map(&Given { numbers, data, tfci, n_out });
    channel::map(draw, &numbers, [data, tfci], lengths.slot, rule)
}

pub fn slot_read_antennas(draw: &mut Draw) -> Case {
    let good = some_format(draw);
    let lengths = lengths_of(good);
    let slot = draw.random.below(15);
    let first = good_slot(draw, &lengths, slot);
    let second = antenna::second(good, slot, &first);
    let first = draw.digits_at(first, |random| some_index(random, &lengths));
    let second = draw.digits(second);
    let (number, slot) = (draw.number(good), draw.number(slot));
    let rooms = [lengths.data(), lengths.tfci];
    channel::read(draw, &[number, slot], [first, second], rooms, |[first, second], [n_data, n_tfci]| {
        let fields = antenna::read(number, slot, first, second, n_data, n_tfci)?;
        Ok((fields.tpc, [fields.data, fields.tfci]))
    })
}

// Frames

pub fn frame_map(draw: &mut Draw) -> Case {
    let good = some_format(draw);
    let lengths = lengths_of(good);
    let number = draw.number(good);
    let fields = good_slots(draw, &lengths, SLOTS);
    channel::map(draw, &[number], fields, SLOTS * lengths.slot, |[data, tfci, commands], n_out| {
        frame::map(number, data, tfci, n_out, commands)
    })
}

/// Random good fields of so many slots: data, TFCI, commands.
pub fn good_slots(draw: &mut Draw, lengths: &Format, slots: usize) -> [Vec<u8>; 3] {
    let data = draw.random.digits(slots * lengths.data(), 3);
    let tfci = (0..slots).flat_map(|_| random_tfci(&mut draw.random, lengths)).collect();
    [data, tfci, draw.random.digits(slots, 2)]
}

pub fn frame_read(draw: &mut Draw) -> Case {
    let good = some_format(draw);
    let lengths = lengths_of(good);
    let number = draw.number(good);
    let sent: Vec<u8> = (0..SLOTS).flat_map(|slot| good_slot(draw, &lengths, slot)).collect();
    let sent = draw.digits_at(sent, |random| random.below(SLOTS) * lengths.slot + some_index(random, &lengths));
    let rooms = [SLOTS * lengths.data(), SLOTS * lengths.tfci, SLOTS];
    channel::read(draw, &[number], [sent], rooms, |[run], [n_data, n_tfci, n_commands]| {
        Ok((0, frame::read(number, run, n_data, n_tfci, n_commands)?.into()))
    })
}
