//! A case of each call of compressed DPCH frames.

use crate::case::Case;
use crate::channel;
use crate::dpch::good_slots;
use crate::draw::Draw;
use second::rules::compressed::{self, Frame, MOST};
use second::rules::dpch::Format;
use second::rules::frame::SLOTS;

/// Any row of the table and any gap that stands, and the row; the long ones less often, since they cost the most.
fn some_frame(draw: &mut Draw) -> (Frame, Format) {
    let highest = draw.random.pick(&[11, 13, 16]);
    loop {
        let (format, kind) = (draw.random.below(highest + 1), 1 + draw.random.below(2));
        let missing = SLOTS - MOST + draw.random.below(MOST - compressed::FEWEST + 1);
        let first = draw.random.below(SLOTS - missing + 1);
        if let Ok(row) = compressed::format(format, kind) {
            return (Frame { format, kind, first, missing }, row);
        }
    }
}

/// The same numbers, some of them spoilt.
fn spoilt(draw: &mut Draw, good: Frame) -> Frame {
    let (format, kind) = (draw.number(good.format), draw.number(good.kind));
    Frame { format, kind, first: draw.number(good.first), missing: draw.number(good.missing) }
}

pub fn map(draw: &mut Draw) -> Case {
    let (good, row) = some_frame(draw);
    let of = spoilt(draw, good);
    let fields = good_slots(draw, &row, SLOTS - good.missing);
    channel::map(draw, &numbers(of), fields, SLOTS * row.slot, |[data, tfci, commands], n_out| {
        compressed::map(of, data, tfci, n_out, commands)
    })
}

fn numbers(of: Frame) -> [usize; 4] {
    [of.format, of.kind, of.first, of.missing]
}

pub fn read(draw: &mut Draw) -> Case {
    let (good, row) = some_frame(draw);
    let of = spoilt(draw, good);
    let [data, tfci, commands] = good_slots(draw, &row, SLOTS - good.missing);
    let sent = compressed::map(good, &data, &tfci, SLOTS * row.slot, &commands).expect("good fields");
    // Every second damage is in the gap or in the control fields.
    let sent = draw.digits_at(sent, |random| {
        let slot = match random.below(3) {
            0 => good.first + random.below(good.missing),
            _ => random.below(SLOTS),
        };
        let control = row.tpc + row.tfci + row.pilot;
        let within = match random.below(2) {
            0 => random.below(row.slot),
            _ => (row.pilot_at() + random.below(control)) % row.slot,
        };
        slot * row.slot + within
    });
    let count = SLOTS - good.missing;
    let rooms = [count * row.data(), count * row.tfci, count];
    channel::read(draw, &numbers(of), [sent], rooms, |[run], [n_data, n_tfci, n_commands]| {
        Ok((0, compressed::read(of, run, n_data, n_tfci, n_commands)?.into()))
    })
}
