//! The downlink DPCH frame: slots 0 to 14 of one format, with 15 commands.

use crate::answer::{Refusal, refuse};
use crate::rules::checks;
use crate::rules::dpch::{self, Format};

pub const SLOTS: usize = 15;

/// What a frame carries: the runs of the fifteen slots, one after the other.
#[derive(Clone, Debug, Default, PartialEq, Eq)]
pub struct Fields {
    pub data: Vec<u8>,
    pub tfci: Vec<u8>,
    pub commands: Vec<u8>,
}

impl From<Fields> for [Vec<u8>; 3] {
    fn from(fields: Fields) -> [Vec<u8>; 3] {
        [fields.data, fields.tfci, fields.commands]
    }
}

impl Fields {
    /// One slot more.
    pub fn extend(&mut self, slot: dpch::Fields) {
        self.data.extend(slot.data);
        self.tfci.extend(slot.tfci);
        self.commands.push(slot.tpc);
    }

    /// The fields of one of the slots: its own command and its own stretch of each run. 5 at the slot, TFCI 4 and 6, data 4;
    /// places index the whole runs.
    pub fn of_slot(&self, format: &Format, slot: usize) -> Result<dpch::Fields, Refusal> {
        let (data_from, tfci_from) = (slot * format.data(), slot * format.tfci);
        let data = &self.data[data_from..data_from + format.data()];
        let tfci = &self.tfci[tfci_from..tfci_from + format.tfci];
        let tpc = self.commands[slot];
        if tpc > 1 {
            return refuse(5, slot);
        }
        dpch::check_fields(tfci, tfci_from, data, data_from)?;
        Ok(dpch::Fields { tpc, data: data.to_vec(), tfci: tfci.to_vec() })
    }
}

/// Map: 1, 3 (data, TFCI, output, commands), then slot by slot: 5, TFCI 4 and 6, data 4; places index the whole runs.
pub fn map(number: usize, data: &[u8], tfci: &[u8], n_out: usize, commands: &[u8]) -> Result<Vec<u8>, Refusal> {
    let format = dpch::format(number)?;
    let (data, tfci, commands) = (data.to_vec(), tfci.to_vec(), commands.to_vec());
    let (out, all) = ((n_out, SLOTS * format.slot), (commands.len(), SLOTS));
    checks::lengths(&[(data.len(), SLOTS * format.data()), (tfci.len(), SLOTS * format.tfci), out, all])?;
    let given = Fields { data, tfci, commands };
    let mut frame = Vec::new();
    for slot in 0..SLOTS {
        let fields = given.of_slot(&format, slot)?;
        frame.extend(dpch::mapped(&format, slot, fields.tpc, &fields.data, &fields.tfci));
    }
    Ok(frame)
}

/// Read: 1, 3 (frame, data, TFCI, commands), then slot by slot: 4, 5, 6, 7; places index the frame.
pub fn read(number: usize, frame: &[u8], n_data: usize, n_tfci: usize, n_commands: usize) -> Result<Fields, Refusal> {
    let format = dpch::format(number)?;
    let (run, all) = ((frame.len(), SLOTS * format.slot), (n_commands, SLOTS));
    checks::lengths(&[run, (n_data, SLOTS * format.data()), (n_tfci, SLOTS * format.tfci), all])?;
    let mut fields = Fields::default();
    for slot in 0..SLOTS {
        let from = slot * format.slot;
        let pilot = dpch::pilot(format.pilot, slot);
        fields.extend(dpch::read_slot(&format, &pilot, &frame[from..from + format.slot], from)?);
    }
    Ok(fields)
}
