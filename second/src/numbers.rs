//! Which refusals each call can answer, by the checks that docs/RULES.md gives for it; and whether the comparisons saw
//! just these. A comparison that never reaches one of a call's numbers proves nothing about it.

use std::collections::{BTreeMap, BTreeSet};

/// The numbers that were seen of each call.
pub type Seen = BTreeMap<&'static str, BTreeSet<u16>>;

/// Each call of the library with its refusals. Every call can be done as well, with 0.
pub const REFUSALS: &[(&str, &[u16])] = &[
    ("slt_pich_q", &[8, 11]),
    ("slt_pich_map", &[3, 4, 8]),
    ("slt_pich_read", &[3, 4, 8, 9]),
    ("slt_wake_run", &[3, 4, 8, 9, 11, 32]),
    ("slt_wake_step", &[3, 4, 8, 9, 11, 32]),
    ("slt_slot_map", &[1, 2, 3, 4, 5, 6]),
    ("slt_slot_read", &[1, 2, 3, 4, 5, 6, 7]),
    ("slt_slot_map_antenna", &[1, 2, 3, 4, 5, 6, 11]),
    ("slt_slot_read_antennas", &[1, 2, 3, 4, 5, 6, 7, 9]),
    ("slt_frame_map", &[1, 3, 4, 5, 6]),
    ("slt_frame_read", &[1, 3, 4, 5, 6, 7]),
    ("slt_compressed_map", &[1, 3, 4, 5, 6, 27]),
    ("slt_compressed_read", &[1, 3, 4, 5, 6, 7, 9, 27]),
    ("slt_dpdch_map", &[1, 3, 4]),
    ("slt_dpdch_read", &[1, 3, 4]),
    ("slt_dpdch_frame_map", &[1, 3, 4]),
    ("slt_dpdch_frame_read", &[1, 3, 4]),
    ("slt_dpcch_map", &[1, 2, 3, 4, 5]),
    ("slt_dpcch_read", &[1, 2, 3, 4, 5, 7]),
    ("slt_dpcch_frame_map", &[1, 3, 4, 5]),
    ("slt_dpcch_frame_read", &[1, 3, 4, 5, 7]),
    ("slt_sttd_digits", &[3, 4]),
    ("slt_sttd_values", &[3, 11]),
    ("slt_pccpch_map", &[3, 4]),
    ("slt_pccpch_read", &[3, 4, 9]),
    ("slt_hspdsch_map", &[1, 3, 4]),
    ("slt_hspdsch_read", &[1, 3, 4, 9]),
    ("slt_slot_lengths", &[1, 11]),
    ("slt_frame_lengths", &[1, 11]),
    ("slt_compressed_lengths", &[1, 11, 27]),
    ("slt_dpdch_lengths", &[1, 11]),
    ("slt_dpdch_frame_lengths", &[1, 11]),
    ("slt_dpcch_lengths", &[1, 11]),
    ("slt_dpcch_frame_lengths", &[1, 11]),
    ("slt_hspdsch_lengths", &[1, 11]),
    ("slt_aich_map", &[3, 11]),
    ("slt_aich_read", &[3, 10]),
    ("slt_aich_map_available", &[3, 11, 26]),
    ("slt_aich_read_available", &[3, 10, 26]),
    ("slt_desk_serve", &[3, 11]),
    ("slt_desk_to_aich", &[11]),
    ("slt_desk_to_message", &[11]),
    ("slt_aich_combine", &[3, 11, 12]),
    ("slt_sample_off", &[11]),
    ("slt_sample_shared", &[11]),
    ("slt_sample_each", &[11]),
    ("slt_bank_empty", &[28]),
    ("slt_bank_store", &[3, 4, 11, 28, 30, 31]),
    ("slt_bank_fetch", &[3, 11, 28, 29]),
    ("slt_bank_drop", &[11, 28, 29]),
    ("slt_bank_length", &[11, 28, 29]),
    ("slt_bank_room", &[28]),
];

/// What of the numbers of one call was not seen, and what was seen beside them.
fn difference(call: &str, seen: &BTreeSet<u16>, refusals: &[u16]) -> Option<String> {
    let listed: BTreeSet<u16> = refusals.iter().copied().chain([0]).collect();
    let missing: Vec<&u16> = listed.difference(seen).collect();
    let other: Vec<&u16> = seen.difference(&listed).collect();
    (*seen != listed).then(|| format!("{call}: never seen {missing:?}, seen though not listed {other:?}"))
}

/// A line for each call whose numbers were not all seen, or that gave others; and for each that has no list.
pub fn differences(seen: &Seen) -> Vec<String> {
    let none = BTreeSet::new();
    let mut found: Vec<String> = REFUSALS
        .iter()
        .filter_map(|(call, refusals)| difference(call, seen.get(call).unwrap_or(&none), refusals))
        .collect();
    let listed: BTreeSet<&str> = REFUSALS.iter().map(|(call, _)| *call).collect();
    found.extend(seen.keys().filter(|call| !listed.contains(*call)).map(|call| format!("{call}: it has no list")));
    found
}

#[cfg(test)]
mod tests {
    use super::{REFUSALS, Seen, differences};

    /// What is seen where every call gives just its numbers.
    fn all() -> Seen {
        REFUSALS.iter().map(|(call, refusals)| (*call, refusals.iter().copied().chain([0]).collect())).collect()
    }

    #[test]
    fn nothing_differs_where_all_were_seen() {
        assert!(differences(&all()).is_empty());
    }

    #[test]
    fn a_number_too_few_or_too_many_is_told() {
        let mut few = all();
        few.get_mut("slt_slot_read").expect("a call").remove(&6);
        assert_eq!(differences(&few), ["slt_slot_read: never seen [6], seen though not listed []"]);
        let mut many = all();
        many.get_mut("slt_dpcch_read").expect("a call").insert(6);
        assert_eq!(differences(&many), ["slt_dpcch_read: never seen [], seen though not listed [6]"]);
    }

    #[test]
    fn a_call_that_is_not_compared_or_not_listed_is_told() {
        let mut other = all();
        other.remove("slt_bank_room");
        other.insert("slt_bank_rooms", [0].into());
        assert_eq!(differences(&other), ["slt_bank_room: never seen [0, 28], seen though not listed []", "slt_bank_rooms: it has no list"]);
    }
}
