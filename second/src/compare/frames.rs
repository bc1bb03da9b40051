//! Frames of fifteen slots, of whatever channel: one map and one read compared, and the inputs that all frames are tried with.
//!
//! What a frame carries is three runs: two of fields (data and TFCI on the downlink, TFCI and FBI on the uplink), then the
//! commands.

use super::dpch::{DAMAGE, change_length, other_length};
use super::lengths;
use crate::answer::{Answer, Refusal};
use crate::fields::put_somewhere;
use crate::judge::Judge;
use crate::lent::Lent;
use crate::random::Random;

pub const SLOTS: usize = 15;

/// The commands among the three runs.
pub const COMMANDS: usize = 2;

/// The numbers that say which frame it is, and what is made of it by the rules and by the library.
pub trait Frame: Copy {
    /// The two calls.
    const CALLS: [&'static str; 2];

    /// The names of the two runs of fields.
    const FIELDS: [&'static str; 2];

    fn in_words(self) -> String;

    /// How long the three runs are, and the frame.
    fn lengths(self) -> ([usize; 3], usize);

    /// Fields that the rules take, drawn at random.
    fn fields(self, random: &mut Random) -> [Vec<u8>; 3];

    fn rule_map(self, runs: [&[u8]; 3], n_out: usize) -> Result<Vec<u8>, Refusal>;
    fn rule_read(self, frame: &[u8], rooms: [usize; 3]) -> Result<[Vec<u8>; 3], Refusal>;
    fn library_map(self, runs: [&mut Lent<u8>; 3], out: &mut Lent<u8>) -> Answer;
    fn library_read(self, frame: &mut Lent<u8>, runs: [&mut Lent<u8>; 3]) -> Answer;
}

// One call each, compared.

/// What one map is given.
#[derive(Clone)]
pub struct Map<F> {
    pub of: F,
    pub runs: [Option<Vec<u8>>; 3],
    pub room: Option<usize>,
}

impl<F: Frame> Map<F> {
    /// Compares the call and answers the frame, if the rules give one.
    pub fn compare(&self, judge: &mut Judge) -> Option<Vec<u8>> {
        let expected = self.expected();
        let [first, second, commands] = self.runs.each_ref().map(Option::as_deref);
        let mut first = judge.given(F::FIELDS[0], first);
        let mut second = judge.given(F::FIELDS[1], second);
        let mut commands = judge.given("commands", commands);
        let mut out = judge.room("out", self.room, expected.as_deref().ok());
        let got = self.of.library_map([&mut first, &mut second, &mut commands], &mut out);
        let numbers = || self.of.in_words();
        judge.compare(F::CALLS[0], numbers, Answer::of(&expected), got, [&first, &second, &out, &commands]);
        expected.ok()
    }

    /// What the rules say of the call.
    pub fn expected(&self) -> Result<Vec<u8>, Refusal> {
        self.of.rule_map(self.runs.each_ref().map(|run| run.as_deref().unwrap_or(&[])), self.room.unwrap_or(0))
    }

    /// One of the three runs, which must be there.
    pub fn run(&mut self, which: usize) -> &mut Vec<u8> {
        self.runs[which].as_mut().unwrap()
    }
}

/// What one read is given.
#[derive(Clone)]
pub struct Read<F> {
    pub of: F,
    pub frame: Option<Vec<u8>>,
    pub rooms: [Option<usize>; 3],
}

impl<F: Frame> Read<F> {
    /// Compares the call and answers the three runs, if the rules give them.
    pub fn compare(&self, judge: &mut Judge) -> Option<[Vec<u8>; 3]> {
        let frame = self.frame.as_deref();
        let expected = self.of.rule_read(frame.unwrap_or(&[]), self.rooms.map(|room| room.unwrap_or(0)));
        let [first, second, commands] = [0, 1, 2].map(|run| expected.as_ref().ok().map(|all| &all[run][..]));
        let mut lent = judge.given("frame", frame);
        let mut first = judge.room(F::FIELDS[0], self.rooms[0], first);
        let mut second = judge.room(F::FIELDS[1], self.rooms[1], second);
        let mut commands = judge.room("commands", self.rooms[2], commands);
        let got = self.of.library_read(&mut lent, [&mut first, &mut second, &mut commands]);
        let numbers = || self.of.in_words();
        judge.compare(F::CALLS[1], numbers, Answer::of(&expected), got, [&lent, &first, &second, &commands]);
        expected.ok()
    }

    /// The digits of one slot of the frame, which must be there.
    pub fn slot(&mut self, slot: usize) -> &mut [u8] {
        let frame = self.frame.as_mut().unwrap();
        let length = frame.len() / SLOTS;
        &mut frame[slot * length..(slot + 1) * length]
    }
}

// The inputs.

/// A call that is done.
pub fn good_map<F: Frame>(random: &mut Random, of: F) -> Map<F> {
    Map { of, runs: of.fields(random).map(Some), room: Some(of.lengths().1) }
}

/// The read of a run that has the right length.
pub fn read_of<F: Frame>(of: F, frame: Vec<u8>) -> Read<F> {
    Read { of, frame: Some(frame), rooms: of.lengths().0.map(Some) }
}

/// A read that is done: what the rules give for a good map.
pub fn good_read<F: Frame>(random: &mut Random, of: F) -> Read<F> {
    read_of(of, good_map(random, of).expected().expect("a good call"))
}

/// Maps a good call and reads the frame: the three runs come back. Where one is empty, each call may get NULL for it.
pub fn there_and_back<F: Frame>(judge: &mut Judge, mut call: Map<F>, null: [bool; 2]) {
    let sent = call.runs.each_ref().map(|run| run.clone().unwrap());
    call.runs = call.runs.map(|run| run.filter(|run| !run.is_empty() || !null[0]));
    let mut reading = read_of(call.of, call.compare(judge).expect("a good call"));
    reading.rooms = reading.rooms.map(|room| room.filter(|length| *length > 0 || !null[1]));
    let back = reading.compare(judge).expect("a mapped frame");
    assert_eq!(back, sent, "the rules themselves do not round trip");
}

/// Each run of a wrong length, and each two of them, with good and bad digits in them.
pub fn wrong_lengths<F: Frame>(judge: &mut Judge, of: F) {
    let ([first, second, commands], frame) = of.lengths();
    for (round, n) in runs_of_other_lengths([first, second, frame, commands]).into_iter().enumerate() {
        let run = |length: Option<usize>| length.map(|elements| vec![[0, 1, 2, 255][round % 4]; elements]);
        Map { of, runs: [run(n[0]), run(n[1]), run(n[3])], room: n[2] }.compare(judge);
    }
    for (round, n) in runs_of_other_lengths([frame, first, second, commands]).into_iter().enumerate() {
        let frame = n[0].map(|elements| vec![[0, 1, 2, 255][round % 4]; elements]);
        Read { of, frame, rooms: [n[1], n[2], n[3]] }.compare(judge);
    }
}

/// The lengths of four runs, of which one is tried at other lengths, and one more may be off by one.
fn runs_of_other_lengths(right: [usize; 4]) -> Vec<[Option<usize>; 4]> {
    let mut all = Vec::new();
    for first in 0..4 {
        for length in lengths(right[first]) {
            let mut tried = right.map(Some);
            tried[first] = length;
            all.push(tried);
            for second in (0..4).filter(|second| *second != first) {
                let mut both = tried;
                both[second] = Some(right[second] + 1);
                all.push(both);
            }
        }
    }
    all
}

// Faults, of frames that have a format and no other number.

/// How the fields and the slots of such a frame are spoilt.
pub trait Faulty: Frame {
    /// The formats of the channel.
    const FORMATS: usize;

    /// How many faults the fields of a slot can have, and how many its digits, in the order of the checks. Fault 0 of a slot
    /// is a digit that is none.
    const FAULTS: [usize; 2];

    /// How often each set of faults is tried.
    const ROUNDS: usize;

    /// Numbers of formats that there are not.
    const BAD: &'static [usize];

    /// The frame of a format, good or bad.
    fn of(number: usize) -> Self;
    fn number(self) -> usize;

    fn spoil_fields(call: &mut Map<Self>, slot: usize, fault: usize, random: &mut Random);
    fn spoil_slot(self, digits: &mut [u8], fault: usize, random: &mut Random);
}

/// Each pair of slots, the lower first.
fn pairs_of_slots() -> impl Iterator<Item = (usize, usize)> {
    (0..SLOTS).flat_map(|low| (low..SLOTS).map(move |high| (low, high)))
}

fn seeded<F: Faulty>(of: F, seed: u64) -> Random {
    Random::new(seed + of.number() as u64)
}

/// A fault in each of two slots, or two in one: the lower slot wins whatever the numbers, then the earlier check.
pub fn faults_in_two_slots<F: Faulty>(judge: &mut Judge, of: F) {
    let [mut mapping, mut reading] = [40, 100].map(|seed| seeded(of, seed));
    for (low, high) in pairs_of_slots() {
        let faults = |count: usize| (0..count * count).map(move |both| [(high, both / count), (low, both % count)]);
        for both in faults(F::FAULTS[0]) {
            let mut call = good_map(&mut mapping, of);
            both.into_iter().for_each(|(slot, fault)| F::spoil_fields(&mut call, slot, fault, &mut mapping));
            call.compare(judge);
        }
        for mut both in faults(F::FAULTS[1]) {
            let mut call = good_read(&mut reading, of);
            // A digit that is none goes in last, so that nothing is worked out from it.
            both.sort_by_key(|(_, fault)| *fault == 0);
            both.into_iter().for_each(|(slot, fault)| of.spoil_slot(call.slot(slot), fault, &mut reading));
            call.compare(judge);
        }
    }
}

/// Every set of these faults of a map at once: format, each length, and each fault of some slot's fields.
pub fn map_fault_sets<F: Faulty>(judge: &mut Judge, of: F) {
    let mut random = seeded(of, 60);
    let faults = F::FAULTS[0];
    for set in (0..1 << (faults + 5)).flat_map(|set| std::iter::repeat_n(set, F::ROUNDS)) {
        let mut call = good_map(&mut random, of);
        for fault in (0..faults + 5).filter(|fault| set >> fault & 1 == 1) {
            match fault.checked_sub(faults) {
                None => {
                    let slot = random.below(SLOTS);
                    F::spoil_fields(&mut call, slot, fault, &mut random);
                }
                Some(0) => call.of = F::of(random.pick(F::BAD)),
                Some(1) => call.room = other_length(call.room, &mut random),
                Some(run) => change_length(&mut call.runs[run - 2], &mut random),
            }
        }
        call.compare(judge);
    }
}

/// Every set of these faults of a read at once: format, each length, and each fault of some slot.
pub fn read_fault_sets<F: Faulty>(judge: &mut Judge, of: F) {
    let mut random = seeded(of, 120);
    let faults = F::FAULTS[1];
    for set in (0..1 << (faults + 5)).flat_map(|set| std::iter::repeat_n(set, F::ROUNDS)) {
        let mut call = good_read(&mut random, of);
        for fault in (0..faults).rev().filter(|fault| set >> fault & 1 == 1) {
            let slot = random.below(SLOTS);
            of.spoil_slot(call.slot(slot), fault, &mut random);
        }
        for fault in (0..5).filter(|fault| set >> (faults + fault) & 1 == 1) {
            match fault {
                0 => call.of = F::of(random.pick(F::BAD)),
                1 => change_length(&mut call.frame, &mut random),
                run => call.rooms[run - 2] = other_length(call.rooms[run - 2], &mut random),
            }
        }
        call.compare(judge);
    }
}

/// A few digits damaged anywhere, so many times; then digits below each limit with no plan, so many times.
pub fn no_plan<F: Faulty>(judge: &mut Judge, of: F, damaged: usize, limits: &[usize], drawn: usize) {
    let mut random = seeded(of, 140);
    for round in 0..damaged {
        let mut call = good_read(&mut random, of);
        for _ in 0..1 + round % 4 {
            put_somewhere(call.frame.as_mut().unwrap(), &DAMAGE, &mut random);
        }
        call.compare(judge);
    }
    for limit in limits {
        for _ in 0..drawn {
            read_of(of, random.digits(of.lengths().1, *limit)).compare(judge);
        }
    }
}

/// A good frame whose slots stand one further round, and one whose slots are all one slot: their pilots give it away.
pub fn slots_moved<F: Faulty>(judge: &mut Judge, of: F) {
    let mut random = seeded(of, 160);
    for by in 1..SLOTS {
        let mut call = good_read(&mut random, of);
        call.frame.as_mut().unwrap().rotate_left(by * of.lengths().1 / SLOTS);
        call.compare(judge);
        let first = call.slot(0).to_vec();
        read_of(of, first.repeat(SLOTS)).compare(judge);
    }
}

/// A bad format wins over every other fault, and is refused with none beside it.
pub fn bad_formats<F: Faulty>(judge: &mut Judge) {
    let mut random = Random::new(180);
    for bad in F::BAD.iter().map(|number| F::of(*number)) {
        for good in (0..F::FORMATS).map(F::of) {
            Map { of: bad, ..good_map(&mut random, good) }.compare(judge);
            Read { of: bad, ..good_read(&mut random, good) }.compare(judge);
        }
        Map { of: bad, runs: [None, None, None], room: None }.compare(judge);
        Read { of: bad, frame: None, rooms: [None; 3] }.compare(judge);
    }
}
