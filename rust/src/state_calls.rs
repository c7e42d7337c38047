//! Lookups and free frames after a list of calls, compared with the model.

use crate::call_records::{read_call, Call};
use crate::inputs::{Case, Input};
use crate::lent::Lent;
use crate::model::{self, Stored, INPUT_LIMIT};
use crate::network_file::Refusal;
use crate::random::{enough_room, too_little_room, Random};
use crate::route::MAX_HOPS;
use crate::sorts::{add_cycle, add_each, sort, sorts_of_cycles, sorts_of_hops, Sort};
use crate::sorts::{print_lines, too_few_in, total, Line};
use crate::stand_in::{FreeFrames, Lookup};
use crate::tried::Tried;
use crate::widths::{add_number, are_alike, sorts_of_numbers};
use crate::wrong_state;

/// The numbers that a lookup can put, at most.
const MOST_NUMBERS: usize = 2 + 3 * MAX_HOPS;

/// What is known of a number that is looked up. One in the call records that isn't live was released, or its set-up
/// was refused or never served; one near a live number differs from it by one, in one bit, or above the low 16 bits alone.
#[derive(Clone, Copy)]
enum Origin {
    CallRecords,
    NearLive,
    Any,
    Live,
}

/// What a lookup gives.
type Shown = Result<Vec<u16>, Refusal>;

/// The functions under test, and what has been seen of them so far.
pub struct StateCalls {
    lookup: Box<Lookup>,
    free_frames: Box<FreeFrames>,
    random: Random,
    lent: Lent<u16>,
    /// Shown; refused with 19, with 20, and by the file.
    lookups: [Sort; 4],
    /// Shown, by the number of hops, by the cycle of the last hop, and by the number; refused with 19, by what is known of
    /// the number, and by the number where a live one is alike.
    hops: [Sort; MAX_HOPS],
    last_cycles: [Sort; 3],
    /// Shown, of two hops or more with no delay.
    no_delay: [Sort; 1],
    numbers_shown: [Sort; 2],
    not_live: [Sort; 3],
    numbers_alike: [Sort; 2],
    /// Counted; refused with 13, and by the file.
    counts: [Sort; 3],
    /// Counted, with a closed frame, and with a held one.
    links: [Sort; 2],
    pub wrong_lookups: Tried<Box<Lookup>>,
    pub wrong_counts: Tried<Box<FreeFrames>>,
}

impl StateCalls {
    pub fn new(lookup: Box<Lookup>, free_frames: Box<FreeFrames>, seed: u64) -> Self {
        let mut random = Random::new(seed);
        let pattern = (0..1_000).map(|_| random.word() as u16).collect();
        StateCalls {
            lookup,
            free_frames,
            random,
            lent: Lent::new(pattern),
            lookups: [
                sort("shown", 80_000),
                sort("refused with 19:", 200_000),
                sort("with 20:", 20_000),
                sort("by the file", 60_000),
            ],
            hops: sorts_of_hops([30_000, 10_000, 10_000, 8_000, 4_000, 3_000, 2_000, 1_500]),
            last_cycles: sorts_of_cycles([60_000, 20_000, 12_000]),
            no_delay: [sort("delay 0 over two hops or more", 4_500)],
            numbers_shown: sorts_of_numbers([23_000, 44_000]),
            not_live: [
                sort("in the call records", 100_000),
                sort("near a live number", 20_000),
                sort("any number", 50_000),
            ],
            numbers_alike: sorts_of_numbers([6_000, 19_000]),
            counts: [
                sort("counted", 600_000),
                sort("refused with 13:", 150_000),
                sort("by the file", 40_000),
            ],
            links: [
                sort("with a closed frame", 300_000),
                sort("with a held frame", 150_000),
            ],
            wrong_lookups: Tried::new("lookup", wrong_state::lookups()),
            wrong_counts: Tried::new("count", wrong_state::counts()),
        }
    }

    /// Compares lookups and counts after the calls of an input; what differs, in words.
    pub fn compare(&mut self, case: Case<'_>) -> Result<(), String> {
        let live = live_numbers(&case.run.state);
        for (origin, number) in self.numbers(&case.input.calls, &live) {
            for room in self.rooms(&case.run.state, number) {
                let expected = self.compare_lookup(case, number, room)?;
                self.tally_lookup(origin, &expected);
                self.tally_number(number, &live, &expected);
            }
        }
        for link in self.links(&case.run.state) {
            self.compare_count(case, link)?;
        }
        Ok(())
    }

    /// Compares one lookup, and answers what it gave.
    fn compare_lookup(
        &mut self,
        case: Case<'_>,
        number: u32,
        room: usize,
    ) -> Result<Shown, String> {
        let Input { file, calls } = case.input;
        let expected = model::lookup(&case.run.state, number, room);
        let right = expected.as_deref().map_err(Refusal::clone);
        let mut fault = |lookup: &Lookup| {
            let call = |out: &mut [u16]| lookup(file, calls, number, out);
            self.lent.fault(room, right, call)
        };
        if let Some(fault) = fault(&self.lookup) {
            let shown = self.lent.written(room);
            let words = format!("lookup of {number}: {fault}");
            return Err(format!(
                "{words}\nlent places: {shown:?}\nmodel: {expected:?}"
            ));
        }
        self.wrong_lookups
            .try_on(case.inputs, |wrong| fault(wrong).is_some());
        Ok(expected)
    }

    fn tally_lookup(&mut self, origin: Origin, shown: &Shown) {
        match shown {
            Ok(shown) => {
                self.lookups[0].add(true);
                self.hops[usize::from(shown[0]) - 1].add(true);
                add_cycle(&mut self.last_cycles, shown[shown.len() - 1].into());
                self.no_delay[0].add(shown[0] > 1 && shown[1] == 0);
            }
            Err(19) => {
                self.lookups[1].add(true);
                self.not_live[origin as usize].add(true);
            }
            Err(20) => self.lookups[2].add(true),
            Err(_) => self.lookups[3].add(true),
        }
    }

    fn tally_number(&mut self, number: u32, live: &[u32], shown: &Shown) {
        match shown {
            Ok(_) => add_number(&mut self.numbers_shown, number),
            Err(19) if live.iter().any(|&live| are_alike(live, number)) => {
                add_number(&mut self.numbers_alike, number);
            }
            Err(_) => {}
        }
    }

    fn compare_count(&mut self, case: Case<'_>, link: u8) -> Result<(), String> {
        let Input { file, calls } = case.input;
        let expected = model::free_frames(&case.run.state, link).map_err(u64::from);
        let answer = (self.free_frames)(file, calls, link);
        if answer != expected {
            return Err(format!(
                "free frames of link {link}: {answer:?}, model: {expected:?}"
            ));
        }
        self.wrong_counts
            .try_on(case.inputs, |wrong| wrong(file, calls, link) != expected);
        self.tally_count(&case.run.state, link);
        Ok(())
    }

    fn tally_count(&mut self, stored: &Stored, link: u8) {
        let Ok(state) = stored else {
            return self.counts[2].add(true);
        };
        let Ok(values) = state.link(link) else {
            return self.counts[1].add(true);
        };
        self.counts[0].add(true);
        let held = state.ledger.held[usize::from(link)];
        add_each(&mut self.links, &[values.closed != 0, held != 0]);
    }

    // ---- What is asked for ----

    /// The session numbers to look up: the live ones; of the others in the call records the last and another one; one
    /// near a live number; and any number.
    fn numbers(&mut self, calls: &[u8], live: &[u32]) -> Vec<(Origin, u32)> {
        let mut records = numbers_in(calls);
        records.retain(|number| !live.contains(number));
        let random = &mut self.random;
        let mut numbers = vec![(Origin::Any, random.word() as u32)];
        if let Some(&last) = records.last() {
            let another = random.pick(&records);
            numbers.extend([last, another].map(|number| (Origin::CallRecords, number)));
        }
        if !live.is_empty() {
            let live = random.pick(live);
            numbers.push((Origin::NearLive, near(random, live)));
        }
        numbers.extend(live.iter().map(|&number| (Origin::Live, number)));
        numbers
    }

    /// The rooms for a lookup: enough, and now and then too little; any where it is refused whatever the room.
    fn rooms(&mut self, stored: &Stored, number: u32) -> Vec<usize> {
        let random = &mut self.random;
        let Ok(shown) = model::lookup(stored, number, MOST_NUMBERS) else {
            return vec![random.below(MOST_NUMBERS + 2)];
        };
        let mut rooms = vec![enough_room(random, shown.len())];
        if random.chance(25) {
            rooms.push(too_little_room(random, shown.len()));
        }
        rooms
    }

    /// The links to count: those that are there; the first number that is none's, and another such number.
    fn links(&mut self, stored: &Stored) -> Vec<u8> {
        let number = match stored {
            Ok(state) => state.network.links.len(),
            Err(_) => 0,
        };
        let mut links = vec![number as u8, self.random.between(number, 255) as u8];
        links.extend(0..number as u8);
        links
    }

    // ---- What was seen ----

    fn lookup_lines(&self) -> [Line<'_>; 7] {
        [
            ("", &self.lookups),
            ("shown: of ", &self.hops),
            ("shown: last hop in cycle ", &self.last_cycles),
            ("shown: ", &self.no_delay),
            ("shown: number ", &self.numbers_shown),
            ("refused with 19: ", &self.not_live),
            (
                "refused with 19: a live number has the same low 16 bits: number ",
                &self.numbers_alike,
            ),
        ]
    }

    fn count_lines(&self) -> [Line<'_>; 2] {
        [("", &self.counts), ("counted: ", &self.links)]
    }

    /// Prints what was seen.
    pub fn print(&self) {
        let (lookups, counts) = (total(&self.lookups), total(&self.counts));
        println!("lookups: {lookups} compared, 0 differed");
        print_lines(&self.lookup_lines());
        println!("free frames: {counts} compared, 0 differed");
        print_lines(&self.count_lines());
    }

    /// The first sort of which too few were seen, in words.
    pub fn too_few(&self) -> Option<String> {
        let lookups = too_few_in(&self.lookup_lines()).map(|few| format!("lookups: {few}"));
        let counts = || too_few_in(&self.count_lines()).map(|few| format!("free frames: {few}"));
        lookups.or_else(counts)
    }
}

/// The numbers of the live sessions.
fn live_numbers(stored: &Stored) -> Vec<u32> {
    match stored {
        Ok(state) => state.ledger.sessions.iter().map(|s| s.number).collect(),
        Err(_) => Vec::new(),
    }
}

/// A number that differs from another one by one, in one bit, or above the low 16 bits alone.
fn near(random: &mut Random, number: u32) -> u32 {
    let bit = 1 << random.below(32);
    let above = (random.between(1, 65_535) as u32) << 16;
    let (next, before) = (number.wrapping_add(1), number.wrapping_sub(1));
    random.pick(&[number ^ bit, number ^ above, next, before])
}

/// The session numbers of call records, also of those after one that can't be read, and of one across the limit.
fn numbers_in(calls: &[u8]) -> Vec<u32> {
    let mut numbers = Vec::new();
    let mut rest = &calls[..calls.len().min(INPUT_LIMIT + 8)];
    while !rest.is_empty() {
        let Ok((call, used)) = read_call(rest) else {
            rest = &rest[1..];
            continue;
        };
        if let Call::SetUp { number, .. } | Call::Release { number } = call {
            numbers.push(number);
        }
        rest = &rest[used..];
    }
    numbers
}

#[cfg(test)]
mod tests {
    use super::*;
    use crate::{inputs, library, stand_in};

    /// Compares functions with the model on some inputs, most of them short.
    fn compared(lookup: Box<Lookup>, free_frames: Box<FreeFrames>) -> Result<StateCalls, String> {
        let mut calls = StateCalls::new(lookup, free_frames, 7);
        inputs::compare_some(8, |case| calls.compare(case))?;
        Ok(calls)
    }

    #[test]
    fn callers_are_given_room_for_every_session() {
        assert_eq!(library::SESSION_MOST, MOST_NUMBERS);
    }

    #[test]
    fn right_ones_do_not_differ_and_wrong_ones_do() {
        let right = compared(Box::new(stand_in::lookup), Box::new(stand_in::free_frames));
        let right = right.unwrap_or_else(|fault| panic!("{fault}"));
        assert_eq!(right.wrong_lookups.never_differed(), None);
        assert_eq!(right.wrong_counts.never_differed(), None);
    }

    #[test]
    fn a_wrong_one_in_the_place_of_the_library_is_found() {
        for wrong in wrong_state::lookups() {
            let found = compared(wrong.does, Box::new(stand_in::free_frames)).err();
            assert!(found.is_some_and(|words| words.starts_with("lookup of ")));
        }
        for wrong in wrong_state::counts() {
            let found = compared(Box::new(stand_in::lookup), wrong.does).err();
            assert!(found.is_some_and(|words| words.starts_with("free frames of ")));
        }
    }

    #[test]
    fn numbers_of_all_records() {
        let calls: [&[u8]; 6] = [
            &[1, 5, 1, 1, 0],
            &[2, 1, 0],
            &[6],
            &[4, 7, 0, 1, 0, 1, 0],
            &[5, 7, 0, 0, 1],
            &[5, 3, 9, 0, 0],
        ];
        let calls = calls.concat();
        assert_eq!(numbers_in(&calls), [261, 65_543, 16_777_223, 2_307]);
        // Of the last record a byte is missing, and behind its first one stands a release of 9.
        let cut = &calls[..calls.len() - 1];
        assert_eq!(numbers_in(cut), [261, 65_543, 16_777_223, 9]);
    }
}
