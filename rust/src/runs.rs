//! Runs of the program in lent buffers, compared with the model.

use crate::inputs::{Case, Input};
use crate::lent::Lent;
use crate::model::{room_for_run, INPUT_LIMIT};
use crate::network_file::Refusal;
use crate::random::{enough_room, too_little_room, Random};
use crate::sorts::{add_each, print_lines, sort, too_few_in, Line, Sort};
use crate::stand_in::Report;
use crate::tried::Tried;
use crate::wrong_runs;

/// Lists of so many bytes, which are rare, are given every sort of room.
const NEAR_THE_LIMIT: usize = INPUT_LIMIT - 16;

/// The function under test, and what has been seen of it so far.
pub struct Runs {
    report: Box<Report>,
    random: Random,
    lent: Lent<u8>,
    /// The rooms by the least one that isn't refused; those of lists with more bytes than count; those of lists with one
    /// byte less than count, with as many, and with one more.
    rooms: [Sort; 5],
    over_the_limit: [Sort; 5],
    at_the_limit: [[Sort; 5]; 3],
    /// Refused, although the text would have fitted.
    fitting: [Sort; 1],
    pub wrong: Tried<Box<Report>>,
}

/// The sorts of rooms, of each of which there have to be so many.
fn rooms(least: usize) -> [Sort; 5] {
    ["exact", "longer", "one byte short", "shorter", "none"].map(|name| sort(name, least))
}

impl Runs {
    pub fn new(report: Box<Report>, seed: u64) -> Self {
        let mut random = Random::new(seed);
        let pattern = random.bytes(800_000);
        Runs {
            report,
            random,
            lent: Lent::new(pattern),
            rooms: rooms(20_000),
            over_the_limit: rooms(20),
            at_the_limit: [rooms(20), rooms(20), rooms(20)],
            fitting: [sort("with room for the text", 50_000)],
            wrong: Tried::new("run", wrong_runs::all()),
        }
    }

    /// Compares the run with the model's in rooms that are enough and in rooms that aren't. Answers the bytes that the
    /// function under test wrote, or what differs, in words.
    pub fn compare(&mut self, case: Case<'_>) -> Result<Vec<u8>, String> {
        let calls = &case.input.calls;
        if case.run.text.len() > room_for_run(calls) {
            return Err("the text is longer than the room that serves for every text".to_string());
        }
        let mut written = Vec::new();
        for room in self.rooms_for(calls) {
            let lent = &mut self.lent;
            if let Some(fault) = fault(lent, &self.report, case, room) {
                return Err(format!("run: {fault}"));
            }
            if let Ok(text) = expected(case, room) {
                written = lent.written(text.len()).to_vec();
            }
            self.wrong.try_on(case.inputs, |wrong| {
                fault(lent, wrong, case, room).is_some()
            });
            self.tally(case, room);
        }
        Ok(written)
    }

    /// A room that is enough and one that isn't; where the list is near the limit, one of each sort.
    fn rooms_for(&mut self, calls: &[u8]) -> Vec<usize> {
        let random = &mut self.random;
        let exact = room_for_run(calls);
        if calls.len() < NEAR_THE_LIMIT {
            return vec![enough_room(random, exact), too_little_room(random, exact)];
        }
        let longer = exact + random.between(1, 100);
        let shorter = random.between(1, exact - 2);
        vec![exact, longer, exact - 1, shorter, 0]
    }

    fn tally(&mut self, case: Case<'_>, room: usize) {
        let calls = &case.input.calls;
        let exact = room_for_run(calls);
        let is_of = [
            room == exact,
            room > exact,
            room == exact - 1,
            0 < room && room < exact - 1,
            room == 0,
        ];
        add_each(&mut self.rooms, &is_of);
        if calls.len() > INPUT_LIMIT {
            add_each(&mut self.over_the_limit, &is_of);
        }
        let place = (calls.len() + 1).checked_sub(INPUT_LIMIT);
        if let Some(rooms) = place.and_then(|place| self.at_the_limit.get_mut(place)) {
            add_each(rooms, &is_of);
        }
        self.fitting[0].add(case.run.text.len() <= room && room < exact);
    }

    fn lines(&self) -> [Line<'_>; 6] {
        [
            ("", &self.rooms),
            ("over 65,536 call bytes: ", &self.over_the_limit),
            ("65,535 call bytes: ", &self.at_the_limit[0]),
            ("65,536 call bytes: ", &self.at_the_limit[1]),
            ("65,537 call bytes: ", &self.at_the_limit[2]),
            ("refused ", &self.fitting),
        ]
    }

    /// Prints what was seen.
    pub fn print(&self) {
        println!("rooms of runs:");
        print_lines(&self.lines());
    }

    /// The first sort of which too few were seen, in words.
    pub fn too_few(&self) -> Option<String> {
        too_few_in(&self.lines()).map(|few| format!("rooms of runs: {few}"))
    }
}

/// What is wrong with a run in so much room, in words.
fn fault(lent: &mut Lent<u8>, report: &Report, case: Case<'_>, room: usize) -> Option<String> {
    let Input { file, calls } = case.input;
    lent.fault(room, expected(case, room), |out| report(file, calls, out))
}

/// The text, or 20 where the room isn't enough for every text of so many call bytes.
fn expected<'a>(case: Case<'a>, room: usize) -> Result<&'a [u8], Refusal> {
    if room < room_for_run(&case.input.calls) {
        Err(20)
    } else {
        Ok(&case.run.text)
    }
}

#[cfg(test)]
mod tests {
    use super::*;
    use crate::{dijkstra, inputs, library, model, stand_in};

    /// Compares a function with the model on some inputs, most of them short.
    fn compared(report: Box<Report>) -> Result<Runs, String> {
        let mut runs = Runs::new(report, 11);
        let mut random = Random::new(12);
        for inputs in 1..=600 {
            let input = match inputs % 100 {
                0 => inputs::over_the_limit(&mut random),
                _ => inputs::input(&mut random),
            };
            let run = &model::run(&input.file, &input.calls, dijkstra::least);
            let written = runs.compare(Case {
                input: &input,
                inputs,
                run,
            })?;
            assert_eq!(written, run.text);
        }
        Ok(runs)
    }

    #[test]
    fn callers_are_given_the_bound_of_the_model() {
        for length in [0, 1, 2, 1_000, 65_535, 65_536, 65_537, 100_000] {
            let room = room_for_run(&vec![0; length]);
            assert_eq!(library::text_bound(length), room);
        }
    }

    #[test]
    fn lists_at_the_limit_are_counted_by_their_length() {
        let mut runs = Runs::new(Box::new(stand_in::report), 14);
        for length in INPUT_LIMIT - 2..=INPUT_LIMIT + 2 {
            let (file, calls) = (Vec::new(), vec![0; length]);
            let input = &Input { file, calls };
            let run = &model::run(&input.file, &input.calls, dijkstra::least);
            let inputs = 1;
            assert!(runs.compare(Case { input, inputs, run }).is_ok());
        }
        let seen = |sorts: &[Sort; 5]| sorts.each_ref().map(|sort| sort.seen);
        assert_eq!(seen(&runs.rooms), [5; 5]);
        assert_eq!(seen(&runs.over_the_limit), [2; 5]);
        assert_eq!(runs.at_the_limit.each_ref().map(seen), [[1; 5]; 3]);
    }

    #[test]
    fn the_right_one_does_not_differ_and_wrong_ones_do() {
        let right = compared(Box::new(stand_in::report));
        let right = right.unwrap_or_else(|fault| panic!("{fault}"));
        assert_eq!(right.wrong.never_differed(), None);
    }

    #[test]
    fn a_wrong_one_in_the_place_of_the_library_is_found() {
        for wrong in wrong_runs::all() {
            let found = compared(wrong.does).err();
            assert!(found.is_some_and(|words| words.starts_with("run: ")));
        }
    }
}
