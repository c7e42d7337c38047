//! Numbers of schedules over routes after a list of calls, compared with the model.

use crate::compared::has_step;
use crate::inputs::{any_route, bad_route, good_route, good_route_from, Case, Input};
use crate::least_holds::{self, sorts_of_routes};
use crate::lent::Lent;
use crate::listing::{self, MOST_PATHS};
use crate::model::{self, State, INPUT_LIMIT};
use crate::network_file::{Network, Refusal};
use crate::networks::fit;
use crate::random::Random;
use crate::route::{Answer, Hop, MAX_HOPS};
use crate::sorts::{add_each, print_lines, sort, sorts_of_hops, too_few_in, total, Line, Sort};
use crate::stand_in::Ways;
use crate::tried::Tried;
use crate::{dijkstra, ways, wrong_ways};

/// After lists of so many bytes, which are rare, each link is asked for by itself.
const NEAR_THE_LIMIT: usize = INPUT_LIMIT - 16;

/// A number from here on would be a refusal if it were the answer.
const REFUSED: u64 = 1_000_000;

/// The function under test, and what has been seen of it so far.
pub struct WayCalls {
    ways: Box<Ways>,
    random: Random,
    lent: Lent<u64>,
    /// States that were asked, those of them with a live session, and with as many as there can be.
    states: [Sort; 3],
    /// Counted; refused with 12 to 15, with 20, and by the file.
    calls: [Sort; 7],
    /// Refused with 12, 13 or 14 where the route breaks a later one of 12 to 15 too.
    several: [Sort; 3],
    /// Refused by the route and by the file where there is no place either.
    no_place: [Sort; 2],
    /// Counted: by the places, how the model counted, the number, the frames of the route, and its hops.
    places: [Sort; 2],
    counted_by: [Sort; 2],
    numbers: [Sort; 4],
    frames: [Sort; 4],
    hops: [Sort; MAX_HOPS],
    /// The same for numbers that aren't 0; of these, where a frame is taken, with a step to a faster link, to a slower one, and
    /// with both steps.
    hops_of_ways: [Sort; MAX_HOPS],
    steps: [Sort; 3],
    /// By the least holds of the route: numbers that aren't 0, and those of routes whose frames are all free.
    least_holds: [Sort; 5],
    least_holds_of_open: [Sort; 5],
    pub wrong: Tried<Box<Ways>>,
}

impl WayCalls {
    pub fn new(ways: Box<Ways>, seed: u64) -> Self {
        let mut random = Random::new(seed);
        let pattern = (0..100).map(|_| random.word()).collect();
        WayCalls {
            ways,
            random,
            lent: Lent::new(pattern),
            states: [
                sort("states", 100_000),
                sort("with a live session", 40_000),
                sort("with 96", 60),
            ],
            calls: [
                sort("counted", 100_000),
                sort("refused with 12:", 20_000),
                sort("with 13:", 15_000),
                sort("with 14:", 15_000),
                sort("with 15:", 1_500),
                sort("with 20:", 20_000),
                sort("by the file", 20_000),
            ],
            several: [sort("12:", 15_000), sort("13:", 5_000), sort("14:", 1_500)],
            no_place: [sort("the route", 8_000), sort("the file", 3_000)],
            places: [sort("one place", 50_000), sort("more places", 50_000)],
            counted_by: [
                sort("listing and recurrence", 100_000),
                sort("recurrence alone", 25_000),
            ],
            numbers: [
                sort("0:", 50_000),
                sort("1 to 999,999:", 50_000),
                sort("from 1,000,000 on:", 2_000),
                sort("of these past 32 bits:", 400),
            ],
            frames: [
                sort("all free", 8_000),
                sort("one closed", 80_000),
                sort("one held", 70_000),
                sort("both", 50_000),
            ],
            hops: sorts_of_hops([20_000, 20_000, 20_000, 20_000, 10_000, 8_000, 6_000, 6_000]),
            hops_of_ways: sorts_of_hops([
                15_000, 10_000, 10_000, 8_000, 3_000, 2_000, 1_500, 1_500,
            ]),
            steps: [
                sort("to a faster link", 10_000),
                sort("to a slower link", 10_000),
                sort("both", 5_000),
            ],
            least_holds: sorts_of_routes([20_000, 15_000, 10_000, 12_000, 1_800]),
            least_holds_of_open: sorts_of_routes([4_000, 1_800, 1_300, 1_800, 250]),
            wrong: Tried::new("ways", wrong_ways::all()),
        }
    }

    /// Compares numbers of schedules after the calls of an input; what differs, in words.
    pub fn compare(&mut self, case: Case<'_>) -> Result<(), String> {
        if let Ok(state) = &case.run.state {
            let live = state.ledger.sessions.len();
            add_each(&mut self.states, &[true, live > 0, live == 96]);
        }
        for route in self.routes(case) {
            let room = self.random.pick(&[0, 1, 1, 1, 2, 3, 10]);
            let fault = self.compare_call(case, &route, room);
            fault.map_err(|fault| format!("ways over {route:?}: {fault}"))?;
        }
        Ok(())
    }

    fn compare_call(&mut self, case: Case<'_>, route: &[u8], room: usize) -> Result<(), String> {
        let Input { file, calls } = case.input;
        let expected = model::ways(&case.run.state, route, room);
        let right = expected.as_ref().map(std::slice::from_ref);
        let mut fault = |ways: &Ways| {
            let call = |out: &mut [u64]| ways(file, calls, route, out);
            self.lent.fault(room, right.map_err(Refusal::clone), call)
        };
        if let Some(fault) = fault(&self.ways) {
            let put = self.lent.written(room);
            return Err(format!(
                "{fault}\nlent places: {put:?}\nmodel: {expected:?}"
            ));
        }
        self.wrong
            .try_on(case.inputs, |wrong| fault(wrong).is_some());
        match (&case.run.state, expected) {
            (Ok(state), Ok(number)) => self.add_number(state, route, room, number),
            (Ok(state), Err(refusal)) => self.add_refusal(&state.network, route, room, refusal),
            (Err(_), _) => {
                self.calls[6].add(true);
                self.no_place[1].add(room == 0);
                Ok(())
            }
        }
    }

    /// Counts a number that was given, once it agrees with all else that is known of the route.
    fn add_number(
        &mut self,
        state: &State,
        route: &[u8],
        room: usize,
        number: u64,
    ) -> Result<(), String> {
        let hops = state.hops(route).expect("the route passed its checks");
        let is_listed = agrees(state.network.ticks, &hops, number)?;
        let is_closed = |&link: &u8| state.network.links[usize::from(link)].closed != 0;
        let is_held = |&link: &u8| state.ledger.held[usize::from(link)] != 0;
        let (closed, held) = (route.iter().any(is_closed), route.iter().any(is_held));
        self.calls[0].add(true);
        add_each(&mut self.places, &[room == 1, room > 1]);
        add_each(&mut self.counted_by, &[is_listed, !is_listed]);
        let numbers = [
            number == 0,
            (1..REFUSED).contains(&number),
            number >= REFUSED,
            number > u64::from(u32::MAX),
        ];
        add_each(&mut self.numbers, &numbers);
        let frames = [!closed && !held, closed, held, closed && held];
        add_each(&mut self.frames, &frames);
        self.add_hops(&hops, number);
        Ok(())
    }

    fn add_hops(&mut self, hops: &[Hop], number: u64) {
        self.hops[hops.len() - 1].add(true);
        self.hops_of_ways[hops.len() - 1].add(number > 0);
        let (faster, slower) = (has_step(hops, u32::lt), has_step(hops, u32::gt));
        let (is_open, least_holds) = (ways::is_open(hops), least_holds::route(hops));
        if number > 0 {
            add_each(&mut self.least_holds, &least_holds);
        }
        if is_open {
            add_each(&mut self.least_holds_of_open, &least_holds);
        } else if number > 0 {
            add_each(&mut self.steps, &[faster, slower, faster && slower]);
        }
    }

    /// Counts a refusal of a state, once it is the first that the route breaks, or 20 where it breaks none.
    fn add_refusal(
        &mut self,
        network: &Network,
        route: &[u8],
        room: usize,
        refusal: Refusal,
    ) -> Result<(), String> {
        let faults = faults(network, route);
        let Some(first) = faults.iter().position(|&is_fault| is_fault) else {
            self.calls[5].add(true);
            return demand(
                refusal == 20,
                "the model refuses a route that breaks nothing",
            );
        };
        self.calls[1 + first].add(true);
        self.no_place[0].add(room == 0);
        if faults[first + 1..].contains(&true) {
            self.several[first].add(true);
        }
        demand(
            refusal == 12 + first as Refusal,
            "the model's refusal isn't the first that the route breaks",
        )
    }

    // ---- What is asked for ----

    /// The routes: a good one, now and then another that is as long as can be, that of a live session, and one with faults;
    /// each link by itself after a list near the limit; any where the file is refused.
    fn routes(&mut self, case: Case<'_>) -> Vec<Vec<u8>> {
        let random = &mut self.random;
        let Ok(state) = &case.run.state else {
            let hops = random.below(MAX_HOPS + 2);
            return vec![any_route(random, 32, hops)];
        };
        let (network, sessions) = (&state.network, &state.ledger.sessions);
        let mut routes = vec![good_route(random, network), faulty_route(random, network)];
        if random.chance(15) {
            routes.push(good_route_from(random, network, 0, MAX_HOPS));
        }
        if !sessions.is_empty() {
            let place = random.below(sessions.len());
            routes.push(sessions[place].route.clone());
        }
        if case.input.calls.len() >= NEAR_THE_LIMIT {
            routes.extend((0..network.links.len()).map(|link| vec![link as u8]));
        }
        routes
    }

    // ---- What was seen ----

    fn lines(&self) -> [Line<'_>; 13] {
        [
            ("after ", &self.states),
            ("", &self.calls),
            (
                "refused where a later one of 12 to 15 would refuse too: with ",
                &self.several,
            ),
            ("refused without a place too: by ", &self.no_place),
            ("counted: into ", &self.places),
            ("counted: by ", &self.counted_by),
            ("counted: ", &self.numbers),
            ("counted: frames ", &self.frames),
            ("counted: of ", &self.hops),
            ("not 0: of ", &self.hops_of_ways),
            ("not 0 and a frame taken: ", &self.steps),
            ("not 0: later Y: ", &self.least_holds),
            ("frames all free: later Y: ", &self.least_holds_of_open),
        ]
    }

    /// Prints what was seen.
    pub fn print(&self) {
        println!("ways: {} compared, 0 differed", total(&self.calls));
        print_lines(&self.lines());
    }

    /// The first sort of which too few were seen, in words.
    pub fn too_few(&self) -> Option<String> {
        too_few_in(&self.lines()).map(|few| format!("ways: {few}"))
    }
}

/// The words, unless what they deny holds.
fn demand(holds: bool, words: &str) -> Result<(), String> {
    if holds {
        Ok(())
    } else {
        Err(words.to_string())
    }
}

/// What the number of a route has to agree with: the list of its schedules where that is short, its answer, and where all of
/// its frames are free the product. Says whether the route was listed, or what doesn't agree, in words.
fn agrees(ticks: u32, hops: &[Hop], number: u64) -> Result<bool, String> {
    let is_listed = listing::paths(hops.iter().map(|hop| hop.frames)) <= MOST_PATHS;
    if is_listed {
        let listed = listing::list(ticks, hops).schedules;
        demand(number == listed, "the list has another number of schedules")?;
    }
    let is_blocked = matches!(dijkstra::least(ticks, hops), Answer::Blocked { .. });
    demand(
        is_blocked == (number == 0),
        "0 isn't the number of a blocked route alone",
    )?;
    let is_product = number == ways::product(hops);
    demand(
        is_product || !ways::is_open(hops),
        "an open route hasn't the product",
    )?;
    Ok(is_listed)
}

/// A route with one fault, or with any number of them: links twice, neighbours that don't fit, unknown links, too many links.
fn faulty_route(random: &mut Random, network: &Network) -> Vec<u8> {
    if random.chance(50) {
        return bad_route(random, network);
    }
    let links = network.links.len();
    let length = random.between(1, 6);
    let mut route = any_route(random, links, length);
    if random.chance(30) {
        let unknown = random.pick(&[links as u8, 32, 255]);
        route.insert(random.below(route.len() + 1), unknown);
    }
    if random.chance(30) {
        let more = random.between(3, 10);
        route.extend(any_route(random, links, more));
    }
    route
}

/// Which of 12 to 15 a route breaks, each looked at by itself; 15 between links that are there.
pub fn faults(network: &Network, route: &[u8]) -> [bool; 4] {
    let frames = |&link: &u8| Some(network.links.get(usize::from(link))?.frames);
    let frames: Vec<Option<u32>> = route.iter().map(frames).collect();
    let is_unfit = |pair: &[Option<u32>]| match *pair {
        [Some(before), Some(here)] => !fit(before, here),
        _ => false,
    };
    [
        !(1..=MAX_HOPS).contains(&route.len()),
        frames.contains(&None),
        (1..route.len()).any(|j| route[..j].contains(&route[j])),
        frames.windows(2).any(is_unfit),
    ]
}

#[cfg(test)]
mod tests {
    use super::*;
    use crate::network_file::read_network;
    use crate::question_four::{eight, held_from};
    use crate::{inputs, stand_in};

    /// Compares a function with the model on some inputs, most of them short.
    fn compared(ways: Box<Ways>) -> Result<WayCalls, String> {
        let mut calls = WayCalls::new(ways, 15);
        inputs::compare_some(16, |case| calls.compare(case))?;
        Ok(calls)
    }

    #[test]
    fn the_right_one_does_not_differ_and_wrong_ones_do() {
        let right = compared(Box::new(stand_in::ways));
        let right = right.unwrap_or_else(|fault| panic!("{fault}"));
        assert_eq!(right.wrong.never_differed(), None);
    }

    #[test]
    fn a_wrong_one_in_the_place_of_the_library_is_found() {
        for wrong in wrong_ways::all() {
            let found = compared(wrong.does).err();
            assert!(found.is_some_and(|words| words.starts_with("ways over ")));
        }
    }

    #[test]
    fn a_number_that_does_not_agree_is_found() {
        let all: Vec<u32> = (0..8).collect();
        let open = [eight(&all), eight(&all)];
        assert_eq!(agrees(48, &open, 16), Ok(true));
        assert!(agrees(48, &open, 15).is_err());
        let blocked = [eight(&[3]), eight(&[6])];
        assert_eq!(agrees(48, &blocked, 0), Ok(true));
        assert!(agrees(48, &blocked, 1).is_err());
        // A frame taken, and two ways: the list alone tells.
        let taken = [eight(&[1, 2]), eight(&[3])];
        assert_eq!(agrees(48, &taken, 2), Ok(true));
        assert!(agrees(48, &taken, 1).is_err());
        // Too long to be listed: a blocked one, and an open one.
        let blocked = [&blocked[..], &open[..], &open[..]].concat();
        assert_eq!(agrees(48, &blocked, 0), Ok(false));
        assert!(agrees(48, &blocked, 1).is_err());
        let open = [eight(&all); 8];
        assert_eq!(agrees(48, &open, 8 << 7), Ok(false));
        assert!(agrees(48, &open, 8 << 6).is_err());
        // Without a hold there are three ways from each frame, and with a least hold of 2 one.
        let open = [held_from(0, 8, 2, &all); 8];
        assert_eq!(agrees(48, &open, 8 * 3u64.pow(7)), Ok(false));
        assert!(agrees(48, &open, 8 << 7).is_err());
        assert_eq!(agrees(48, &[held_from(2, 8, 2, &all); 8], 8), Ok(false));
    }

    #[test]
    fn faults_are_looked_at_one_by_one() {
        // T 48; link 0 has K 4, links 1 and 2 have K 6.
        let file = [0x30, 0, 3, 3, 4, 2, 3, 6, 2, 3, 6, 2];
        let network = read_network(&file).expect("the file passes");
        let faults = |route: &[u8]| faults(&network, route);
        assert_eq!(faults(&[1, 2]), [false; 4]);
        assert_eq!(faults(&[]), [true, false, false, false]);
        assert_eq!(faults(&[3]), [false, true, false, false]);
        assert_eq!(faults(&[1, 2, 1]), [false, false, true, false]);
        assert_eq!(faults(&[0, 1]), [false, false, false, true]);
        assert_eq!(faults(&[0, 3, 1]), [false, true, false, false]);
        assert_eq!(faults(&[0, 1, 3, 0, 1, 0, 1, 0, 1]), [true; 4]);
    }

    #[test]
    fn too_few_are_named() {
        let calls = WayCalls::new(Box::new(stand_in::ways), 17);
        assert!(calls
            .lines()
            .iter()
            .all(|(_, sorts)| sorts.iter().all(|sort| sort.least > 0)));
        let words = calls.too_few().expect("nothing was seen");
        assert!(words.starts_with("ways: after states 0, "), "{words}");
    }
}
