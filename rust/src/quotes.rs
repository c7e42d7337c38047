//! Quotes over routes of every number of frames, with many ties and windows that pass the cycle's end, compared with the model.

use crate::call_records::push_quote;
use crate::compared::{fingerprint, has_step, is_count_at_bound};
use crate::least_holds::{self, sorts_of_passed, sorts_of_routes, sorts_of_zeros};
use crate::lent::Lent;
use crate::listing::{self, MOST_PATHS};
use crate::model::{hops_of, room_for_run, transcript, Ledger};
use crate::network_file::{image, Network};
use crate::networks::fit;
use crate::random::Random;
use crate::route::{Answer, Hop, MAX_HOPS};
use crate::sorts::{add_each, print_lines, sort, sorts_of_hops, too_few_in, Line, Sort};
use crate::stand_in::Report;
use crate::taken::{self, Entry};
use crate::tried::Tried;
use crate::windows::{self, Method};
use crate::{dijkstra, quoted_routes, survivors, wrong_windows};
use std::collections::HashSet;

/// A link has at most 64 frames.
const FRAMES: usize = 64;

/// The longest delay: seven whole cycles of 960 ticks.
const MOST_DELAY: u32 = 6_720;

/// So many ties along one route are several.
const SEVERAL: usize = 3;

/// The function under test, and what has been seen of it so far. A route that was compared before isn't of any sort again.
pub struct Quotes {
    report: Box<Report>,
    random: Random,
    lent: Lent<u8>,
    compared: usize,
    routes: HashSet<u64>,
    quotes: [Sort; 3],
    hops: [Sort; MAX_HOPS],
    /// Blocked, by the hop at which nothing is reached.
    blocked: [Sort; MAX_HOPS],
    /// With a schedule: of so many hops; with a step to a faster link, to a slower one, and with both steps; of a long delay;
    /// and with another frame of the last hop that has the same delay.
    hops_of_schedules: [Sort; MAX_HOPS],
    steps: [Sort; 3],
    delays: [Sort; 2],
    ends: [Sort; 1],
    /// Schedules of 8 hops with several ties that the hold decided, that the preceding frame did, and with several of each.
    several: [Sort; 3],
    /// By the least holds of the route: those with a schedule, and those whose count is as large as it can be. Answers with a
    /// hold of 0.
    least_holds: [Sort; 5],
    least_holds_at_bound: [Sort; 5],
    zeros: [Sort; 4],
    entered: Entered,
    pub wrong: Tried<Method>,
}

/// The hops that schedules entered, by what they met there.
struct Entered {
    ties: [Sort; 3],
    windows: [Sort; 2],
    /// Z - Y + 1 above 1 that doesn't divide K; and of these by the blocks of so many frames.
    blocks: [Sort; 4],
    unreached: [Sort; 1],
    /// By Y; ties where Y is 0 or above 1, and those where the hold is 0; ways that pass the cycle's end where Y isn't 1.
    least_holds: [Sort; 5],
    ties_by_least_hold: [Sort; 4],
    ties_of_zeros: [Sort; 2],
    ways_by_least_hold: [Sort; 2],
    /// By K and Z, by the K of the hop before and K, by K and Y, and by K and the number of holds where Y isn't 1.
    ranges: Pairs,
    rates: Pairs,
    least: Pairs,
    holds: Pairs,
}

/// How often two numbers from 0 to 64 were seen together.
type Pairs = Vec<[usize; FRAMES + 1]>;

impl Quotes {
    pub fn new(report: Box<Report>, seed: u64) -> Self {
        let mut random = Random::new(seed);
        let pattern = random.bytes(1_000);
        Quotes {
            report,
            random,
            lent: Lent::new(pattern),
            compared: 0,
            routes: HashSet::new(),
            quotes: [
                sort("different", 140_000),
                sort("blocked", 20_000),
                sort("also listed", 25_000),
            ],
            hops: sorts_of_hops([8_000, 8_000, 8_000, 8_000, 8_000, 8_000, 8_000, 60_000]),
            blocked: sorts_by_hop([2_000; MAX_HOPS]),
            hops_of_schedules: sorts_of_hops([
                7_000, 7_000, 7_000, 7_000, 7_000, 7_000, 7_000, 45_000,
            ]),
            steps: [
                sort("to a faster link", 40_000),
                sort("to a slower link", 50_000),
                sort("both", 30_000),
            ],
            delays: [sort("past 4,095:", 2_500), sort("6,720:", 50)],
            ends: [sort("at the last frame", 30_000)],
            several: [
                sort("hold", 8_000),
                sort("preceding frame", 2_500),
                sort("each", 1_500),
            ],
            least_holds: sorts_of_routes([20_000, 20_000, 15_000, 25_000, 6_000]),
            least_holds_at_bound: sorts_of_routes([3_000, 2_500, 1_500, 2_500, 500]),
            zeros: sorts_of_zeros([20_000, 10_000, 4_500, 4_000]),
            entered: Entered::new(),
            wrong: Tried::new("search", wrong_windows::all()),
        }
    }

    /// Compares one quote with the model; what differs, in words.
    pub fn compare(&mut self) -> Result<(), String> {
        let network = quoted_routes::network(&mut self.random);
        self.compared += 1;
        let fault = self.compare_over(&network);
        fault.map_err(|fault| format!("quote over all links of {network:?}: {fault}"))
    }

    fn compare_over(&mut self, network: &Network) -> Result<(), String> {
        let route: Vec<u8> = (0..network.links.len() as u8).collect();
        let hops = &hops_of(network, &Ledger::new(network), &route)[..route.len()];
        let (answer, is_listed) = answer(network.ticks, hops)?;
        let (file, mut calls) = (image(network), Vec::new());
        push_quote(&mut calls, &route);
        let text = transcript(&file, &calls, |_, _| answer.clone());
        let room = room_for_run(&calls);
        let call = |out: &mut [u8]| (self.report)(&file, &calls, out);
        if let Some(fault) = self.lent.fault(room, Ok(&text), call) {
            let [text, written] =
                [&text, self.lent.written(room)].map(|text| String::from_utf8_lossy(text));
            return Err(format!("{fault}\nmodel: {text:?}\nlent bytes: {written:?}"));
        }
        self.wrong.try_on(self.compared, |method| {
            let least = |ticks, hops: &[Hop]| method.least(ticks, hops);
            transcript(&file, &calls, least) != text
        });
        if self.routes.insert(fingerprint(network.ticks, hops)) {
            self.add(network.ticks, hops, &answer, is_listed);
            self.add_least_holds(hops, &answer)?;
        }
        Ok(())
    }

    // ---- What was seen ----

    /// Counts a route that wasn't compared before.
    fn add(&mut self, ticks: u32, hops: &[Hop], answer: &Answer, is_listed: bool) {
        let delays = taken::delays(ticks, hops);
        let blocked_at = taken::blocked_at(&delays);
        add_each(&mut self.quotes, &[true, blocked_at.is_some(), is_listed]);
        self.hops[hops.len() - 1].add(true);
        if let Some(hop) = blocked_at {
            self.blocked[hop].add(true);
        }
        if let Answer::Found { delay, frames, .. } = answer {
            self.add_schedule(hops, *delay);
            self.ends[0].add(taken::ends_tie(&delays));
            let entries = taken::entries(ticks, hops, &delays, frames);
            self.add_several(&entries);
            for (hop, entry) in hops.windows(2).zip(&entries) {
                self.entered.add(&hop[0], &hop[1], entry);
            }
        }
    }

    fn add_schedule(&mut self, hops: &[Hop], delay: u32) {
        let (faster, slower) = (has_step(hops, u32::lt), has_step(hops, u32::gt));
        self.hops_of_schedules[hops.len() - 1].add(true);
        add_each(&mut self.steps, &[faster, slower, faster && slower]);
        add_each(&mut self.delays, &[delay > 4_095, delay == MOST_DELAY]);
    }

    fn add_least_holds(&mut self, hops: &[Hop], answer: &Answer) -> Result<(), String> {
        let sorts = least_holds::route(hops);
        if is_count_at_bound(hops, answer)? {
            add_each(&mut self.least_holds_at_bound, &sorts);
        }
        if let Answer::Found { frames, cycles, .. } = answer {
            add_each(&mut self.least_holds, &sorts);
            let zeros = least_holds::zeros(hops, frames, cycles)?;
            add_each(&mut self.zeros, &zeros);
        }
        Ok(())
    }

    fn add_several(&mut self, entries: &[Entry]) {
        if entries.len() + 1 < MAX_HOPS {
            return;
        }
        let several = |is_of: fn(&&Entry) -> bool| entries.iter().filter(is_of).count() >= SEVERAL;
        let by_hold = several(|entry| entry.tie_by_hold);
        let by_frame = several(|entry| entry.tie_by_frame);
        add_each(&mut self.several, &[by_hold, by_frame, by_hold && by_frame]);
    }

    fn lines<'a>(&'a self, rarest: &'a [Sort; 5]) -> [Line<'a>; 20] {
        let entered = &self.entered;
        [
            ("", &self.quotes),
            ("of ", &self.hops),
            ("blocked at hop ", &self.blocked),
            ("not blocked: of ", &self.hops_of_schedules),
            ("not blocked: ", &self.steps),
            ("not blocked: delay ", &self.delays),
            ("not blocked: tie ", &self.ends),
            (
                "not blocked: of 8 hops, with three or more ties decided by ",
                &self.several,
            ),
            ("not blocked: later Y: ", &self.least_holds),
            ("count at its bound: later Y: ", &self.least_holds_at_bound),
            ("not blocked: holds of 0: ", &self.zeros),
            ("entered hops: tie decided by ", &entered.ties),
            ("entered hops: past the cycle's end ", &entered.windows),
            ("entered hops: ", &entered.blocks),
            ("entered hops: ", &entered.unreached),
            ("entered hops: Y ", &entered.least_holds),
            ("entered hops: tie, ", &entered.ties_by_least_hold),
            (
                "entered hops: hold 0, tie decided by ",
                &entered.ties_of_zeros,
            ),
            (
                "entered hops: way past the cycle's end, ",
                &entered.ways_by_least_hold,
            ),
            ("entered hops: rarest ", rarest),
        ]
    }

    /// Prints what was seen.
    pub fn print(&self) {
        println!("quotes: {} compared, 0 differed", self.compared);
        print_lines(&self.lines(&self.entered.rarest()));
    }

    /// The first sort of which too few were seen, in words.
    pub fn too_few(&self) -> Option<String> {
        too_few_in(&self.lines(&self.entered.rarest())).map(|few| format!("quotes: {few}"))
    }
}

impl Entered {
    fn new() -> Self {
        let pairs = || vec![[0; FRAMES + 1]; FRAMES + 1];
        Entered {
            ties: [
                sort("hold", 50_000),
                sort("hold against a way from before the block", 20_000),
                sort("preceding frame", 35_000),
            ],
            windows: [sort("window", 200_000), sort("way itself", 30_000)],
            blocks: [
                sort("Z - Y + 1 above 1 and no divisor of K", 200_000),
                sort("then in the block that is cut off", 40_000),
                sort("from before the block", 10_000),
                sort("both", 3_500),
            ],
            unreached: [sort(
                "after a hop with a free frame that nothing reaches",
                50_000,
            )],
            least_holds: sorts_of_passed([70_000, 160_000, 45_000, 15_000, 28_000]),
            ties_by_least_hold: [
                sort("Y 0: decided by hold", 9_000),
                sort("by preceding frame", 6_000),
                sort("Y above 1: decided by hold", 3_500),
                sort("by preceding frame", 2_500),
            ],
            ties_of_zeros: [sort("hold", 7_000), sort("preceding frame", 6_000)],
            ways_by_least_hold: [sort("Y 0:", 3_000), sort("Y above 1:", 2_000)],
            ranges: pairs(),
            rates: pairs(),
            least: pairs(),
            holds: pairs(),
        }
    }

    fn add(&mut self, before: &Hop, here: &Hop, entry: &Entry) {
        let ties = [
            entry.tie_by_hold,
            entry.tie_across_block,
            entry.tie_by_frame,
        ];
        add_each(&mut self.ties, &ties);
        add_each(&mut self.windows, &[entry.window_passes, entry.way_passes]);
        let window = here.holds();
        let is_no_divisor = window > 1 && here.frames % window != 0;
        let is_cut = is_no_divisor && entry.block_is_cut;
        let is_from_before = is_no_divisor && entry.from_before_block;
        let is_both = is_cut && is_from_before;
        let blocks = [is_no_divisor, is_cut, is_from_before, is_both];
        add_each(&mut self.blocks, &blocks);
        self.unreached[0].add(entry.follows_unreached);
        let [from, frames, range] = [before.frames, here.frames, here.range].map(|n| n as usize);
        self.ranges[frames][range] += 1;
        self.rates[frames][from] += 1;
        self.add_least_hold(here, entry);
    }

    fn add_least_hold(&mut self, here: &Hop, entry: &Entry) {
        let Hop {
            frames,
            range,
            least,
            ..
        } = *here;
        let (zero, above) = (least == 0, least > 1);
        let sorts = least_holds::passed(frames, range, least);
        add_each(&mut self.least_holds, &sorts);
        let [by_hold, by_frame] = [entry.tie_by_hold, entry.tie_by_frame];
        let ties = [
            zero && by_hold,
            zero && by_frame,
            above && by_hold,
            above && by_frame,
        ];
        add_each(&mut self.ties_by_least_hold, &ties);
        let ties = [by_hold, by_frame].map(|tie| tie && entry.hold == 0);
        add_each(&mut self.ties_of_zeros, &ties);
        let ways = [zero, above].map(|least| least && entry.way_passes);
        add_each(&mut self.ways_by_least_hold, &ways);
        self.least[frames as usize][least as usize] += 1;
        self.holds[frames as usize][here.holds() as usize] += usize::from(least != 1);
    }

    /// How often the rarest K from 1 to 64 was entered; the rarest K with one of its Z, and after one that fits; the rarest K above
    /// 1 with one of its Y, and with one of its numbers of holds where Y isn't 1.
    fn rarest(&self) -> [Sort; 5] {
        let least = |name, least, seen: &dyn Fn(usize) -> Option<usize>| {
            let seen = (1..=FRAMES).filter_map(seen).min().unwrap_or(0);
            Sort { name, least, seen }
        };
        let fits = |from: usize, frames: usize| fit(from as u32, frames as u32);
        [
            least("K", 3_000, &|frames| Some(self.ranges[frames].iter().sum())),
            least("K and Z", 10, &|frames| {
                self.ranges[frames][1..=frames].iter().copied().min()
            }),
            least("K and K before", 25, &|frames| {
                let before = (1..=FRAMES).filter(|&from| fits(from, frames));
                before.map(|from| self.rates[frames][from]).min()
            }),
            least("K and Y", 1, &|frames| {
                let seen = self.least[frames][..=frames].iter().copied().min();
                seen.filter(|_| frames > 1)
            }),
            least("K and Z - Y + 1 but for Y 1", 3, &|frames| {
                let seen = self.holds[frames][1..=frames].iter().copied().min();
                seen.filter(|_| frames > 1)
            }),
        ]
    }
}

/// A sort for each hop.
fn sorts_by_hop(least: [usize; MAX_HOPS]) -> [Sort; MAX_HOPS] {
    const NAMES: [&str; MAX_HOPS] = ["0:", "1:", "2:", "3:", "4:", "5:", "6:", "7:"];
    std::array::from_fn(|j| sort(NAMES[j], least[j]))
}

/// The answer that each search of the model gives, and whether the listing was one of them; or that they differ, in words.
fn answer(ticks: u32, hops: &[Hop]) -> Result<(Answer, bool), String> {
    let answer = dijkstra::least(ticks, hops);
    let mut others = vec![survivors::least(ticks, hops), windows::least(ticks, hops)];
    let is_listed = listing::paths(hops.iter().map(|hop| hop.frames)) <= MOST_PATHS;
    if is_listed {
        others.push(listing::least(ticks, hops));
    }
    match others.iter().find(|&other| *other != answer) {
        Some(other) => Err(format!(
            "the model's searches differ\n{answer:?}\n{other:?}"
        )),
        None => Ok((answer, is_listed)),
    }
}

#[cfg(test)]
mod tests {
    use super::*;
    use crate::network_file::read_network;
    use crate::stand_in::{self, put};

    /// Compares a function with the model on some quotes.
    fn compared(report: Box<Report>) -> Result<Quotes, String> {
        let mut quotes = Quotes::new(report, 26);
        (0..4_000).try_for_each(|_| quotes.compare())?;
        Ok(quotes)
    }

    #[test]
    fn the_right_one_does_not_differ_and_wrong_ones_do() {
        let right = compared(Box::new(stand_in::report));
        let right = right.unwrap_or_else(|fault| panic!("{fault}"));
        assert_eq!(right.wrong.never_differed(), None);
    }

    #[test]
    fn a_wrong_one_in_the_place_of_the_library_is_found() {
        for wrong in wrong_windows::all() {
            let found = compared(Box::new(move |file, calls, out| {
                let least = |ticks, hops: &[Hop]| wrong.does.least(ticks, hops);
                put(&transcript(file, calls, least), out)
            }));
            let found = found.err();
            assert!(found.is_some_and(|words| words.starts_with("quote over all links of ")));
        }
    }

    #[test]
    fn what_a_quote_is_counted_as() {
        // T 48; K 8, 8 and 4, Z 3; on link 1 only frames 0 and 1 are free, and both lead to frame 1 of link 2: 7 0 1 and
        // 0 1 1 have delay 18.
        let file = [
            0x30, 0, 3, 3, 8, 3, 7, 8, 3, 0xfc, 0, 0, 0, 0, 0, 0, 0, 3, 4, 3,
        ];
        let network = read_network(&file).expect("the file passes");
        let mut quotes = Quotes::new(Box::new(stand_in::report), 27);
        for _ in 0..2 {
            assert_eq!(quotes.compare_over(&network), Ok(()));
        }
        let seen = |sorts: &[Sort]| sorts.iter().map(|sort| sort.seen).collect::<Vec<_>>();
        assert_eq!(seen(&quotes.quotes), [1, 0, 1]);
        assert_eq!(seen(&quotes.hops), [0, 0, 1, 0, 0, 0, 0, 0]);
        assert_eq!(seen(&quotes.steps), [0, 1, 0]);
        let entered = &quotes.entered;
        assert_eq!((entered.ranges[8][3], entered.ranges[4][3]), (1, 1));
        assert_eq!((entered.rates[8][8], entered.rates[4][8]), (1, 1));
        assert_eq!(seen(&entered.rarest()), [0; 5]);
        assert_eq!(seen(&entered.ties), [0, 0, 1]);
        assert_eq!(seen(&entered.windows), [2, 0]);
        assert_eq!(seen(&entered.blocks), [2, 0, 0, 0]);
    }

    #[test]
    fn too_few_are_named() {
        let quotes = Quotes::new(Box::new(stand_in::report), 28);
        let rarest = quotes.entered.rarest();
        let lines = quotes.lines(&rarest);
        let mut sorts = lines.iter().flat_map(|(_, sorts)| sorts.iter());
        assert!(sorts.all(|sort| sort.least > 0));
        let words = quotes.too_few().expect("nothing was seen");
        assert!(words.starts_with("quotes: different 0, "), "{words}");
    }
}
