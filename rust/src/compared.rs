//! The routes compared with the listing: how many of each sort there were, and how many there have to be.

use crate::least_holds::{self, sorts_of_routes, sorts_of_zeros};
use crate::listing::Listed;
use crate::route::{count_bound, Answer, Hop, MAX_HOPS};
use crate::sorts::{add_cycle, add_each, sort, sorts_of_cycles, sorts_of_hops, Sort};
use crate::sorts::{print_lines, too_few_in, Line};
use std::collections::HashSet;
use std::hash::{DefaultHasher, Hash, Hasher};

/// The routes compared with the listing. A route is its T and the K, Z, Y and free frames of its hops; one that was
/// compared before isn't of any sort again.
pub struct Compared {
    answers: usize,
    routes: HashSet<u64>,
    different: Sort,
    hops: [Sort; MAX_HOPS],
    /// The same for the routes that have a schedule.
    hops_of_schedules: [Sort; MAX_HOPS],
    /// Blocked; with a step to a faster link, to a slower one, and with both steps.
    steps: [Sort; 4],
    /// In the order of `Decided`; the same where the answer has a hold of 0.
    decided: [Sort; 5],
    decided_with_zero: [Sort; 5],
    last_cycles: [Sort; 3],
    /// With a link whose K has a prime factor above 3, and with T no multiple of 24.
    numbers: [Sort; 2],
    /// By their least holds: all, those that have a schedule, and those whose count is as large as it can be.
    least_holds: [Sort; 5],
    least_holds_of_schedules: [Sort; 5],
    least_holds_at_bound: [Sort; 5],
    /// Answers with a hold of 0.
    zeros: [Sort; 4],
}

/// A sort for each rule of the order.
fn sorts_of_rules(least: [usize; 5]) -> [Sort; 5] {
    const NAMES: [&str; 5] = [
        "delay",
        "last frame",
        "hold",
        "preceding frame",
        "only schedule",
    ];
    std::array::from_fn(|place| sort(NAMES[place], least[place]))
}

impl Default for Compared {
    fn default() -> Self {
        Compared {
            answers: 0,
            routes: HashSet::new(),
            different: sort("different", 200_000),
            hops: sorts_of_hops([
                20_000, 30_000, 40_000, 40_000, 20_000, 20_000, 10_000, 8_000,
            ]),
            hops_of_schedules: sorts_of_hops([
                20_000, 20_000, 20_000, 10_000, 5_000, 3_000, 2_000, 2_000,
            ]),
            steps: [
                sort("blocked", 100_000),
                sort("to a faster link", 100_000),
                sort("to a slower link", 100_000),
                sort("both", 80_000),
            ],
            decided: sorts_of_rules([20_000, 40_000, 3_000, 20_000, 8_000]),
            decided_with_zero: sorts_of_rules([7_000, 7_000, 700, 5_500, 800]),
            last_cycles: sorts_of_cycles([40_000, 30_000, 20_000]),
            numbers: [
                sort("K with a prime factor above 3:", 50_000),
                sort("T no multiple of 24:", 60_000),
            ],
            least_holds: sorts_of_routes([80_000, 60_000, 45_000, 70_000, 8_000]),
            least_holds_of_schedules: sorts_of_routes([30_000, 20_000, 15_000, 20_000, 2_000]),
            least_holds_at_bound: sorts_of_routes([6_000, 3_500, 2_500, 3_500, 450]),
            zeros: sorts_of_zeros([20_000, 6_500, 7_000, 9_000]),
        }
    }
}

impl Compared {
    /// Compares the answers that a text shows with those of the listing, and counts their routes; what differs, in words.
    /// The searches are those of the model for these answers in turn, nothing where a route wasn't listed.
    pub fn compare(&mut self, text: &str, searches: &[Option<Listed>]) -> Result<(), String> {
        let answers: Vec<Answer> = text.lines().filter_map(answer).collect();
        if answers.len() != searches.len() {
            return Err(
                "the text doesn't have one answer for each search of the model".to_string(),
            );
        }
        for (answer, search) in answers.iter().zip(searches) {
            let Some(listed) = search else {
                continue;
            };
            if listed.answer != *answer {
                let listing = &listed.answer;
                return Err(format!(
                    "the text's answer isn't the listing's\ntext: {answer:?}\nlisting: {listing:?}"
                ));
            }
            self.add(listed)?;
        }
        Ok(())
    }

    /// Counts a route whose answer was compared with the listing's; what is wrong with the answer itself, in words.
    fn add(&mut self, listed: &Listed) -> Result<(), String> {
        self.answers += 1;
        let is_new = self.routes.insert(fingerprint(listed.ticks, &listed.hops));
        if is_new {
            self.add_different(listed);
            self.add_least_holds(listed)?;
        }
        Ok(())
    }

    fn add_different(&mut self, listed: &Listed) {
        let hops = &listed.hops;
        self.different.add(true);
        self.hops[hops.len() - 1].add(true);
        let (faster, slower) = (has_step(hops, u32::lt), has_step(hops, u32::gt));
        let steps = [listed.decided.is_none(), faster, slower, faster && slower];
        let above_3 = hops.iter().any(|hop| has_factor_above_3(hop.frames));
        let numbers = [above_3, listed.ticks % 24 != 0];
        add_each(&mut self.steps, &steps);
        add_each(&mut self.numbers, &numbers);
        if let (Some(decided), Answer::Found { cycles, .. }) = (listed.decided, &listed.answer) {
            self.hops_of_schedules[hops.len() - 1].add(true);
            self.decided[decided as usize].add(true);
            add_cycle(&mut self.last_cycles, cycles[hops.len() - 1].into());
        }
    }

    fn add_least_holds(&mut self, listed: &Listed) -> Result<(), String> {
        let hops = &listed.hops;
        let sorts = least_holds::route(hops);
        add_each(&mut self.least_holds, &sorts);
        if is_count_at_bound(hops, &listed.answer)? {
            add_each(&mut self.least_holds_at_bound, &sorts);
        }
        if let (Some(decided), Answer::Found { frames, cycles, .. }) =
            (listed.decided, &listed.answer)
        {
            add_each(&mut self.least_holds_of_schedules, &sorts);
            let zeros = least_holds::zeros(hops, frames, cycles)?;
            add_each(&mut self.zeros, &zeros);
            self.decided_with_zero[decided as usize].add(zeros[0]);
        }
        Ok(())
    }

    /// The sorts line by line, each line with the words before it.
    fn lines(&self) -> [Line<'_>; 11] {
        [
            ("of ", &self.hops),
            ("not blocked: of ", &self.hops_of_schedules),
            ("", &self.steps),
            ("decided by ", &self.decided),
            ("last hop in cycle ", &self.last_cycles),
            ("", &self.numbers),
            ("later Y: ", &self.least_holds),
            ("not blocked: later Y: ", &self.least_holds_of_schedules),
            ("count at its bound: later Y: ", &self.least_holds_at_bound),
            ("holds of 0: ", &self.zeros),
            ("holds of 0: decided by ", &self.decided_with_zero),
        ]
    }

    /// Prints what was seen.
    pub fn print(&self) {
        let (answers, different) = (self.answers, &self.different);
        println!("listed routes: {answers} compared, 0 differed, {different}");
        print_lines(&self.lines());
    }

    /// The first sort of which too few were seen, in words.
    pub fn too_few(&self) -> Option<String> {
        let different = self.different.too_few();
        different.or_else(|| too_few_in(&self.lines()))
    }
}

/// Is the count of an answer the most that it can be? That it is more, in words.
pub fn is_count_at_bound(hops: &[Hop], answer: &Answer) -> Result<bool, String> {
    let (Answer::Found { count, .. } | Answer::Blocked { count }) = answer;
    let bound = count_bound(hops);
    if *count > bound {
        return Err(format!("the count {count} is above its bound {bound}"));
    }
    Ok(*count == bound)
}

/// The answer that a line of a text shows, if it shows one: a schedule, or that there is none.
fn answer(line: &str) -> Option<Answer> {
    let words: Vec<&str> = line.split(' ').collect();
    match words[..] {
        [_, _, "ok", delay, count, ref hops @ ..] => {
            let slash = hops.iter().position(|&word| word == "/")?;
            Some(Answer::Found {
                delay: delay.parse().ok()?,
                count: count.parse().ok()?,
                frames: numbers(&hops[..slash])?,
                cycles: numbers(&hops[slash + 1..])?,
            })
        }
        [_, _, "no", "18", count] => Some(Answer::Blocked {
            count: count.parse().ok()?,
        }),
        _ => None,
    }
}

/// The numbers of some words, if each is one.
fn numbers(words: &[&str]) -> Option<Vec<u8>> {
    words.iter().map(|word| word.parse().ok()).collect()
}

/// A number that tells different routes apart; should two share one, only the first is counted.
pub fn fingerprint(ticks: u32, hops: &[Hop]) -> u64 {
    let mut hasher = DefaultHasher::new();
    (ticks, hops).hash(&mut hasher);
    hasher.finish()
}

/// Do the K of some hop and the next one compare so?
pub fn has_step(hops: &[Hop], compare: fn(&u32, &u32) -> bool) -> bool {
    hops.windows(2)
        .any(|pair| compare(&pair[0].frames, &pair[1].frames))
}

/// Is something left of the number when all factors 2 and 3 are taken out?
fn has_factor_above_3(mut number: u32) -> bool {
    for factor in [2, 3] {
        while number % factor == 0 {
            number /= factor;
        }
    }
    number > 1
}

#[cfg(test)]
mod tests {
    use super::*;
    use crate::inputs::{self, Input};
    use crate::listing::{self, MOST_PATHS};
    use crate::question_four::{eight, held_from};
    use crate::random::Random;
    use crate::route::ones;
    use crate::{dijkstra, model, wrong};
    use std::cell::RefCell;

    /// The routes compared in turn: T, and the K of each hop; Z is K, and every frame is free.
    fn compared(routes: &[(u32, &[u32])]) -> Compared {
        let mut compared = Compared::default();
        for (ticks, rates) in routes {
            let all_free = |&frames: &u32| Hop {
                frames,
                range: frames,
                least: 1,
                free: ones(frames),
            };
            let hops: Vec<Hop> = rates.iter().map(all_free).collect();
            let added = compared.add(&listing::list(*ticks, &hops));
            assert_eq!(added, Ok(()));
        }
        compared
    }

    /// The model's text, and the listing of each of its searches whose route is short enough.
    fn listed_run(input: &Input) -> (Vec<u8>, Vec<Option<Listed>>) {
        let searches = RefCell::new(Vec::new());
        let least = |ticks, hops: &[Hop]| {
            let is_short = listing::paths(hops.iter().map(|hop| hop.frames)) <= MOST_PATHS;
            let listed = is_short.then(|| listing::list(ticks, hops));
            searches.borrow_mut().push(listed);
            dijkstra::least(ticks, hops)
        };
        let text = model::transcript(&input.file, &input.calls, least);
        (text, searches.take())
    }

    /// What the listing alone finds in the text.
    fn found(compared: &mut Compared, text: &[u8], searches: &[Option<Listed>]) -> Option<String> {
        let text = std::str::from_utf8(text).expect("the text is plain");
        compared.compare(text, searches).err()
    }

    #[test]
    fn another_answer_in_a_text_is_found() {
        for wrong in wrong::wrong_searches() {
            let mut compared = Compared::default();
            let mut random = Random::new(13);
            let is_found = (0..2_000).any(|_| {
                let input = inputs::input(&mut random);
                let (right, searches) = listed_run(&input);
                assert_eq!(found(&mut compared, &right, &searches), None);
                let text = (wrong.does)(&input.file, &input.calls);
                let words = found(&mut compared, &text, &searches);
                words.is_some_and(|words| words.starts_with("the text's answer isn't"))
            });
            assert!(is_found, "{}", wrong.name);
        }
    }

    #[test]
    fn an_answer_too_few_or_unreadable_is_found() {
        let searches = || vec![Some(listing::list(24, &[eight(&[3, 5])]))];
        let found = |text| Compared::default().compare(text, &searches()).is_err();
        assert!(!found("1 Q ok 0 0 3 / 0\n2 R ok\nlive 0\n"));
        assert!(found("1 Q ok 0 0 5 / 0\nlive 0\n"));
        assert!(found("1 Q ok 0 0 3 0 / 0\nlive 0\n"));
        assert!(found("1 Q ok 0 0 3 / 1\nlive 0\n"));
        assert!(found("1 Q ok 0 0 3 / 0 0\nlive 0\n"));
        assert!(found("1 Q ok 0 0 3 /\nlive 0\n"));
        assert!(found("1 Q ok 0 0 3\nlive 0\n"));
        assert!(found("1 Q no 18 0\nlive 0\n"));
        assert!(found("1 Q ok 0 0 x / 0\nlive 0\n"));
        assert!(found("1 Q ok 0 0 3 / x\nlive 0\n"));
        assert!(found("1 R ok\nlive 0\n"));
        assert!(found("1 Q ok 0 0 3 / 0\n2 Q ok 0 0 3 / 0\nlive 0\n"));
    }

    fn seen(sorts: &[Sort]) -> Vec<usize> {
        sorts.iter().map(|sort| sort.seen).collect()
    }

    #[test]
    fn steps_to_faster_and_slower_links() {
        let routes: [(u32, &[u32]); 5] = [
            (24, &[4, 4]),
            (24, &[4, 8, 8]),
            (24, &[8, 8, 4]),
            (24, &[4, 8, 4]),
            (24, &[8, 2, 4]),
        ];
        let compared = compared(&routes);
        assert_eq!(seen(&compared.steps), [0, 3, 3, 2]);
        assert_eq!(seen(&compared.hops), [0, 1, 4, 0, 0, 0, 0, 0]);
    }

    #[test]
    fn factors_and_cycles() {
        let routes: [(u32, &[u32]); 5] = [
            (24, &[1, 2, 3]),
            (120, &[3, 15]),
            (48, &[16]),
            (36, &[12, 36]),
            (77, &[11]),
        ];
        assert_eq!(seen(&compared(&routes).numbers), [2, 2]);
        let plain: Vec<u32> = (1..=64).filter(|&k| !has_factor_above_3(k)).collect();
        assert_eq!(
            plain,
            [1, 2, 3, 4, 6, 8, 9, 12, 16, 18, 24, 27, 32, 36, 48, 54, 64]
        );
    }

    #[test]
    fn blocked_or_decided() {
        let mut compared = compared(&[(24, &[8]), (24, &[8, 8]), (24, &[1]), (24, &[2, 1])]);
        let closed = Hop {
            frames: 8,
            range: 8,
            least: 1,
            free: 0,
        };
        assert_eq!(compared.add(&listing::list(24, &[closed])), Ok(()));
        assert_eq!(seen(&compared.steps), [1, 0, 1, 0]);
        assert_eq!(seen(&compared.decided), [0, 2, 0, 1, 1]);
        assert_eq!(compared.hops[0].seen, 3);
        assert_eq!(compared.hops_of_schedules[0].seen, 2);
    }

    #[test]
    fn cycles_of_the_last_hop() {
        // With K 1 each hop is a cycle later. Over K 8 and K 4 frames 6 0 are found: reference frame 3 and hold 1.
        let routes: [(u32, &[u32]); 4] = [(24, &[1]), (24, &[1; 2]), (24, &[1; 8]), (24, &[8, 4])];
        assert_eq!(seen(&compared(&routes).last_cycles), [1, 2, 1]);
    }

    #[test]
    fn routes_and_answers_by_their_least_holds() {
        let all: Vec<u32> = (0..8).collect();
        let (one, none) = (eight(&all), held_from(0, 8, 2, &all));
        let mut compared = Compared::default();
        // 7 0; 0 0 without a hold; 7 0 0, the last without one; and 6 0 with a hold of 2. Of each the count is 8 times the holds.
        for route in [
            &[one, one][..],
            &[one, none],
            &[one, one, none],
            &[one, held_from(2, 8, 3, &all)],
        ] {
            assert_eq!(compared.add(&listing::list(48, route)), Ok(()));
        }
        assert_eq!(seen(&compared.least_holds), [1, 2, 1, 1, 0]);
        assert_eq!(seen(&compared.least_holds_of_schedules), [1, 2, 1, 1, 0]);
        assert_eq!(seen(&compared.least_holds_at_bound), [1, 2, 1, 1, 0]);
        assert_eq!(seen(&compared.zeros), [2, 1, 0, 1]);
        assert_eq!(seen(&compared.decided_with_zero), [0, 2, 0, 0, 0]);
        // Blocked, with a count below the bound.
        let blocked = [eight(&[3]), held_from(0, 8, 2, &[6])];
        assert_eq!(compared.add(&listing::list(48, &blocked)), Ok(()));
        assert_eq!(seen(&compared.least_holds), [1, 3, 1, 1, 0]);
        assert_eq!(seen(&compared.least_holds_of_schedules), [1, 2, 1, 1, 0]);
        assert_eq!(seen(&compared.least_holds_at_bound), [1, 2, 1, 1, 0]);
    }

    #[test]
    fn counts_above_their_bound_are_found() {
        let all: Vec<u32> = (0..8).collect();
        let hops = [eight(&all), held_from(0, 8, 2, &all)];
        let at_bound = |count| is_count_at_bound(&hops, &Answer::Blocked { count });
        assert_eq!(at_bound(23), Ok(false));
        assert_eq!(at_bound(24), Ok(true));
        assert!(at_bound(25).is_err());
    }

    #[test]
    fn a_route_is_of_a_sort_once() {
        let compared = compared(&[(24, &[8]), (24, &[8]), (48, &[8]), (48, &[4])]);
        assert_eq!(compared.answers, 4);
        assert_eq!(compared.different.seen, 3);
        assert_eq!(compared.hops[0].seen, 3);
    }

    #[test]
    fn too_few_are_named() {
        let mut compared = Compared::default();
        compared.different.seen = compared.different.least;
        for sorts in [
            &mut compared.hops[..],
            &mut compared.hops_of_schedules,
            &mut compared.steps,
            &mut compared.decided,
            &mut compared.decided_with_zero,
            &mut compared.last_cycles,
            &mut compared.numbers,
            &mut compared.least_holds,
            &mut compared.least_holds_of_schedules,
            &mut compared.least_holds_at_bound,
            &mut compared.zeros,
        ] {
            assert!(sorts.iter().all(|sort| sort.least > 0));
            sorts.iter_mut().for_each(|sort| sort.seen = sort.least);
        }
        assert_eq!(compared.too_few(), None);
        compared.decided[2].seen = 0;
        let words = compared.too_few().unwrap();
        assert!(words.starts_with("decided by hold 0, "), "{words}");
    }
}
