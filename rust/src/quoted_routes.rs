//! Random networks whose links, in the order of their numbers, make a route to be quoted: any number of frames per cycle, rates
//! that rise and fall, ranges, least holds and free frames by which ways tie and windows pass the cycle's end.

use crate::network_file::{Link, Network, ABSENT};
use crate::networks::{draw_least_holds, draw_long_holds, draw_short_holds, fit};
use crate::random::Random;
use crate::route::{ones, MAX_HOPS};

/// The longest cycle, in ticks.
const MOST_TICKS: u32 = 960;

/// A network whose links make a route. Half of the routes have 8 hops.
pub fn network(random: &mut Random) -> Network {
    match random.below(30) {
        0 => tied_network(random),
        _ => any_network(random),
    }
}

fn any_network(random: &mut Random) -> Network {
    let hops = match random.below(2) {
        0 => MAX_HOPS,
        _ => random.between(1, MAX_HOPS - 1),
    };
    let rates = rates(random, hops);
    let ticks = cycle(random, &rates);
    let words = random.pick(&WORDS);
    let regular = Regular::random(random);
    let free = |random: &mut Random, j| words.free(random, &rates, j, regular);
    let links = (0..hops).map(|j| Link {
        frames: rates[j],
        range: words.range(random, rates[j]),
        closed: ones(rates[j]) & !free(random, j),
        least: ABSENT.least,
    });
    let mut links: Vec<Link> = links.collect();
    words.draw_least_holds(random, &mut links);
    Network { ticks, links }
}

/// Five links of one rate, and three of falling ones. Ways from the first to the fifth, where every so many frames are free,
/// have time to spare, and tie by where they spend it; then frames of equal delay meet.
fn tied_network(random: &mut Random) -> Network {
    let every = random.pick(&[3, 5]);
    let rates = tied_rates(random, every);
    let ticks = cycle(random, &rates);
    let from = random.below(every as usize) as u32;
    let regular = Regular { every, from };
    let links = rates.iter().enumerate().map(|(j, &frames)| {
        let free = match j {
            0 | 4 => regular.free(frames),
            _ => ones(frames),
        };
        Link {
            frames,
            range: range(random, frames).max(3).min(frames),
            closed: ones(frames) & !free,
            least: ABSENT.least,
        }
    });
    let mut links: Vec<Link> = links.collect();
    draw_short_holds(random, &mut links);
    Network { ticks, links }
}

// ---- Frames per cycle ----

/// How the frames per cycle go on from hop to hop.
#[derive(Clone, Copy, PartialEq, Eq)]
enum Steps {
    Equal,
    Any,
    Falling,
    Rising,
    BetweenTwo,
}

const STEPS: [Steps; 8] = [
    Steps::Equal,
    Steps::Any,
    Steps::Any,
    Steps::Any,
    Steps::Falling,
    Steps::Falling,
    Steps::Rising,
    Steps::BetweenTwo,
];

/// The frames per cycle of each hop, each dividing the next or divided by it: any number from 1 to 64 at one of the hops, and
/// from there on to both sides.
fn rates(random: &mut Random, hops: usize) -> Vec<u32> {
    let steps = random.pick(&STEPS);
    let mut rates = vec![random.between(1, 64) as u32];
    while rates.len() < hops {
        let before = random.chance(50);
        let beside = if before {
            rates[0]
        } else {
            rates[rates.len() - 1]
        };
        let rate = match steps {
            Steps::Equal => beside,
            Steps::BetweenTwo if rates.len() > 1 => random.pick(&rates),
            _ => next_rate(random, &rates, beside, |rate| match steps {
                Steps::Falling => (rate > beside) == before,
                Steps::Rising => (rate < beside) == before,
                _ => true,
            }),
        };
        rates.insert(if before { 0 } else { rates.len() }, rate);
    }
    rates
}

/// Five times one rate, and three falling ones. The first of these is so slow that one of its frames lasts as long as two regular
/// frames are apart, or longer.
fn tied_rates(random: &mut Random, every: u32) -> Vec<u32> {
    loop {
        let mut rates = vec![random.between(1, 64) as u32; 5];
        while rates.len() < MAX_HOPS {
            let beside = rates[rates.len() - 1];
            rates.push(next_rate(random, &rates, beside, |rate| rate < beside));
        }
        let falls = rates[4..].windows(2).all(|pair| pair[0] > pair[1]);
        if falls && rates[4] >= 2 * every * rates[5] {
            return rates;
        }
    }
}

/// A rate beside another, in two of three cases one that differs where there is one; a single frame, which fits everywhere,
/// comes less often.
fn next_rate(
    random: &mut Random,
    rates: &[u32],
    beside: u32,
    is_wished: impl Fn(u32) -> bool,
) -> u32 {
    let cycle = rates.iter().copied().fold(1, common_multiple);
    let mut others: Vec<u32> = (1..=64)
        .filter(|&rate| rate != beside && fit(rate, beside) && is_wished(rate))
        .filter(|&rate| common_multiple(cycle, rate) <= MOST_TICKS)
        .collect();
    if others.len() > 1 && others[0] == 1 && random.chance(75) {
        others.remove(0);
    }
    if others.is_empty() || random.chance(33) {
        beside
    } else {
        random.pick(&others)
    }
}

/// The least common multiple.
fn common_multiple(a: u32, b: u32) -> u32 {
    let (mut divisor, mut rest) = (a, b);
    while rest > 0 {
        (divisor, rest) = (rest, divisor % rest);
    }
    a / divisor * b
}

/// A cycle that all rates divide, now and then the longest.
fn cycle(random: &mut Random, rates: &[u32]) -> u32 {
    let least = rates.iter().copied().fold(1, common_multiple);
    let most = MOST_TICKS / least;
    let times = match random.below(3) {
        0 => most,
        _ => random.between(1, most as usize) as u32,
    };
    least * times
}

// ---- Free frames ----

/// What the free frames of a route's hops are: all; all or every so many of them; one at the first and the last hop and most
/// between them; of any sort; most; the same single one.
#[derive(Clone, Copy)]
enum Words {
    All,
    Regular,
    SingleEnds,
    Any,
    Most,
    SameFrame,
}

const WORDS: [Words; 13] = [
    Words::All,
    Words::Regular,
    Words::Regular,
    Words::Regular,
    Words::Regular,
    Words::SingleEnds,
    Words::SingleEnds,
    Words::Any,
    Words::Any,
    Words::Any,
    Words::Most,
    Words::Most,
    Words::SameFrame,
];

/// Every so many frames from one on.
#[derive(Clone, Copy)]
struct Regular {
    every: u32,
    from: u32,
}

impl Regular {
    fn random(random: &mut Random) -> Self {
        let every = random.pick(&[2, 2, 3, 3, 4, 5]);
        let from = random.below(every as usize) as u32;
        Regular { every, from }
    }

    fn free(self, frames: u32) -> u64 {
        let regular = (self.from..frames).step_by(self.every as usize);
        regular.fold(0, |word, frame| word | 1 << frame)
    }
}

impl Words {
    /// The free frames of hop j.
    fn free(self, random: &mut Random, rates: &[u32], j: usize, regular: Regular) -> u64 {
        let frames = rates[j];
        match self {
            Words::All => ones(frames),
            Words::Regular if random.chance(35) => regular.free(frames),
            Words::Regular => ones(frames),
            Words::SingleEnds if j == 0 || j + 1 == rates.len() => single(random, frames),
            Words::SingleEnds | Words::Most => most(random, frames),
            Words::Any => any(random, frames, regular),
            Words::SameFrame => 1 << regular.from.min(frames - 1),
        }
    }

    /// The range of a link. Only no hold and the whole cycle lead back to the same frame.
    fn range(self, random: &mut Random, frames: u32) -> u32 {
        match self {
            Words::SameFrame => frames,
            _ => range(random, frames),
        }
    }

    /// The least holds of the links. Three of four times the whole cycle leads back to the same frame.
    fn draw_least_holds(self, random: &mut Random, links: &mut [Link]) {
        match self {
            Words::SameFrame if random.chance(75) => draw_long_holds(random, links),
            _ => draw_least_holds(random, links),
        }
    }
}

/// Free frames of any sort.
fn any(random: &mut Random, frames: u32, regular: Regular) -> u64 {
    match random.below(8) {
        0 | 1 => ones(frames),
        2 => single(random, frames),
        3 => around_the_end(random, frames),
        4 => regular.free(frames),
        5 | 6 => most(random, frames),
        _ => few(random, frames),
    }
}

fn single(random: &mut Random, frames: u32) -> u64 {
    1 << random.below(frames as usize)
}

/// The last frames of a cycle and its first ones.
fn around_the_end(random: &mut Random, frames: u32) -> u64 {
    let half = frames.div_ceil(2) as usize;
    let (last, first) = (random.between(1, half), random.between(1, half));
    let last = ones(frames) & !ones(frames - last as u32);
    last | ones(first as u32)
}

/// All frames, or three of four.
fn most(random: &mut Random, frames: u32) -> u64 {
    match random.below(2) {
        0 => ones(frames),
        _ => (random.word() | random.word()) & ones(frames),
    }
}

/// One of eight frames.
fn few(random: &mut Random, frames: u32) -> u64 {
    random.word() & random.word() & random.word() & ones(frames)
}

// ---- Ranges ----

/// A range: more often 1, 2, all frames but one, all frames, and one that doesn't divide their number.
fn range(random: &mut Random, frames: u32) -> u32 {
    let unfit: Vec<u32> = (2..frames).filter(|range| frames % range != 0).collect();
    match random.below(12) {
        0 => 1,
        1 => frames.min(2),
        2 => frames.max(2) - 1,
        3 | 4 => frames,
        5..=8 if !unfit.is_empty() => random.pick(&unfit),
        _ => random.between(1, frames as usize) as u32,
    }
}

#[cfg(test)]
mod tests {
    use super::*;
    use crate::model::check_route;
    use crate::network_file::check_network;

    #[test]
    fn networks_and_routes_are_good() {
        let mut random = Random::new(21);
        for _ in 0..10_000 {
            let network = network(&mut random);
            let route: Vec<u8> = (0..network.links.len() as u8).collect();
            assert_eq!(check_network(&network), Ok(()));
            assert_eq!(check_route(&network, &route), Ok(()), "{network:?}");
        }
    }

    #[test]
    fn least_common_multiples() {
        assert_eq!(common_multiple(1, 61), 61);
        assert_eq!(common_multiple(48, 64), 192);
        assert_eq!(common_multiple(60, 15), 60);
        assert_eq!(common_multiple(7, 9), 63);
    }

    #[test]
    fn tied_rates_fall() {
        let mut random = Random::new(25);
        for _ in 0..100 {
            let rates = tied_rates(&mut random, 3);
            assert_eq!(rates[..5], [rates[0]; 5]);
            assert!(rates[4] >= 6 * rates[5] && rates[5] > rates[6] && rates[6] > rates[7]);
        }
    }

    #[test]
    fn runs_go_round_the_end() {
        let mut random = Random::new(22);
        for frames in 1..=64 {
            let free = around_the_end(&mut random, frames);
            assert_eq!(free & !ones(frames), 0);
            assert!(free & 1 == 1 && free >> (frames - 1) == 1);
        }
        let every = Regular { every: 3, from: 1 };
        assert_eq!(every.free(8), 0b1001_0010);
        assert_eq!(every.free(1), 0);
    }
}
