//! Random inputs of the program: a network file and a list of calls.

use crate::call_records::{push_long_release, push_long_set_up};
use crate::call_records::{push_quote, push_release, push_set_up};
use crate::model::{Run, INPUT_LIMIT};
use crate::network_file::{image, Network};
use crate::networks::{
    closed_frames, damaged, fit, listed_network, network, roomy_network, Closing,
};
use crate::random::Random;
use crate::route::MAX_HOPS;

/// One input of the program.
pub struct Input {
    pub file: Vec<u8>,
    pub calls: Vec<u8>,
}

/// An input, how many there have been with it, and the model's run on it.
#[derive(Clone, Copy)]
pub struct Case<'a> {
    pub input: &'a Input,
    pub inputs: usize,
    pub run: &'a Run,
}

// ---- Whole inputs ----

/// One random input. Most are short; the long lists are rare.
pub fn input(random: &mut Random) -> Input {
    match random.below(10_000) {
        0..=2 => over_the_limit(random),
        3..=10 => at_the_limit(random),
        11..=22 => long_list(random),
        23..=72 => full_ledger(random),
        73..=2_499 => damaged_input(random),
        2_500..=2_999 => random_bytes(random),
        3_000..=5_499 => short_list(random, 64),
        5_500..=6_499 => nearly_full(random),
        6_500..=7_999 => listed_routes(random),
        _ => short_list(random, 8),
    }
}

/// A few calls on a network with up to so many frames per cycle.
fn short_list(random: &mut Random, most_frames: u32) -> Input {
    let network = network(random, most_frames);
    let numbers = random.between(1, 6);
    let number_of_calls = random.below(13);
    mixed_list(random, &network, number_of_calls, numbers)
}

/// Many calls on one network.
fn long_list(random: &mut Random) -> Input {
    let most_frames = random.pick(&[8, 16, 64]);
    let network = network(random, most_frames);
    let numbers = random.pick(&[3, 20, 200]);
    let number_of_calls = random.between(200, 600);
    mixed_list(random, &network, number_of_calls, numbers)
}

/// So many mixed calls on a network, now and then cut off or with an unknown kind among them.
fn mixed_list(random: &mut Random, network: &Network, number: usize, numbers: usize) -> Input {
    let mut calls = mixed_calls(random, network, number, numbers);
    spoil(random, &mut calls);
    Input {
        file: image(network),
        calls,
    }
}

/// Set-ups on few free frames, so that schedules run out.
fn nearly_full(random: &mut Random) -> Input {
    let most_frames = random.pick(&[4, 8, 16]);
    let mut network = network(random, most_frames);
    for link in &mut network.links {
        link.closed = closed_frames(random, link.frames, Closing::NearlyAll);
    }
    let mut calls = Vec::new();
    let pool = Pool::new(random, 8);
    for _ in 0..random.between(2, 10) {
        let number = pool.number(random);
        let route = good_route(random, &network);
        match random.below(6) {
            0 => release(random, number, &mut calls),
            1 => push_quote(&mut calls, &route),
            _ => set_up(random, number, &route, &mut calls),
        }
    }
    Input {
        file: image(&network),
        calls,
    }
}

/// Quotes over a route that can be listed, over its parts and the way back, with a few sessions among them.
fn listed_routes(random: &mut Random) -> Input {
    let network = listed_network(random);
    let mut calls = Vec::new();
    let pool = Pool::new(random, 4);
    for _ in 0..random.between(3, 9) {
        let number = pool.number(random);
        let route = part_of_all(random, &network);
        match random.below(8) {
            0 | 1 => set_up(random, number, &route, &mut calls),
            2 => release(random, number, &mut calls),
            _ => push_quote(&mut calls, &route),
        }
    }
    Input {
        file: image(&network),
        calls,
    }
}

/// Calls of random bytes, most of them small so that whole records come up.
fn random_bytes(random: &mut Random) -> Input {
    let network = network(random, 16);
    let length = random.below(40);
    let bound = random.pick(&[4, 6, 8, 256]);
    Input {
        file: image(&network),
        calls: (0..length).map(|_| random.below(bound) as u8).collect(),
    }
}

/// Set-ups that fill all 96 places, and then some calls on the full ledger. The numbers follow one another, or have the same
/// low 16 bits.
pub fn full_ledger(random: &mut Random) -> Input {
    let network = roomy_network(random);
    let open_links = network.links.len() - 1;
    let any = random.word() as u32;
    let first = random.pick(&[0, 65_500, any]);
    let distance = random.pick(&[1, 65_536]);
    let number = |step: usize| first.wrapping_add(step as u32 * distance);
    let mut calls = Vec::new();
    for step in 0..random.pick(&[94, 95, 96, 96, 97, 98]) {
        let link = (step % open_links) as u8;
        set_up(random, number(step), &[link], &mut calls);
    }
    for _ in 0..random.between(4, 40) {
        let number = number(random.below(130));
        let route = some_route(random, &network);
        match random.below(4) {
            0 => release(random, number, &mut calls),
            1 => push_quote(&mut calls, &route),
            _ => set_up(random, number, &route, &mut calls),
        }
    }
    Input {
        file: image(&network),
        calls,
    }
}

/// A list around or over the bytes that count, with a record that ends at the limit or lies across it.
pub fn over_the_limit(random: &mut Random) -> Input {
    let network = network(random, 8);
    let pool = limit_pool(random);
    let last = last_record(random, &pool);
    let last_start = INPUT_LIMIT - random.below(last.len() + 2);
    let mut calls = filled(last_start, LONGEST_RECORD, |calls| {
        good_call(random, &network, &pool, calls)
    });
    if random.chance(80) {
        calls.extend(last);
    }
    if random.chance(60) {
        for _ in 0..random.below(100) {
            good_call(random, &network, &pool, &mut calls);
        }
        let more = random.pick(&[0, 0, 1, 100_000]);
        calls.extend(random.bytes(more));
    }
    Input {
        file: image(&network),
        calls,
    }
}

/// A list of as many bytes as count, of one less or of one more. Its last byte ends a record, or begins one that can't be
/// read. Long records, which are refused, make up most of it, so that it takes little time.
fn at_the_limit(random: &mut Random) -> Input {
    let network = network(random, 8);
    let pool = limit_pool(random);
    let length = INPUT_LIMIT - 1 + random.below(3);
    let last = match random.below(4) {
        0 => Vec::new(),
        1 | 2 => last_record(random, &pool),
        _ => vec![random.below(8) as u8],
    };
    let mut calls = filled(length - last.len(), LONGEST_RECORD, |calls| {
        match random.below(2) {
            0 => push_quote(calls, &[0; 255]),
            _ => good_call(random, &network, &pool, calls),
        }
    });
    calls.extend(last);
    Input {
        file: image(&network),
        calls,
    }
}

/// The session numbers of a list around the limit.
fn limit_pool(random: &mut Random) -> Pool {
    let size = random.pick(&[2, 8, 100]);
    Pool::new(random, size)
}

/// A short record for the end of a list around the limit: a release, or a set-up of the largest number of its kind.
fn last_record(random: &mut Random, pool: &Pool) -> Vec<u8> {
    let mut record = Vec::new();
    let number = pool.number(random);
    match random.below(4) {
        0 | 1 => release(random, number, &mut record),
        2 => push_set_up(&mut record, u16::MAX, &[0]),
        _ => push_long_set_up(&mut record, u32::MAX, &[0]),
    }
    record
}

/// The longest record is that of a set-up over 255 links with a number of four bytes.
const LONGEST_RECORD: usize = 6 + 255;

/// Whole records of so many bytes together: calls of at most `longest` bytes each, and short ones where no such call fits.
fn filled(length: usize, longest: usize, mut call: impl FnMut(&mut Vec<u8>)) -> Vec<u8> {
    let mut calls = Vec::with_capacity(length);
    while calls.len() + longest + 2 <= length {
        call(&mut calls);
    }
    pad(&mut calls, length);
    calls
}

/// Fills up to the length with short whole records, two or three bytes each.
fn pad(calls: &mut Vec<u8>, length: usize) {
    while calls.len() + 3 < length {
        push_quote(calls, &[]);
    }
    match length - calls.len() {
        3 => push_release(calls, 65_535),
        _ => push_quote(calls, &[]),
    }
}

/// A file with a fault, most often, and a few calls that are then never served.
fn damaged_input(random: &mut Random) -> Input {
    let network = network(random, 64);
    let calls = mixed_calls(random, &network, 3, 2);
    Input {
        file: damaged(random, &network),
        calls,
    }
}

// ---- Call lists ----

/// Calls with session numbers from a pool of the given size; some of their routes are refused.
fn mixed_calls(random: &mut Random, network: &Network, number: usize, numbers: usize) -> Vec<u8> {
    let mut calls = Vec::new();
    let pool = Pool::new(random, numbers);
    for _ in 0..number {
        good_call(random, network, &pool, &mut calls);
    }
    calls
}

/// So many bytes of calls with 150 session numbers of two bytes, over routes of any of so many links.
pub fn calls_of_length(random: &mut Random, links: usize, length: usize) -> Vec<u8> {
    filled(length, 4 + MAX_HOPS, |calls| {
        let number = random.below(150) as u16;
        let hops = random.between(1, MAX_HOPS);
        let route = any_route(random, links, hops);
        match random.below(5) {
            0 | 1 => push_set_up(calls, number, &route),
            2 => push_quote(calls, &route),
            _ => push_release(calls, number),
        }
    })
}

/// One whole record.
fn good_call(random: &mut Random, network: &Network, pool: &Pool, calls: &mut Vec<u8>) {
    let number = pool.number(random);
    match random.below(10) {
        0..=4 => {
            let route = some_route(random, network);
            set_up(random, number, &route, calls);
        }
        5 | 6 => push_quote(calls, &some_route(random, network)),
        _ => release(random, number, calls),
    }
}

/// Adds a set-up; where two bytes are enough for its number, of either kind.
fn set_up(random: &mut Random, number: u32, route: &[u8], calls: &mut Vec<u8>) {
    match in_two_bytes(random, number) {
        Some(number) => push_set_up(calls, number, route),
        None => push_long_set_up(calls, number, route),
    }
}

/// Adds a release; where two bytes are enough for its number, of either kind.
fn release(random: &mut Random, number: u32, calls: &mut Vec<u8>) {
    match in_two_bytes(random, number) {
        Some(number) => push_release(calls, number),
        None => push_long_release(calls, number),
    }
}

/// The number in two bytes, in half of the cases where these are enough.
fn in_two_bytes(random: &mut Random, number: u32) -> Option<u16> {
    number.try_into().ok().filter(|_| random.chance(50))
}

/// The session numbers of a list, so many of these: 0, the upper bit, 1, 1 with the upper bit, 256, ..., all with the same bits
/// flipped. Some differ in the upper bit alone, some in the lowest byte alone, some in the second alone.
struct Pool {
    size: usize,
    upper: u32,
    flipped: u32,
}

impl Pool {
    /// A pool that begins with 0, with 65,535 or with the largest number; the upper bit is any of the upper 16.
    fn new(random: &mut Random, size: usize) -> Self {
        Pool {
            size,
            upper: 1 << random.between(16, 31),
            flipped: random.pick(&[0, 0, 0, 0x0000_ffff, 0xffff_ffff]),
        }
    }

    /// One of the numbers.
    fn number(&self, random: &mut Random) -> u32 {
        self.at(random.below(self.size) as u32)
    }

    /// The number at a place of the pool.
    fn at(&self, place: u32) -> u32 {
        let bit = |bit: u32| place >> bit & 1;
        let number = (bit(0) * self.upper) | bit(1) | bit(2) << 8 | place >> 3 << 1;
        number ^ self.flipped
    }
}

/// The route over all links in the order of their numbers, or a part of it, or the way back.
fn part_of_all(random: &mut Random, network: &Network) -> Vec<u8> {
    let mut route: Vec<u8> = (0..network.links.len() as u8).collect();
    if random.chance(30) {
        route.truncate(random.between(1, route.len()));
        route.drain(..random.below(route.len()));
    }
    if random.chance(50) {
        route.reverse();
    }
    route
}

/// A route, in about one of seven cases one that is likely refused.
fn some_route(random: &mut Random, network: &Network) -> Vec<u8> {
    if random.chance(85) {
        good_route(random, network)
    } else {
        bad_route(random, network)
    }
}

/// Distinct links of which each divides the next or is divided by it.
pub fn good_route(random: &mut Random, network: &Network) -> Vec<u8> {
    let first = random.below(network.links.len()) as u8;
    let length = random.between(1, MAX_HOPS).max(random.between(1, 4));
    good_route_from(random, network, first, length)
}

/// Distinct links from the first one on, each dividing the next or divided by it; so many where enough are found that fit.
pub fn good_route_from(
    random: &mut Random,
    network: &Network,
    first: u8,
    length: usize,
) -> Vec<u8> {
    let links = network.links.len();
    let mut route = vec![first];
    for _ in 0..3 * length {
        let next = random.below(links) as u8;
        let last = route[route.len() - 1];
        let (before, here) = (
            network.links[usize::from(last)].frames,
            network.links[usize::from(next)].frames,
        );
        if route.len() < length && fit(before, here) && !route.contains(&next) {
            route.push(next);
        }
    }
    route
}

/// A route of any of so many links; one may stand in it twice.
pub fn any_route(random: &mut Random, links: usize, length: usize) -> Vec<u8> {
    (0..length).map(|_| random.below(links) as u8).collect()
}

/// A route of so many distinct links, any of so many.
pub fn distinct_links(random: &mut Random, links: usize, length: usize) -> Vec<u8> {
    let mut rest: Vec<u8> = (0..links as u8).collect();
    (0..length)
        .map(|_| rest.swap_remove(random.below(rest.len())))
        .collect()
}

/// A route with a fault: empty, too long, an unknown link, a link twice, or any links at all.
pub fn bad_route(random: &mut Random, network: &Network) -> Vec<u8> {
    let links = network.links.len();
    let mut route = good_route(random, network);
    match random.below(7) {
        0 => route.clear(),
        1 => route = vec![random.below(links) as u8; random.pick(&[9, 9, 10, 200, 255])],
        2 => route = (0..9).collect(),
        3 => {
            let at = random.below(route.len());
            route[at] = random.pick(&[links as u8, links as u8 + 1, 32, 64, 255]);
        }
        4 => {
            let again = random.pick(&route);
            route.insert(random.below(route.len() + 1), again);
            if random.chance(30) {
                route.push(links as u8);
            }
        }
        _ => {
            let length = random.between(2, MAX_HOPS);
            route = any_route(random, links, length);
            if random.chance(70) {
                route = without_repeats(&route);
            }
        }
    }
    route
}

/// The route with each link only where it first stands.
fn without_repeats(route: &[u8]) -> Vec<u8> {
    let mut distinct = Vec::new();
    for &link in route {
        if !distinct.contains(&link) {
            distinct.push(link);
        }
    }
    distinct
}

/// Now and then cuts the list off or puts an unknown kind into it.
fn spoil(random: &mut Random, calls: &mut Vec<u8>) {
    match random.below(20) {
        0 | 1 => calls.truncate(random.below(calls.len() + 1)),
        2 => calls.push(random.pick(&UNKNOWN_KINDS)),
        3 => {
            let kind = random.pick(&UNKNOWN_KINDS);
            calls.insert(random.below(calls.len() + 1), kind);
        }
        4 => {
            let record = random.pick(&RECORDS);
            calls.extend(&record[..random.between(1, record.len() - 1)]);
        }
        5 => calls.extend([2, 200, 0, 1]),
        _ => {}
    }
}

/// Kinds that no record has.
const UNKNOWN_KINDS: [u8; 4] = [0, 6, 7, 255];

/// A record of each kind; those with a number of four bytes have more places to be cut at, and stand here twice.
const RECORDS: [&[u8]; 7] = [
    &[1, 0, 0, 2, 0, 1],
    &[2, 2, 0, 1],
    &[3, 0, 0],
    &[4, 0, 0, 0, 0, 2, 0, 1],
    &[4, 0, 0, 1, 0, 2, 0, 1],
    &[5, 0, 0, 0, 0],
    &[5, 0, 0, 1, 0],
];

/// The hops of a good route on a random network that holds no sessions.
#[cfg(test)]
pub fn some_hops(random: &mut Random) -> Vec<crate::route::Hop> {
    some_ticks_and_hops(random).1
}

/// The same, with the ticks of the network's cycle before them.
#[cfg(test)]
pub fn some_ticks_and_hops(random: &mut Random) -> (u32, Vec<crate::route::Hop>) {
    let network = network(random, 64);
    let route = good_route(random, &network);
    let hops = crate::model::hops_of(&network, &crate::model::Ledger::new(&network), &route);
    (network.ticks, hops[..route.len()].to_vec())
}

/// Hands some inputs, most of them short, with their runs by the model to a comparison, up to the first that differs.
#[cfg(test)]
pub fn compare_some(
    seed: u64,
    mut compare: impl FnMut(Case<'_>) -> Result<(), String>,
) -> Result<(), String> {
    let mut random = Random::new(seed);
    for inputs in 1..=1_500 {
        let input = &match inputs % 300 {
            0 => over_the_limit(&mut random),
            297.. => full_ledger(&mut random),
            _ => input(&mut random),
        };
        let run = &crate::model::run(&input.file, &input.calls, crate::dijkstra::least);
        compare(Case { input, inputs, run })?;
    }
    Ok(())
}

#[cfg(test)]
mod tests {
    use super::*;
    use crate::call_records::read_call;
    use crate::listing;
    use crate::network_file::read_network;

    #[test]
    fn good_routes_are_good() {
        let mut random = Random::new(2);
        for _ in 0..10_000 {
            let network = network(&mut random, 64);
            let route = good_route(&mut random, &network);
            assert_eq!(crate::model::check_route(&network, &route), Ok(()));
        }
    }

    #[test]
    fn links_are_distinct() {
        let mut random = Random::new(7);
        for _ in 0..1_000 {
            let route = distinct_links(&mut random, 32, MAX_HOPS);
            assert_eq!(route.len(), MAX_HOPS);
            assert!(route.iter().all(|&link| link < 32));
            assert_eq!(without_repeats(&route), route);
        }
    }

    #[test]
    fn numbers_of_a_pool() {
        let pool = |flipped| Pool {
            size: 200,
            upper: 1 << 16,
            flipped,
        };
        let numbers = |flipped| [0, 1, 2, 3, 4, 8].map(|place| pool(flipped).at(place));
        assert_eq!(numbers(0), [0, 65_536, 1, 65_537, 256, 2]);
        assert_eq!(
            numbers(0xffff),
            [65_535, 131_071, 65_534, 131_070, 65_279, 65_533]
        );
        assert_eq!(numbers(u32::MAX)[..2], [4_294_967_295, 4_294_901_759]);
        let mut all: Vec<u32> = (0..200).map(|place| pool(0).at(place)).collect();
        all.sort();
        all.dedup();
        assert_eq!(all.len(), 200);
    }

    #[test]
    fn calls_are_whole_records_of_their_length() {
        let mut random = Random::new(5);
        for length in 2..1_000 {
            let calls = calls_of_length(&mut random, 32, length);
            assert_eq!(calls.len(), length);
            let mut rest = &calls[..];
            while !rest.is_empty() {
                let (_, used) = read_call(rest).expect("a whole record");
                rest = &rest[used..];
            }
        }
    }

    #[test]
    fn lists_end_at_the_limit_or_a_byte_beside_it() {
        let mut random = Random::new(6);
        let mut lengths: Vec<usize> = (0..50)
            .map(|_| at_the_limit(&mut random).calls.len())
            .collect();
        lengths.sort();
        lengths.dedup();
        assert_eq!(lengths, [65_535, 65_536, 65_537]);
    }

    #[test]
    fn padding_ends_at_its_length() {
        for start in 0..10 {
            for length in start + 2..start + 20 {
                let mut calls = vec![0; start];
                pad(&mut calls, length);
                assert_eq!(calls.len(), length);
            }
        }
    }

    #[test]
    fn routes_over_all_links_can_be_listed() {
        let mut random = Random::new(3);
        for _ in 0..10_000 {
            let network = listed_network(&mut random);
            assert_eq!(read_network(&image(&network)).as_ref(), Ok(&network));
            let paths = listing::paths(network.links.iter().map(|link| link.frames));
            assert!(paths <= listing::MOST_PATHS, "{network:?}");
            let route = part_of_all(&mut random, &network);
            assert_eq!(crate::model::check_route(&network, &route), Ok(()));
        }
    }
}
