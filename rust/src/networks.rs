//! Random networks, files with faults, and values for the writer.

use crate::listing;
use crate::network_file::{Draft, Link, Network, Record, Values, ABSENT};
use crate::random::Random;
use crate::route::{self, MAX_HOPS};

/// How many frames of a link are closed.
#[derive(Clone, Copy)]
pub enum Closing {
    None,
    Some,
    Half,
    ExactlyHalf,
    NearlyAll,
}

/// The closings of networks for the cross-check.
const CLOSINGS: [Closing; 4] = [
    Closing::None,
    Closing::Some,
    Closing::Half,
    Closing::NearlyAll,
];

/// What the forwarding ranges of links are: the whole cycle, narrow, any, or the value of the absent field.
#[derive(Clone, Copy)]
enum Ranges {
    WholeCycle,
    Narrow,
    Any,
    Absent,
}

const RANGES: [Ranges; 4] = [
    Ranges::WholeCycle,
    Ranges::Narrow,
    Ranges::Any,
    Ranges::Absent,
];

/// What the least holds of links are: the value of the absent field, none, two frames and more, or the range itself.
#[derive(Clone, Copy)]
enum LeastHolds {
    Absent,
    None,
    Longer,
    Range,
}

/// The least holds of the links of a network: of one sort, or for each link of another.
const LEAST_HOLDS: [&[LeastHolds]; 8] = [
    &[LeastHolds::Absent],
    &[LeastHolds::Absent],
    &[LeastHolds::Absent],
    &[LeastHolds::None],
    &[LeastHolds::Longer],
    &[LeastHolds::Absent, LeastHolds::None],
    &[LeastHolds::Absent, LeastHolds::None, LeastHolds::Longer],
    &[
        LeastHolds::Absent,
        LeastHolds::None,
        LeastHolds::Longer,
        LeastHolds::Range,
    ],
];

/// The same without any of 0.
const LONG_HOLDS: &[LeastHolds] = &[LeastHolds::Absent, LeastHolds::Longer, LeastHolds::Range];

/// A network whose links have up to `most_frames` frames.
pub fn network(random: &mut Random, most_frames: u32) -> Network {
    let ticks = cycle(random);
    let rates = rates(random, ticks, most_frames);
    let number = match random.below(10) {
        0..=2 => random.between(1, 4),
        3..=7 => random.between(5, 10),
        _ => random.between(11, 32),
    };
    let rates: Vec<u32> = (0..number).map(|_| random.pick(&rates)).collect();
    let closings = if random.chance(30) {
        CLOSINGS.to_vec()
    } else {
        vec![random.pick(&CLOSINGS)]
    };
    let ranges = random.pick(&RANGES);
    let mut links = links(random, &rates, ranges, &closings);
    draw_least_holds(random, &mut links);
    Network { ticks, links }
}

/// A network of 32 links with 8, 16, 32 or 64 frames, any range, some frames closed and least holds of 1.
pub fn large_network(random: &mut Random) -> Network {
    let rates: Vec<u32> = (0..32).map(|_| 8 << random.below(4)).collect();
    Network {
        ticks: 960,
        links: links(random, &rates, Ranges::Any, &[Closing::Some]),
    }
}

/// Links with these frames per cycle in turn, ranges of one kind and least holds of 1.
fn links(random: &mut Random, rates: &[u32], ranges: Ranges, closings: &[Closing]) -> Vec<Link> {
    rates
        .iter()
        .map(|&frames| {
            let closing = random.pick(closings);
            Link {
                frames,
                range: range(random, frames, ranges),
                closed: closed_frames(random, frames, closing),
                least: ABSENT.least,
            }
        })
        .collect()
}

/// Gives the links of a network other least holds.
pub fn draw_least_holds(random: &mut Random, links: &mut [Link]) {
    let sorts = random.pick(&LEAST_HOLDS);
    draw_from(random, links, sorts);
}

/// The same with least holds of 0 and 1 alone.
pub fn draw_short_holds(random: &mut Random, links: &mut [Link]) {
    let sorts = random.pick(&[LEAST_HOLDS[0], LEAST_HOLDS[3], LEAST_HOLDS[5]]);
    draw_from(random, links, sorts);
}

/// The same with least holds of 1 and more.
pub fn draw_long_holds(random: &mut Random, links: &mut [Link]) {
    let sorts = random.pick(&[LEAST_HOLDS[0], LEAST_HOLDS[0], LONG_HOLDS]);
    draw_from(random, links, sorts);
}

/// Gives each link a least hold of one of the sorts.
fn draw_from(random: &mut Random, links: &mut [Link], sorts: &[LeastHolds]) {
    for link in links {
        let sort = random.pick(sorts);
        set_least_hold(random, link, sort);
    }
}

/// Gives a link a least hold of a sort. A link with a least hold of 0 gets a range below K, and a link with a single frame none but
/// 1; for one of two frames and more the range is now and then made longer.
fn set_least_hold(random: &mut Random, link: &mut Link, sort: LeastHolds) {
    if let (LeastHolds::Longer, true) = (sort, random.chance(50)) {
        link.range = random.between(link.range as usize, link.frames as usize) as u32;
    }
    let from_two = random.between(2, link.range.max(2) as usize) as u32;
    link.least = match sort {
        LeastHolds::None if link.frames > 1 => 0,
        LeastHolds::Absent | LeastHolds::None => ABSENT.least,
        LeastHolds::Longer => from_two.min(link.range),
        LeastHolds::Range => link.range,
    };
    if link.least == 0 {
        link.range = link.range.min(link.frames - 1);
    }
}

/// A cycle: most often one with many divisors, now and then any.
fn cycle(random: &mut Random) -> u32 {
    match random.below(10) {
        0 => random.between(1, 960) as u32,
        1 => random.pick(&[1, 2, 3, 64, 780, 959]),
        _ => random.pick(&[48, 64, 96, 192, 240, 360, 720, 840, 960]),
    }
}

/// The frames per cycle that the links are picked from: one rate, rates that divide each other, or any.
fn rates(random: &mut Random, ticks: u32, most_frames: u32) -> Vec<u32> {
    let all = divisors(ticks, most_frames);
    let top = all[all.len() - 1 - random.below(all.len().min(3))];
    match random.below(4) {
        0 => vec![top],
        1 | 2 => chain(random, top),
        _ => all,
    }
}

/// The divisors of T up to `most`.
fn divisors(ticks: u32, most: u32) -> Vec<u32> {
    (1..=most.min(ticks)).filter(|k| ticks % k == 0).collect()
}

/// May links of these frames per cycle be adjacent?
pub fn fit(before: u32, here: u32) -> bool {
    before % here == 0 || here % before == 0
}

/// Rates from `top` downwards, each dividing the one before.
fn chain(random: &mut Random, top: u32) -> Vec<u32> {
    let mut chain = vec![top, top];
    let mut rate = top;
    while rate > 1 && chain.len() < 5 {
        let parts: Vec<u32> = (2..=rate).filter(|p| rate % p == 0).collect();
        rate /= parts[random.below(parts.len().min(2))];
        chain.push(rate);
    }
    chain
}

/// A forwarding range.
fn range(random: &mut Random, frames: u32, ranges: Ranges) -> u32 {
    match ranges {
        Ranges::WholeCycle => frames,
        Ranges::Narrow => random.between(1, 2).min(frames as usize) as u32,
        Ranges::Any => random.between(1, frames as usize) as u32,
        Ranges::Absent => ABSENT.range.min(frames),
    }
}

/// A set of closed frames.
pub fn closed_frames(random: &mut Random, frames: u32, closing: Closing) -> u64 {
    let all = route::ones(frames);
    match closing {
        Closing::None => 0,
        Closing::Some => random.word() & random.word() & random.word() & all,
        Closing::Half => random.word() & all,
        Closing::ExactlyHalf => {
            let mut closed = 0u64;
            while closed.count_ones() < frames / 2 {
                closed |= 1 << random.below(frames as usize);
            }
            closed
        }
        Closing::NearlyAll => {
            let mut closed = all;
            for _ in 0..random.below(4) {
                closed &= !(1 << random.below(frames as usize));
            }
            closed
        }
    }
}

/// A network with frames for over 96 sessions of one hop, and one more link that is closed altogether.
pub fn roomy_network(random: &mut Random) -> Network {
    let frames: u32 = random.pick(&[32, 48, 64]);
    let ticks = frames * random.between(1, (960 / frames) as usize) as u32;
    let rates = vec![frames; random.between(4, 31)];
    let mut links = links(random, &rates, Ranges::Any, &[Closing::None]);
    links.push(Link {
        frames,
        range: 1,
        closed: route::ones(frames),
        least: ABSENT.least,
    });
    draw_least_holds(random, &mut links);
    Network { ticks, links }
}

// ---- Routes that can be listed ----

/// Their cycles: multiples of 24, and others with a factor 5, 7 or 11.
const CYCLES_OF_24: [u32; 12] = [24, 48, 72, 96, 120, 192, 240, 384, 480, 720, 840, 960];
const OTHER_CYCLES: [u32; 28] = [
    30, 35, 42, 50, 66, 70, 77, 98, 100, 105, 110, 154, 210, 245, 330, 350, 385, 420, 462, 490,
    550, 605, 630, 660, 735, 770, 900, 935,
];

/// What the frames per cycle of a hop are drawn from: the numbers up to a bound, or the largest up to 64.
#[derive(Clone, Copy)]
enum Frames {
    UpTo(u32),
    Many,
}

/// A network whose links, in the order of their numbers, make a route that can be listed.
pub fn listed_network(random: &mut Random) -> Network {
    let ticks = if random.chance(40) {
        random.pick(&CYCLES_OF_24)
    } else {
        random.pick(&OTHER_CYCLES)
    };
    let rates = listed_rates(random, ticks);
    // On a long route few frames may be closed, or it is blocked.
    let closings: &[Closing] = if rates.len() > 4 {
        &[Closing::None, Closing::None, Closing::None, Closing::Some]
    } else {
        &CLOSINGS
    };
    let ranges = random.pick(&RANGES);
    let mut links = links(random, &rates, ranges, closings);
    draw_least_holds(random, &mut links);
    Network { ticks, links }
}

/// The frames per cycle of each hop in turn, drawn until the route can be listed.
fn listed_rates(random: &mut Random, ticks: u32) -> Vec<u32> {
    let shape = shape(random);
    loop {
        let rates = rates_of_shape(random, ticks, &shape);
        if listing::paths(rates.iter().copied()) <= listing::MOST_PATHS {
            return rates;
        }
    }
}

/// Many frames on one or two links, on two after one with a single frame, or on one between two with fewer;
/// some on three links; few on five to eight links, or on up to four.
fn shape(random: &mut Random) -> Vec<Frames> {
    match random.below(16) {
        0 | 1 => vec![Frames::Many; random.pick(&[1, 2, 2])],
        2 => vec![Frames::UpTo(1), Frames::Many, Frames::Many],
        3 => vec![Frames::UpTo(8), Frames::Many, Frames::UpTo(32)],
        4 => vec![Frames::UpTo(16); 3],
        5..=9 => vec![Frames::UpTo(random.pick(&[2, 3, 3, 5, 7])); random.between(5, MAX_HOPS)],
        _ => vec![Frames::UpTo(8); random.pick(&[1, 2, 3, 3, 4, 4])],
    }
}

/// Divisors of T by the shape, each dividing the next or divided by it.
fn rates_of_shape(random: &mut Random, ticks: u32, shape: &[Frames]) -> Vec<u32> {
    let mut rates: Vec<u32> = Vec::new();
    for &frames in shape {
        let most = match frames {
            Frames::UpTo(most) => most,
            Frames::Many => 64,
        };
        let mut choices = divisors(ticks, most);
        if let Some(&before) = rates.last() {
            choices.retain(|&here| fit(before, here));
        }
        // A single frame, which fits everywhere, comes less often.
        if choices.len() > 1 && random.chance(75) {
            choices.remove(0);
        }
        if let Frames::Many = frames {
            choices.drain(..choices.len().saturating_sub(3));
        }
        rates.push(random.pick(&choices));
    }
    rates
}

// ---- Damaged files ----

/// A file of the network with one or more faults.
pub fn damaged(random: &mut Random, network: &Network) -> Vec<u8> {
    let mut draft = Draft::of(network);
    spoil_draft(random, &mut draft, network);
    if random.chance(30) {
        spoil_draft(random, &mut draft, network);
    }
    if random.chance(40) {
        spoil_least(random, &mut draft, network);
    }
    let mut bytes = draft.bytes();
    spoil_file(random, &mut bytes);
    bytes
}

/// One fault of a field, or none.
fn spoil_draft(random: &mut Random, draft: &mut Draft, network: &Network) {
    let at = random.below(network.links.len());
    let link = &network.links[at];
    let record = &mut draft.records[at];
    match random.below(12) {
        0 => draft.number = random.pick(&[0, 33, 34, 64, 255]),
        1 => draft.number = random.byte() % 40,
        2 => draft.ticks = random.pick(&[0, 961, 962, 1024, 1920, 65_535]),
        3 => record.stray = 16 << random.below(4),
        4 => spoil_absent(random, record),
        5 => record.frames = Some(random.pick(&[0, 65, 96, 120, 240, 255])),
        6 => record.frames = Some(random.byte() % 70),
        7 => record.range = Some(random.pick(&[0, 65, 255, link.frames as u8 + 1])),
        8 => record.range = Some(random.byte() % 70),
        9 => record.closed = Some(random.word() << random.below(64)),
        10 if link.frames < 64 => record.closed = Some(1 << link.frames | link.closed),
        _ => {}
    }
}

/// Writes a field that equals its absent value, or leaves out one that doesn't.
fn spoil_absent(random: &mut Random, record: &mut Record) {
    match random.below(8) {
        0 => record.frames = Some(ABSENT.frames as u8),
        1 => record.range = Some(ABSENT.range as u8),
        2 => record.closed = Some(ABSENT.closed),
        3 => record.least = Some(ABSENT.least as u8),
        4 => record.frames = None,
        5 => record.range = None,
        6 => record.closed = None,
        _ => record.least = None,
    }
}

/// A least hold with a fault, or beside one; now and then with a fault that is checked before it or after it, or with no other
/// field. The last record, in which bytes are cut off, comes more often.
fn spoil_least(random: &mut Random, draft: &mut Draft, network: &Network) {
    let last = network.links.len() - 1;
    let any = random.below(last + 1);
    let at = random.pick(&[any, any, last]);
    let link = &network.links[at];
    let record = &mut draft.records[at];
    let (frames, range, byte) = (link.frames as u8, link.range as u8, random.byte());
    match random.below(5) {
        0 => {
            record.range = Some(frames);
            record.least = Some(0);
        }
        1 => {
            record.range = Some(frames.max(2) - 1);
            record.least = Some(0);
        }
        2 => record.least = Some(random.pick(&[1, range, byte])),
        _ => record.least = Some(random.pick(&[range + 1, range + 1, range + 2, 255])),
    }
    match random.below(10) {
        0 | 1 if frames < 64 => record.closed = Some(1 << frames | link.closed),
        2 => record.range = Some(random.pick(&[0, frames + 1])),
        3 => record.frames = Some(random.pick(&[0, 65, frames.max(3) - 1])),
        4 => record.stray = 16 << random.below(4),
        5 | 6 => (record.frames, record.range, record.closed) = (None, None, None),
        _ => {}
    }
}

/// One fault of the bytes, or none: cut, extended, flipped.
fn spoil_file(random: &mut Random, bytes: &mut Vec<u8>) {
    match random.below(12) {
        0 => bytes.truncate(random.below(3)),
        1 | 2 => bytes.truncate(random.below(bytes.len() + 1)),
        3 => {
            bytes.pop();
        }
        4 => {
            let more = random.between(1, 12);
            bytes.extend(random.bytes(more));
        }
        5 => {
            let more = random.pick(&[1, 1, 1, 2, 300, 3_000]);
            bytes.resize(bytes.len() + more, 0);
        }
        6 => {
            for _ in 0..random.between(1, 3) {
                let at = random.below(bytes.len());
                bytes[at] ^= 1 << random.below(8);
            }
        }
        _ => {}
    }
}

// ---- Values for the writer ----

/// A network given as values: as it is, or with up to two of them moved to one side or the other of an edge.
pub fn values(random: &mut Random) -> Values {
    let mut values = Values::of(&network(random, 64));
    for _ in 0..random.pick(&[0, 1, 1, 2]) {
        move_value(random, &mut values);
    }
    values
}

/// Moves one value, or the number of links.
fn move_value(random: &mut Random, values: &mut Values) {
    let links = values.network().links.len();
    match random.below(13) {
        0 => values.ticks = edge_of_ticks(random, values.ticks),
        1 => {
            let number = random.pick(&[0, 1, 31, 32, 33, 34, 255, 256, 257, 288, 1_025]);
            resize(values, number);
        }
        2 => make_unequal(random, values),
        _ if links == 0 => {}
        3..=5 => move_frames(random, values, links),
        6 | 7 => {
            let at = random.below(links);
            let (k, z) = (values.frames[at], values.range[at]);
            let choices = [0, 1, k, k.wrapping_add(1), 4, 64, 256, z.wrapping_add(256)];
            values.range[at] = random.pick(&choices);
        }
        8 | 9 => {
            let at = random.below(links);
            values.closed[at] = edge_of_closed(random, u32::from(values.frames[at]));
        }
        _ => {
            let at = random.below(links);
            move_least(random, values, at);
        }
    }
}

/// Moves the Y of a link to an edge; now and then with another value of the link over an edge of its own.
fn move_least(random: &mut Random, values: &mut Values, at: usize) {
    let (k, z, y) = (values.frames[at], values.range[at], values.least[at]);
    if random.chance(30) {
        values.range[at] = random.pick(&[k, k.wrapping_sub(1)]);
        values.least[at] = 0;
    } else {
        let above = z.wrapping_add(1);
        let choices = [0, 1, 2, z, above, above, k, 255, 256, y.wrapping_add(256)];
        values.least[at] = random.pick(&choices);
    }
    match random.below(8) {
        0 | 1 => values.closed[at] = edge_of_closed(random, u32::from(k)),
        2 => values.range[at] = random.pick(&[0, k.wrapping_add(1)]),
        3 => values.frames[at] = random.pick(&[0, 65, k.wrapping_sub(1)]),
        _ => {}
    }
}

/// A T at an edge, or one whose lowest ten bits are as before.
fn edge_of_ticks(random: &mut Random, ticks: u16) -> u16 {
    let more = ticks.wrapping_add(1_024);
    random.pick(&[0, 1, 2, 959, 960, 961, 962, 1_920, more, 65_535])
}

/// A set of closed frames at an edge, or any.
fn edge_of_closed(random: &mut Random, frames: u32) -> u64 {
    let frame = |frame: u32| 1u64.checked_shl(frame).unwrap_or(0);
    let any = random.word();
    random.pick(&[
        frame(frames.wrapping_sub(1)),
        frame(frames),
        frame(63),
        route::ones(frames),
        route::ones(frames) << 1,
        u64::MAX,
        any,
    ])
}

/// Moves the K of a link; now and then T with it, so that K divides it, and all links.
fn move_frames(random: &mut Random, values: &mut Values, links: usize) {
    let at = random.below(links);
    let k = values.frames[at];
    let choices = [
        0,
        1,
        16,
        63,
        64,
        65,
        66,
        256,
        k.wrapping_add(256),
        k / 2,
        960,
    ];
    let moved = random.pick(&choices);
    values.frames[at] = moved;
    if (1..=960).contains(&moved) && random.chance(50) {
        values.ticks = moved * random.between(1, 960 / usize::from(moved)) as u16;
        values.frames.fill(moved);
    }
}

/// Gives every list that length; what is added is the last link again, or one of absent values.
fn resize(values: &mut Values, number: usize) {
    fn to<T: Copy>(list: &mut Vec<T>, number: usize, absent: T) {
        let last = list.last().copied().unwrap_or(absent);
        list.resize(number, last);
    }
    to(&mut values.frames, number, ABSENT.frames as u16);
    to(&mut values.range, number, ABSENT.range as u16);
    to(&mut values.closed, number, ABSENT.closed);
    to(&mut values.least, number, ABSENT.least as u16);
}

/// Makes one of the lists longer than the others, or shorter.
fn make_unequal(random: &mut Random, values: &mut Values) {
    let number = match random.below(2) {
        0 => random.below(values.frames.len() + 1),
        _ => values.frames.len() + random.pick(&[1, 2, 40, 300]),
    };
    match random.below(4) {
        0 => values.frames.resize(number, 0),
        1 => values.range.resize(number, 0),
        2 => values.closed.resize(number, u64::MAX),
        _ => values.least.resize(number, u16::MAX),
    }
}

#[cfg(test)]
mod tests {
    use super::*;
    use crate::network_file::{image, read_network};

    #[test]
    fn a_network_is_read_back_from_its_file() {
        let mut random = Random::new(1);
        for _ in 0..10_000 {
            let network = network(&mut random, 64);
            assert_eq!(read_network(&image(&network)), Ok(network));
        }
        for _ in 0..100 {
            for network in [large_network(&mut random), roomy_network(&mut random)] {
                assert_eq!(read_network(&image(&network)), Ok(network));
            }
        }
    }

    #[test]
    fn exactly_half_of_the_frames_are_closed() {
        let mut random = Random::new(4);
        for frames in [1, 2, 7, 16, 63, 64] {
            let closed = closed_frames(&mut random, frames, Closing::ExactlyHalf);
            assert_eq!(closed & !route::ones(frames), 0);
            assert_eq!(closed.count_ones(), frames / 2);
        }
    }
}
