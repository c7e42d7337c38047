//! Least holds of links, routes and answers, by their sorts; and those in network files: how many of each sort there were, and how
//! many there have to be.

use crate::network_file::{
    check_closed, check_least, check_link, has_bit, read_link, read_network,
};
use crate::network_file::{record_length, Link, Network, Refusal, ABSENT};
use crate::route::{self, Hop};
use crate::sorts::{add_each, print_lines, sort, too_few_in, Line, Sort};

// ---- Links ----

/// The sorts of links that pass, by their least hold.
pub fn sorts_of_passed(least: [usize; 5]) -> [Sort; 5] {
    const NAMES: [&str; 5] = ["0:", "1:", "2 or more:", "Z above 1:", "0 with Z K - 1:"];
    std::array::from_fn(|place| sort(NAMES[place], least[place]))
}

/// Of which of these sorts a link is.
pub fn passed(frames: u32, range: u32, least: u32) -> [bool; 5] {
    [
        least == 0,
        least == 1,
        least > 1,
        least == range && least > 1,
        least == 0 && range + 1 == frames,
    ]
}

/// Of which of them some link of a network is.
pub fn some_passed(network: &Network) -> [bool; 5] {
    let sorts = |link: &Link| passed(link.frames, link.range, link.least);
    let sorts: Vec<[bool; 5]> = network.links.iter().map(sorts).collect();
    std::array::from_fn(|place| sorts.iter().any(|of| of[place]))
}

/// The sorts of links refused with 21.
pub fn sorts_of_refused(least: [usize; 4]) -> [Sort; 4] {
    const NAMES: [&str; 4] = ["Z + 1:", "above Z + 1:", "0 with Z K:", "0 with K 1:"];
    std::array::from_fn(|place| sort(NAMES[place], least[place]))
}

/// Of which of these sorts a link is that is refused so.
pub fn refused(link: &Link, refusal: Refusal) -> [bool; 4] {
    let (frames, range, least) = (link.frames, link.range, link.least);
    let sorts = [
        least == range + 1,
        least > range + 1,
        least == 0 && frames > 1,
        least == 0 && frames == 1,
    ];
    sorts.map(|is_of_it| refusal == 21 && is_of_it)
}

/// The sorts of links refused with a check where a later one would refuse too, one of both being 21.
pub fn sorts_of_several(least: [usize; 3]) -> [Sort; 3] {
    const NAMES: [&str; 3] = ["21 after 7:", "21 after 8:", "9 after 21:"];
    std::array::from_fn(|place| sort(NAMES[place], least[place]))
}

/// Of which of these sorts a link is that is refused so.
pub fn several(link: &Link, refusal: Refusal) -> [bool; 3] {
    let breaks_21 = check_least(link).is_err();
    [
        refusal == 7 && breaks_21,
        refusal == 8 && breaks_21,
        refusal == 21 && check_closed(link).is_err(),
    ]
}

// ---- Routes ----

/// The sorts of routes by the least holds that their transitions keep: those of all hops but the first.
pub fn sorts_of_routes(least: [usize; 5]) -> [Sort; 5] {
    const NAMES: [&str; 5] = [
        "1 alone",
        "one 0",
        "one above 1",
        "unequal",
        "0, 1 and above",
    ];
    std::array::from_fn(|place| sort(NAMES[place], least[place]))
}

/// Of which of these sorts a route is.
pub fn route(hops: &[Hop]) -> [bool; 5] {
    let any = |is: fn(u32) -> bool| hops[1..].iter().any(|hop| is(hop.least));
    let [zero, one, above] = [
        any(|least| least == 0),
        any(|least| least == 1),
        any(|least| least > 1),
    ];
    let is_unequal = hops[1..].windows(2).any(|hop| hop[0].least != hop[1].least);
    [
        one && !zero && !above,
        zero,
        above,
        is_unequal,
        zero && one && above,
    ]
}

/// The sorts of answers with a hold of 0: any; past cycle 0; into a frame that is the last of its cycle; with no other hold.
pub fn sorts_of_zeros(least: [usize; 4]) -> [Sort; 4] {
    const NAMES: [&str; 4] = ["some", "past cycle 0", "in a cycle's last frame", "all"];
    std::array::from_fn(|place| sort(NAMES[place], least[place]))
}

/// Of which of these sorts an answer is; that a hold of 0 leads out of the cycle of the hop before, in words.
pub fn zeros(hops: &[Hop], frames: &[u8], cycles: &[u8]) -> Result<[bool; 4], String> {
    let holds = route::holds(hops, frames);
    let zeros: Vec<usize> = (1..hops.len()).filter(|&j| holds[j - 1] == 0).collect();
    if zeros.iter().any(|&j| cycles[j] != cycles[j - 1]) {
        return Err("a hold of 0 leads into another cycle".to_string());
    }
    let is_last = |&j: &usize| u32::from(frames[j]) + 1 == hops[j].frames;
    Ok([
        !zeros.is_empty(),
        zeros.iter().any(|&j| cycles[j] > 0),
        zeros.iter().any(is_last),
        !zeros.is_empty() && zeros.len() + 1 == hops.len(),
    ])
}

// ---- Files ----

/// What has been seen of files so far.
pub struct LeastHolds {
    /// Files that pass, by the least holds of their links.
    passed: [Sort; 5],
    /// Refused with 21: by the least hold, and in a later record than the first; with several checks.
    refused: [Sort; 4],
    later: [Sort; 1],
    several: [Sort; 3],
    /// Refused with 6 for a written 1, beside no other field and beside others.
    written: [Sort; 2],
    /// Refused with 4 for Y's byte alone: with bit 3 alone, behind K or Z, behind closed frames, and under a stray bit; refused
    /// with 4 under any stray bit.
    cut: [Sort; 5],
    /// Refused with 5: with bit 4 alone above bit 3, with others, and beside bit 3.
    stray: [Sort; 3],
}

impl Default for LeastHolds {
    fn default() -> Self {
        LeastHolds {
            passed: sorts_of_passed([30_000, 60_000, 20_000, 16_000, 18_000]),
            refused: sorts_of_refused([250, 500, 200, 70]),
            later: [sort("after the first", 750)],
            several: sorts_of_several([250, 350, 400]),
            written: [sort("alone", 50), sort("beside others", 350)],
            cut: [
                sort("by bit 3 alone", 30),
                sort("behind K or Z", 100),
                sort("behind closed frames", 200),
                sort("under a stray bit", 40),
                sort("of any field under a stray bit", 150),
            ],
            stray: [
                sort("bit 4 alone", 450),
                sort("a bit above 4", 1_400),
                sort("one beside bit 3", 1_000),
            ],
        }
    }
}

/// The record at which a file is refused: its place, the bytes from it on, and what it says where it can be read.
struct BadRecord<'a> {
    place: usize,
    bytes: &'a [u8],
    refusal: Refusal,
    link: Option<Link>,
}

/// The first record that is refused with 4 to 9 or with 21, if there is one.
fn bad_record(file: &[u8]) -> Option<BadRecord<'_>> {
    if let Err(1..=3) = read_network(file) {
        return None;
    }
    let ticks = u32::from(file[0]) + 256 * u32::from(file[1]);
    let mut rest = &file[3..];
    for place in 0..usize::from(file[2]) {
        let bad = |refusal, link| {
            let bytes = rest;
            Some(BadRecord {
                place,
                bytes,
                refusal,
                link,
            })
        };
        match read_link(rest) {
            Err(refusal) => return bad(refusal, None),
            Ok((link, used)) => {
                if let Err(refusal) = check_link(ticks, &link) {
                    return bad(refusal, Some(link));
                }
                rest = &rest[used..];
            }
        }
    }
    None
}

impl LeastHolds {
    /// Counts a file.
    pub fn add(&mut self, file: &[u8]) {
        if let Ok(network) = read_network(file) {
            add_each(&mut self.passed, &some_passed(&network));
        }
        if let Some(bad) = bad_record(file) {
            self.later[0].add(bad.refusal == 21 && bad.place > 0);
            match &bad.link {
                Some(link) => self.add_link(link, bad.refusal),
                None => self.add_unread(bad.bytes, bad.refusal),
            }
        }
    }

    fn add_link(&mut self, link: &Link, refusal: Refusal) {
        add_each(&mut self.refused, &refused(link, refusal));
        add_each(&mut self.several, &several(link, refusal));
    }

    /// Counts a record that can't be read, by the bytes from it on.
    fn add_unread(&mut self, bytes: &[u8], refusal: Refusal) {
        let map = bytes.first().copied().unwrap_or(0);
        let (has_least, is_stray) = (has_bit(map, 3), map > 15);
        match refusal {
            4 => {
                let is_cut = has_least && bytes.len() + 1 == record_length(map);
                let cut = [
                    is_cut && map == 8,
                    is_cut && map & 7 > 0 && !has_bit(map, 2),
                    is_cut && has_bit(map, 2),
                    is_cut && is_stray,
                    is_stray,
                ];
                add_each(&mut self.cut, &cut);
            }
            5 => {
                let stray = [map >> 4 == 1, map >> 4 > 1, has_least];
                add_each(&mut self.stray, &stray);
            }
            _ => {
                let last = bytes[record_length(map) - 1];
                let is_written = has_least && u32::from(last) == ABSENT.least;
                add_each(
                    &mut self.written,
                    &[is_written && map == 8, is_written && map > 8],
                );
            }
        }
    }

    fn lines(&self) -> [Line<'_>; 7] {
        [
            ("read: Y ", &self.passed),
            ("refused with 21: Y ", &self.refused),
            ("refused with 21: record ", &self.later),
            (
                "refused where another check would refuse too: ",
                &self.several,
            ),
            ("refused with 6: Y 1 written ", &self.written),
            ("refused with 4: cut before Y ", &self.cut),
            ("refused with 5: ", &self.stray),
        ]
    }

    /// Prints what was seen.
    pub fn print(&self) {
        println!("least holds in files:");
        print_lines(&self.lines());
    }

    /// The first sort of which too few were seen, in words.
    pub fn too_few(&self) -> Option<String> {
        too_few_in(&self.lines()).map(|few| format!("least holds in files: {few}"))
    }
}

#[cfg(test)]
mod tests {
    use super::*;
    use crate::question_four::{eight, held_from};

    fn seen<const N: usize>(sorts: &[Sort; N]) -> [usize; N] {
        sorts.each_ref().map(|sort| sort.seen)
    }

    fn link(frames: u32, range: u32, closed: u64, least: u32) -> Link {
        Link {
            frames,
            range,
            closed,
            least,
        }
    }

    #[test]
    fn links_that_pass() {
        let of = |frames, range, least| {
            assert_eq!(check_link(48, &link(frames, range, 0, least)), Ok(()));
            passed(frames, range, least).map(usize::from)
        };
        assert_eq!(of(8, 6, 0), [1, 0, 0, 0, 0]);
        assert_eq!(of(8, 7, 0), [1, 0, 0, 0, 1]);
        assert_eq!(of(8, 7, 1), [0, 1, 0, 0, 0]);
        assert_eq!(of(8, 1, 1), [0, 1, 0, 0, 0]);
        assert_eq!(of(8, 3, 2), [0, 0, 1, 0, 0]);
        assert_eq!(of(8, 8, 8), [0, 0, 1, 1, 0]);
    }

    #[test]
    fn links_that_are_refused() {
        let of = |link: &Link| {
            let refusal = check_link(48, link).expect_err("it is refused");
            let (refused, several) = (refused(link, refusal), several(link, refusal));
            (refusal, refused.map(usize::from), several.map(usize::from))
        };
        assert_eq!(of(&link(8, 2, 0, 3)), (21, [1, 0, 0, 0], [0; 3]));
        assert_eq!(of(&link(8, 2, 256, 4)), (21, [0, 1, 0, 0], [0, 0, 1]));
        assert_eq!(of(&link(8, 8, 0, 0)), (21, [0, 0, 1, 0], [0; 3]));
        assert_eq!(of(&link(1, 1, 2, 0)), (21, [0, 0, 0, 1], [0, 0, 1]));
        assert_eq!(of(&link(7, 2, 0, 3)), (7, [0; 4], [1, 0, 0]));
        assert_eq!(of(&link(8, 0, 0, 1)), (8, [0; 4], [0, 1, 0]));
        assert_eq!(of(&link(8, 0, 256, 0)), (8, [0; 4], [0; 3]));
        assert_eq!(of(&link(8, 2, 256, 2)), (9, [0; 4], [0; 3]));
    }

    /// A hop of K 8 with a range of one hold more than the least.
    fn hop(least: u32) -> Hop {
        held_from(least, 8, least + 1, &[0, 1, 2, 3, 4, 5, 6, 7])
    }

    #[test]
    fn routes_by_their_least_holds() {
        let of = |least: &[u32]| {
            let hops: Vec<Hop> = least.iter().map(|&least| hop(least)).collect();
            route(&hops).map(usize::from)
        };
        assert_eq!(of(&[0]), [0; 5]);
        assert_eq!(of(&[0, 1, 1]), [1, 0, 0, 0, 0]);
        assert_eq!(of(&[1, 0]), [0, 1, 0, 0, 0]);
        assert_eq!(of(&[1, 2, 3]), [0, 0, 1, 1, 0]);
        assert_eq!(of(&[1, 1, 0, 1]), [0, 1, 0, 1, 0]);
        assert_eq!(of(&[1, 0, 4, 1]), [0, 1, 1, 1, 1]);
    }

    #[test]
    fn answers_with_a_hold_of_0() {
        let of = |least: &[u32], frames: &[u8]| {
            let hops: Vec<Hop> = least.iter().map(|&least| hop(least)).collect();
            let cycles = route::cycles(&hops, frames);
            let sorts = zeros(&hops, frames, &cycles).expect("the cycles are right");
            sorts.map(usize::from)
        };
        assert_eq!(of(&[0], &[5]), [0; 4]);
        assert_eq!(of(&[0, 1], &[5, 6]), [0; 4]);
        assert_eq!(of(&[1, 0], &[5, 5]), [1, 0, 0, 1]);
        assert_eq!(of(&[1, 0], &[7, 0]), [0; 4]);
        assert_eq!(of(&[1, 0, 1], &[7, 7, 0]), [1, 0, 1, 0]);
        assert_eq!(of(&[1, 1, 0], &[7, 0, 0]), [1, 1, 0, 0]);
        let wrong = zeros(&[eight(&[7]), hop(0)], &[7, 7], &[0, 1]);
        assert!(wrong.is_err());
    }

    #[test]
    fn files_are_counted() {
        let mut least_holds = LeastHolds::default();
        let files: [&[u8]; 7] = [
            // Y 0 with Z K - 1 beside Y 1; Y 4 with Z 4.
            &[48, 0, 2, 0x0a, 15, 0, 0],
            &[48, 0, 1, 8, 4],
            // Y 5 with Z 4, first and then second; Y 0 with Z K, frame 16 closed.
            &[48, 0, 1, 8, 5],
            &[48, 0, 2, 0, 8, 5],
            &[48, 0, 1, 0x0e, 16, 0, 0, 1, 0, 0, 0, 0, 0, 0],
            // K 5 and Y 5; Z 0 and Y 1.
            &[48, 0, 1, 9, 5, 5],
            &[48, 0, 1, 2, 0],
        ];
        files.into_iter().for_each(|file| least_holds.add(file));
        assert_eq!(seen(&least_holds.passed), [1, 1, 1, 1, 1]);
        assert_eq!(seen(&least_holds.refused), [2, 0, 1, 0]);
        assert_eq!(seen(&least_holds.later), [1]);
        assert_eq!(seen(&least_holds.several), [1, 1, 1]);
    }

    #[test]
    fn records_that_cannot_be_read_are_counted() {
        let mut least_holds = LeastHolds::default();
        let files: [&[u8]; 13] = [
            &[48, 0, 1, 8, 1],
            &[48, 0, 1, 9, 8, 1],
            &[48, 0, 1, 9, 16, 2],
            &[48, 0, 1, 8],
            &[48, 0, 1, 11, 8, 2],
            &[48, 0, 1, 11, 8],
            &[48, 0, 1, 12, 1, 0, 0, 0, 0, 0, 0, 0],
            &[48, 0, 1, 0x18],
            &[48, 0, 1, 0x11],
            &[48, 0, 1, 0x18, 1],
            &[48, 0, 1, 0x10],
            &[48, 0, 1, 0x30],
            &[48, 0, 1],
        ];
        files.into_iter().for_each(|file| least_holds.add(file));
        assert_eq!(seen(&least_holds.written), [1, 1]);
        assert_eq!(seen(&least_holds.cut), [1, 1, 1, 1, 2]);
        assert_eq!(seen(&least_holds.stray), [2, 1, 1]);
        assert_eq!(seen(&least_holds.passed), [0; 5]);
    }

    #[test]
    fn too_few_are_named() {
        let least_holds = LeastHolds::default();
        let lines = least_holds.lines();
        let mut sorts = lines.iter().flat_map(|(_, sorts)| sorts.iter());
        assert!(sorts.all(|sort| sort.least > 0));
        let words = least_holds.too_few().expect("nothing was seen");
        assert!(words.starts_with("least holds in files: read: Y 0: 0, "));
    }
}
