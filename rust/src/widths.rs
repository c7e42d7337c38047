//! Session numbers of two and of four bytes in one list of calls: how many calls of each sort there were, and how many there
//! have to be.

use crate::call_records::{read_call, Call};
use crate::model::INPUT_LIMIT;
use crate::sorts::{add_each, print_lines, sort, too_few_in, Line, Sort};
use std::collections::HashMap;

// ---- Numbers ----

/// Have two numbers the same low 16 bits and others above them?
pub fn are_alike(one: u32, other: u32) -> bool {
    one != other && one as u16 == other as u16
}

/// The sorts of numbers by the bytes that they need.
pub fn sorts_of_numbers(least: [usize; 2]) -> [Sort; 2] {
    [
        sort("below 65,536:", least[0]),
        sort("from 65,536 on:", least[1]),
    ]
}

/// Counts one for the sort of this number.
pub fn add_number(sorts: &mut [Sort; 2], number: u32) {
    sorts[usize::from(number > 65_535)].add(true);
}

// ---- Calls ----

/// The live numbers, each with the kind of its set-up.
type Live = HashMap<u32, u8>;

/// What has been seen so far.
pub struct Widths {
    /// Accepted set-ups by their kind; those of kind 4 by their number; those of the largest number.
    set_ups: [Sort; 2],
    long_set_ups: [Sort; 2],
    largest: [Sort; 1],
    /// Accepted releases by their kind and that of the set-up.
    releases: [Sort; 4],
    /// Set-ups refused with 16 where the other kind set the live session up, by their kind.
    live: [Sort; 2],
    /// While a number is live that is alike: accepted set-ups and releases refused with 19, by their kind.
    alike: [Sort; 4],
    /// Records of kinds 4 and 5 that can't be read, by the bytes that are there; those that the limit cuts, by their kind.
    cut_set_ups: [Sort; 6],
    cut_releases: [Sort; 4],
    cut_by_limit: [Sort; 2],
    /// Records of no known kind.
    unknown: [Sort; 4],
}

impl Default for Widths {
    fn default() -> Self {
        let cut = |name| sort(name, 200);
        Widths {
            set_ups: [sort("01:", 17_000), sort("04:", 70_000)],
            long_set_ups: sorts_of_numbers([16_000, 55_000]),
            largest: [sort("4,294,967,295:", 3_500)],
            releases: [
                sort("03 after 01:", 2_800),
                sort("03 after 04:", 2_800),
                sort("05 after 01:", 2_800),
                sort("05 after 04:", 15_000),
            ],
            live: [sort("01 after 04:", 4_000), sort("04 after 01:", 4_000)],
            alike: [
                sort("01 accepted", 1_800),
                sort("04 accepted", 22_000),
                sort("03 refused with 19:", 2_800),
                sort("05 refused with 19:", 11_000),
            ],
            cut_set_ups: ["1:", "2:", "3:", "4:", "5:", "more:"].map(cut),
            cut_releases: ["1:", "2:", "3:", "4:"].map(cut),
            cut_by_limit: [sort("04:", 6), sort("05:", 6)],
            unknown: [
                sort("0:", 1_900),
                sort("6:", 700),
                sort("7:", 700),
                sort("8 to 255:", 1_500),
            ],
        }
    }
}

impl Widths {
    /// Counts the calls of a list by the lines of its text.
    pub fn add(&mut self, calls: &[u8], text: &str) {
        let mut live = Live::new();
        let mut rest = &calls[..calls.len().min(INPUT_LIMIT)];
        for line in text.lines() {
            let words: Vec<&str> = line.split(' ').collect();
            let refusal = match words[..] {
                [_, _, "ok", ..] => "",
                [_, _, "no", refusal, ..] => refusal,
                _ => return,
            };
            let Ok((call, used)) = read_call(rest) else {
                return self.add_unreadable(rest, calls.len() > INPUT_LIMIT);
            };
            self.add_call(&mut live, rest[0], call, refusal);
            rest = &rest[used..];
        }
    }

    /// Counts a call by its kind and its refusal, which is empty where it was accepted.
    fn add_call(&mut self, live: &mut Live, kind: u8, call: Call<'_>, refusal: &str) {
        match (call, refusal) {
            (Call::SetUp { number, .. }, "") => {
                self.add_set_up(kind, number);
                self.add_alike(live, kind, number);
                live.insert(number, kind);
            }
            (Call::SetUp { number, .. }, "16") => {
                let met = (live[&number], kind);
                add_each(&mut self.live, &[met == (4, 1), met == (1, 4)]);
            }
            (Call::Release { number }, "") => {
                let met = live.remove(&number).map(|set_up| (set_up, kind));
                let pairs = [(1, 3), (4, 3), (1, 5), (4, 5)];
                add_each(&mut self.releases, &pairs.map(|pair| met == Some(pair)));
            }
            (Call::Release { number }, "19") => self.add_alike(live, kind, number),
            _ => {}
        }
    }

    fn add_set_up(&mut self, kind: u8, number: u32) {
        add_each(&mut self.set_ups, &[kind == 1, kind == 4]);
        self.largest[0].add(number == u32::MAX);
        if kind == 4 {
            add_number(&mut self.long_set_ups, number);
        }
    }

    fn add_alike(&mut self, live: &Live, kind: u8, number: u32) {
        if live.keys().any(|&other| are_alike(other, number)) {
            add_each(&mut self.alike, &[1, 4, 3, 5].map(|sort| sort == kind));
        }
    }

    /// Counts a record that can't be read, and is the last.
    fn add_unreadable(&mut self, record: &[u8], is_at_limit: bool) {
        let there = record.len();
        match record[0] {
            1..=3 => {}
            4 => self.cut_set_ups[there.min(6) - 1].add(true),
            5 => self.cut_releases[there - 1].add(true),
            kind => {
                let kinds = [kind == 0, kind == 6, kind == 7, kind > 7];
                add_each(&mut self.unknown, &kinds);
            }
        }
        let cut = [4, 5].map(|kind| is_at_limit && record[0] == kind);
        add_each(&mut self.cut_by_limit, &cut);
    }

    fn lines(&self) -> [Line<'_>; 10] {
        [
            ("set-ups accepted: by ", &self.set_ups),
            ("set-ups accepted: by 04 ", &self.long_set_ups),
            ("set-ups accepted: of ", &self.largest),
            ("releases accepted: ", &self.releases),
            ("set-ups refused with 16: ", &self.live),
            (
                "beside a live number with the same low 16 bits: ",
                &self.alike,
            ),
            ("refused with 11: 04, bytes there ", &self.cut_set_ups),
            ("refused with 11: 05, bytes there ", &self.cut_releases),
            ("refused with 11: cut by the limit ", &self.cut_by_limit),
            ("refused with 11: kind ", &self.unknown),
        ]
    }

    /// Prints what was seen.
    pub fn print(&self) {
        println!("numbers of two and of four bytes:");
        print_lines(&self.lines());
    }

    /// The first sort of which too few were seen, in words.
    pub fn too_few(&self) -> Option<String> {
        too_few_in(&self.lines()).map(|few| format!("numbers of two and of four bytes: {few}"))
    }
}

#[cfg(test)]
mod tests {
    use super::*;
    use crate::{dijkstra, model};

    /// What is counted of a list by its text.
    fn counted(calls: &[&[u8]], text: &str) -> Widths {
        let mut widths = Widths::default();
        widths.add(&calls.concat(), text);
        widths
    }

    fn seen<const N: usize>(sorts: &[Sort; N]) -> [usize; N] {
        sorts.each_ref().map(|sort| sort.seen)
    }

    #[test]
    fn set_ups_and_releases_by_their_kind() {
        let widths = counted(
            &[
                &[1, 5, 0, 1, 0],
                &[4, 5, 0, 0, 0, 1, 0],
                &[5, 5, 0, 0, 0],
                &[4, 5, 0, 0, 0, 1, 0],
                &[1, 5, 0, 1, 0],
                &[3, 5, 0],
                &[4, 255, 255, 255, 255, 1, 0],
                &[5, 255, 255, 255, 255],
                &[1, 255, 255, 1, 0],
                &[3, 255, 255],
                &[1, 5, 0, 2, 0, 1],
            ],
            "1 S ok 0 0 0 / 0\n2 S no 16\n3 R ok\n4 S ok 0 0 0 / 0\n5 S no 16\n6 R ok\n7 S ok 0 0 0 / 0\n8 R ok\n\
             9 S ok 0 0 0 / 0\n10 R ok\n11 S no 18 3\nlive 0\n",
        );
        assert_eq!(seen(&widths.set_ups), [2, 2]);
        assert_eq!(seen(&widths.long_set_ups), [1, 1]);
        assert_eq!(seen(&widths.largest), [1]);
        assert_eq!(seen(&widths.releases), [1; 4]);
        assert_eq!(seen(&widths.live), [1, 1]);
        assert_eq!(seen(&widths.alike), [0; 4]);
    }

    #[test]
    fn numbers_alike_in_their_low_16_bits() {
        assert!(are_alike(5, 65_541) && are_alike(u32::MAX, 65_535));
        assert!(!are_alike(5, 5) && !are_alike(5, 261) && !are_alike(65_536, 65_537));
        let widths = counted(
            &[
                &[4, 5, 0, 1, 0, 1, 0],
                &[3, 5, 0],
                &[5, 5, 0, 0, 0],
                &[1, 5, 0, 1, 0],
                &[4, 5, 0, 2, 0, 1, 0],
                &[3, 6, 0],
                &[5, 6, 0, 1, 0],
            ],
            "1 S ok 0 0 0 / 0\n2 R no 19\n3 R no 19\n4 S ok 0 0 1 / 0\n5 S ok 0 0 2 / 0\n6 R no 19\n7 R no 19\nlive 3\n",
        );
        assert_eq!(seen(&widths.alike), [1; 4]);
    }

    #[test]
    fn records_that_cannot_be_read() {
        let mut widths = Widths::default();
        let text = "1 ? no 11\nlive 0\n";
        for record in [&[4, 0, 0, 0, 0, 2, 0, 1][..], &[5, 0, 0, 0, 0], &[3, 0, 0]] {
            for length in 1..record.len() {
                widths.add(&record[..length], text);
            }
        }
        for kind in [0, 6, 7, 8, 255] {
            widths.add(&[kind, 0, 0, 0, 0, 0], text);
        }
        widths.add(&[4, 0], "net no 1\n");
        assert_eq!(seen(&widths.cut_set_ups), [1, 1, 1, 1, 1, 2]);
        assert_eq!(seen(&widths.cut_releases), [1; 4]);
        assert_eq!(seen(&widths.unknown), [1, 1, 1, 2]);
        assert_eq!(seen(&widths.cut_by_limit), [0, 0]);
    }

    #[test]
    fn records_that_the_limit_cuts() {
        // Five bytes of each record stand before the limit, and the release has no more.
        let quotes = [&[2, 0].repeat(32_764)[..], &[3, 0, 0]].concat();
        let mut widths = Widths::default();
        for record in [&[4, 0, 0, 0, 0, 1, 0][..], &[5, 0, 0, 0, 0]] {
            let calls = [&quotes, record].concat();
            let text = model::transcript(&[48, 0, 1, 0], &calls, dijkstra::least);
            widths.add(&calls, std::str::from_utf8(&text).unwrap());
        }
        assert_eq!(seen(&widths.cut_set_ups), [0, 0, 0, 0, 1, 0]);
        assert_eq!(seen(&widths.cut_releases), [0; 4]);
        assert_eq!(seen(&widths.cut_by_limit), [1, 0]);
    }
}
