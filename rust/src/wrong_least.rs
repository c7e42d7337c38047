//! Wrong models of the least hold (W-206): of the search, of check 21, and of Y's byte in the network file.

use crate::call_records::{read_call, Read};
use crate::dijkstra;
use crate::model::Rules;
use crate::network_file::{check_closed, check_frames, check_least, check_link, check_range};
use crate::network_file::{has_bit, read_link, read_network, record_length, refuse};
use crate::network_file::{Link, Network, Refusal, ABSENT};
use crate::route::{self, Answer, Hop};
use crate::tried::Wrong;
use crate::wrong::{by_rules, read_by, Counting, Student, Text, RIGHT};
use std::cell::Cell;

/// All wrong models of the least hold but for the searches.
pub fn files() -> Vec<Wrong<Text>> {
    let mut all = wrong_orders();
    all.extend(wrong_checks());
    all.extend(wrong_bytes());
    all
}

/// All wrong searches of the least hold.
pub(crate) fn searches() -> Vec<Wrong<Text>> {
    let mut all = wrong_holds();
    all.extend(wrong_zeros());
    all.extend(wrong_cycles());
    all.extend(wrong_rivals());
    all
}

// ---- Mistakes in the search ----

/// The least number that fits from one up to another one, if there is one.
pub(crate) fn hold_within(
    reference: u32,
    frame: u32,
    here: &Hop,
    least: u32,
    range: u32,
) -> Option<u32> {
    let hop = Hop {
        least,
        range,
        ..*here
    };
    route::hold(reference, frame, &hop)
}

/// The right rules over other hops.
pub(crate) struct Over(fn(&[Hop]) -> Vec<Hop>);

impl Rules for Over {
    fn least(&self, ticks: u32, hops: &[Hop]) -> Answer {
        dijkstra::least(ticks, &(self.0)(hops))
    }
}

/// The hops with one Y for all.
fn with_least(hops: &[Hop], least: u32) -> Vec<Hop> {
    hops.iter().map(|&hop| Hop { least, ..hop }).collect()
}

/// Every hold from 1 on.
pub(crate) const LEAST_IGNORED: Over = Over(|hops| with_least(hops, 1));

fn wrong_holds() -> Vec<Wrong<Text>> {
    let holds = |name, hold| by_rules(name, Student { hold, ..RIGHT });
    vec![
        by_rules("Y ignored, as before W-206", LEAST_IGNORED),
        holds("holds from Y to Y + Z", |reference, frame, _, here| {
            let range = here.least + here.range;
            hold_within(reference, frame, here, here.least, range)
        }),
        holds("holds from Y to Y + Z - 1", |reference, frame, _, here| {
            let range = here.least + here.range - 1;
            hold_within(reference, frame, here, here.least, range)
        }),
        holds("holds from Y + 1 to Y + Z", |reference, frame, _, here| {
            let range = here.least + here.range;
            hold_within(reference, frame, here, here.least + 1, range)
        }),
        holds("holds above Y alone", |reference, frame, _, here| {
            hold_within(reference, frame, here, here.least + 1, here.range)
        }),
        holds("Y 0 taken for 1", |reference, frame, _, here| {
            hold_within(reference, frame, here, here.least.max(1), here.range)
        }),
        holds("Y above 1 taken for 1", |reference, frame, _, here| {
            hold_within(reference, frame, here, here.least.min(1), here.range)
        }),
        holds("Y of the link before", |reference, frame, before, here| {
            hold_within(reference, frame, here, before.least, here.range)
        }),
        by_rules(
            "Y of the route's first link",
            Over(|hops| with_least(hops, hops[0].least)),
        ),
    ]
}

/// Mistakes with a hold of 0.
fn wrong_zeros() -> Vec<Wrong<Text>> {
    let student = |name, student: Student| by_rules(name, student);
    vec![
        student(
            "a hold of 0 taken for a whole cycle",
            Student {
                hold: |reference, frame, _, here| match route::hold(reference, frame, here) {
                    Some(0) => Some(here.frames),
                    hold => hold,
                },
                ..RIGHT
            },
        ),
        student(
            "a hold of 0 with the delay of one frame",
            Student {
                delay: |hold, ticks, _, here| route::delay(hold.max(1), ticks, here),
                ..RIGHT
            },
        ),
        student(
            "a hold of 0 after all others of equals",
            Student {
                order: |way| way.going_back(|hold| hold.wrapping_sub(1)),
                ..RIGHT
            },
        ),
        student(
            "transitions without a hold not counted",
            Student {
                counting: Counting::WithoutHoldsOfZero,
                ..RIGHT
            },
        ),
    ]
}

/// A hold of 0 leads into the next cycle.
pub(crate) struct NextCycleWithoutHold;

impl Rules for NextCycleWithoutHold {
    fn least(&self, ticks: u32, hops: &[Hop]) -> Answer {
        let mut answer = dijkstra::least(ticks, hops);
        if let Answer::Found { frames, cycles, .. } = &mut answer {
            for (place, hold) in route::holds(hops, frames).into_iter().enumerate() {
                let later = cycles[place + 1..].iter_mut();
                later.for_each(|cycle| *cycle += u8::from(hold == 0));
            }
        }
        answer
    }
}

/// Mistakes with the cycle after a hold of 0.
fn wrong_cycles() -> Vec<Wrong<Text>> {
    vec![
        by_rules("a hold of 0 into the next cycle", NextCycleWithoutHold),
        by_rules(
            "a hold of 0 in a cycle's last frame into the next cycle",
            Student {
                next_cycle: |step| {
                    let hold = step.hold.max(1);
                    route::next_cycle(step.cycle, step.reference, hold, step.here)
                },
                ..RIGHT
            },
        ),
    ]
}

/// The right answer, but 18 where a schedule that breaks Y comes before it.
struct AnyRival;

impl Rules for AnyRival {
    fn least(&self, ticks: u32, hops: &[Hop]) -> Answer {
        let answer = dijkstra::least(ticks, hops);
        let (Answer::Found { count, .. } | Answer::Blocked { count }) = answer;
        let rival = Student {
            hold: |reference, frame, _, here| hold_within(reference, frame, here, 0, here.range),
            ..RIGHT
        };
        match (&answer, rival.least(ticks, hops)) {
            (Answer::Found { frames, .. }, Answer::Found { frames: before, .. })
                if *frames == before =>
            {
                answer
            }
            _ => Answer::Blocked { count },
        }
    }
}

/// Y ignored in the calls of some kinds alone.
struct IgnoredIn {
    kinds: &'static [u8],
    /// The kind of the record that was read last.
    kind: Cell<u8>,
}

impl Rules for IgnoredIn {
    fn least(&self, ticks: u32, hops: &[Hop]) -> Answer {
        if self.kinds.contains(&self.kind.get()) {
            LEAST_IGNORED.least(ticks, hops)
        } else {
            dijkstra::least(ticks, hops)
        }
    }

    fn read_call<'a>(&self, bytes: &'a [u8]) -> Read<'a> {
        self.kind.set(bytes[0]);
        read_call(bytes)
    }
}

/// Mistakes with what an answer is compared with, and with the calls in which Y counts.
fn wrong_rivals() -> Vec<Wrong<Text>> {
    let ignored = |name, kinds| {
        let kind = Cell::default();
        by_rules(name, IgnoredIn { kinds, kind })
    };
    vec![
        by_rules("18 where a schedule that breaks Y is quicker", AnyRival),
        ignored("Y ignored in quotes alone", &[2]),
        ignored("Y ignored at set-ups alone", &[1, 4]),
    ]
}

// ---- Mistakes in check 21 ----

/// The right rules with another reader of the network file.
struct Reading(fn(&[u8]) -> Result<Network, Refusal>);

impl Rules for Reading {
    fn least(&self, ticks: u32, hops: &[Hop]) -> Answer {
        dijkstra::least(ticks, hops)
    }

    fn read(&self, file: &[u8]) -> Result<Network, Refusal> {
        (self.0)(file)
    }
}

/// The checks of a link without 21.
fn check_older(ticks: u32, link: &Link) -> Result<(), Refusal> {
    check_frames(ticks, link)?;
    check_range(link)?;
    check_closed(link)
}

/// The checks of a link with another one in the place of 21.
pub(crate) fn check_with(
    ticks: u32,
    link: &Link,
    check: fn(&Link) -> Result<(), Refusal>,
) -> Result<(), Refusal> {
    check_frames(ticks, link)?;
    check_range(link)?;
    check(link)?;
    check_closed(link)
}

fn wrong_orders() -> Vec<Wrong<Text>> {
    let reads = |name, read| by_rules(name, Reading(read));
    vec![
        reads("21 after 9", |file| {
            read_by(file, read_link, |ticks, link| {
                check_older(ticks, link)?;
                check_least(link)
            })
        }),
        reads("21 before 8", |file| {
            read_by(file, read_link, |ticks, link| {
                check_frames(ticks, link)?;
                check_least(link)?;
                check_link(ticks, link)
            })
        }),
        reads("21 before 7", |file| {
            read_by(file, read_link, |ticks, link| {
                check_least(link)?;
                check_link(ticks, link)
            })
        }),
        reads("21 once all records are read", |file| {
            let network = read_by(file, read_link, check_older)?;
            network.links.iter().try_for_each(check_least)?;
            Ok(network)
        }),
    ]
}

/// Other checks in the place of 21, each with its mistake.
pub(crate) const CHECKS: [(&str, fn(&Link) -> Result<(), Refusal>); 7] = [
    ("Y 0 with Z K not refused", |link| {
        refuse(21, link.least > link.range)
    }),
    ("Y above Z not refused", |link| {
        refuse(21, link.least == 0 && link.range == link.frames)
    }),
    ("Y above K alone refused", |link| {
        refuse(21, link.least > link.frames)?;
        refuse(21, link.least == 0 && link.range == link.frames)
    }),
    ("Y Z refused", |link| {
        refuse(21, link.least == link.range)?;
        check_least(link)
    }),
    ("Y 0 refused", |link| {
        refuse(21, link.least == 0)?;
        check_least(link)
    }),
    ("Y 0 with Z K - 1 refused", |link| {
        refuse(21, link.least == 0 && link.range + 1 == link.frames)?;
        check_least(link)
    }),
    ("8 for 21", |link| check_least(link).map_err(|_| 8)),
];

/// The right rules with another check in the place of 21.
struct Checking(fn(&Link) -> Result<(), Refusal>);

impl Rules for Checking {
    fn least(&self, ticks: u32, hops: &[Hop]) -> Answer {
        dijkstra::least(ticks, hops)
    }

    fn read(&self, file: &[u8]) -> Result<Network, Refusal> {
        read_by(file, read_link, |ticks, link| {
            check_with(ticks, link, self.0)
        })
    }
}

fn wrong_checks() -> Vec<Wrong<Text>> {
    let checks = CHECKS.into_iter();
    checks
        .map(|(name, check)| by_rules(name, Checking(check)))
        .collect()
}

// ---- Mistakes in the bytes ----

/// The bit of Y in a map byte.
const LEAST_BIT: u8 = 8;

/// Reads a record as if some bits of its map byte did not stand.
fn read_without(bytes: &[u8], bits: u8) -> Result<(Link, usize), Refusal> {
    let mut bytes = bytes.to_vec();
    bytes[0] &= !bits;
    read_link(&bytes)
}

/// Reads the record at the start of the bytes, or where bit 3 stands does so by the reader handed in.
fn read_or(
    bytes: &[u8],
    reader: fn(&[u8]) -> Result<(Link, usize), Refusal>,
) -> Result<(Link, usize), Refusal> {
    match bytes.first() {
        Some(&map) if has_bit(map, 3) => reader(bytes),
        _ => read_link(bytes),
    }
}

/// The record with Y's byte before those of the closed frames, put in its right order.
fn least_moved_back(bytes: &[u8]) -> Vec<u8> {
    let mut bytes = bytes.to_vec();
    let older = record_length(bytes[0] & 3);
    if has_bit(bytes[0], 2) && bytes.len() >= older + 9 {
        bytes[older..older + 9].rotate_left(1);
    }
    bytes
}

fn wrong_bytes() -> Vec<Wrong<Text>> {
    let reads = |name, read| by_rules(name, Reading(read));
    let mut all = wrongly_mapped();
    all.extend([
        reads("written Y 1 taken", |file| {
            let reader = |bytes: &[u8]| match read_link(bytes) {
                Err(6) if bytes[record_length(bytes[0]) - 1] == ABSENT.least as u8 => {
                    read_without(bytes, LEAST_BIT).map(|(link, used)| (link, used + 1))
                }
                other => other,
            };
            read_by(file, |bytes| read_or(bytes, reader), check_link)
        }),
        reads("Y's byte not needed", |file| {
            let reader = |bytes: &[u8]| match read_link(bytes) {
                Err(4) => read_without(bytes, LEAST_BIT),
                other => other,
            };
            read_by(file, |bytes| read_or(bytes, reader), check_link)
        }),
        reads("Y's byte not counted among the bytes used", |file| {
            let reader = |bytes: &[u8]| read_link(bytes).map(|(link, used)| (link, used - 1));
            read_by(file, |bytes| read_or(bytes, reader), check_link)
        }),
        reads("Y before the closed frames", |file| {
            let reader = |bytes: &[u8]| read_link(&least_moved_back(bytes));
            read_by(file, |bytes| read_or(bytes, reader), check_link)
        }),
    ]);
    all
}

/// Mistakes with the map byte.
fn wrongly_mapped() -> Vec<Wrong<Text>> {
    let reads = |name, read| by_rules(name, Reading(read));
    vec![
        reads("bit 3 refused with 5, as before W-206", |file| {
            let reader = |bytes: &[u8]| match read_without(bytes, LEAST_BIT) {
                Err(4) => Err(4),
                _ => Err(5),
            };
            read_by(file, |bytes| read_or(bytes, reader), check_link)
        }),
        reads("bit 4 not refused", |file| {
            let record = |bytes: &[u8]| match read_link(bytes) {
                Err(5) => read_without(bytes, 16),
                other => other,
            };
            read_by(file, record, check_link)
        }),
        reads("absent Y taken for 0", |file| {
            let record = |bytes: &[u8]| {
                let (mut link, used) = read_link(bytes)?;
                if !has_bit(bytes[0], 3) {
                    link.least = 0;
                }
                Ok((link, used))
            };
            read_by(file, record, check_link)
        }),
        reads("Y not taken from the file", |file| {
            let mut network = read_network(file)?;
            let links = network.links.iter_mut();
            links.for_each(|link| link.least = ABSENT.least);
            Ok(network)
        }),
    ]
}

#[cfg(test)]
mod tests {
    use super::*;
    use crate::random::Random;
    use crate::{by_holds, inputs, model, networks, survivors, windows};

    /// The search of document 01, whose hold is the only number from 1 to K that fits, and which knows of no Y.
    const BEFORE: Student = Student {
        hold: |reference, frame, _, here| {
            let ahead = (frame + here.frames - reference) % here.frames;
            let hold = if ahead == 0 { here.frames } else { ahead };
            (hold <= here.range).then_some(hold)
        },
        ..RIGHT
    };

    /// Where every Y is 1, all searches give the answers that they gave before W-206.
    #[test]
    fn with_y_1_everywhere_answers_are_as_before() {
        let mut random = Random::new(32);
        for _ in 0..3_000 {
            let (ticks, mut hops) = inputs::some_ticks_and_hops(&mut random);
            hops.iter_mut().for_each(|hop| hop.least = 1);
            let answer = BEFORE.least(ticks, &hops);
            assert_eq!(dijkstra::least(ticks, &hops), answer);
            assert_eq!(survivors::least(ticks, &hops), answer);
            assert_eq!(by_holds::least(ticks, &hops), answer);
            assert_eq!(windows::least(ticks, &hops), answer);
            assert_eq!(LEAST_IGNORED.least(ticks, &hops), answer);
        }
    }

    /// The checks that wrong ones are made of are right without a mistake.
    #[test]
    fn the_checks_without_a_mistake_are_right() {
        let mut random = Random::new(33);
        for _ in 0..20_000 {
            let network = networks::values(&mut random).network();
            for link in &network.links {
                let checked = check_link(network.ticks, link);
                assert_eq!(check_with(network.ticks, link, check_least), checked);
                let older = check_older(network.ticks, link);
                assert!(older == checked || checked == Err(21));
            }
        }
    }

    /// A wrong reader gives the same network where no record has bits 3 and 4, but for the ones that mean the absent Y.
    #[test]
    fn files_without_a_least_hold_are_read_as_before() {
        let mut random = Random::new(34);
        let mut network = networks::large_network(&mut random);
        network.links.truncate(3);
        let file = crate::network_file::image(&network);
        let text = model::transcript(&file, &[], dijkstra::least);
        for wrong in wrong_orders().into_iter().chain(wrong_bytes()) {
            let is_same = (wrong.does)(&file, &[]) == text;
            assert!(is_same || wrong.name.contains("absent"), "{}", wrong.name);
        }
    }
}
