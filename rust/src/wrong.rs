//! Wrong models, each with one student's mistake, to show that the comparison can fail.

use crate::dijkstra;
use crate::model::{self, Ledger, Rules, Session};
use crate::network_file::{check_link, read_link, read_network, refuse};
use crate::network_file::{Link, Network, Refusal, ABSENT};
use crate::route::{self, Answer, Hop};
use crate::tried::Wrong;
use crate::{wrong_least, wrong_numbers};

/// The text of a wrong model.
pub type Text = Box<dyn Fn(&[u8], &[u8]) -> Vec<u8>>;

/// All wrong models.
pub fn all() -> Vec<Wrong<Text>> {
    let mut all = wrong_searches();
    all.extend(wrong_calls());
    all.extend(wrong_numbers::all());
    all.extend(wrong_files());
    all.extend(wrong_least::files());
    all.extend(wrong_texts());
    all
}

pub(crate) fn by_rules(name: &'static str, rules: impl Rules + 'static) -> Wrong<Text> {
    Wrong {
        name,
        does: Box::new(move |file, calls| model::run_by(&rules, file, calls).text),
    }
}

// ---- Mistakes in the search ----

/// A schedule of the first hops.
#[derive(Clone)]
pub(crate) struct Way {
    delay: u32,
    frames: Vec<u32>,
    holds: Vec<u32>,
}

/// A transition of a schedule, and the cycle of the hop before.
pub(crate) struct Step<'a> {
    pub cycle: u8,
    pub preceding: u32,
    pub before: &'a Hop,
    pub frame: u32,
    pub here: &'a Hop,
    pub reference: u32,
    pub hold: u32,
}

/// Which pairs a student counts.
#[derive(Clone, Copy)]
pub(crate) enum Counting {
    FromFramesThatEndASchedule,
    WithoutDeadEnds,
    WithoutHoldsOfZero,
    FromFreeFrames,
    NoneWhenBlocked,
}

/// A search hop by hop that keeps the best way to each frame, made of single rules to be replaced.
#[derive(Clone, Copy)]
pub(crate) struct Student {
    pub reference: fn(u32, &Hop, &Hop) -> u32,
    /// The hold from a reference frame to a frame, if there is one, by the hop before and the hop itself.
    pub hold: fn(u32, u32, &Hop, &Hop) -> Option<u32>,
    pub delay: fn(u32, u32, &Hop, &Hop) -> u32,
    pub order: fn(&Way) -> Vec<u32>,
    pub counting: Counting,
    pub first_cycle: u8,
    pub next_cycle: fn(&Step) -> u8,
}

/// The search without a mistake.
pub(crate) const RIGHT: Student = Student {
    reference: route::reference,
    hold: |reference, frame, _before, here| route::hold(reference, frame, here),
    delay: |hold, ticks, _first, here| route::delay(hold, ticks, here),
    order: |way| way.going_back(|hold| hold),
    counting: Counting::FromFramesThatEndASchedule,
    first_cycle: 0,
    next_cycle: |step| route::next_cycle(step.cycle, step.reference, step.hold, step.here),
};

impl Way {
    /// The document's order: delay, last frame, then going back hold and preceding frame; the holds by what stands for each.
    pub fn going_back(&self, hold: fn(u32) -> u32) -> Vec<u32> {
        let mut key = vec![self.delay];
        for j in (1..self.frames.len()).rev() {
            key.extend([self.frames[j], hold(self.holds[j - 1])]);
        }
        key.push(self.frames[0]);
        key
    }
}

pub(crate) fn wrong_searches() -> Vec<Wrong<Text>> {
    let mut all = wrong_schedules();
    all.extend(wrong_cycles());
    all.extend(wrong_least::searches());
    all
}

/// The hold where 0 is one too, whose place the whole cycle would have with a least hold of 1.
pub(crate) fn hold_from_zero(reference: u32, frame: u32, here: &Hop) -> Option<u32> {
    match here.least {
        1 => route::hold(reference, frame, &Hop { least: 0, ..*here }),
        _ => route::hold(reference, frame, here),
    }
}

fn wrong_schedules() -> Vec<Wrong<Text>> {
    let student = |name, student: Student| by_rules(name, student);
    vec![
        student(
            "a hold of 0 allowed",
            Student {
                hold: |reference, frame, _, here| hold_from_zero(reference, frame, here),
                ..RIGHT
            },
        ),
        student(
            "reference rounded up where fast meets slow",
            Student {
                reference: |frame, before, here| {
                    if before.frames > here.frames {
                        (frame * here.frames).div_ceil(before.frames) % here.frames
                    } else {
                        route::reference(frame, before, here)
                    }
                },
                ..RIGHT
            },
        ),
        student(
            "reference of a frame's first bit, as before W-201",
            Student {
                reference: |frame, before, here| frame * here.frames / before.frames,
                ..RIGHT
            },
        ),
        student(
            "holds of unequal links added as if alike",
            Student {
                delay: |hold, ticks, first, _here| route::delay(hold, ticks, first),
                ..RIGHT
            },
        ),
        student(
            "ties by smaller first frame",
            Student {
                order: |way| [&[way.delay], &way.frames[..]].concat(),
                ..RIGHT
            },
        ),
        student(
            "ties by preceding frame, not hold",
            Student {
                order: |way| {
                    let back = way.frames.iter().rev().copied();
                    std::iter::once(way.delay).chain(back).collect()
                },
                ..RIGHT
            },
        ),
        student(
            "count without dead ends",
            Student {
                counting: Counting::WithoutDeadEnds,
                ..RIGHT
            },
        ),
        student(
            "count from free frames that nothing reaches",
            Student {
                counting: Counting::FromFreeFrames,
                ..RIGHT
            },
        ),
        student(
            "count 0 when blocked",
            Student {
                counting: Counting::NoneWhenBlocked,
                ..RIGHT
            },
        ),
        by_rules("nearest frame kept at each hop", Nearest),
    ]
}

fn wrong_cycles() -> Vec<Wrong<Text>> {
    let next_cycle = |name, next_cycle| {
        by_rules(
            name,
            Student {
                next_cycle,
                ..RIGHT
            },
        )
    };
    vec![
        by_rules(
            "cycle 1 at hop 0",
            Student {
                first_cycle: 1,
                ..RIGHT
            },
        ),
        next_cycle("every hop in the cycle of hop 0", |step| step.cycle),
        next_cycle("cycles not added up along the route", |step| {
            route::next_cycle(0, step.reference, step.hold, step.here)
        }),
        next_cycle("next cycle by the hold alone", |step| {
            route::next_cycle(step.cycle, 0, step.hold, step.here)
        }),
        next_cycle("next cycle one frame too early", |step| {
            route::next_cycle(step.cycle, step.reference, step.hold + 1, step.here)
        }),
        next_cycle("next cycle one frame too late", |step| {
            let end = (step.reference + step.hold).saturating_sub(1);
            route::next_cycle(step.cycle, 0, end, step.here)
        }),
        next_cycle("next cycle by K of the hop before", |step| {
            route::next_cycle(step.cycle, step.reference, step.hold, step.before)
        }),
        next_cycle("next cycle where the frame number doesn't rise", |step| {
            step.cycle + u8::from(step.frame <= step.preceding)
        }),
    ]
}

impl Rules for Student {
    fn least(&self, ticks: u32, hops: &[Hop]) -> Answer {
        let mut ways = first_ways(&hops[0]);
        let mut ends = vec![frames_of(&ways)];
        for j in 1..hops.len() {
            ways = (0..hops[j].frames)
                .filter_map(|frame| self.best_into(ticks, hops, &ways, j, frame))
                .collect();
            ends.push(frames_of(&ways));
        }
        let best = ways.into_iter().min_by_key(|way| (self.order)(way));
        self.answer(hops, &ends, best)
    }
}

/// A way for each free frame of hop 0.
fn first_ways(hop: &Hop) -> Vec<Way> {
    (0..hop.frames)
        .filter(|&frame| route::has(hop.free, frame))
        .map(|frame| Way {
            delay: 0,
            frames: vec![frame],
            holds: vec![],
        })
        .collect()
}

/// Frames as an answer has them.
fn bytes(frames: &[u32]) -> Vec<u8> {
    frames.iter().map(|&frame| frame as u8).collect()
}

/// The last frames of the ways.
fn frames_of(ways: &[Way]) -> u64 {
    let last = |way: &Way| way.frames[way.frames.len() - 1];
    ways.iter().fold(0, |word, way| word | 1 << last(way))
}

impl Student {
    fn hold_of(&self, preceding: u32, before: &Hop, frame: u32, here: &Hop) -> Option<u32> {
        let reference = (self.reference)(preceding, before, here);
        (self.hold)(reference, frame, before, here)
    }

    fn allowed(&self, preceding: u32, before: &Hop, frame: u32, here: &Hop) -> bool {
        route::has(here.free, frame) && self.hold_of(preceding, before, frame, here).is_some()
    }

    /// The best way into a frame of hop j over the best ways of the hop before.
    fn best_into(
        &self,
        ticks: u32,
        hops: &[Hop],
        ways: &[Way],
        j: usize,
        frame: u32,
    ) -> Option<Way> {
        let (before, here) = (&hops[j - 1], &hops[j]);
        ways.iter()
            .filter(|_| route::has(here.free, frame))
            .filter_map(|way| {
                let hold = self.hold_of(way.frames[j - 1], before, frame, here)?;
                let mut longer = way.clone();
                longer.delay += (self.delay)(hold, ticks, &hops[0], here);
                longer.frames.push(frame);
                longer.holds.push(hold);
                Some(longer)
            })
            .min_by_key(|way| (self.order)(way))
    }

    /// The cycle of each hop of a schedule.
    fn cycles(&self, hops: &[Hop], way: &Way) -> Vec<u8> {
        let mut cycles = vec![self.first_cycle];
        for j in 1..hops.len() {
            let (before, here) = (&hops[j - 1], &hops[j]);
            let (preceding, frame) = (way.frames[j - 1], way.frames[j]);
            let step = Step {
                cycle: cycles[j - 1],
                preceding,
                before,
                frame,
                here,
                reference: (self.reference)(preceding, before, here),
                hold: way.holds[j - 1],
            };
            cycles.push((self.next_cycle)(&step));
        }
        cycles
    }

    fn answer(&self, hops: &[Hop], ends: &[u64], best: Option<Way>) -> Answer {
        let free: Vec<u64> = hops.iter().map(|hop| hop.free).collect();
        let count = match self.counting {
            Counting::WithoutDeadEnds => self.count(hops, ends, &self.lead_to_the_end(hops)),
            Counting::FromFreeFrames => self.count(hops, &free, &free),
            Counting::NoneWhenBlocked if best.is_none() => 0,
            _ => self.count(hops, ends, &free),
        };
        match best {
            None => Answer::Blocked { count },
            Some(way) => Answer::Found {
                delay: way.delay,
                count,
                frames: bytes(&way.frames),
                cycles: self.cycles(hops, &way),
            },
        }
    }

    /// Does a pair count that is of the right words?
    fn counts(&self, preceding: u32, before: &Hop, frame: u32, here: &Hop) -> bool {
        let is_left_out = |hold| match self.counting {
            Counting::WithoutHoldsOfZero => hold == 0,
            _ => false,
        };
        let hold = self.hold_of(preceding, before, frame, here);
        route::has(here.free, frame) && hold.is_some_and(|hold| !is_left_out(hold))
    }

    /// The pairs that count from the frames of one word to those of the other.
    fn count(&self, hops: &[Hop], from: &[u64], to: &[u64]) -> u32 {
        let mut pairs = 0;
        for j in 1..hops.len() {
            let (before, here) = (&hops[j - 1], &hops[j]);
            for preceding in (0..before.frames).filter(|&k| route::has(from[j - 1], k)) {
                for frame in (0..here.frames).filter(|&i| route::has(to[j], i)) {
                    pairs += u32::from(self.counts(preceding, before, frame, here));
                }
            }
        }
        pairs
    }

    /// For each hop the free frames from which the last hop can be reached.
    fn lead_to_the_end(&self, hops: &[Hop]) -> Vec<u64> {
        let mut lead: Vec<u64> = hops.iter().map(|hop| hop.free).collect();
        for j in (1..hops.len()).rev() {
            let (before, here) = (&hops[j - 1], &hops[j]);
            for preceding in 0..before.frames {
                let goes_on = (0..here.frames)
                    .any(|i| route::has(lead[j], i) && self.allowed(preceding, before, i, here));
                if !goes_on {
                    lead[j - 1] &= !(1 << preceding);
                }
            }
        }
        lead
    }
}

/// Takes the smallest free frame of hop 0 and then the nearest free frame at each hop.
struct Nearest;

impl Rules for Nearest {
    fn least(&self, ticks: u32, hops: &[Hop]) -> Answer {
        let (Answer::Found { count, .. } | Answer::Blocked { count }) =
            dijkstra::least(ticks, hops);
        let mut frames = match first_ways(&hops[0]).first() {
            None => return Answer::Blocked { count },
            Some(way) => way.frames.clone(),
        };
        let mut delay = 0;
        for hop in hops.windows(2) {
            let last = frames[frames.len() - 1];
            let hold = |frame: &u32| route::hold_between(last, &hop[0], *frame, &hop[1]);
            let nearest = (0..hop[1].frames)
                .filter(|&frame| route::allowed(last, &hop[0], frame, &hop[1]))
                .min_by_key(hold);
            let Some((frame, hold)) = nearest.and_then(|frame| Some((frame, hold(&frame)?))) else {
                return Answer::Blocked { count };
            };
            delay += route::delay(hold, ticks, &hop[1]);
            frames.push(frame);
        }
        let frames = bytes(&frames);
        Answer::Found {
            delay,
            count,
            cycles: route::cycles(hops, &frames),
            frames,
        }
    }
}

// ---- Mistakes in the calls ----

/// The right rules but for one, put into a struct of its own.
macro_rules! mistake {
    ($name:ident, $($rule:item)*) => {
        pub(crate) struct $name;
        impl Rules for $name {
            fn least(&self, ticks: u32, hops: &[Hop]) -> Answer {
                dijkstra::least(ticks, hops)
            }
            $($rule)*
        }
    };
}
pub(crate) use mistake;

mistake! { NoMistake, }

mistake! { NinetyFivePlaces,
    fn places(&self) -> usize {
        95
    }
}

mistake! { NinetySevenPlaces,
    fn places(&self) -> usize {
        97
    }
}

mistake! { NoLimit,
    fn input_limit(&self) -> usize {
        usize::MAX
    }
}

mistake! { LimitOneLower,
    fn input_limit(&self) -> usize {
        65_535
    }
}

mistake! { LimitOneHigher,
    fn input_limit(&self) -> usize {
        65_537
    }
}

mistake! { GoesOn,
    fn after_unreadable<'a>(&self, rest: &'a [u8]) -> &'a [u8] {
        &rest[1..]
    }
}

mistake! { FreeOnEveryLink,
    fn free(&self, ledger: &mut Ledger, session: &Session) {
        for &frame in &session.frames {
            for held in &mut ledger.held {
                *held &= !(1 << frame);
            }
        }
    }
}

mistake! { FreeNothing,
    fn free(&self, _ledger: &mut Ledger, _session: &Session) {}
}

mistake! { QuoteHolds,
    fn after_quote(&self, ledger: &mut Ledger, route: &[u8], frames: &[u8]) {
        for (&link, &frame) in route.iter().zip(frames) {
            ledger.held[usize::from(link)] |= 1 << frame;
        }
    }
}

mistake! { NumberUnchecked,
    fn check_number(&self, _ledger: &Ledger, _number: u32) -> Result<(), Refusal> {
        Ok(())
    }
}

mistake! { NumberBeforeRoute,
    fn check_set_up(
        &self,
        network: &Network,
        ledger: &Ledger,
        number: u32,
        route: &[u8],
    ) -> Result<(), Refusal> {
        self.check_number(ledger, number)?;
        self.check_route(network, route)?;
        self.check_places(ledger)
    }
}

mistake! { PlacesBeforeNumber,
    fn check_set_up(
        &self,
        network: &Network,
        ledger: &Ledger,
        number: u32,
        route: &[u8],
    ) -> Result<(), Refusal> {
        self.check_route(network, route)?;
        self.check_places(ledger)?;
        self.check_number(ledger, number)
    }
}

mistake! { ScheduleBeforePlaces,
    fn check_set_up(
        &self,
        network: &Network,
        ledger: &Ledger,
        number: u32,
        route: &[u8],
    ) -> Result<(), Refusal> {
        self.check_route(network, route)?;
        self.check_number(ledger, number)?;
        let hops = model::hops_of(network, ledger, route);
        match self.least(network.ticks, &hops[..route.len()]) {
            // The search that follows refuses with 18.
            Answer::Blocked { .. } => Ok(()),
            Answer::Found { .. } => self.check_places(ledger),
        }
    }
}

mistake! { RouteLinkByLink,
    fn check_route(&self, network: &Network, route: &[u8]) -> Result<(), Refusal> {
        (1..=route.len().clamp(1, 9))
            .try_for_each(|hops| model::check_route(network, route.get(..hops).unwrap_or(&[])))
    }
}

fn wrong_calls() -> Vec<Wrong<Text>> {
    vec![
        by_rules("17 at 95 sessions", NinetyFivePlaces),
        by_rules("17 at 97 sessions", NinetySevenPlaces),
        by_rules("bytes after the first 65,536 read", NoLimit),
        by_rules("only 65,535 bytes read", LimitOneLower),
        by_rules("65,537 bytes read", LimitOneHigher),
        by_rules("calls after a broken record served", GoesOn),
        by_rules("release frees the frame on every link", FreeOnEveryLink),
        by_rules("release frees nothing", FreeNothing),
        by_rules("quote holds its frames", QuoteHolds),
        by_rules("16 never checked", NumberUnchecked),
        by_rules("16 before 12 to 15", NumberBeforeRoute),
        by_rules("17 before 16", PlacesBeforeNumber),
        by_rules("18 before 17", ScheduleBeforePlaces),
        by_rules("12 to 15 link by link", RouteLinkByLink),
    ]
}

// ---- Mistakes in the network file ----

/// Reads the file with the reader of a record and the checks of a link handed in.
pub(crate) fn read_by(
    file: &[u8],
    record: impl Fn(&[u8]) -> Result<(Link, usize), Refusal>,
    check: impl Fn(u32, &Link) -> Result<(), Refusal>,
) -> Result<Network, Refusal> {
    let head = read_network(&file[..file.len().min(3)]);
    if let Err(refusal @ 1..=3) = head {
        return Err(refusal);
    }
    let ticks = u32::from(file[0]) + 256 * u32::from(file[1]);
    let mut links = Vec::new();
    let mut rest = &file[3..];
    for _ in 0..file[2] {
        let (link, used) = record(rest)?;
        check(ticks, &link)?;
        links.push(link);
        rest = &rest[used..];
    }
    refuse(10, !rest.is_empty())?;
    Ok(Network { ticks, links })
}

mistake! { StrayBitFirst,
    fn read(&self, file: &[u8]) -> Result<Network, Refusal> {
        let record = |bytes: &[u8]| {
            refuse(5, bytes.first().is_some_and(|&map| map > 15))?;
            read_link(bytes)
        };
        read_by(file, record, check_link)
    }
}

mistake! { AbsentValueWritten,
    fn read(&self, file: &[u8]) -> Result<Network, Refusal> {
        let record = |bytes: &[u8]| match read_link(bytes) {
            // The value of the one field that may be written so is the absent one.
            Err(6) if matches!(bytes[0], 1 | 2) => Ok((ABSENT, 2)),
            other => other,
        };
        read_by(file, record, check_link)
    }
}

mistake! { AbsentRangeUnchecked,
    fn read(&self, file: &[u8]) -> Result<Network, Refusal> {
        let check = |ticks: u32, link: &Link| match check_link(ticks, link) {
            Err(8) if link.range == ABSENT.range => Ok(()),
            other => other,
        };
        read_by(file, read_link, check)
    }
}

mistake! { ClosedBeforeFrames,
    fn read(&self, file: &[u8]) -> Result<Network, Refusal> {
        let check = |ticks: u32, link: &Link| {
            refuse(9, link.closed & !route::ones(link.frames) != 0)?;
            check_link(ticks, link)
        };
        read_by(file, read_link, check)
    }
}

mistake! { TicksBeforeLinks,
    fn read(&self, file: &[u8]) -> Result<Network, Refusal> {
        let ticks = |file: &[u8]| u32::from(file[0]) + 256 * u32::from(file[1]);
        refuse(3, file.len() >= 3 && !(1..=960).contains(&ticks(file)))?;
        read_network(file)
    }
}

mistake! { MoreBytesIgnored,
    fn read(&self, file: &[u8]) -> Result<Network, Refusal> {
        let mut end = file.len();
        while read_network(&file[..end]) == Err(10) {
            end -= 1;
        }
        read_network(&file[..end])
    }
}

fn wrong_files() -> Vec<Wrong<Text>> {
    vec![
        by_rules("5 before 4", StrayBitFirst),
        by_rules("absent value written and taken", AbsentValueWritten),
        by_rules("absent Z not checked", AbsentRangeUnchecked),
        by_rules("9 before 7", ClosedBeforeFrames),
        by_rules("3 before 2", TicksBeforeLinks),
        by_rules("bytes after the last record ignored", MoreBytesIgnored),
    ]
}

// ---- Mistakes in the text ----

/// The right text, changed.
fn by_text(name: &'static str, change: fn(Vec<u8>) -> Vec<u8>) -> Wrong<Text> {
    Wrong {
        name,
        does: Box::new(move |file, calls| change(model::transcript(file, calls, dijkstra::least))),
    }
}

/// The text with each line changed; `change` is given the line without its newline.
fn by_line(text: Vec<u8>, change: fn(&str) -> String) -> Vec<u8> {
    let text = String::from_utf8(text).expect("the text is plain");
    text.lines().map(change).collect::<String>().into_bytes()
}

fn wrong_texts() -> Vec<Wrong<Text>> {
    vec![
        by_text("last newline missing", |mut text| {
            text.pop();
            text
        }),
        by_text("18 without its count", |text| {
            by_line(text, |line| match line.find(" no 18 ") {
                Some(at) => format!("{}\n", &line[..at + 6]),
                None => format!("{line}\n"),
            })
        }),
        by_text("one hop without its cycle", |text| {
            by_line(text, |line| match line.strip_suffix(" / 0") {
                Some(schedule) => format!("{schedule}\n"),
                None => format!("{line}\n"),
            })
        }),
        by_text("quotes without cycles", |text| {
            by_line(text, |line| match line.split_once(" / ") {
                Some((quote, _)) if quote.contains('Q') => format!("{quote}\n"),
                _ => format!("{line}\n"),
            })
        }),
        by_text("letter S where a record is broken", |text| {
            by_line(text, |line| format!("{}\n", line.replace('?', "S")))
        }),
        by_text("no live line after a broken record", |text| {
            let broken = text.iter().position(|&byte| byte == b'?');
            let end = broken.map_or(text.len(), |at| at + "? no 11\n".len());
            text[..end].to_vec()
        }),
    ]
}

#[cfg(test)]
mod tests {
    use super::*;
    use crate::random::Random;
    use crate::{inputs, networks};

    /// A wrong search differs by its mistake alone: without one it is right.
    #[test]
    fn the_search_without_a_mistake_is_right() {
        let mut random = Random::new(4);
        for _ in 0..2_000 {
            let input = inputs::input(&mut random);
            let calls = &input.calls[..input.calls.len().min(1_000)];
            assert_eq!(
                model::run_by(&RIGHT, &input.file, calls).text,
                model::transcript(&input.file, calls, dijkstra::least)
            );
        }
    }

    /// The same for the reader that the wrong readers are made of.
    #[test]
    fn the_reader_without_a_mistake_is_right() {
        let mut random = Random::new(5);
        for _ in 0..20_000 {
            let network = networks::network(&mut random, 64);
            let file = networks::damaged(&mut random, &network);
            let read = read_by(&file, read_link, check_link);
            assert_eq!(read, read_network(&file));
        }
    }
}
