//! Least-delay schedule by listing every schedule and comparing whole keys; only for small routes.

use crate::route::{self, Answer, Hop, MAX_HOPS};

/// Routes with at most so many paths, free or not, are listed.
pub const MOST_PATHS: u64 = 4_096;

/// The number of ways to pick a frame of each hop, by the frames per cycle of the hops.
pub fn paths(rates: impl Iterator<Item = u32>) -> u64 {
    rates.map(u64::from).product()
}

/// What puts the answer before the next best schedule of the list: the first rule of the order by which they
/// differ, or that there is no other.
#[derive(Clone, Copy, Debug, PartialEq, Eq)]
pub enum Decided {
    ByDelay,
    ByLastFrame,
    ByHold,
    ByPrecedingFrame,
    OnlySchedule,
}

/// A route with its answer; where that is a schedule, also what decided it; and how many schedules there are.
pub struct Listed {
    pub ticks: u32,
    pub hops: Vec<Hop>,
    pub answer: Answer,
    pub decided: Option<Decided>,
    pub schedules: u64,
}

/// The order of schedules as one list of numbers: the delay, the last frame, then going back hop by hop
/// the hold and the preceding frame. The smaller key wins. Unused places hold 0.
type Key = [u32; 2 * MAX_HOPS];

/// The listing so far: how many schedules of the whole route there were, the best one with its key, the next best key,
/// and the frames that end some schedule of hops 0 to j.
struct Listing<'a> {
    ticks: u32,
    hops: &'a [Hop],
    schedules: u64,
    best: Option<(Key, Vec<u32>)>,
    next_best: Option<Key>,
    ends: Vec<u64>,
}

/// The least-delay schedule of the route, from the whole list of its schedules.
pub fn least(ticks: u32, hops: &[Hop]) -> Answer {
    list(ticks, hops).answer
}

/// The least-delay schedule of the route and what decided it, from the whole list of its schedules.
pub fn list(ticks: u32, hops: &[Hop]) -> Listed {
    let mut listing = Listing {
        ticks,
        hops,
        schedules: 0,
        best: None,
        next_best: None,
        ends: vec![0; hops.len()],
    };
    for frame in (0..hops[0].frames).filter(|&i| route::has(hops[0].free, i)) {
        listing.extend(&mut vec![frame]);
    }
    Listed {
        ticks,
        hops: hops.to_vec(),
        answer: listing.answer(),
        decided: listing.decided(),
        schedules: listing.schedules,
    }
}

impl Listing<'_> {
    /// Lists every schedule of the whole route that begins with `frames`, itself a schedule of the first hops.
    fn extend(&mut self, frames: &mut Vec<u32>) {
        let j = frames.len();
        let last = frames[j - 1];
        self.ends[j - 1] |= 1 << last;
        if j == self.hops.len() {
            self.schedules += 1;
            self.compare(frames);
            return;
        }
        for frame in 0..self.hops[j].frames {
            if route::allowed(last, &self.hops[j - 1], frame, &self.hops[j]) {
                frames.push(frame);
                self.extend(frames);
                frames.pop();
            }
        }
    }

    /// Keeps the schedule when its key is smaller than every key before, and its key when only one was smaller.
    fn compare(&mut self, frames: &[u32]) {
        let key = key(self.ticks, self.hops, frames);
        if self.best.as_ref().is_none_or(|(best, _)| key < *best) {
            self.next_best = self.best.as_ref().map(|&(best, _)| best);
            self.best = Some((key, frames.to_vec()));
        } else if self.next_best.is_none_or(|next_best| key < next_best) {
            self.next_best = Some(key);
        }
    }

    /// The answer, when every schedule has been listed.
    fn answer(&self) -> Answer {
        let count = route::count(self.hops, &self.ends);
        match &self.best {
            None => Answer::Blocked { count },
            Some((key, frames)) => Answer::Found {
                delay: key[0],
                count,
                frames: frames.iter().map(|&frame| frame as u8).collect(),
                cycles: cycles(self.hops, frames),
            },
        }
    }

    /// What decided the answer, when every schedule has been listed; nothing where there is none.
    fn decided(&self) -> Option<Decided> {
        let (best, _) = self.best.as_ref()?;
        Some(match &self.next_best {
            None => Decided::OnlySchedule,
            Some(next_best) => rule(best, next_best),
        })
    }
}

/// The rule of the first place in which the keys of two schedules differ.
fn rule(best: &Key, next_best: &Key) -> Decided {
    let mut places = best.iter().zip(next_best);
    match places.position(|(a, b)| a != b) {
        None => panic!("two schedules have one key"),
        Some(0) => Decided::ByDelay,
        Some(1) => Decided::ByLastFrame,
        Some(place) if place % 2 == 0 => Decided::ByHold,
        Some(_) => Decided::ByPrecedingFrame,
    }
}

/// The cycle of each hop of a schedule, by positions counted from the beginning of cycle 0: frame i of cycle c stands
/// at c * K + i. The position on the hop before has a reference position here as a frame has a reference frame, and the
/// hop's own is the first from Y frames after it on that is one of its frame.
fn cycles(hops: &[Hop], frames: &[u32]) -> Vec<u8> {
    let mut position = frames[0];
    let mut cycles = vec![0];
    for (hop, &frame) in hops.windows(2).zip(&frames[1..]) {
        let reference = route::reference(position, &hop[0], &hop[1]);
        let mut later = reference + hop[1].least..;
        position = later
            .find(|position| position % hop[1].frames == frame)
            .expect("each frame comes again in every cycle");
        cycles.push((position / hop[1].frames) as u8);
    }
    cycles
}

/// The key of a whole schedule.
fn key(ticks: u32, hops: &[Hop], frames: &[u32]) -> Key {
    let last = hops.len() - 1;
    let mut key = [0; 2 * MAX_HOPS];
    key[1] = frames[last];
    for back in 0..last {
        let j = last - back;
        let hold = route::hold_between(frames[j - 1], &hops[j - 1], frames[j], &hops[j]);
        let hold = hold.expect("each transition is allowed");
        key[0] += route::delay(hold, ticks, &hops[j]);
        key[2 + 2 * back] = hold;
        key[3 + 2 * back] = frames[j - 1];
    }
    key
}

#[cfg(test)]
mod tests {
    use super::*;
    use crate::question_four::{eight, four, held_from, link};

    /// What decides the route in a cycle of 48 ticks.
    fn decided(hops: &[Hop]) -> Option<Decided> {
        list(48, hops).decided
    }

    const ALL: &[u32] = &[0, 1, 2, 3, 4, 5, 6, 7];

    #[test]
    fn decided_by_delay() {
        // 2 3 with delay 6, then 1 3 with 12.
        let route = [eight(&[1, 2]), eight(&[3])];
        assert_eq!(decided(&route), Some(Decided::ByDelay));
        // 0 1 with delay 6, then 0 2 with 12.
        let route = [eight(&[0]), eight(&[1, 2])];
        assert_eq!(decided(&route), Some(Decided::ByDelay));
    }

    #[test]
    fn decided_by_last_frame() {
        // 0, then 1, both with delay 0.
        assert_eq!(decided(&[eight(ALL)]), Some(Decided::ByLastFrame));
        // 7 0, then 0 1, both with delay 6.
        let route = [eight(ALL), eight(ALL)];
        assert_eq!(decided(&route), Some(Decided::ByLastFrame));
    }

    #[test]
    fn decided_by_hold() {
        // 0 2 3 with holds 2 and 1, then 0 1 3 with holds 1 and 2, both with delay 18.
        let route = [eight(&[0]), eight(&[1, 2]), eight(&[3])];
        assert_eq!(decided(&route), Some(Decided::ByHold));
        // The same two, and hold 1 into frame 4 of one hop more.
        let route = [eight(&[0]), eight(&[1, 2]), eight(&[3]), eight(&[4])];
        assert_eq!(decided(&route), Some(Decided::ByHold));
    }

    #[test]
    fn decided_by_preceding_frame() {
        // 4 3, then 5 3: both have reference frame 2, hold 1 and delay 12.
        let route = [eight(&[4, 5]), four(&[3])];
        assert_eq!(decided(&route), Some(Decided::ByPrecedingFrame));
        // The same two, and hold 1 into frame 0 of one hop more.
        let route = [eight(&[4, 5]), four(&[3]), four(&[0])];
        assert_eq!(decided(&route), Some(Decided::ByPrecedingFrame));
    }

    #[test]
    fn decided_between_holds_of_none() {
        // 0 0 with delay 0, then 1 1 with delay 0.
        let none = |free| held_from(0, 8, 2, free);
        assert_eq!(
            decided(&[eight(ALL), none(ALL)]),
            Some(Decided::ByLastFrame)
        );
        // 1 1 with delay 0, then 0 1 with delay 6.
        assert_eq!(
            decided(&[eight(&[0, 1]), none(&[1])]),
            Some(Decided::ByDelay)
        );
        // 0 1 1 with holds 1 and 0, then 0 0 1 with holds 0 and 1, both with delay 6.
        let route = [eight(&[0]), none(&[0, 1]), none(&[1])];
        assert_eq!(decided(&route), Some(Decided::ByHold));
        // 4 2, then 5 2: both have reference frame 2, hold 0 and delay 0.
        let route = [eight(&[4, 5]), held_from(0, 4, 2, &[2])];
        assert_eq!(decided(&route), Some(Decided::ByPrecedingFrame));
    }

    #[test]
    fn only_schedule_or_none() {
        let route = [eight(&[3]), eight(&[5])];
        assert_eq!(decided(&route), Some(Decided::OnlySchedule));
        assert_eq!(decided(&[eight(&[3]), eight(&[6])]), None);
    }

    /// The next best schedule is found whether it is listed before the best one or after it.
    #[test]
    fn next_best_is_found_wherever_it_stands() {
        // In the order of the list: 1 0 with delay 42, 1 2 with 6, 7 0 with 6, 7 2 with 18.
        let before = [eight(&[1, 7]), link(8, 7, &[0, 2])];
        assert_eq!(decided(&before), Some(Decided::ByLastFrame));
        // 1 2 with delay 6, 1 4 with 18, 3 2 with 42, 3 4 with 6.
        let after = [eight(&[1, 3]), link(8, 7, &[2, 4])];
        assert_eq!(decided(&after), Some(Decided::ByLastFrame));
    }

    #[test]
    fn schedules_are_counted() {
        let schedules = |hops: &[Hop]| list(48, hops).schedules;
        assert_eq!(schedules(&[eight(ALL)]), 8);
        assert_eq!(schedules(&[eight(&[])]), 0);
        assert_eq!(schedules(&[eight(ALL), eight(ALL)]), 16);
        // 0 1 3, 0 2 3 and 0 2 4.
        let route = [eight(&[0]), eight(&[1, 2]), eight(&[3, 4])];
        assert_eq!(schedules(&route), 3);
        assert_eq!(schedules(&[eight(&[3]), eight(&[6])]), 0);
    }

    #[test]
    fn cycles_by_positions() {
        let all = |frames: u32| -> Vec<u32> { (0..frames).collect() };
        // Positions 6 of 8, 4 of 4, 16 of 8 and 11 of 4: the references are 3, 9 and 8.
        let [fast, slow] = [8, 4].map(|frames| link(frames, frames, &all(frames)));
        let route = [fast, slow, fast, slow];
        assert_eq!(cycles(&route, &[6, 0, 0, 3]), [0, 1, 2, 2]);
        // A whole cycle after a reference of 3, at position 11.
        assert_eq!(cycles(&[fast, fast], &[3, 3]), [0, 1]);
        assert_eq!(cycles(&[slow], &[3]), [0]);
        // Without a hold at position 7, then at 15 a whole cycle later.
        let none = held_from(0, 8, 7, &all(8));
        assert_eq!(
            cycles(&[fast, none, fast, none], &[7, 7, 7, 7]),
            [0, 0, 1, 1]
        );
    }

    #[test]
    fn paths_are_free_or_not() {
        assert_eq!(paths([8, 4, 3].into_iter()), 96);
        assert_eq!(paths([64; 8].into_iter()), 1 << 48);
    }
}
