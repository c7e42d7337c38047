//! A hop, the answer of a search, and the rules of forwarding: reference frame, hold, allowed, delay, cycles, count.

/// The most links of a route.
pub const MAX_HOPS: usize = 8;

/// What a search sees of a link: its frames per cycle K, its forwarding range Z, its least hold Y and its free word.
#[derive(Clone, Copy, Debug, PartialEq, Eq, Hash)]
pub struct Hop {
    pub frames: u32,
    pub range: u32,
    pub least: u32,
    pub free: u64,
}

impl Hop {
    /// How many numbers there are from Y up to Z: Z - Y + 1, where Y isn't above Z.
    pub fn holds(&self) -> u32 {
        (self.range + 1).saturating_sub(self.least)
    }
}

/// The answer of a search: a schedule with its delay in ticks and the cycle of each frame, or none; the count either way.
#[derive(Clone, Debug, PartialEq, Eq)]
pub enum Answer {
    Found {
        delay: u32,
        count: u32,
        frames: Vec<u8>,
        cycles: Vec<u8>,
    },
    Blocked {
        count: u32,
    },
}

/// The word with its lowest `number` bits standing, `number` from 0 to 64.
pub fn ones(number: u32) -> u64 {
    if number >= 64 {
        u64::MAX
    } else {
        (1 << number) - 1
    }
}

/// Does bit `frame` of the word stand?
pub fn has(word: u64, frame: u32) -> bool {
    word >> frame & 1 == 1
}

/// The reference frame at `here` of a frame of the hop before: floor(((k + 1) * K - 1) / K') (W-201).
pub fn reference(frame: u32, before: &Hop, here: &Hop) -> u32 {
    ((frame + 1) * here.frames - 1) / before.frames
}

/// The least number D from Y on with (reference + D) mod K = frame.
pub fn first_fitting(reference: u32, frame: u32, here: &Hop) -> u32 {
    let ahead = frame as i32 - (reference + here.least) as i32;
    here.least + ahead.rem_euclid(here.frames as i32) as u32
}

/// The hold: the one number from Y up to Z that fits, if there is one (W-206).
pub fn hold(reference: u32, frame: u32, here: &Hop) -> Option<u32> {
    Some(first_fitting(reference, frame, here)).filter(|&hold| hold <= here.range)
}

/// The hold of the transition from `preceding` at `before` to `frame` at `here`, if there is one.
pub fn hold_between(preceding: u32, before: &Hop, frame: u32, here: &Hop) -> Option<u32> {
    hold(reference(preceding, before, here), frame, here)
}

/// Is the transition allowed: is there a hold, and is the frame free?
pub fn allowed(preceding: u32, before: &Hop, frame: u32, here: &Hop) -> bool {
    has(here.free, frame) && hold_between(preceding, before, frame, here).is_some()
}

/// The delay in ticks of a hold at a link: D * T / K.
pub fn delay(hold: u32, ticks: u32, here: &Hop) -> u32 {
    hold * ticks / here.frames
}

/// The cycle of a hop after the first: that of the hop before where reference frame and hold together are below K,
/// else the one after it (W-202).
pub fn next_cycle(cycle: u8, reference: u32, hold: u32, here: &Hop) -> u8 {
    if reference + hold < here.frames {
        cycle
    } else {
        cycle + 1
    }
}

/// The cycle of each hop of a schedule; hop 0 has cycle 0.
pub fn cycles(hops: &[Hop], frames: &[u8]) -> Vec<u8> {
    let mut cycles = vec![0];
    for j in 1..frames.len() {
        let (before, here) = (&hops[j - 1], &hops[j]);
        let reference = reference(frames[j - 1].into(), before, here);
        let hold = first_fitting(reference, frames[j].into(), here);
        cycles.push(next_cycle(cycles[j - 1], reference, hold, here));
    }
    cycles
}

/// The hold at each hop of a schedule after the first.
pub fn holds(hops: &[Hop], frames: &[u8]) -> Vec<u32> {
    let hold = |j: usize| {
        let (before, here) = (&hops[j - 1], &hops[j]);
        first_fitting(
            reference(frames[j - 1].into(), before, here),
            frames[j].into(),
            here,
        )
    };
    (1..frames.len()).map(hold).collect()
}

/// The count by its definition. `ends[j]` holds the frames of hop j that end some schedule of hops 0 to j;
/// counted are the pairs of such a frame of hop j-1 and a frame of hop j to which a transition is allowed.
pub fn count(hops: &[Hop], ends: &[u64]) -> u32 {
    let mut pairs = 0;
    for j in 1..hops.len() {
        let (before, here) = (&hops[j - 1], &hops[j]);
        for preceding in (0..before.frames).filter(|&k| has(ends[j - 1], k)) {
            for frame in 0..here.frames {
                if allowed(preceding, before, frame, here) {
                    pairs += 1;
                }
            }
        }
    }
    pairs
}

/// What the count never passes: the sum over the hops after the first of K of the hop before times Z - Y + 1.
pub fn count_bound(hops: &[Hop]) -> u32 {
    let pairs = |hop: &[Hop]| hop[0].frames * hop[1].holds();
    hops.windows(2).map(pairs).sum()
}

#[cfg(test)]
mod tests {
    use super::*;

    /// A link of the given K and Z with Y 1 and every frame free.
    fn all_free(frames: u32, range: u32) -> Hop {
        held_from(1, frames, range)
    }

    /// A link of the given Y, K and Z with every frame free.
    fn held_from(least: u32, frames: u32, range: u32) -> Hop {
        Hop {
            frames,
            range,
            least,
            free: ones(frames),
        }
    }

    /// The Y that a link of the given K and Z can have.
    fn least_holds(frames: u32, range: u32) -> impl Iterator<Item = u32> {
        (0..=range).filter(move |&least| least > 0 || range < frames)
    }

    /// The numbers from one up to another one that lead from a reference frame to a frame.
    fn fitting(numbers: std::ops::RangeInclusive<u32>, step: [u32; 3]) -> Vec<u32> {
        let [reference, frame, frames] = step;
        let fits = |d: &u32| (reference + d) % frames == frame;
        numbers.filter(fits).collect()
    }

    #[test]
    fn hold_is_the_one_number_of_its_rule_if_there_is_one() {
        for frames in (1..=12).chain([31, 64]) {
            for range in 1..=frames {
                for least in least_holds(frames, range) {
                    let here = held_from(least, frames, range);
                    for reference in 0..frames {
                        for frame in 0..frames {
                            let fits = fitting(least..=range, [reference, frame, frames]);
                            assert!(fits.len() <= 1);
                            let hold = hold(reference, frame, &here);
                            assert_eq!(fits.first().copied(), hold);
                        }
                    }
                }
            }
        }
    }

    /// Where Y is 1 the hold is that of document 01: the only number from 1 to K that fits, where it is at most Z.
    #[test]
    fn hold_from_one_on_is_that_of_the_document() {
        for frames in 1..=64 {
            for reference in 0..frames {
                for frame in 0..frames {
                    let only = fitting(1..=frames, [reference, frame, frames]);
                    assert_eq!(only.len(), 1);
                    for range in [1, frames.div_ceil(2), frames] {
                        let hold = hold(reference, frame, &all_free(frames, range));
                        assert_eq!(hold, (only[0] <= range).then_some(only[0]));
                    }
                }
            }
        }
    }

    #[test]
    fn a_hold_of_none_stays_in_its_frame() {
        let link = held_from(0, 8, 2);
        let holds = [3, 4, 5, 6, 2].map(|frame| hold_between(3, &link, frame, &link));
        assert_eq!(holds, [Some(0), Some(1), Some(2), None, None]);
        let late = held_from(2, 8, 3);
        let holds = [3, 4, 5, 6, 7].map(|frame| hold_between(3, &late, frame, &late));
        assert_eq!(holds, [None, None, Some(2), Some(3), None]);
        // From slow to fast the reference frame of 3 is 7, and that of 6 from fast to slow 3.
        let (fast, slow) = (held_from(0, 8, 7), held_from(0, 4, 3));
        assert_eq!(hold_between(3, &slow, 7, &fast), Some(0));
        assert_eq!(hold_between(6, &fast, 3, &slow), Some(0));
        assert_eq!(delay(0, 48, &link), 0);
    }

    #[test]
    fn a_count_is_bounded_by_its_holds() {
        let (one, none, late) = (all_free(8, 2), held_from(0, 8, 2), held_from(2, 4, 4));
        assert_eq!(count_bound(&[none]), 0);
        assert_eq!(count_bound(&[one, one]), 16);
        assert_eq!(count_bound(&[one, none]), 24);
        assert_eq!(count_bound(&[none, one, late, none]), 16 + 24 + 12);
    }

    #[test]
    fn reference_is_where_the_last_bit_arrives() {
        let (fast, slow) = (all_free(8, 2), all_free(4, 2));
        assert_eq!(reference(4, &fast, &slow), 2);
        assert_eq!(reference(5, &fast, &slow), 2);
        assert_eq!(reference(3, &slow, &fast), 7);
        assert_eq!(reference(7, &fast, &fast), 7);
    }

    #[test]
    fn delay_counts_ticks() {
        assert_eq!(delay(1, 48, &all_free(16, 4)), 3);
        assert_eq!(delay(2, 48, &all_free(4, 2)), 24);
        assert_eq!(delay(64, 960, &all_free(64, 64)), 960);
    }

    #[test]
    fn a_cycle_ends_where_reference_and_hold_reach_it() {
        let link = all_free(8, 8);
        // 5 + 2 = 7 is below 8; 5 + 3 = 8 and 5 + 8 = 13 aren't.
        assert_eq!(cycles(&[link, link], &[5, 7]), [0, 0]);
        assert_eq!(cycles(&[link, link], &[5, 0]), [0, 1]);
        assert_eq!(cycles(&[link, link], &[5, 5]), [0, 1]);
        assert_eq!(cycles(&[link], &[7]), [0]);
        // 5 + 0 and 7 + 0 are below 8, and 7 + 1 isn't.
        let none = held_from(0, 8, 7);
        assert_eq!(cycles(&[none, none], &[5, 5]), [0, 0]);
        assert_eq!(cycles(&[none; 3], &[7, 7, 0]), [0, 0, 1]);
        assert_eq!(cycles(&[none; 4], &[7, 0, 0, 0]), [0, 1, 1, 1]);
        assert_eq!(holds(&[none; 4], &[7, 0, 0, 2]), [1, 0, 2]);
    }

    #[test]
    fn cycles_add_up_along_a_route() {
        let (fast, slow, single) = (all_free(8, 8), all_free(4, 4), all_free(1, 1));
        // With one frame in a cycle each hop has reference frame 0 and hold 1, which isn't below 1.
        assert_eq!(cycles(&[single; 8], &[0; 8]), [0, 1, 2, 3, 4, 5, 6, 7]);
        // Reference frames 3, 1 and 0: 3 + 1 isn't below 4, then 1 + 7 isn't below 8, then 0 + 3 is below 4.
        let route = [fast, slow, fast, slow];
        assert_eq!(cycles(&route, &[6, 0, 0, 3]), [0, 1, 2, 2]);
    }

    #[test]
    fn a_repeated_frame_number_is_a_whole_cycle() {
        let link = all_free(8, 7);
        assert_eq!(hold_between(3, &link, 3, &link), None);
        assert!(!allowed(3, &link, 3, &link));
        assert_eq!(hold_between(3, &link, 3, &all_free(8, 8)), Some(8));
        assert!(allowed(3, &link, 3, &all_free(8, 8)));
    }
}
