//! What an answer met on its own way, hop by hop: ties of delays and what decided them, windows that pass the cycle's end,
//! and the blocks that windows are taken in.

use crate::route::{self, Hop};

/// The least delay to each frame of a hop, nothing where no schedule leads to it.
type Delays = Vec<Option<u32>>;

/// The least delays of each hop, over all pairs of a frame there and one of the hop before.
pub fn delays(ticks: u32, hops: &[Hop]) -> Vec<Delays> {
    let first = |frame| route::has(hops[0].free, frame).then_some(0);
    let mut delays = vec![(0..hops[0].frames).map(first).collect()];
    for j in 1..hops.len() {
        let least = |frame| ways(ticks, &hops[j - 1..=j], &delays[j - 1], frame).min();
        let least = (0..hops[j].frames).map(|frame| Some(least(frame)?.delay));
        let least = least.collect();
        delays.push(least);
    }
    delays
}

/// A way into a frame. Of two ways the smaller one is the better.
#[derive(Clone, Copy, PartialEq, Eq, PartialOrd, Ord)]
struct Way {
    delay: u32,
    hold: u32,
    preceding: u32,
}

/// The ways into a frame of the second of two hops, from the least delays of the first.
fn ways<'a>(
    ticks: u32,
    hops: &'a [Hop],
    delays: &'a Delays,
    frame: u32,
) -> impl Iterator<Item = Way> + 'a {
    let (before, here) = (&hops[0], &hops[1]);
    let is_free = route::has(here.free, frame);
    let frames = (0..before.frames).filter(move |_| is_free);
    frames.filter_map(move |preceding| {
        let delay = delays[preceding as usize]?;
        let hold = route::hold_between(preceding, before, frame, here)?;
        Some(Way {
            delay: delay + route::delay(hold, ticks, here),
            hold,
            preceding,
        })
    })
}

/// The hop at which nothing is reached any more, if there is one.
pub fn blocked_at(delays: &[Delays]) -> Option<usize> {
    let is_reached = |delays: &Delays| delays.iter().any(Option::is_some);
    delays.iter().position(|delays| !is_reached(delays))
}

/// Has another frame of the last hop the same least delay?
pub fn ends_tie(delays: &[Delays]) -> bool {
    let ends: Vec<u32> = delays[delays.len() - 1].iter().flatten().copied().collect();
    let least = ends.iter().min();
    ends.iter().filter(|&end| Some(end) == least).count() > 1
}

/// What the answer met where it entered a hop after the first.
#[derive(Clone, Copy, Debug, PartialEq, Eq)]
pub struct Entry {
    pub hold: u32,
    /// Another way of the same delay had a longer hold; another of the same delay and hold came from a later frame.
    pub tie_by_hold: bool,
    pub tie_by_frame: bool,
    /// Another way of the same delay came from before the block, and the answer's from within it.
    pub tie_across_block: bool,
    /// The Z - Y + 1 frames that end with the one entered pass the cycle's end; the way itself passes it after its least hold.
    pub window_passes: bool,
    pub way_passes: bool,
    /// In blocks of Z - Y + 1 frames from frame 0 on, the last cut off at the cycle's end: the frame lies in one that is cut off;
    /// the least hold leads to a frame before the block.
    pub block_is_cut: bool,
    pub from_before_block: bool,
    /// A free frame of the hop before is one that no schedule leads to.
    pub follows_unreached: bool,
}

/// What the answer met at each hop after the first.
pub fn entries(ticks: u32, hops: &[Hop], delays: &[Delays], frames: &[u8]) -> Vec<Entry> {
    let entry = |j: usize| entry(ticks, &hops[j - 1..=j], &delays[j - 1], frames[j].into());
    (1..hops.len()).map(entry).collect()
}

fn entry(ticks: u32, hops: &[Hop], delays: &Delays, frame: u32) -> Entry {
    let ways: Vec<Way> = ways(ticks, hops, delays, frame).collect();
    let best = *ways.iter().min().expect("the answer entered the frame");
    let ties = ways.iter().filter(|way| way.delay == best.delay);
    let ties: Vec<&Way> = ties.filter(|&&way| way != best).collect();
    let (before, here) = (&hops[0], &hops[1]);
    let window = here.holds();
    let first = frame - frame % window;
    let is_from_before = |way: &Way| way.hold - here.least > frame - first;
    let is_unreached = |frame| route::has(before.free, frame) && delays[frame as usize].is_none();
    Entry {
        hold: best.hold,
        tie_by_hold: ties.iter().any(|tie| tie.hold > best.hold),
        tie_by_frame: ties.iter().any(|tie| tie.hold == best.hold),
        tie_across_block: !is_from_before(&best) && ties.iter().any(|tie| is_from_before(tie)),
        window_passes: frame + 1 < window,
        way_passes: best.hold - here.least > frame,
        block_is_cut: first + window > here.frames,
        from_before_block: is_from_before(&best),
        follows_unreached: (0..before.frames).any(is_unreached),
    }
}

#[cfg(test)]
mod tests {
    use super::*;
    use crate::question_four::{eight, held_from, link};
    use crate::route::Answer;
    use crate::survivors;

    const ALL: &[u32] = &[0, 1, 2, 3, 4, 5, 6, 7];

    /// What the answer met, in a cycle of 48 ticks.
    fn met(hops: &[Hop]) -> Vec<Entry> {
        let Answer::Found { frames, .. } = survivors::least(48, hops) else {
            panic!("blocked");
        };
        entries(48, hops, &delays(48, hops), &frames)
    }

    #[test]
    fn ties_by_hold_and_by_frame() {
        let ties = |hops: &[Hop]| -> Vec<(bool, bool)> {
            let ties = |entry: &Entry| (entry.tie_by_hold, entry.tie_by_frame);
            met(hops).iter().map(ties).collect()
        };
        // 0 2 3 and 0 1 3 have delay 18.
        let route = [eight(&[0]), eight(&[1, 2]), eight(&[3])];
        assert_eq!(ties(&route), [(false, false), (true, false)]);
        // Frames 4 and 5 have reference frame 2 on the slow link.
        let route = [eight(&[4, 5]), link(4, 2, &[3])];
        assert_eq!(ties(&route), [(false, true)]);
        assert_eq!(ties(&[eight(ALL), eight(ALL)]), [(false, false)]);
    }

    #[test]
    fn ties_across_a_block() {
        // Frame 3 is of the block 2 to 3, and frame 4 begins a block. The least hold leads 1 to 2 and 2 to 3, and
        // there 2 to 3 and 3 to 4.
        let across = |hops: &[Hop]| met(hops)[1].tie_across_block;
        assert!(!across(&[eight(&[0]), eight(&[1, 2]), eight(&[3])]));
        assert!(across(&[eight(&[1]), eight(&[2, 3]), eight(&[4])]));
    }

    #[test]
    fn free_frames_that_nothing_reaches() {
        let follows = |hops: &[Hop]| -> Vec<bool> {
            let follows = |entry: &Entry| entry.follows_unreached;
            met(hops).iter().map(follows).collect()
        };
        let route = [eight(&[0]), eight(&[1, 2]), eight(ALL), eight(ALL)];
        assert_eq!(follows(&route), [false, false, true]);
    }

    #[test]
    fn ends_that_tie() {
        let tie = |hops: &[Hop]| ends_tie(&delays(48, hops));
        assert!(tie(&[eight(ALL)]));
        assert!(!tie(&[eight(&[3])]));
        assert!(!tie(&[eight(&[3]), eight(ALL)]));
        assert!(tie(&[eight(&[3, 6]), eight(ALL)]));
        assert!(!tie(&[eight(&[])]));
    }

    #[test]
    fn blocked_where_nothing_is_reached() {
        let blocked = |hops: &[Hop]| blocked_at(&delays(48, hops));
        assert_eq!(blocked(&[eight(&[])]), Some(0));
        assert_eq!(blocked(&[eight(&[3]), eight(&[6])]), Some(1));
        let route = [eight(&[0]), eight(&[1, 2]), eight(&[7]), eight(ALL)];
        assert_eq!(blocked(&route), Some(2));
        assert_eq!(blocked(&[eight(ALL), eight(ALL)]), None);
    }

    #[test]
    fn windows_and_blocks() {
        let places = |before: u32, range, frame| {
            let entry = met(&[eight(&[before]), link(8, range, &[frame])])[0];
            let windows = (entry.window_passes, entry.way_passes);
            (windows, (entry.block_is_cut, entry.from_before_block))
        };
        // Blocks 0 to 2, 3 to 5 and 6 to 7. Frame 6 leads to 7 by the least hold, and then on to 1.
        assert_eq!(places(6, 3, 1), ((true, true), (false, true)));
        assert_eq!(places(7, 3, 1), ((true, false), (false, false)));
        assert_eq!(places(7, 3, 2), ((false, false), (false, false)));
        assert_eq!(places(4, 3, 7), ((false, false), (true, true)));
        assert_eq!(places(5, 3, 7), ((false, false), (true, false)));
        // The same blocks: without a hold 7 leads to 7 first and then on to 1, and a least hold of 3 leads 4 to 7 and on to 1.
        for (least, before) in [(0, 7), (3, 4)] {
            let here = held_from(least, 8, least + 2, &[1]);
            let entry = met(&[eight(&[before]), here])[0];
            assert_eq!(entry.hold, least + 2);
            assert!(entry.window_passes && entry.way_passes && entry.from_before_block);
            assert!(!entry.block_is_cut);
        }
        // Blocks 0 to 3 and 4 to 7, and then the whole cycle.
        assert_eq!(places(4, 4, 7), ((false, false), (false, false)));
        assert_eq!(places(3, 8, 3), ((true, true), (false, true)));
    }
}
