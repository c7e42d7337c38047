//! The least-delay search of a route in plain Rust by windows: the frames of the hop before are gathered by the frame that
//! the least hold leads each to, and the best way into a frame is the best of the Z - Y + 1 gathered ones that end with it.

use crate::route::{self, cycles, has, Answer, Hop, MAX_HOPS};

/// A link has at most 64 frames.
const FRAMES: usize = 64;

/// The delay of a frame that no schedule leads to.
pub const NEVER: i32 = 1_000_000;

/// The least delay to each frame of a hop.
type Delays = [i32; FRAMES];

/// A way into a frame of a hop: its delay, and the frame of the hop before.
#[derive(Clone, Copy)]
pub struct Way {
    pub delay: i32,
    pub preceding: u32,
}

/// Where two ways into one frame are looked at: both from before its block, both from within it, or one from each.
#[derive(Clone, Copy, PartialEq, Eq)]
pub enum Part {
    Before,
    Within,
    Both,
}

/// The method, made of single parts to be replaced.
#[derive(Clone, Copy)]
pub struct Method {
    pub reference: fn(u32, &Hop, &Hop) -> u32,
    /// The least hold from one hop into the next.
    pub least_hold: fn(&Hop, &Hop) -> u32,
    /// How many frames of delay a least hold costs.
    pub cost: fn(u32, &Hop) -> u32,
    /// By delay, hop and frame: is the frame one that a schedule leads to?
    pub is_reached: fn(i32, &Hop, u32) -> bool,
    /// Of ways that the least hold leads to one frame: does the one from a later frame take the place of the earlier one?
    pub gathers: fn(&Way, &Way) -> bool,
    /// Of two ways into one frame: does the one of longer hold take the place of the other?
    pub prefers: fn(Part, &Way, &Way) -> bool,
    /// How many frames a window has.
    pub window: fn(&Hop) -> u32,
    /// How many frames the block from a frame on has, where a whole one has so many.
    pub block: fn(u32, u32, &Hop) -> u32,
    /// How many frames a frame lies before the first of a block, if its way is looked at.
    pub back: fn(u32, u32, &Hop) -> Option<i32>,
    /// Of a window that ends so many frames after the first of its block, and has so many: how many frames lie before the first.
    pub before_block: fn(u32, u32) -> u32,
    /// Does the running best begin anew with each block?
    pub begins_anew: bool,
    /// The frame of whose way the preceding frame is kept.
    pub kept_from: fn(u32, &Hop) -> u32,
    pub enters: fn(&Hop, u32) -> bool,
    /// A delay as it is kept from hop to hop.
    pub kept: fn(i32) -> i32,
    /// Are the delays of the hop before the last one wiped out before those of this hop are put in their place?
    pub wipes: bool,
    /// Of two frames of the last hop: does the later one's delay take the place of the earlier one's?
    pub ends: fn(i32, i32) -> bool,
    /// How many frames a window has that is counted, and whether the frame at a place from 0 to 2 K counts.
    pub counted: fn(&Hop) -> u32,
    pub counts: fn(&Hop, u32) -> bool,
}

/// The method without a mistake.
pub const RIGHT: Method = Method {
    reference: route::reference,
    least_hold: |_, here| here.least,
    cost: |least_hold, _| least_hold,
    is_reached: |delay, _, _| delay < NEVER,
    gathers: |earlier, later| later.delay < earlier.delay,
    prefers: |_, shorter, longer| longer.delay < shorter.delay,
    window: Hop::holds,
    block: |first, whole, here| whole.min(here.frames - first),
    back: |first, frame, here| Some(((first + here.frames - frame) % here.frames) as i32),
    before_block: |after, window| window - 1 - after,
    begins_anew: true,
    kept_from: |frame, _| frame,
    enters: |here, frame| has(here.free, frame),
    kept: |delay| delay,
    wipes: true,
    ends: |earlier, later| later < earlier,
    counted: Hop::holds,
    counts: |here, place| has(here.free, place % here.frames),
};

/// The schedule of least delay, with the count of transitions considered.
pub fn least(ticks: u32, hops: &[Hop]) -> Answer {
    RIGHT.least(ticks, hops)
}

impl Method {
    /// The search: of the delays only those of two hops are kept.
    pub fn least(&self, ticks: u32, hops: &[Hop]) -> Answer {
        let mut preceding = [[0; FRAMES]; MAX_HOPS];
        let mut delays = [[NEVER; FRAMES]; 2];
        let mut count = 0;
        for frame in (0..hops[0].frames).filter(|&frame| (self.enters)(&hops[0], frame)) {
            delays[0][frame as usize] = 0;
        }
        for j in 1..hops.len() {
            let step = Step {
                method: self,
                before: &hops[j - 1],
                here: &hops[j],
                time: (ticks / hops[j].frames) as i32,
            };
            let [even, odd] = &mut delays;
            let (before, here) = if j % 2 == 1 { (even, odd) } else { (odd, even) };
            count += step.count(before);
            step.enter(before, here, &mut preceding[j]);
        }
        self.answer(hops, &delays[(hops.len() - 1) % 2], &preceding, count)
    }

    /// The answer, by the delays of the last hop.
    fn answer(
        &self,
        hops: &[Hop],
        delays: &Delays,
        preceding: &[[u32; FRAMES]; MAX_HOPS],
        count: u32,
    ) -> Answer {
        let last = hops.len() - 1;
        let mut end = 0;
        for frame in 1..hops[last].frames as usize {
            if (self.ends)(delays[end], delays[frame]) {
                end = frame;
            }
        }
        if !(self.is_reached)(delays[end], &hops[last], end as u32) {
            return Answer::Blocked { count };
        }
        let mut frames = vec![end as u8; hops.len()];
        for j in (1..hops.len()).rev() {
            frames[j - 1] = preceding[j][usize::from(frames[j])] as u8;
        }
        Answer::Found {
            delay: delays[end] as u32,
            count,
            cycles: cycles(hops, &frames),
            frames,
        }
    }
}

/// The step from one hop to the next, whose frames last so many ticks.
struct Step<'a> {
    method: &'a Method,
    before: &'a Hop,
    here: &'a Hop,
    time: i32,
}

impl Step<'_> {
    /// The frames of the hop before that are reached, each with the frame that the least hold leads to.
    fn reached<'b>(&'b self, delays: &'b Delays) -> impl Iterator<Item = (u32, usize)> + 'b {
        let Step {
            method,
            before,
            here,
            ..
        } = self;
        let is_reached = |&frame: &u32| (method.is_reached)(delays[frame as usize], before, frame);
        let least_hold = (method.least_hold)(before, here);
        let nearest = move |frame| {
            let reference = (method.reference)(frame, before, here);
            ((reference + least_hold) % here.frames) as usize
        };
        let reached = (0..before.frames).filter(is_reached);
        reached.map(move |frame| (frame, nearest(frame)))
    }

    /// The transitions considered: for each frame that is reached the free frames among the Z - Y + 1 from its nearest on.
    /// Their number for each frame comes from that for the frame before it.
    fn count(&self, delays: &Delays) -> u32 {
        let frame = |place| u32::from((self.method.counts)(self.here, place));
        let counted = (self.method.counted)(self.here);
        let mut number = (0..counted).map(frame).sum::<u32>();
        let mut numbers = [0; FRAMES];
        for first in 0..self.here.frames {
            numbers[first as usize] = number;
            number = number + frame(first + counted) - frame(first);
        }
        self.reached(delays)
            .map(|(_, nearest)| numbers[nearest])
            .sum()
    }

    /// Puts the least delay to each free frame of this hop into the place of older ones, and the frame before it.
    fn enter(&self, before: &Delays, delays: &mut Delays, preceding: &mut [u32; FRAMES]) {
        let (method, here) = (self.method, self.here);
        let ways = self.ways(&self.gathered(before));
        if method.wipes {
            delays.fill(NEVER);
        }
        for frame in (0..here.frames).filter(|&frame| (method.enters)(here, frame)) {
            if let Some(way) = ways[frame as usize] {
                let kept = ways[(method.kept_from)(frame, here) as usize];
                delays[frame as usize] = (method.kept)(way.delay);
                preceding[frame as usize] = kept.map_or(0, |way| way.preceding);
            }
        }
    }

    /// For each frame the best of the ways that the least hold leads there.
    fn gathered(&self, delays: &Delays) -> Vec<Option<Way>> {
        let mut gathered: Vec<Option<Way>> = vec![None; self.here.frames as usize];
        let least_hold = (self.method.least_hold)(self.before, self.here);
        let held = (self.method.cost)(least_hold, self.here) as i32 * self.time;
        for (preceding, nearest) in self.reached(delays) {
            let delay = delays[preceding as usize] + held;
            let way = Way { delay, preceding };
            let place = &mut gathered[nearest];
            if place.is_none_or(|earlier| (self.method.gathers)(&earlier, &way)) {
                *place = Some(way);
            }
        }
        gathered
    }

    /// The best way into each frame, free or not: that of the window which ends with it, going round the cycle. In a block of as
    /// many frames as a window has, it is the better one of two: up to the block's first frame, and from there on.
    fn ways(&self, gathered: &[Option<Way>]) -> Vec<Option<Way>> {
        let (method, here) = (self.method, self.here);
        let window = (method.window)(here);
        let mut ways = vec![None; gathered.len()];
        let mut running = None;
        for first in (0..here.frames).step_by(window.max(1) as usize) {
            let suffixes = self.suffixes(gathered, first, window);
            if method.begins_anew {
                running = None;
            }
            for after in 0..(method.block)(first, window, here) {
                let frame = (first + after) as usize;
                let own = gathered.get(frame).copied().flatten();
                running = self.better(Part::Within, own, self.held(running, 1));
                let before = suffixes[(method.before_block)(after, window) as usize];
                let before = self.held(before, after as i32);
                ways[frame % gathered.len()] = self.better(Part::Both, running, before);
            }
        }
        ways
    }

    /// The best way into the first frame of a block: from that frame alone, from the frame before too, and so on.
    fn suffixes(&self, gathered: &[Option<Way>], first: u32, window: u32) -> Vec<Option<Way>> {
        let mut best = None;
        let mut suffix = |before: u32| {
            let frame = (first + self.here.frames - before) % self.here.frames;
            if let Some(back) = (self.method.back)(first, frame, self.here) {
                let way = self.held(gathered[frame as usize], back);
                best = self.better(Part::Before, best, way);
            }
            best
        };
        (0..window).map(&mut suffix).collect()
    }

    /// The way held for so many frames more.
    fn held(&self, way: Option<Way>, more: i32) -> Option<Way> {
        way.map(|Way { delay, preceding }| Way {
            delay: delay + more * self.time,
            preceding,
        })
    }

    /// The better one of two ways into one frame, of which the second has the longer hold.
    fn better(&self, part: Part, shorter: Option<Way>, longer: Option<Way>) -> Option<Way> {
        match (shorter, longer) {
            (Some(a), Some(b)) if (self.method.prefers)(part, &a, &b) => longer,
            (None, _) => longer,
            _ => shorter,
        }
    }
}

#[cfg(test)]
mod tests {
    use super::*;
    use crate::inputs::good_route;
    use crate::model::{hops_of, Ledger};
    use crate::network_file::Network;
    use crate::random::Random;
    use crate::{networks, quoted_routes, survivors};

    fn agree(network: &Network, route: &[u8]) {
        let hops = hops_of(network, &Ledger::new(network), route);
        let (ticks, hops) = (network.ticks, &hops[..route.len()]);
        let expected = survivors::least(ticks, hops);
        assert_eq!(least(ticks, hops), expected, "{network:?} {route:?}");
    }

    #[test]
    fn windows_and_survivors_agree() {
        let mut random = Random::new(23);
        for _ in 0..4_000 {
            let network = networks::network(&mut random, 64);
            agree(&network, &good_route(&mut random, &network));
            let network = quoted_routes::network(&mut random);
            let route: Vec<u8> = (0..network.links.len() as u8).collect();
            agree(&network, &route);
        }
    }
}
