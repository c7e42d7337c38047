//! Least-delay schedule by Dijkstra's method with a binary heap whose keys carry the whole order.

use crate::route::{self, Answer, Hop, MAX_HOPS};
use std::cmp::Reverse;
use std::collections::BinaryHeap;

/// A way into a frame of a hop: the last transition of a schedule of hops 0 to `hop`.
/// At hop 0 hold and preceding frame are 0.
#[derive(Clone, Copy)]
struct Way {
    delay: u32,
    hop: usize,
    frame: u32,
    hold: u32,
    preceding: u32,
}

/// One search. `open` holds the free frames of each hop that no way has been settled for;
/// `preceding` the frame before each settled one.
struct Search<'a> {
    ticks: u32,
    hops: &'a [Hop],
    open: [u64; MAX_HOPS],
    preceding: [[u8; 64]; MAX_HOPS],
    heap: BinaryHeap<Reverse<u64>>,
}

/// The least-delay schedule of the route.
pub fn least(ticks: u32, hops: &[Hop]) -> Answer {
    let (count, last_frames) = count(hops);
    if last_frames == 0 {
        return Answer::Blocked { count };
    }
    let mut search = Search::new(ticks, hops);
    let end = search.run();
    let frames = search.frames_back_from(end.frame);
    Answer::Found {
        delay: end.delay,
        count,
        cycles: route::cycles(hops, &frames),
        frames,
    }
}

impl<'a> Search<'a> {
    /// The search with every free frame of hop 0 as a way of delay 0.
    fn new(ticks: u32, hops: &'a [Hop]) -> Self {
        let mut search = Search {
            ticks,
            hops,
            open: [0; MAX_HOPS],
            preceding: [[0; 64]; MAX_HOPS],
            heap: BinaryHeap::with_capacity(256),
        };
        for (open, hop) in search.open.iter_mut().zip(hops) {
            *open = hop.free;
        }
        for frame in frames_of(hops[0].free) {
            search.push(Way {
                delay: 0,
                hop: 0,
                frame,
                hold: 0,
                preceding: 0,
            });
        }
        search
    }

    /// Settles frames in the order of the heap until one of the last hop comes out.
    ///
    /// A hold of 0 costs nothing, but every transition leads to the next hop, and of equal delays the earlier hop
    /// comes out first. So all ways of one delay into a hop stand in the heap before the first of them comes out,
    /// and the first way out into a frame is the best one: of equal delay, the smaller hold and then the smaller
    /// preceding frame. What lies before the preceding frame was settled by the same rule.
    fn run(&mut self) -> Way {
        loop {
            let Reverse(key) = self.heap.pop().expect("some schedule exists");
            let way = Self::way(key);
            if route::has(self.open[way.hop], way.frame) {
                self.open[way.hop] &= !(1 << way.frame);
                self.preceding[way.hop][way.frame as usize] = way.preceding as u8;
                if way.hop + 1 == self.hops.len() {
                    return way;
                }
                self.push_next(way.hop, way.frame, way.delay, 0);
            }
            if way.hop > 0 {
                let here = &self.hops[way.hop];
                let spent = route::delay(way.hold, self.ticks, here);
                let tried = way.hold - here.least + 1;
                self.push_next(way.hop - 1, way.preceding, way.delay - spent, tried);
            }
        }
    }

    /// Puts into the heap the way of least hold from a settled frame to an open frame, without the first so many holds.
    /// The ways of a frame differ in delay, so the next one isn't needed before this one has come out.
    fn push_next(&mut self, hop: usize, frame: u32, delay: u32, tried: u32) {
        let here = &self.hops[hop + 1];
        let reference = route::reference(frame, &self.hops[hop], here);
        let holds = holds(self.open[hop + 1], reference, here) & !route::ones(tried);
        if holds == 0 {
            return;
        }
        let hold = here.least + holds.trailing_zeros();
        self.push(Way {
            delay: delay + route::delay(hold, self.ticks, here),
            hop: hop + 1,
            frame: (reference + hold) % here.frames,
            hold,
            preceding: frame,
        });
    }

    /// Puts a way into the heap under its key: delay, hop, frame, hold, preceding frame.
    fn push(&mut self, way: Way) {
        let key = u64::from(way.delay) << 32
            | (way.hop as u64) << 24
            | u64::from(way.frame) << 16
            | u64::from(way.hold) << 8
            | u64::from(way.preceding);
        self.heap.push(Reverse(key));
    }

    /// The way of a key.
    fn way(key: u64) -> Way {
        Way {
            delay: (key >> 32) as u32,
            hop: (key >> 24 & 0xff) as usize,
            frame: (key >> 16 & 0xff) as u32,
            hold: (key >> 8 & 0xff) as u32,
            preceding: (key & 0xff) as u32,
        }
    }

    /// The frames of the schedule that ends in a settled frame of the last hop.
    fn frames_back_from(&self, last: u32) -> Vec<u8> {
        let mut frames = vec![last as u8; self.hops.len()];
        for j in (1..frames.len()).rev() {
            frames[j - 1] = self.preceding[j][frames[j] as usize];
        }
        frames
    }
}

/// The holds from Y to Z that lead from a reference frame to a frame of the word: bit D-Y stands for hold D.
fn holds(word: u64, reference: u32, here: &Hop) -> u64 {
    let first = (reference + here.least) % here.frames;
    let around = if first == 0 {
        word
    } else {
        word >> first | word << (here.frames - first)
    };
    around & route::ones(here.holds())
}

/// The count of transitions considered, and the frames that end some schedule of the whole route.
fn count(hops: &[Hop]) -> (u32, u64) {
    let mut pairs = 0;
    let mut ends = hops[0].free;
    for hop in hops.windows(2) {
        let (before, here) = (&hop[0], &hop[1]);
        let mut reached = 0;
        for preceding in frames_of(ends) {
            let reference = route::reference(preceding, before, here);
            let holds = holds(here.free, reference, here);
            pairs += holds.count_ones();
            reached |= frames_at(holds, reference, here);
        }
        ends = reached;
    }
    (pairs, ends)
}

/// The frames that the holds of a reference frame lead to: `holds` the other way round.
fn frames_at(holds: u64, reference: u32, here: &Hop) -> u64 {
    let first = (reference + here.least) % here.frames;
    let around = if first == 0 {
        holds
    } else {
        holds << first | holds >> (here.frames - first)
    };
    around & route::ones(here.frames)
}

/// The frames of a word, the smallest first.
fn frames_of(mut word: u64) -> impl Iterator<Item = u32> {
    std::iter::from_fn(move || {
        if word == 0 {
            return None;
        }
        let frame = word.trailing_zeros();
        word &= word - 1;
        Some(frame)
    })
}

#[cfg(test)]
mod tests {
    use super::*;
    use crate::listing::{self, MOST_PATHS};
    use crate::model::{hops_of, Ledger};
    use crate::network_file::Network;
    use crate::random::Random;
    use crate::{networks, quoted_routes, survivors};

    /// The hops of the route over all links, or over the first eight.
    fn hops_over(network: &Network) -> Vec<Hop> {
        let links = network.links.len().min(MAX_HOPS);
        let route: Vec<u8> = (0..links as u8).collect();
        hops_of(network, &Ledger::new(network), &route)[..links].to_vec()
    }

    /// On routes with transitions that cost nothing too.
    #[test]
    fn dijkstra_survivors_and_the_listing_agree() {
        let mut random = Random::new(35);
        let mut listed = 0;
        for _ in 0..4_000 {
            let networks = [
                quoted_routes::network(&mut random),
                networks::listed_network(&mut random),
            ];
            for network in networks {
                let (ticks, hops) = (network.ticks, hops_over(&network));
                let found = least(ticks, &hops);
                assert_eq!(found, survivors::least(ticks, &hops), "{hops:?}");
                if listing::paths(hops.iter().map(|hop| hop.frames)) <= MOST_PATHS {
                    assert_eq!(found, listing::least(ticks, &hops), "{hops:?}");
                    listed += usize::from(hops.iter().any(|hop| hop.least == 0));
                }
            }
        }
        assert!(listed > 1_000, "{listed}");
    }
}
