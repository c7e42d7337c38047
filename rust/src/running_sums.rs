//! The number of schedules of a route in plain Rust: from the last hop back, with running sums over the free frames.

use crate::route::{self, Hop};

/// A link has at most 64 frames.
const FRAMES: usize = 64;

/// Sums over the free ones among the first n frames of a hop, n from 0 to K.
type Sums = [u64; FRAMES + 1];

/// How many schedules the route has.
pub fn number(hops: &[Hop]) -> u64 {
    // How many ways there are from each frame of a hop to the last hop; from a frame of the last hop, one.
    let mut ways = [1; FRAMES];
    for hop in hops.windows(2).rev() {
        let (before, here) = (&hop[0], &hop[1]);
        let sums = sums(&ways, here);
        for frame in 0..before.frames {
            let reference = route::reference(frame, before, here);
            let nearest = (reference + here.least) % here.frames;
            ways[frame as usize] = window(&sums, nearest, here);
        }
    }
    sums(&ways, &hops[0])[hops[0].frames as usize]
}

fn sums(ways: &[u64; FRAMES], here: &Hop) -> Sums {
    let mut sums = [0; FRAMES + 1];
    for frame in 0..here.frames as usize {
        let free = here.free >> frame & 1;
        sums[frame + 1] = sums[frame] + free * ways[frame];
    }
    sums
}

/// The sum over the free ones among the Z - Y + 1 frames that begin at the first, going round the cycle.
fn window(sums: &Sums, first: u32, here: &Hop) -> u64 {
    let end = first + here.holds();
    let sum = |frames: u32| sums[frames as usize];
    if end <= here.frames {
        sum(end) - sum(first)
    } else {
        sum(here.frames) - sum(first) + sum(end - here.frames)
    }
}

#[cfg(test)]
mod tests {
    use super::*;
    use crate::inputs::some_hops;
    use crate::random::Random;
    use crate::ways;

    #[test]
    fn running_sums_and_all_pairs_agree() {
        let mut random = Random::new(19);
        for _ in 0..2_000 {
            let hops = some_hops(&mut random);
            assert_eq!(number(&hops), ways::number(&hops), "{hops:?}");
        }
    }
}
