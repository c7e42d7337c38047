//! The number of schedules of a route, by a recurrence over its hops.

use crate::route::{self, Hop};

/// How many schedules the route has: the sum over the frames of the last hop.
pub fn number(hops: &[Hop]) -> u64 {
    let free = |frame| u64::from(route::has(hops[0].free, frame));
    let mut ending: Vec<u64> = (0..hops[0].frames).map(free).collect();
    for hop in hops.windows(2) {
        ending = next(&ending, &hop[0], &hop[1]);
    }
    ending.iter().sum()
}

/// How many schedules end in each frame of a hop, by how many end in each frame of the hop before: over all pairs of a frame
/// there and one here, each where its transition is allowed.
fn next(ending: &[u64], before: &Hop, here: &Hop) -> Vec<u64> {
    let mut next = vec![0; here.frames as usize];
    for preceding in 0..before.frames {
        for frame in 0..here.frames {
            if route::allowed(preceding, before, frame, here) {
                next[frame as usize] += ending[preceding as usize];
            }
        }
    }
    next
}

/// Is every frame of every hop free?
pub fn is_open(hops: &[Hop]) -> bool {
    hops.iter().all(|hop| hop.free == route::ones(hop.frames))
}

/// The number of an open route: K of hop 0 times the product of the later Z - Y + 1.
pub fn product(hops: &[Hop]) -> u64 {
    let later: u64 = hops[1..].iter().map(|hop| u64::from(hop.holds())).product();
    u64::from(hops[0].frames) * later
}

#[cfg(test)]
mod tests {
    use super::*;
    use crate::library::WAYS_MOST;
    use crate::listing;
    use crate::question_four::{eight, four, held_from, link};
    use crate::route::ones;

    const ALL: &[u32] = &[0, 1, 2, 3, 4, 5, 6, 7];

    /// The number by the recurrence, which must be that of the list.
    fn number_of(hops: &[Hop]) -> u64 {
        assert_eq!(listing::list(48, hops).schedules, number(hops));
        number(hops)
    }

    #[test]
    fn one_hop_has_a_way_for_each_free_frame() {
        assert_eq!(number_of(&[eight(ALL)]), 8);
        assert_eq!(number_of(&[eight(&[1, 7])]), 2);
        assert_eq!(number_of(&[eight(&[])]), 0);
    }

    #[test]
    fn ways_meet_and_part() {
        // 0 1 3, 0 2 3 and 0 2 4.
        assert_eq!(number_of(&[eight(&[0]), eight(&[1, 2]), eight(&[3, 4])]), 3);
        // Those three, and 1 2 3, 1 2 4.
        let route = [eight(&[0, 1]), eight(&[1, 2]), eight(&[3, 4])];
        assert_eq!(number_of(&route), 5);
        // Frames 0 to 2 lead to 3 within two frames from 1 and 2 alone.
        assert_eq!(number_of(&[eight(&[0, 1, 2]), eight(&[3])]), 2);
        // Question four's A{3} B{6} and A{3} B{3}; with Z 8 the second has a way.
        assert_eq!(number_of(&[eight(&[3]), eight(&[6])]), 0);
        assert_eq!(number_of(&[eight(&[3]), eight(&[3])]), 0);
        assert_eq!(number_of(&[eight(&[3]), link(8, 8, &[3])]), 1);
    }

    #[test]
    fn ways_between_links_of_unequal_rate() {
        // Frames 4 and 5 have reference frame 2 on the slow link, and so hold 1 into 3 and hold 2 into 0.
        assert_eq!(number_of(&[eight(&[4, 5]), four(&[0, 3])]), 4);
        assert_eq!(number_of(&[eight(&[4, 5]), four(&[3])]), 2);
        // Frame 1 has reference frame 3 on the fast link: frames 4 and 5 follow.
        assert_eq!(number_of(&[four(&[1]), eight(ALL)]), 2);
        assert_eq!(number_of(&[four(&[1]), eight(&[3, 4, 6])]), 1);
    }

    #[test]
    fn an_open_route_has_the_product() {
        let all_free = |frames, range| Hop {
            frames,
            range,
            least: 1,
            free: ones(frames),
        };
        let route = [all_free(8, 1), all_free(4, 3), all_free(8, 2)];
        assert!(is_open(&route));
        assert_eq!((product(&route), number_of(&route)), (48, 48));
        let route = [all_free(64, 64); 8];
        assert_eq!((product(&route), number(&route)), (WAYS_MOST, WAYS_MOST));
        assert_eq!(WAYS_MOST, 281_474_976_710_656);
    }

    #[test]
    fn an_open_route_has_the_product_of_its_holds() {
        let all_free = |least, frames, range| Hop {
            frames,
            range,
            least,
            free: ones(frames),
        };
        // 8 * (2 - 0 + 1), whatever Y of hop 0 is.
        let none = all_free(0, 8, 2);
        for first in [none, all_free(1, 8, 2), all_free(2, 8, 2)] {
            let route = [first, none];
            assert_eq!((product(&route), number_of(&route)), (24, 24));
        }
        // 8 * (4 - 2 + 1) * (3 - 0 + 1) * (3 - 3 + 1).
        let route = [
            none,
            all_free(2, 8, 4),
            all_free(0, 4, 3),
            all_free(3, 8, 3),
        ];
        assert_eq!((product(&route), number_of(&route)), (96, 96));
        // Of the whole cycle and of all frames but the last there are as many holds.
        let route = [all_free(0, 64, 63); 8];
        assert_eq!((product(&route), number(&route)), (WAYS_MOST, WAYS_MOST));
    }

    #[test]
    fn ways_over_links_with_another_least_hold() {
        // From 3 to 3, 4 and 5; from 3 to 5 and 6.
        assert_eq!(number_of(&[eight(&[3]), held_from(0, 8, 2, ALL)]), 3);
        assert_eq!(number_of(&[eight(&[3]), held_from(2, 8, 3, ALL)]), 2);
        assert_eq!(number_of(&[eight(&[3]), held_from(2, 8, 3, &[3, 4, 7])]), 0);
        assert_eq!(number_of(&[eight(&[3]), held_from(0, 8, 2, &[3, 6])]), 1);
        // Frames 4 and 5 have reference frame 2 on the slow link, and 2 alone is free there.
        assert_eq!(number_of(&[eight(&[4, 5]), held_from(0, 4, 3, &[2])]), 2);
    }

    #[test]
    fn a_route_is_open_where_every_frame_is_free() {
        assert!(is_open(&[eight(ALL), eight(ALL)]));
        assert!(!is_open(&[eight(ALL), eight(&ALL[1..])]));
        assert!(!is_open(&[eight(&ALL[..7]), eight(ALL)]));
    }
}
