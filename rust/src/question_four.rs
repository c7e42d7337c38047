//! The cases of the document's question four, with the answers of W-201 from slow to fast, the cycles of W-202 and the least
//! holds of W-206, for every search.

use crate::route::{ones, Answer, Hop};
use crate::{by_holds, dijkstra, listing, running_sums, survivors, ways, windows};

const T: u32 = 48;
const ALL: &[u32] = &[0, 1, 2, 3, 4, 5, 6, 7];

/// A link of K frames, range Z and least hold 1 with only the frames named free.
pub fn link(frames: u32, range: u32, free: &[u32]) -> Hop {
    held_from(1, frames, range, free)
}

/// The same with another least hold.
pub fn held_from(least: u32, frames: u32, range: u32, free: &[u32]) -> Hop {
    let free = free.iter().fold(0, |word, frame| word | 1 << frame);
    assert_eq!(free & !ones(frames), 0);
    Hop {
        frames,
        range,
        least,
        free,
    }
}

/// Links A, B and E: K 8, Z 2.
pub fn eight(free: &[u32]) -> Hop {
    link(8, 2, free)
}

/// Link C: K 16, Z 4.
fn sixteen(free: &[u32]) -> Hop {
    link(16, 4, free)
}

/// Link D: K 4, Z 2.
pub fn four(free: &[u32]) -> Hop {
    link(4, 2, free)
}

/// Every search gives this answer.
fn answered(hops: &[Hop], expected: Answer) {
    let searches: [fn(u32, &[Hop]) -> Answer; 6] = [
        listing::least,
        dijkstra::least,
        survivors::least,
        survivors::least_by_comparison,
        by_holds::least,
        windows::least,
    ];
    for search in searches {
        assert_eq!(search(T, hops), expected);
    }
}

/// Every search finds these frames in these cycles with this delay and count.
fn found(hops: &[Hop], frames: &[u8], cycles: &[u8], delay: u32, count: u32) {
    let (frames, cycles) = (frames.to_vec(), cycles.to_vec());
    answered(
        hops,
        Answer::Found {
            delay,
            count,
            frames,
            cycles,
        },
    );
}

/// Every search finds nothing, with this count.
fn blocked(hops: &[Hop], count: u32) {
    answered(hops, Answer::Blocked { count });
}

#[test]
fn one_hop() {
    found(&[eight(ALL)], &[0], &[0], 0, 0);
    found(&[eight(&[5, 6])], &[5], &[0], 0, 0);
    blocked(&[eight(&[])], 0);
}

#[test]
fn two_hops_all_free() {
    // Reference frame 7 and hold 1 make 8, a whole cycle.
    found(&[eight(ALL), eight(ALL)], &[7, 0], &[0, 1], 6, 16);
}

#[test]
fn single_frames() {
    found(&[eight(&[3]), eight(&[5])], &[3, 5], &[0, 0], 12, 1);
    blocked(&[eight(&[3]), eight(&[6])], 0);
    blocked(&[eight(&[3]), eight(&[3])], 0);
    // Reference frame 3 and hold 8 make 11.
    let whole_cycle = [eight(&[3]), link(8, 8, &[3])];
    found(&whole_cycle, &[3, 3], &[0, 1], 48, 1);
}

#[test]
fn nearest_preceding_frame() {
    found(&[eight(&[1, 2]), eight(&[3])], &[2, 3], &[0, 0], 6, 2);
}

#[test]
fn nearest_frame_is_a_dead_end() {
    found(
        &[eight(&[0]), eight(&[1, 2]), eight(&[4])],
        &[0, 2, 4],
        &[0, 0, 0],
        24,
        3,
    );
}

#[test]
fn smaller_last_hold_wins() {
    found(
        &[eight(&[0]), eight(&[1, 2]), eight(&[3])],
        &[0, 2, 3],
        &[0, 0, 0],
        18,
        4,
    );
}

#[test]
fn slow_meets_fast() {
    blocked(&[eight(&[3]), sixteen(&[7])], 0);
    found(&[eight(&[3]), sixteen(&[10])], &[3, 10], &[0, 0], 9, 1);
    found(&[eight(&[3]), sixteen(&[11])], &[3, 11], &[0, 0], 12, 1);
    blocked(&[eight(&[3]), sixteen(&[6])], 0);
}

#[test]
fn fast_meets_slow() {
    found(&[eight(&[4, 5]), four(&[3])], &[4, 3], &[0, 0], 12, 2);
}

#[test]
fn blocked_on_the_way_keeps_its_count() {
    blocked(&[eight(&[0]), eight(&[1, 2]), eight(&[7]), eight(ALL)], 2);
}

#[test]
fn no_hold() {
    // The case of W-206: Y 0 and Z 2 on B. Reference frame 0 and hold 0 make 0.
    let route = [eight(ALL), held_from(0, 8, 2, ALL)];
    found(&route, &[0, 0], &[0, 0], 0, 24);
    assert_eq!(
        (ways::number(&route), running_sums::number(&route)),
        (24, 24)
    );
    // Y of hop 0 is used by no transition.
    found(&[route[1], eight(ALL)], &[7, 0], &[0, 1], 6, 16);
    found(&[route[1]; 3], &[0, 0, 0], &[0, 0, 0], 0, 48);
    // A{3} B{3}: 18 as long as Y is 1.
    found(
        &[eight(&[3]), held_from(0, 8, 2, &[3])],
        &[3, 3],
        &[0, 0],
        0,
        1,
    );
    found(
        &[eight(&[7]), held_from(0, 8, 7, &[7])],
        &[7, 7],
        &[0, 0],
        0,
        1,
    );
    blocked(&[eight(&[3]), held_from(0, 8, 2, &[2, 6])], 0);
}

#[test]
fn two_frames_to_turn_round() {
    // Reference frame 6 and hold 2 make 8.
    let late = |free| held_from(2, 8, 3, free);
    found(&[eight(ALL), late(ALL)], &[6, 0], &[0, 1], 12, 16);
    blocked(&[eight(&[3]), late(&[3, 4, 7])], 0);
    found(&[eight(&[3]), late(&[4, 6, 7])], &[3, 6], &[0, 0], 18, 1);
    // Y Z: one hold alone. Y K: the same frame of the next cycle.
    found(
        &[eight(ALL), held_from(3, 8, 3, ALL)],
        &[5, 0],
        &[0, 1],
        18,
        8,
    );
    found(
        &[eight(ALL), held_from(8, 8, 8, ALL)],
        &[0, 0],
        &[0, 1],
        48,
        8,
    );
}

#[test]
fn no_hold_between_links_of_unequal_rate() {
    // Frame 3 ends with frame 7 of the faster link, and frames 6 and 7 lie in frame 3 of the slower one.
    let (fast, slow) = (held_from(0, 16, 4, &[7]), held_from(0, 4, 2, &[3]));
    found(&[eight(&[3]), fast], &[3, 7], &[0, 0], 0, 1);
    found(&[eight(&[6, 7]), slow], &[6, 3], &[0, 0], 0, 2);
}

#[test]
fn ties_of_holds_of_none() {
    // 0 1 1 with holds 1 and 0 comes before 0 0 1 with holds 0 and 1; both have delay 6.
    let none = |free| held_from(0, 8, 2, free);
    let route = [eight(&[0]), none(&[0, 1]), none(&[1])];
    found(&route, &[0, 1, 1], &[0, 0, 0], 6, 4);
    // 0 1 3 3 and 0 2 3 3 have delay 18; the last hold is 0 for both, and then 2 3 has the smaller hold.
    let route = [eight(&[0]), eight(&[1, 2]), eight(&[3]), none(&[3])];
    found(&route, &[0, 2, 3, 3], &[0, 0, 0, 0], 18, 5);
}
