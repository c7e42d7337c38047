//! Wrong window searches, each with one mistake.

use crate::route::{has, Hop};
use crate::tried::Wrong;
use crate::windows::{Method, Part, Way, NEVER, RIGHT};

/// All wrong window searches.
pub fn all() -> Vec<Wrong<Method>> {
    let mut all = wrong_windows();
    all.extend(wrong_blocks());
    all.extend(wrong_gathering());
    all.extend(wrong_least_holds());
    all.extend(wrong_numbers_of_holds());
    all.extend(wrong_costs());
    all.extend(wrong_ties());
    all.extend(wrong_counts());
    all.extend(wrong_delays());
    all
}

fn wrong(name: &'static str, does: Method) -> Wrong<Method> {
    Wrong { name, does }
}

/// One frame fewer than a window has.
fn one_short(here: &Hop) -> u32 {
    here.holds() - 1
}

/// One frame more, where the cycle has one.
fn one_long(here: &Hop) -> u32 {
    here.frames.min(here.holds() + 1)
}

fn wrong_windows() -> Vec<Wrong<Method>> {
    vec![
        wrong(
            "window one frame short",
            Method {
                window: one_short,
                ..RIGHT
            },
        ),
        wrong(
            "window one frame long",
            Method {
                window: one_long,
                ..RIGHT
            },
        ),
        wrong(
            "window cut off at the cycle's end",
            Method {
                back: |first, frame, _| first.checked_sub(frame).map(|back| back as i32),
                ..RIGHT
            },
        ),
        wrong(
            "a frame before the cycle's end without a cycle more",
            Method {
                back: |first, frame, _| Some(first as i32 - frame as i32),
                ..RIGHT
            },
        ),
        wrong(
            "closed frame entered",
            Method {
                enters: |_, _| true,
                ..RIGHT
            },
        ),
    ]
}

fn wrong_blocks() -> Vec<Wrong<Method>> {
    vec![
        wrong(
            "last block of a cycle as long as the others",
            Method {
                block: |_, whole, _| whole,
                ..RIGHT
            },
        ),
        wrong(
            "window one frame short before its block",
            Method {
                before_block: |after, window| (window - 1 - after).saturating_sub(1),
                ..RIGHT
            },
        ),
        wrong(
            "window one frame long before its block",
            Method {
                before_block: |after, window| (window - after).min(window - 1),
                ..RIGHT
            },
        ),
        wrong(
            "running best kept from block to block",
            Method {
                begins_anew: false,
                ..RIGHT
            },
        ),
    ]
}

fn wrong_gathering() -> Vec<Wrong<Method>> {
    vec![
        wrong(
            "reference of a frame's first bit, as before W-201",
            Method {
                reference: |frame, before, here| frame * here.frames / before.frames,
                ..RIGHT
            },
        ),
        wrong(
            "least hold 0",
            Method {
                least_hold: |_, _| 0,
                ..RIGHT
            },
        ),
        wrong(
            "first frame gathered, not the least",
            Method {
                gathers: |_, _| false,
                ..RIGHT
            },
        ),
        wrong(
            "last frame gathered, not the least",
            Method {
                gathers: |_, _| true,
                ..RIGHT
            },
        ),
        wrong(
            "free frame gathered that nothing reaches",
            Method {
                is_reached: |_, hop, frame| has(hop.free, frame),
                ..RIGHT
            },
        ),
    ]
}

/// Mistakes with where a least hold leads to.
fn wrong_least_holds() -> Vec<Wrong<Method>> {
    vec![
        wrong(
            "least hold 1 on every link",
            Method {
                least_hold: |_, _| 1,
                ..RIGHT
            },
        ),
        wrong(
            "least hold of the link before",
            Method {
                least_hold: |before, _| before.least,
                ..RIGHT
            },
        ),
        wrong(
            "a least hold of 0 taken for a whole cycle",
            Method {
                least_hold: |_, here| match here.least {
                    0 => here.frames,
                    least => least,
                },
                ..RIGHT
            },
        ),
    ]
}

/// Mistakes with how many holds there are from the least one on.
fn wrong_numbers_of_holds() -> Vec<Wrong<Method>> {
    vec![
        wrong(
            "window of Z frames",
            Method {
                window: |here| here.range,
                ..RIGHT
            },
        ),
        wrong(
            "window of Z - Y frames",
            Method {
                window: |here| here.range - here.least,
                ..RIGHT
            },
        ),
        wrong(
            "count of Z frames",
            Method {
                counted: |here| here.range,
                ..RIGHT
            },
        ),
    ]
}

/// Mistakes with the delay of a least hold.
fn wrong_costs() -> Vec<Wrong<Method>> {
    vec![
        wrong(
            "least hold without its delay",
            Method {
                cost: |_, _| 0,
                ..RIGHT
            },
        ),
        wrong(
            "least hold with the delay of one frame",
            Method {
                cost: |_, _| 1,
                ..RIGHT
            },
        ),
        wrong(
            "a least hold of 0 with the delay of one frame",
            Method {
                cost: |least_hold, _| least_hold.max(1),
                ..RIGHT
            },
        ),
        wrong(
            "a least hold of 0 with the delay of a whole cycle",
            Method {
                cost: |least_hold, here| match least_hold {
                    0 => here.frames,
                    least_hold => least_hold,
                },
                ..RIGHT
            },
        ),
    ]
}

/// Has the way the smaller delay, or an equal one where that is enough?
fn is_less(way: &Way, other: &Way, or_equal: bool) -> bool {
    way.delay < other.delay || or_equal && way.delay == other.delay
}

fn wrong_ties() -> Vec<Wrong<Method>> {
    vec![
        wrong(
            "later frame before of equals",
            Method {
                gathers: |earlier, later| is_less(later, earlier, true),
                ..RIGHT
            },
        ),
        wrong(
            "longer hold of equals",
            Method {
                prefers: |_, shorter, longer| is_less(longer, shorter, true),
                ..RIGHT
            },
        ),
        wrong(
            "longer hold of equals before a block",
            Method {
                prefers: |part, shorter, longer| is_less(longer, shorter, part == Part::Before),
                ..RIGHT
            },
        ),
        wrong(
            "longer hold of equals within a block",
            Method {
                prefers: |part, shorter, longer| is_less(longer, shorter, part == Part::Within),
                ..RIGHT
            },
        ),
        wrong(
            "longer hold of equals from before the block",
            Method {
                prefers: |part, shorter, longer| is_less(longer, shorter, part == Part::Both),
                ..RIGHT
            },
        ),
        wrong(
            "later last frame of equals",
            Method {
                ends: |earlier, later| later <= earlier && later < NEVER,
                ..RIGHT
            },
        ),
        wrong(
            "preceding frame of the frame before",
            Method {
                kept_from: |frame, here| (frame + here.frames - 1) % here.frames,
                ..RIGHT
            },
        ),
    ]
}

fn wrong_counts() -> Vec<Wrong<Method>> {
    vec![
        wrong(
            "count cut off at the cycle's end",
            Method {
                counts: |here, place| place < here.frames && has(here.free, place),
                ..RIGHT
            },
        ),
        wrong(
            "count one frame short",
            Method {
                counted: one_short,
                ..RIGHT
            },
        ),
        wrong(
            "count one frame long",
            Method {
                counted: one_long,
                ..RIGHT
            },
        ),
    ]
}

/// Mistakes with what is kept from hop to hop.
fn wrong_delays() -> Vec<Wrong<Method>> {
    vec![
        wrong(
            "delay of 6,720 taken for none",
            Method {
                kept: |delay| if delay < 6_720 { delay } else { NEVER },
                ..RIGHT
            },
        ),
        wrong(
            "delay kept in twelve bits",
            Method {
                kept: |delay| delay % 4_096,
                ..RIGHT
            },
        ),
        wrong(
            "delays of two hops before not wiped out",
            Method {
                wipes: false,
                ..RIGHT
            },
        ),
    ]
}
