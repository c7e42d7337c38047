//! The least-delay search of a route in plain Rust: survivor search, hop by hop over reached frames and their holds.

use crate::route::{cycles, Answer, Hop};

/// A route has at most 8 hops, a link at most 64 frames.
const HOPS: usize = 8;
const FRAMES: usize = 64;

/// The delay of a frame that no schedule leads to.
const NEVER: u32 = u32::MAX;

/// The schedule of least delay over hops 0 to n - 1, n from 1 to 8, for a cycle of so many ticks, with the count of transitions considered.
/// The frame that a hold leads to is taken by the remainder, as the rule is written.
pub fn least(ticks: u32, hops: &[Hop]) -> Answer {
    search(ticks, hops, |sum, frames| sum % frames)
}

/// The same, where a sum past the cycle's end is taken back by a comparison and a subtraction.
pub fn least_by_comparison(ticks: u32, hops: &[Hop]) -> Answer {
    search(
        ticks,
        hops,
        |sum, frames| if sum < frames { sum } else { sum - frames },
    )
}

#[inline(always)]
fn search(ticks: u32, hops: &[Hop], wrapped: impl Fn(u32, u32) -> u32) -> Answer {
    let mut preds = [[0u8; FRAMES]; HOPS];
    let mut count = 0;

    // Hop 0: a free frame has delay 0.
    let mut before = [NEVER; FRAMES];
    for i in 0..hops[0].frames as usize {
        if hops[0].free >> i & 1 == 1 {
            before[i] = 0;
        }
    }

    for j in 1..hops.len() {
        let from = hops[j - 1].frames;
        let &Hop {
            frames,
            range,
            least,
            free,
        } = &hops[j];
        let time = ticks / frames;
        let mut delays = [NEVER; FRAMES];
        let mut holds = [0u32; FRAMES];
        for k in 0..from {
            let reached = before[k as usize];
            if reached == NEVER {
                continue;
            }
            let reference = ((k + 1) * frames - 1) / from;
            let mut considered = 0;
            for hold in least..range + 1 {
                let i = wrapped(reference + hold, frames) as usize;
                if free >> i & 1 == 1 {
                    considered += 1;
                    let delay = reached + hold * time;
                    // The smaller delay, then the smaller hold; k rises, so of equals the smaller preceding frame stays.
                    if delay < delays[i] || (delay == delays[i] && hold < holds[i]) {
                        delays[i] = delay;
                        holds[i] = hold;
                        preds[j][i] = k as u8;
                    }
                }
            }
            count += considered;
        }
        before = delays;
    }

    // The least delay at the last hop; of equals the smaller frame.
    let last = hops.len() - 1;
    let mut delay = NEVER;
    let mut frame = 0;
    for i in 0..hops[last].frames as usize {
        if before[i] < delay {
            delay = before[i];
            frame = i;
        }
    }
    if delay == NEVER {
        return Answer::Blocked { count };
    }

    let mut frames = vec![0u8; hops.len()];
    for j in (0..hops.len()).rev() {
        frames[j] = frame as u8;
        frame = preds[j][frame] as usize;
    }
    Answer::Found {
        delay,
        count,
        cycles: cycles(hops, &frames),
        frames,
    }
}
