//! The least-delay search of a route as it stood in the library before W-204, in plain Rust, with the least holds of W-206: survivor
//! search from each reached frame over its holds. A row has a cell for each frame of a hop: 0 where no schedule leads to the frame, and else the least delay and 1. Only the
//! rows of the hop before and of the current hop are kept.

use crate::route::{cycles, Answer, Hop, MAX_HOPS};

/// A link has at most 64 frames.
const FRAMES: usize = 64;

/// A cell for each frame of a hop.
type Row = [u16; FRAMES];

/// The preceding frame of each frame of a hop.
type Preceding = [u8; FRAMES];

/// A hop that is entered: K of the hop before, its own K, Z, Y and free frames, and the time of its frame.
struct Entered {
    before: u16,
    frames: u16,
    range: u16,
    least: u16,
    free: u64,
    time: u16,
}

/// The ways kept so far into the frames of a hop: their cells, their last holds and their preceding frames.
struct Kept<'a> {
    cells: Row,
    holds: [u8; FRAMES],
    preceding: &'a mut Preceding,
}

/// The schedule of least delay over hops 0 to n - 1, n from 1 to 8, for a cycle of so many ticks, with the count of transitions considered.
pub fn least(ticks: u32, hops: &[Hop]) -> Answer {
    let mut preceding = [[0; FRAMES]; MAX_HOPS];
    let mut row = first_row(&hops[0]);
    let mut count = 0;
    for j in 1..hops.len() {
        let entered = Entered::new(ticks, &hops[j - 1], &hops[j]);
        let considered;
        (row, considered) = advance(&row, &entered, &mut preceding[j]);
        count += considered;
    }
    let last = hops.len() - 1;
    let (cell, frame) = best_end(&row[..hops[last].frames as usize]);
    if cell == 0 {
        return Answer::Blocked { count };
    }
    let frames = recover(&preceding[..hops.len()], frame);
    Answer::Found {
        delay: u32::from(cell - 1),
        count,
        cycles: cycles(hops, &frames),
        frames,
    }
}

/// The row of hop 0: a free frame has delay 0.
fn first_row(hop: &Hop) -> Row {
    let mut cells = [0; FRAMES];
    for (i, cell) in cells[..hop.frames as usize].iter_mut().enumerate() {
        *cell = (hop.free >> i & 1) as u16;
    }
    cells
}

/// The row of a hop, from the row of the hop before, with the transitions considered.
fn advance(row: &Row, entered: &Entered, preceding: &mut Preceding) -> (Row, u32) {
    let mut kept = Kept {
        cells: [0; FRAMES],
        holds: [0; FRAMES],
        preceding,
    };
    let mut count = 0;
    for k in 0..entered.before {
        let cell = row[usize::from(k)];
        if cell != 0 {
            count += kept.spread(k, cell - 1, entered);
        }
    }
    (kept.cells, count)
}

impl Entered {
    /// The time of a frame is worked out once for the hop.
    fn new(ticks: u32, before: &Hop, hop: &Hop) -> Self {
        Entered {
            before: before.frames as u16,
            frames: hop.frames as u16,
            range: hop.range as u16,
            least: hop.least as u16,
            free: hop.free,
            time: (ticks / hop.frames) as u16,
        }
    }

    /// The reference frame of frame k of the hop before.
    fn reference(&self, k: u16) -> u16 {
        ((k + 1) * self.frames - 1) / self.before
    }

    /// The frame so many frames after frame i: past the cycle's end it is taken back by a comparison and a subtraction.
    fn frame_after(&self, i: u16, frames: u16) -> u16 {
        if i + frames < self.frames {
            i + frames
        } else {
            i + frames - self.frames
        }
    }
}

impl Kept<'_> {
    /// The transitions from frame k, reached after this delay, over its holds from Y on: each free frame is offered its way. Answers how
    /// many there are.
    fn spread(&mut self, k: u16, delay: u16, entered: &Entered) -> u32 {
        let mut count = 0;
        let mut next = entered.frame_after(entered.reference(k), entered.least);
        for hold in entered.least..entered.range + 1 {
            let i = next;
            next = entered.frame_after(i, 1);
            if entered.free >> i & 1 == 1 {
                count += 1;
                self.offer(i, delay + hold * entered.time, hold, k);
            }
        }
        count
    }

    /// Frame i is offered a way from frame k, of this delay and hold: the better of it and the one kept so far is kept.
    fn offer(&mut self, i: u16, delay: u16, hold: u16, k: u16) {
        let at = usize::from(i);
        if comes_before(delay, hold, self.cells[at], self.holds[at]) {
            self.cells[at] = delay + 1;
            self.holds[at] = hold as u8;
            self.preceding[at] = k as u8;
        }
    }
}

/// Whether a way of this delay and hold comes before the one kept: the smaller delay first, then the smaller hold. Of equals the one kept
/// stays, whose preceding frame is the smaller.
fn comes_before(delay: u16, hold: u16, kept: u16, held: u8) -> bool {
    if kept == 0 {
        return true;
    }
    let least = kept - 1;
    delay < least || (delay == least && hold < u16::from(held))
}

/// The least cell of the last hop that isn't 0, and the smallest frame that has it; the cell is 0 where there is none.
fn best_end(row: &[u16]) -> (u16, u8) {
    let mut end = (0, 0);
    for (frame, &cell) in row.iter().enumerate() {
        if cell != 0 && (end.0 == 0 || cell < end.0) {
            end = (cell, frame as u8);
        }
    }
    end
}

/// The frames of the schedule that ends in this frame of the last hop.
fn recover(preceding: &[Preceding], mut frame: u8) -> Vec<u8> {
    let mut frames = vec![0; preceding.len()];
    for (place, preceding) in frames.iter_mut().zip(preceding).rev() {
        *place = frame;
        frame = preceding[usize::from(frame)];
    }
    frames
}

#[cfg(test)]
mod tests {
    use super::*;
    use crate::inputs::some_ticks_and_hops;
    use crate::random::Random;
    use crate::survivors;

    #[test]
    fn the_search_before_and_the_transcription_agree() {
        let mut random = Random::new(20);
        for _ in 0..4_000 {
            let (ticks, hops) = some_ticks_and_hops(&mut random);
            assert_eq!(
                least(ticks, &hops),
                survivors::least(ticks, &hops),
                "{hops:?}"
            );
        }
    }
}
