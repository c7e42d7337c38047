//! Wrong numbers of schedules.

use crate::dijkstra;
use crate::model::{self, run_by, Rules, State};
use crate::network_file::refuse;
use crate::route::{self, ones, Answer, Hop, MAX_HOPS};
use crate::stand_in::{change, put, stored, ways, Ways};
use crate::tried::Wrong;
use crate::way_calls::faults;
use crate::ways::{is_open, number, product};
use crate::wrong::{hold_from_zero, FreeNothing, GoesOn, NoLimit, QuoteHolds, RouteLinkByLink};
use crate::wrong_least::{hold_within, LEAST_IGNORED};
use crate::wrong_numbers::THREE_KINDS;

/// All wrong numbers of schedules.
pub fn all() -> Vec<Wrong<Box<Ways>>> {
    let mut all = wrong_hops();
    all.extend(wrong_transitions());
    all.extend(wrong_least_holds());
    all.extend(wrong_numbers());
    all.extend(wrong_states());
    all.extend(wrong_refusals());
    all.extend(wrong_orders());
    all.extend(wrong_buffers());
    all
}

fn wrong(
    name: &'static str,
    does: impl Fn(&[u8], &[u8], &[u8], &mut [u64]) -> Result<usize, u64> + 'static,
) -> Wrong<Box<Ways>> {
    let does = Box::new(does);
    Wrong { name, does }
}

/// A number made of the hops of a route that passed its checks, on the state after the calls.
fn counts(
    name: &'static str,
    number: impl Fn(&State, &[u8], Vec<Hop>) -> u64 + 'static,
) -> Wrong<Box<Ways>> {
    wrong(name, move |file, calls, route, out| {
        let state = stored(file, calls)?;
        let hops = state.hops(route)?;
        put(&[number(&state, route, hops)], out)
    })
}

// ---- Other frames, other links ----

/// The closed frames of a link, and those that are held.
fn closed(state: &State, link: u8) -> u64 {
    state.network.links[usize::from(link)].closed
}

fn held(state: &State, link: u8) -> u64 {
    state.ledger.held[usize::from(link)]
}

/// The hops with more frames taken as free.
fn with(mut hops: Vec<Hop>, state: &State, route: &[u8], more: fn(&State, u8) -> u64) -> Vec<Hop> {
    for (hop, &link) in hops.iter_mut().zip(route) {
        hop.free |= more(state, link);
    }
    hops
}

/// The hops with other ranges.
fn with_ranges(mut hops: Vec<Hop>, range: fn(&Hop) -> u32) -> Vec<Hop> {
    for hop in &mut hops {
        hop.range = range(hop);
    }
    hops
}

fn wrong_hops() -> Vec<Wrong<Box<Ways>>> {
    vec![
        counts("closed frames counted", |state, route, hops| {
            number(&with(hops, state, route, closed))
        }),
        counts("held frames counted", |state, route, hops| {
            number(&with(hops, state, route, held))
        }),
        counts(
            "closed frames of hop 0 counted",
            |state, route, mut hops| {
                hops[0].free |= closed(state, route[0]);
                number(&hops)
            },
        ),
        counts("held frames of hop 0 counted", |state, route, mut hops| {
            hops[0].free |= held(state, route[0]);
            number(&hops)
        }),
        counts("every frame of the last link counted", |_, _, mut hops| {
            let last = hops.len() - 1;
            hops[last].free = ones(hops[last].frames);
            number(&hops)
        }),
        counts("last hop left out", |_, _, hops| {
            let most = hops.len() - 1;
            number(&hops[..most.max(1)])
        }),
        counts("hop 0 left out", |_, _, hops| {
            let most = hops.len() - 1;
            number(&hops[most.min(1)..])
        }),
        counts("route counted the way back", |_, _, mut hops| {
            hops.reverse();
            number(&hops)
        }),
    ]
}

// ---- Other transitions ----

/// The number by other rules for the reference frame and the hold.
fn number_by(
    hops: &[Hop],
    reference: fn(u32, &Hop, &Hop) -> u32,
    hold: fn(u32, u32, &Hop) -> Option<u32>,
) -> u64 {
    let mut ending: Vec<u64> = (0..64).map(|frame| hops[0].free >> frame & 1).collect();
    for hop in hops.windows(2) {
        let (before, here) = (&hop[0], &hop[1]);
        let mut next = vec![0; 64];
        for preceding in 0..before.frames {
            let reference = reference(preceding, before, here);
            for frame in (0..here.frames).filter(|&frame| route::has(here.free, frame)) {
                if hold(reference, frame, here).is_some() {
                    next[frame as usize] += ending[preceding as usize];
                }
            }
        }
        ending = next;
    }
    ending.iter().sum()
}

fn wrong_transitions() -> Vec<Wrong<Box<Ways>>> {
    vec![
        counts("a hold past the range counted", |_, _, hops| {
            number(&with_ranges(hops, |hop| (hop.range + 1).min(hop.frames)))
        }),
        counts("the longest hold left out", |_, _, hops| {
            number(&with_ranges(hops, |hop| hop.range - 1))
        }),
        counts("a hold of 0 counted for a whole cycle", |_, _, hops| {
            number_by(&hops, route::reference, hold_from_zero)
        }),
        counts(
            "reference of a frame's first bit, as before W-201",
            |_, _, hops| {
                let first_bit =
                    |frame, before: &Hop, here: &Hop| frame * here.frames / before.frames;
                number_by(&hops, first_bit, route::hold)
            },
        ),
        counts("holds not going round the cycle", |_, _, hops| {
            number_by(&hops, route::reference, |reference, frame, here| {
                let ahead = frame.checked_sub(reference)?;
                (here.least..=here.range).contains(&ahead).then_some(ahead)
            })
        }),
    ]
}

// ---- Other least holds ----

/// The number where other holds than those from Y to Z are allowed.
fn counts_holds(name: &'static str, hold: fn(u32, u32, &Hop) -> Option<u32>) -> Wrong<Box<Ways>> {
    counts(name, move |_, _, hops| {
        number_by(&hops, route::reference, hold)
    })
}

fn wrong_least_holds() -> Vec<Wrong<Box<Ways>>> {
    vec![
        counts_holds("Y ignored, as before W-206", |reference, frame, here| {
            hold_within(reference, frame, here, 1, here.range)
        }),
        counts_holds("holds from Y to Y + Z - 1", |reference, frame, here| {
            let range = here.least + here.range - 1;
            hold_within(reference, frame, here, here.least, range)
        }),
        counts_holds("a hold of Y left out", |reference, frame, here| {
            hold_within(reference, frame, here, here.least + 1, here.range)
        }),
        counts_holds("Y 0 taken for 1", |reference, frame, here| {
            hold_within(reference, frame, here, here.least.max(1), here.range)
        }),
        counts("Y of the link before", |_, _, mut hops| {
            for j in (1..hops.len()).rev() {
                hops[j].least = hops[j - 1].least;
            }
            number(&hops)
        }),
        counts("product of Z where no frame is taken", |_, _, hops| {
            if is_open(&hops) {
                let from_one = hops.iter().map(|&hop| Hop { least: 1, ..hop });
                return product(&from_one.collect::<Vec<Hop>>());
            }
            number(&hops)
        }),
    ]
}

// ---- Other numbers ----

/// How many frames of the last hop end a schedule.
fn ends(mut hops: Vec<Hop>) -> u64 {
    let last = hops.len() - 1;
    let free = hops[last].free;
    let ends = (0..hops[last].frames).filter(|&frame| {
        hops[last].free = free & 1 << frame;
        number(&hops) > 0
    });
    ends.count() as u64
}

fn wrong_numbers() -> Vec<Wrong<Box<Ways>>> {
    vec![
        counts("a way counted twice", |_, _, hops| match number(&hops) {
            0 => 0,
            number => number + 1,
        }),
        counts("transitions counted", |state, _, hops| {
            let (Answer::Found { count, .. } | Answer::Blocked { count }) =
                dijkstra::least(state.network.ticks, &hops);
            count.into()
        }),
        counts("last frames counted", |_, _, hops| ends(hops)),
        counts("1 where there is a way", |_, _, hops| number(&hops).min(1)),
        counts("product though frames are taken", |_, _, hops| {
            product(&hops)
        }),
        counts(
            "product of the holds of all hops where no frame is taken",
            |_, _, hops| {
                if is_open(&hops) {
                    return hops.iter().map(|hop| u64::from(hop.holds())).product();
                }
                number(&hops)
            },
        ),
        counts("number cut to 32 bits", |_, _, hops| {
            u64::from(number(&hops) as u32)
        }),
        counts("no number past 999,999", |_, _, hops| {
            number(&hops).min(999_999)
        }),
    ]
}

// ---- Other states ----

/// The number on the state that other rules lead to.
fn counts_by(name: &'static str, rules: impl Rules + 'static) -> Wrong<Box<Ways>> {
    wrong(name, move |file, calls, route, out| {
        let stored = run_by(&rules, file, calls).state;
        put(&[model::ways(&stored, route, out.len())?], out)
    })
}

fn wrong_states() -> Vec<Wrong<Box<Ways>>> {
    vec![
        wrong("counted on the fresh network", |file, _, route, out| {
            ways(file, &[], route, out)
        }),
        wrong("last call byte not read", |file, calls, route, out| {
            let read = &calls[..calls.len().saturating_sub(1)];
            ways(file, read, route, out)
        }),
        counts_by("released frames not counted", FreeNothing),
        counts_by("quoted frames not counted", QuoteHolds),
        counts_by("bytes after the first 65,536 served", NoLimit),
        counts_by("calls after a broken record served", GoesOn),
        counts_by("kinds 4 and 5 unreadable, as before W-205", THREE_KINDS),
        counts_by("Y ignored at set-up, as before W-206", LEAST_IGNORED),
    ]
}

// ---- Other refusals ----

/// A call that is refused where it shouldn't be, or given another route.
fn wrong_refusals() -> Vec<Wrong<Box<Ways>>> {
    vec![
        wrong(
            "18 where the number is 0",
            |file, calls, route, out| match model::ways(&stored(file, calls), route, out.len())? {
                0 => Err(18),
                number => put(&[number], out),
            },
        ),
        wrong(
            "17 where 96 sessions are live",
            |file, calls, route, out| {
                let state = stored(file, calls)?;
                state.hops(route)?;
                refuse(17, state.ledger.sessions.len() == 96)?;
                ways(file, calls, route, out)
            },
        ),
        wrong("one way over an empty route", |file, calls, route, out| {
            stored(file, calls)?;
            match route {
                [] => put(&[1], out),
                _ => ways(file, calls, route, out),
            }
        }),
        wrong("12 from eight links on", |file, calls, route, out| {
            stored(file, calls)?;
            refuse(12, route.len() >= MAX_HOPS)?;
            ways(file, calls, route, out)
        }),
        wrong(
            "links after the eighth ignored",
            |file, calls, route, out| ways(file, calls, &route[..route.len().min(MAX_HOPS)], out),
        ),
        wrong(
            "link numbers cut to five bits",
            |file, calls, route, out| {
                let cut: Vec<u8> = route.iter().map(|link| link % 32).collect();
                ways(file, calls, &cut, out)
            },
        ),
        wrong(
            "a link twice in a row counted once",
            |file, calls, route, out| {
                let mut once = route.to_vec();
                once.dedup();
                ways(file, calls, &once, out)
            },
        ),
        wrong("15 from slow to fast", |file, calls, route, out| {
            let hops = stored(file, calls)?.hops(route)?;
            let mut pairs = hops.windows(2);
            refuse(15, pairs.any(|pair| pair[0].frames < pair[1].frames))?;
            ways(file, calls, route, out)
        }),
    ]
}

/// The checks of the route in another order.
fn refuses_by(name: &'static str, order: [usize; 4]) -> Wrong<Box<Ways>> {
    wrong(name, move |file, calls, route, out| {
        let faults = faults(&stored(file, calls)?.network, route);
        for refusal in order {
            refuse(refusal as u32, faults[refusal - 12])?;
        }
        ways(file, calls, route, out)
    })
}

fn wrong_orders() -> Vec<Wrong<Box<Ways>>> {
    vec![
        refuses_by("13 before 12", [13, 12, 14, 15]),
        refuses_by("14 before 13", [12, 14, 13, 15]),
        refuses_by("15 before 14", [12, 13, 15, 14]),
        refuses_by("15 before 13", [12, 15, 13, 14]),
        wrong("12 to 15 link by link", |file, calls, route, out| {
            RouteLinkByLink.check_route(&stored(file, calls)?.network, route)?;
            ways(file, calls, route, out)
        }),
        wrong(
            "12 before the refusal of the file",
            |file, calls, route, out| {
                refuse(12, !(1..=MAX_HOPS).contains(&route.len()))?;
                ways(file, calls, route, out)
            },
        ),
        wrong("20 before 12 to 15", |file, calls, route, out| {
            stored(file, calls)?;
            refuse(20, out.is_empty())?;
            ways(file, calls, route, out)
        }),
        wrong(
            "20 before the refusal of the file",
            |file, calls, route, out| {
                refuse(20, out.is_empty())?;
                ways(file, calls, route, out)
            },
        ),
    ]
}

// ---- Other places ----

fn wrong_buffers() -> Vec<Wrong<Box<Ways>>> {
    vec![
        wrong("20 not refused", |file, calls, route, out| {
            match ways(file, calls, route, out) {
                Err(20) => Ok(1),
                answer => answer,
            }
        }),
        wrong("20 where there is one place", |file, calls, route, out| {
            model::ways(&stored(file, calls), route, 1)?;
            refuse(20, out.len() == 1)?;
            ways(file, calls, route, out)
        }),
        wrong("the number answered", |file, calls, route, out| {
            ways(file, calls, route, out)?;
            Ok(out[0] as usize)
        }),
        wrong(
            "nothing put where the number is 0",
            |file, calls, route, out| match model::ways(&stored(file, calls), route, out.len())? {
                0 => Ok(1),
                number => put(&[number], out),
            },
        ),
        wrong(
            "the number put into the last place",
            |file, calls, route, out| {
                let last = out.len().saturating_sub(1);
                ways(file, calls, route, &mut out[last..])
            },
        ),
        wrong(
            "a place after the number changed",
            |file, calls, route, out| {
                ways(file, calls, route, out)?;
                change(out, 1);
                Ok(1)
            },
        ),
        wrong(
            "every place cleared before the number is put",
            |file, calls, route, out| {
                let mut number = [0];
                ways(file, calls, route, &mut number[..out.len().min(1)])?;
                out.fill(0);
                put(&number, out)
            },
        ),
        wrong(
            "every place cleared at a refusal",
            |file, calls, route, out| ways(file, calls, route, out).inspect_err(|_| out.fill(0)),
        ),
        wrong(
            "first place changed where the file is refused",
            |file, calls, route, out| {
                if stored(file, calls).is_err() {
                    change(out, 0);
                }
                ways(file, calls, route, out)
            },
        ),
    ]
}

#[cfg(test)]
mod tests {
    use super::*;
    use crate::inputs::some_hops;
    use crate::random::Random;

    #[test]
    fn the_number_without_a_mistake_is_right() {
        let mut random = Random::new(18);
        for _ in 0..1_000 {
            let hops = some_hops(&mut random);
            let by_right_rules = number_by(&hops, route::reference, route::hold);
            assert_eq!(by_right_rules, number(&hops));
        }
    }
}
