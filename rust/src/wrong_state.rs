//! Wrong lookups and wrong counts of free frames.

use crate::dijkstra;
use crate::model::{self, run_by, Ledger, Rules, Session, State};
use crate::network_file::Link;
use crate::route::{ones, Answer, Hop, MAX_HOPS};
use crate::stand_in::{change, free_frames, look_up, lookup, put, put_what_fits, stored};
use crate::stand_in::{FreeFrames, Lookup};
use crate::tried::Wrong;
use crate::wrong::{FreeNothing, FreeOnEveryLink, GoesOn, NoLimit, NoMistake, QuoteHolds};
use crate::wrong_least::{NextCycleWithoutHold, LEAST_IGNORED};
use crate::wrong_numbers::{ReleasedByLowBits, StoredIn16Bits, HIGH_BYTE_FIRST, THREE_KINDS};
use std::cell::RefCell;

// ---- Lookups ----

/// All wrong lookups.
pub fn lookups() -> Vec<Wrong<Box<Lookup>>> {
    let mut all = wrongly_shown();
    all.extend(wrong_cycles());
    all.extend(wrongly_found());
    all.extend(wrong_buffers());
    all
}

fn wrong_lookup(
    name: &'static str,
    does: impl Fn(&[u8], &[u8], u32, &mut [u16]) -> Result<usize, u64> + 'static,
) -> Wrong<Box<Lookup>> {
    let does = Box::new(does);
    Wrong { name, does }
}

/// A lookup that hands out the wrong numbers of the right session.
fn shows(
    name: &'static str,
    shown: impl Fn(&State, &Session) -> Vec<u16> + 'static,
) -> Wrong<Box<Lookup>> {
    wrong_lookup(name, move |file, calls, number, out| {
        look_up(stored(file, calls), number, out, &shown)
    })
}

/// A lookup that shows a session as another one.
fn shows_as(name: &'static str, other: fn(&State, Session) -> Session) -> Wrong<Box<Lookup>> {
    shows(name, move |state, session| {
        other(state, session.clone()).shown()
    })
}

fn wrongly_shown() -> Vec<Wrong<Box<Lookup>>> {
    vec![
        shows_as("frames shown for links", |_, session| Session {
            route: session.frames.clone(),
            ..session
        }),
        shows_as("frames before links", |_, session| Session {
            route: session.frames,
            frames: session.route,
            ..session
        }),
        shows_as("hops in the opposite order", |_, mut session| {
            session.route.reverse();
            session.frames.reverse();
            session.cycles.reverse();
            session
        }),
        shows("link, frame and cycle hop by hop", |_, session| {
            let groups = [&session.route, &session.frames, &session.cycles];
            let hops = (0..session.route.len()).flat_map(|j| groups.map(|group| group[j].into()));
            session.shown()[..2].iter().copied().chain(hops).collect()
        }),
        shows("places after the last hop shown as 0", |_, session| {
            let mut session = session.clone();
            let mut shown = session.shown()[..2].to_vec();
            session.route.resize(MAX_HOPS, 0);
            session.frames.resize(MAX_HOPS, 0);
            session.cycles.resize(MAX_HOPS, 0);
            shown.extend_from_slice(&session.shown()[2..]);
            shown
        }),
        shows_as("delay 0", |_, session| Session {
            delay: 0,
            ..session
        }),
        shows_as("delay in frames of the first link", |state, session| {
            let first = &state.network.links[usize::from(session.route[0])];
            let delay = session.delay * first.frames / state.network.ticks;
            Session { delay, ..session }
        }),
        shows_as("another session's frames", |state, session| {
            let sessions = &state.ledger.sessions;
            let place = state.ledger.place_of(session.number).unwrap_or(0);
            let mut frames = sessions[(place + 1) % sessions.len()].frames.clone();
            frames.resize(session.frames.len(), 0);
            Session { frames, ..session }
        }),
    ]
}

/// The right rules; keeps the cycles of the last schedule that was found.
#[derive(Default)]
struct LastCycles {
    cycles: RefCell<Vec<u8>>,
}

impl Rules for LastCycles {
    fn least(&self, ticks: u32, hops: &[Hop]) -> Answer {
        let answer = dijkstra::least(ticks, hops);
        if let Answer::Found { cycles, .. } = &answer {
            self.cycles.replace(cycles.clone());
        }
        answer
    }
}

fn wrong_cycles() -> Vec<Wrong<Box<Lookup>>> {
    vec![
        shows_as("cycles before frames", |_, session| Session {
            frames: session.cycles,
            cycles: session.frames,
            ..session
        }),
        wrong_lookup(
            "cycles of the last schedule found",
            |file, calls, number, out| {
                let last = LastCycles::default();
                let stored = run_by(&last, file, calls).state;
                look_up(stored, number, out, |_, session| {
                    let mut session = session.clone();
                    session.cycles = last.cycles.borrow().clone();
                    session.cycles.resize(session.frames.len(), 0);
                    session.shown()
                })
            },
        ),
    ]
}

/// A lookup on the state that other rules lead to.
fn looks_up_by(name: &'static str, rules: impl Rules + 'static) -> Wrong<Box<Lookup>> {
    wrong_lookup(name, move |file, calls, number, out| {
        let stored = run_by(&rules, file, calls).state;
        look_up(stored, number, out, |_, session| session.shown())
    })
}

/// The right rules; keeps the sessions that were released.
#[derive(Default)]
struct Keeping {
    released: RefCell<Vec<Session>>,
}

impl Rules for Keeping {
    fn least(&self, ticks: u32, hops: &[Hop]) -> Answer {
        dijkstra::least(ticks, hops)
    }

    fn free(&self, ledger: &mut Ledger, session: &Session) {
        NoMistake.free(ledger, session);
        self.released.borrow_mut().push(session.clone());
    }
}

/// A lookup of the first session whose number has the same low bits.
fn compares_by(name: &'static str, low_bits: u32) -> Wrong<Box<Lookup>> {
    wrong_lookup(name, move |file, calls, number, out| {
        let state = stored(file, calls)?;
        let mut sessions = state.ledger.sessions.iter();
        let found = sessions.find(|session| (session.number ^ number) & low_bits == 0);
        put(&found.ok_or(19u64)?.shown(), out)
    })
}

fn wrongly_found() -> Vec<Wrong<Box<Lookup>>> {
    vec![
        looks_up_by("bytes after the first 65,536 served", NoLimit),
        looks_up_by("calls after a broken record served", GoesOn),
        looks_up_by("kinds 4 and 5 unreadable, as before W-205", THREE_KINDS),
        looks_up_by("four bytes of a number high byte first", HIGH_BYTE_FIRST),
        looks_up_by("numbers stored in 16 bits", StoredIn16Bits),
        looks_up_by("Y ignored at set-up, as before W-206", LEAST_IGNORED),
        looks_up_by("a hold of 0 into the next cycle", NextCycleWithoutHold),
        wrong_lookup("last call byte not read", |file, calls, number, out| {
            let read = &calls[..calls.len().saturating_sub(1)];
            lookup(file, read, number, out)
        }),
        wrong_lookup(
            "released session still shown",
            |file, calls, number, out| {
                let keeping = Keeping::default();
                let mut state = run_by(&keeping, file, calls).state?;
                state.ledger.sessions.extend(keeping.released.take());
                look_up(Ok(state), number, out, |_, session| session.shown())
            },
        ),
        wrong_lookup("19 for session number 0", |file, calls, number, out| {
            if number == 0 {
                stored(file, calls)?;
                return Err(19);
            }
            lookup(file, calls, number, out)
        }),
        compares_by("numbers compared by their low byte", 0xff),
        compares_by("numbers compared by their low 16 bits", 0xffff),
        wrong_lookup("number looked up in 16 bits", |file, calls, number, out| {
            lookup(file, calls, number & 0xffff, out)
        }),
        wrong_lookup(
            "19 where the file is refused",
            |file, calls, number, out| {
                stored(file, calls).map_err(|_| 19u64)?;
                lookup(file, calls, number, out)
            },
        ),
    ]
}

/// The numbers that a lookup has to put.
fn numbers(file: &[u8], calls: &[u8], number: u32) -> Result<Vec<u16>, u64> {
    Ok(model::lookup(&stored(file, calls), number, usize::MAX)?)
}

fn wrong_buffers() -> Vec<Wrong<Box<Lookup>>> {
    vec![
        wrong_lookup(
            "a place after the numbers changed",
            |file, calls, number, out| {
                let length = lookup(file, calls, number, out)?;
                change(out, length);
                Ok(length)
            },
        ),
        wrong_lookup(
            "numbers put before 20 is refused",
            |file, calls, number, out| {
                put_what_fits(&numbers(file, calls, number)?, out);
                lookup(file, calls, number, out)
            },
        ),
        wrong_lookup(
            "first place changed where 19 is refused",
            |file, calls, number, out| {
                let answer = lookup(file, calls, number, out);
                if answer == Err(19) {
                    change(out, 0);
                }
                answer
            },
        ),
        wrong_lookup(
            "20 one place too early",
            |file, calls, number, out| match numbers(file, calls, number)? {
                shown if shown.len() == out.len() => Err(20),
                shown => put(&shown, out),
            },
        ),
        wrong_lookup(
            "20 one place too late",
            |file, calls, number, out| match numbers(file, calls, number)? {
                shown if shown.len() == out.len() + 1 => Ok(put_what_fits(&shown, out)),
                shown => put(&shown, out),
            },
        ),
        wrong_lookup("20 before 19", |file, calls, number, out| {
            stored(file, calls)?;
            if out.len() < 5 {
                return Err(20);
            }
            lookup(file, calls, number, out)
        }),
        wrong_lookup(
            "20 before the refusal of the file",
            |file, calls, number, out| {
                if out.len() < 5 {
                    return Err(20);
                }
                lookup(file, calls, number, out)
            },
        ),
        wrong_lookup("the number of hops answered", |file, calls, number, out| {
            lookup(file, calls, number, out).map(|length| (length - 2) / 3)
        }),
    ]
}

// ---- Free frames ----

/// All wrong counts of free frames.
pub fn counts() -> Vec<Wrong<Box<FreeFrames>>> {
    let mut all = wrong_words();
    all.extend(wrong_links());
    all
}

fn wrong_count(
    name: &'static str,
    does: impl Fn(&[u8], &[u8], u8) -> Result<u64, u64> + 'static,
) -> Wrong<Box<FreeFrames>> {
    let does = Box::new(does);
    Wrong { name, does }
}

/// The frames among the K of a link that are neither closed nor in the word of held ones.
fn free_word(link: &Link, held: u64) -> u64 {
    ones(link.frames) & !link.closed & !held
}

/// Counts the ones of a word made of a link and its held frames, after calls by the rules handed in.
fn counts_by(
    name: &'static str,
    rules: impl Rules + 'static,
    word: fn(&Link, u64) -> u64,
) -> Wrong<Box<FreeFrames>> {
    wrong_count(name, move |file, calls, link| {
        let state = run_by(&rules, file, calls).state?;
        let values = state.link(link)?;
        let held = state.ledger.held[usize::from(link)];
        Ok(word(values, held).count_ones().into())
    })
}

fn wrong_words() -> Vec<Wrong<Box<FreeFrames>>> {
    vec![
        counts_by("closed frames counted", NoMistake, |link, held| {
            ones(link.frames) & !held
        }),
        counts_by("held frames counted", NoMistake, |link, _| {
            free_word(link, 0)
        }),
        counts_by("frames past K counted", NoMistake, |link, held| {
            !link.closed & !held
        }),
        counts_by("frame 0 not counted", NoMistake, |link, held| {
            free_word(link, held) & !1
        }),
        counts_by("held frames counted alone", NoMistake, |_, held| held),
        counts_by("released frames not counted", FreeNothing, free_word),
        counts_by(
            "released frames counted on every link",
            FreeOnEveryLink,
            free_word,
        ),
        counts_by("quoted frames not counted", QuoteHolds, free_word),
        counts_by("bytes after the first 65,536 served", NoLimit, free_word),
        counts_by("calls after a broken record served", GoesOn, free_word),
        counts_by(
            "kinds 4 and 5 unreadable, as before W-205",
            THREE_KINDS,
            free_word,
        ),
        counts_by("released by the low 16 bits", ReleasedByLowBits, free_word),
        counts_by(
            "Y ignored at set-up, as before W-206",
            LEAST_IGNORED,
            free_word,
        ),
    ]
}

fn wrong_links() -> Vec<Wrong<Box<FreeFrames>>> {
    /// The count of another link where that one isn't there.
    fn or_of(file: &[u8], calls: &[u8], link: u8, other: u8) -> Result<u64, u64> {
        free_frames(file, calls, link).or_else(|_| free_frames(file, calls, other))
    }
    vec![
        wrong_count("13 one link too late", |file, calls, link| {
            or_of(file, calls, link, link.wrapping_sub(1))
        }),
        wrong_count("13 one link too early", |file, calls, link| {
            free_frames(file, calls, link.saturating_add(1))?;
            free_frames(file, calls, link)
        }),
        wrong_count("link number cut to five bits", |file, calls, link| {
            or_of(file, calls, link, link % 32)
        }),
        wrong_count("0 where the link isn't there", |file, calls, link| {
            free_frames(file, calls, link).or_else(|refusal| match refusal {
                13 => Ok(0),
                other => Err(other),
            })
        }),
        wrong_count("13 where the file is refused", |file, calls, link| {
            stored(file, calls).map_err(|_| 13u64)?;
            free_frames(file, calls, link)
        }),
    ]
}
