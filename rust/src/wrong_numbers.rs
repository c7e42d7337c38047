//! Wrong models of session numbers: of their bytes in the call records, and of how they are stored and compared.

use crate::call_records::{read_call, read_release, read_set_up, Call, Read};
use crate::dijkstra;
use crate::model::{Ledger, Rules};
use crate::network_file::{refuse, Refusal};
use crate::route::{Answer, Hop};
use crate::tried::Wrong;
use crate::wrong::{by_rules, mistake, Text};
use std::cell::{Cell, RefCell};
use std::collections::HashMap;

/// All wrong models of session numbers.
pub fn all() -> Vec<Wrong<Text>> {
    let mut all = wrong_records();
    all.extend(wrong_comparisons());
    all.extend(wrong_kinds());
    all
}

// ---- Mistakes in the call records ----

/// The right rules with another reader of call records.
pub(crate) struct Reading(fn(&[u8]) -> Read<'_>);

impl Rules for Reading {
    fn least(&self, ticks: u32, hops: &[Hop]) -> Answer {
        dijkstra::least(ticks, hops)
    }

    fn read_call<'a>(&self, bytes: &'a [u8]) -> Read<'a> {
        (self.0)(bytes)
    }
}

/// Kinds 1 to 3 alone, as before W-205.
pub(crate) const THREE_KINDS: Reading = Reading(|bytes| {
    refuse(11, bytes[0] > 3)?;
    read_call(bytes)
});

/// The high byte of a number of four first.
pub(crate) const HIGH_BYTE_FIRST: Reading =
    Reading(|bytes| with_long_number(bytes, u32::swap_bytes));

/// A call with its number changed where that has four bytes.
fn with_long_number(bytes: &[u8], change: fn(u32) -> u32) -> Read<'_> {
    let (mut call, used) = read_call(bytes)?;
    if let (4 | 5, Call::SetUp { number, .. } | Call::Release { number }) = (bytes[0], &mut call) {
        *number = change(*number);
    }
    Ok((call, used))
}

fn wrong_records() -> Vec<Wrong<Text>> {
    let reads = |name, reader| by_rules(name, Reading(reader));
    vec![
        by_rules("kinds 4 and 5 unreadable, as before W-205", THREE_KINDS),
        reads("kind 6 read as a release", |bytes| match bytes[0] {
            6 => read_release(bytes, 4),
            _ => read_call(bytes),
        }),
        reads("kind 4 with a number of two bytes", |bytes| {
            match bytes[0] {
                4 => read_set_up(bytes, 2),
                _ => read_call(bytes),
            }
        }),
        reads("kind 5 with a number of two bytes", |bytes| {
            match bytes[0] {
                5 => read_release(bytes, 2),
                _ => read_call(bytes),
            }
        }),
        by_rules("four bytes of a number high byte first", HIGH_BYTE_FIRST),
        reads("fourth byte of a number not read", |bytes| {
            with_long_number(bytes, |number| number & 0x00ff_ffff)
        }),
        reads("missing bytes of kind 5 read as 0", |bytes| match *bytes {
            [5, ref there @ ..] if there.len() < 4 => {
                let mut number = [0; 4];
                number[..there.len()].copy_from_slice(there);
                let number = u32::from_le_bytes(number);
                Ok((Call::Release { number }, bytes.len()))
            }
            _ => read_call(bytes),
        }),
    ]
}

// ---- Mistakes in the comparison of numbers ----

/// Where a session stands whose number has the same low 16 bits.
fn place_by_low_bits(ledger: &Ledger, number: u32) -> Option<usize> {
    let mut sessions = ledger.sessions.iter();
    sessions.position(|session| session.number as u16 == number as u16)
}

mistake! { LiveByLowBits,
    fn check_number(&self, ledger: &Ledger, number: u32) -> Result<(), Refusal> {
        refuse(16, place_by_low_bits(ledger, number).is_some())
    }
}

mistake! { ReleasedByLowBits,
    fn to_release(&self, ledger: &Ledger, number: u32) -> Option<usize> {
        place_by_low_bits(ledger, number)
    }
}

mistake! { StoredIn16Bits,
    fn entered(&self, number: u32) -> u32 {
        number & 0xffff
    }
}

fn wrong_comparisons() -> Vec<Wrong<Text>> {
    vec![
        by_rules("16 by the low 16 bits", LiveByLowBits),
        by_rules("released by the low 16 bits", ReleasedByLowBits),
        by_rules("numbers stored in 16 bits", StoredIn16Bits),
    ]
}

// ---- Mistakes with the kind of a record ----

/// The right rules, but that records of one kind don't meet the sessions of another.
struct Apart {
    /// The kind of the set-up, and that of the record.
    kinds: (u8, u8),
    /// The kind of the record that was read last, and for each number that of its last set-up.
    kind: Cell<u8>,
    set_up: RefCell<HashMap<u32, u8>>,
}

impl Apart {
    fn new(kinds: (u8, u8)) -> Self {
        Apart {
            kinds,
            kind: Cell::default(),
            set_up: RefCell::default(),
        }
    }

    fn place_of(&self, ledger: &Ledger, number: u32) -> Option<usize> {
        let place = ledger.place_of(number)?;
        let kinds = (self.set_up.borrow()[&number], self.kind.get());
        (kinds != self.kinds).then_some(place)
    }
}

impl Rules for Apart {
    fn least(&self, ticks: u32, hops: &[Hop]) -> Answer {
        dijkstra::least(ticks, hops)
    }

    fn read_call<'a>(&self, bytes: &'a [u8]) -> Read<'a> {
        self.kind.set(bytes[0]);
        read_call(bytes)
    }

    fn check_number(&self, ledger: &Ledger, number: u32) -> Result<(), Refusal> {
        refuse(16, self.place_of(ledger, number).is_some())
    }

    fn entered(&self, number: u32) -> u32 {
        self.set_up.borrow_mut().insert(number, self.kind.get());
        number
    }

    fn to_release(&self, ledger: &Ledger, number: u32) -> Option<usize> {
        self.place_of(ledger, number)
    }
}

fn wrong_kinds() -> Vec<Wrong<Text>> {
    let apart = |name, kinds| by_rules(name, Apart::new(kinds));
    vec![
        apart("03 releases no session that 04 set up", (4, 3)),
        apart("05 releases no session that 01 set up", (1, 5)),
        apart("01 sets up again what 04 set up", (4, 1)),
        apart("04 sets up again what 01 set up", (1, 4)),
    ]
}

#[cfg(test)]
mod tests {
    use super::*;
    use crate::random::Random;
    use crate::{inputs, model};

    /// Rules that keep kinds apart differ by that alone: where no record is of the kind, they are right.
    #[test]
    fn no_kinds_apart_are_right() {
        let rules = Apart::new((0, 0));
        let mut random = Random::new(15);
        for _ in 0..2_000 {
            let input = inputs::input(&mut random);
            let calls = &input.calls[..input.calls.len().min(1_000)];
            assert_eq!(
                model::run_by(&rules, &input.file, calls).text,
                model::transcript(&input.file, calls, dijkstra::least)
            );
        }
    }
}
