//! What can stand in for the exported functions: right ones made of the model, and what wrong ones are made of.

use crate::dijkstra;
use crate::model::{self, room_for_run, Session, State, Stored};
use crate::network_file::{write_again, write_network, Values};
use std::ops::Not;

/// The exported functions. The writer is handed its values in one.
pub type Report = dyn Fn(&[u8], &[u8], &mut [u8]) -> Result<usize, u64>;
pub type Lookup = dyn Fn(&[u8], &[u8], u32, &mut [u16]) -> Result<usize, u64>;
pub type FreeFrames = dyn Fn(&[u8], &[u8], u8) -> Result<u64, u64>;
pub type Ways = dyn Fn(&[u8], &[u8], &[u8], &mut [u64]) -> Result<usize, u64>;
pub type Image = dyn Fn(&[u8], &mut [u8]) -> Result<usize, u64>;
pub type Write = dyn Fn(&Values, &mut [u8]) -> Result<usize, u64>;

// ---- Buffers ----

/// Puts the values at the start of the buffer and answers how many there are, or refuses with 20.
pub fn put<T: Copy>(values: &[T], out: &mut [T]) -> Result<usize, u64> {
    if out.len() < values.len() {
        return Err(20);
    }
    Ok(put_what_fits(values, out))
}

/// The same without 20: puts as many values as there is room for.
pub fn put_what_fits<T: Copy>(values: &[T], out: &mut [T]) -> usize {
    let room = values.len().min(out.len());
    out[..room].copy_from_slice(&values[..room]);
    values.len()
}

/// Changes a place of the buffer, if it has such a place.
pub fn change<T: Copy + Not<Output = T>>(out: &mut [T], place: usize) {
    if let Some(place) = out.get_mut(place) {
        *place = !*place;
    }
}

// ---- The functions without a mistake ----

/// The text of a run.
pub fn text(file: &[u8], calls: &[u8]) -> Vec<u8> {
    model::transcript(file, calls, dijkstra::least)
}

/// The state after the calls of a run.
pub fn stored(file: &[u8], calls: &[u8]) -> Stored {
    model::run(file, calls, dijkstra::least).state
}

pub fn report(file: &[u8], calls: &[u8], out: &mut [u8]) -> Result<usize, u64> {
    report_from(room_for_run(calls), file, calls, out)
}

/// A run that refuses with 20 where the buffer is shorter than that, or than the text.
pub fn report_from(room: usize, file: &[u8], calls: &[u8], out: &mut [u8]) -> Result<usize, u64> {
    if out.len() < room {
        return Err(20);
    }
    put(&text(file, calls), out)
}

pub fn lookup(file: &[u8], calls: &[u8], number: u32, out: &mut [u16]) -> Result<usize, u64> {
    look_up(stored(file, calls), number, out, |_, session| {
        session.shown()
    })
}

/// A lookup that hands out of the state and the session what is wished.
pub fn look_up(
    stored: Stored,
    number: u32,
    out: &mut [u16],
    shown: impl Fn(&State, &Session) -> Vec<u16>,
) -> Result<usize, u64> {
    let state = stored?;
    let session = state.lookup(number)?;
    put(&shown(&state, session), out)
}

pub fn free_frames(file: &[u8], calls: &[u8], link: u8) -> Result<u64, u64> {
    Ok(stored(file, calls)?.free_frames(link)?)
}

pub fn ways(file: &[u8], calls: &[u8], route: &[u8], out: &mut [u64]) -> Result<usize, u64> {
    put(&[model::ways(&stored(file, calls), route, out.len())?], out)
}

pub fn image(file: &[u8], out: &mut [u8]) -> Result<usize, u64> {
    put(&write_again(file, out.len())?, out)
}

pub fn write(values: &Values, out: &mut [u8]) -> Result<usize, u64> {
    put(&write_network(&values.network(), out.len())?, out)
}
