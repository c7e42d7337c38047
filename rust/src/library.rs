//! The library under test: its exported functions, behind safe wrappers.

extern "C" {
    fn frames_report(
        file: *const u8,
        file_len: usize,
        calls: *const u8,
        calls_len: usize,
        out: *mut u8,
        out_len: usize,
    ) -> u64;

    fn frames_lookup(
        file: *const u8,
        file_len: usize,
        calls: *const u8,
        calls_len: usize,
        number: u32,
        out: *mut u16,
        out_len: usize,
    ) -> u64;

    fn frames_free_frames(
        file: *const u8,
        file_len: usize,
        calls: *const u8,
        calls_len: usize,
        link: u8,
    ) -> u64;

    fn frames_ways(
        file: *const u8,
        file_len: usize,
        calls: *const u8,
        calls_len: usize,
        route: *const u8,
        route_len: usize,
        out: *mut u64,
        out_len: usize,
    ) -> u64;

    fn frames_image(file: *const u8, file_len: usize, out: *mut u8, out_len: usize) -> u64;

    fn frames_write(
        ticks: u16,
        frames: *const u16,
        frames_len: usize,
        range: *const u16,
        range_len: usize,
        closed: *const u64,
        closed_len: usize,
        least: *const u16,
        least_len: usize,
        out: *mut u8,
        out_len: usize,
    ) -> u64;
}

// ---- Lengths ----

/// Call bytes that count; those that follow them are ignored.
pub const CALLS_MOST: usize = 65_536;

/// Bytes that serve for every text, however many call bytes there are.
pub const TEXT_MOST: usize = 720_918;

/// Numbers that serve for every session.
pub const SESSION_MOST: usize = 26;

/// The largest number of schedules: over 8 links with 64 frames each, all free, and 64 holds.
pub const WAYS_MOST: u64 = 64u64.pow(8);

/// Bytes that serve for every network file.
pub const IMAGE_MOST: usize = 387;

/// Bytes that `report` demands for its text on so many call bytes.
pub const fn text_bound(call_bytes: usize) -> usize {
    let counted = if call_bytes < CALLS_MOST {
        call_bytes
    } else {
        CALLS_MOST
    };
    22 + 11 * counted
}

// ---- Answers ----

/// An answer from here on is a refusal: this number and the refusal's own.
const REFUSED: u64 = 1_000_000;

/// A number, or the refusal number.
fn number_or_refusal(answer: u64) -> Result<u64, u64> {
    if answer >= REFUSED {
        Err(answer - REFUSED)
    } else {
        Ok(answer)
    }
}

/// A length, or the refusal number.
fn length_or_refusal(answer: u64) -> Result<usize, u64> {
    number_or_refusal(answer).map(|length| length as usize)
}

// ---- The functions ----

/// Puts the program's text at the start of `out` and answers its length. A refused file and refused calls show in the
/// text; the one refusal is 20, where `out` is shorter than `text_bound(calls.len())`, however short the text would be.
/// `out` stays as it was behind the text, and as a whole where it is refused.
pub fn report(file: &[u8], calls: &[u8], out: &mut [u8]) -> Result<usize, u64> {
    // SAFETY: each pointer comes with the length of the slice it was taken from.
    length_or_refusal(unsafe {
        frames_report(
            file.as_ptr(),
            file.len(),
            calls.as_ptr(),
            calls.len(),
            out.as_mut_ptr(),
            out.len(),
        )
    })
}

/// Looks a session up after the calls: puts hops, delay, the links, the frames and their cycles at the start of `out`
/// and answers how many numbers these are, at most `SESSION_MOST`, or answers the refusal number. `out` stays as it was
/// behind them, and as a whole where the lookup is refused.
pub fn lookup(file: &[u8], calls: &[u8], number: u32, out: &mut [u16]) -> Result<usize, u64> {
    // SAFETY: each pointer comes with the length of the slice it was taken from.
    length_or_refusal(unsafe {
        frames_lookup(
            file.as_ptr(),
            file.len(),
            calls.as_ptr(),
            calls.len(),
            number,
            out.as_mut_ptr(),
            out.len(),
        )
    })
}

/// Answers the number of free frames of a link after the calls, or the refusal number.
pub fn free_frames(file: &[u8], calls: &[u8], link: u8) -> Result<u64, u64> {
    // SAFETY: each pointer comes with the length of the slice it was taken from.
    number_or_refusal(unsafe {
        frames_free_frames(file.as_ptr(), file.len(), calls.as_ptr(), calls.len(), link)
    })
}

/// Counts the schedules over a route in the frames that are free after the calls: puts their number, 0 to `WAYS_MOST`, at
/// the start of `out` and answers 1, since it puts one number; or answers the refusal number. `out` stays as it was behind
/// that number, and as a whole where the call is refused.
pub fn ways(file: &[u8], calls: &[u8], route: &[u8], out: &mut [u64]) -> Result<usize, u64> {
    // SAFETY: each pointer comes with the length of the slice it was taken from.
    length_or_refusal(unsafe {
        frames_ways(
            file.as_ptr(),
            file.len(),
            calls.as_ptr(),
            calls.len(),
            route.as_ptr(),
            route.len(),
            out.as_mut_ptr(),
            out.len(),
        )
    })
}

/// Reads a network file, puts the network's file at the start of `out` and answers its length, at most `IMAGE_MOST`, or
/// answers the refusal number. `out` stays as it was behind what is put there, and as a whole at a refusal.
pub fn image(file: &[u8], out: &mut [u8]) -> Result<usize, u64> {
    // SAFETY: each pointer comes with the length of the slice it was taken from.
    length_or_refusal(unsafe {
        frames_image(file.as_ptr(), file.len(), out.as_mut_ptr(), out.len())
    })
}

/// Puts the file of a network given as values, T and the links' K, Z, closed frames and Y, at the start of `out` and
/// answers its length, at most `IMAGE_MOST`, or answers the refusal number. There are as many links as the shortest of
/// the four slices has numbers. `out` stays as it was behind the file, and as a whole at a refusal.
pub fn write(
    ticks: u16,
    frames: &[u16],
    range: &[u16],
    closed: &[u64],
    least: &[u16],
    out: &mut [u8],
) -> Result<usize, u64> {
    // SAFETY: each pointer comes with the length of the slice it was taken from.
    length_or_refusal(unsafe {
        frames_write(
            ticks,
            frames.as_ptr(),
            frames.len(),
            range.as_ptr(),
            range.len(),
            closed.as_ptr(),
            closed.len(),
            least.as_ptr(),
            least.len(),
            out.as_mut_ptr(),
            out.len(),
        )
    })
}

#[cfg(test)]
mod tests {
    use super::*;

    #[test]
    fn bytes_that_serve_for_a_text() {
        assert_eq!(text_bound(0), 22);
        assert_eq!(text_bound(21), 253);
        assert_eq!(text_bound(65_535), 720_907);
        for call_bytes in [65_536, 65_537, usize::MAX] {
            assert_eq!(text_bound(call_bytes), TEXT_MOST);
        }
    }
}
