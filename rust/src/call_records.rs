//! Call records, read and written.

use crate::network_file::{refuse, Refusal};

/// One call; the route is that part of the call bytes.
#[derive(Clone, Copy, Debug, PartialEq, Eq)]
pub enum Call<'a> {
    SetUp { number: u32, route: &'a [u8] },
    Quote { route: &'a [u8] },
    Release { number: u32 },
}

/// The call of a record and the bytes used, or 11.
pub type Read<'a> = Result<(Call<'a>, usize), Refusal>;

/// Reads the call record at the start of the bytes.
pub fn read_call(bytes: &[u8]) -> Read<'_> {
    match bytes[0] {
        1 => read_set_up(bytes, 2),
        2 => {
            let route = read_route(bytes, 1)?;
            Ok((Call::Quote { route }, 2 + route.len()))
        }
        3 => read_release(bytes, 2),
        4 => read_set_up(bytes, 4),
        5 => read_release(bytes, 4),
        _ => Err(11),
    }
}

/// Reads a set-up whose number has so many bytes.
pub fn read_set_up(bytes: &[u8], width: usize) -> Read<'_> {
    let number = read_number(bytes, width)?;
    let route = read_route(bytes, 1 + width)?;
    Ok((Call::SetUp { number, route }, 2 + width + route.len()))
}

/// Reads a release whose number has so many bytes.
pub fn read_release(bytes: &[u8], width: usize) -> Read<'_> {
    let number = read_number(bytes, width)?;
    Ok((Call::Release { number }, 1 + width))
}

/// The session number of so many bytes after the kind, low byte first.
fn read_number(bytes: &[u8], width: usize) -> Result<u32, Refusal> {
    refuse(11, bytes.len() <= width)?;
    let high_first = bytes[1..=width].iter().rev();
    Ok(high_first.fold(0, |number, &byte| number << 8 | u32::from(byte)))
}

/// The route whose length stands at the given place.
fn read_route(bytes: &[u8], at: usize) -> Result<&[u8], Refusal> {
    refuse(11, bytes.len() <= at)?;
    let start = at + 1;
    let end = start + usize::from(bytes[at]);
    refuse(11, bytes.len() < end)?;
    Ok(&bytes[start..end])
}

/// Adds the record of a set-up with a number of two bytes.
pub fn push_set_up(calls: &mut Vec<u8>, number: u16, route: &[u8]) {
    calls.push(1);
    calls.extend(number.to_le_bytes());
    push_route(calls, route);
}

/// Adds the record of a set-up with a number of four bytes.
pub fn push_long_set_up(calls: &mut Vec<u8>, number: u32, route: &[u8]) {
    calls.push(4);
    calls.extend(number.to_le_bytes());
    push_route(calls, route);
}

/// Adds the record of a quote.
pub fn push_quote(calls: &mut Vec<u8>, route: &[u8]) {
    calls.push(2);
    push_route(calls, route);
}

/// Adds the record of a release with a number of two bytes.
pub fn push_release(calls: &mut Vec<u8>, number: u16) {
    calls.push(3);
    calls.extend(number.to_le_bytes());
}

/// Adds the record of a release with a number of four bytes.
pub fn push_long_release(calls: &mut Vec<u8>, number: u32) {
    calls.push(5);
    calls.extend(number.to_le_bytes());
}

/// Adds the length of a route and the route.
fn push_route(calls: &mut Vec<u8>, route: &[u8]) {
    calls.push(route.len() as u8);
    calls.extend(route);
}

#[cfg(test)]
mod tests {
    use super::*;

    #[test]
    fn records_of_the_worked_example() {
        let mut calls = Vec::new();
        push_set_up(&mut calls, 5, &[0, 1]);
        push_release(&mut calls, 5);
        push_quote(&mut calls, &[0]);
        assert_eq!(calls, [1, 5, 0, 2, 0, 1, 3, 5, 0, 2, 1, 0]);
        let (number, route) = (5, &[0, 1][..]);
        assert_eq!(read_call(&calls), Ok((Call::SetUp { number, route }, 6)));
        assert_eq!(read_call(&calls[6..]), Ok((Call::Release { number }, 3)));
        let route = &[0][..];
        assert_eq!(read_call(&calls[9..]), Ok((Call::Quote { route }, 3)));
    }

    #[test]
    fn records_with_numbers_of_four_bytes() {
        let mut calls = Vec::new();
        push_long_set_up(&mut calls, 5, &[0, 1]);
        push_long_release(&mut calls, 5);
        assert_eq!(calls, [4, 5, 0, 0, 0, 2, 0, 1, 5, 5, 0, 0, 0]);
        let (number, route) = (5, &[0, 1][..]);
        assert_eq!(read_call(&calls), Ok((Call::SetUp { number, route }, 8)));
        assert_eq!(read_call(&calls[8..]), Ok((Call::Release { number }, 5)));
    }

    #[test]
    fn numbers_have_their_low_byte_first() {
        let mut calls = Vec::new();
        push_release(&mut calls, 0x0201);
        push_long_release(&mut calls, 0x0403_0201);
        assert_eq!(calls, [3, 1, 2, 5, 1, 2, 3, 4]);
        let cases: [(&[u8], u32); 7] = [
            (&[3, 1, 2], 513),
            // 1 + 2 * 256 + 3 * 65,536 + 4 * 16,777,216
            (&[5, 1, 2, 3, 4], 67_305_985),
            (&[3, 255, 255], 65_535),
            (&[5, 255, 255, 0, 0], 65_535),
            (&[5, 0, 0, 1, 0], 65_536),
            (&[5, 0, 0, 0, 1], 16_777_216),
            (&[5, 255, 255, 255, 255], 4_294_967_295),
        ];
        for (record, number) in cases {
            let read = (Call::Release { number }, record.len());
            assert_eq!(read_call(record), Ok(read));
            assert_eq!(read_call(&[record, &[9]].concat()), Ok(read));
        }
    }

    #[test]
    fn records_cut_at_every_place() {
        let records: [&[u8]; 6] = [
            &[1, 5, 0, 2, 0, 1],
            &[2, 2, 0, 1],
            &[3, 5, 0],
            &[4, 5, 0, 0, 0, 2, 0, 1],
            &[4, 5, 0, 0, 0, 0],
            &[5, 5, 0, 0, 0],
        ];
        for record in records {
            assert_eq!(read_call(record).map(|(_, used)| used), Ok(record.len()));
            for length in 1..record.len() {
                assert_eq!(read_call(&record[..length]), Err(11), "{record:?}");
            }
        }
    }

    #[test]
    fn kinds_from_1_to_5() {
        let known = |kind: &u8| read_call(&[*kind, 0, 0, 0, 0, 0]).is_ok();
        let kinds: Vec<u8> = (0..=255).filter(known).collect();
        assert_eq!(kinds, [1, 2, 3, 4, 5]);
    }
}
