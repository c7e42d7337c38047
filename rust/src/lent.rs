//! A lent buffer, filled with a pattern before each call and looked at in every place after it.

use crate::network_file::Refusal;
use std::fmt::Debug;

/// So many places stand before the lent ones and after them, and must not be touched either. The number is odd, so that
/// lent bytes begin at an odd address.
const AROUND: usize = 7;

/// The places, and what they are filled with before each call.
pub struct Lent<T> {
    places: Vec<T>,
    pattern: Vec<T>,
}

impl<T: Copy + Debug + PartialEq> Lent<T> {
    /// Buffers of up to as many places as the pattern has, less those around them.
    pub fn new(pattern: Vec<T>) -> Self {
        Lent {
            places: Vec::new(),
            pattern,
        }
    }

    /// Lends so many places, filled afresh, to a call. Says in words what is wrong with what it answers and leaves:
    /// what is expected must stand at the start and its length be the answer, or the refusal be the answer; and all
    /// other places must be as they were.
    pub fn fault(
        &mut self,
        room: usize,
        expected: Result<&[T], Refusal>,
        call: impl FnOnce(&mut [T]) -> Result<usize, u64>,
    ) -> Option<String> {
        self.places.clear();
        self.places
            .extend_from_slice(&self.pattern[..room + 2 * AROUND]);
        let answer = call(&mut self.places[AROUND..AROUND + room]);
        let right = expected.map(<[T]>::len).map_err(u64::from);
        if answer != right {
            return Some(format!("room {room} gave {answer:?}, not {right:?}"));
        }
        self.difference(expected.unwrap_or(&[]))
    }

    /// What was written by the last call, where it was so long.
    pub fn written(&self, length: usize) -> &[T] {
        &self.places[AROUND..AROUND + length]
    }

    /// What stands elsewhere than it should, in words.
    fn difference(&self, written: &[T]) -> Option<String> {
        let end = AROUND + written.len();
        let pattern = &self.pattern[..self.places.len()];
        if self.places[AROUND..end] != *written {
            return Some("what was written differs".to_string());
        }
        let is_untouched =
            self.places[..AROUND] == pattern[..AROUND] && self.places[end..] == pattern[end..];
        (!is_untouched).then(|| "a place was touched that is none of the call's".to_string())
    }
}

#[cfg(test)]
mod tests {
    use super::*;

    /// A call that puts 1, 2 at the start of three places, then changes a place, and gives the answer handed in.
    fn fault(expected: Result<&[u16], Refusal>, change: usize, answer: Result<usize, u64>) -> bool {
        let mut lent = Lent::new((100..200).collect());
        let call = |out: &mut [u16]| {
            out[..2].copy_from_slice(&[1, 2]);
            out[change] += 1;
            answer
        };
        lent.fault(3, expected, call).is_some()
    }

    #[test]
    fn what_is_written_and_what_is_left() {
        // Place 2 has the pattern's 109, and then 110.
        assert!(!fault(Ok(&[1, 2, 110]), 2, Ok(3)));
        assert!(fault(Ok(&[1, 2]), 2, Ok(2)));
        assert!(!fault(Ok(&[1, 3]), 1, Ok(2)));
        assert!(fault(Ok(&[1, 2]), 1, Ok(2)));
        assert!(fault(Ok(&[1, 3]), 1, Ok(3)));
        assert!(fault(Ok(&[1, 3]), 1, Err(20)));
        assert!(fault(Err(20), 1, Err(20)));
    }

    #[test]
    fn a_refused_call_leaves_every_place() {
        let mut lent = Lent::new((0..200).collect::<Vec<u8>>());
        assert_eq!(lent.fault(5, Err(20), |_| Err(20)), None);
        assert!(lent.fault(5, Err(20), |_| Err(19)).is_some());
        assert!(lent.fault(5, Err(20), |_| Ok(0)).is_some());
        let touch = |out: &mut [u8]| {
            out[4] = !out[4];
            Err(20)
        };
        assert!(lent.fault(5, Err(20), touch).is_some());
    }

    #[test]
    fn the_pattern_is_put_afresh() {
        let mut lent = Lent::new((0..200).collect::<Vec<u8>>());
        let fill = |out: &mut [u8]| {
            out.fill(7);
            Ok(out.len())
        };
        assert_eq!(lent.fault(4, Ok(&[7; 4]), fill), None);
        assert_eq!(lent.written(4), [7; 4]);
        assert_eq!(lent.fault(9, Err(1), |_| Err(1)), None);
        assert_eq!(lent.written(2), [7, 8]);
    }
}
