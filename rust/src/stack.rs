//! How deep a call goes into the stack: the bytes below its caller are painted before the call and looked at after it.

use std::arch::asm;
use std::hint::black_box;
use std::thread;

/// The stack of the thread that calls, and so many bytes of it that are painted; no call may go deeper.
const STACK: usize = 4 << 20;
const PAINTED: usize = 1 << 20;

/// So many bytes below the stack pointer are a function's own.
const RED_ZONE: usize = 128;

/// A byte that is written with what it was painted with doesn't show; with one of these it does.
const PATTERNS: [u8; 2] = [0xa5, 0x3c];

/// The bytes of the array that the check of the measure goes by, and how many more may be measured.
pub const KNOWN: usize = 20_000;
const MORE: usize = 300;

/// How many bytes of stack a call uses below its caller, return address and all: those down to the lowest that it changes. It runs on a
/// thread of its own, once before it is measured.
pub fn depth(mut call: impl FnMut() + Send) -> usize {
    let measure = || {
        call();
        let [one, other] = PATTERNS.map(|pattern| painted_depth(pattern, &mut call));
        one.max(other)
    };
    thread::scope(|scope| {
        let thread = thread::Builder::new().stack_size(STACK);
        let measured = thread.spawn_scoped(scope, measure);
        measured.expect("a thread begins").join()
    })
    .expect("the call ends")
}

/// The depth of a call on a stack that is painted with one pattern.
#[inline(never)]
fn painted_depth(pattern: u8, call: &mut dyn FnMut()) -> usize {
    let top = stack_pointer();
    let (lowest, end) = (top - PAINTED, top - RED_ZONE);
    // SAFETY: the thread's stack goes on below the stack pointer for more than is painted, and nothing in use lies there.
    unsafe { paint(lowest, end - lowest, pattern) };
    call();
    // SAFETY: these are the bytes that were painted.
    let is_changed = |&at: &usize| unsafe { (at as *const u8).read_volatile() } != pattern;
    let changed = (lowest..end).find(is_changed).unwrap_or(end);
    assert!(changed > lowest, "the call goes below what is painted");
    top - changed
}

/// The stack pointer of the function that this stands in.
#[inline(always)]
fn stack_pointer() -> usize {
    let pointer;
    // SAFETY: only the register is read.
    unsafe {
        asm!("mov {}, rsp", out(reg) pointer, options(nomem, nostack, preserves_flags));
    }
    pointer
}

/// Writes the byte to so many places from the first on, without a call, whose frame could lie in one of them.
///
/// # Safety
///
/// Nothing that is in use may lie in these places.
#[inline(always)]
unsafe fn paint(first: usize, number: usize, byte: u8) {
    asm!(
        "rep stosb",
        inout("rdi") first => _,
        inout("rcx") number => _,
        in("al") byte,
        options(nostack, preserves_flags)
    );
}

/// The depth of a function with an array of `KNOWN` bytes. It is at least that, and little more.
pub fn known_depth() -> usize {
    let depth = depth(fill_an_array);
    assert!(
        (KNOWN..=KNOWN + MORE).contains(&depth),
        "an array of {KNOWN} bytes was measured as {depth}"
    );
    depth
}

#[inline(never)]
fn fill_an_array() {
    black_box(&mut [1u8; KNOWN]);
}

#[cfg(test)]
mod tests {
    use super::*;

    #[test]
    fn an_array_is_as_deep_as_it_is_long() {
        known_depth();
    }

    /// The lowest byte that a call writes is one pattern's, and shows by the other.
    #[test]
    fn a_byte_of_a_pattern_shows() {
        for pattern in PATTERNS {
            let depth = depth(|| {
                // SAFETY: nothing lies so far below the stack pointer, and the stack goes on there.
                unsafe { paint(stack_pointer() - KNOWN, 1, pattern) };
            });
            assert!((KNOWN..=KNOWN + MORE).contains(&depth), "{depth}");
        }
    }
}
