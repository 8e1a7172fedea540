//! Thin layers over the proved calls that take lists: structs over arrays, which have scratch of their own; a table that is made
//! and filled in one call; causes of a failure; an iterator. Written by hand, and so not proved; what they return, the proved
//! calls compute.

pub mod codes;
pub mod plans;
#[cfg(target_pointer_width = "64")]
pub mod polynomials;
pub mod searches;
pub mod systems;

/// How much scratch a struct may need: it is on the stack.
pub(crate) const MOST: usize = 1 << 15;

// An array of its own for each size, so that a call takes little more of the stack than it needs.
#[inline(never)]
fn on_stack<T: Copy, O, F: FnOnce(&mut [T]) -> O, const N: usize>(zero: T, length: usize, call: F) -> O {
    call(&mut [zero; N][..length])
}

/// What the function returns for so many entries of scratch, `MOST` or fewer.
fn with_scratch<T: Copy, O, F: FnOnce(&mut [T]) -> O>(zero: T, length: usize, call: F) -> O {
    match length {
        0..=0x40 => on_stack::<T, O, F, 0x40>(zero, length, call),
        0x41..=0x200 => on_stack::<T, O, F, 0x200>(zero, length, call),
        0x201..=0x1000 => on_stack::<T, O, F, 0x1000>(zero, length, call),
        0x1001..=0x4000 => on_stack::<T, O, F, 0x4000>(zero, length, call),
        _ => on_stack::<T, O, F, MOST>(zero, length, call),
    }
}
