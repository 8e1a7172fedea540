//! What C passes, as what Rust takes, and the end of a program that panics. The only unsafe code that is written by hand.

extern "C" {
    fn abort() -> !;
}

/// It is proved of the sources that no call panics. If one did, the program would end: Rust doesn't unwind into C.
#[panic_handler]
fn panic(_: &core::panic::PanicInfo<'_>) -> ! {
    // SAFETY: C's `abort` has no precondition.
    unsafe { abort() }
}

// A debug build keeps tables of `core` that name this symbol of std's; nothing unwinds, so it is never called.
core::arch::global_asm!(".weak rust_eh_personality", ".hidden rust_eh_personality", "rust_eh_personality:", ".byte 0",);

/// The list of a pointer and a length.
///
/// # Safety
///
/// The pointer is that of at least `length` values that nothing writes while the list is used, or `length` is 0.
pub(crate) unsafe fn list<'a, T>(first: *const T, length: usize) -> &'a [T] {
    if length == 0 {
        // the pointer may be NULL, which a slice may not have
        return &[];
    }
    core::slice::from_raw_parts(first, length)
}

/// The same of a list that is written.
///
/// # Safety
///
/// The pointer is that of at least `length` values that nothing else reads or writes while the list is used, or
/// `length` is 0.
pub(crate) unsafe fn list_mut<'a, T>(first: *mut T, length: usize) -> &'a mut [T] {
    if length == 0 {
        return &mut [];
    }
    core::slice::from_raw_parts_mut(first, length)
}
