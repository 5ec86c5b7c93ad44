//! How much stack a function uses, on a thread whose stack was painted before.

use std::hint::black_box;
use std::thread;

/// The stack of the thread, and how much of it is painted below the frame that calls the function: far more than is used.
const STACK: usize = 8 << 20;
const PAINTED: usize = 1 << 20;

/// What is not painted, so that the painter has room.
const OWN: usize = 4_096;

const PAINT: u64 = 0xA5A5_A5A5_A5A5_A5A5;

/// Runs a function in a thread of its own and gives the bytes from where it is called down to the lowest word of the stack that it
/// writes, where these are more than 4,096. None where there is no such thread.
pub fn used(function: impl FnOnce() + Send + 'static) -> Option<usize> {
    let thread = thread::Builder::new().stack_size(STACK).spawn(move || {
        let here = 0u64;
        let top = &raw const *black_box(&here) as usize;
        paint(top);
        function();
        top - lowest(top)
    });
    thread.ok()?.join().ok()
}

/// The words of the stack below a frame, from the lowest that is painted.
fn below(top: usize) -> impl DoubleEndedIterator<Item = usize> {
    (top - PAINTED..top - OWN).step_by(8)
}

/// Paints from the top down, as a stack grows.
#[inline(never)]
fn paint(top: usize) {
    for address in below(top).rev() {
        unsafe { (address as *mut u64).write_volatile(PAINT) };
    }
}

/// The lowest word that is no longer painted.
#[inline(never)]
fn lowest(top: usize) -> usize {
    let written = |&address: &usize| unsafe { (address as *const u64).read_volatile() } != PAINT;
    below(top).find(written).unwrap_or(top)
}
