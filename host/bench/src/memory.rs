//! How much stack and heap one call takes.

use std::alloc::{GlobalAlloc, Layout, System};
use std::arch::asm;
use std::cell::Cell;
use std::thread;

/// The bytes of stack that are painted before a call.
const PAINTED: usize = 1 << 20;
/// The stack of the thread that makes the call.
const THREAD_STACK: usize = 2 * PAINTED;
const WORD: usize = size_of::<usize>();

/// The most stack, in bytes, that a call on the sample may take.
pub const MOST_STACK: usize = 16 * 1024;

/// The most bytes that a call took.
#[derive(Clone, Copy)]
pub struct Memory {
    pub stack: usize,
    pub heap: usize,
}

impl Memory {
    pub fn max(self, other: Memory) -> Memory {
        Memory {
            stack: self.stack.max(other.stack),
            heap: self.heap.max(other.heap),
        }
    }
}

/// Makes the call on a thread of its own and gives what it took at most.
pub fn taken_by(call: &mut (dyn FnMut() + Send)) -> Memory {
    let measured = || {
        CALL_RUNS.set(true);
        let stack = stack_taken_by(call);
        CALL_RUNS.set(false);
        Memory {
            stack,
            heap: HELD_AT_MOST.get(),
        }
    };
    thread::scope(|scope| {
        let thread = thread::Builder::new().stack_size(THREAD_STACK);
        let thread = thread.spawn_scoped(scope, measured).expect("a thread");
        thread.join().expect("the call ends")
    })
}

/// Paints the stack below this frame, makes the call, and looks for the lowest word that is not as
/// painted. Nothing else is called here, so the rest of the stack is the call's own.
#[inline(never)]
fn stack_taken_by(call: &mut dyn FnMut()) -> usize {
    let frame = stack_pointer();
    let lowest = frame - PAINTED;
    let mut at = lowest;
    while at < frame {
        // SAFETY: the thread has this much stack, and nothing of it below the frame is in use.
        unsafe { (at as *mut usize).write_volatile(paint(at)) };
        at += WORD;
    }
    call();
    at = lowest;
    // SAFETY: as above; what the call left is only looked at.
    while at < frame && unsafe { (at as *const usize).read_volatile() } == paint(at) {
        at += WORD;
    }
    assert!(at > lowest, "the call took more stack than is painted");
    frame - at
}

/// Another word at each place, so that none is painted by chance.
#[inline(always)]
fn paint(at: usize) -> usize {
    !at
}

/// The lowest address of the frame of the function that this stands in.
#[inline(always)]
fn stack_pointer() -> usize {
    let pointer: usize;
    // SAFETY: a register is read.
    unsafe {
        #[cfg(target_arch = "x86_64")]
        asm!("mov {}, rsp", out(reg) pointer, options(nomem, nostack, preserves_flags));
        #[cfg(target_arch = "aarch64")]
        asm!("mov {}, sp", out(reg) pointer, options(nomem, nostack, preserves_flags));
    }
    pointer
}

/// The system's heap, which counts what Rust code takes while a measured call runs. A call that is
/// timed pays one test for it.
pub struct CountedHeap;

thread_local! {
    static CALL_RUNS: Cell<bool> = const { Cell::new(false) };
    /// Bytes that the call holds now, and has held at most.
    static HELD: Cell<usize> = const { Cell::new(0) };
    static HELD_AT_MOST: Cell<usize> = const { Cell::new(0) };
}

fn count(given_back: usize, taken: usize) {
    if CALL_RUNS.get() {
        HELD.set(HELD.get() + taken - given_back);
        HELD_AT_MOST.set(HELD_AT_MOST.get().max(HELD.get()));
    }
}

// SAFETY: every call is handed to the system's heap as it is.
unsafe impl GlobalAlloc for CountedHeap {
    unsafe fn alloc(&self, layout: Layout) -> *mut u8 {
        count(0, layout.size());
        unsafe { System.alloc(layout) }
    }

    unsafe fn alloc_zeroed(&self, layout: Layout) -> *mut u8 {
        count(0, layout.size());
        unsafe { System.alloc_zeroed(layout) }
    }

    unsafe fn realloc(&self, pointer: *mut u8, layout: Layout, size: usize) -> *mut u8 {
        count(layout.size(), size);
        unsafe { System.realloc(pointer, layout, size) }
    }

    unsafe fn dealloc(&self, pointer: *mut u8, layout: Layout) {
        count(layout.size(), 0);
        unsafe { System.dealloc(pointer, layout) }
    }
}

#[cfg(test)]
mod tests {
    use super::*;
    use std::hint::black_box;

    #[test]
    fn a_known_array_and_a_known_vector() {
        let nothing = taken_by(&mut || ());
        let memory = taken_by(&mut || {
            black_box([7u8; 100_000]);
            black_box(vec![7u8; 5_000]);
        });
        assert!((100_000..101_000).contains(&(memory.stack - nothing.stack)));
        assert_eq!((memory.heap, nothing.heap), (5_000, 0));
    }
}
