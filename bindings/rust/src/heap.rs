//! The heap that the archive calls, over the C library's malloc, realloc and free: what c/pilhangko_heap.c is for a program in C.

use std::ffi::c_void;
use std::ptr::{self, NonNull};

extern "C" {
    fn malloc(size: usize) -> *mut c_void;
    fn realloc(memory: *mut c_void, size: usize) -> *mut c_void;
    fn free(memory: *mut c_void);
}

/// What a request came to: the memory where it succeeded, and else a pointer that isn't null and is never used.
#[repr(C)]
#[derive(Debug)]
pub struct Tried {
    succeeded: bool,
    memory: *mut c_void,
}

fn tried(memory: *mut c_void) -> Tried {
    Tried { succeeded: !memory.is_null(), memory: if memory.is_null() { NonNull::dangling().as_ptr() } else { memory } }
}

/// malloc(0) may answer null with no refusal: the alignment, which is 1 at least, is asked for then.
#[no_mangle]
extern "C" fn rattle_alloc(size: usize, alignment: usize) -> Tried {
    if refused() {
        return tried(ptr::null_mut());
    }
    // SAFETY: malloc may be asked for any size.
    let memory = tried(unsafe { malloc(if size == 0 { alignment } else { size }) });
    count(i64::from(memory.succeeded));
    memory
}

/// realloc keeps the first bytes, and leaves the memory as it was where it refuses.
///
/// # Safety
///
/// `memory` is from one of these two functions and hasn't been freed.
#[no_mangle]
unsafe extern "C" fn rattle_realloc(memory: *mut c_void, _kept: usize, size: usize, alignment: usize) -> Tried {
    if refused() {
        return tried(ptr::null_mut());
    }
    // SAFETY: the memory is malloc's or realloc's, as the caller promises.
    tried(unsafe { realloc(memory, if size == 0 { alignment } else { size }) })
}

/// Frees memory.
///
/// # Safety
///
/// `memory` is from one of the two functions above and hasn't been freed.
#[no_mangle]
unsafe extern "C" fn rattle_dealloc(memory: *mut c_void) {
    count(-1);
    // SAFETY: the memory is malloc's or realloc's, as the caller promises.
    unsafe { free(memory) }
}

#[cfg(not(test))]
fn refused() -> bool {
    false
}

#[cfg(not(test))]
fn count(_: i64) {}

#[cfg(test)]
use refusing::{count, refused};

/// A heap that refuses one of its requests and counts what is held, for tests: each thread's own.
#[cfg(test)]
pub(crate) mod refusing {
    use std::cell::Cell;

    thread_local! {
        static UNTIL_REFUSED: Cell<u64> = const { Cell::new(0) };
        static HELD: Cell<i64> = const { Cell::new(0) };
    }

    /// How much more memory this thread was granted than it freed, in pieces.
    pub(crate) fn held() -> i64 {
        HELD.get()
    }

    /// Counts a piece that is granted or freed.
    pub(crate) fn count(more: i64) {
        HELD.set(HELD.get() + more);
    }

    /// Refuses this thread's request number `nth` from now on, counted from 1; none where it is 0.
    pub(crate) fn refuse(nth: u64) {
        UNTIL_REFUSED.set(nth);
    }

    /// Whether the request that `refuse` named has come.
    pub(crate) fn has_refused() -> bool {
        UNTIL_REFUSED.get() == 0
    }

    /// Whether this request is the one.
    pub(crate) fn refused() -> bool {
        let left = UNTIL_REFUSED.get();
        UNTIL_REFUSED.set(left.saturating_sub(1));
        left == 1
    }
}
