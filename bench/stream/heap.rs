//! How much memory is taken: the linker puts these in place of the C library's calls (`--wrap`), in Rust's code and in Rattle's.

use std::ffi::c_void;
use std::sync::atomic::{AtomicUsize, Ordering::Relaxed};

static HELD: AtomicUsize = AtomicUsize::new(0);
static MOST: AtomicUsize = AtomicUsize::new(0);

unsafe extern "C" {
    fn malloc_usable_size(block: *mut c_void) -> usize;
    fn __real_malloc(size: usize) -> *mut c_void;
    fn __real_calloc(count: usize, size: usize) -> *mut c_void;
    fn __real_realloc(block: *mut c_void, size: usize) -> *mut c_void;
    fn __real_free(block: *mut c_void);
}

fn taken(block: *mut c_void) -> *mut c_void {
    let size = unsafe { malloc_usable_size(block) };
    let held = HELD.fetch_add(size, Relaxed) + size;
    MOST.fetch_max(held, Relaxed);
    block
}

fn given_back(block: *mut c_void) {
    HELD.fetch_sub(unsafe { malloc_usable_size(block) }, Relaxed);
}

#[unsafe(no_mangle)]
extern "C" fn __wrap_malloc(size: usize) -> *mut c_void {
    taken(unsafe { __real_malloc(size) })
}

#[unsafe(no_mangle)]
extern "C" fn __wrap_calloc(count: usize, size: usize) -> *mut c_void {
    taken(unsafe { __real_calloc(count, size) })
}

#[unsafe(no_mangle)]
unsafe extern "C" fn __wrap_realloc(block: *mut c_void, size: usize) -> *mut c_void {
    let before = unsafe { malloc_usable_size(block) };
    let after = unsafe { __real_realloc(block, size) };
    if after.is_null() {
        return after;
    }
    HELD.fetch_sub(before, Relaxed);
    taken(after)
}

#[unsafe(no_mangle)]
unsafe extern "C" fn __wrap_free(block: *mut c_void) {
    given_back(block);
    unsafe { __real_free(block) }
}

/// How many octets more were held at the most while this ran.
pub fn most_held(run: impl FnOnce()) -> usize {
    let before = HELD.load(Relaxed);
    MOST.store(before, Relaxed);
    run();
    MOST.load(Relaxed) - before
}
