//! A library that tools/refused-calls and tools/edges have loaded in front of the C library. It refuses calls of one kind.
//!
//! REFUSE names the kind, the number of the first call that is refused, counted from 1, and `once` or `ever`. Each refusal
//! writes a byte to the file descriptor 9.

use std::ffi::{c_char, c_int, c_long, c_void, CStr};
use std::ptr::null_mut;
use std::sync::atomic::{AtomicU64, Ordering};

extern "C" {
    fn getenv(name: *const c_char) -> *const c_char;
    fn syscall(number: c_long, ...) -> c_long;
    fn __errno_location() -> *mut c_int;
    fn __libc_malloc(size: usize) -> *mut c_void;
    fn __libc_realloc(block: *mut c_void, size: usize) -> *mut c_void;
}

const READ: c_long = 0;
const WRITE: c_long = 1;
const PREAD: c_long = 17;
const PWRITE: c_long = 18;
const FSYNC: c_long = 74;
const FDATASYNC: c_long = 75;
const FTRUNCATE: c_long = 77;
const FLOCK: c_long = 73;
const NO_MEMORY: c_int = 12;
const FAILED: c_int = 5;
const INTERRUPTED: c_int = 4;
const NO_LOCKS: c_int = 37;
const UNSUPPORTED: c_int = 95;
const TOLD: c_int = 9;

static CALLS: AtomicU64 = AtomicU64::new(0);

/// Whether this call, which is of that kind, is refused.
fn is_refused(kind: &str, error: c_int) -> bool {
    let wanted = unsafe { getenv(c"REFUSE".as_ptr()) };
    if wanted.is_null() {
        return false;
    }
    let mut words = unsafe { CStr::from_ptr(wanted) }.to_str().unwrap_or("").split(' ');
    if words.next() != Some(kind) {
        return false;
    }
    let first = words.next().and_then(|word| word.parse().ok()).unwrap_or(u64::MAX);
    let call = CALLS.fetch_add(1, Ordering::Relaxed) + 1;
    let is_refused = call == first || call > first && words.next() == Some("ever");
    if is_refused {
        unsafe {
            syscall(WRITE, TOLD, b"r".as_ptr(), 1usize);
            *__errno_location() = error;
        }
    }
    is_refused
}

#[no_mangle]
pub extern "C" fn malloc(size: usize) -> *mut c_void {
    if is_refused("growth", NO_MEMORY) {
        return null_mut();
    }
    unsafe { __libc_malloc(size) }
}

#[no_mangle]
pub extern "C" fn realloc(block: *mut c_void, size: usize) -> *mut c_void {
    if is_refused("growth", NO_MEMORY) {
        return null_mut();
    }
    unsafe { __libc_realloc(block, size) }
}

#[no_mangle]
pub extern "C" fn read(file: c_int, out: *mut c_void, size: usize) -> isize {
    if is_refused("read", FAILED) {
        return -1;
    }
    unsafe { syscall(READ, file, out, size) as isize }
}

#[no_mangle]
pub extern "C" fn pread(file: c_int, out: *mut c_void, size: usize, at: c_long) -> isize {
    if is_refused("read", FAILED) {
        return -1;
    }
    unsafe { syscall(PREAD, file, out, size, at) as isize }
}

/// Standard output alone is refused.
#[no_mangle]
pub extern "C" fn write(file: c_int, bytes: *const c_void, size: usize) -> isize {
    if file == 1 && is_refused("output", FAILED) {
        return -1;
    }
    unsafe { syscall(WRITE, file, bytes, size) as isize }
}

#[no_mangle]
pub extern "C" fn __write(file: c_int, bytes: *const c_void, size: usize) -> isize {
    write(file, bytes, size)
}

#[no_mangle]
pub extern "C" fn pwrite(file: c_int, bytes: *const c_void, size: usize, at: c_long) -> isize {
    if is_refused("write", FAILED) {
        return -1;
    }
    unsafe { syscall(PWRITE, file, bytes, size, at) as isize }
}

#[no_mangle]
pub extern "C" fn ftruncate(file: c_int, size: c_long) -> c_int {
    if is_refused("write", FAILED) {
        return -1;
    }
    unsafe { syscall(FTRUNCATE, file, size) as c_int }
}

#[no_mangle]
pub extern "C" fn flock(file: c_int, how: c_int) -> c_int {
    for (kind, error) in [("unlocked", NO_LOCKS), ("unsupported", UNSUPPORTED), ("interrupted", INTERRUPTED)] {
        if is_refused(kind, error) {
            return -1;
        }
    }
    unsafe { syscall(FLOCK, file, how) as c_int }
}

#[no_mangle]
pub extern "C" fn fsync(file: c_int) -> c_int {
    if is_refused("sync", FAILED) {
        return -1;
    }
    unsafe { syscall(FSYNC, file) as c_int }
}

#[no_mangle]
pub extern "C" fn fdatasync(file: c_int) -> c_int {
    if is_refused("sync", FAILED) {
        return -1;
    }
    unsafe { syscall(FDATASYNC, file) as c_int }
}
