//! A library that tools/replicated has loaded in front of the C library. It notes when a process has the lock of its device, and when it
//! writes it.
//!
//! NOTES names a file, which has these numbers of 8 bytes, times being nanoseconds of the system's clock that no one sets: when the lock was
//! had; when the first write began; when the last write or sync that was done began; how many were done; how many failed. 0 is none.

use std::ffi::{c_char, c_int, c_long, c_void, CStr};
use std::mem::zeroed;
use std::sync::Mutex;

extern "C" {
    fn getenv(name: *const c_char) -> *const c_char;
    fn syscall(number: c_long, ...) -> c_long;
    fn dlsym(handle: *mut c_void, name: *const c_char) -> *mut c_void;
}

const OPEN: c_long = 2;
const FSTAT: c_long = 5;
const PWRITE: c_long = 18;
const FSYNC: c_long = 74;
const FDATASYNC: c_long = 75;
const CLOCK_GETTIME: c_long = 228;
const CREATES_TO_WRITE: c_int = 0o101;
const IS_EVEN: c_int = 1;
const NEXT: *mut c_void = -1isize as *mut c_void;

struct Notes {
    file: c_long,
    /// The device's numbers, which the system gives it.
    device: Option<[u64; 2]>,
    numbers: [u64; 5],
}

static NOTES: Mutex<Notes> = Mutex::new(Notes { file: -1, device: None, numbers: [0; 5] });

fn now() -> u64 {
    let mut time = [0u64; 2];
    unsafe { syscall(CLOCK_GETTIME, IS_EVEN, time.as_mut_ptr()) };
    time[0] * 1_000_000_000 + time[1]
}

fn numbers_of(file: c_int) -> Option<[u64; 2]> {
    let mut said: [u64; 18] = unsafe { zeroed() };
    (unsafe { syscall(FSTAT, file, said.as_mut_ptr()) } == 0).then_some([said[0], said[1]])
}

impl Notes {
    fn note(&mut self) {
        if self.file < 0 {
            let path = unsafe { getenv(c"NOTES".as_ptr()) };
            if path.is_null() || unsafe { CStr::from_ptr(path) }.is_empty() {
                return;
            }
            self.file = unsafe { syscall(OPEN, path, CREATES_TO_WRITE, 0o600) };
        }
        unsafe { syscall(PWRITE, self.file, self.numbers.as_ptr(), 40usize, 0usize) };
    }
}

/// Makes a call that writes or syncs, and notes it where it is of the device.
fn noted(file: c_int, call: impl FnOnce() -> c_long) -> c_long {
    let is_device = { NOTES.lock().unwrap().device.is_some_and(|device| numbers_of(file).is_none_or(|other| device == other)) };
    if !is_device {
        return call();
    }
    let began = now();
    {
        let mut notes = NOTES.lock().unwrap();
        if notes.numbers[1] == 0 {
            notes.numbers[1] = began;
            notes.note();
        }
    }
    let done = call();
    let mut notes = NOTES.lock().unwrap();
    if done >= 0 {
        notes.numbers[2] = notes.numbers[2].max(began);
        notes.numbers[3] += 1;
    } else {
        notes.numbers[4] += 1;
    }
    notes.note();
    done
}

#[no_mangle]
pub extern "C" fn pwrite(file: c_int, bytes: *const c_void, size: usize, at: c_long) -> isize {
    noted(file, || unsafe { syscall(PWRITE, file, bytes, size, at) }) as isize
}

#[no_mangle]
pub extern "C" fn pwrite64(file: c_int, bytes: *const c_void, size: usize, at: c_long) -> isize {
    pwrite(file, bytes, size, at)
}

#[no_mangle]
pub extern "C" fn fsync(file: c_int) -> c_int {
    noted(file, || unsafe { syscall(FSYNC, file) }) as c_int
}

#[no_mangle]
pub extern "C" fn fdatasync(file: c_int) -> c_int {
    noted(file, || unsafe { syscall(FDATASYNC, file) }) as c_int
}

#[no_mangle]
pub extern "C" fn flock(file: c_int, how: c_int) -> c_int {
    {
        NOTES.lock().unwrap().device = numbers_of(file);
    }
    let next: extern "C" fn(c_int, c_int) -> c_int = unsafe { std::mem::transmute(dlsym(NEXT, c"flock".as_ptr())) };
    let done = next(file, how);
    let mut notes = NOTES.lock().unwrap();
    if done == 0 {
        notes.numbers[0] = now();
    }
    notes.note();
    done
}
