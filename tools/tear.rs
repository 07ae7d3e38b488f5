//! A library that tools/kill-run has loaded in front of the C library. It ends the program within a write or sync of a file, and
//! tears the writes that weren't synced.
//!
//! TEAR is two numbers: which write or sync the program ends in, counted from 1, and a seed. Of each write that wasn't synced,
//! the one in hand among them, every 16 bytes are then left as they were, as they were written, or as A5, as the seed says. Where a
//! sync is the call, it isn't done.

use std::ffi::{c_char, c_int, c_long, c_void, CStr};
use std::sync::Mutex;

extern "C" {
    fn getenv(name: *const c_char) -> *const c_char;
    fn syscall(number: c_long, ...) -> c_long;
}

const PREAD: c_long = 17;
const PWRITE: c_long = 18;
const GETPID: c_long = 39;
const KILL: c_long = 62;
const FSYNC: c_long = 74;
const FDATASYNC: c_long = 75;
const KILLED: c_int = 9;
const PIECE: usize = 16;

/// A write that wasn't synced: its file and place, what stood there, and what was written.
struct Unsynced {
    file: c_int,
    at: c_long,
    old: Vec<u8>,
    new: Vec<u8>,
}

struct Calls {
    count: u64,
    unsynced: Vec<Unsynced>,
}

static CALLS: Mutex<Calls> = Mutex::new(Calls { count: 0, unsynced: Vec::new() });

/// The call to end in, and the seed.
fn wanted() -> Option<(u64, u64)> {
    let text = unsafe { getenv(c"TEAR".as_ptr()) };
    if text.is_null() {
        return None;
    }
    let mut words = unsafe { CStr::from_ptr(text) }.to_str().ok()?.split(' ');
    Some((words.next()?.parse().ok()?, words.next()?.parse().ok()?))
}

fn next(seed: &mut u64) -> u64 {
    *seed ^= *seed << 13;
    *seed ^= *seed >> 7;
    *seed ^= *seed << 17;
    *seed
}

fn write_at(file: c_int, bytes: &[u8], at: c_long) -> isize {
    unsafe { syscall(PWRITE, file, bytes.as_ptr(), bytes.len(), at) as isize }
}

/// Leaves each write that wasn't synced torn, and ends the program.
fn tear(unsynced: &[Unsynced], mut seed: u64) -> ! {
    seed |= 1;
    for write in unsynced {
        let mut left = write.new.clone();
        for (new, old) in left.chunks_mut(PIECE).zip(write.old.chunks(PIECE)) {
            match next(&mut seed) % 4 {
                0 | 1 => {}
                2 => new.copy_from_slice(old),
                _ => new.fill(0xA5),
            }
        }
        write_at(write.file, &left, write.at);
    }
    loop {
        unsafe { syscall(KILL, syscall(GETPID), KILLED) };
    }
}

#[no_mangle]
pub extern "C" fn pwrite(file: c_int, bytes: *const c_void, size: usize, at: c_long) -> isize {
    let new = unsafe { std::slice::from_raw_parts(bytes.cast::<u8>(), size) };
    let Some((call, seed)) = wanted() else {
        return write_at(file, new, at);
    };
    let mut calls = CALLS.lock().unwrap();
    let mut old = vec![0; size];
    let had = unsafe { syscall(PREAD, file, old.as_mut_ptr(), size, at) };
    old.truncate(had.max(0) as usize);
    let write = Unsynced { file, at, new: new[..old.len()].to_vec(), old };
    calls.unsynced.push(write);
    calls.count += 1;
    if calls.count == call {
        tear(&calls.unsynced, seed);
    }
    write_at(file, new, at)
}

fn sync(number: c_long, file: c_int) -> c_int {
    if let Some((call, seed)) = wanted() {
        let mut calls = CALLS.lock().unwrap();
        calls.count += 1;
        if calls.count == call {
            tear(&calls.unsynced, seed);
        }
        let done = unsafe { syscall(number, file) as c_int };
        if done == 0 {
            calls.unsynced.retain(|write| write.file != file);
        }
        return done;
    }
    unsafe { syscall(number, file) as c_int }
}

#[no_mangle]
pub extern "C" fn fsync(file: c_int) -> c_int {
    sync(FSYNC, file)
}

#[no_mangle]
pub extern "C" fn fdatasync(file: c_int) -> c_int {
    sync(FDATASYNC, file)
}
