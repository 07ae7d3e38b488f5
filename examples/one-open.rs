//! A library that is loaded in front of the C library when `tpnet` runs a device on a volume with replicas (docs/RUNNING.md, part 9).
//!
//! `tpnet` opens a device twice: once for the lock, and once to read and write it. A volume that gives a lost lock to another host can refuse
//! only what comes through the file that had the lock. So here
//!
//! - `open` of the file that this process has locked, to read and write it, gives the open file of the lock once more;
//! - `flock` that is refused for whatever reason is refused as one that another process has: a volume without a quorum isn't one without locks.
//!   A file that the volume has given up is opened anew, so that who waits for the lock doesn't wait for ever;
//! - `flock` that is done opens the file's name anew, reads each byte by that, writes it back and syncs it, before it answers. A host that
//!   stopped within a write may have reached some replicas only: from then on all of them have what was read. And a file that was opened
//!   before may be read from a replica that has fallen behind since; only what asks for the name again is told so.
//!
//! Build it with `rustc -O --edition 2021 --crate-type cdylib -o one-open.so one-open.rs`. It is for x86_64.

use std::ffi::{c_char, c_int, c_long, CStr, OsStr, OsString};
use std::fs::{metadata, read_link, File, OpenOptions};
use std::io;
use std::mem::ManuallyDrop;
use std::os::fd::{AsRawFd, FromRawFd};
use std::os::unix::ffi::{OsStrExt, OsStringExt};
use std::os::unix::fs::{FileExt, MetadataExt};
use std::path::PathBuf;
use std::sync::atomic::{AtomicI32, Ordering};

extern "C" {
    fn syscall(number: c_long, ...) -> c_long;
    fn __errno_location() -> *mut c_int;
}

const OPEN: c_long = 2;
const FCNTL: c_long = 72;
const FLOCK: c_long = 73;
const DUP3: c_long = 292;
const ACCESS: c_int = 3;
const READ_WRITE: c_int = 2;
const CREATES: c_int = 64;
const DUPLICATES: c_int = 1030;
const EXCLUSIVE: c_int = 2;
const UNLOCKS: c_int = 8;
const CLOSES_IN_OTHERS: c_int = 0o2000000;
const FAILED: c_int = 5;
const IS_ANOTHERS: c_int = 11;
const PIECE: usize = 1 << 20;

/// The file that has the lock, by its number, or -1.
static LOCKED: AtomicI32 = AtomicI32::new(-1);

fn refuse(error: c_int) -> c_int {
    unsafe { *__errno_location() = error };
    -1
}

fn file_of(number: c_int) -> ManuallyDrop<File> {
    ManuallyDrop::new(unsafe { File::from_raw_fd(number) })
}

/// Whether a path names the file of that number; an error where the volume can't say.
fn is_named(number: c_int, path: *const c_char) -> io::Result<bool> {
    let path = OsStr::from_bytes(unsafe { CStr::from_ptr(path) }.to_bytes());
    let locked = file_of(number).metadata()?;
    Ok(metadata(path).is_ok_and(|other| (other.dev(), other.ino()) == (locked.dev(), locked.ino())))
}

/// The name of an open file. The system calls it deleted, too, when the volume didn't find the name for a moment.
fn name_of(number: c_int) -> io::Result<PathBuf> {
    let name = read_link(format!("/proc/self/fd/{number}"))?.into_os_string().into_vec();
    let name = name.strip_suffix(b" (deleted)").map(<[u8]>::to_vec).unwrap_or(name);
    Ok(PathBuf::from(OsString::from_vec(name)))
}

/// Puts the file, opened anew by its name, in the place of one that has no lock and can't get one any more.
fn renew(number: c_int) -> io::Result<()> {
    let anew = OpenOptions::new().read(true).write(true).open(name_of(number)?)?;
    unsafe { syscall(DUP3, anew.as_raw_fd(), number, CLOSES_IN_OTHERS) };
    Ok(())
}

/// The locked file, opened anew by its name.
fn opened_anew(number: c_int) -> io::Result<File> {
    let anew = File::open(name_of(number)?)?;
    let (one, other) = (anew.metadata()?, file_of(number).metadata()?);
    if (one.dev(), one.ino()) == (other.dev(), other.ino()) {
        return Ok(anew);
    }
    Err(io::Error::from_raw_os_error(IS_ANOTHERS))
}

/// Writes each byte of the locked file back as it is read, and syncs it.
fn write_back(number: c_int) -> io::Result<()> {
    let (anew, locked) = (opened_anew(number)?, file_of(number));
    let mut bytes = vec![0; PIECE];
    let mut at = 0;
    loop {
        let count = anew.read_at(&mut bytes, at)?;
        if count == 0 {
            return locked.sync_all();
        }
        locked.write_all_at(&bytes[..count], at)?;
        at += count as u64;
    }
}

#[no_mangle]
pub extern "C" fn open(path: *const c_char, flags: c_int, mode: c_int) -> c_int {
    let locked = LOCKED.load(Ordering::Acquire);
    if locked >= 0 && flags & (ACCESS | CREATES) == READ_WRITE {
        match is_named(locked, path) {
            Ok(true) => return unsafe { syscall(FCNTL, locked, DUPLICATES, 3) as c_int },
            Ok(false) => {}
            Err(_) => return refuse(FAILED),
        }
    }
    unsafe { syscall(OPEN, path, flags, mode) as c_int }
}

#[no_mangle]
pub extern "C" fn flock(number: c_int, how: c_int) -> c_int {
    let is_done = unsafe { syscall(FLOCK, number, how) } == 0;
    if how & EXCLUSIVE == 0 {
        return if is_done { 0 } else { -1 };
    }
    let is_anothers = !is_done && io::Error::last_os_error().raw_os_error() == Some(IS_ANOTHERS);
    if is_done && write_back(number).is_ok() {
        LOCKED.store(number, Ordering::Release);
        return 0;
    }
    if is_done {
        unsafe { syscall(FLOCK, number, UNLOCKS) };
    }
    if !is_anothers {
        // where that can't be, either, the next try comes here again
        let _ = renew(number);
    }
    refuse(IS_ANOTHERS)
}
