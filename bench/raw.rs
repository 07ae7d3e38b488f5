//! The writes and syncs of a journal and nothing else: the baseline for appended groups.
//!
//! usage: raw FILE GROUPS ENTRIES     appends GROUPS groups of ENTRIES entries each, as the store does: the bytes behind
//!                                    the gate, a sync, the gate, a sync

use std::fs::OpenOptions;
use std::os::unix::fs::FileExt;

fn main() {
    let words: Vec<String> = std::env::args().collect();
    let groups: u64 = words[2].parse().expect("a number");
    let entries: usize = words[3].parse().expect("a number");
    let file = OpenOptions::new().read(true).write(true).open(&words[1]).expect("the file");
    let body = vec![1; 16 + 16 * entries];
    let mut gate = 13_033;
    for _ in 0..groups {
        file.write_all_at(&body, gate + 1).expect("a write");
        file.sync_data().expect("a sync");
        file.write_all_at(&[0xA5], gate).expect("a write");
        file.sync_data().expect("a sync");
        gate += body.len() as u64;
    }
}
