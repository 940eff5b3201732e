//! Counts which blocks of the Rust file are entered. Only the counted copy of the file calls this.

use std::sync::atomic::{AtomicU64, Ordering::Relaxed};

static COUNTS: [AtomicU64; 2000] = [const { AtomicU64::new(0) }; 2000];

pub fn at(line: usize) {
    COUNTS[line].fetch_add(1, Relaxed);
}

pub fn count(line: usize) -> u64 {
    COUNTS[line].load(Relaxed)
}
