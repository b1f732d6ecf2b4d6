//! The runs that both sides hold, and the keys that both are asked.

use oracle::timed::Run;

/// The bytes of a record: 12, a key of 16 and a value of 36.
pub const RECORD: usize = 64;

/// The runs of a size, and how many there are.
#[derive(Clone, Copy)]
pub struct Size {
    pub name: &'static str,
    /// Records in all runs together.
    pub records: usize,
    pub runs: usize,
}

pub fn key(i: usize) -> Vec<u8> {
    format!("{i:016}").into_bytes()
}

fn value(i: usize) -> Vec<u8> {
    format!("{i:036}").into_bytes()
}

/// The number under which a key was committed: run 0, the newest, has the largest.
fn stamp(i: usize) -> u64 {
    16 - (i % 16) as u64
}

impl Size {
    /// One version of each key. Of 16 runs each has every 16th key; one run has the same versions.
    pub fn runs(self) -> Vec<Run> {
        let run = |r: usize| (r..self.records).step_by(self.runs).map(|i| (key(i), stamp(i), value(i))).collect();
        (0..self.runs).map(run).collect()
    }

    /// The i-th place to read at: spread evenly over the keys, in no order, `room` keys before the last.
    pub fn place(self, i: usize, room: usize) -> usize {
        const GOLDEN: f64 = 0.618_033_988_749_895;
        let share = (0.5 + i as f64 * GOLDEN).fract();
        (share * self.records.saturating_sub(room) as f64) as usize
    }

    /// The j-th key of a transaction's hundred own writes: spread over the keys where there are as many.
    pub fn own(self, j: usize) -> Vec<u8> {
        key(j * (self.records / 100).max(1))
    }
}

pub fn own_value(j: usize) -> Vec<u8> {
    value(1_000_000 + j)
}

/// A run as an image.
pub fn image(run: &Run) -> Vec<u8> {
    let mut bytes = b"RUN\0\x01".to_vec();
    bytes.extend((run.len() as u32).to_be_bytes());
    for (key, stamp, value) in run {
        bytes.extend((key.len() as u16).to_be_bytes());
        bytes.extend(key);
        bytes.extend(stamp.to_be_bytes());
        bytes.extend((value.len() as u16).to_be_bytes());
        bytes.extend(value);
    }
    bytes
}
