//! What several tests use. Each of them uses a part of it, so that unused functions are no fault here.
#![allow(dead_code)]

use std::fmt::Debug;
use std::ops::Bound;

use ngalovuki::{Error, Handle, Pair, Settings, Store};

/// An empty store with the settings of `replay`.
pub fn empty() -> Store {
    opened(Settings::small(), &[])
}

/// A store opened over images that are good and fit.
pub fn opened(settings: Settings, images: &[&[u8]]) -> Store {
    Store::open(settings, images).expect("a good opening")
}

/// The handle of a new transaction.
pub fn begun(store: &mut Store) -> Handle {
    store.begin().expect("a place for a transaction").handle
}

/// One transaction from its begin to its end, which writes these pairs: the commit's number.
pub fn written(store: &mut Store, pairs: &[(&[u8], &[u8])]) -> u64 {
    let handle = begun(store);
    for (key, value) in pairs {
        store.put(handle, key, value).expect("room for a write");
    }
    let number = store.commit(handle).expect("an accepted commit").expect("a commit with writes");
    store.end(handle).expect("a transaction to end");
    number
}

/// All pairs that a transaction sees within the bounds.
pub fn pairs(store: &mut Store, handle: Handle, low: Bound<&[u8]>, high: Bound<&[u8]>) -> Vec<Pair> {
    store.scan(handle, low, high).collect::<Result<_, _>>().expect("a scan without refusal")
}

/// Pairs as owned bytes, for comparisons.
pub fn owned(pairs: &[(&str, &str)]) -> Vec<Pair> {
    pairs.iter().map(|(key, value)| (key.as_bytes().to_vec(), value.as_bytes().to_vec())).collect()
}

/// Makes a call that must be refused with this error, and checks that the state's bytes stay.
#[track_caller]
pub fn refused<T: Debug + PartialEq>(
    store: &mut Store,
    error: Error,
    call: impl FnOnce(&mut Store) -> Result<T, Error>,
) {
    let before = store.bytes().to_vec();
    assert_eq!(call(store), Err(error));
    assert!(store.bytes() == before, "a refusal changed the state");
}

// ---- run images

/// A run image by document 01, of versions in the order given, whether that is a good one or not.
pub fn image(versions: &[(&[u8], u64, &[u8])]) -> Vec<u8> {
    let mut bytes = b"RUN\x00\x01".to_vec();
    bytes.extend((versions.len() as u32).to_be_bytes());
    for (key, time, value) in versions {
        bytes.extend((key.len() as u16).to_be_bytes());
        bytes.extend(*key);
        bytes.extend(time.to_be_bytes());
        bytes.extend((value.len() as u16).to_be_bytes());
        bytes.extend(*value);
    }
    bytes
}

// ---- the lent state, as docs/STATE.md has it

/// Where the clock lies.
pub const CLOCK: usize = 72;
/// Where the counter of handles lies.
pub const COUNTER: usize = 80;
/// Where the reader rows begin, with the number of their bytes in front.
pub const ROWS: usize = 88;

/// Where the parts begin that lie behind the reader rows.
pub struct Layout {
    pub history: usize,
    pub active: usize,
    pub area: usize,
    pub places: usize,
    pub stride: usize,
    pub end: usize,
    /// Where the read set and the write set lie in a place.
    pub reads: usize,
    pub writes: usize,
}

/// The layout of a state with these settings.
pub fn layout(settings: Settings) -> Layout {
    let [_, transactions, overlay, reads, writes, entries, hashes, active, area] =
        settings.numbers().map(|n| n as usize);
    let history = ROWS + 8 + 16 * transactions;
    let active_at = history + 8 + 16 * entries + 4 * hashes;
    let area_at = active_at + 8 + active;
    let places = area_at + 8 + 8 * 16 + area;
    let stride = 48 + overlay + 4 * reads + 4 * writes;
    Layout {
        history,
        active: active_at,
        area: area_at,
        places,
        stride,
        end: places + transactions * stride,
        reads: 32 + overlay,
        writes: 40 + overlay + 4 * reads,
    }
}

/// The number of 8 bytes at a place.
pub fn number_at(bytes: &[u8], at: usize) -> u64 {
    u64::from_be_bytes(bytes[at..at + 8].try_into().expect("8 bytes"))
}

/// Writes a number of 8 bytes at a place.
pub fn set_number(bytes: &mut [u8], at: usize, number: u64) {
    bytes[at..at + 8].copy_from_slice(&number.to_be_bytes());
}

/// A copy of a store with its bytes changed from outside.
pub fn altered(store: &Store, change: impl FnOnce(&mut Vec<u8>)) -> Store {
    let mut bytes = store.bytes().to_vec();
    change(&mut bytes);
    Store::from_bytes(bytes)
}

/// The hash of a key: FNV-1a of 32 bits.
pub fn hash(key: &[u8]) -> u32 {
    key.iter().fold(2_166_136_261, |h, byte| (h ^ u32::from(*byte)).wrapping_mul(16_777_619))
}
