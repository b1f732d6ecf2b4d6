//! The calls as they are in C, on slices and numbers.
//!
//! They are for hosts that keep the state in memory of their own, such as a mapped file; [`Store`](crate::Store) is
//! made of them. Every function is safe to call: any content of any slice, any length and any number gives one of
//! document 01's numbers. A call reads and writes only what it is lent, keeps nothing of it, and allocates nothing.
//!
//! On a refusal, which is any number but 0, no slice is changed, but for two cases: 6 marks its transaction closed in
//! the state, and 10 and 11 tell the run's place in `reply`. The values of a reply stand in front of `reply`, as many
//! as it has room for, and what stands behind them stays. Three numbers are room enough for every call.
//!
//! All `unsafe` code of this crate is in this file. What its calls owe the archive is said in `ngalovuki.h`: no pointer
//! is null, pointers to numbers are aligned, a buffer that may be written overlaps no other buffer of the call, and
//! while the call runs no other thread uses it or writes the others. References to slices grant all of it: they are
//! never null, not even to empty slices, they are aligned and valid for their length, a `&mut` is the only way to its
//! bytes as long as it lives, and nobody writes what a `&` is lent for.
#![allow(unsafe_code)]

/// The functions of the archive, in the order of `ngalovuki.h`.
mod archive {
    extern "C" {
        pub fn ngalovuki_state_length(
            serializable: u64,
            transactions: u64,
            overlay: u64,
            reads: u64,
            writes: u64,
            entries: u64,
            hashes: u64,
            active: u64,
            area: u64,
        ) -> u64;

        pub fn ngalovuki_open(
            state: *mut u8,
            state_len: usize,
            serializable: u64,
            transactions: u64,
            overlay: u64,
            reads: u64,
            writes: u64,
            entries: u64,
            hashes: u64,
            active: u64,
            area: u64,
            images: *const u8,
            images_len: usize,
            lengths: *const u64,
            lengths_len: usize,
            reply: *mut u64,
            reply_len: usize,
        ) -> u64;

        pub fn ngalovuki_sound(state: *const u8, state_len: usize) -> u64;

        pub fn ngalovuki_begin(state: *mut u8, state_len: usize, reply: *mut u64, reply_len: usize) -> u64;

        pub fn ngalovuki_get(
            state: *mut u8,
            state_len: usize,
            handle: u64,
            key: *const u8,
            key_len: usize,
            out: *mut u8,
            out_len: usize,
            reply: *mut u64,
            reply_len: usize,
        ) -> u64;

        pub fn ngalovuki_scan(
            state: *mut u8,
            state_len: usize,
            handle: u64,
            low: u64,
            lo: *const u8,
            lo_len: usize,
            high: u64,
            hi: *const u8,
            hi_len: usize,
            key_out: *mut u8,
            key_out_len: usize,
            value_out: *mut u8,
            value_out_len: usize,
            reply: *mut u64,
            reply_len: usize,
        ) -> u64;

        pub fn ngalovuki_put(
            state: *mut u8,
            state_len: usize,
            handle: u64,
            key: *const u8,
            key_len: usize,
            value: *const u8,
            value_len: usize,
        ) -> u64;

        pub fn ngalovuki_delete(state: *mut u8, state_len: usize, handle: u64, key: *const u8, key_len: usize) -> u64;

        pub fn ngalovuki_commit(
            state: *mut u8,
            state_len: usize,
            handle: u64,
            reply: *mut u64,
            reply_len: usize,
        ) -> u64;

        pub fn ngalovuki_end(state: *mut u8, state_len: usize, handle: u64) -> u64;

        pub fn ngalovuki_freeze(state: *mut u8, state_len: usize) -> u64;
    }
}

/// The kind of an included bound.
pub const INCLUDED: u64 = 0;
/// The kind of an excluded bound.
pub const EXCLUDED: u64 = 1;
/// The kind of a side without a bound; any larger number means the same.
pub const UNBOUNDED: u64 = 2;

/// How many bytes the state of a store with these settings has, or 0 where one is outside its range.
///
/// The numbers are those of [`Settings::numbers`](crate::Settings::numbers).
pub fn state_length(settings: [u64; 9]) -> u64 {
    let [serializable, transactions, overlay, reads, writes, entries, hashes, active, area] = settings;
    // SAFETY: the call takes numbers alone, and any numbers will do.
    unsafe {
        archive::ngalovuki_state_length(
            serializable,
            transactions,
            overlay,
            reads,
            writes,
            entries,
            hashes,
            active,
            area,
        )
    }
}

/// Opens a store, over anything that the state holds: 12, then 10 or 11 of the first bad run, then 5.
///
/// The run images lie one after the other in `images`, the newest first, and `lengths` has the bytes of each. An image
/// that ends past `images` counts as cut. Reply: with 10 and 11 the run's place, from 1.
pub fn open(state: &mut [u8], settings: [u64; 9], images: &[u8], lengths: &[u64], reply: &mut [u64]) -> u64 {
    let [serializable, transactions, overlay, reads, writes, entries, hashes, active, area] = settings;
    // SAFETY: each pointer and length are those of a slice lent for the call; `state` and `reply` are exclusive.
    unsafe {
        archive::ngalovuki_open(
            state.as_mut_ptr(),
            state.len(),
            serializable,
            transactions,
            overlay,
            reads,
            writes,
            entries,
            hashes,
            active,
            area,
            images.as_ptr(),
            images.len(),
            lengths.as_ptr(),
            lengths.len(),
            reply.as_mut_ptr(),
            reply.len(),
        )
    }
}

/// 1 where the state keeps every state rule, so that no call on it returns 9; else 0.
pub fn sound(state: &[u8]) -> u64 {
    // SAFETY: the pointer and the length are those of a slice lent for the call, which only reads it.
    unsafe { archive::ngalovuki_sound(state.as_ptr(), state.len()) }
}

/// Begins a transaction: 9, 5, 7. Reply: its handle and its read number.
pub fn begin(state: &mut [u8], reply: &mut [u64]) -> u64 {
    // SAFETY: each pointer and length are those of a slice lent for the call; both are exclusive.
    unsafe { archive::ngalovuki_begin(state.as_mut_ptr(), state.len(), reply.as_mut_ptr(), reply.len()) }
}

/// The value of a key, written to the front of `out`: 9, 3, 4, 1, 2, 5. Reply: 1 and the value's length, or 0 for
/// absent.
pub fn get(state: &mut [u8], handle: u64, key: &[u8], out: &mut [u8], reply: &mut [u64]) -> u64 {
    // SAFETY: each pointer and length are those of a slice lent for the call; `state`, `out` and `reply` are exclusive.
    unsafe {
        archive::ngalovuki_get(
            state.as_mut_ptr(),
            state.len(),
            handle,
            key.as_ptr(),
            key.len(),
            out.as_mut_ptr(),
            out.len(),
            reply.as_mut_ptr(),
            reply.len(),
        )
    }
}

/// The first present key within the bounds and its value, written to the fronts of the out buffers: 9, 3, 4, 5.
///
/// A bound is its kind and its key, which is not looked at where there is no bound. Reply: 1, the key's length and the
/// value's length, or 0 for the end.
pub fn scan(
    state: &mut [u8],
    handle: u64,
    low: (u64, &[u8]),
    high: (u64, &[u8]),
    key_out: &mut [u8],
    value_out: &mut [u8],
    reply: &mut [u64],
) -> u64 {
    // SAFETY: each pointer and length are those of a slice lent for the call; `state`, both out buffers and `reply` are
    // exclusive.
    unsafe {
        archive::ngalovuki_scan(
            state.as_mut_ptr(),
            state.len(),
            handle,
            low.0,
            low.1.as_ptr(),
            low.1.len(),
            high.0,
            high.1.as_ptr(),
            high.1.len(),
            key_out.as_mut_ptr(),
            key_out.len(),
            value_out.as_mut_ptr(),
            value_out.len(),
            reply.as_mut_ptr(),
            reply.len(),
        )
    }
}

/// Writes a value at a key: 9, 3, 4, 1, 2, 5.
pub fn put(state: &mut [u8], handle: u64, key: &[u8], value: &[u8]) -> u64 {
    // SAFETY: each pointer and length are those of a slice lent for the call; `state` is exclusive.
    unsafe {
        archive::ngalovuki_put(
            state.as_mut_ptr(),
            state.len(),
            handle,
            key.as_ptr(),
            key.len(),
            value.as_ptr(),
            value.len(),
        )
    }
}

/// Deletes a key: 9, 3, 4, 1, 2, 5.
pub fn delete(state: &mut [u8], handle: u64, key: &[u8]) -> u64 {
    // SAFETY: each pointer and length are those of a slice lent for the call; `state` is exclusive.
    unsafe { archive::ngalovuki_delete(state.as_mut_ptr(), state.len(), handle, key.as_ptr(), key.len()) }
}

/// Commits a transaction: 9, 3, 4, 6, 7, 5. Reply: 1 and the commit's number, or 0 where it had no writes.
pub fn commit(state: &mut [u8], handle: u64, reply: &mut [u64]) -> u64 {
    // SAFETY: each pointer and length are those of a slice lent for the call; both are exclusive.
    unsafe { archive::ngalovuki_commit(state.as_mut_ptr(), state.len(), handle, reply.as_mut_ptr(), reply.len()) }
}

/// Ends a transaction, open or closed: 9, 3.
pub fn end(state: &mut [u8], handle: u64) -> u64 {
    // SAFETY: the pointer and the length are those of a slice lent for the call, which is exclusive.
    unsafe { archive::ngalovuki_end(state.as_mut_ptr(), state.len(), handle) }
}

/// Freezes the active run: 9, 5.
pub fn freeze(state: &mut [u8]) -> u64 {
    // SAFETY: the pointer and the length are those of a slice lent for the call, which is exclusive.
    unsafe { archive::ngalovuki_freeze(state.as_mut_ptr(), state.len()) }
}
