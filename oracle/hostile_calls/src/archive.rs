//! The functions of the library, as `crates/host/ngalovuki.h` declares them, and one call of any of them.

use crate::calls::Call;
use std::ffi::c_void;

extern "C" {
    fn ngalovuki_state_length(
        serializable: u64,
        transactions: u64,
        overlay: u64,
        reads: u64,
        writes: u64,
        entries: u64,
        hashes: u64,
        active: u64,
        area: u64,
    ) -> u64;

    fn ngalovuki_open(
        state: *mut u8,
        state_len: usize,
        serializable: u64,
        transactions: u64,
        overlay: u64,
        reads: u64,
        writes: u64,
        entries: u64,
        hashes: u64,
        active: u64,
        area: u64,
        images: *const u8,
        images_len: usize,
        lengths: *const u64,
        lengths_len: usize,
        reply: *mut u64,
        reply_len: usize,
    ) -> u64;

    fn ngalovuki_sound(state: *const u8, state_len: usize) -> u64;

    fn ngalovuki_begin(state: *mut u8, state_len: usize, reply: *mut u64, reply_len: usize) -> u64;

    fn ngalovuki_get(
        state: *mut u8,
        state_len: usize,
        handle: u64,
        key: *const u8,
        key_len: usize,
        out: *mut u8,
        out_len: usize,
        reply: *mut u64,
        reply_len: usize,
    ) -> u64;

    fn ngalovuki_scan(
        state: *mut u8,
        state_len: usize,
        handle: u64,
        low: u64,
        lo: *const u8,
        lo_len: usize,
        high: u64,
        hi: *const u8,
        hi_len: usize,
        key_out: *mut u8,
        key_out_len: usize,
        value_out: *mut u8,
        value_out_len: usize,
        reply: *mut u64,
        reply_len: usize,
    ) -> u64;

    fn ngalovuki_put(
        state: *mut u8,
        state_len: usize,
        handle: u64,
        key: *const u8,
        key_len: usize,
        value: *const u8,
        value_len: usize,
    ) -> u64;

    fn ngalovuki_delete(state: *mut u8, state_len: usize, handle: u64, key: *const u8, key_len: usize) -> u64;

    fn ngalovuki_commit(state: *mut u8, state_len: usize, handle: u64, reply: *mut u64, reply_len: usize) -> u64;

    fn ngalovuki_end(state: *mut u8, state_len: usize, handle: u64) -> u64;

    fn ngalovuki_freeze(state: *mut u8, state_len: usize) -> u64;

    // Of the C library, for the last words of a run that a signal ends.
    fn signal(number: i32, handler: usize) -> usize;
    fn write(file: i32, bytes: *const c_void, count: usize) -> isize;
    fn _exit(status: i32) -> !;
}

/// A buffer that a call may write: where it begins and how many elements it has.
pub type Mut<T> = (*mut T, usize);

/// A buffer that a call reads.
pub type Const<T> = (*const T, usize);

/// All that is lent to a call. `first` and `second` are its keys, its key and value, or its images, and `words` the
/// lengths of the images; each call uses those that it has arguments for.
pub struct Lending {
    pub state: Mut<u8>,
    pub key_out: Mut<u8>,
    pub value_out: Mut<u8>,
    pub reply: Mut<u64>,
    pub first: Const<u8>,
    pub second: Const<u8>,
    pub words: Const<u64>,
}

/// Makes a call. The bytes of its arguments are those lent.
///
/// # Safety
/// Each pair is a pointer that is not null, aligned, to as many elements as it says, and no buffer overlaps another.
pub unsafe fn make(call: &Call, lent: &Lending) -> u64 {
    let (state, state_len) = lent.state;
    let (key_out, key_out_len) = lent.key_out;
    let (value_out, value_out_len) = lent.value_out;
    let (reply, reply_len) = lent.reply;
    let (first, first_len) = lent.first;
    let (second, second_len) = lent.second;
    let (words, words_len) = lent.words;
    match *call {
        Call::Sound => ngalovuki_sound(state, state_len),
        Call::Begin => ngalovuki_begin(state, state_len, reply, reply_len),
        Call::Get { handle, .. } => {
            ngalovuki_get(state, state_len, handle, first, first_len, value_out, value_out_len, reply, reply_len)
        }
        Call::Scan { handle, low, high } => ngalovuki_scan(
            state,
            state_len,
            handle,
            low.0,
            first,
            first_len,
            high.0,
            second,
            second_len,
            key_out,
            key_out_len,
            value_out,
            value_out_len,
            reply,
            reply_len,
        ),
        Call::Put { handle, .. } => ngalovuki_put(state, state_len, handle, first, first_len, second, second_len),
        Call::Delete { handle, .. } => ngalovuki_delete(state, state_len, handle, first, first_len),
        Call::Commit { handle } => ngalovuki_commit(state, state_len, handle, reply, reply_len),
        Call::End { handle } => ngalovuki_end(state, state_len, handle),
        Call::Freeze => ngalovuki_freeze(state, state_len),
        Call::Open { settings: [mode, t, o, rh, wh, e, h, a, r], .. } => ngalovuki_open(
            state, state_len, mode, t, o, rh, wh, e, h, a, r, first, first_len, words, words_len, reply, reply_len,
        ),
    }
}

/// How many bytes the state of a store with these settings has; 0 where one is outside its range.
pub fn state_length([mode, t, o, rh, wh, e, h, a, r]: [u64; 9]) -> u64 {
    // SAFETY: the call takes numbers alone, and any numbers will do.
    unsafe { ngalovuki_state_length(mode, t, o, rh, wh, e, h, a, r) }
}

/// Has `last_words` called where a fault of memory, a wrong instruction or an abort would end the program.
pub fn on_signals(last_words: extern "C" fn(i32)) {
    const ILL: i32 = 4;
    const ABRT: i32 = 6;
    const BUS: i32 = 7;
    const FPE: i32 = 8;
    const SEGV: i32 = 11;
    for number in [ILL, ABRT, BUS, FPE, SEGV] {
        // SAFETY: the handler is a function that lives as long as the program, and keeps to what a handler may do.
        unsafe { signal(number, last_words as usize) };
    }
}

/// Writes to standard error and ends the program, without anything else in between.
pub fn say_and_exit(text: &[u8], status: i32) -> ! {
    // SAFETY: the pointer and the length are those of a slice, and the second call does not come back.
    unsafe {
        write(2, text.as_ptr().cast(), text.len());
        _exit(status)
    }
}
