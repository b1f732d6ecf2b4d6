//! Every byte of the out buffers and every number of the reply, before and after a call.
//!
//! A buffer is filled with a pattern, and what it holds afterwards is compared whole. Two patterns are used, which
//! differ in every bit, so that a byte written that happens to be the pattern's is seen with the other.

mod common;

use common::{altered, begun, empty, hash, image, layout, opened, set_number, written};
use ngalovuki::{ffi, Error, Handle, Settings, Store};
use std::ops::Bound::{self, Excluded, Included, Unbounded};

const PATTERNS: [u8; 2] = [0xa5, 0x5a];

/// A key and its value.
type LentPair<'a> = (&'a [u8], &'a [u8]);

/// An answer in front of a buffer of this length that was filled with the pattern.
fn in_front(answer: &[u8], length: usize, pattern: u8) -> Vec<u8> {
    let mut bytes = vec![pattern; length];
    bytes[..answer.len()].copy_from_slice(answer);
    bytes
}

/// A get with out buffers of several lengths: an answer writes exactly its bytes, and everything else writes nothing.
#[track_caller]
fn get_writes(store: &Store, handle: Handle, key: &[u8], expected: Result<Option<&[u8]>, Error>) {
    for pattern in PATTERNS {
        let answer = expected.ok().flatten().unwrap_or_default();
        for more in [0, 1, 100] {
            let length = answer.len() + more;
            let mut out = vec![pattern; length];
            let told = store.clone().get_into(handle, key, &mut out);
            assert_eq!(told, expected.map(|found| found.map(<[u8]>::len)));
            assert!(out == in_front(answer, length, pattern));
        }
    }
}

/// The same of a scan's answer, whose buffers have different lengths.
#[track_caller]
fn scan_writes(
    store: &Store,
    handle: Handle,
    low: Bound<&[u8]>,
    high: Bound<&[u8]>,
    expected: Result<Option<LentPair>, Error>,
) {
    for pattern in PATTERNS {
        let (key, value) = expected.ok().flatten().unwrap_or_default();
        for (key_more, value_more) in [(0, 0), (1, 50), (50, 1)] {
            let (key_length, value_length) = (key.len() + key_more, value.len() + value_more);
            let (mut key_out, mut value_out) = (vec![pattern; key_length], vec![!pattern; value_length]);
            let told = store.clone().scan_into(handle, low, high, &mut key_out, &mut value_out);
            assert_eq!(told, expected.map(|found| found.map(|(key, value)| (key.len(), value.len()))));
            assert!(key_out == in_front(key, key_length, pattern));
            assert!(value_out == in_front(value, value_length, !pattern));
        }
    }
}

/// A store over one run, with an open transaction that has own writes, and a closed one.
fn in_use() -> (Store, Handle, Handle) {
    let run = image(&[(b"elm", 3, b""), (b"elm", 2, b"gone"), (b"fir", 2, b"f"), (b"oak", 1, b"value of oak")]);
    let mut store = opened(Settings::small(), &[&run]);
    let (open, closed) = (begun(&mut store), begun(&mut store));
    assert_eq!(store.put(open, b"yew", b"own value"), Ok(()));
    assert_eq!(store.delete(open, b"fir"), Ok(()));
    assert_eq!(store.commit(closed), Ok(None));
    (store, open, closed)
}

#[test]
fn a_get_writes_exactly_its_value() {
    let (store, open, _) = in_use();
    get_writes(&store, open, b"oak", Ok(Some(b"value of oak")));
    get_writes(&store, open, b"yew", Ok(Some(b"own value")));
    for absent in [&b"elm"[..], b"fir", b"asp", b"oak1"] {
        get_writes(&store, open, absent, Ok(None));
    }
}

#[test]
fn a_refused_get_writes_nothing() {
    let (store, open, closed) = in_use();
    get_writes(&store, open, b"", Err(Error::EmptyKey));
    get_writes(&store, open, &[b'k'; 65_536], Err(Error::TooLong));
    get_writes(&store, Handle(9), b"oak", Err(Error::NoHandle));
    get_writes(&store, closed, b"oak", Err(Error::Closed));
    let damaged = altered(&store, |bytes| bytes[0] = 1);
    get_writes(&damaged, open, b"oak", Err(Error::Unsound));
    // A buffer that is too short keeps every byte.
    for pattern in PATTERNS {
        for length in 0..b"value of oak".len() {
            let mut out = vec![pattern; length];
            assert_eq!(store.clone().get_into(open, b"oak", &mut out), Err(Error::NoRoom));
            assert!(out == vec![pattern; length]);
        }
    }
}

#[test]
fn a_get_with_a_full_read_set_writes_nothing() {
    let mut store = opened(Settings { reads: 1, ..Settings::small() }, &[]);
    written(&mut store, &[(b"oak", b"x"), (b"fir", b"y")]);
    let handle = begun(&mut store);
    assert_eq!(store.get(handle, b"fir"), Ok(Some(b"y".to_vec())));
    get_writes(&store, handle, b"oak", Err(Error::NoRoom));
    get_writes(&store, handle, b"asp", Err(Error::NoRoom));
    scan_writes(&store, handle, Excluded(b"fir"), Unbounded, Err(Error::NoRoom));
    scan_writes(&store, handle, Unbounded, Unbounded, Ok(Some((b"fir", b"y"))));
}

#[test]
fn a_scan_writes_exactly_its_pair() {
    let (store, open, _) = in_use();
    scan_writes(&store, open, Unbounded, Unbounded, Ok(Some((b"oak", b"value of oak"))));
    scan_writes(&store, open, Included(b"oak"), Included(b"oak"), Ok(Some((b"oak", b"value of oak"))));
    scan_writes(&store, open, Excluded(b"oak"), Unbounded, Ok(Some((b"yew", b"own value"))));
    scan_writes(&store, open, Excluded(b"yew"), Unbounded, Ok(None));
    scan_writes(&store, open, Unbounded, Excluded(b"oak"), Ok(None));
    scan_writes(&store, open, Included(b"yew"), Included(b"oak"), Ok(None));
}

#[test]
fn a_refused_scan_writes_nothing() {
    let (store, open, closed) = in_use();
    scan_writes(&store, Handle(9), Unbounded, Unbounded, Err(Error::NoHandle));
    scan_writes(&store, closed, Unbounded, Unbounded, Err(Error::Closed));
    let damaged = altered(&store, |bytes| bytes[8] = 1);
    scan_writes(&damaged, open, Unbounded, Unbounded, Err(Error::Unsound));
    // Either buffer too short, and both keep every byte.
    for pattern in PATTERNS {
        for (key_length, value_length) in [(0, 0), (2, 12), (2, 100), (3, 11), (100, 11), (3, 0), (0, 12)] {
            let (mut key_out, mut value_out) = (vec![pattern; key_length], vec![pattern; value_length]);
            let told = store.clone().scan_into(open, Unbounded, Unbounded, &mut key_out, &mut value_out);
            assert_eq!(told, Err(Error::NoRoom));
            assert!(key_out == vec![pattern; key_length] && value_out == vec![pattern; value_length]);
        }
    }
}

// ---- the reply

const UNTOUCHED: u64 = 0x5a5a_5a5a_5a5a_5a5a;

/// Makes a call with reply buffers of 0 to 5 numbers: as many values stand in front as there is room for.
#[track_caller]
fn replies(store: &Store, number: u64, values: &[u64], call: impl Fn(&mut [u8], &mut [u64]) -> u64) {
    for length in 0..=5 {
        let mut state = store.bytes().to_vec();
        let mut reply = vec![UNTOUCHED; length];
        assert_eq!(call(&mut state, &mut reply), number);
        let expected = (0..length).map(|i| values.get(i).copied().unwrap_or(UNTOUCHED));
        assert_eq!(reply, expected.collect::<Vec<u64>>(), "{length} numbers of reply");
    }
}

#[test]
fn the_values_of_a_reply_stand_in_front() {
    let (store, open, closed) = in_use();
    let everything = (ffi::UNBOUNDED, &b""[..]);
    replies(&store, 0, &[3, 3], ffi::begin);
    replies(&store, 0, &[1, 12], |s, r| ffi::get(s, open.0, b"oak", &mut [0; 20], r));
    replies(&store, 0, &[0], |s, r| ffi::get(s, open.0, b"elm", &mut [0; 20], r));
    replies(&store, 0, &[1, 3, 12], |s, r| ffi::scan(s, open.0, everything, everything, &mut [0; 20], &mut [0; 20], r));
    let above = (ffi::EXCLUDED, &b"yew"[..]);
    replies(&store, 0, &[0], |s, r| ffi::scan(s, open.0, above, everything, &mut [0; 20], &mut [0; 20], r));
    replies(&store, 0, &[1, 4], |s, r| ffi::commit(s, open.0, r));
    replies(&store, 4, &[], |s, r| ffi::commit(s, closed.0, r));
    replies(&store, 3, &[], |s, r| ffi::commit(s, 9, r));
    replies(&store, 5, &[], |s, r| ffi::get(s, open.0, b"oak", &mut [0; 2], r));
    replies(&store, 1, &[], |s, r| ffi::get(s, open.0, b"", &mut [0; 2], r));
    replies(&store, 4, &[], |s, r| ffi::scan(s, closed.0, everything, everything, &mut [], &mut [], r));

    let numbers = Settings::small().numbers();
    replies(&store, 0, &[], |s, r| ffi::open(s, numbers, &[], &[], r));
    replies(&store, 10, &[2], |s, r| ffi::open(s, numbers, b"RUN\x00\x01\x00\x00\x00\x00RUN", &[9, 3], r));
    replies(&store, 11, &[1], |s, r| ffi::open(s, numbers, b"RUN\x00\x02", &[5], r));
    replies(&store, 12, &[], |s, r| ffi::open(s, [9; 9], b"RUN\x00\x02", &[5], r));
    replies(&Store::from_bytes(vec![0; 10]), 5, &[], |s, r| ffi::open(s, numbers, &[], &[], r));
    replies(&Store::from_bytes(vec![0; 10]), 9, &[], ffi::begin);
}

#[test]
fn a_commit_without_writes_and_a_conflict_in_the_reply() {
    let mut store = empty();
    let (reader, writer) = (begun(&mut store), begun(&mut store));
    assert_eq!(store.get(reader, b"oak"), Ok(None));
    replies(&store, 0, &[0], |s, r| ffi::commit(s, reader.0, r));
    assert_eq!(store.put(writer, b"oak", b"x"), Ok(()));
    assert_eq!(store.commit(writer), Ok(Some(1)));
    assert_eq!(store.put(reader, b"fir", b"x"), Ok(()));
    replies(&store, 6, &[], |s, r| ffi::commit(s, reader.0, r));
}

#[test]
fn any_large_kind_of_a_bound_is_unbounded() {
    let (store, open, _) = in_use();
    for kind in [2, 3, 256, 257, u64::MAX] {
        // The key of such a bound is not looked at.
        let side = (kind, &b"zzz"[..]);
        let (mut key, mut value, mut reply) = ([0; 3], [0; 12], [0; 3]);
        let mut state = store.bytes().to_vec();
        assert_eq!(ffi::scan(&mut state, open.0, side, (kind, b""), &mut key, &mut value, &mut reply), 0);
        assert_eq!((key, reply), (*b"oak", [1, 3, 12]));
    }
}

// ---- what calls leave of the state

#[test]
fn an_absent_answer_and_the_end_leave_all_but_the_read_set() {
    let (store, open, _) = in_use();
    // The end of a scan adds nothing.
    let mut after = store.clone();
    assert_eq!(after.first(open, Excluded(b"yew"), Unbounded), Ok(None));
    assert!(after.bytes() == store.bytes());
    // A get adds its key's hash, once.
    assert_eq!(after.get(open, b"elm"), Ok(None));
    let mut expected = store.bytes().to_vec();
    let parts = layout(Settings::small());
    let set = parts.places + parts.reads;
    set_number(&mut expected, set, 4);
    expected[set + 8..set + 12].copy_from_slice(&hash(b"elm").to_be_bytes());
    assert!(after.bytes() == expected);
    assert_eq!(after.get(open, b"elm"), Ok(None));
    assert!(after.bytes() == expected);
}
