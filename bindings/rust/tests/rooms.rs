//! The number 5: each kind of room at its limit and one above, and room that is used again.

mod common;

use common::{begun, hash, image, opened, refused, written};
use ngalovuki::{Error, Handle, Settings, Store};
use std::ops::Bound::{Excluded, Unbounded};

const SMALL: Settings = Settings::small();

/// Puts a value of this many bytes.
fn put(store: &mut Store, handle: Handle, key: &[u8], length: usize) -> Result<(), Error> {
    store.put(handle, key, &vec![b'v'; length])
}

#[test]
fn transaction_places() {
    for transactions in [1, 2, 64] {
        let mut store = opened(Settings { transactions, ..SMALL }, &[]);
        let handles: Vec<Handle> = (0..transactions).map(|_| begun(&mut store)).collect();
        refused(&mut store, Error::NoRoom, |s| s.begin());
        // A closed transaction keeps its place, and an ended one gives it back.
        assert_eq!(store.commit(handles[0]), Ok(None));
        refused(&mut store, Error::NoRoom, |s| s.begin());
        assert_eq!(store.end(handles[0]), Ok(()));
        assert_eq!(begun(&mut store), Handle(transactions + 1));
        refused(&mut store, Error::NoRoom, |s| s.begin());
    }
}

#[test]
fn overlay() {
    let mut store = opened(Settings { overlay: 64, ..SMALL }, &[]);
    let handle = begun(&mut store);
    // 4 bytes plus key and value for each entry: 4 + 3 + 23 = 30, and 34 bytes are left.
    assert_eq!(put(&mut store, handle, b"oak", 23), Ok(()));
    refused(&mut store, Error::NoRoom, |s| put(s, handle, b"fir", 28));
    assert_eq!(put(&mut store, handle, b"fir", 27), Ok(()));
    refused(&mut store, Error::NoRoom, |s| s.delete(handle, b"yew"));
    // A replaced value is counted no more.
    refused(&mut store, Error::NoRoom, |s| put(s, handle, b"oak", 24));
    assert_eq!(put(&mut store, handle, b"oak", 22), Ok(()));
    assert_eq!(store.delete(handle, b"oak"), Ok(()));
    assert_eq!(put(&mut store, handle, b"oak", 23), Ok(()));
    // The other transactions have room of their own, and that of an ended one is used again.
    let other = begun(&mut store);
    assert_eq!(put(&mut store, other, b"oak", 57), Ok(()));
    assert_eq!(store.end(handle), Ok(()));
    let next = begun(&mut store);
    refused(&mut store, Error::NoRoom, |s| put(s, next, b"oak", 58));
    assert_eq!(put(&mut store, next, b"oak", 57), Ok(()));
}

#[test]
fn read_set() {
    let mut store = opened(Settings { reads: 2, ..SMALL }, &[]);
    written(&mut store, &[(b"elm", b"1"), (b"fir", b"2"), (b"oak", b"3")]);
    let handle = begun(&mut store);
    // An absent key takes a hash too, and a key read before takes none.
    assert_eq!(store.get(handle, b"yew"), Ok(None));
    assert_eq!(store.get(handle, b"elm"), Ok(Some(b"1".to_vec())));
    refused(&mut store, Error::NoRoom, |s| s.get(handle, b"fir"));
    refused(&mut store, Error::NoRoom, |s| s.get(handle, b"asp"));
    assert_eq!(store.get(handle, b"yew"), Ok(None));

    // The scan answers with `elm`, which is in the set, and is refused the next. It ends there.
    let answers: Vec<_> = store.scan(handle, Unbounded, Unbounded).collect();
    assert_eq!(answers, [Ok((b"elm".to_vec(), b"1".to_vec())), Err(Error::NoRoom)]);
    refused(&mut store, Error::NoRoom, |s| s.first(handle, Excluded(b"elm"), Unbounded));
    // The end of a scan needs no room.
    assert_eq!(store.first(handle, Excluded(b"oak"), Unbounded), Ok(None));
    // Writing needs none of it, nor does the commit.
    assert_eq!(store.put(handle, b"fir", b"4"), Ok(()));
    assert_eq!(store.commit(handle), Ok(Some(2)));
}

#[test]
fn write_set() {
    let mut store = opened(Settings { writes: 2, ..SMALL }, &[]);
    let handle = begun(&mut store);
    assert_eq!(store.put(handle, b"elm", b"1"), Ok(()));
    assert_eq!(store.delete(handle, b"fir"), Ok(()));
    refused(&mut store, Error::NoRoom, |s| s.put(handle, b"oak", b"3"));
    refused(&mut store, Error::NoRoom, |s| s.delete(handle, b"oak"));
    assert_eq!(store.put(handle, b"fir", b"2"), Ok(()));
    assert_eq!(store.commit(handle), Ok(Some(1)));
}

#[test]
fn keys_with_one_hash_take_one_place_of_a_set() {
    // Two words with the same FNV-1a of 32 bits.
    assert_eq!(hash(b"costarring"), hash(b"liquid"));
    let mut store = opened(Settings { reads: 1, writes: 1, ..SMALL }, &[]);
    let handle = begun(&mut store);
    assert_eq!(store.get(handle, b"liquid"), Ok(None));
    assert_eq!(store.get(handle, b"costarring"), Ok(None));
    assert_eq!(store.put(handle, b"liquid", b"1"), Ok(()));
    assert_eq!(store.put(handle, b"costarring", b"2"), Ok(()));
    assert_eq!(store.commit(handle), Ok(Some(1)));
    let later = begun(&mut store);
    assert_eq!(store.get(later, b"liquid"), Ok(Some(b"1".to_vec())));
    assert_eq!(store.get(later, b"costarring"), Ok(Some(b"2".to_vec())));
}

#[test]
fn out_buffers() {
    let mut store = opened(SMALL, &[]);
    written(&mut store, &[(b"oak", b"value")]);
    let handle = begun(&mut store);
    for length in 0..5 {
        refused(&mut store, Error::NoRoom, |s| s.get_into(handle, b"oak", &mut vec![0; length]));
        refused(&mut store, Error::NoRoom, |s| {
            s.scan_into(handle, Unbounded, Unbounded, &mut [0; 3], &mut vec![0; length])
        });
    }
    for length in 0..3 {
        refused(&mut store, Error::NoRoom, |s| {
            s.scan_into(handle, Unbounded, Unbounded, &mut vec![0; length], &mut [0; 5])
        });
    }
    // An absent key and the end need no room.
    assert_eq!(store.get_into(handle, b"fir", &mut []), Ok(None));
    assert_eq!(store.scan_into(handle, Excluded(b"oak"), Unbounded, &mut [], &mut []), Ok(None));
    assert_eq!(store.get_into(handle, b"oak", &mut [0; 5]), Ok(Some(5)));
    assert_eq!(store.scan_into(handle, Unbounded, Unbounded, &mut [0; 3], &mut [0; 5]), Ok(Some((3, 5))));
}

#[test]
fn history_entries() {
    let mut store = opened(Settings { entries: 2, ..SMALL }, &[]);
    let old = begun(&mut store);
    written(&mut store, &[(b"oak", b"1")]);
    written(&mut store, &[(b"oak", b"2")]);
    // The reader at 0 keeps both entries, and there is no room for a third.
    let writer = begun(&mut store);
    assert_eq!(store.put(writer, b"oak", b"3"), Ok(()));
    refused(&mut store, Error::NoRoom, |s| s.commit(writer));
    // Without it the watermark is the writer's own read number 2; the entry below leaves, and the equal one stays.
    assert_eq!(store.end(old), Ok(()));
    assert_eq!(store.commit(writer), Ok(Some(3)));
}

#[test]
fn history_hashes() {
    let mut store = opened(Settings { hashes: 3, ..SMALL }, &[]);
    let old = begun(&mut store);
    written(&mut store, &[(b"elm", b"1"), (b"fir", b"1")]);
    let writer = begun(&mut store);
    assert_eq!(store.put(writer, b"oak", b"1"), Ok(()));
    assert_eq!(store.put(writer, b"yew", b"1"), Ok(()));
    refused(&mut store, Error::NoRoom, |s| s.commit(writer));
    assert_eq!(store.end(old), Ok(()));
    // The entry equal to the watermark 1 stays, so that there are four hashes as before.
    refused(&mut store, Error::NoRoom, |s| s.commit(writer));
    assert_eq!(store.end(writer), Ok(()));
    assert_eq!(written(&mut store, &[(b"oak", b"1")]), 2);
}

#[test]
fn active_run() {
    let mut store = opened(Settings { active: 64, ..SMALL }, &[]);
    // 12 bytes plus key and value for each version: four versions of 16 bytes.
    written(&mut store, &[(b"elm", b"1"), (b"fir", b"1")]);
    written(&mut store, &[(b"elm", b"2")]);
    let writer = begun(&mut store);
    assert_eq!(store.put(writer, b"oak", b"12"), Ok(()));
    refused(&mut store, Error::NoRoom, |s| s.commit(writer));
    assert_eq!(store.put(writer, b"oak", b"1"), Ok(()));
    assert_eq!(store.commit(writer), Ok(Some(3)));
    assert_eq!(store.end(writer), Ok(()));
    // The run is full. A freeze makes room, and the transaction that was refused goes on.
    let writer = begun(&mut store);
    assert_eq!(store.delete(writer, b"oak"), Ok(()));
    refused(&mut store, Error::NoRoom, |s| s.commit(writer));
    assert_eq!(store.freeze(), Ok(()));
    assert_eq!(store.commit(writer), Ok(Some(4)));
}

#[test]
fn run_area() {
    // One image with one version of 16 bytes takes 25.
    let mut store = opened(Settings { area: 50, ..SMALL }, &[]);
    for number in 1..=2 {
        assert_eq!(written(&mut store, &[(b"oak", b"1")]), number);
        assert_eq!(store.freeze(), Ok(()));
    }
    written(&mut store, &[(b"oak", b"1")]);
    refused(&mut store, Error::NoRoom, |s| s.freeze());
    // What is not frozen stays in the active run, and is seen.
    let reader = begun(&mut store);
    assert_eq!(store.get(reader, b"oak"), Ok(Some(b"1".to_vec())));

    let mut tight = opened(Settings { area: 24, ..SMALL }, &[]);
    assert_eq!(tight.freeze(), Ok(()));
    written(&mut tight, &[(b"oak", b"1")]);
    refused(&mut tight, Error::NoRoom, |s| s.freeze());
}

#[test]
fn opening_runs_and_the_state_buffer() {
    let run = image(&[(b"oak", 1, b"1")]);
    let settings = Settings { area: 50, ..SMALL };
    assert!(Store::open(settings, &[&run, &run]).is_ok());
    assert_eq!(Store::open(Settings { area: 49, ..settings }, &[&run, &run]).err(), Some(Error::NoRoom));

    let length = settings.state_length().expect("settings in range");
    for short in [0, 1, 71, 72, length - 1] {
        let (error, buffer) = Store::open_in(vec![7; short], settings, &[&run]).expect_err("a short buffer");
        assert_eq!(error, Error::NoRoom);
        assert!(buffer == vec![7; short]);
    }
    assert!(Store::open_in(vec![7; length], settings, &[&run]).is_ok());
}
