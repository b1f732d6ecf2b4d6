//! A store that is not serializable: the same snapshots, without sets, history and conflicts.

mod common;

use common::{begun, layout, number_at, opened, owned, pairs, refused, written};
use ngalovuki::{Error, Settings, Store};
use std::ops::Bound::Unbounded;

/// Room for one hash in each set, which this mode never fills.
const LOOSE: Settings =
    Settings { serializable: false, reads: 1, writes: 1, entries: 1, hashes: 1, ..Settings::small() };

/// No place has a hash in its sets, and the history is empty.
fn keeps_no_sets(store: &Store) {
    let layout = layout(LOOSE);
    assert_eq!(number_at(store.bytes(), layout.history), 0);
    for i in 0..LOOSE.transactions as usize {
        let place = layout.places + i * layout.stride;
        if number_at(store.bytes(), place) != 0 {
            assert_eq!(number_at(store.bytes(), place + layout.reads), 0);
            assert_eq!(number_at(store.bytes(), place + layout.writes), 0);
        }
    }
}

#[test]
fn both_desks_book_and_the_last_one_stands() {
    let mut store = opened(LOOSE, &[]);
    let (north, south) = (begun(&mut store), begun(&mut store));
    assert_eq!(store.get(north, b"week 47"), Ok(None));
    assert_eq!(store.get(south, b"week 47"), Ok(None));
    assert_eq!(store.put(north, b"week 47", b"job 12"), Ok(()));
    assert_eq!(store.put(south, b"week 47", b"job 30"), Ok(()));
    assert_eq!(store.commit(north), Ok(Some(1)));
    assert_eq!(store.commit(south), Ok(Some(2)));
    keeps_no_sets(&store);
    let later = begun(&mut store);
    assert_eq!(store.get(later, b"week 47"), Ok(Some(b"job 30".to_vec())));
}

#[test]
fn sets_and_history_have_no_limit() {
    let mut store = opened(LOOSE, &[]);
    let old = begun(&mut store);
    for number in 1..=5 {
        assert_eq!(written(&mut store, &[(b"elm", b"1"), (b"fir", b"2"), (b"oak", b"3")]), number);
    }
    let reader = begun(&mut store);
    for key in [b"elm", b"fir", b"oak", b"yew"] {
        assert!(store.get(reader, key).is_ok());
    }
    assert_eq!(pairs(&mut store, reader, Unbounded, Unbounded), owned(&[("elm", "1"), ("fir", "2"), ("oak", "3")]));
    // The old reader sees its own snapshot.
    assert_eq!(pairs(&mut store, old, Unbounded, Unbounded), owned(&[]));
    keeps_no_sets(&store);
    assert!(store.sound());
}

#[test]
fn reading_changes_no_byte() {
    let mut store = opened(LOOSE, &[]);
    written(&mut store, &[(b"oak", b"x")]);
    let reader = begun(&mut store);
    let before = store.bytes().to_vec();
    assert_eq!(store.get(reader, b"oak"), Ok(Some(b"x".to_vec())));
    assert_eq!(store.get(reader, b"fir"), Ok(None));
    assert_eq!(store.scan(reader, Unbounded, Unbounded).count(), 1);
    assert!(store.bytes() == before);
}

#[test]
fn the_other_refusals_are_the_same() {
    let mut store = opened(Settings { transactions: 1, overlay: 64, active: 64, ..LOOSE }, &[]);
    let handle = begun(&mut store);
    refused(&mut store, Error::NoRoom, |s| s.begin());
    refused(&mut store, Error::EmptyKey, |s| s.get(handle, b""));
    refused(&mut store, Error::TooLong, |s| s.get(handle, &[b'k'; 65_536]));
    refused(&mut store, Error::NoRoom, |s| s.put(handle, b"oak", &[b'v'; 58]));
    assert_eq!(store.put(handle, b"oak", &[b'v'; 57]), Ok(()));
    refused(&mut store, Error::NoRoom, |s| s.commit(handle));
    assert_eq!(store.put(handle, b"oak", &[b'v'; 49]), Ok(()));
    assert_eq!(store.commit(handle), Ok(Some(1)));
    refused(&mut store, Error::Closed, |s| s.commit(handle));
    assert_eq!(store.end(handle), Ok(()));
    refused(&mut store, Error::NoHandle, |s| s.end(handle));
}
