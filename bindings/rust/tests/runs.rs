//! Freezing, run order, and 16 runs at most.

mod common;

use common::{begun, empty, image, layout, number_at, opened, owned, pairs, refused, written};
use ngalovuki::{Error, Settings, Store};
use std::ops::Bound::Unbounded;

const SMALL: Settings = Settings::small();

/// The images of the run area in run order, the newest first.
fn images(store: &Store) -> Vec<Vec<u8>> {
    let bytes = store.bytes();
    let mut at = layout(SMALL).area + 8;
    let end = at + number_at(bytes, at - 8) as usize;
    let mut found = Vec::new();
    while at < end {
        let next = at + 8 + number_at(bytes, at) as usize;
        found.insert(0, bytes[at + 8..next].to_vec());
        at = next;
    }
    found
}

#[test]
fn a_frozen_run_is_an_image_that_opens_again() {
    let mut store = empty();
    written(&mut store, &[(b"oak", b"1"), (b"fir", b"1")]);
    let writer = begun(&mut store);
    assert_eq!(store.delete(writer, b"fir"), Ok(()));
    assert_eq!(store.commit(writer), Ok(Some(2)));
    assert_eq!(store.freeze(), Ok(()));
    assert_eq!(images(&store), [image(&[(b"fir", 2, b""), (b"fir", 1, b"1"), (b"oak", 1, b"1")])]);
    written(&mut store, &[(b"yew", b"3")]);
    assert_eq!(store.freeze(), Ok(()));
    let saved = images(&store);
    assert_eq!(saved[0], image(&[(b"yew", 3, b"3")]));

    let mut again = opened(SMALL, &[&saved[0], &saved[1]]);
    let begun = again.begin().expect("a free place");
    assert_eq!(begun.read, 3);
    assert_eq!(pairs(&mut again, begun.handle, Unbounded, Unbounded), owned(&[("oak", "1"), ("yew", "3")]));
}

#[test]
fn freezing_an_empty_run_changes_nothing() {
    let mut store = empty();
    for _ in 0..20 {
        let before = store.bytes().to_vec();
        assert_eq!(store.freeze(), Ok(()));
        assert!(store.bytes() == before);
    }
    written(&mut store, &[(b"oak", b"1")]);
    assert_eq!(store.freeze(), Ok(()));
    let before = store.bytes().to_vec();
    assert_eq!(store.freeze(), Ok(()));
    assert!(store.bytes() == before);
}

#[test]
fn a_freeze_between_changes_no_answer() {
    let mut store = empty();
    written(&mut store, &[(b"oak", b"1")]);
    let reader = begun(&mut store);
    let writer = begun(&mut store);
    assert_eq!(store.put(writer, b"fir", b"2"), Ok(()));
    assert_eq!(store.freeze(), Ok(()));
    assert_eq!(store.commit(writer), Ok(Some(2)));
    assert_eq!(store.freeze(), Ok(()));
    written(&mut store, &[(b"oak", b"3")]);
    assert_eq!(pairs(&mut store, reader, Unbounded, Unbounded), owned(&[("oak", "1")]));
    let later = begun(&mut store);
    assert_eq!(pairs(&mut store, later, Unbounded, Unbounded), owned(&[("fir", "2"), ("oak", "3")]));
}

#[test]
fn sixteen_runs_are_frozen_and_the_17th_has_no_room() {
    let mut store = empty();
    for number in 1..=16u64 {
        assert_eq!(written(&mut store, &[(b"oak", number.to_string().as_bytes())]), number);
        assert_eq!(store.freeze(), Ok(()));
        assert_eq!(images(&store).len() as u64, number);
    }
    // Without anything to freeze there is nothing to refuse.
    assert_eq!(store.freeze(), Ok(()));
    assert_eq!(written(&mut store, &[(b"oak", b"17"), (b"fir", b"17")]), 17);
    refused(&mut store, Error::NoRoom, |s| s.freeze());
    // All 17 runs are read, the active one among them.
    let reader = begun(&mut store);
    assert_eq!(pairs(&mut store, reader, Unbounded, Unbounded), owned(&[("fir", "17"), ("oak", "17")]));
}

#[test]
fn sixteen_runs_are_opened_and_the_17th_has_no_room() {
    let runs: Vec<Vec<u8>> = (1..=17).map(|i| image(&[(format!("key{i:02}").as_bytes(), i, b"x")])).collect();
    let lent: Vec<&[u8]> = runs.iter().map(Vec::as_slice).collect();
    assert_eq!(Store::open(SMALL, &lent).err(), Some(Error::NoRoom));
    let mut store = opened(SMALL, &lent[..16]);
    let reader = begun(&mut store);
    assert_eq!(store.scan(reader, Unbounded, Unbounded).count(), 16);

    // Opening and frozen runs count together.
    written(&mut store, &[(b"key17", b"x")]);
    refused(&mut store, Error::NoRoom, |s| s.freeze());
    let mut store = opened(SMALL, &lent[..15]);
    written(&mut store, &[(b"key16", b"x")]);
    assert_eq!(store.freeze(), Ok(()));
    written(&mut store, &[(b"key17", b"x")]);
    refused(&mut store, Error::NoRoom, |s| s.freeze());
    let reader = begun(&mut store);
    assert_eq!(store.scan(reader, Unbounded, Unbounded).count(), 17);
}

#[test]
fn empty_images_count_among_the_runs() {
    let none = image(&[]);
    assert_eq!(none.len(), 9);
    assert!(Store::open(SMALL, &[&none[..]; 16]).is_ok());
    assert_eq!(Store::open(SMALL, &[&none[..]; 17]).err(), Some(Error::NoRoom));
}

#[test]
fn one_key_in_every_run() {
    // Timestamps fall from run to run, and in another order, and each reader sees the newest at or below its number.
    for order in [[4u64, 3, 2, 1], [1, 2, 3, 4], [2, 4, 1, 3]] {
        let runs: Vec<Vec<u8>> = order.iter().map(|time| image(&[(b"oak", *time, &[b'0' + *time as u8])])).collect();
        let lent: Vec<&[u8]> = runs.iter().map(Vec::as_slice).collect();
        let mut store = opened(SMALL, &lent);
        let reader = begun(&mut store);
        assert_eq!(store.get(reader, b"oak"), Ok(Some(b"4".to_vec())));
        assert_eq!(pairs(&mut store, reader, Unbounded, Unbounded), owned(&[("oak", "4")]));
    }
}
