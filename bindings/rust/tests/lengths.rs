//! Keys and values at their longest: 65,535 bytes pass, and 65,536 give 2.

mod common;

use common::{begun, image, opened, pairs, refused};
use ngalovuki::{Error, Settings, LONGEST};
use std::ops::Bound::{Excluded, Included, Unbounded};

/// Room for some of the longest keys and values.
const ROOMY: Settings = Settings { overlay: 300_000, active: 300_000, area: 600_000, ..Settings::small() };

#[test]
fn the_longest_keys_and_values_pass() {
    let (key, value) = (vec![b'k'; LONGEST], vec![b'v'; LONGEST]);
    let mut other = key.clone();
    other[LONGEST - 1] = b'l';
    let mut store = opened(ROOMY, &[]);

    let writer = begun(&mut store);
    assert_eq!(store.get(writer, &key), Ok(None));
    assert_eq!(store.put(writer, &key, &value), Ok(()));
    assert_eq!(store.put(writer, &other, b"x"), Ok(()));
    assert_eq!(store.delete(writer, &other), Ok(()));
    assert_eq!(store.get(writer, &key), Ok(Some(value.clone())));
    assert_eq!(store.commit(writer), Ok(Some(1)));
    assert_eq!(store.end(writer), Ok(()));

    // The same from the active run and from a frozen one, by get and by scan.
    for _ in 0..2 {
        let reader = begun(&mut store);
        assert!(store.get(reader, &key) == Ok(Some(value.clone())));
        assert_eq!(store.get(reader, &other), Ok(None));
        let whole = [(key.clone(), value.clone())];
        assert!(pairs(&mut store, reader, Unbounded, Unbounded) == whole);
        assert!(pairs(&mut store, reader, Included(&key), Excluded(&other)) == whole);
        assert!(pairs(&mut store, reader, Excluded(&key), Unbounded).is_empty());
        assert_eq!(store.end(reader), Ok(()));
        assert_eq!(store.freeze(), Ok(()));
    }
    assert!(store.sound());
}

#[test]
fn one_byte_more_gives_2() {
    let (longest, long) = (vec![b'k'; LONGEST], vec![b'k'; LONGEST + 1]);
    let mut store = opened(ROOMY, &[]);
    let handle = begun(&mut store);
    for key in [&long, &vec![b'k'; 1_000_000]] {
        refused(&mut store, Error::TooLong, |s| s.get(handle, key));
        refused(&mut store, Error::TooLong, |s| s.put(handle, key, b"x"));
        refused(&mut store, Error::TooLong, |s| s.delete(handle, key));
        refused(&mut store, Error::TooLong, |s| s.put(handle, b"oak", key));
        refused(&mut store, Error::TooLong, |s| s.put(handle, &longest, key));
    }
    assert_eq!(Error::TooLong.number(), 2);
    assert_eq!(store.put(handle, &longest, &longest), Ok(()));
}

#[test]
fn bounds_may_be_longer_than_any_key() {
    let (key, long) = (vec![b'k'; LONGEST], vec![b'k'; LONGEST + 1]);
    let mut store = opened(ROOMY, &[]);
    let handle = begun(&mut store);
    assert_eq!(store.put(handle, &key, b"x"), Ok(()));
    assert_eq!(pairs(&mut store, handle, Unbounded, Excluded(&long)).len(), 1);
    assert_eq!(pairs(&mut store, handle, Included(&long), Unbounded).len(), 0);
}

#[test]
fn the_longest_record_of_an_image() {
    let (key, value) = (vec![b'k'; LONGEST], vec![b'v'; LONGEST]);
    let run = image(&[(&key, 9, &value)]);
    let mut store = opened(ROOMY, &[&run]);
    let reader = begun(&mut store);
    assert!(store.get(reader, &key) == Ok(Some(value)));
    assert_eq!(store.get(reader, &key[1..]), Ok(None));
}
