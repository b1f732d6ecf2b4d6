//! The reading cases P1 to P10 of document 01's sheet, by calls.
//!
//! A transaction reads at the clock, which is 7 after this opening. For the other read numbers the number is set in the
//! state's bytes, in the transaction's place and in its reader row, so that the state stays sound.

mod common;

use common::{altered, begun, image, layout, opened, owned, pairs, set_number, ROWS};
use ngalovuki::{Handle, Pair, Settings, Store};
use std::ops::Bound::{self, Excluded, Included, Unbounded};

/// The two runs of the sheet.
fn sheet() -> Store {
    let first = image(&[(b"fir", 5, b""), (b"oak", 7, b"x")]);
    let second = image(&[(b"fir", 3, b"p"), (b"oak", 4, b"y"), (b"yew", 2, b"z")]);
    opened(Settings::small(), &[&first, &second])
}

/// A store with one transaction, which reads at this number.
fn reading(mut store: Store, read: u64) -> (Store, Handle) {
    let handle = begun(&mut store);
    let place = layout(Settings::small()).places;
    let store = altered(&store, |bytes| {
        set_number(bytes, place + 8, read);
        set_number(bytes, ROWS + 8, read);
    });
    assert!(store.sound());
    (store, handle)
}

/// What is seen of the sheet's runs at a read number.
fn seen(read: u64, low: Bound<&[u8]>, high: Bound<&[u8]>) -> Vec<Pair> {
    let (mut store, handle) = reading(sheet(), read);
    pairs(&mut store, handle, low, high)
}

#[test]
fn p1_to_p5_whole_scans() {
    let all = |read| seen(read, Unbounded, Unbounded);
    assert_eq!(all(1), owned(&[]));
    assert_eq!(all(2), owned(&[("yew", "z")]));
    assert_eq!(all(4), owned(&[("fir", "p"), ("oak", "y"), ("yew", "z")]));
    assert_eq!(all(6), owned(&[("oak", "y"), ("yew", "z")]));
    assert_eq!(all(7), owned(&[("oak", "x"), ("yew", "z")]));
}

#[test]
fn p1_to_p5_by_gets() {
    for (read, fir, oak, yew) in [
        (1, None, None, None),
        (2, None, None, Some("z")),
        (4, Some("p"), Some("y"), Some("z")),
        (6, None, Some("y"), Some("z")),
        (7, None, Some("x"), Some("z")),
    ] {
        let (mut store, handle) = reading(sheet(), read);
        for (key, value) in [("fir", fir), ("oak", oak), ("yew", yew)] {
            let value = value.map(|value| value.as_bytes().to_vec());
            assert_eq!(store.get(handle, key.as_bytes()), Ok(value), "{key} at {read}");
        }
    }
}

#[test]
fn p6_to_p8_bounds() {
    assert_eq!(seen(4, Excluded(b"fir"), Included(b"oak")), owned(&[("oak", "y")]));
    assert_eq!(seen(4, Included(b"fir"), Excluded(b"oak")), owned(&[("fir", "p")]));
    assert_eq!(seen(4, Included(b"oak"), Included(b"fir")), owned(&[]));
}

#[test]
fn bounds_may_be_empty_equal_or_longer_than_any_key() {
    let long = vec![b'o'; 100_000];
    assert_eq!(seen(4, Included(b""), Excluded(b"oak")), owned(&[("fir", "p")]));
    assert_eq!(seen(4, Excluded(b""), Included(b"fir")), owned(&[("fir", "p")]));
    assert_eq!(seen(4, Unbounded, Included(b"")), owned(&[]));
    assert_eq!(seen(4, Included(b"oak"), Included(b"oak")), owned(&[("oak", "y")]));
    assert_eq!(seen(4, Included(b"oak"), Excluded(b"oak")), owned(&[]));
    assert_eq!(seen(4, Excluded(b"oak"), Excluded(b"oak")), owned(&[]));
    // The prefix comes first: `oa` is below `oak`, and `oak` below `oak1`.
    assert_eq!(seen(4, Excluded(b"oa"), Excluded(b"oak1")), owned(&[("oak", "y")]));
    assert_eq!(seen(4, Excluded(&long), Unbounded), owned(&[("yew", "z")]));
    assert_eq!(seen(4, Included(b"oak"), Excluded(&long)), owned(&[("oak", "y")]));
}

#[test]
fn p9_of_equal_versions_the_earliest_run_counts() {
    let first = image(&[(b"oak", 4, b"a")]);
    let second = image(&[(b"oak", 4, b"b")]);
    let (mut store, handle) = reading(opened(Settings::small(), &[&first, &second]), 4);
    assert_eq!(pairs(&mut store, handle, Unbounded, Unbounded), owned(&[("oak", "a")]));
    assert_eq!(store.get(handle, b"oak"), Ok(Some(b"a".to_vec())));
}

#[test]
fn p10_own_writes_hide_the_snapshot() {
    let (mut store, handle) = reading(sheet(), 7);
    assert_eq!(store.put(handle, b"fir", b"q"), Ok(()));
    assert_eq!(store.delete(handle, b"oak"), Ok(()));
    assert_eq!(pairs(&mut store, handle, Unbounded, Unbounded), owned(&[("fir", "q"), ("yew", "z")]));
    assert_eq!(store.get(handle, b"oak"), Ok(None));
    // A put of an empty value is a deletion, too, and the last write counts.
    assert_eq!(store.put(handle, b"yew", b""), Ok(()));
    assert_eq!(store.put(handle, b"oak", b"n"), Ok(()));
    assert_eq!(pairs(&mut store, handle, Unbounded, Unbounded), owned(&[("fir", "q"), ("oak", "n")]));
}
