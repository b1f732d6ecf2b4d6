//! The number 6, exactly when document 01 says, and what it changes.

mod common;

use common::{begun, empty, hash, layout, number_at, set_number, written, Layout};
use ngalovuki::{Error, Handle, Settings, Store};
use std::ops::Bound::{Excluded, Included, Unbounded};

/// The history as commit numbers and hashes, read from the state's bytes.
fn history(store: &Store) -> Vec<(u64, Vec<u32>)> {
    let bytes = store.bytes();
    let mut at = layout(Settings::small()).history + 8;
    let end = at + number_at(bytes, at - 8) as usize;
    let mut entries = Vec::new();
    while at < end {
        let next = at + 16 + number_at(bytes, at + 8) as usize;
        let hashes = bytes[at + 16..next].chunks(4).map(|four| u32::from_be_bytes(four.try_into().expect("4 bytes")));
        entries.push((number_at(bytes, at), hashes.collect()));
        at = next;
    }
    entries
}

/// Whether a transaction is refused that made these reads, wrote `fir` after them, and met a commit of `oak` between.
fn meets(reads: impl FnOnce(&mut Store, Handle)) -> bool {
    let mut store = empty();
    written(&mut store, &[(b"elm", b"1"), (b"oak", b"1"), (b"yew", b"1")]);
    let handle = begun(&mut store);
    reads(&mut store, handle);
    written(&mut store, &[(b"oak", b"2")]);
    assert_eq!(store.put(handle, b"fir", b"3"), Ok(()));
    match store.commit(handle) {
        Ok(number) => {
            assert_eq!(number, Some(3));
            false
        }
        Err(error) => {
            assert_eq!(error, Error::Conflict);
            true
        }
    }
}

#[test]
fn what_a_transaction_has_read() {
    assert!(!meets(|_, _| ()));
    assert!(meets(|s, h| assert!(s.get(h, b"oak").is_ok())));
    assert!(!meets(|s, h| assert!(s.get(h, b"yew").is_ok())));
    // A scan's answer counts, and nothing that it did not hand out.
    assert!(meets(|s, h| assert_eq!(s.scan(h, Unbounded, Unbounded).count(), 3)));
    assert!(meets(|s, h| assert!(s.first(h, Included(b"oak"), Unbounded).is_ok())));
    assert!(!meets(|s, h| assert!(s.first(h, Excluded(b"oak"), Unbounded).is_ok())));
    assert!(!meets(|s, h| assert!(s.first(h, Unbounded, Unbounded).is_ok())));
    assert!(!meets(|s, h| assert_eq!(s.first(h, Included(b"p"), Excluded(b"q")), Ok(None))));
}

#[test]
fn own_writes_that_are_read_count_and_skipped_keys_do_not() {
    assert!(meets(|s, h| {
        assert_eq!(s.put(h, b"oak", b"mine"), Ok(()));
        assert_eq!(s.get(h, b"oak"), Ok(Some(b"mine".to_vec())));
    }));
    // Writing alone reads nothing.
    assert!(!meets(|s, h| assert_eq!(s.put(h, b"oak", b"mine"), Ok(()))));
    // A key that is deleted for the transaction is skipped by its scan.
    assert!(!meets(|s, h| {
        assert_eq!(s.delete(h, b"oak"), Ok(()));
        assert_eq!(s.scan(h, Unbounded, Unbounded).count(), 2);
    }));
    assert!(meets(|s, h| {
        assert_eq!(s.delete(h, b"oak"), Ok(()));
        assert_eq!(s.get(h, b"oak"), Ok(None));
    }));
}

#[test]
fn refused_reads_are_not_in_the_set() {
    assert!(!meets(|s, h| assert_eq!(s.get_into(h, b"oak", &mut []), Err(Error::NoRoom))));
    assert!(!meets(|s, h| {
        let low = Included(b"oak".as_slice());
        assert_eq!(s.scan_into(h, low, Unbounded, &mut [0; 2], &mut [0; 9]), Err(Error::NoRoom));
    }));
}

#[test]
fn the_commit_at_the_read_number_itself_is_no_conflict() {
    let mut store = empty();
    assert_eq!(written(&mut store, &[(b"oak", b"1")]), 1);
    let handle = begun(&mut store);
    assert_eq!(store.get(handle, b"oak"), Ok(Some(b"1".to_vec())));
    assert_eq!(store.put(handle, b"oak", b"2"), Ok(()));
    assert_eq!(store.commit(handle), Ok(Some(2)));
}

#[test]
fn every_commit_is_checked_and_not_the_first_alone() {
    let mut store = empty();
    for round in 0..4 {
        let (first, second) = (begun(&mut store), begun(&mut store));
        assert!(store.get(second, b"oak").is_ok());
        assert_eq!(store.put(first, b"oak", b"1"), Ok(()));
        assert_eq!(store.put(second, b"fir", b"1"), Ok(()));
        assert_eq!(store.commit(first), Ok(Some(round + 1)));
        assert_eq!(store.commit(second), Err(Error::Conflict));
        assert_eq!(store.end(first), Ok(()));
        assert_eq!(store.end(second), Ok(()));
    }
}

#[test]
fn a_commit_without_writes_meets_nobody() {
    let mut store = empty();
    let reader = begun(&mut store);
    assert_eq!(store.get(reader, b"oak"), Ok(None));
    written(&mut store, &[(b"oak", b"1")]);
    assert_eq!(store.get(reader, b"oak"), Ok(None));
    assert_eq!(store.commit(reader), Ok(None));
}

#[test]
fn keys_that_share_a_hash_are_one_to_the_check() {
    assert_eq!(hash(b"costarring"), hash(b"liquid"));
    let mut store = empty();
    let handle = begun(&mut store);
    assert_eq!(store.get(handle, b"liquid"), Ok(None));
    written(&mut store, &[(b"costarring", b"1")]);
    assert_eq!(store.put(handle, b"oak", b"1"), Ok(()));
    assert_eq!(store.commit(handle), Err(Error::Conflict));
}

#[test]
fn a_conflict_changes_the_mark_of_its_transaction_alone() {
    let mut store = empty();
    let (first, second) = (begun(&mut store), begun(&mut store));
    assert_eq!(store.get(second, b"oak"), Ok(None));
    assert_eq!(store.put(first, b"oak", b"x"), Ok(()));
    assert_eq!(store.put(second, b"fir", b"y"), Ok(()));
    assert_eq!(store.commit(first), Ok(Some(1)));

    let mut expected = store.bytes().to_vec();
    let Layout { places, stride, .. } = layout(Settings::small());
    let mark = places + stride + 16;
    assert_eq!(number_at(&expected, mark), 1);
    set_number(&mut expected, mark, 0);
    assert_eq!(store.commit(second), Err(Error::Conflict));
    assert!(store.bytes() == expected);
}

#[test]
fn the_history_holds_hashes_and_is_pruned_below_the_watermark() {
    let mut store = empty();
    let old = begun(&mut store);
    written(&mut store, &[(b"oak", b"1"), (b"fir", b"1")]);
    written(&mut store, &[(b"oak", b"2")]);
    let mut both = [hash(b"oak"), hash(b"fir")];
    both.sort();
    assert_eq!(history(&store), [(1, both.to_vec()), (2, vec![hash(b"oak")])]);

    // A reader at 2 remains: entries below 2 leave with the next commit, and that at 2 stays.
    let middle = begun(&mut store);
    assert_eq!(store.end(old), Ok(()));
    assert_eq!(history(&store).len(), 2);
    written(&mut store, &[(b"elm", b"1")]);
    assert_eq!(history(&store), [(2, vec![hash(b"oak")]), (3, vec![hash(b"elm")])]);
    written(&mut store, &[(b"yew", b"1")]);
    assert_eq!(history(&store).len(), 3);

    // A closed transaction is a reader until it is ended.
    assert_eq!(store.commit(middle), Ok(None));
    written(&mut store, &[(b"yew", b"2")]);
    assert_eq!(history(&store).len(), 4);
    assert_eq!(store.end(middle), Ok(()));
    written(&mut store, &[(b"yew", b"3")]);
    // The writer itself read at 5, so that 5 and 6 are left.
    assert_eq!(history(&store), [(5, vec![hash(b"yew")]), (6, vec![hash(b"yew")])]);
}
