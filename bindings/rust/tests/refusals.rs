//! The numbers 1, 2, 3, 4 and 7, and the order of the checks. The tests of the other numbers have files of their own:
//! 5 in `rooms`, 6 in `conflicts`, 9 in `unsound`, and 10, 11 and 12 in `opening`.

mod common;

use common::{altered, begun, empty, image, layout, number_at, opened, refused, set_number, CLOCK, COUNTER};
use ngalovuki::{Error, Handle, Settings, Store};
use std::ops::Bound::Unbounded;

/// Every call that names a transaction and may be refused for its state, with good further arguments.
fn refused_everywhere(store: &mut Store, handle: Handle, error: Error) {
    refused(store, error, |s| s.get(handle, b"oak"));
    refused(store, error, |s| s.first(handle, Unbounded, Unbounded));
    refused(store, error, |s| s.put(handle, b"oak", b"x"));
    refused(store, error, |s| s.delete(handle, b"oak"));
    refused(store, error, |s| s.commit(handle));
}

// ---- 1 and 2

#[test]
fn an_empty_key_gives_1() {
    let mut store = empty();
    let handle = begun(&mut store);
    refused(&mut store, Error::EmptyKey, |s| s.get(handle, b""));
    refused(&mut store, Error::EmptyKey, |s| s.put(handle, b"", b"x"));
    refused(&mut store, Error::EmptyKey, |s| s.delete(handle, b""));
}

#[test]
fn a_key_or_value_too_long_gives_2() {
    let long = vec![b'k'; 65_536];
    let mut store = empty();
    let handle = begun(&mut store);
    refused(&mut store, Error::TooLong, |s| s.get(handle, &long));
    refused(&mut store, Error::TooLong, |s| s.put(handle, &long, b"x"));
    refused(&mut store, Error::TooLong, |s| s.put(handle, b"oak", &long));
    refused(&mut store, Error::TooLong, |s| s.put(handle, &long, &long));
    refused(&mut store, Error::TooLong, |s| s.delete(handle, &long));
}

// ---- 3 and 4

#[test]
fn an_unknown_handle_gives_3() {
    let mut store = empty();
    let ended = begun(&mut store);
    assert_eq!(store.end(ended), Ok(()));
    let open = begun(&mut store);
    for handle in [Handle(0), ended, Handle(open.0 + 1), Handle(u64::MAX)] {
        refused_everywhere(&mut store, handle, Error::NoHandle);
        refused(&mut store, Error::NoHandle, |s| s.end(handle));
    }
    assert_eq!(store.get(open, b"oak"), Ok(None));
}

#[test]
fn handles_are_not_used_again() {
    let mut store = empty();
    for number in 1..20 {
        let begun = store.begin().expect("a free place");
        assert_eq!(begun.handle, Handle(number));
        assert_eq!(store.end(begun.handle), Ok(()));
    }
}

#[test]
fn an_accepted_commit_closes_with_4() {
    let mut store = empty();
    let writer = begun(&mut store);
    let reader = begun(&mut store);
    assert_eq!(store.put(writer, b"oak", b"x"), Ok(()));
    assert_eq!(store.commit(writer), Ok(Some(1)));
    assert_eq!(store.commit(reader), Ok(None));
    for handle in [writer, reader] {
        refused_everywhere(&mut store, handle, Error::Closed);
        assert_eq!(store.end(handle), Ok(()));
        refused_everywhere(&mut store, handle, Error::NoHandle);
    }
}

#[test]
fn a_conflict_closes_with_4() {
    let mut store = empty();
    let (first, second) = (begun(&mut store), begun(&mut store));
    assert_eq!(store.get(second, b"oak"), Ok(None));
    assert_eq!(store.put(first, b"oak", b"x"), Ok(()));
    assert_eq!(store.put(second, b"fir", b"y"), Ok(()));
    assert_eq!(store.commit(first), Ok(Some(1)));
    assert_eq!(store.commit(second), Err(Error::Conflict));
    refused_everywhere(&mut store, second, Error::Closed);
    assert_eq!(store.end(second), Ok(()));
}

// ---- 7

/// A store with one transaction that has a write, and the clock at its end.
fn at_the_last_number() -> (Store, Handle) {
    let mut store = empty();
    let handle = begun(&mut store);
    assert_eq!(store.put(handle, b"oak", b"x"), Ok(()));
    let store = altered(&store, |bytes| set_number(bytes, CLOCK, u64::MAX));
    assert!(store.sound());
    (store, handle)
}

#[test]
fn a_commit_with_writes_at_the_last_number_gives_7() {
    let (mut store, handle) = at_the_last_number();
    refused(&mut store, Error::CounterFull, |s| s.commit(handle));
    // The transaction stays open, and may try again.
    refused(&mut store, Error::CounterFull, |s| s.commit(handle));
    assert_eq!(store.get(handle, b"oak"), Ok(Some(b"x".to_vec())));
    assert_eq!(store.end(handle), Ok(()));
}

#[test]
fn a_commit_without_writes_at_the_last_number_is_accepted() {
    let (mut store, writer) = at_the_last_number();
    let reader = store.begin().expect("a free place");
    assert_eq!(reader.read, u64::MAX);
    assert_eq!(store.get(reader.handle, b"oak"), Ok(None));
    assert_eq!(store.commit(reader.handle), Ok(None));
    refused(&mut store, Error::CounterFull, |s| s.commit(writer));
}

#[test]
fn an_opening_run_can_bring_the_last_number() {
    let run = image(&[(b"oak", u64::MAX, b"x")]);
    let mut store = opened(Settings::small(), &[&run]);
    let begun = store.begin().expect("a free place");
    assert_eq!(begun.read, u64::MAX);
    assert_eq!(store.get(begun.handle, b"oak"), Ok(Some(b"x".to_vec())));
    assert_eq!(store.put(begun.handle, b"oak", b"y"), Ok(()));
    refused(&mut store, Error::CounterFull, |s| s.commit(begun.handle));
}

#[test]
fn the_number_before_the_last_is_given_out() {
    let run = image(&[(b"oak", u64::MAX - 1, b"x")]);
    let mut store = opened(Settings::small(), &[&run]);
    let writer = begun(&mut store);
    assert_eq!(store.put(writer, b"oak", b"y"), Ok(()));
    assert_eq!(store.commit(writer), Ok(Some(u64::MAX)));
    assert_eq!(number_at(store.bytes(), CLOCK), u64::MAX);
    let reader = begun(&mut store);
    assert_eq!(store.get(reader, b"oak"), Ok(Some(b"y".to_vec())));
}

#[test]
fn a_begin_at_the_last_handle_gives_7() {
    let mut store = altered(&empty(), |bytes| set_number(bytes, COUNTER, u64::MAX - 1));
    let last = store.begin().expect("one handle more");
    assert_eq!(last.handle, Handle(u64::MAX));
    refused(&mut store, Error::CounterFull, |s| s.begin());
    assert_eq!(store.end(last.handle), Ok(()));
    refused(&mut store, Error::CounterFull, |s| s.begin());
    assert_eq!(number_at(store.bytes(), COUNTER), u64::MAX);
}

// ---- the order of the checks

#[test]
fn the_handle_is_judged_before_the_key() {
    let long = vec![b'k'; 65_536];
    let mut store = empty();
    let closed = begun(&mut store);
    assert_eq!(store.commit(closed), Ok(None));
    for (handle, error) in [(Handle(9), Error::NoHandle), (closed, Error::Closed)] {
        refused(&mut store, error, |s| s.get(handle, b""));
        refused(&mut store, error, |s| s.put(handle, b"", &long));
        refused(&mut store, error, |s| s.delete(handle, &long));
    }
}

#[test]
fn an_empty_key_comes_before_a_long_value() {
    let long = vec![b'k'; 65_536];
    let mut store = empty();
    let handle = begun(&mut store);
    refused(&mut store, Error::EmptyKey, |s| s.put(handle, b"", &long));
}

#[test]
fn lengths_come_before_room() {
    // The longest pair has no room in this overlay, and a longer one is too long all the same.
    let mut store = empty();
    let handle = begun(&mut store);
    refused(&mut store, Error::NoRoom, |s| s.put(handle, b"oak", &[b'v'; 65_535]));
    refused(&mut store, Error::TooLong, |s| s.put(handle, b"oak", &[b'v'; 65_536]));
}

#[test]
fn a_begin_without_a_place_comes_before_the_counter() {
    let settings = Settings { transactions: 1, ..Settings::small() };
    let mut store = opened(settings, &[]);
    begun(&mut store);
    let mut full = altered(&store, |bytes| set_number(bytes, COUNTER, u64::MAX));
    assert!(full.sound());
    refused(&mut full, Error::NoRoom, |s| s.begin());
}

#[test]
fn a_conflict_comes_before_the_clock_and_the_clock_before_room() {
    // Two transactions whose writes are too large for the active run; the first has read what a commit then wrote.
    let settings = Settings { active: 64, ..Settings::small() };
    let mut store = opened(settings, &[]);
    let (reader, writer, other) = (begun(&mut store), begun(&mut store), begun(&mut store));
    assert_eq!(store.get(reader, b"oak"), Ok(None));
    for handle in [reader, writer] {
        assert_eq!(store.put(handle, b"fir", &[b'v'; 64]), Ok(()));
    }
    assert_eq!(store.put(other, b"oak", b"x"), Ok(()));
    assert_eq!(store.commit(other), Ok(Some(1)));

    refused(&mut store, Error::NoRoom, |s| s.commit(writer));
    let mut last = altered(&store, |bytes| set_number(bytes, CLOCK, u64::MAX));
    assert!(last.sound());
    refused(&mut last, Error::CounterFull, |s| s.commit(writer));
    assert_eq!(last.commit(reader), Err(Error::Conflict));
}

#[test]
fn an_unsound_state_comes_before_everything() {
    let mut store = empty();
    let handle = begun(&mut store);
    // The mark of a place is 1 or 0, and nothing else.
    let mark = layout(Settings::small()).places + 16;
    let mut store = altered(&store, |bytes| set_number(bytes, mark, 2));
    for handle in [handle, Handle(0)] {
        refused(&mut store, Error::Unsound, |s| s.get(handle, b""));
        refused(&mut store, Error::Unsound, |s| s.put(handle, b"", &[0; 65_536]));
        refused(&mut store, Error::Unsound, |s| s.delete(handle, b""));
        refused(&mut store, Error::Unsound, |s| s.first(handle, Unbounded, Unbounded));
        refused(&mut store, Error::Unsound, |s| s.commit(handle));
        refused(&mut store, Error::Unsound, |s| s.end(handle));
    }
    refused(&mut store, Error::Unsound, |s| s.begin());
    refused(&mut store, Error::Unsound, |s| s.freeze());
}
