//! Weeks booked by several desks at once.

mod common;

use common::{begun, empty, owned, pairs, written};
use ngalovuki::{Error, Store};
use std::ops::Bound::{Excluded, Included};

const WEEK: &[u8] = b"linguist 7, week 47";

#[test]
fn two_desks_book_one_week_and_one_is_refused() {
    let mut store = empty();
    let north = begun(&mut store);
    let south = begun(&mut store);

    assert_eq!(store.get(north, WEEK), Ok(None));
    assert_eq!(store.get(south, WEEK), Ok(None));
    assert_eq!(store.put(north, WEEK, b"job 12"), Ok(()));
    assert_eq!(store.put(south, WEEK, b"job 30"), Ok(()));

    // Nobody sees a booking of another desk before it is committed.
    assert_eq!(store.get(north, WEEK), Ok(Some(b"job 12".to_vec())));
    assert_eq!(store.get(south, WEEK), Ok(Some(b"job 30".to_vec())));

    assert_eq!(store.commit(south), Ok(Some(1)));
    assert_eq!(store.commit(north), Err(Error::Conflict));
    assert_eq!(Error::Conflict.number(), 6);

    // The refused desk is closed, and its booking is nowhere.
    assert_eq!(store.put(north, WEEK, b"job 12"), Err(Error::Closed));
    assert_eq!(store.end(north), Ok(()));
    assert_eq!(store.end(south), Ok(()));
    let later = begun(&mut store);
    assert_eq!(store.get(later, WEEK), Ok(Some(b"job 30".to_vec())));
}

#[test]
fn desks_that_book_other_weeks_do_not_meet() {
    let mut store = empty();
    let north = begun(&mut store);
    let south = begun(&mut store);
    assert_eq!(store.get(north, b"week 1"), Ok(None));
    assert_eq!(store.get(south, b"week 2"), Ok(None));
    assert_eq!(store.put(north, b"week 1", b"job 1"), Ok(()));
    assert_eq!(store.put(south, b"week 2", b"job 2"), Ok(()));
    assert_eq!(store.commit(north), Ok(Some(1)));
    assert_eq!(store.commit(south), Ok(Some(2)));
}

/// Moves a booking to another week in one transaction, if the first is booked and the second free.
fn moved(store: &mut Store, from: &[u8], to: &[u8]) -> Result<bool, Error> {
    let desk = store.begin()?.handle;
    let job = store.get(desk, from)?;
    let taken = store.get(desk, to)?.is_some();
    let done = match job {
        Some(job) if !taken => {
            store.delete(desk, from)?;
            store.put(desk, to, &job)?;
            store.commit(desk)?.is_some()
        }
        _ => false,
    };
    store.end(desk)?;
    Ok(done)
}

#[test]
fn a_booking_moves_whole_or_not_at_all() {
    let mut store = empty();
    written(&mut store, &[(b"week 1", b"job 1"), (b"week 3", b"job 3")]);
    let before = begun(&mut store);

    assert_eq!(moved(&mut store, b"week 1", b"week 2"), Ok(true));
    assert_eq!(moved(&mut store, b"week 2", b"week 3"), Ok(false));
    assert_eq!(moved(&mut store, b"week 9", b"week 1"), Ok(false));

    // A reader from before the move sees the weeks as they were, and a later one as they are.
    let low = Included(b"week 1".as_slice());
    let high = Excluded(b"week 9".as_slice());
    assert_eq!(pairs(&mut store, before, low, high), owned(&[("week 1", "job 1"), ("week 3", "job 3")]));
    let after = begun(&mut store);
    assert_eq!(pairs(&mut store, after, low, high), owned(&[("week 2", "job 1"), ("week 3", "job 3")]));
}
