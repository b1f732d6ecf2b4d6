//! The number 9: states with a damaged byte, and with each state rule broken.

mod common;

use common::{altered, begun, image, layout, number_at, opened, refused, set_number, Layout, CLOCK, COUNTER, ROWS};
use ngalovuki::{Error, Handle, Settings, Store};
use std::ops::Bound::Unbounded;

/// Settings with little room, so that every byte of a state can be tried.
const TIGHT: Settings = Settings {
    serializable: true,
    transactions: 3,
    overlay: 64,
    reads: 2,
    writes: 2,
    entries: 2,
    hashes: 3,
    active: 64,
    area: 100,
};

/// A store with something in every part: two frozen runs, an active one, two commits in the history, an open
/// transaction that has read and written, a closed one, and a place that was used before.
fn in_use() -> Store {
    let run = image(&[(b"fir", 2, b"a"), (b"oak", 1, b"b")]);
    let mut store = opened(TIGHT, &[&run]);
    let (first, open, closed) = (begun(&mut store), begun(&mut store), begun(&mut store));
    assert_eq!(store.put(first, b"elm", b"c"), Ok(()));
    assert_eq!(store.commit(first), Ok(Some(3)));
    assert_eq!(store.freeze(), Ok(()));
    assert_eq!(store.put(closed, b"elm", b"d"), Ok(()));
    assert_eq!(store.put(closed, b"oak", b"e"), Ok(()));
    assert_eq!(store.commit(closed), Ok(Some(4)));
    assert_eq!(store.end(first), Ok(()));
    assert!(store.get(open, b"oak").is_ok());
    assert!(store.get(open, b"yew").is_ok());
    assert_eq!(store.put(open, b"asp", b"f"), Ok(()));
    assert_eq!(store.delete(open, b"oak"), Ok(()));
    assert!(store.sound());
    store
}

/// The layout of that store.
fn parts() -> Layout {
    layout(TIGHT)
}

/// Every call but an opening gives 9 and changes nothing, neither the state nor the out buffers.
fn gives_9_everywhere(store: &mut Store) {
    assert!(!store.sound());
    refused(store, Error::Unsound, |s| s.begin());
    refused(store, Error::Unsound, |s| s.freeze());
    let (mut key, mut value) = ([7; 9], [7; 9]);
    for handle in [Handle(1), Handle(2), Handle(3)] {
        refused(store, Error::Unsound, |s| s.get_into(handle, b"oak", &mut value));
        refused(store, Error::Unsound, |s| s.scan_into(handle, Unbounded, Unbounded, &mut key, &mut value));
        refused(store, Error::Unsound, |s| s.put(handle, b"oak", b"x"));
        refused(store, Error::Unsound, |s| s.delete(handle, b"oak"));
        refused(store, Error::Unsound, |s| s.commit(handle));
        refused(store, Error::Unsound, |s| s.end(handle));
    }
    assert_eq!((key, value), ([7; 9], [7; 9]));
}

/// A change of the state in use breaks a rule.
#[track_caller]
fn breaks(change: impl FnOnce(&mut Vec<u8>)) {
    let mut store = altered(&in_use(), change);
    gives_9_everywhere(&mut store);
}

/// A change of the state in use breaks none.
#[track_caller]
fn keeps(change: impl FnOnce(&mut Vec<u8>)) {
    assert!(altered(&in_use(), change).sound());
}

#[test]
fn one_damaged_byte() {
    breaks(|bytes| bytes[ROWS + 23] ^= 1);
}

#[test]
fn a_buffer_that_is_no_store() {
    for length in [0, 1, 8, 71, 72, 88, 1_000, 100_000] {
        for filling in [0, 1, 255] {
            gives_9_everywhere(&mut Store::from_bytes(vec![filling; length]));
        }
    }
}

#[test]
fn a_buffer_cut_short() {
    let whole = in_use();
    for length in 0..whole.bytes().len() {
        let mut store = altered(&whole, |bytes| bytes.truncate(length));
        refused(&mut store, Error::Unsound, |s| s.begin());
    }
    keeps(|bytes| bytes.push(9));
}

#[test]
fn each_byte_changed() {
    let whole = in_use();
    let mut broken = 0;
    for at in 0..whole.bytes().len() {
        for change in [1, 2, 128, 255] {
            let mut store = altered(&whole, |bytes| bytes[at] ^= change);
            let before = store.bytes().to_vec();
            // 9 comes exactly from the states that are not sound, and leaves them.
            if store.sound() {
                assert_ne!(store.freeze(), Err(Error::Unsound));
            } else {
                broken += 1;
                assert_eq!(store.freeze(), Err(Error::Unsound));
                assert_eq!(store.commit(Handle(2)), Err(Error::Unsound));
                assert!(store.bytes() == before);
            }
        }
    }
    assert!(broken > 1_000, "{broken}");
}

#[test]
fn settings_out_of_range() {
    breaks(|bytes| set_number(bytes, 0, 2));
    for (i, wrong) in [65, 63, 65_537, 4_097, 4_097, 65_537, 63, 8].into_iter().enumerate() {
        breaks(|bytes| set_number(bytes, 8 * (i + 1), wrong));
        breaks(|bytes| set_number(bytes, 8 * (i + 1), 0));
        breaks(|bytes| set_number(bytes, 8 * (i + 1), u64::MAX));
    }
    // A larger store than the buffer holds.
    breaks(|bytes| set_number(bytes, 8, 4));
}

#[test]
fn numbers_above_the_clock() {
    // The closed transaction committed at 4, and there is a version of that number in the active run.
    keeps(|bytes| set_number(bytes, CLOCK, 5));
    keeps(|bytes| set_number(bytes, CLOCK, u64::MAX));
    breaks(|bytes| set_number(bytes, CLOCK, 3));
    breaks(|bytes| set_number(bytes, CLOCK, 0));
    // The last commit of the history, behind the first with its one hash.
    let last = parts().history + 8 + 20;
    assert_eq!(number_at(in_use().bytes(), last), 4);
    breaks(|bytes| set_number(bytes, last, 5));
    // A transaction's read number, and the row that goes with it.
    let second = parts().places + parts().stride;
    breaks(|bytes| {
        set_number(bytes, second + 8, 5);
        set_number(bytes, ROWS + 16, 1);
        bytes.copy_within(ROWS + 8..ROWS + 24, ROWS + 24);
        set_number(bytes, ROWS + 24, 5);
        set_number(bytes, ROWS, 32);
    });
    // With 4 in place of 5 the same is a sound state.
    keeps(|bytes| {
        set_number(bytes, second + 8, 4);
        set_number(bytes, ROWS + 16, 1);
        bytes.copy_within(ROWS + 8..ROWS + 24, ROWS + 24);
        set_number(bytes, ROWS + 24, 4);
        set_number(bytes, ROWS, 32);
    });
}

#[test]
fn handles() {
    let Layout { places, stride, .. } = parts();
    let (open, closed) = (places + stride, places + 2 * stride);
    assert_eq!((number_at(in_use().bytes(), open), number_at(in_use().bytes(), closed)), (2, 3));
    keeps(|bytes| set_number(bytes, COUNTER, u64::MAX));
    keeps(|bytes| set_number(bytes, open, 1));
    // Above the counter, twice the same, and a place free that the reader rows count.
    breaks(|bytes| set_number(bytes, COUNTER, 2));
    breaks(|bytes| set_number(bytes, open, 4));
    breaks(|bytes| set_number(bytes, open, 3));
    breaks(|bytes| set_number(bytes, open, 0));
}

#[test]
fn reader_rows() {
    // One row: two readers at 2.
    assert_eq!([0, 8, 16].map(|at| number_at(in_use().bytes(), ROWS + at)), [16, 2, 2]);
    breaks(|bytes| set_number(bytes, ROWS, 0));
    breaks(|bytes| set_number(bytes, ROWS, 15));
    breaks(|bytes| set_number(bytes, ROWS, 32));
    breaks(|bytes| set_number(bytes, ROWS, u64::MAX));
    breaks(|bytes| set_number(bytes, ROWS + 8, 1));
    for count in [0, 1, 3, u64::MAX] {
        breaks(|bytes| set_number(bytes, ROWS + 16, count));
    }
}

#[test]
fn history() {
    let history = parts().history;
    // Two entries, of one hash and of two.
    assert_eq!([0, 8, 16].map(|at| number_at(in_use().bytes(), history + at)), [44, 3, 4]);
    keeps(|bytes| set_number(bytes, history + 8, 1));
    keeps(|bytes| set_number(bytes, history, 0));
    breaks(|bytes| set_number(bytes, history + 8, 4));
    breaks(|bytes| set_number(bytes, history, 43));
    breaks(|bytes| set_number(bytes, history, 45));
    breaks(|bytes| set_number(bytes, history + 16, 8));
    breaks(|bytes| set_number(bytes, history + 16, u64::MAX));
    // The two hashes of the second entry rise.
    breaks(|bytes| bytes.copy_within(history + 44..history + 48, history + 48));
}

#[test]
fn runs() {
    let Layout { active, area, .. } = parts();
    // The active run: `elm` and `oak` at 4, of 16 bytes each.
    assert_eq!(number_at(in_use().bytes(), active), 32);
    breaks(|bytes| set_number(bytes, active, 31));
    breaks(|bytes| set_number(bytes, active, 33));
    breaks(|bytes| bytes[active + 8 + 2] = b'z');
    breaks(|bytes| set_number(bytes, active + 8 + 5, 5));
    // A key that is empty, with everything behind it in its place.
    breaks(|bytes| {
        bytes.copy_within(active + 8 + 5..active + 8 + 32, active + 8 + 2);
        bytes[active + 8 + 1] = 0;
        set_number(bytes, active, 29);
    });
    // Not newer than the frozen versions, the newest of which is at 3.
    breaks(|bytes| set_number(bytes, active + 8 + 5, 3));
    keeps(|bytes| set_number(bytes, active, 0));
    // The images: each has its length, its mark, its version and its count.
    for at in [area + 7, area + 8 + 7, area + 16, area + 17, area + 18, area + 20, area + 24] {
        breaks(|bytes| bytes[at] ^= 1);
    }
}

#[test]
fn transactions() {
    let Layout { places, stride, reads, writes, .. } = parts();
    let (open, closed) = (places + stride, places + 2 * stride);
    // The mark is 1 or 0. An open transaction may be marked closed; this closed one may be marked open.
    breaks(|bytes| set_number(bytes, open + 16, 2));
    keeps(|bytes| set_number(bytes, open + 16, 0));
    keeps(|bytes| set_number(bytes, closed + 16, 1));
    // The overlay: `asp` with 8 bytes, then `oak` deleted with 7.
    assert_eq!(number_at(in_use().bytes(), open + 24), 15);
    breaks(|bytes| set_number(bytes, open + 24, 14));
    breaks(|bytes| set_number(bytes, open + 24, 65));
    breaks(|bytes| bytes[open + 32 + 2] = b'p');
    // Each set has two hashes, strictly rising.
    assert_eq!(number_at(in_use().bytes(), open + reads), 8);
    assert_eq!(number_at(in_use().bytes(), open + writes), 8);
    for set in [reads, writes] {
        breaks(|bytes| bytes.copy_within(open + set + 8..open + set + 12, open + set + 12));
        breaks(|bytes| set_number(bytes, open + set, 12));
        breaks(|bytes| set_number(bytes, open + set, 7));
    }
    // The write set holds exactly the hashes of the overlay's keys where the transaction is open; the read set is free.
    keeps(|bytes| set_number(bytes, open + reads, 4));
    breaks(|bytes| set_number(bytes, open + writes, 4));
    breaks(|bytes| set_number(bytes, open + writes, 0));
    breaks(|bytes| bytes[open + writes + 11] ^= 1);
    keeps(|bytes| set_number(bytes, closed + writes, 0));
    // A free place is not looked at behind its handle.
    keeps(|bytes| bytes[places + 8..places + stride].fill(255));
}

#[test]
fn the_other_mode_keeps_no_sets_and_no_history() {
    breaks(|bytes| set_number(bytes, 0, 0));
    let Layout { history, places, stride, reads, writes, .. } = parts();
    let emptied = |bytes: &mut Vec<u8>| {
        set_number(bytes, 0, 0);
        set_number(bytes, history, 0);
        for place in [places + stride, places + 2 * stride] {
            set_number(bytes, place + reads, 0);
            set_number(bytes, place + writes, 0);
        }
    };
    keeps(emptied);
    for (at, number) in [(history, 20), (places + stride + reads, 4), (places + 2 * stride + writes, 4)] {
        breaks(|bytes| {
            emptied(bytes);
            set_number(bytes, at, number);
        });
    }
}

#[test]
fn an_opening_repairs_what_it_opens_over() {
    let mut store = altered(&in_use(), |bytes| bytes.fill(255));
    gives_9_everywhere(&mut store);
    assert_eq!(store.open_anew(TIGHT, &[]), Ok(()));
    assert!(store.sound());
    assert_eq!(begun(&mut store), Handle(1));
}
