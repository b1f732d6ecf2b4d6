//! Openings: settings, run images, what is opened, and opening anew over a store in use.

mod common;

use common::{begun, image, layout, number_at, opened, owned, pairs, refused, written, CLOCK, COUNTER, ROWS};
use ngalovuki::{ffi, Error, Handle, Settings, Store};
use std::ops::Bound::Unbounded;

const SMALL: Settings = Settings::small();

/// The smallest and the largest number of each setting, behind the mode.
const RANGES: [(u64, u64); 8] =
    [(1, 64), (64, 1_048_576), (1, 65_536), (1, 4_096), (1, 4_096), (1, 65_536), (64, 1_048_576), (9, 16_777_216)];

/// The number that an opening in a buffer of the small store's length returns. Refusals must leave the buffer.
fn number_of(settings: [u64; 9], images: &[u8], lengths: &[u64]) -> u64 {
    let mut state = vec![7; 54_776];
    let number = ffi::open(&mut state, settings, images, lengths, &mut [0; 3]);
    if number != 0 {
        assert!(state.iter().all(|byte| *byte == 7), "a refused opening wrote");
    }
    number
}

/// The refusal of an opening over these images.
fn refusal(images: &[&[u8]]) -> Option<Error> {
    Store::open(SMALL, images).err()
}

/// A good image with two keys and three versions.
fn good() -> Vec<u8> {
    image(&[(b"fir", 5, b""), (b"oak", 7, b"x"), (b"oak", 3, b"yz")])
}

// ---- settings

#[test]
fn a_setting_outside_its_range_gives_12() {
    for (i, (least, most)) in RANGES.iter().enumerate() {
        for wrong in [0, least - 1, most + 1, u64::MAX] {
            let mut numbers = SMALL.numbers();
            numbers[i + 1] = wrong;
            assert_eq!(number_of(numbers, &[], &[]), 12, "setting {i} at {wrong}");
            assert_eq!(ffi::state_length(numbers), 0);
        }
        for right in [least, most] {
            let mut numbers = SMALL.numbers();
            numbers[i + 1] = *right;
            assert_ne!(number_of(numbers, &[], &[]), 12, "setting {i} at {right}");
            assert_ne!(ffi::state_length(numbers), 0);
        }
    }
    let wrong = Settings { overlay: 63, ..SMALL };
    assert_eq!(wrong.state_length(), None);
    assert_eq!(Store::open(wrong, &[]).err(), Some(Error::BadSetting));
}

#[test]
fn a_mode_other_than_0_and_1_gives_12() {
    for mode in [2, 3, u64::MAX] {
        let mut numbers = SMALL.numbers();
        numbers[0] = mode;
        assert_eq!(number_of(numbers, &[], &[]), 12);
        assert_eq!(ffi::state_length(numbers), 0);
    }
}

#[test]
fn the_length_of_a_state_is_that_of_its_layout() {
    for low in 0..256u32 {
        // Each setting at one end of its range or the other.
        let mut numbers = [u64::from(low % 2); 9];
        for (i, (least, most)) in RANGES.iter().enumerate() {
            numbers[i + 1] = if low >> i & 1 == 0 { *least } else { *most };
        }
        let [_, transactions, overlay, reads, writes, entries, hashes, active, area] = numbers;
        let serializable = numbers[0] == 1;
        let settings = Settings { serializable, transactions, overlay, reads, writes, entries, hashes, active, area };
        assert_eq!(settings.state_length(), Some(layout(settings).end));
        // Document 01's bound: 65,536 bytes plus twice the room that the settings grant.
        let own = transactions * (256 + overlay + 4 * (reads + writes));
        let granted = own + 64 * entries + 4 * hashes + active + area;
        assert!(layout(settings).end as u64 <= 65_536 + 2 * granted);
    }
}

#[test]
fn stores_of_the_smallest_and_the_largest_settings_work() {
    for ends in [RANGES.map(|(least, _)| least), RANGES.map(|(_, most)| most)] {
        let [transactions, overlay, reads, writes, entries, hashes, active, area] = ends;
        let settings =
            Settings { serializable: true, transactions, overlay, reads, writes, entries, hashes, active, area };
        let mut store = opened(settings, &[]);
        assert_eq!(written(&mut store, &[(b"oak", b"x")]), 1);
        let reader = begun(&mut store);
        assert_eq!(store.get(reader, b"oak"), Ok(Some(b"x".to_vec())));
    }
}

// ---- images

#[test]
fn a_cut_image_gives_10_at_every_length() {
    let good = good();
    assert_eq!(refusal(&[&good]), None);
    for length in 0..good.len() {
        assert_eq!(refusal(&[&good[..length]]), Some(Error::BadRun { place: 1 }), "cut at {length}");
    }
}

#[test]
fn an_overlong_image_gives_10() {
    for more in [&b"\0"[..], b"x", b"RUN", &good()] {
        assert_eq!(refusal(&[&[&good()[..], more].concat()]), Some(Error::BadRun { place: 1 }));
    }
    // The count of records decides where the image ends.
    for count in [0, 1, 2, 4, 255] {
        let mut other = good();
        other[8] = count;
        assert_eq!(refusal(&[&other]), Some(Error::BadRun { place: 1 }), "count {count}");
    }
    let mut most = good();
    most[5..9].copy_from_slice(&[255; 4]);
    assert_eq!(refusal(&[&most]), Some(Error::BadRun { place: 1 }));
}

#[test]
fn an_unsorted_image_gives_10() {
    for versions in [
        [(&b"oak"[..], 1, &b"x"[..]), (b"fir", 1, b"x")],
        // A prefix comes first.
        [(b"oak", 1, b"x"), (b"oa", 1, b"x")],
        // Of one key, the larger timestamp comes first, and none comes twice.
        [(b"oak", 1, b"x"), (b"oak", 2, b"x")],
        [(b"oak", 1, b"x"), (b"oak", 1, b"x")],
        [(b"oak", 1, b"x"), (b"oak", 1, b"y")],
        // Bytes are compared as numbers from 0 to 255.
        [(b"\xff", 1, b"x"), (b"\x7f", 1, b"x")],
    ] {
        assert_eq!(refusal(&[&image(&versions)]), Some(Error::BadRun { place: 1 }), "{versions:?}");
    }
    assert_eq!(refusal(&[&image(&[(b"oa", 1, b"x"), (b"oak", 2, b"x"), (b"oak", 1, b"x")])]), None);
}

#[test]
fn an_empty_key_in_an_image_gives_10() {
    assert_eq!(refusal(&[&image(&[(b"", 1, b"x")])]), Some(Error::BadRun { place: 1 }));
    assert_eq!(refusal(&[&image(&[(b"", 1, b"x"), (b"oak", 1, b"x")])]), Some(Error::BadRun { place: 1 }));
}

#[test]
fn a_wrong_mark_gives_10_whatever_the_version() {
    for i in 0..3 {
        for version in [1, 2] {
            let mut other = good();
            other[i] ^= 0x20;
            other[4] = version;
            assert_eq!(refusal(&[&other]), Some(Error::BadRun { place: 1 }));
        }
    }
}

#[test]
fn another_version_gives_11_and_the_rest_is_not_read() {
    for version in [0u16, 2, 256, 257, 65_535] {
        let mut other = good();
        other[3..5].copy_from_slice(&version.to_be_bytes());
        for rest in [&other[..], &other[..5], &other[..7], &[&other[..], b"more"].concat()] {
            assert_eq!(refusal(&[rest]), Some(Error::ForeignRun { place: 1 }), "version {version}");
        }
        // Inside of the version it is cut.
        assert_eq!(refusal(&[&other[..4]]), Some(Error::BadRun { place: 1 }));
    }
}

#[test]
fn the_first_bad_image_is_told_by_its_place() {
    let (good, cut, foreign) = (good(), &b"RUN"[..], &b"RUN\x00\x02"[..]);
    assert_eq!(refusal(&[&good, &good, cut]), Some(Error::BadRun { place: 3 }));
    assert_eq!(refusal(&[&good, foreign, cut]), Some(Error::ForeignRun { place: 2 }));
    assert_eq!(refusal(&[&good, cut, foreign]), Some(Error::BadRun { place: 2 }));
    assert_eq!(refusal(&[foreign]), Some(Error::ForeignRun { place: 1 }));
    assert_eq!(refusal(&[b"", &good]), Some(Error::BadRun { place: 1 }));
    // Places count past the sixteenth, since bad images are told before room.
    let mut many = vec![&good[..]; 40];
    many.push(cut);
    assert_eq!(refusal(&many), Some(Error::BadRun { place: 41 }));
}

#[test]
fn settings_are_judged_before_images_and_images_before_room() {
    let wrong = Settings { area: 8, ..SMALL };
    assert_eq!(Store::open(wrong, &[b"RUN\x00\x02"]).err(), Some(Error::BadSetting));
    let (error, _) = Store::open_in(Vec::new(), wrong, &[b"RUN"]).expect_err("a setting outside its range");
    assert_eq!(error, Error::BadSetting);
    let (error, _) = Store::open_in(Vec::new(), SMALL, &[b"RUN"]).expect_err("a bad image");
    assert_eq!(error, Error::BadRun { place: 1 });
    let (error, _) = Store::open_in(Vec::new(), SMALL, &[]).expect_err("no buffer");
    assert_eq!(error, Error::NoRoom);
}

#[test]
fn images_are_handed_over_one_after_the_other() {
    let good = good();
    let n = good.len() as u64;
    let twice = good.repeat(2);
    let numbers = SMALL.numbers();
    assert_eq!(number_of(numbers, &twice, &[n, n]), 0);
    // What follows the last image is not looked at.
    assert_eq!(number_of(numbers, &twice, &[n]), 0);
    assert_eq!(number_of(numbers, &[&good[..], b"garbage"].concat(), &[n]), 0);
    assert_eq!(number_of(numbers, &twice, &[]), 0);
    // An image that ends past the bytes is cut, even where those that are there would be a good one.
    for lengths in [&[n, n + 1][..], &[n, u64::MAX], &[2 * n + 1], &[u64::MAX], &[n, n, 1], &[n, n, 0]] {
        assert_eq!(number_of(numbers, &twice, lengths), 10, "{lengths:?}");
    }
    let mut reply = [0; 3];
    let mut state = vec![0; 54_776];
    assert_eq!(ffi::open(&mut state, numbers, &twice, &[n, n, u64::MAX], &mut reply), 10);
    assert_eq!(reply, [3, 0, 0]);
}

// ---- what is opened

#[test]
fn the_clock_is_the_largest_timestamp() {
    let runs = [image(&[(b"fir", 5, b""), (b"oak", 2, b"x")]), image(&[(b"elm", 9, b"y")]), image(&[])];
    let mut store = opened(SMALL, &[&runs[0], &runs[1], &runs[2]]);
    assert!(store.sound());
    assert_eq!(number_at(store.bytes(), CLOCK), 9);
    assert_eq!(number_at(store.bytes(), COUNTER), 0);
    let begun = store.begin().expect("a free place");
    assert_eq!((begun.handle, begun.read), (Handle(1), 9));
    assert_eq!(pairs(&mut store, begun.handle, Unbounded, Unbounded), owned(&[("elm", "y"), ("oak", "x")]));
    assert_eq!(written(&mut store, &[(b"fir", b"z")]), 10);

    assert_eq!(opened(SMALL, &[]).begin().map(|begun| begun.read), Ok(0));
    assert_eq!(opened(SMALL, &[&runs[2]]).begin().map(|begun| begun.read), Ok(0));
}

#[test]
fn the_images_lie_in_the_run_area_last_first() {
    let runs = [image(&[(b"fir", 5, b"a")]), image(&[(b"elm", 9, b"y"), (b"oak", 1, b"")])];
    let store = opened(SMALL, &[&runs[0], &runs[1]]);
    let mut expected = Vec::new();
    for run in [&runs[1], &runs[0]] {
        expected.extend((run.len() as u64).to_be_bytes());
        expected.extend(run);
    }
    let area = layout(SMALL).area;
    assert_eq!(number_at(store.bytes(), area), expected.len() as u64);
    assert_eq!(&store.bytes()[area + 8..area + 8 + expected.len()], expected);
}

#[test]
fn a_buffer_may_hold_anything_and_be_longer() {
    let run = good();
    let length = SMALL.state_length().expect("settings in range");
    for filling in [0, 7, 255] {
        let mut store = Store::open_in(vec![filling; length + 100], SMALL, &[&run]).expect("a good opening");
        assert!(store.sound());
        assert_eq!(store.bytes().len(), length + 100);
        let layout = layout(SMALL);
        // Room that is not in use keeps what it had: here the overlay of the first place, which is free.
        assert_eq!(number_at(store.bytes(), layout.places), 0);
        assert!(store.bytes()[layout.places + 8..layout.places + layout.stride].iter().all(|byte| *byte == filling));
        assert_eq!(number_at(store.bytes(), ROWS), 0);
        assert_eq!(number_at(store.bytes(), layout.history), 0);
        assert_eq!(number_at(store.bytes(), layout.active), 0);
        let other = begun(&mut store);
        assert_eq!(store.get(other, b"oak"), Ok(Some(b"x".to_vec())));
        assert_eq!(written(&mut store, &[(b"oak", b"z")]), 8);
        assert_eq!(store.freeze(), Ok(()));
        assert_eq!(store.end(other), Ok(()));
        assert!(store.bytes()[length..].iter().all(|byte| *byte == filling), "a call wrote behind the state");
    }
}

#[test]
fn the_bytes_are_the_whole_store() {
    let mut store = opened(SMALL, &[&good()]);
    let handle = begun(&mut store);
    assert_eq!(store.put(handle, b"yew", b"z"), Ok(()));
    // Another one goes on where this stops, and a copy goes its own way.
    let mut copy = store.clone();
    let mut next = Store::from_bytes(store.into_bytes());
    assert_eq!(next.get(handle, b"yew"), Ok(Some(b"z".to_vec())));
    assert_eq!(next.commit(handle), Ok(Some(8)));
    assert_eq!(copy.end(handle), Ok(()));
    assert_eq!(copy.begin().map(|begun| begun.read), Ok(7));
}

// ---- opening anew

#[test]
fn opening_anew_over_a_store_in_use() {
    let mut store = opened(SMALL, &[]);
    let before = begun(&mut store);
    written(&mut store, &[(b"oak", b"1")]);
    assert_eq!(store.put(before, b"fir", b"2"), Ok(()));

    assert_eq!(store.open_anew(SMALL, &[&good()]), Ok(()));
    assert!(store.sound());
    refused(&mut store, Error::NoHandle, |s| s.get(before, b"fir"));
    let begun = store.begin().expect("a free place");
    assert_eq!((begun.handle, begun.read), (Handle(1), 7));
    assert_eq!(pairs(&mut store, begun.handle, Unbounded, Unbounded), owned(&[("oak", "x")]));
    assert_eq!(store.put(begun.handle, b"fir", b"3"), Ok(()));
    assert_eq!(store.commit(begun.handle), Ok(Some(8)));
}

#[test]
fn opening_anew_with_other_settings() {
    let mut store = opened(SMALL, &[]);
    written(&mut store, &[(b"oak", b"1")]);
    let smaller = Settings { serializable: false, transactions: 1, ..SMALL };
    assert_eq!(store.open_anew(smaller, &[]), Ok(()));
    let only = begun(&mut store);
    refused(&mut store, Error::NoRoom, |s| s.begin());
    assert_eq!(store.get(only, b"oak"), Ok(None));
    // And back, over the smaller store.
    assert_eq!(store.open_anew(SMALL, &[]), Ok(()));
    assert_eq!(begun(&mut store), Handle(1));
    assert_eq!(begun(&mut store), Handle(2));
}

#[test]
fn a_refused_opening_anew_leaves_the_store_in_use() {
    let mut store = opened(SMALL, &[]);
    let handle = begun(&mut store);
    assert_eq!(store.put(handle, b"oak", b"1"), Ok(()));

    let run = good();
    refused(&mut store, Error::BadSetting, |s| s.open_anew(Settings { reads: 0, ..SMALL }, &[]));
    refused(&mut store, Error::BadRun { place: 2 }, |s| s.open_anew(SMALL, &[&run, &run[1..]]));
    refused(&mut store, Error::ForeignRun { place: 1 }, |s| s.open_anew(SMALL, &[b"RUN\x00\x02"]));
    refused(&mut store, Error::NoRoom, |s| s.open_anew(SMALL, &[&run[..]; 17]));
    refused(&mut store, Error::NoRoom, |s| s.open_anew(Settings { area: 30_000, ..SMALL }, &[]));

    assert_eq!(store.get(handle, b"oak"), Ok(Some(b"1".to_vec())));
    assert_eq!(store.commit(handle), Ok(Some(1)));
}
