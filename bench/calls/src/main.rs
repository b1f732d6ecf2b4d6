//! Times each call of our store and of the Rust that it was made from, one beside the other, and prints a line for each:
//! call, size, bytes of records, runs, host calls on our side, then median and quartiles in nanoseconds and how many
//! times were taken, for ours, for the state check alone on the same state, and for the Rust. `bench/run` makes the
//! tables of docs/SPEED.md and docs/speed.svg of them.

mod data;
mod ours;
mod rust;
mod watch;

use std::hint::black_box;

use data::{RECORD, Size, image, key, own_value};
use ngalovuki::ffi;
use oracle::timed::{Run, Timed};
use ours::{Ours, Saved};
use watch::{Times, Watch};

/// Records in all runs together: 1 KB, 64 KB, 1 MB and 16 MB, and a whole number of them in each of 16 runs.
const SIZES: [(&str, usize); 4] = [("1 KB", 16), ("64 KB", 992), ("1 MB", 15_616), ("16 MB", 250_000)];
const WRITES: usize = 100;
const PAIRS: usize = 100;

fn cells(t: Times) -> String {
    format!("{:.0}\t{:.0}\t{:.0}\t{}", t.median, t.low, t.high, t.count)
}

fn line(call: &str, size: Size, calls: usize, ours: [Times; 2], rust: Times) {
    let bytes = size.records * RECORD;
    println!(
        "call\t{call}\t{}\t{bytes}\t{}\t{calls}\t{}\t{}\t{}",
        size.name,
        size.runs,
        cells(ours[0]),
        cells(ours[1]),
        cells(rust)
    );
}

/// Times a call of ours, and the state check, each on a state just put back.
fn both(watch: &Watch, store: &mut Ours, saved: &Saved, mut call: impl FnMut(&mut Ours, usize)) -> [Times; 2] {
    watch.repeat(|i| {
        store.put_back(saved);
        let (call, ()) = watch.time(|| call(store, i));
        store.put_back(saved);
        let (check, sound) = watch.time(|| ffi::sound(&store.state));
        assert_eq!(sound, 1);
        [call, check]
    })
}

/// Both sides answer alike.
fn compared(size: Size, store: &mut Ours, handle: u64, timed: &Timed) {
    let txn = timed.begin();
    let mut out = [0; 64];
    for i in 0..20 {
        let key = key(size.place(i, 0));
        let given = store.get(handle, &key, &mut out).map(|n| &out[..n]);
        assert_eq!(given, txn.get(&key).unwrap().as_deref());
    }
    let from = key(size.place(0, PAIRS));
    let (mut a, mut b) = (Vec::new(), Vec::new());
    store.scan(handle, &from, PAIRS, |k, v| a.push((k.to_vec(), v.to_vec())));
    rust::scan(&txn, &from, PAIRS, |k, v| b.push((k.to_vec(), v.to_vec())));
    assert!(a == b && a.len() == PAIRS.min(size.records));
}

fn measured(watch: &Watch, size: Size) {
    let runs = size.runs();
    let images: Vec<Vec<u8>> = runs.iter().map(image).collect();
    let mut store = Ours::open(&images);
    let timed = Timed::new(&runs);
    let empty = Run::new();
    let mut out = [0; 64];

    // The states that ours is put back to.
    let opened = store.saved();
    let handle = store.begin();
    let begun = store.saved();
    compared(size, &mut store, handle, &timed);
    let mut written = Vec::new();
    for count in [1, WRITES] {
        store.put_back(&begun);
        for j in 0..count {
            store.put(handle, &size.own(j * WRITES / count), &own_value(j));
        }
        written.push(store.saved());
    }

    let a = both(watch, &mut store, &opened, |s, _| {
        s.begin();
    });
    let [b] = watch.repeat(|_| [watch.time(|| timed.begin()).0]);
    line("begin", size, 1, a, b);

    let a = both(watch, &mut store, &begun, |s, i| {
        black_box(s.get(handle, &key(size.place(i, 0)), &mut out));
    });
    let [b] = watch.repeat(|i| {
        let txn = timed.begin();
        let key = key(size.place(i, 0));
        [watch.time(|| txn.get(&key).unwrap()).0]
    });
    line("get", size, 1, a, b);

    for (name, most) in [("scan of 1 pair", 1), ("scan of 100 pairs", PAIRS)] {
        let mut calls = 0;
        let a = both(watch, &mut store, &begun, |s, i| {
            calls = s.scan(handle, &key(size.place(i, PAIRS)), most, |k, v| {
                black_box((k, v));
            });
        });
        let [b, c] = watch.repeat(|i| {
            let from = key(size.place(i, PAIRS));
            let txn = timed.begin();
            let (one, ()) = watch.time(|| {
                rust::scan(&txn, &from, most, |k, v| {
                    black_box((k, v));
                })
            });
            let txn = timed.begin();
            [one, watch.time(|| rust::scan_anew(&txn, &from, most)).0]
        });
        line(name, size, calls, a, b);
        if most > 1 {
            println!("anew\t{}\t{}\t{}", size.name, size.runs, cells(c));
        }
    }

    let a = both(watch, &mut store, &begun, |s, i| {
        s.put(handle, &key(size.place(i, 0)), &own_value(i));
    });
    let [b] = watch.repeat(|i| {
        let txn = timed.begin();
        let (key, value) = (key(size.place(i, 0)), own_value(i));
        [watch.time(|| txn.put(&key, &value)).0]
    });
    line("put", size, 1, a, b);

    for (name, count, saved) in [("commit of 1 write", 1, &written[0]), ("commit of 100 writes", WRITES, &written[1])] {
        let a = both(watch, &mut store, saved, |s, _| s.commit(handle));
        let [b] = watch.repeat(|_| {
            timed.reset(&empty);
            let txn = timed.begin();
            for j in 0..count {
                txn.put(&size.own(j * WRITES / count), &own_value(j));
            }
            [watch.time(|| txn.commit().unwrap()).0]
        });
        line(name, size, 1, a, b);
    }
    timed.reset(&empty);

    let a = both(watch, &mut store, &begun, |s, _| s.end(handle));
    let [b] = watch.repeat(|_| {
        let txn = timed.begin();
        [watch.time(|| drop(txn)).0]
    });
    line("end", size, 1, a, b);

    // A 17th run is refused, so that a freeze beside 16 runs has 15 of them before it.
    let kept = size.runs.min(15);
    let mut store = Ours::open(&images[..kept]);
    let timed = Timed::new(&runs[..kept]);
    let handle = store.begin();
    for j in 0..WRITES {
        store.put(handle, &size.own(j), &own_value(j));
    }
    store.commit(handle);
    store.end(handle);
    let committed = store.saved();
    let active: Run = (0..WRITES).map(|j| (size.own(j), 1_000, own_value(j))).collect();
    let a = both(watch, &mut store, &committed, |s, _| assert_eq!(ffi::freeze(&mut s.state), 0));
    let [b] = watch.repeat(|_| {
        timed.reset(&active);
        [watch.time(|| timed.freeze()).0]
    });
    line("freeze", size, 1, a, b);
}

/// The hash of a key: a get of an absent key in an empty store reads nothing but hashes the key, so that a long key and
/// a short one differ by the hash of the bytes between them.
fn hashed(watch: &Watch) {
    let mut store = Ours::open(&[]);
    let handle = store.begin();
    let begun = store.saved();
    let long = vec![b'k'; 65_535];
    let [a, b, c] = watch.repeat(|_| {
        store.put_back(&begun);
        let (short, _) = watch.time(|| store.get(handle, &long[..1], &mut []));
        store.put_back(&begun);
        let (whole, _) = watch.time(|| store.get(handle, &long, &mut []));
        [short, whole, watch.time(|| farmhash::hash32(black_box(&long))).0]
    });
    println!("fnv\t{}\t{}\t{}\t{}", long.len(), cells(a), cells(b), cells(c));
}

fn main() {
    let watch = Watch::new();
    hashed(&watch);
    for (name, records) in SIZES {
        for runs in [1, 16] {
            measured(&watch, Size { name, records, runs });
        }
    }
}
