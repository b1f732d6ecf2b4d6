//! Many random calls, compared with a plain model of document 01's rules: each answer, each byte of the out buffers,
//! and after each call every byte of the state.

mod common;
mod model;

use std::cmp::Reverse;
use std::collections::{BTreeMap, BTreeSet};
use std::fmt::Debug;
use std::ops::{Bound, Range};

use model::{Model, Run};
use ngalovuki::{Error, Handle, Settings, Store};

/// A generator of numbers that is the same on every machine (xorshift, 64 bits).
struct Random(u64);

impl Random {
    fn new(seed: u64) -> Random {
        Random(seed.wrapping_mul(0x9e37_79b9_7f4a_7c15) | 1)
    }

    /// A number below this one.
    fn below(&mut self, end: u64) -> u64 {
        self.0 ^= self.0 << 13;
        self.0 ^= self.0 >> 7;
        self.0 ^= self.0 << 17;
        (self.0 >> 11) % end
    }

    /// True once in so many times.
    fn once_in(&mut self, times: u64) -> bool {
        self.below(times) == 0
    }

    /// Up to so many bytes, of three letters.
    fn bytes(&mut self, most: u64) -> Vec<u8> {
        (0..self.below(most + 1)).map(|_| b"abc"[self.below(3) as usize]).collect()
    }

    /// A key, mostly a good one.
    fn key(&mut self) -> Vec<u8> {
        match self.below(300) {
            0 => vec![b'k'; 65_536],
            1..=3 => Vec::new(),
            _ => [self.bytes(1), vec![b"abc"[self.below(3) as usize]]].concat(),
        }
    }

    /// A value, sometimes a deletion and sometimes a long one.
    fn value(&mut self) -> Vec<u8> {
        match self.below(100) {
            0 => vec![b'v'; 65_536],
            1..=9 => self.bytes(40),
            _ => self.bytes(4),
        }
    }

    /// A bound; its key may be empty.
    fn bound(&mut self) -> Bound<Vec<u8>> {
        match self.below(3) {
            0 => Bound::Included(self.bytes(2)),
            1 => Bound::Excluded(self.bytes(2)),
            _ => Bound::Unbounded,
        }
    }

    /// Settings with little room, sometimes with one outside of its range.
    fn settings(&mut self) -> Settings {
        let mut settings = Settings {
            serializable: !self.once_in(4),
            transactions: 1 + self.below(5),
            overlay: 64 + self.below(30),
            reads: 1 + self.below(9),
            writes: 1 + self.below(4),
            entries: 1 + self.below(5),
            hashes: 1 + self.below(12),
            active: 64 + self.below(100),
            area: 9 + self.below(400),
        };
        match self.below(60) {
            0 => settings.transactions = 65,
            1 => settings.overlay = 63,
            2 => settings.reads = 0,
            3 => settings.writes = 4_097,
            4 => settings.area = 8,
            _ => (),
        }
        settings
    }

    /// A run with timestamps from a base on.
    fn run(&mut self, base: u64) -> Run {
        let versions = self.below(5);
        let version = |random: &mut Random| {
            let key = [random.bytes(1), b"b".to_vec()].concat();
            ((key, Reverse(base + random.below(6))), random.bytes(3))
        };
        (0..versions).map(|_| version(self)).collect()
    }

    /// Opening images, sometimes with one of them damaged, and sometimes more than 16.
    fn images(&mut self) -> Vec<Vec<u8>> {
        let base = if self.once_in(6) { u64::MAX - 8 } else { 0 };
        let count = if self.once_in(8) { 15 + self.below(3) } else { self.below(4) };
        let mut images: Vec<Vec<u8>> = (0..count).map(|_| model::image(&self.run(base))).collect();
        if count > 0 && self.once_in(3) {
            let i = self.below(count) as usize;
            self.damage(&mut images[i]);
        }
        images
    }

    /// Changes a byte, cuts the image, or adds a byte.
    fn damage(&mut self, image: &mut Vec<u8>) {
        let at = self.below(image.len() as u64) as usize;
        match self.below(4) {
            0 => image.truncate(at),
            1 => image.push(0),
            2 => image[at] ^= 1 << self.below(8),
            _ => image[at % 9] ^= 1,
        }
    }
}

/// The store and the model side by side.
struct Compared {
    random: Random,
    store: Store,
    model: Model,
    /// How often each call returned each number.
    numbers: BTreeMap<(&'static str, u64), u32>,
}

impl Compared {
    /// Both opened, in a buffer that held something else.
    fn new(seed: u64) -> Compared {
        let settings = Settings { serializable: !seed.is_multiple_of(4), ..Settings::small() };
        let state = vec![seed as u8; 60_000];
        let model = Model::open(settings, &[], state.len()).expect("a good opening");
        let store = Store::open_in(state, settings, &[]).expect("a good opening");
        Compared { random: Random::new(seed), store, model, numbers: BTreeMap::new() }
    }

    /// A handle, mostly of a transaction that is open, or else of one that is closed.
    fn handle(&mut self, open: bool) -> Handle {
        let wanted = open != self.random.once_in(10);
        let known = self.model.handles(wanted);
        if known.is_empty() || self.random.once_in(30) {
            return Handle(self.random.below(self.model.counter + 3));
        }
        Handle(known[self.random.below(known.len() as u64) as usize])
    }

    /// Compares what both answered to a call, and counts its number.
    fn same<T: PartialEq + Debug>(&mut self, call: &'static str, ours: Result<T, Error>, theirs: Result<T, Error>) {
        assert_eq!(ours, theirs, "{call}");
        let number = ours.err().map_or(0, |error| error.number());
        *self.numbers.entry((call, number)).or_default() += 1;
    }

    /// One random call, with every byte of the state compared after it.
    fn step(&mut self) {
        let before = self.store.bytes().to_vec();
        match self.random.below(200) {
            0 | 1 => self.open(),
            2..=40 => self.begin(),
            41..=70 => self.get(),
            71..=100 => self.scan(),
            101..=135 => self.put(),
            136..=145 => self.delete(),
            146..=165 => self.commit(),
            166..=190 => self.end(),
            _ => self.freeze(),
        }
        let mut expected = before;
        self.model.write_over(&mut expected);
        assert!(self.store.bytes() == expected, "the state differs");
        assert!(self.store.sound());
    }

    fn open(&mut self) {
        let (settings, images) = (self.random.settings(), self.random.images());
        let lent: Vec<&[u8]> = images.iter().map(Vec::as_slice).collect();
        let theirs = Model::open(settings, &images, self.store.bytes().len());
        let ours = self.store.open_anew(settings, &lent);
        let told = theirs.map(|model| self.model = model);
        self.same("open", ours, told);
    }

    fn begin(&mut self) {
        let (ours, theirs) = (self.store.begin(), self.model.begin());
        self.same("begin", ours, theirs);
    }

    fn get(&mut self) {
        let (handle, key) = (self.handle(true), self.random.key());
        let mut out = vec![0xa5; self.random.below(8) as usize];
        let theirs = self.model.get(handle, &key, out.len());
        let mut expected = out.clone();
        write_front(&mut expected, theirs.as_ref().ok().and_then(Option::as_ref));
        let ours = self.store.get_into(handle, &key, &mut out);
        assert_eq!(out, expected);
        self.same("get", ours, theirs.map(|found| found.map(|value| value.len())));
    }

    fn scan(&mut self) {
        let (handle, low, high) = (self.handle(true), self.random.bound(), self.random.bound());
        let bounds = (low.as_ref().map(Vec::as_slice), high.as_ref().map(Vec::as_slice));
        let mut key_out = vec![0xa5; self.random.below(6) as usize];
        let mut value_out = vec![0x5a; self.random.below(8) as usize];
        let theirs = self.model.scan(handle, bounds, (key_out.len(), value_out.len()));
        let (mut key_expected, mut value_expected) = (key_out.clone(), value_out.clone());
        let pair = theirs.as_ref().ok().and_then(Option::as_ref);
        write_front(&mut key_expected, pair.map(|(key, _)| key));
        write_front(&mut value_expected, pair.map(|(_, value)| value));
        let ours = self.store.scan_into(handle, bounds.0, bounds.1, &mut key_out, &mut value_out);
        assert_eq!((key_out, value_out), (key_expected, value_expected));
        self.same("scan", ours, theirs.map(|found| found.map(|(key, value)| (key.len(), value.len()))));
    }

    fn put(&mut self) {
        let (handle, key, value) = (self.handle(true), self.random.key(), self.random.value());
        let (ours, theirs) = (self.store.put(handle, &key, &value), self.model.put(handle, &key, &value));
        self.same("put", ours, theirs);
    }

    fn delete(&mut self) {
        let (handle, key) = (self.handle(true), self.random.key());
        let (ours, theirs) = (self.store.delete(handle, &key), self.model.put(handle, &key, b""));
        self.same("delete", ours, theirs);
    }

    fn commit(&mut self) {
        let handle = self.handle(true);
        let (ours, theirs) = (self.store.commit(handle), self.model.commit(handle));
        self.same("commit", ours, theirs);
    }

    fn end(&mut self) {
        let handle = self.handle(false);
        let (ours, theirs) = (self.store.end(handle), self.model.end(handle));
        self.same("end", ours, theirs);
    }

    fn freeze(&mut self) {
        let (ours, theirs) = (self.store.freeze(), self.model.freeze());
        self.same("freeze", ours, theirs);
    }
}

/// Writes an answer, if there is one, to the front of a buffer.
fn write_front(out: &mut [u8], answer: Option<&Vec<u8>>) {
    if let Some(answer) = answer {
        out[..answer.len()].copy_from_slice(answer);
    }
}

/// Random calls from several seeds; every number that calls on a sound state return must have been met.
fn compare(seeds: Range<u64>, calls: u64) {
    let mut numbers = BTreeMap::new();
    for seed in seeds {
        let mut compared = Compared::new(seed);
        for _ in 0..calls {
            compared.step();
        }
        for (number, times) in compared.numbers {
            *numbers.entry(number).or_insert(0) += times;
        }
    }
    println!("how often each call returned each number: {numbers:?}");
    let met: BTreeSet<u64> = numbers.keys().map(|(_, number)| *number).collect();
    assert_eq!(met, BTreeSet::from([0, 1, 2, 3, 4, 5, 6, 7, 10, 11, 12]));
}

#[test]
fn random_calls_answer_as_the_model_does() {
    compare(1..41, 1_000);
}

#[test]
#[ignore = "takes minutes; for a longer comparison"]
fn very_many_random_calls_answer_as_the_model_does() {
    compare(1_000..1_500, 10_000);
}
