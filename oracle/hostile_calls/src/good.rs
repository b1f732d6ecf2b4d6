//! Good states, made by random calls from an opening, and random arguments for calls.

use crate::calls::{image_over, put_version, Call, Lent};
use crate::layout::Settings;
use crate::random::Random;
use crate::store::{fnv1a, Store};

/// Keys that are prefixes of one another, at both ends of the order, and two pairs that share a hash.
pub const KEYS: [&[u8]; 16] = [
    b"a",
    b"b",
    b"ab",
    b"abc",
    b"b\0",
    b"\0",
    b"\0\0",
    b"\xff",
    b"fir",
    b"oak",
    b"yew",
    b"k7",
    b"liquid",
    b"costarring",
    b"zinke",
    b"altarage",
];

/// A state and what may be lent behind it.
#[derive(Clone)]
pub struct Good {
    pub settings: Settings,
    pub bytes: Vec<u8>,
}

/// The arguments of an opening.
pub struct Opening {
    pub settings: [u64; 9],
    pub images: Vec<u8>,
    pub lengths: Vec<u64>,
}

/// Settings of a store in some 500 to 2,000 bytes; of a wide one, in some 3,000 to 16,000.
pub fn settings(random: &mut Random, wide: bool) -> Settings {
    if wide {
        return Settings {
            serializable: !random.once_in(4),
            transactions: random.between(5, 20),
            overlay: random.between(64, 300),
            reads: random.between(1, 40),
            writes: random.between(1, 20),
            entries: random.between(1, 20),
            hashes: random.between(1, 60),
            active: random.between(64, 800),
            area: random.between(9, 1500),
        };
    }
    let area = match random.below(4) {
        0 => random.between(9, 60),
        1 => random.between(161, 300),
        _ => random.between(40, 160),
    };
    Settings {
        serializable: !random.once_in(4),
        transactions: random.between(1, 4),
        overlay: random.between(64, 90),
        reads: random.between(1, 6),
        writes: random.between(1, 4),
        entries: random.between(1, 4),
        hashes: random.between(1, 8),
        active: random.between(64, 150),
        area,
    }
}

/// Any settings, one of them out of its range.
fn settings_out_of_range(random: &mut Random) -> [u64; 9] {
    let mut numbers = settings(random, false).numbers();
    let k = random.below(9);
    let (least, most) = crate::layout::RANGES[k];
    let wrong = [most + 1, u64::MAX, least.wrapping_sub(1), 1 << 32, 1 << 63];
    numbers[k] = *random.one_of(&wrong);
    numbers
}

/// A timestamp of an opening run: small, anywhere, or at the end of the range.
fn time(random: &mut Random, kind: usize) -> u64 {
    match kind {
        0 => random.next(),
        1 => u64::MAX - random.below(4) as u64,
        _ => random.below(9) as u64,
    }
}

pub fn value(random: &mut Random) -> Vec<u8> {
    match random.below(8) {
        0 | 1 => Vec::new(),
        2 => vec![0],
        _ => (0..random.between(1, 8)).map(|_| random.byte()).collect(),
    }
}

/// A run of a few records in their order, each of the keys and timestamps at most once.
pub fn run(random: &mut Random, times: usize) -> Vec<(Vec<u8>, u64, Vec<u8>)> {
    let mut records: Vec<(Vec<u8>, u64, Vec<u8>)> = Vec::new();
    for _ in 0..random.below(4) {
        let key = random.one_of(&KEYS).to_vec();
        let time = time(random, times);
        if !records.iter().any(|record| record.0 == key && record.1 == time) {
            records.push((key, time, value(random)));
        }
    }
    records.sort_by(|a, b| a.0.cmp(&b.0).then(b.1.cmp(&a.1)));
    records
}

pub fn image_of(run: &[(Vec<u8>, u64, Vec<u8>)]) -> Vec<u8> {
    let mut records = Vec::new();
    for (key, time, value) in run {
        put_version(&mut records, key, *time, value);
    }
    image_over(run.len(), &records)
}

/// Images for an opening: often good, else with one of them damaged.
pub fn opening(random: &mut Random, settings: &Settings, good: bool) -> Opening {
    let times = if random.once_in(6) { random.below(2) } else { 2 };
    let most = if random.once_in(12) || settings.area > 400 { 17 } else { 3 };
    let mut images: Vec<Vec<u8>> = Vec::new();
    for _ in 0..random.between(0, most) {
        let empty = most > 3 && settings.area <= 400;
        let image = image_of(&if empty { Vec::new() } else { run(random, times) });
        let size: usize = images.iter().map(Vec::len).sum();
        let fits = size + image.len() <= settings.area && images.len() < 16;
        if fits || (!good && random.once_in(3)) {
            images.push(image);
        }
    }
    let mut lengths: Vec<u64> = images.iter().map(|image| image.len() as u64).collect();
    let mut numbers = settings.numbers();
    if !good {
        match random.below(6) {
            0 => numbers = settings_out_of_range(random),
            1 => numbers = self::settings(random, false).numbers(),
            2 if !lengths.is_empty() => {
                let k = random.below(lengths.len());
                let ways = [lengths[k] + 1, lengths[k] - 1, 0, u64::MAX, lengths[k] / 2];
                lengths[k] = *random.one_of(&ways);
            }
            3 if !images.is_empty() => {
                let k = random.below(images.len());
                let at = random.below(images[k].len());
                images[k][at] = random.byte();
            }
            4 if !images.is_empty() => {
                let k = random.below(images.len());
                let at = random.below(images[k].len().min(9));
                images[k][at] ^= 1 << random.below(8);
            }
            _ => {}
        }
    }
    let mut images: Vec<u8> = images.concat();
    if random.once_in(8) {
        images.push(random.byte());
    }
    Opening { settings: numbers, images, lengths }
}

/// The few keys that a round uses, bytes that the arguments of a call are built in, and one byte more than a key or value
/// may have.
pub struct Scratch {
    keys: Vec<&'static [u8]>,
    first: Vec<u8>,
    second: Vec<u8>,
    long: Vec<u8>,
}

impl Scratch {
    pub fn new() -> Scratch {
        Scratch { long: vec![7; 65_536], ..Scratch::empty() }
    }

    /// One that holds the place of another while that is in use.
    pub fn empty() -> Scratch {
        Scratch { keys: Vec::new(), first: Vec::new(), second: Vec::new(), long: Vec::new() }
    }

    /// Takes other keys, so few that transactions meet at them.
    pub fn new_keys(&mut self, random: &mut Random) {
        let count = random.between(3, 9);
        self.keys = (0..count).map(|_| *random.one_of(&KEYS)).collect();
    }
}

/// A key of the store, or one near it, or one of the list; rarely the empty one.
fn key(random: &mut Random, keys: &[&'static [u8]], store: Option<&Store>, into: &mut Vec<u8>) {
    into.clear();
    let listed = *random.one_of(keys);
    into.extend_from_slice(listed);
    let kind = random.below(32);
    if kind == 0 {
        into.clear();
        return;
    }
    if let Some(store) = store.filter(|_| kind < 20) {
        let own: usize = store.transactions().map(|txn| txn.own.len()).sum();
        let stored: usize = store.in_order().map(Vec::len).sum();
        if own + stored > 0 {
            let k = random.below(own + stored);
            let keys = store.transactions().flat_map(|txn| txn.own.iter().map(|(key, _)| *key));
            let mut keys = keys.chain(store.in_order().flatten().map(|version| version.key));
            into.clear();
            into.extend_from_slice(keys.nth(k).unwrap_or(listed));
        }
    }
    match random.below(12) {
        0 => into.push(0),
        1 if into.len() > 1 => {
            into.pop();
        }
        2 => {
            if let Some(last) = into.last_mut() {
                *last = last.wrapping_add(1);
            }
        }
        _ => {}
    }
}

/// The lengths of the out buffers: often near those of keys and values here.
fn lent(random: &mut Random) -> Lent {
    let length = |random: &mut Random| match random.below(4) {
        0 => 64,
        1 => 10,
        _ => random.below(10),
    };
    Lent { key: length(random), value: length(random), reply: random.below(5) }
}

/// A handle: mostly one of these.
fn handle(random: &mut Random, handles: &[u64]) -> u64 {
    match random.below(16) {
        0 => 0,
        1 => u64::MAX,
        2 => random.below(12) as u64,
        _ if handles.is_empty() => 1,
        _ => *random.one_of(handles),
    }
}

/// A call of this name with random arguments.
pub fn choose<'s>(
    name: usize,
    random: &mut Random,
    handles: &[u64],
    store: Option<&Store>,
    openings: &'s [Opening],
    scratch: &'s mut Scratch,
) -> (Call<'s>, Lent) {
    let lent = lent(random);
    let handle = handle(random, handles);
    let Scratch { keys, first, second, long } = scratch;
    if (2..=5).contains(&name) {
        key(random, keys, store, first);
    }
    let long = &long[random.below(2)..];
    let longest = random.once_in(64);
    let call = match name {
        0 => Call::Sound,
        1 => Call::Begin,
        2 => Call::Get { handle, key: if longest { long } else { first } },
        3 => {
            key(random, keys, store, second);
            let kind = |random: &mut Random| match random.below(8) {
                0 | 1 => 0,
                2 | 3 => 1,
                7 => u64::MAX,
                _ => 2,
            };
            Call::Scan { handle, low: (kind(random), first), high: (kind(random), second) }
        }
        4 => {
            *second = value(random);
            if random.once_in(6) {
                second.resize(random.below(90), 5);
            }
            match random.below(64) {
                0 => Call::Put { handle, key: long, value: second },
                1 => Call::Put { handle, key: first, value: long },
                _ => Call::Put { handle, key: first, value: second },
            }
        }
        5 => Call::Delete { handle, key: if longest { long } else { first } },
        6 => Call::Commit { handle },
        7 => Call::End { handle },
        8 => Call::Freeze,
        _ => {
            let Opening { settings, images, lengths } = random.one_of(openings);
            Call::Open { settings: *settings, images, lengths }
        }
    };
    (call, lent)
}

/// The name of a random call of a walk that leads to good states: mostly a begin where no transaction is open.
pub fn step(random: &mut Random, store: &Store) -> usize {
    const WEIGHTS: [(usize, usize); 8] = [(1, 12), (2, 16), (3, 14), (4, 32), (5, 6), (6, 10), (7, 6), (8, 4)];
    if !store.transactions().any(|txn| txn.open) && random.once_in(2) {
        return if store.transactions().count() == store.places.len() { 7 } else { 1 };
    }
    let mut left = random.below(WEIGHTS.iter().map(|(_, weight)| weight).sum());
    for (name, weight) in WEIGHTS {
        if left < weight {
            return name;
        }
        left -= weight;
    }
    1
}

/// Whether two pairs of the keys share a hash, as they are meant to.
pub fn keys_share_hashes() -> bool {
    fnv1a(b"liquid") == fnv1a(b"costarring") && fnv1a(b"zinke") == fnv1a(b"altarage")
}
