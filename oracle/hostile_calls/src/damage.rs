//! Damage to good states.

use crate::draft::rebuild;
use crate::good::Good;
use crate::layout::*;
use crate::random::Random;
use crate::store::{judge, Store};
use std::ops::Range;

/// What a number in a state is.
#[derive(Clone, Copy, PartialEq)]
enum What {
    /// The bytes of a list, the length of a key or a value, the count of a row or an image.
    Count,
    /// A clock, handle, timestamp, commit number, read number, hash, mark or version.
    Number,
}

#[derive(Clone, Copy)]
struct Field {
    at: usize,
    width: usize,
    what: What,
}

/// Where the numbers, keys, values, elements of lists and unused bytes of a good state lie.
pub struct Shape {
    fields: Vec<Field>,
    /// Elements of one kind, in groups: rows, entries, images, places, records, own writes, hashes.
    regions: Vec<Vec<Range<usize>>>,
    keys: Vec<Range<usize>>,
    values: Vec<Range<usize>>,
    unused: Vec<Range<usize>>,
    /// The parts as wholes: rows, history, active run, run area, places.
    parts: Vec<Range<usize>>,
}

struct Walk<'s> {
    state: &'s [u8],
    at: usize,
    shape: Shape,
}

impl Walk<'_> {
    fn field(&mut self, width: usize, what: What) -> u64 {
        self.shape.fields.push(Field { at: self.at, width, what });
        self.at += width;
        number_at(self.state, self.at - width, width)
    }

    /// A list's used bytes; behind them its room is unused.
    fn list(&mut self, room: usize, element: impl Fn(&mut Self)) {
        let used = self.field(8, What::Count) as usize;
        let (start, end) = (self.at, self.at + used);
        let mut elements = Vec::new();
        while self.at < end {
            let from = self.at;
            element(self);
            elements.push(from..self.at);
        }
        self.shape.regions.push(elements);
        self.shape.unused.push(end..start + room);
        self.at = start + room;
    }

    fn text(&mut self) -> Range<usize> {
        let length = self.field(2, What::Count) as usize;
        self.at += length;
        self.at - length..self.at
    }

    fn key(&mut self) {
        let key = self.text();
        self.shape.keys.push(key);
    }

    fn value(&mut self) {
        let value = self.text();
        self.shape.values.push(value);
    }

    fn version(&mut self) {
        self.key();
        self.field(8, What::Number);
        self.value();
    }

    fn hashes(&mut self, room: usize) {
        self.list(room, |walk| {
            walk.field(4, What::Number);
        });
    }
}

impl Shape {
    pub fn of(good: &Good) -> Shape {
        let settings = &good.settings;
        let shape =
            Shape { fields: vec![], regions: vec![], keys: vec![], values: vec![], unused: vec![], parts: vec![] };
        let mut walk = Walk { state: &good.bytes, at: 0, shape };
        for _ in 0..11 {
            walk.field(8, What::Number);
        }
        walk.list(settings.rows_room(), |walk| {
            walk.field(8, What::Number);
            walk.field(8, What::Count);
        });
        walk.list(settings.history_room(), |walk| {
            walk.field(8, What::Number);
            let room = number_at(walk.state, walk.at, 8) as usize;
            walk.hashes(room);
        });
        walk.list(settings.active, Walk::version);
        walk.list(settings.area_room(), |walk| {
            let length = walk.field(8, What::Count) as usize;
            let end = walk.at + length;
            walk.field(3, What::Number);
            walk.field(2, What::Number);
            walk.field(4, What::Count);
            let mut records = Vec::new();
            while walk.at < end {
                let from = walk.at;
                walk.version();
                records.push(from..walk.at);
            }
            walk.shape.regions.push(records);
        });
        let mut places = Vec::new();
        for k in 0..settings.transactions {
            let at = settings.place_at(k);
            places.push(at..at + settings.stride());
            walk.at = at;
            if walk.field(8, What::Number) == 0 {
                walk.shape.unused.push(at + 8..at + settings.stride());
                continue;
            }
            walk.field(8, What::Number);
            walk.field(8, What::Number);
            walk.list(settings.overlay, |walk| {
                walk.key();
                walk.value();
            });
            walk.hashes(4 * settings.reads);
            walk.hashes(4 * settings.writes);
        }
        let mut shape = walk.shape;
        shape.regions.push(places.clone());
        shape.unused.push(settings.length()..good.bytes.len());
        let starts = [0, ROWS, settings.history_at(), settings.active_at(), settings.area_at(), settings.places_at()];
        shape.parts = starts.windows(2).map(|two| two[0]..two[1]).chain(places).collect();
        shape.unused.retain(|range| !range.is_empty());
        shape.regions.retain(|group| !group.is_empty());
        shape.values.retain(|range| !range.is_empty());
        shape
    }
}

/// The kinds of damage.
pub const KINDS: [&str; 19] = [
    "each byte of the head to 0, 1, 127, 128, 255 and one up and down",
    "each number of the head one up, one down, 0, all ones, high and low bit",
    "each count and length one up and one down",
    "each count and length 0, all ones, doubled, halved, 4, 8 and 16 up and down",
    "each other number one up, one down, 0, all ones, another's",
    "two elements of one kind swapped",
    "cut to each length",
    "each byte with one bit flipped",
    "two ranges of equal length swapped",
    "random bytes in a random field",
    "random bytes anywhere",
    "a piece of another good state",
    "a part of another good state in its place",
    "bytes of a key or a value changed",
    "unused bytes changed",
    "plausible numbers",
    "a byte put in or taken out",
    "the store rebuilt with one thing changed",
    "several of the ten kinds above at once",
];

/// The first kind that is drawn at random, and the one that is made of several.
const RANDOM: usize = 8;
const SEVERAL: usize = 18;

/// What there is to make damage from.
pub struct Source<'s> {
    pub good: &'s Good,
    pub shape: &'s Shape,
    /// What the good state holds.
    pub store: &'s Store<'s>,
    /// Good states of the same settings.
    pub siblings: &'s [Good],
    /// A good state of other settings.
    pub stranger: &'s Good,
}

impl Source<'_> {
    /// Every structured damage to the good state.
    pub fn structured(&self, random: &mut Random, each: &mut dyn FnMut(usize, &[u8])) {
        let good = &self.good.bytes;
        let mut state = good.clone();
        for at in 0..HEAD {
            let byte = good[at];
            for value in [0, 1, 127, 128, 255, byte.wrapping_add(1), byte.wrapping_sub(1)] {
                state[at] = value;
                each(0, &state);
            }
            state[at] = byte;
        }
        for field in &self.shape.fields {
            let Field { at, width, what } = *field;
            let old = number_at(good, at, width);
            let kind = match what {
                _ if at < HEAD => 1,
                What::Count => 2,
                What::Number => 4,
            };
            let mut set = |kind, n: u64| {
                put_number(&mut state, at, width, n);
                each(kind, &state);
            };
            set(kind, old.wrapping_add(1));
            set(kind, old.wrapping_sub(1));
            let kind = if kind == 2 { 3 } else { kind };
            set(kind, 0);
            set(kind, u64::MAX);
            set(kind, old ^ (1 << (8 * width - 1)));
            set(kind, old ^ 1);
            if what == What::Count {
                for step in [4, 8, 16, old, old / 2] {
                    set(kind, old.wrapping_add(step));
                    set(kind, old.wrapping_sub(step));
                }
            } else {
                for _ in 0..2 {
                    let other = random.one_of(&self.shape.fields);
                    set(kind, number_at(good, other.at, other.width));
                }
            }
            put_number(&mut state, at, width, old);
        }
        for group in &self.shape.regions {
            for (k, first) in group.iter().enumerate() {
                for second in &group[k + 1..] {
                    each(5, &swapped(good, first.clone(), second.clone()));
                }
            }
        }
        for length in 0..good.len() {
            each(6, &good[..length]);
        }
        for at in 0..good.len() {
            state[at] = good[at] ^ (1 << random.below(8));
            each(7, &state);
            state[at] = good[at];
        }
    }

    /// How many of each random kind there are for a good state.
    fn share(kind: usize) -> usize {
        match kind {
            SEVERAL => 1500,
            17 => 1200,
            15 | 12 => 500,
            14 => 200,
            _ => 300,
        }
    }

    /// Random damage to the good state.
    pub fn random(&self, random: &mut Random, each: &mut dyn FnMut(usize, &[u8])) {
        for kind in RANDOM..=SEVERAL {
            for _ in 0..Source::share(kind) {
                let mut state = self.good.bytes.clone();
                if kind < SEVERAL {
                    self.one(kind, random, &mut state);
                } else {
                    // A rebuilt store is written from the good one, so it comes first or not at all.
                    let mut kind = random.between(RANDOM, SEVERAL - 1);
                    for _ in 0..random.between(2, 6) {
                        self.one(kind, random, &mut state);
                        kind = random.between(RANDOM, SEVERAL - 2);
                    }
                    if random.once_in(8) {
                        state.truncate(random.between(self.good.settings.length() - 1, self.good.bytes.len()));
                    }
                }
                each(kind, &state);
            }
        }
    }

    /// One random damage of a kind.
    fn one(&self, kind: usize, random: &mut Random, state: &mut [u8]) {
        let length = state.len();
        match kind {
            8 => {
                let count = random.between(1, 16);
                let (a, b) = (random.below(length - count), random.below(length - count));
                let (a, b) = (a.min(b), a.max(b));
                if a + count <= b {
                    let (front, back) = state.split_at_mut(b);
                    front[a..a + count].swap_with_slice(&mut back[..count]);
                }
            }
            9 => {
                let field = *random.one_of(&self.shape.fields);
                let n = self.any_number(random);
                if random.once_in(2) {
                    put_number(state, field.at, field.width, n);
                } else {
                    state[field.at + random.below(field.width)] = random.byte();
                }
            }
            10 => {
                for _ in 0..random.between(1, 8) {
                    let at = random.below(length);
                    state[at] = random.byte();
                }
            }
            11 => {
                let from = if random.once_in(3) { self.stranger } else { self.sibling(random) };
                let from = &from.bytes;
                let count = random.between(1, 64).min(from.len());
                let source = random.below(from.len() - count + 1);
                let at = if random.once_in(3) { random.below(length) } else { source };
                let count = count.min(length.saturating_sub(at));
                if count > 0 {
                    state[at..at + count].copy_from_slice(&from[source..source + count]);
                }
            }
            12 => {
                let from = self.sibling(random);
                let part = random.one_of(&self.shape.parts).clone();
                if part.end <= from.bytes.len() && part.end <= length {
                    state[part.clone()].copy_from_slice(&from.bytes[part.clone()]);
                }
                // A place of another one goes to any place, and the clock and counter with it, in half of the cases.
                let places = &self.shape.parts[5..];
                if random.once_in(2) {
                    let (place, other) = (random.one_of(places).clone(), random.one_of(places).clone());
                    if place.end <= length {
                        state[place].copy_from_slice(&from.bytes[other]);
                    }
                }
                if random.once_in(2) {
                    state[CLOCK..COUNTER + 8].copy_from_slice(&from.bytes[CLOCK..COUNTER + 8]);
                }
                if random.once_in(2) {
                    let rows = self.shape.parts[1].clone();
                    state[rows.clone()].copy_from_slice(&from.bytes[rows]);
                }
            }
            13 => {
                let texts = if random.once_in(2) { &self.shape.keys } else { &self.shape.values };
                if let Some(text) = texts.get(random.below(texts.len().max(1))) {
                    let mut at = || text.start + random.below(text.len());
                    let (first, second) = (at(), at());
                    state[first] = random.byte();
                    if random.once_in(2) {
                        state[second] = *random.one_of(&[0, 255, b'a', b'b']);
                    }
                }
            }
            14 => {
                let range = random.one_of(&self.shape.unused).clone();
                let range = range.start.min(length)..range.end.min(length);
                if random.once_in(2) {
                    random.fill(&mut state[range]);
                } else if !range.is_empty() {
                    state[range.start + random.below(range.len())] = random.byte();
                }
            }
            15 => self.plausible(random, state),
            16 => {
                let part = random.one_of(&self.shape.parts).clone();
                if part.end <= length {
                    let at = part.start + random.below(part.len());
                    if random.once_in(2) {
                        state.copy_within(at..part.end - 1, at + 1);
                        state[at] = random.byte();
                    } else {
                        state.copy_within(at + 1..part.end, at);
                    }
                }
            }
            _ => {
                rebuild(random, self.store, state);
            }
        }
    }

    fn sibling(&self, random: &mut Random) -> &Good {
        random.one_of(self.siblings)
    }

    /// A number such as stands in states, or one at an end of a range.
    fn any_number(&self, random: &mut Random) -> u64 {
        let field = random.one_of(&self.shape.fields);
        let near = number_at(&self.good.bytes, field.at, field.width);
        match random.below(8) {
            0 => random.next(),
            1 => random.below(256) as u64,
            2 => u64::MAX - random.below(17) as u64,
            3 => 1 << random.below(64),
            4 => random.below(8) as u64,
            5 => near.wrapping_add(random.below(9) as u64).wrapping_sub(4),
            _ => near,
        }
    }

    /// A number that may well stand where it is put: often the state stays sound.
    fn plausible(&self, random: &mut Random, state: &mut [u8]) {
        let clock = number_at(state, CLOCK, 8);
        let more = if random.once_in(4) { u64::MAX } else { 1 + (random.next() >> random.below(64)) };
        match random.below(6) {
            0 => put_number(state, CLOCK, 8, clock.saturating_add(more)),
            1 => put_number(state, COUNTER, 8, number_at(state, COUNTER, 8).saturating_add(more)),
            // A shorter list, often of whole elements.
            2 => {
                let lists = self.shape.fields.iter().filter(|field| field.width == 8 && field.what == What::Count);
                let lists: Vec<&Field> = lists.collect();
                let field = *random.one_of(&lists);
                let old = number_at(state, field.at, 8);
                let less = *random.one_of(&[4, 8, 12, 16, 32, old]);
                put_number(state, field.at, 8, old.saturating_sub(less));
            }
            // Some number up to the clock, or a hash or length a little different.
            _ => {
                let field = random.one_of(&self.shape.fields[11..]);
                let old = number_at(state, field.at, field.width);
                let n = match random.below(3) {
                    0 => random.next() % clock.max(1),
                    1 => old.wrapping_add(random.below(5) as u64).wrapping_sub(2),
                    _ => old ^ (1 << random.below(8 * field.width)),
                };
                put_number(state, field.at, field.width, n);
            }
        }
    }
}

/// The bytes with two ranges exchanged; what lies between moves where their lengths differ.
fn swapped(bytes: &[u8], first: Range<usize>, second: Range<usize>) -> Vec<u8> {
    [
        &bytes[..first.start],
        &bytes[second.clone()],
        &bytes[first.end..second.start],
        &bytes[first],
        &bytes[second.end..],
    ]
    .concat()
}

/// The store that a good state holds.
pub fn store_of(good: &Good) -> Option<Store<'_>> {
    let (store, broken) = judge(&good.bytes);
    store.filter(|_| broken.count() == 0)
}
