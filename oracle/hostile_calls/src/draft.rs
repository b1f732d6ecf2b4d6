//! A store taken apart, changed in one way, and put together again over the old bytes: such a change often breaks one
//! state rule and no other, or none.

use crate::good::{image_of, run, value, KEYS};
use crate::layout::*;
use crate::random::Random;
use crate::store::{fnv1a, hashes_of, image_records, rows_of, Store};

type Record = (Vec<u8>, u64, Vec<u8>);

struct Txn {
    handle: u64,
    read: u64,
    mark: u64,
    own: Vec<(Vec<u8>, Vec<u8>)>,
    reads: Vec<u32>,
    writes: Vec<u32>,
}

struct Draft {
    settings: Settings,
    clock: u64,
    counter: u64,
    rows: Vec<(u64, u64)>,
    history: Vec<(u64, Vec<u32>)>,
    active: Vec<Record>,
    images: Vec<Vec<u8>>,
    places: Vec<Option<Txn>>,
}

fn records(run: &[crate::store::Version]) -> Vec<Record> {
    run.iter().map(|version| (version.key.to_vec(), version.time, version.value.to_vec())).collect()
}

impl Draft {
    fn of(store: &Store) -> Draft {
        let pairs = |own: &[(&[u8], &[u8])]| own.iter().map(|(key, value)| (key.to_vec(), value.to_vec())).collect();
        Draft {
            settings: store.settings,
            clock: store.clock,
            counter: store.counter,
            rows: store.rows.clone(),
            history: store.history.clone(),
            active: records(&store.active),
            images: store.images.iter().map(|image| image.to_vec()).collect(),
            places: store
                .places
                .iter()
                .map(|place| {
                    place.as_ref().map(|txn| Txn {
                        handle: txn.handle,
                        read: txn.read,
                        mark: u64::from(txn.open),
                        own: pairs(&txn.own),
                        reads: txn.reads.clone(),
                        writes: txn.writes.clone(),
                    })
                })
                .collect(),
        }
    }

    fn fix_rows(&mut self) {
        self.rows = rows_of(self.places.iter().flatten().map(|txn| txn.read).collect());
    }

    fn fix_writes(&mut self, place: usize) {
        if let Some(txn) = self.places[place].as_mut().filter(|_| self.settings.serializable) {
            txn.writes = hashes_of(txn.own.iter().map(|(key, _)| key.as_slice()));
        }
    }

    /// The newest timestamp of the images.
    fn newest(&self) -> Option<u64> {
        let runs = self.images.iter().filter_map(|image| image_records(image).ok());
        runs.flatten().map(|version| version.time).max()
    }

    /// Writes the store over the bytes; no where a list is longer than its room.
    fn write(&self, state: &mut [u8]) -> bool {
        let settings = &self.settings;
        for (k, n) in settings.numbers().into_iter().enumerate() {
            put_number(state, 8 * k, 8, n);
        }
        put_number(state, CLOCK, 8, self.clock);
        put_number(state, COUNTER, 8, self.counter);
        let mut fits = true;
        let mut list = |state: &mut [u8], at, bytes: Vec<u8>, room| {
            fits &= bytes.len() <= room;
            if fits {
                put_list(state, at, &bytes);
            }
        };
        let rows = self.rows.iter().flat_map(|(time, count)| [time.to_be_bytes(), count.to_be_bytes()].concat());
        list(state, ROWS, rows.collect(), settings.rows_room());
        let hashes = |set: &[u32]| set.iter().flat_map(|hash| hash.to_be_bytes()).collect::<Vec<u8>>();
        let mut history = Vec::new();
        for (number, set) in &self.history {
            history.extend(number.to_be_bytes());
            history.extend((4 * set.len() as u64).to_be_bytes());
            history.extend(hashes(set));
        }
        list(state, settings.history_at(), history, settings.history_room());
        list(state, settings.active_at(), image_of(&self.active)[9..].to_vec(), settings.active);
        let mut area = Vec::new();
        for image in &self.images {
            area.extend((image.len() as u64).to_be_bytes());
            area.extend(image);
        }
        list(state, settings.area_at(), area, settings.area_room());
        for (k, place) in self.places.iter().enumerate() {
            let at = settings.place_at(k);
            let Some(txn) = place else {
                put_number(state, at, 8, 0);
                continue;
            };
            put_number(state, at, 8, txn.handle);
            put_number(state, at + PLACE_READ, 8, txn.read);
            put_number(state, at + PLACE_MARK, 8, txn.mark);
            let mut own = Vec::new();
            for (key, value) in &txn.own {
                own.extend((key.len() as u16).to_be_bytes());
                own.extend(key);
                own.extend((value.len() as u16).to_be_bytes());
                own.extend(value);
            }
            list(state, at + PLACE_OVERLAY, own, settings.overlay);
            list(state, at + settings.place_reads(), hashes(&txn.reads), 4 * settings.reads);
            list(state, at + settings.place_writes(), hashes(&txn.writes), 4 * settings.writes);
        }
        fits
    }
}

/// Exchanges two elements, neighbours or not, or puts a copy of one beside it.
fn disorder<T: Clone>(random: &mut Random, things: &mut Vec<T>) {
    if things.is_empty() {
        return;
    }
    let k = random.below(things.len());
    if things.len() > 1 && random.once_in(2) {
        let other = random.below(things.len());
        things.swap(k, other);
    } else {
        things.insert(k, things[k].clone());
    }
}

fn insert_hash(random: &mut Random, set: &mut Vec<u32>) {
    let hash = if random.once_in(2) { fnv1a(random.one_of::<&[u8]>(&KEYS)) } else { random.next() as u32 };
    if let Err(at) = set.binary_search(&hash) {
        set.insert(at, hash);
    }
}

/// Changes the store of a sound state in one way and writes it over the bytes; no where it has no room there.
pub fn rebuild(random: &mut Random, store: &Store, state: &mut [u8]) -> bool {
    let mut draft = Draft::of(store);
    let taken: Vec<usize> = (0..draft.places.len()).filter(|k| draft.places[*k].is_some()).collect();
    let any = if taken.is_empty() { None } else { Some(*random.one_of(&taken)) };
    let kind = random.below(16);
    match kind {
        0..=6 => match any {
            Some(place) => change_txn(random, &mut draft, place, kind),
            None => seat(random, &mut draft),
        },
        7 => change_rows(random, &mut draft),
        8 | 9 => change_history(random, &mut draft),
        10 | 11 => change_active(random, &mut draft),
        12 | 13 => change_images(random, &mut draft),
        14 => change_mode(random, &mut draft),
        _ => change_head(random, &mut draft),
    }
    draft.write(state)
}

/// A transaction in a free place, as if begun, or with a read number of its own.
fn seat(random: &mut Random, draft: &mut Draft) {
    let Some(free) = draft.places.iter().position(Option::is_none) else { return };
    let handle = draft.counter.saturating_add(1);
    draft.counter = handle;
    let read = if random.once_in(2) { draft.clock } else { random.below(10) as u64 };
    draft.places[free] = Some(Txn { handle, read, mark: 1, own: vec![], reads: vec![], writes: vec![] });
    draft.fix_rows();
}

fn change_txn(random: &mut Random, draft: &mut Draft, place: usize, kind: usize) {
    let clock = draft.clock;
    let counter = draft.counter;
    let other = draft.places.iter().flatten().map(|txn| txn.handle).find(|handle| *handle != counter);
    let handle = draft.places[place].as_ref().map(|txn| txn.handle);
    let Some(txn) = draft.places[place].as_mut() else { return };
    match kind {
        0 => {
            disorder(random, &mut txn.own);
            draft.fix_writes(place);
        }
        1 => {
            match random.below(4) {
                0 => txn.own.insert(0, (Vec::new(), value(random))),
                1 => txn.own.push((random.one_of(&KEYS).to_vec(), value(random))),
                2 => txn.own.insert(0, (random.one_of(&KEYS).to_vec(), value(random))),
                _ => {
                    txn.own.push((random.one_of(&KEYS).to_vec(), value(random)));
                    txn.own.sort();
                }
            }
            if !random.once_in(3) {
                draft.fix_writes(place);
            }
        }
        2 => match random.below(4) {
            0 => disorder(random, &mut txn.reads),
            1 => disorder(random, &mut txn.writes),
            2 => {
                txn.mark = 0;
                disorder(random, &mut txn.writes);
            }
            _ => insert_hash(random, &mut txn.reads),
        },
        3 => match random.below(4) {
            0 => insert_hash(random, &mut txn.writes),
            1 if !txn.writes.is_empty() => {
                let k = random.below(txn.writes.len());
                txn.writes.remove(k);
            }
            2 if !txn.own.is_empty() => {
                let k = random.below(txn.own.len());
                txn.own.remove(k);
            }
            _ => txn.mark ^= 1,
        },
        4 => {
            let handles = [counter.wrapping_add(1), counter, 1, other.unwrap_or(1), u64::MAX, txn.handle - 1];
            txn.handle = *random.one_of(&handles);
        }
        5 => {
            let reads = [clock.wrapping_add(1), clock, 0, clock / 2, txn.read.wrapping_sub(1), u64::MAX];
            txn.read = *random.one_of(&reads);
            if !random.once_in(4) {
                draft.fix_rows();
            }
        }
        _ => match random.below(4) {
            0 => {
                draft.places[place] = None;
                draft.fix_rows();
            }
            1 => draft.places[place] = None,
            2 => txn.mark = *random.one_of(&[2, u64::MAX, 1 << 56]),
            _ => {
                // The handle of another transaction, in a place of its own.
                if let Some(free) = draft.places.iter().position(Option::is_none) {
                    let handle = handle.unwrap_or(1);
                    draft.places[free] =
                        Some(Txn { handle, read: clock, mark: 1, own: vec![], reads: vec![], writes: vec![] });
                    draft.fix_rows();
                }
            }
        },
    }
}

fn change_rows(random: &mut Random, draft: &mut Draft) {
    let rows = &mut draft.rows;
    match random.below(6) {
        0 => disorder(random, rows),
        1 => {
            rows.pop();
        }
        2 => rows.push((draft.clock, 1)),
        3 => rows.insert(0, (0, 0)),
        4 if !rows.is_empty() => {
            let k = random.below(rows.len());
            rows[k].1 = rows[k].1.wrapping_add(if random.once_in(2) { 1 } else { u64::MAX });
        }
        // A row of several readers as rows of one.
        _ => *rows = rows.iter().flat_map(|row| vec![(row.0, 1); row.1.min(4) as usize]).collect(),
    }
}

fn change_history(random: &mut Random, draft: &mut Draft) {
    let clock = draft.clock;
    let hashes: usize = draft.history.iter().map(|(_, set)| set.len()).sum();
    let history = &mut draft.history;
    match random.below(8) {
        0 => disorder(random, history),
        1 if !history.is_empty() => {
            let k = random.below(history.len());
            disorder(random, &mut history[k].1);
        }
        2 if !history.is_empty() => {
            let k = random.below(history.len());
            // A hash that some transaction has read, so that its commit may be in conflict.
            let read: Vec<u32> = draft.places.iter().flatten().flat_map(|txn| txn.reads.iter().copied()).collect();
            if read.is_empty() || random.once_in(3) {
                insert_hash(random, &mut history[k].1);
            } else {
                history[k].1 = vec![*random.one_of(&read)];
            }
        }
        3 => {
            if let Some(last) = history.last_mut() {
                last.0 = *random.one_of(&[clock.wrapping_add(1), clock, u64::MAX, 0]);
            }
        }
        // More entries than there may be, of few hashes each.
        4 => {
            let count = draft.settings.entries as u64 + random.below(2) as u64;
            let step = random.between(1, 9) as u64;
            *history = (0..count).map(|k| (k * step, vec![])).collect();
            draft.clock = clock.max(count * step);
            if random.once_in(4) {
                draft.clock = clock;
            }
        }
        // More hashes than there may be, in few entries.
        5 => {
            let count = draft.settings.hashes + random.below(2);
            let step = random.between(1, 9_999_999) as u32;
            *history = vec![(clock, (0..count as u32).map(|k| step * k).collect())];
        }
        6 => {
            let more = draft.settings.hashes.saturating_sub(hashes) + random.below(2);
            history.push((clock, (0..more as u32).collect()));
        }
        _ => {
            history.pop();
        }
    }
}

/// Changes the records of a run in one way.
fn change_records(random: &mut Random, records: &mut Vec<Record>, clock: u64, newest: u64) {
    match random.below(6) {
        0 => disorder(random, records),
        1 => records.insert(0, (Vec::new(), newest.saturating_add(1).min(clock), value(random))),
        2 if !records.is_empty() => {
            let k = random.below(records.len());
            let times = [clock.wrapping_add(1), clock, newest, newest.wrapping_add(1), 0, u64::MAX];
            records[k].1 = *random.one_of(&times);
        }
        3 if !records.is_empty() => {
            let k = random.below(records.len());
            records[k].2 = value(random);
        }
        4 => {
            let time = *random.one_of(&[clock, newest, newest.wrapping_add(1)]);
            records.push((random.one_of(&KEYS).to_vec(), time, value(random)));
            records.sort_by(|a, b| a.0.cmp(&b.0).then(b.1.cmp(&a.1)));
        }
        _ => {
            if !records.is_empty() {
                let k = random.below(records.len());
                records.remove(k);
            }
        }
    }
}

fn change_active(random: &mut Random, draft: &mut Draft) {
    let newest = draft.newest().unwrap_or(0);
    change_records(random, &mut draft.active, draft.clock, newest);
}

fn change_images(random: &mut Random, draft: &mut Draft) {
    let clock = draft.clock;
    let oldest = draft.active.iter().map(|record| record.1).min();
    let images = &mut draft.images;
    match random.below(8) {
        0 => disorder(random, images),
        1 => {
            *images = vec![image_of(&[]); random.between(15, 17)];
            let k = random.below(images.len());
            images[k] = image_of(&run(random, 2));
        }
        2 => {
            let k = random.below(images.len() + 1);
            images.insert(k, image_of(&run(random, 2)));
        }
        // Images up to the limit of the area, or a byte above it.
        3 => {
            let size: usize = images.iter().map(Vec::len).sum();
            let left = (draft.settings.area + random.between(0, 2)).saturating_sub(size + 9 + 12 + 1);
            images.push(image_of(&[(b"m".to_vec(), 0, vec![3; left])]));
        }
        _ if images.is_empty() => images.push(image_of(&run(random, 2))),
        4 => {
            let k = random.below(images.len());
            let at = random.below(images[k].len().min(9));
            let ways = [images[k][at].wrapping_add(1), images[k][at].wrapping_sub(1), 0, random.byte()];
            images[k][at] = *random.one_of(&ways);
        }
        5 => {
            let k = random.below(images.len());
            if random.once_in(2) {
                images[k].push(random.byte());
            } else {
                images[k].pop();
            }
        }
        _ => {
            let k = random.below(images.len());
            let mut list = image_records(&images[k]).map(|run| records(&run)).unwrap_or_default();
            change_records(random, &mut list, clock, oldest.unwrap_or(clock).saturating_sub(1));
            images[k] = image_of(&list);
        }
    }
}

/// The other mode, with sets and history emptied, or all but one of these.
fn change_mode(random: &mut Random, draft: &mut Draft) {
    draft.settings.serializable = !draft.settings.serializable;
    if draft.settings.serializable {
        for place in 0..draft.places.len() {
            if !random.once_in(8) {
                draft.fix_writes(place);
            }
        }
        return;
    }
    let kept = random.below(4);
    if kept != 0 {
        draft.history.clear();
    }
    for txn in draft.places.iter_mut().flatten() {
        if kept != 1 {
            txn.reads.clear();
        }
        if kept != 2 {
            txn.writes.clear();
        }
    }
}

fn change_head(random: &mut Random, draft: &mut Draft) {
    let clock = draft.clock;
    match random.below(4) {
        0 => draft.clock = *random.one_of(&[clock.wrapping_add(1), clock.wrapping_sub(1), u64::MAX, 0]),
        1 => draft.counter = *random.one_of(&[draft.counter.wrapping_add(1), u64::MAX, draft.counter / 2]),
        2 => {
            let k = random.below(draft.places.len());
            let other = random.below(draft.places.len());
            draft.places.swap(k, other);
        }
        _ => seat(random, draft),
    }
}
