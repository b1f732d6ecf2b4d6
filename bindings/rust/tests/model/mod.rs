//! Document 01's rules in plain Rust, to compare the store with. Nothing here is taken from the store's own code.

use std::cmp::Reverse;
use std::collections::{BTreeMap, BTreeSet};
use std::ops::{Bound, RangeBounds};

use ngalovuki::{Begun, Error, Handle, Pair, Settings};

use crate::common::{hash, layout, set_number, CLOCK, COUNTER, ROWS};

/// A run: versions by key, then by timestamp descending.
pub type Run = BTreeMap<(Vec<u8>, Reverse<u64>), Vec<u8>>;

/// A transaction begun and not ended.
struct Transaction {
    handle: u64,
    read: u64,
    open: bool,
    own: BTreeMap<Vec<u8>, Vec<u8>>,
    reads: BTreeSet<u32>,
    writes: BTreeSet<u32>,
}

/// A store by the rules.
pub struct Model {
    settings: Settings,
    clock: u64,
    pub counter: u64,
    places: Vec<Option<Transaction>>,
    history: BTreeMap<u64, BTreeSet<u32>>,
    active: Run,
    /// Frozen runs from newest to oldest, then opening runs as given.
    runs: Vec<Run>,
}

// ---- run images

/// The bytes of a version's record.
fn record(key: &[u8], time: u64, value: &[u8]) -> Vec<u8> {
    let lengths = [key.len(), value.len()].map(|length| (length as u16).to_be_bytes());
    [&lengths[0], key, &time.to_be_bytes(), &lengths[1], value].concat()
}

/// The records of a run, packed.
fn records(run: &Run) -> Vec<u8> {
    run.iter().flat_map(|((key, Reverse(time)), value)| record(key, *time, value)).collect()
}

/// The image of a run.
pub fn image(run: &Run) -> Vec<u8> {
    [&b"RUN\x00\x01"[..], &(run.len() as u32).to_be_bytes(), &records(run)].concat()
}

/// Takes this many bytes off the front.
fn taken<'a>(bytes: &mut &'a [u8], length: usize) -> Option<&'a [u8]> {
    let (front, rest) = bytes.split_at_checked(length)?;
    *bytes = rest;
    Some(front)
}

/// Takes a number of this many bytes off the front.
fn number(bytes: &mut &[u8], length: usize) -> Option<u64> {
    Some(taken(bytes, length)?.iter().fold(0, |n, byte| n << 8 | u64::from(*byte)))
}

/// The run of an image's records, or nothing where they are damaged.
fn run_in(mut bytes: &[u8]) -> Option<Run> {
    let mut run = Run::new();
    for _ in 0..number(&mut bytes, 4)? {
        let length = number(&mut bytes, 2)? as usize;
        let key = taken(&mut bytes, length)?.to_vec();
        let time = number(&mut bytes, 8)?;
        let length = number(&mut bytes, 2)? as usize;
        let value = taken(&mut bytes, length)?.to_vec();
        let version = (key, Reverse(time));
        if version.0.is_empty() || run.last_key_value().is_some_and(|(last, _)| *last >= version) {
            return None;
        }
        run.insert(version, value);
    }
    bytes.is_empty().then_some(run)
}

/// The run of the image at a place, 10 or 11.
fn opened_run(place: u64, mut bytes: &[u8]) -> Result<Run, Error> {
    if taken(&mut bytes, 3) != Some(b"RUN") {
        return Err(Error::BadRun { place });
    }
    match number(&mut bytes, 2) {
        None => Err(Error::BadRun { place }),
        Some(1) => run_in(bytes).ok_or(Error::BadRun { place }),
        Some(_) => Err(Error::ForeignRun { place }),
    }
}

// ---- checks that calls share

/// The error, unless the rule holds.
fn must(holds: bool, error: Error) -> Result<(), Error> {
    if holds {
        Ok(())
    } else {
        Err(error)
    }
}

/// Whether every setting is in its range.
fn in_ranges(s: Settings) -> bool {
    (1..=64).contains(&s.transactions)
        && (64..=1_048_576).contains(&s.overlay)
        && (1..=65_536).contains(&s.reads)
        && (1..=4_096).contains(&s.writes)
        && (1..=4_096).contains(&s.entries)
        && (1..=65_536).contains(&s.hashes)
        && (64..=1_048_576).contains(&s.active)
        && (9..=16_777_216).contains(&s.area)
}

/// The bytes that pairs take, with so many for each beside key and value.
fn size<'a>(beside: usize, pairs: impl Iterator<Item = (&'a Vec<u8>, &'a Vec<u8>)>) -> u64 {
    pairs.map(|(key, value)| (beside + key.len() + value.len()) as u64).sum()
}

/// 12 bytes plus key and value for each version.
fn run_size(run: &Run) -> u64 {
    size(12, run.iter().map(|((key, _), value)| (key, value)))
}

/// 1, then 2.
fn good_lengths(key: &[u8], value: &[u8]) -> Result<(), Error> {
    must(!key.is_empty(), Error::EmptyKey)?;
    must(key.len() <= 65_535 && value.len() <= 65_535, Error::TooLong)
}

impl Model {
    /// An opening in a buffer of `room` bytes: 12, then the runs from the first, then 5.
    pub fn open(settings: Settings, images: &[Vec<u8>], room: usize) -> Result<Model, Error> {
        must(in_ranges(settings), Error::BadSetting)?;
        let runs: Vec<Run> =
            images.iter().zip(1..).map(|(image, place)| opened_run(place, image)).collect::<Result<_, _>>()?;
        let bytes: u64 = images.iter().map(|image| image.len() as u64).sum();
        must(runs.len() <= 16 && bytes <= settings.area, Error::NoRoom)?;
        must(layout(settings).end <= room, Error::NoRoom)?;
        let clock = runs.iter().flat_map(Run::keys).map(|(_, Reverse(time))| *time).max().unwrap_or(0);
        let places = (0..settings.transactions).map(|_| None).collect();
        Ok(Model { settings, clock, counter: 0, places, history: BTreeMap::new(), active: Run::new(), runs })
    }

    /// The handles of the transactions that are open, or of those closed and not ended.
    pub fn handles(&self, open: bool) -> Vec<u64> {
        self.places.iter().flatten().filter(|t| t.open == open).map(|t| t.handle).collect()
    }

    fn place(&self, handle: Handle) -> Result<usize, Error> {
        self.places.iter().position(|p| p.as_ref().is_some_and(|t| t.handle == handle.0)).ok_or(Error::NoHandle)
    }

    fn transaction(&mut self, handle: Handle) -> Result<&mut Transaction, Error> {
        self.places.iter_mut().flatten().find(|t| t.handle == handle.0).ok_or(Error::NoHandle)
    }

    /// 3, then 4.
    fn open_transaction(&mut self, handle: Handle) -> Result<&mut Transaction, Error> {
        let transaction = self.transaction(handle)?;
        must(transaction.open, Error::Closed)?;
        Ok(transaction)
    }

    /// 5, then 7.
    pub fn begin(&mut self) -> Result<Begun, Error> {
        let free = self.places.iter().position(Option::is_none).ok_or(Error::NoRoom)?;
        must(self.counter < u64::MAX, Error::CounterFull)?;
        self.counter += 1;
        self.places[free] = Some(Transaction {
            handle: self.counter,
            read: self.clock,
            open: true,
            own: BTreeMap::new(),
            reads: BTreeSet::new(),
            writes: BTreeSet::new(),
        });
        Ok(Begun { handle: Handle(self.counter), read: self.clock })
    }

    /// What a transaction sees at a key: its own last write, else the version with the largest timestamp at or below
    /// its read number, from the earliest run that has it. An empty value is absent.
    fn seen(&self, place: usize, key: &[u8]) -> Option<Vec<u8>> {
        let transaction = self.places[place].as_ref()?;
        let snapshot = || {
            let mut newest: Option<(u64, &Vec<u8>)> = None;
            for run in std::iter::once(&self.active).chain(&self.runs) {
                for ((of, Reverse(time)), value) in run {
                    if of == key && *time <= transaction.read && newest.is_none_or(|(best, _)| *time > best) {
                        newest = Some((*time, value));
                    }
                }
            }
            newest.map(|(_, value)| value.clone())
        };
        let value = transaction.own.get(key).cloned().or_else(snapshot);
        value.filter(|value| !value.is_empty())
    }

    /// Adds a key's hash to the read set.
    fn note_read(&mut self, handle: Handle, key: &[u8]) -> Result<(), Error> {
        if self.settings.serializable {
            self.transaction(handle)?.reads.insert(hash(key));
        }
        Ok(())
    }

    /// Whether the read set has room for a key's hash.
    fn may_read(&mut self, handle: Handle, key: &[u8]) -> Result<(), Error> {
        let Settings { serializable, reads: room, .. } = self.settings;
        let reads = &self.transaction(handle)?.reads;
        must(!serializable || reads.contains(&hash(key)) || (reads.len() as u64) < room, Error::NoRoom)
    }

    /// 3, 4, 1, 2, 5; `room` is the length of the out buffer.
    pub fn get(&mut self, handle: Handle, key: &[u8], room: usize) -> Result<Option<Vec<u8>>, Error> {
        self.open_transaction(handle)?;
        good_lengths(key, b"")?;
        let answer = self.seen(self.place(handle)?, key);
        self.may_read(handle, key)?;
        must(answer.as_ref().is_none_or(|value| value.len() <= room), Error::NoRoom)?;
        self.note_read(handle, key)?;
        Ok(answer)
    }

    /// 3, 4, 5: the first present key within the bounds; `rooms` are the lengths of the out buffers.
    pub fn scan(
        &mut self,
        handle: Handle,
        bounds: (Bound<&[u8]>, Bound<&[u8]>),
        rooms: (usize, usize),
    ) -> Result<Option<Pair>, Error> {
        self.open_transaction(handle)?;
        let place = self.place(handle)?;
        let own = self.places[place].iter().flat_map(|t| t.own.keys());
        let versions = std::iter::once(&self.active).chain(&self.runs).flat_map(Run::keys).map(|(key, _)| key);
        let keys: BTreeSet<&Vec<u8>> = own.chain(versions).filter(|key| bounds.contains(key.as_slice())).collect();
        let first = keys.into_iter().find_map(|key| Some((key.clone(), self.seen(place, key)?)));
        let Some((key, value)) = first else { return Ok(None) };
        self.may_read(handle, &key)?;
        must(key.len() <= rooms.0 && value.len() <= rooms.1, Error::NoRoom)?;
        self.note_read(handle, &key)?;
        Ok(Some((key, value)))
    }

    /// 3, 4, 1, 2, 5; a deletion is a put of an empty value.
    pub fn put(&mut self, handle: Handle, key: &[u8], value: &[u8]) -> Result<(), Error> {
        let Settings { serializable, overlay, writes: room, .. } = self.settings;
        let transaction = self.open_transaction(handle)?;
        good_lengths(key, value)?;
        let mut own = transaction.own.clone();
        own.insert(key.to_vec(), value.to_vec());
        let mut writes = transaction.writes.clone();
        if serializable {
            writes.insert(hash(key));
        }
        must(size(4, own.iter()) <= overlay && writes.len() as u64 <= room, Error::NoRoom)?;
        (transaction.own, transaction.writes) = (own, writes);
        Ok(())
    }

    /// 3, 4, 6, 7, 5.
    pub fn commit(&mut self, handle: Handle) -> Result<Option<u64>, Error> {
        self.open_transaction(handle)?;
        let place = self.place(handle)?;
        let transaction = self.places[place].as_mut().ok_or(Error::NoHandle)?;
        if transaction.own.is_empty() {
            transaction.open = false;
            return Ok(None);
        }
        let above = (Bound::Excluded(transaction.read), Bound::Unbounded);
        let mut since = self.history.iter().filter(|(number, _)| above.contains(*number));
        if since.any(|(_, hashes)| !hashes.is_disjoint(&transaction.reads)) {
            transaction.open = false;
            return Err(Error::Conflict);
        }
        let next = self.clock.checked_add(1).ok_or(Error::CounterFull)?;

        let mut history = self.history.clone();
        let watermark = self.places.iter().flatten().map(|t| t.read).min().unwrap_or(next);
        let transaction = self.places[place].as_ref().ok_or(Error::NoHandle)?;
        if self.settings.serializable {
            history.retain(|number, _| *number >= watermark);
            history.insert(next, transaction.writes.clone());
        }
        let hashes: usize = history.values().map(BTreeSet::len).sum();
        must(history.len() as u64 <= self.settings.entries && hashes as u64 <= self.settings.hashes, Error::NoRoom)?;

        let mut active = self.active.clone();
        active.extend(transaction.own.iter().map(|(key, value)| ((key.clone(), Reverse(next)), value.clone())));
        must(run_size(&active) <= self.settings.active, Error::NoRoom)?;

        (self.clock, self.history, self.active) = (next, history, active);
        self.transaction(handle)?.open = false;
        Ok(Some(next))
    }

    /// 3.
    pub fn end(&mut self, handle: Handle) -> Result<(), Error> {
        let place = self.place(handle)?;
        self.places[place] = None;
        Ok(())
    }

    /// 5.
    pub fn freeze(&mut self) -> Result<(), Error> {
        if self.active.is_empty() {
            return Ok(());
        }
        let bytes: u64 = self.runs.iter().chain([&self.active]).map(|run| 9 + run_size(run)).sum();
        must(self.runs.len() < 16 && bytes <= self.settings.area, Error::NoRoom)?;
        self.runs.insert(0, std::mem::take(&mut self.active));
        Ok(())
    }

    // ---- the state's bytes

    /// Writes the store over the bytes of a state, as docs/STATE.md lays it out. What it does not use stays.
    pub fn write_over(&self, bytes: &mut [u8]) {
        let parts = layout(self.settings);
        for (i, number) in self.settings.numbers().into_iter().enumerate() {
            set_number(bytes, 8 * i, number);
        }
        set_number(bytes, CLOCK, self.clock);
        set_number(bytes, COUNTER, self.counter);
        write_list(bytes, ROWS, &self.rows());
        write_list(bytes, parts.history, &self.commits());
        write_list(bytes, parts.active, &records(&self.active));
        let images = self.runs.iter().rev().map(image);
        let area: Vec<u8> = images.flat_map(|i| [&(i.len() as u64).to_be_bytes()[..], &i].concat()).collect();
        write_list(bytes, parts.area, &area);
        for (i, place) in self.places.iter().enumerate() {
            let at = parts.places + i * parts.stride;
            set_number(bytes, at, place.as_ref().map_or(0, |t| t.handle));
            let Some(transaction) = place else { continue };
            set_number(bytes, at + 8, transaction.read);
            set_number(bytes, at + 16, u64::from(transaction.open));
            write_list(bytes, at + 24, &pairs(&transaction.own));
            write_list(bytes, at + parts.reads, &set(&transaction.reads));
            write_list(bytes, at + parts.writes, &set(&transaction.writes));
        }
    }

    /// The reader rows: each timestamp with a reader, and how many there are.
    fn rows(&self) -> Vec<u8> {
        let mut rows = BTreeMap::new();
        for transaction in self.places.iter().flatten() {
            *rows.entry(transaction.read).or_insert(0u64) += 1;
        }
        rows.into_iter().flat_map(|(time, count)| [time.to_be_bytes(), count.to_be_bytes()].concat()).collect()
    }

    /// The entries of the history.
    fn commits(&self) -> Vec<u8> {
        let entries = self.history.iter();
        entries
            .flat_map(|(number, hashes)| {
                let set = set(hashes);
                [&number.to_be_bytes()[..], &(set.len() as u64).to_be_bytes(), &set].concat()
            })
            .collect()
    }
}

/// Writes a list: the number of its bytes, then these.
fn write_list(bytes: &mut [u8], at: usize, list: &[u8]) {
    set_number(bytes, at, list.len() as u64);
    bytes[at + 8..at + 8 + list.len()].copy_from_slice(list);
}

/// The hashes of a set, rising.
fn set(hashes: &BTreeSet<u32>) -> Vec<u8> {
    hashes.iter().flat_map(|hash| hash.to_be_bytes()).collect()
}

/// The pairs of an overlay.
fn pairs(own: &BTreeMap<Vec<u8>, Vec<u8>>) -> Vec<u8> {
    let sized = |bytes: &Vec<u8>| [&(bytes.len() as u16).to_be_bytes()[..], bytes].concat();
    own.iter().flat_map(|(key, value)| [sized(key), sized(value)].concat()).collect()
}
