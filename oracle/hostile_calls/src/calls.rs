//! What each call answers and what it writes, by document 01's sentences.

use crate::layout::*;
use crate::store::*;

/// A call with its arguments, without the buffers that it may write.
#[derive(Clone, Copy)]
pub enum Call<'k> {
    Sound,
    Begin,
    Get { handle: u64, key: &'k [u8] },
    Scan { handle: u64, low: (u64, &'k [u8]), high: (u64, &'k [u8]) },
    Put { handle: u64, key: &'k [u8], value: &'k [u8] },
    Delete { handle: u64, key: &'k [u8] },
    Commit { handle: u64 },
    End { handle: u64 },
    Freeze,
    Open { settings: [u64; 9], images: &'k [u8], lengths: &'k [u64] },
}

pub const NAMES: [&str; 10] = ["sound", "begin", "get", "scan", "put", "delete", "commit", "end", "freeze", "open"];

impl Call<'_> {
    pub fn name(&self) -> usize {
        match self {
            Call::Sound => 0,
            Call::Begin => 1,
            Call::Get { .. } => 2,
            Call::Scan { .. } => 3,
            Call::Put { .. } => 4,
            Call::Delete { .. } => 5,
            Call::Commit { .. } => 6,
            Call::End { .. } => 7,
            Call::Freeze => 8,
            Call::Open { .. } => 9,
        }
    }
}

/// The lengths of the buffers that a call may write beside the state; `value` is the one of a get too.
#[derive(Clone, Copy, Debug)]
pub struct Lent {
    pub key: usize,
    pub value: usize,
    pub reply: usize,
}

/// What a call gives back: its number, the values of its reply, and what stands in front of the out buffers after it.
#[derive(Clone, Copy)]
pub struct Answer<'a> {
    pub number: u64,
    values: [u64; 3],
    count: usize,
    pub key: &'a [u8],
    pub value: &'a [u8],
}

impl<'a> Answer<'a> {
    pub fn new(number: u64, told: &[u64]) -> Answer<'a> {
        let mut values = [0; 3];
        values[..told.len()].copy_from_slice(told);
        Answer { number, values, count: told.len(), key: &[], value: &[] }
    }

    fn with(self, key: &'a [u8], value: &'a [u8]) -> Answer<'a> {
        Answer { key, value, ..self }
    }

    pub fn values(&self) -> &[u64] {
        &self.values[..self.count]
    }
}

const DONE: u64 = 0;
const EMPTY_KEY: u64 = 1;
const TOO_LONG: u64 = 2;
const NO_HANDLE: u64 = 3;
const CLOSED: u64 = 4;
const NO_ROOM: u64 = 5;
const CONFLICT: u64 = 6;
const COUNTER_FULL: u64 = 7;
pub const UNSOUND: u64 = 9;
const BAD_SETTING: u64 = 12;

const LONGEST: usize = 65_535;

/// What a call answers on a state. `store` is what the state holds, if it is sound. `after` has the state's bytes, and
/// becomes what they are to be after the call.
pub fn expected<'a>(store: Option<&Store<'a>>, call: &Call, lent: Lent, after: &mut [u8]) -> Answer<'a> {
    let told = match (call, store) {
        (Call::Sound, _) => Ok(Answer::new(u64::from(store.is_some()), &[])),
        (Call::Open { settings, images, lengths }, _) => return open(*settings, images, lengths, after),
        (_, None) => Err(UNSOUND),
        (Call::Begin, Some(store)) => begin(store, after),
        (Call::Get { handle, key }, Some(store)) => get(store, *handle, key, lent, after),
        (Call::Scan { handle, low, high }, Some(store)) => scan(store, *handle, *low, *high, lent, after),
        (Call::Put { handle, key, value }, Some(store)) => put(store, *handle, key, value, after),
        (Call::Delete { handle, key }, Some(store)) => put(store, *handle, key, b"", after),
        (Call::Commit { handle }, Some(store)) => commit(store, *handle, after),
        (Call::End { handle }, Some(store)) => end(store, *handle, after),
        (Call::Freeze, Some(store)) => freeze(store, after),
    };
    told.unwrap_or_else(|number| Answer::new(number, &[]))
}

type Told<'a> = Result<Answer<'a>, u64>;

// ---- what calls share

/// The transaction of a handle with its place: 3 where none was begun and not ended under it.
fn named<'s, 'a>(store: &'s Store<'a>, handle: u64) -> Result<(usize, &'s Txn<'a>), u64> {
    let found = store.places.iter().enumerate().find_map(|(at, place)| {
        let txn = place.as_ref()?;
        (txn.handle == handle).then_some((at, txn))
    });
    found.ok_or(NO_HANDLE)
}

/// The same of one that is open: 3, 4.
fn open_one<'s, 'a>(store: &'s Store<'a>, handle: u64) -> Result<(usize, &'s Txn<'a>), u64> {
    let (at, txn) = named(store, handle)?;
    if txn.open {
        Ok((at, txn))
    } else {
        Err(CLOSED)
    }
}

/// 1, 2.
fn lengths_allowed(key: &[u8], value: &[u8]) -> Result<(), u64> {
    if key.is_empty() {
        Err(EMPTY_KEY)
    } else if key.len() > LONGEST || value.len() > LONGEST {
        Err(TOO_LONG)
    } else {
        Ok(())
    }
}

/// The set with the key's hash in it; none where "in the other mode no set .. is kept" or it is in it already. "Hash new
/// and set full" is no room.
fn set_with(serializable: bool, set: &[u32], key: &[u8], room: usize) -> Result<Option<Vec<u32>>, u64> {
    let hash = fnv1a(key);
    if !serializable || set.contains(&hash) {
        return Ok(None);
    }
    if set.len() == room {
        return Err(NO_ROOM);
    }
    let mut set = set.to_vec();
    set.push(hash);
    set.sort_unstable();
    Ok(Some(set))
}

fn put_set(after: &mut [u8], at: usize, set: &[u32]) {
    let bytes: Vec<u8> = set.iter().flat_map(|hash| hash.to_be_bytes()).collect();
    put_list(after, at, &bytes);
}

fn put_rows(after: &mut [u8], rows: &[(u64, u64)]) {
    let mut bytes = Vec::with_capacity(16 * rows.len());
    for (time, count) in rows {
        bytes.extend(time.to_be_bytes());
        bytes.extend(count.to_be_bytes());
    }
    put_list(after, ROWS, &bytes);
}

/// "Overlay: the transaction's own last write of a key hides the snapshot." "Visible at r: for a key, the version with
/// the largest timestamp at or below r. If there is none, or its value is empty, the key is absent." Of versions equal
/// in key and timestamp the one from the earliest run counts.
fn seen<'a>(store: &Store<'a>, txn: &Txn<'a>, key: &[u8]) -> Option<&'a [u8]> {
    let written = txn.own.iter().find(|(own, _)| *own == key).map(|(_, value)| *value);
    let value = written.or_else(|| {
        let (mut newest, mut value) = (0, None);
        for version in store.in_order().flatten() {
            let visible = version.key == key && version.time <= txn.read;
            if visible && (value.is_none() || version.time > newest) {
                (newest, value) = (version.time, Some(version.value));
            }
        }
        value
    });
    value.filter(|value| !value.is_empty())
}

// ---- the calls, each after the check of the state

/// "Begin: 9, 5, 7." "A new transaction gets the next handle, .. reads at the clock and is one reader of that timestamp."
fn begin<'a>(store: &Store<'a>, after: &mut [u8]) -> Told<'a> {
    let place = store.places.iter().position(Option::is_none).ok_or(NO_ROOM)?;
    let handle = store.counter.checked_add(1).ok_or(COUNTER_FULL)?;
    let mut readers: Vec<u64> = store.transactions().map(|txn| txn.read).collect();
    readers.push(store.clock);
    put_number(after, COUNTER, 8, handle);
    put_rows(after, &rows_of(readers));
    let at = store.settings.place_at(place);
    put_number(after, at, 8, handle);
    put_number(after, at + PLACE_READ, 8, store.clock);
    put_number(after, at + PLACE_MARK, 8, 1);
    put_list(after, at + PLACE_OVERLAY, &[]);
    put_list(after, at + store.settings.place_reads(), &[]);
    put_list(after, at + store.settings.place_writes(), &[]);
    Ok(Answer::new(DONE, &[handle, store.clock]))
}

/// "A get that answers, present or absent, adds its key's hash to the read set, own writes included."
fn get<'a>(store: &Store<'a>, handle: u64, key: &[u8], lent: Lent, after: &mut [u8]) -> Told<'a> {
    let (place, txn) = open_one(store, handle)?;
    lengths_allowed(key, b"")?;
    let settings = &store.settings;
    let reads = set_with(settings.serializable, &txn.reads, key, settings.reads)?;
    let answer = seen(store, txn, key);
    if answer.is_some_and(|value| value.len() > lent.value) {
        return Err(NO_ROOM);
    }
    if let Some(set) = reads {
        put_set(after, settings.place_at(place) + settings.place_reads(), &set);
    }
    Ok(match answer {
        Some(value) => Answer::new(DONE, &[1, value.len() as u64]).with(b"", value),
        None => Answer::new(DONE, &[0]),
    })
}

/// A key within bounds; kinds are 0 included, 1 excluded, and any other unbounded.
fn within(key: &[u8], low: (u64, &[u8]), high: (u64, &[u8])) -> bool {
    let above = match low.0 {
        0 => key >= low.1,
        1 => key > low.1,
        _ => true,
    };
    let below = match high.0 {
        0 => key <= high.1,
        1 => key < high.1,
        _ => true,
    };
    above && below
}

/// "A scan answers with the first present key within the bounds." "A scan answer adds the key handed out; skipped keys
/// and the end add nothing."
fn scan<'a>(
    store: &Store<'a>,
    handle: u64,
    low: (u64, &[u8]),
    high: (u64, &[u8]),
    lent: Lent,
    after: &mut [u8],
) -> Told<'a> {
    let (place, txn) = open_one(store, handle)?;
    let own = txn.own.iter().map(|(key, _)| *key);
    let stored = store.in_order().flatten().map(|version| version.key);
    let mut keys: Vec<&[u8]> = own.chain(stored).filter(|key| within(key, low, high)).collect();
    keys.sort_unstable();
    keys.dedup();
    let Some((key, value)) = keys.into_iter().find_map(|key| Some((key, seen(store, txn, key)?))) else {
        return Ok(Answer::new(DONE, &[0]));
    };
    let settings = &store.settings;
    let reads = set_with(settings.serializable, &txn.reads, key, settings.reads)?;
    if key.len() > lent.key || value.len() > lent.value {
        return Err(NO_ROOM);
    }
    if let Some(set) = reads {
        put_set(after, settings.place_at(place) + settings.place_reads(), &set);
    }
    Ok(Answer::new(DONE, &[1, key.len() as u64, value.len() as u64]).with(key, value))
}

/// "Put and delete add to the write set." "Overlay after the write above its limit (4 bytes plus key and value for each
/// entry, a replaced value counted no more)" is no room.
fn put<'a>(store: &Store<'a>, handle: u64, key: &[u8], value: &[u8], after: &mut [u8]) -> Told<'a> {
    let (place, txn) = open_one(store, handle)?;
    lengths_allowed(key, value)?;
    let settings = &store.settings;
    let mut own: Vec<(&[u8], &[u8])> = txn.own.iter().copied().filter(|(old, _)| *old != key).collect();
    own.push((key, value));
    own.sort_unstable_by_key(|(key, _)| *key);
    let size: usize = own.iter().map(|(key, value)| 4 + key.len() + value.len()).sum();
    if size > settings.overlay {
        return Err(NO_ROOM);
    }
    let writes = set_with(settings.serializable, &txn.writes, key, settings.writes)?;
    let mut bytes = Vec::with_capacity(size);
    for (key, value) in own {
        bytes.extend((key.len() as u16).to_be_bytes());
        bytes.extend(key);
        bytes.extend((value.len() as u16).to_be_bytes());
        bytes.extend(value);
    }
    let at = settings.place_at(place);
    put_list(after, at + PLACE_OVERLAY, &bytes);
    if let Some(set) = writes {
        put_set(after, at + settings.place_writes(), &set);
    }
    Ok(Answer::new(DONE, &[]))
}

/// The bytes of a version.
pub fn put_version(bytes: &mut Vec<u8>, key: &[u8], time: u64, value: &[u8]) {
    bytes.extend((key.len() as u16).to_be_bytes());
    bytes.extend(key);
    bytes.extend(time.to_be_bytes());
    bytes.extend((value.len() as u16).to_be_bytes());
    bytes.extend(value);
}

/// "Commit: 9, 3, 4, 6, 7, 5."
fn commit<'a>(store: &Store<'a>, handle: u64, after: &mut [u8]) -> Told<'a> {
    let (place, txn) = open_one(store, handle)?;
    let settings = &store.settings;
    let mark = settings.place_at(place) + PLACE_MARK;
    // "Commit without writes: accepted, nothing checked or stored; the clock stays."
    if txn.own.is_empty() {
        put_number(after, mark, 8, 0);
        return Ok(Answer::new(DONE, &[0]));
    }
    // "Conflict: there are writes, and a history entry with commit number above the read timestamp shares a hash with
    // the read set."
    let mut later = store.history.iter().filter(|(number, _)| *number > txn.read);
    if later.any(|(_, hashes)| hashes.iter().any(|hash| txn.reads.contains(hash))) {
        put_number(after, mark, 8, 0);
        return Err(CONFLICT);
    }
    let number = store.clock.checked_add(1).ok_or(COUNTER_FULL)?;
    // "The write hashes enter the history under that number and entries strictly below the watermark leave." Of the
    // readers there is at least this one.
    let watermark = store.transactions().map(|txn| txn.read).min().unwrap_or(number);
    let mut history: Vec<(u64, &[u32])> = Vec::new();
    if settings.serializable {
        let kept = store.history.iter().filter(|(number, _)| *number >= watermark);
        history.extend(kept.map(|(number, hashes)| (*number, hashes.as_slice())));
        history.push((number, &txn.writes));
    }
    let hashes: usize = history.iter().map(|(_, hashes)| hashes.len()).sum();
    if history.len() > settings.entries || hashes > settings.hashes {
        return Err(NO_ROOM);
    }
    // "Each overlay entry becomes a version with that timestamp in the active run."
    let mut active: Vec<(&[u8], u64, &[u8])> =
        store.active.iter().map(|version| (version.key, version.time, version.value)).collect();
    active.extend(txn.own.iter().map(|(key, value)| (*key, number, *value)));
    active.sort_by(|a, b| a.0.cmp(b.0).then(b.1.cmp(&a.1)));
    let mut run = Vec::new();
    for (key, time, value) in active {
        put_version(&mut run, key, time, value);
    }
    if run.len() > settings.active {
        return Err(NO_ROOM);
    }
    put_number(after, CLOCK, 8, number);
    put_number(after, mark, 8, 0);
    put_list(after, settings.active_at(), &run);
    if settings.serializable {
        let mut bytes = Vec::new();
        for (number, hashes) in history {
            bytes.extend(number.to_be_bytes());
            bytes.extend((4 * hashes.len() as u64).to_be_bytes());
            bytes.extend(hashes.iter().flat_map(|hash| hash.to_be_bytes()));
        }
        put_list(after, settings.history_at(), &bytes);
    }
    Ok(Answer::new(DONE, &[1, number]))
}

/// "End: 9, 3; a closed transaction may be ended, and writes not committed are dropped."
fn end<'a>(store: &Store<'a>, handle: u64, after: &mut [u8]) -> Told<'a> {
    let (place, _) = named(store, handle)?;
    let others = store.transactions().filter(|txn| txn.handle != handle);
    put_rows(after, &rows_of(others.map(|txn| txn.read).collect()));
    put_number(after, store.settings.place_at(place), 8, 0);
    Ok(Answer::new(DONE, &[]))
}

/// The bytes of an image over the records of a run.
pub fn image_over(count: usize, records: &[u8]) -> Vec<u8> {
    let mut image = b"RUN\0\x01".to_vec();
    image.extend((count as u32).to_be_bytes());
    image.extend(records);
    image
}

/// "Freezing makes the active run such an image, first among the frozen, and empties it; freezing an empty one changes
/// nothing."
fn freeze<'a>(store: &Store<'a>, after: &mut [u8]) -> Told<'a> {
    if store.active.is_empty() {
        return Ok(Answer::new(DONE, &[]));
    }
    let mut records = Vec::new();
    for version in &store.active {
        put_version(&mut records, version.key, version.time, version.value);
    }
    let image = image_over(store.active.len(), &records);
    let taken: usize = store.images.iter().map(|bytes| bytes.len()).sum();
    if store.images.len() == MOST_RUNS || taken + image.len() > store.settings.area {
        return Err(NO_ROOM);
    }
    let mut images = store.images.clone();
    images.push(&image);
    put_list(after, store.settings.active_at(), &[]);
    put_list(after, store.settings.area_at(), &area_over(images.into_iter()));
    Ok(Answer::new(DONE, &[]))
}

/// The used bytes of the run area: "images, each with its length in 8 bytes".
fn area_over<'i>(images: impl Iterator<Item = &'i [u8]>) -> Vec<u8> {
    let mut bytes = Vec::new();
    for image in images {
        bytes.extend((image.len() as u64).to_be_bytes());
        bytes.extend(image);
    }
    bytes
}

/// "Open: 12, then the runs from the first, 10 or 11, then 5." "The clock at opening is the largest timestamp among the
/// records of all runs, 0 if there are none."
fn open<'a>(numbers: [u64; 9], images: &[u8], lengths: &[u64], after: &mut [u8]) -> Answer<'a> {
    let Some(settings) = Settings::of(numbers) else {
        return Answer::new(BAD_SETTING, &[]);
    };
    let mut rest = images;
    let mut taken = Vec::new();
    let mut clock = 0;
    for (k, length) in lengths.iter().enumerate() {
        let place = k as u64 + 1;
        // An image that ends past the bytes lent is cut.
        if *length > rest.len() as u64 {
            return Answer::new(10, &[place]);
        }
        let (bytes, behind) = rest.split_at(*length as usize);
        rest = behind;
        match image(bytes) {
            Err(number) => return Answer::new(number, &[place]),
            Ok(run) => clock = run.iter().map(|version| version.time).fold(clock, u64::max),
        }
        taken.push(bytes);
    }
    let size: usize = taken.iter().map(|bytes| bytes.len()).sum();
    if taken.len() > MOST_RUNS || size > settings.area || after.len() < settings.length() {
        return Answer::new(NO_ROOM, &[]);
    }
    for (k, n) in numbers.into_iter().enumerate() {
        put_number(after, 8 * k, 8, n);
    }
    put_number(after, CLOCK, 8, clock);
    put_number(after, COUNTER, 8, 0);
    put_list(after, ROWS, &[]);
    put_list(after, settings.history_at(), &[]);
    put_list(after, settings.active_at(), &[]);
    put_list(after, settings.area_at(), &area_over(taken.into_iter().rev()));
    for place in 0..settings.transactions {
        put_number(after, settings.place_at(place), 8, 0);
    }
    Answer::new(DONE, &[])
}
