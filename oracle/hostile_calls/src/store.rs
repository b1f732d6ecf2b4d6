//! What the bytes of a state hold, read by `docs/STATE.md`, and document 01's state rules.

use crate::layout::*;

pub struct Version<'a> {
    pub key: &'a [u8],
    pub time: u64,
    pub value: &'a [u8],
}

pub type Run<'a> = Vec<Version<'a>>;

pub struct Txn<'a> {
    pub handle: u64,
    pub read: u64,
    pub open: bool,
    /// Its own writes, key and value each.
    pub own: Vec<(&'a [u8], &'a [u8])>,
    pub reads: Vec<u32>,
    pub writes: Vec<u32>,
}

pub struct Store<'a> {
    pub settings: Settings,
    pub clock: u64,
    /// The last handle given out.
    pub counter: u64,
    /// The readers' rows, timestamp and count each.
    pub rows: Vec<(u64, u64)>,
    /// The commits, number and hashes each.
    pub history: Vec<(u64, Vec<u32>)>,
    pub active: Run<'a>,
    /// The images of the run area as they lie there: the last in run order first.
    pub images: Vec<&'a [u8]>,
    /// The runs of these images, in the same order.
    pub runs: Vec<Run<'a>>,
    pub places: Vec<Option<Txn<'a>>>,
}

impl<'a> Store<'a> {
    pub fn transactions(&self) -> impl Iterator<Item = &Txn<'a>> {
        self.places.iter().flatten()
    }

    /// "Run order: the active run, frozen runs from newest to oldest, opening runs as given."
    pub fn in_order(&self) -> impl Iterator<Item = &Run<'a>> {
        std::iter::once(&self.active).chain(self.runs.iter().rev())
    }
}

/// "Start 2166136261; for each byte, exclusive-or, then times 16777619, and the product wraps at 32 bits."
pub fn fnv1a(key: &[u8]) -> u32 {
    key.iter().fold(2_166_136_261, |hash, byte| (hash ^ u32::from(*byte)).wrapping_mul(16_777_619))
}

// ---- reading

struct Cursor<'a> {
    rest: &'a [u8],
}

impl<'a> Cursor<'a> {
    fn take(&mut self, count: u64) -> Option<&'a [u8]> {
        if count > self.rest.len() as u64 {
            return None;
        }
        let (taken, rest) = self.rest.split_at(count as usize);
        self.rest = rest;
        Some(taken)
    }

    fn number(&mut self, width: u64) -> Option<u64> {
        self.take(width).map(number)
    }

    /// Bytes with the number of them in front.
    fn sized(&mut self, width: u64) -> Option<&'a [u8]> {
        let count = self.number(width)?;
        self.take(count)
    }

    fn version(&mut self) -> Option<Version<'a>> {
        let key = self.sized(2)?;
        let time = self.number(8)?;
        let value = self.sized(2)?;
        Some(Version { key, time, value })
    }
}

/// The used bytes of a list in its room.
fn used(state: &[u8], at: usize, room: usize) -> Option<&[u8]> {
    let count = number_at(state, at, 8);
    (count <= room as u64).then(|| &state[at + 8..at + 8 + count as usize])
}

/// Reads things one after the other to the end of the bytes.
fn many<'a, T>(bytes: &'a [u8], read: impl Fn(&mut Cursor<'a>) -> Option<T>) -> Option<Vec<T>> {
    let mut cursor = Cursor { rest: bytes };
    let mut things = Vec::new();
    while !cursor.rest.is_empty() {
        things.push(read(&mut cursor)?);
    }
    Some(things)
}

fn hashes(bytes: &[u8]) -> Option<Vec<u32>> {
    if !bytes.len().is_multiple_of(4) {
        return None;
    }
    Some(bytes.chunks_exact(4).map(|four| number(four) as u32).collect())
}

/// What is wrong with an image's form.
#[derive(Clone, Copy, PartialEq)]
pub enum Form {
    Broken,
    Foreign,
}

/// The records of an image in their order, whatever they are; "nothing after the last record".
pub fn image_records(bytes: &[u8]) -> Result<Run<'_>, Form> {
    let mut cursor = Cursor { rest: bytes };
    if cursor.take(3) != Some(b"RUN") {
        return Err(Form::Broken);
    }
    let version = cursor.number(2).ok_or(Form::Broken)?;
    if version != 1 {
        return Err(Form::Foreign);
    }
    let count = cursor.number(4).ok_or(Form::Broken)?;
    let mut run = Vec::new();
    for _ in 0..count {
        run.push(cursor.version().ok_or(Form::Broken)?);
    }
    if cursor.rest.is_empty() {
        Ok(run)
    } else {
        Err(Form::Broken)
    }
}

/// "Key bytes ascending (a prefix first), then timestamp descending", strictly.
pub fn run_rises(run: &[Version]) -> bool {
    run.windows(2).all(|two| {
        let (first, second) = (&two[0], &two[1]);
        first.key < second.key || (first.key == second.key && first.time > second.time)
    })
}

pub fn no_empty_key(run: &[Version]) -> bool {
    run.iter().all(|version| !version.key.is_empty())
}

/// The verdict on an opening run: its records, or 10 or 11.
pub fn image(bytes: &[u8]) -> Result<Run<'_>, u64> {
    match image_records(bytes) {
        Err(Form::Broken) => Err(10),
        Err(Form::Foreign) => Err(11),
        Ok(run) if run_rises(&run) && no_empty_key(&run) => Ok(run),
        Ok(_) => Err(10),
    }
}

/// The rules that bytes may break. The first eleven are of the form: bytes that break one can't be read as a store.
#[derive(Clone, Copy, Debug, PartialEq)]
#[repr(u8)]
pub enum Rule {
    HeadShort,
    SettingsRange,
    BufferShort,
    RowsForm,
    HistoryForm,
    ActiveForm,
    AreaForm,
    MarkForm,
    OverlayForm,
    SetForm,
    ImageForm,
    OverlayRises,
    OverlayKeys,
    SetRepeats,
    WriteSetExact,
    SetsOtherMode,
    HistoryOtherMode,
    RowsExact,
    HandlesDistinct,
    HandlesCounter,
    HistoryRises,
    HistoryHashes,
    HistoryEntriesRoom,
    HistoryHashesRoom,
    CommitClock,
    ReadClock,
    ActiveClock,
    RunsClock,
    ActiveRises,
    ActiveKeys,
    RunsRise,
    RunsKeys,
    ActiveNewer,
    RunsCount,
    AreaRoom,
}

pub const RULES: [(Rule, &str); 35] = [
    (Rule::HeadShort, "fewer bytes than the settings have"),
    (Rule::SettingsRange, "settings in range"),
    (Rule::BufferShort, "the buffer long enough for them"),
    (Rule::RowsForm, "reader rows within their room, and whole"),
    (Rule::HistoryForm, "history within its bytes, and whole"),
    (Rule::ActiveForm, "active run within room, and whole"),
    (Rule::AreaForm, "run area within its bytes, and whole"),
    (Rule::MarkForm, "a transaction's mark is 0 or 1"),
    (Rule::OverlayForm, "overlay within room, and whole"),
    (Rule::SetForm, "read and write set within room, and whole"),
    (Rule::ImageForm, "runs sound: mark, version, count, nothing behind"),
    (Rule::OverlayRises, "overlays strictly rising"),
    (Rule::OverlayKeys, "no empty key in an overlay"),
    (Rule::SetRepeats, "sets without repeats, rising"),
    (Rule::WriteSetExact, "write set exactly the overlay keys' hashes"),
    (Rule::SetsOtherMode, "sets empty in the other mode"),
    (Rule::HistoryOtherMode, "history empty in the other mode"),
    (Rule::RowsExact, "rows rise strictly, count the transactions"),
    (Rule::HandlesDistinct, "handles distinct"),
    (Rule::HandlesCounter, "handles up to the counter"),
    (Rule::HistoryRises, "history strictly rising"),
    (Rule::HistoryHashes, "a commit's hashes without repeats, rising"),
    (Rule::HistoryEntriesRoom, "history entries within their limit"),
    (Rule::HistoryHashesRoom, "history hashes within their limit"),
    (Rule::CommitClock, "commit numbers up to the clock"),
    (Rule::ReadClock, "read numbers up to the clock"),
    (Rule::ActiveClock, "versions of the active run up to the clock"),
    (Rule::RunsClock, "versions of other runs up to the clock"),
    (Rule::ActiveRises, "active run sound: strictly rising"),
    (Rule::ActiveKeys, "active run sound: no empty key"),
    (Rule::RunsRise, "other runs sound: strictly rising"),
    (Rule::RunsKeys, "other runs sound: no empty key"),
    (Rule::ActiveNewer, "active versions newer than all in other runs"),
    (Rule::RunsCount, "at most 16 runs"),
    (Rule::AreaRoom, "run area within its limit"),
];

/// A set of rules.
#[derive(Clone, Copy, PartialEq)]
pub struct Rules(pub u64);

impl Rules {
    pub const NONE: Rules = Rules(0);

    fn of(rule: Rule) -> Rules {
        Rules(1 << rule as u8)
    }

    /// Adds the rule where it does not hold.
    fn need(&mut self, rule: Rule, holds: bool) {
        if !holds {
            self.0 |= Rules::of(rule).0;
        }
    }

    pub fn has(&self, rule: Rule) -> bool {
        self.0 & Rules::of(rule).0 != 0
    }

    pub fn count(&self) -> u32 {
        self.0.count_ones()
    }

    pub fn without(self, rule: Option<Rule>) -> Rules {
        rule.map_or(self, |rule| Rules(self.0 & !Rules::of(rule).0))
    }
}

fn place<'a>(state: &'a [u8], settings: &Settings, at: usize) -> Result<Option<Txn<'a>>, Rule> {
    let handle = number_at(state, at, 8);
    if handle == 0 {
        return Ok(None);
    }
    let open = match number_at(state, at + PLACE_MARK, 8) {
        0 => false,
        1 => true,
        _ => return Err(Rule::MarkForm),
    };
    let own = used(state, at + PLACE_OVERLAY, settings.overlay)
        .and_then(|bytes| many(bytes, |cursor| Some((cursor.sized(2)?, cursor.sized(2)?))))
        .ok_or(Rule::OverlayForm)?;
    let reads = used(state, at + settings.place_reads(), 4 * settings.reads).and_then(hashes).ok_or(Rule::SetForm)?;
    let writes =
        used(state, at + settings.place_writes(), 4 * settings.writes).and_then(hashes).ok_or(Rule::SetForm)?;
    Ok(Some(Txn { handle, read: number_at(state, at + PLACE_READ, 8), open, own, reads, writes }))
}

/// Reads the parts; the first one that does not read is told.
fn read(state: &[u8]) -> Result<Store<'_>, Rule> {
    if state.len() < CLOCK {
        return Err(Rule::HeadShort);
    }
    let mut numbers = [0; 9];
    for (k, n) in numbers.iter_mut().enumerate() {
        *n = number_at(state, 8 * k, 8);
    }
    let settings = Settings::of(numbers).ok_or(Rule::SettingsRange)?;
    if state.len() < settings.length() {
        return Err(Rule::BufferShort);
    }
    let rows = used(state, ROWS, settings.rows_room())
        .and_then(|bytes| many(bytes, |cursor| Some((cursor.number(8)?, cursor.number(8)?))))
        .ok_or(Rule::RowsForm)?;
    let history = used(state, settings.history_at(), settings.history_room())
        .and_then(|bytes| many(bytes, |cursor| Some((cursor.number(8)?, hashes(cursor.sized(8)?)?))))
        .ok_or(Rule::HistoryForm)?;
    let active = used(state, settings.active_at(), settings.active)
        .and_then(|bytes| many(bytes, Cursor::version))
        .ok_or(Rule::ActiveForm)?;
    let images = used(state, settings.area_at(), settings.area_room())
        .and_then(|bytes| many(bytes, |cursor| cursor.sized(8)))
        .ok_or(Rule::AreaForm)?;
    let mut runs = Vec::with_capacity(images.len());
    for bytes in &images {
        runs.push(image_records(bytes).map_err(|_| Rule::ImageForm)?);
    }
    let mut places = Vec::with_capacity(settings.transactions);
    for k in 0..settings.transactions {
        places.push(place(state, &settings, settings.place_at(k))?);
    }
    Ok(Store {
        settings,
        clock: number_at(state, CLOCK, 8),
        counter: number_at(state, COUNTER, 8),
        rows,
        history,
        active,
        images,
        runs,
        places,
    })
}

// ---- judging

fn rises<T: PartialOrd>(things: &[T]) -> bool {
    things.windows(2).all(|two| two[0] < two[1])
}

/// The rows that count exactly these readers, rising.
pub fn rows_of(mut readers: Vec<u64>) -> Vec<(u64, u64)> {
    readers.sort_unstable();
    let mut rows: Vec<(u64, u64)> = Vec::with_capacity(readers.len());
    for time in readers {
        match rows.last_mut() {
            Some(row) if row.0 == time => row.1 += 1,
            _ => rows.push((time, 1)),
        }
    }
    rows
}

/// The hashes of an overlay's keys, rising, each once.
pub fn hashes_of<'a>(keys: impl Iterator<Item = &'a [u8]>) -> Vec<u32> {
    let mut set: Vec<u32> = keys.map(fnv1a).collect();
    set.sort_unstable();
    set.dedup();
    set
}

/// The rules that a store breaks.
fn broken(store: &Store) -> Rules {
    let settings = &store.settings;
    let mut rules = Rules::NONE;
    for txn in store.transactions() {
        rules.need(Rule::OverlayRises, txn.own.windows(2).all(|two| two[0].0 < two[1].0));
        rules.need(Rule::OverlayKeys, txn.own.iter().all(|(key, _)| !key.is_empty()));
        rules.need(Rule::SetRepeats, rises(&txn.reads) && rises(&txn.writes));
        if settings.serializable {
            let exact = !txn.open || txn.writes == hashes_of(txn.own.iter().map(|(key, _)| *key));
            rules.need(Rule::WriteSetExact, exact);
        } else {
            rules.need(Rule::SetsOtherMode, txn.reads.is_empty() && txn.writes.is_empty());
        }
        rules.need(Rule::HandlesCounter, txn.handle <= store.counter);
        rules.need(Rule::ReadClock, txn.read <= store.clock);
    }
    let mut handles: Vec<u64> = store.transactions().map(|txn| txn.handle).collect();
    handles.sort_unstable();
    rules.need(Rule::HandlesDistinct, rises(&handles));
    rules.need(Rule::RowsExact, store.rows == rows_of(store.transactions().map(|txn| txn.read).collect()));

    rules.need(Rule::HistoryOtherMode, settings.serializable || store.history.is_empty());
    rules.need(Rule::HistoryRises, store.history.windows(2).all(|two| two[0].0 < two[1].0));
    rules.need(Rule::HistoryHashes, store.history.iter().all(|(_, set)| rises(set)));
    rules.need(Rule::HistoryEntriesRoom, store.history.len() <= settings.entries);
    let hash_count: usize = store.history.iter().map(|(_, set)| set.len()).sum();
    rules.need(Rule::HistoryHashesRoom, hash_count <= settings.hashes);
    rules.need(Rule::CommitClock, store.history.iter().all(|(number, _)| *number <= store.clock));

    let up_to_clock = |run: &Run| run.iter().all(|version| version.time <= store.clock);
    rules.need(Rule::ActiveClock, up_to_clock(&store.active));
    rules.need(Rule::RunsClock, store.runs.iter().all(up_to_clock));
    rules.need(Rule::ActiveRises, run_rises(&store.active));
    rules.need(Rule::ActiveKeys, no_empty_key(&store.active));
    rules.need(Rule::RunsRise, store.runs.iter().all(|run| run_rises(run)));
    rules.need(Rule::RunsKeys, store.runs.iter().all(|run| no_empty_key(run)));
    let newest = store.runs.iter().flatten().map(|version| version.time).max();
    let newer = store.active.iter().all(|version| newest.is_none_or(|newest| version.time > newest));
    rules.need(Rule::ActiveNewer, newer);
    rules.need(Rule::RunsCount, store.images.len() <= MOST_RUNS);
    rules.need(Rule::AreaRoom, store.images.iter().map(|bytes| bytes.len()).sum::<usize>() <= settings.area);
    rules
}

/// What bytes hold, where they can be read as a store, and the rules that they break: of the form the first one alone,
/// of a store's content all. The state is sound exactly where there are none.
pub fn judge(state: &[u8]) -> (Option<Store<'_>>, Rules) {
    match read(state) {
        Err(rule) => (None, Rules::of(rule)),
        Ok(store) => {
            let rules = broken(&store);
            (Some(store), rules)
        }
    }
}

#[cfg(test)]
mod tests {
    use super::*;

    #[test]
    fn rules_stand_in_their_order() {
        for (k, (rule, _)) in RULES.iter().enumerate() {
            assert_eq!(*rule as usize, k);
        }
    }

    #[test]
    fn hashes_of_the_public_list() {
        assert_eq!(fnv1a(b""), 0x811c_9dc5);
        assert_eq!(fnv1a(b"a"), 0xe40c_292c);
        assert_eq!(fnv1a(b"foobar"), 0xbf9c_f968);
    }
}
