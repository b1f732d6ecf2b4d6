"""The lent state: document 01's state rules, as a model in Python over the bytes of a state.

  sound(state)          whether the bytes keep every state rule
  store(state)          what sound bytes hold, as a Store; None for bytes that are not sound
  write(store, state)   the bytes with a store written over them; unused room keeps what it had

The model is written from document 01 ('State rules', 'Room', 'Run image') and from docs/STATE.md, which
has the layout, and shares nothing with our code. What stands in double quotes behind "01:" is document
01's, word for word, and behind "STATE.md:" that page's. The model reads a state from its front to its end
into lists, and then asks one rule after the other of the whole store, which is slow and plain.

A version is (key, timestamp, value); a run is a list of them, as in compare_reads.py. Python compares
bytes as document 01 orders keys: a prefix first.
"""
import collections
import dataclasses
import typing

# ---------------------------------------------------------------------------------------------
# What a state holds.


class Settings(typing.NamedTuple):
    """STATE.md: "mode (1 serializable, 0 not), then transactions, overlay bytes, read hashes, write hashes,
    history entries, history hashes, active run bytes, run area bytes; 8 bytes each"."""
    serializable: int
    transactions: int
    overlay_bytes: int
    read_hashes: int
    write_hashes: int
    history_entries: int
    history_hashes: int
    active_bytes: int
    area_bytes: int


# 01: "Settings: transactions 1 to 64; for each of them overlay bytes 64 to 1,048,576, read hashes 1 to 65,536,
# write hashes 1 to 4,096; history entries 1 to 4,096 and hashes 1 to 65,536; active run bytes 64 to
# 1,048,576; run area 9 to 16,777,216."
RANGES = Settings(
    serializable=(0, 1),
    transactions=(1, 64),
    overlay_bytes=(64, 1_048_576),
    read_hashes=(1, 65_536),
    write_hashes=(1, 4_096),
    history_entries=(1, 4_096),
    history_hashes=(1, 65_536),
    active_bytes=(64, 1_048_576),
    area_bytes=(9, 16_777_216))

# 01: "At most 16 opening and frozen runs together."
MOST_RUNS = 16


@dataclasses.dataclass
class Place:
    """A transaction. 01: "A new transaction gets the next handle, 1 for the first after opening, reads at the
    clock and is one reader of that timestamp until it is ended, also after its commit"."""
    handle: int
    read: int         # the read number
    open: bool        # False: 01: "closed by an accepted commit or a conflict"
    own: list         # its own writes, (key, value) each
    read_set: list    # hashes
    write_set: list   # hashes


@dataclasses.dataclass
class Store:
    """01: "sorted records and numbers in lent buffers"; all that is kept between two calls."""
    settings: Settings
    clock: int
    counter: int      # the last handle given out
    rows: list        # the readers, (timestamp, count) each
    history: list     # (commit number, hashes) each
    active: list      # the active run
    frozen: list      # the frozen and opening runs, in run order
    places: list      # a Place each, or None where it is free

    def transactions(self):
        return [place for place in self.places if place is not None]

    def other_versions(self):
        """The versions of all runs but the active one."""
        return [version for run in self.frozen for version in run]


def fnv1a(key):
    """01: "start 2166136261; for each byte, exclusive-or, then times 16777619, and the product wraps at 32 bits"."""
    h = 2166136261
    for byte in key:
        h = (h ^ byte) * 16777619 % 2**32
    return h


# ---------------------------------------------------------------------------------------------
# Bytes, read from the front to the end, or written so over old ones.


class Broken(Exception):
    """The bytes can't be read as a store. 01: "lent state breaks a state rule"."""


def need(holds):
    if not holds:
        raise Broken


class Reader:
    def __init__(self, data):
        self.data, self.at = data, 0

    def ended(self):
        return self.at == len(self.data)

    def take(self, count):
        need(count <= len(self.data) - self.at)
        self.at += count
        return self.data[self.at - count:self.at]

    def number(self, size):
        """STATE.md: "All numbers are big-endian"."""
        return int.from_bytes(self.take(size), 'big')

    def listed(self, room):
        """The used bytes of a list. STATE.md: "A list in its room has the number of its used bytes in
        front, 8 bytes", and "Room that is not in use is never read"."""
        used = self.number(8)
        need(used <= room)
        return self.take(room)[:used]


class Writer:
    def __init__(self, old):
        self.data, self.at = bytearray(old), 0

    def put(self, data):
        self.data[self.at:self.at + len(data)] = data
        self.at += len(data)

    def keep(self, count):
        self.at += count

    def listed(self, used, room):
        """STATE.md: "behind the used bytes the room keeps whatever it had"."""
        if len(used) > room:
            raise ValueError('the store has no room for a list')
        self.put(number(len(used), 8) + used)
        self.keep(room - len(used))


def number(n, size):
    return n.to_bytes(size, 'big')


# ---------------------------------------------------------------------------------------------
# The room of the parts. That of a list is without the 8 bytes in front.


def rows_room(settings):
    """01: "The store's reader table has a row for each transaction place"; STATE.md: "8 + 16·T"."""
    return 16 * settings.transactions


def history_room(settings):
    """01: "history entries 1 to 4,096 and hashes 1 to 65,536"; STATE.md: "8 + 16·E + 4·H"."""
    return 16 * settings.history_entries + 4 * settings.history_hashes


def area_room(settings):
    """01: "At most 16 opening and frozen runs together", each with its length in front; STATE.md: "8 + 8·16 + R"."""
    return 8 * MOST_RUNS + settings.area_bytes


def place_width(settings):
    """01: "for each of them overlay bytes 64 to 1,048,576, read hashes 1 to 65,536, write hashes 1 to 4,096";
    STATE.md: "stride = 48 + O + 4·RH + 4·WH"."""
    return 48 + settings.overlay_bytes + 4 * settings.read_hashes + 4 * settings.write_hashes


def state_length(settings):
    """01: "The team fixes the state's layout and its length for each setting"; STATE.md: "the state's length is
    248 + T·(64 + O + 4·RH + 4·WH) + 16·E + 4·H + A + R"."""
    each = 64 + settings.overlay_bytes + 4 * settings.read_hashes + 4 * settings.write_hashes
    return (248 + settings.transactions * each + 16 * settings.history_entries + 4 * settings.history_hashes
            + settings.active_bytes + settings.area_bytes)


# ---------------------------------------------------------------------------------------------
# The parts, each as it is read from bytes and as it is packed into bytes.


def read_settings(reader):
    """01: "settings in range", which RANGES has."""
    settings = Settings(*(reader.number(8) for _ in RANGES))
    need(all(least <= n <= most for n, (least, most) in zip(settings, RANGES)))
    return settings


def pack_settings(settings):
    return b''.join(number(n, 8) for n in settings)


def read_rows(data):
    """01: "the readers' rows, a timestamp and a count each"; STATE.md: "8 bytes each"."""
    reader, rows = Reader(data), []
    while not reader.ended():
        rows.append((reader.number(8), reader.number(8)))
    return rows


def pack_rows(rows):
    return b''.join(number(time, 8) + number(count, 8) for time, count in rows)


def read_hashes(data):
    """01: "FNV-1a, 32 bits"; STATE.md: "hashes of 4 bytes"."""
    reader, hashes = Reader(data), []
    while not reader.ended():
        hashes.append(reader.number(4))
    return hashes


def pack_hashes(hashes):
    return b''.join(number(h, 4) for h in hashes)


def read_history(data):
    """01: "the write hashes enter the history under that number"; STATE.md: "commit number 8, bytes of its
    hashes 8, hashes 4 each"."""
    reader, history = Reader(data), []
    while not reader.ended():
        commit = reader.number(8)
        history.append((commit, read_hashes(reader.take(reader.number(8)))))
    return history


def pack_history(history):
    return b''.join(number(commit, 8) + number(4 * len(hashes), 8) + pack_hashes(hashes) for commit, hashes in history)


def read_versions(data):
    """01: "for each record: key length 16 bits, key, timestamp 64 bits, value length 16 bits, value. Big-endian;
    nothing after the last record"."""
    reader, run = Reader(data), []
    while not reader.ended():
        key = reader.take(reader.number(2))
        time = reader.number(8)
        run.append((key, time, reader.take(reader.number(2))))
    return run


def pack_versions(run):
    return b''.join(number(len(key), 2) + key + number(time, 8) + number(len(value), 2) + value
                    for key, time, value in run)


def read_image(data):
    """01: "Three bytes `RUN`, version 1 in 16 bits, record count in 32 bits", then the records."""
    reader = Reader(data)
    need(reader.take(3) == b'RUN')
    need(reader.number(2) == 1)
    count = reader.number(4)
    run = read_versions(data[reader.at:])
    need(len(run) == count)
    return run


def pack_image(run):
    return b'RUN' + number(1, 2) + number(len(run), 4) + pack_versions(run)


def read_area(data):
    """The runs but for the active one. 01: "Run order: the active run, frozen runs from newest to oldest, opening
    runs as given"; STATE.md: "images, each with its length in 8 bytes, the last in run order first"."""
    reader, runs = Reader(data), []
    while not reader.ended():
        runs.append(read_image(reader.take(reader.number(8))))
    return runs[::-1]


def pack_area(runs):
    images = [pack_image(run) for run in runs[::-1]]
    return b''.join(number(len(image), 8) + image for image in images)


def read_own(data):
    """01: "4 bytes plus key and value for each entry"; STATE.md: "pairs: key length 2, key, value length 2,
    value"."""
    reader, own = Reader(data), []
    while not reader.ended():
        key = reader.take(reader.number(2))
        own.append((key, reader.take(reader.number(2))))
    return own


def pack_own(own):
    return b''.join(number(len(key), 2) + key + number(len(value), 2) + value for key, value in own)


def read_mark(reader):
    """01: "transaction closed by an accepted commit or a conflict"; STATE.md: "1 open, 0 closed"."""
    mark = reader.number(8)
    need(mark in (0, 1))
    return mark == 1


def read_place(data, settings):
    """A transaction or None. 01: "handles distinct, from 1 to the counter"; STATE.md, of the handle: "0 where the
    place is free; the rest of a free place is not looked at"."""
    reader = Reader(data)
    handle = reader.number(8)
    if handle == 0:
        return None
    return Place(
        handle=handle,
        read=reader.number(8),
        open=read_mark(reader),
        own=read_own(reader.listed(settings.overlay_bytes)),
        read_set=read_hashes(reader.listed(4 * settings.read_hashes)),
        write_set=read_hashes(reader.listed(4 * settings.write_hashes)))


def write_place(place, writer, settings):
    """01: "Room of ended transactions, replaced values and pruned entries is used again"; until then a free place
    keeps what it had, but for the handle."""
    if place is None:
        writer.put(number(0, 8))
        writer.keep(place_width(settings) - 8)
        return
    writer.put(number(place.handle, 8) + number(place.read, 8) + number(int(place.open), 8))
    writer.listed(pack_own(place.own), settings.overlay_bytes)
    writer.listed(pack_hashes(place.read_set), 4 * settings.read_hashes)
    writer.listed(pack_hashes(place.write_set), 4 * settings.write_hashes)


def parsed(state):
    """The parts in order; Broken where one can't be read. 01: "settings in range and the buffer long enough for
    them"; STATE.md: "Bytes behind the state's length are never looked at nor changed"."""
    reader = Reader(state)
    settings = read_settings(reader)
    need(len(state) >= state_length(settings))
    found = Store(
        settings=settings,
        clock=reader.number(8),
        counter=reader.number(8),
        rows=read_rows(reader.listed(rows_room(settings))),
        history=read_history(reader.listed(history_room(settings))),
        active=read_versions(reader.listed(settings.active_bytes)),
        frozen=read_area(reader.listed(area_room(settings))),
        places=[read_place(reader.take(place_width(settings)), settings) for _ in range(settings.transactions)])
    assert reader.at == state_length(settings)
    return found


def write(store, state):
    """The bytes of `state` with the store written over them. Room that the store does not use, and what lies
    behind the state's length, keeps what it had."""
    settings = store.settings
    if len(state) < state_length(settings):
        raise ValueError('the state is too short for the settings')
    if len(store.places) != settings.transactions:
        raise ValueError('the store must have a place for each transaction')
    writer = Writer(state)
    writer.put(pack_settings(settings) + number(store.clock, 8) + number(store.counter, 8))
    writer.listed(pack_rows(store.rows), rows_room(settings))
    writer.listed(pack_history(store.history), history_room(settings))
    writer.listed(pack_versions(store.active), settings.active_bytes)
    writer.listed(pack_area(store.frozen), area_room(settings))
    for place in store.places:
        write_place(place, writer, settings)
    assert writer.at == state_length(settings)
    return bytes(writer.data)


# ---------------------------------------------------------------------------------------------
# The rules, each asked of a store that could be read.


def rising(items):
    """Strictly."""
    return all(a < b for a, b in zip(items, items[1:]))


def overlays_rise(store):
    """01: "overlays strictly rising and within room"; the room has been asked when they were read."""
    return all(rising([key for key, _ in place.own]) for place in store.transactions())


def own_keys_are_keys(store):
    """01: "keys of 1 to 65,535 bytes"; put and delete refuse an empty key."""
    return all(key for place in store.transactions() for key, _ in place.own)


def sets_rise(store):
    """01: "sets without repeats"; STATE.md: "hashes of 4 bytes, rising", in the history too."""
    return (all(rising(place.read_set) and rising(place.write_set) for place in store.transactions())
            and all(rising(hashes) for _, hashes in store.history))


def write_sets_are_of_own_writes(store):
    """01: "in serializable mode an open transaction's write set holds exactly its overlay keys' hashes"."""
    return not store.settings.serializable or all(
        place.write_set == sorted({fnv1a(key) for key, _ in place.own})
        for place in store.transactions() if place.open)


def other_mode_keeps_nothing(store):
    """01: "in the other mode sets and history are empty"."""
    return store.settings.serializable or not (
        store.history or any(place.read_set or place.write_set for place in store.transactions()))


def rows_count_transactions(store):
    """01: "reader rows rise strictly and count exactly the transactions", the closed ones too."""
    counts = collections.Counter(place.read for place in store.transactions())
    return store.rows == sorted(counts.items())


def handles_are_given_out(store):
    """01: "handles distinct, from 1 to the counter"."""
    handles = [place.handle for place in store.transactions()]
    return len(set(handles)) == len(handles) and all(1 <= handle <= store.counter for handle in handles)


def history_rises(store):
    """01: "history strictly rising"."""
    return rising([commit for commit, _ in store.history])


def history_in_room(store):
    """01: "history after pruning plus the new entry above a limit" is no room; each limit counts alone, even
    where the part's bytes would do."""
    return (len(store.history) <= store.settings.history_entries
            and sum(len(hashes) for _, hashes in store.history) <= store.settings.history_hashes)


def nothing_above_the_clock(store):
    """01: "every commit number, read number and version at or below the clock"."""
    return (all(commit <= store.clock for commit, _ in store.history)
            and all(place.read <= store.clock for place in store.transactions())
            and all(time <= store.clock for _, time, _ in store.active + store.other_versions()))


def sound_run(run):
    """01: "Order: key bytes ascending (a prefix first), then timestamp descending" and "A run is strictly rising
    in this order"; a run "with an empty key" is refused."""
    return rising([(key, -time) for key, time, _ in run]) and all(key for key, _, _ in run)


def runs_are_sound(store):
    """01: "runs sound"; the marks, versions and counts of images have been asked when they were read."""
    return sound_run(store.active) and all(sound_run(run) for run in store.frozen)


def runs_in_room(store):
    """01: "At most 16 opening and frozen runs together" and "run area (whole images)"; the lengths in front of
    the images do not count."""
    return (len(store.frozen) <= MOST_RUNS
            and sum(len(pack_image(run)) for run in store.frozen) <= store.settings.area_bytes)


def active_is_newest(store):
    """01: "active versions newer than all in other runs"."""
    newest = max((time for _, time, _ in store.other_versions()), default=-1)
    return all(time > newest for _, time, _ in store.active)


RULES = (overlays_rise, own_keys_are_keys, sets_rise, write_sets_are_of_own_writes, other_mode_keeps_nothing,
         rows_count_transactions, handles_are_given_out, history_rises, history_in_room, nothing_above_the_clock,
         runs_are_sound, runs_in_room, active_is_newest)


def store(state):
    """The store that the bytes hold; None where, 01: "lent state breaks a state rule"."""
    try:
        found = parsed(bytes(state))
    except Broken:
        return None
    return found if all(rule(found) for rule in RULES) else None


def sound(state):
    """Whether the bytes keep every state rule; a call over others answers 9."""
    return store(state) is not None
