//! Where the parts of a lent state lie, by the tables of `docs/STATE.md`.

/// Document 01, "Room": the range of each setting; the first is the mode, 0 or 1.
pub const RANGES: [(u64, u64); 9] = [
    (0, 1),
    (1, 64),
    (64, 1_048_576),
    (1, 65_536),
    (1, 4_096),
    (1, 4_096),
    (1, 65_536),
    (64, 1_048_576),
    (9, 16_777_216),
];

/// "At most 16 opening and frozen runs together."
pub const MOST_RUNS: usize = 16;

/// The settings of a store, each within its range.
#[derive(Clone, Copy, Debug, PartialEq)]
pub struct Settings {
    pub serializable: bool,
    pub transactions: usize,
    pub overlay: usize,
    pub reads: usize,
    pub writes: usize,
    pub entries: usize,
    pub hashes: usize,
    pub active: usize,
    pub area: usize,
}

impl Settings {
    /// The settings that nine numbers are, if each is within its range.
    pub fn of(numbers: [u64; 9]) -> Option<Settings> {
        for (number, (least, most)) in numbers.into_iter().zip(RANGES) {
            if number < least || number > most {
                return None;
            }
        }
        let n = numbers.map(|number| number as usize);
        Some(Settings {
            serializable: n[0] == 1,
            transactions: n[1],
            overlay: n[2],
            reads: n[3],
            writes: n[4],
            entries: n[5],
            hashes: n[6],
            active: n[7],
            area: n[8],
        })
    }

    pub fn numbers(&self) -> [u64; 9] {
        [
            usize::from(self.serializable),
            self.transactions,
            self.overlay,
            self.reads,
            self.writes,
            self.entries,
            self.hashes,
            self.active,
            self.area,
        ]
        .map(|number| number as u64)
    }

    /// STATE.md: "the state's length is 248 + T·(64 + O + 4·RH + 4·WH) + 16·E + 4·H + A + R".
    pub fn length(&self) -> usize {
        248 + self.transactions * (64 + self.overlay + 4 * self.reads + 4 * self.writes)
            + 16 * self.entries
            + 4 * self.hashes
            + self.active
            + self.area
    }

    // The rooms of the lists, without the 8 bytes in front.

    pub fn rows_room(&self) -> usize {
        16 * self.transactions
    }

    pub fn history_room(&self) -> usize {
        16 * self.entries + 4 * self.hashes
    }

    pub fn area_room(&self) -> usize {
        8 * MOST_RUNS + self.area
    }

    // Where the parts begin.

    pub fn history_at(&self) -> usize {
        ROWS + 8 + self.rows_room()
    }

    pub fn active_at(&self) -> usize {
        self.history_at() + 8 + self.history_room()
    }

    pub fn area_at(&self) -> usize {
        self.active_at() + 8 + self.active
    }

    pub fn places_at(&self) -> usize {
        self.area_at() + 8 + self.area_room()
    }

    pub fn place_at(&self, place: usize) -> usize {
        self.places_at() + place * self.stride()
    }

    pub fn stride(&self) -> usize {
        48 + self.overlay + 4 * self.reads + 4 * self.writes
    }

    // Where the parts of a place begin, from its own start.

    pub fn place_reads(&self) -> usize {
        32 + self.overlay
    }

    pub fn place_writes(&self) -> usize {
        40 + self.overlay + 4 * self.reads
    }
}

/// The bytes of the settings, the clock and the counter.
pub const HEAD: usize = 88;
pub const CLOCK: usize = 72;
pub const COUNTER: usize = 80;
pub const ROWS: usize = 88;
pub const PLACE_READ: usize = 8;
pub const PLACE_MARK: usize = 16;
pub const PLACE_OVERLAY: usize = 24;

/// The big-endian number that bytes are.
pub fn number(bytes: &[u8]) -> u64 {
    bytes.iter().fold(0, |n, byte| (n << 8) | u64::from(*byte))
}

pub fn number_at(state: &[u8], at: usize, width: usize) -> u64 {
    number(&state[at..at + width])
}

/// Writes a number in `width` bytes at a place.
pub fn put_number(state: &mut [u8], at: usize, width: usize, n: u64) {
    state[at..at + width].copy_from_slice(&n.to_be_bytes()[8 - width..]);
}

/// Writes a list to its room: the number of its used bytes, then these; "behind the used bytes the room keeps whatever
/// it had".
pub fn put_list(state: &mut [u8], at: usize, used: &[u8]) {
    put_number(state, at, 8, used.len() as u64);
    state[at + 8..at + 8 + used.len()].copy_from_slice(used);
}

#[cfg(test)]
mod tests {
    use super::*;

    /// The parts end where the formula for the length says, and the table for `replay` in STATE.md is met.
    #[test]
    fn parts_end_at_the_length() {
        let replay = Settings::of([1, 4, 4096, 256, 64, 256, 1024, 8192, 16384]).unwrap();
        assert_eq!(replay.history_at(), 160);
        assert_eq!(replay.active_at(), 8_360);
        assert_eq!(replay.area_at(), 16_560);
        assert_eq!(replay.place_at(0), 33_080);
        assert_eq!(replay.place_at(3), 49_352);
        assert_eq!(replay.place_at(4), 54_776);
        assert_eq!(replay.length(), 54_776);
        assert_eq!(Settings::of(replay.numbers()), Some(replay));
    }
}
