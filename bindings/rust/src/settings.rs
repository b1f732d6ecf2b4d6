//! The settings of a store.

use crate::ffi;

/// What a store is opened with: its mode, and the room of each of its parts.
///
/// Every number has a range, and an opening with one outside of it gives
/// [`Error::BadSetting`](crate::Error::BadSetting).
#[derive(Clone, Copy, Debug, PartialEq, Eq, Hash)]
pub struct Settings {
    /// Whether commits are checked for conflicts.
    pub serializable: bool,
    /// How many transactions may be begun and not ended at a time, 1 to 64.
    pub transactions: u64,
    /// Bytes of own writes for each transaction, 64 to 1,048,576: 4 and those of key and value for each write.
    pub overlay: u64,
    /// Hashes of keys read, for each transaction, 1 to 65,536.
    pub reads: u64,
    /// Hashes of keys written, for each transaction, 1 to 4,096.
    pub writes: u64,
    /// Commits in the history, 1 to 4,096.
    pub entries: u64,
    /// Hashes in the history, 1 to 65,536.
    pub hashes: u64,
    /// Bytes of the active run, 64 to 1,048,576: 12 and those of key and value for each version.
    pub active: u64,
    /// Bytes of opening and frozen runs, 9 to 16,777,216, as whole images.
    pub area: u64,
}

impl Settings {
    /// A small serializable store: the settings of the program `replay` in document 01, with a state of 54,776 bytes.
    pub const fn small() -> Settings {
        Settings {
            serializable: true,
            transactions: 4,
            overlay: 4_096,
            reads: 256,
            writes: 64,
            entries: 256,
            hashes: 1_024,
            active: 8_192,
            area: 16_384,
        }
    }

    /// How many bytes the state of a store with these settings has, or `None` where one is outside its range.
    ///
    /// ```
    /// use ngalovuki::Settings;
    ///
    /// assert_eq!(Settings::small().state_length(), Some(54_776));
    /// assert_eq!(Settings { transactions: 65, ..Settings::small() }.state_length(), None);
    /// ```
    pub fn state_length(&self) -> Option<usize> {
        match ffi::state_length(self.numbers()) {
            0 => None,
            length => usize::try_from(length).ok(),
        }
    }

    /// The settings as the nine numbers that the calls take, in the order of the fields; the mode is 1 or 0.
    pub const fn numbers(&self) -> [u64; 9] {
        [
            self.serializable as u64,
            self.transactions,
            self.overlay,
            self.reads,
            self.writes,
            self.entries,
            self.hashes,
            self.active,
            self.area,
        ]
    }
}
