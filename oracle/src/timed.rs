//! The original code as the speed comparison of `bench/` calls it: a store over
//! given runs, which can be put back to them after calls have changed it. A
//! transaction's own calls are made on the original's `Transaction` itself.

use std::sync::Arc;

use crate::key::KeySlice;
use crate::lsm_storage::{LsmStorageState, MiniLsm};
use crate::mem_table::MemTable;
use crate::mvcc::txn::Transaction;
use crate::replay::{self, Folder};

/// Versions in order: key, timestamp, value.
pub type Run = Vec<(Vec<u8>, u64, Vec<u8>)>;

pub struct Timed {
    db: Arc<MiniLsm>,
    runs: Vec<Arc<MemTable>>,
    _folder: Folder,
}

fn table(id: usize, run: &Run) -> Arc<MemTable> {
    let table = MemTable::create(id);
    for (key, ts, value) in run {
        table
            .put(KeySlice::from_slice_with_ts(key, *ts), value)
            .unwrap();
    }
    Arc::new(table)
}

impl Timed {
    /// A serializable store whose frozen runs are these, the newest first.
    pub fn new(runs: &[Run]) -> Self {
        let folder = Folder::new();
        let timed = Self {
            db: replay::open(&folder, true),
            runs: runs
                .iter()
                .enumerate()
                .map(|(i, r)| table(1000 + i, r))
                .collect(),
            _folder: folder,
        };
        let clock = runs.iter().flatten().map(|v| v.1).max().unwrap_or(0);
        timed.db.inner.mvcc().update_commit_ts(clock);
        timed.reset(&Run::new());
        timed
    }

    /// The runs as they were given, and this active run. The clock goes on.
    pub fn reset(&self, active: &Run) {
        let old = LsmStorageState::clone(&self.db.inner.state.read());
        *self.db.inner.state.write() = Arc::new(LsmStorageState {
            memtable: table(999, active),
            imm_memtables: self.runs.clone(),
            ..old
        });
    }

    pub fn begin(&self) -> Arc<Transaction> {
        self.db.new_txn().unwrap()
    }

    pub fn freeze(&self) {
        replay::freeze(&self.db.inner);
    }
}
