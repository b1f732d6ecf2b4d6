//! The original files of mini-lsm-mvcc, compiled unchanged, with stand-ins for
//! the files that are not at hand. Ours: lib, block, compact, manifest, table,
//! wal, replay, scans, sheet, timed. Original: all the rest (see
//! originals.sha256).
#![allow(dead_code, private_interfaces)]

/// Whether ORACLE_TRACE is set; looked up once, so that it costs a timed call
/// nothing.
fn traced() -> bool {
    static SET: std::sync::OnceLock<bool> = std::sync::OnceLock::new();
    *SET.get_or_init(|| std::env::var_os("ORACLE_TRACE").is_some())
}

/// The originals print to standard output when they commit or flush. This
/// shadows `println!` for them: the line goes to standard error, and only if
/// ORACLE_TRACE is set.
macro_rules! println {
    ($($t:tt)*) => {
        if crate::traced() {
            std::eprintln!($($t)*)
        }
    };
}

pub mod block;
pub mod compact;
pub mod iterators;
pub mod key;
pub mod lsm_iterator;
pub mod lsm_storage;
pub mod manifest;
pub mod mem_table;
pub mod mvcc;
pub mod replay;
pub mod scans;
#[cfg(test)]
mod sheet;
pub mod table;
pub mod timed;
pub mod wal;
