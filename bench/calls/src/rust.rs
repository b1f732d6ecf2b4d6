//! The Rust's scan, in the two ways in which its user can go on.

use std::hint::black_box;
use std::ops::Bound;
use std::sync::Arc;

use oracle::iterators::StorageIterator;
use oracle::mvcc::txn::Transaction;

/// Up to `most` pairs from a key on, by one iterator.
pub fn scan(txn: &Arc<Transaction>, from: &[u8], most: usize, mut each: impl FnMut(&[u8], &[u8])) {
    let mut iter = txn.scan(Bound::Included(from), Bound::Unbounded).unwrap();
    for left in (0..most).rev() {
        if !iter.is_valid() {
            return;
        }
        each(iter.key(), iter.value());
        if left > 0 {
            iter.next().unwrap();
        }
    }
}

/// The same by a new scan for each pair, above the key before it, as ours goes on.
pub fn scan_anew(txn: &Arc<Transaction>, from: &[u8], most: usize) {
    let mut low = Bound::Included(from.to_vec());
    for _ in 0..most {
        let iter = txn.scan(low.as_ref().map(|k| &k[..]), Bound::Unbounded).unwrap();
        if !iter.is_valid() {
            return;
        }
        black_box(iter.value());
        low = Bound::Excluded(iter.key().to_vec());
    }
}
