//! A scan from its first answer to its end.

use std::iter::FusedIterator;
use std::ops::Bound;

use crate::{Error, Handle, Pair, Store};

/// The answers of a scan, made by [`Store::scan`].
///
/// It borrows the store, so that nothing else happens between two answers. After a refusal, as after the end, it hands
/// out nothing more.
#[derive(Debug)]
#[must_use = "a scan asks the store only as far as its answers are taken"]
pub struct Scan<'a> {
    store: &'a mut Store,
    handle: Handle,
    low: Bound<Vec<u8>>,
    high: Bound<&'a [u8]>,
    over: bool,
}

impl<'a> Scan<'a> {
    pub(crate) fn new(store: &'a mut Store, handle: Handle, low: Bound<&[u8]>, high: Bound<&'a [u8]>) -> Scan<'a> {
        Scan { store, handle, low: low.map(<[u8]>::to_vec), high, over: false }
    }

    /// The next answer, from the last key as an excluded lower bound.
    fn answer(&mut self) -> Result<Option<Pair>, Error> {
        let low = self.low.as_ref().map(Vec::as_slice);
        let answer = self.store.first(self.handle, low, self.high)?;
        if let Some((key, _)) = &answer {
            self.low = Bound::Excluded(key.clone());
        }
        Ok(answer)
    }
}

impl Iterator for Scan<'_> {
    type Item = Result<Pair, Error>;

    fn next(&mut self) -> Option<Self::Item> {
        if self.over {
            return None;
        }
        let answer = self.answer().transpose();
        self.over = !matches!(answer, Some(Ok(_)));
        answer
    }
}

impl FusedIterator for Scan<'_> {}
