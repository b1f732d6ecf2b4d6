//! The store and its calls.

use std::fmt;
use std::ops::Bound;

use crate::{ffi, Error, Scan, Settings};

/// The longest key and the longest value that a store takes, in bytes.
pub const LONGEST: usize = 65_535;

/// A key and its value, as a scan hands them out.
pub type Pair = (Vec<u8>, Vec<u8>);

/// The name of a transaction in its store: 1 for the first after an opening, then rising.
///
/// It is a number and nothing more. A store answers [`Error::NoHandle`] to one that isn't of a transaction begun and
/// not ended there.
#[derive(Clone, Copy, Debug, PartialEq, Eq, PartialOrd, Ord, Hash)]
pub struct Handle(pub u64);

impl fmt::Display for Handle {
    fn fmt(&self, f: &mut fmt::Formatter<'_>) -> fmt::Result {
        self.0.fmt(f)
    }
}

/// A transaction that was begun.
#[derive(Clone, Copy, Debug, PartialEq, Eq, Hash)]
pub struct Begun {
    /// Its name in later calls.
    pub handle: Handle,
    /// Its read number: it sees what was committed under this number and below.
    pub read: u64,
}

/// A multi-version key-value store in one buffer.
///
/// Several transactions may be open at once, each named by its [`Handle`]. Nothing is kept outside of the buffer, so
/// that [`Store::bytes`] is the whole store and [`Store::from_bytes`] goes on where another one stopped.
///
/// Every call first judges the whole state and gives [`Error::Unsound`] where it breaks a rule. A store that was opened
/// and changed by calls alone always keeps the rules.
#[derive(Clone)]
pub struct Store {
    state: Vec<u8>,
    /// Room for the longest key that a call can hand out.
    key: Vec<u8>,
    /// Room for the longest value that a call can hand out.
    value: Vec<u8>,
}

impl Store {
    /// Opens a store over run images, the newest first, in a buffer of its own.
    ///
    /// Refusals, in this order: [`Error::BadSetting`]; [`Error::BadRun`] or [`Error::ForeignRun`] of the first bad
    /// image; [`Error::NoRoom`] for more than 16 images, or more bytes of them than the run area has.
    ///
    /// ```
    /// use ngalovuki::{Settings, Store};
    ///
    /// // A run with one version: `oak` under the number 7, with the value `x`.
    /// let image = b"RUN\x00\x01\x00\x00\x00\x01\x00\x03oak\x00\x00\x00\x00\x00\x00\x00\x07\x00\x01x";
    /// let mut store = Store::open(Settings::small(), &[image])?;
    ///
    /// let desk = store.begin()?;
    /// assert_eq!(desk.read, 7);
    /// assert_eq!(store.get(desk.handle, b"oak")?, Some(b"x".to_vec()));
    /// # Ok::<(), ngalovuki::Error>(())
    /// ```
    pub fn open(settings: Settings, images: &[&[u8]]) -> Result<Store, Error> {
        // Where there is no length for the settings, the opening itself says so.
        let length = settings.state_length().unwrap_or(0);
        Store::open_in(vec![0; length], settings, images).map_err(|(error, _)| error)
    }

    /// Opens a store over run images, in a buffer that may hold anything.
    ///
    /// Refusals are those of [`Store::open`], and then [`Error::NoRoom`] where the buffer is shorter than
    /// [`Settings::state_length`]. A refused opening gives the buffer back, unchanged. Bytes behind the state's length
    /// are neither looked at nor changed, by this or any other call.
    pub fn open_in(state: Vec<u8>, settings: Settings, images: &[&[u8]]) -> Result<Store, (Error, Vec<u8>)> {
        let mut store = Store::from_bytes(state);
        match store.open_anew(settings, images) {
            Ok(()) => Ok(store),
            Err(error) => Err((error, store.into_bytes())),
        }
    }

    /// Opens another store in the same buffer, and drops the one that was there with all its transactions.
    ///
    /// Refusals are those of [`Store::open_in`]. A refused opening leaves the store as it was, and its transactions go
    /// on.
    pub fn open_anew(&mut self, settings: Settings, images: &[&[u8]]) -> Result<(), Error> {
        let lengths: Vec<u64> = images.iter().map(|image| image.len() as u64).collect();
        let mut reply = [0; 1];
        let number = ffi::open(&mut self.state, settings.numbers(), &images.concat(), &lengths, &mut reply);
        done(number, reply[0])
    }

    /// A store that lies in these bytes, as [`Store::bytes`] gave them.
    ///
    /// They may be any bytes: where they break a state rule, each call gives [`Error::Unsound`].
    pub fn from_bytes(state: Vec<u8>) -> Store {
        Store { state, key: vec![0; LONGEST], value: vec![0; LONGEST] }
    }

    /// The whole buffer.
    pub fn bytes(&self) -> &[u8] {
        &self.state
    }

    /// The whole buffer, taken out of the store.
    pub fn into_bytes(self) -> Vec<u8> {
        self.state
    }

    /// Whether the state keeps every state rule, so that no call on it gives [`Error::Unsound`].
    pub fn sound(&self) -> bool {
        ffi::sound(&self.state) == 1
    }

    /// Begins a transaction, which reads what is committed now until it is ended.
    ///
    /// Refusals, in this order: [`Error::Unsound`]; [`Error::NoRoom`], no place for another transaction;
    /// [`Error::CounterFull`].
    pub fn begin(&mut self) -> Result<Begun, Error> {
        let mut reply = [0; 2];
        let number = ffi::begin(&mut self.state, &mut reply);
        done(number, 0)?;
        Ok(Begun { handle: Handle(reply[0]), read: reply[1] })
    }

    /// The value of a key: the transaction's own last write of it, else what was committed at its read number.
    ///
    /// Refusals, in this order: [`Error::Unsound`], [`Error::NoHandle`], [`Error::Closed`], [`Error::EmptyKey`],
    /// [`Error::TooLong`]; [`Error::NoRoom`], the read set full.
    pub fn get(&mut self, handle: Handle, key: &[u8]) -> Result<Option<Vec<u8>>, Error> {
        let found = get_in(&mut self.state, handle, key, &mut self.value)?;
        Ok(found.map(|length| self.value[..length].to_vec()))
    }

    /// As [`Store::get`], into a buffer that is lent: the length of the value, which stands in front of `out`.
    ///
    /// The other bytes of `out` stay, and so do all where the key is absent or the call refused. [`Error::NoRoom`] is
    /// given for a buffer shorter than the value, too.
    pub fn get_into(&mut self, handle: Handle, key: &[u8], out: &mut [u8]) -> Result<Option<usize>, Error> {
        get_in(&mut self.state, handle, key, out)
    }

    /// All present keys within the bounds, rising, with their values.
    ///
    /// Each answer is a call of its own, as [`Store::first`] makes it. Crossed bounds select nothing.
    ///
    /// ```
    /// use ngalovuki::{Settings, Store};
    /// use std::ops::Bound::{Excluded, Unbounded};
    ///
    /// let mut store = Store::open(Settings::small(), &[])?;
    /// let desk = store.begin()?.handle;
    /// for key in [b"yew", b"fir", b"oak"] {
    ///     store.put(desk, key, b"1")?;
    /// }
    /// let pairs = store.scan(desk, Excluded(b"fir"), Unbounded).collect::<Result<Vec<_>, _>>()?;
    /// assert_eq!(pairs, [(b"oak".to_vec(), b"1".to_vec()), (b"yew".to_vec(), b"1".to_vec())]);
    /// # Ok::<(), ngalovuki::Error>(())
    /// ```
    pub fn scan<'a>(&'a mut self, handle: Handle, low: Bound<&'a [u8]>, high: Bound<&'a [u8]>) -> Scan<'a> {
        Scan::new(self, handle, low, high)
    }

    /// The first present key within the bounds, with its value, or `None` at the end.
    ///
    /// The next answer comes from the same upper bound and the key handed out as an excluded lower bound. Other calls
    /// may come between the two.
    ///
    /// Refusals, in this order: [`Error::Unsound`], [`Error::NoHandle`], [`Error::Closed`]; [`Error::NoRoom`], the read
    /// set full.
    pub fn first(&mut self, handle: Handle, low: Bound<&[u8]>, high: Bound<&[u8]>) -> Result<Option<Pair>, Error> {
        let found = scan_in(&mut self.state, handle, low, high, &mut self.key, &mut self.value)?;
        Ok(found.map(|(key, value)| (self.key[..key].to_vec(), self.value[..value].to_vec())))
    }

    /// As [`Store::first`], into buffers that are lent: the lengths of the key and the value, which stand in front of
    /// them.
    ///
    /// The other bytes of both buffers stay, and so do all at the end or where the call is refused. [`Error::NoRoom`]
    /// is given for a buffer shorter than its answer, too.
    pub fn scan_into(
        &mut self,
        handle: Handle,
        low: Bound<&[u8]>,
        high: Bound<&[u8]>,
        key_out: &mut [u8],
        value_out: &mut [u8],
    ) -> Result<Option<(usize, usize)>, Error> {
        scan_in(&mut self.state, handle, low, high, key_out, value_out)
    }

    /// Writes a value at a key, for the transaction alone until it is committed. An empty value deletes the key.
    ///
    /// Refusals, in this order: [`Error::Unsound`], [`Error::NoHandle`], [`Error::Closed`], [`Error::EmptyKey`],
    /// [`Error::TooLong`]; [`Error::NoRoom`], the overlay or the write set full.
    pub fn put(&mut self, handle: Handle, key: &[u8], value: &[u8]) -> Result<(), Error> {
        done(ffi::put(&mut self.state, handle.0, key, value), 0)
    }

    /// Deletes a key, as [`Store::put`] with an empty value.
    pub fn delete(&mut self, handle: Handle, key: &[u8]) -> Result<(), Error> {
        done(ffi::delete(&mut self.state, handle.0, key), 0)
    }

    /// Commits a transaction and closes it: its writes become versions under the number that is given back, and
    /// `None` means that it had no writes.
    ///
    /// Refusals, in this order: [`Error::Unsound`], [`Error::NoHandle`], [`Error::Closed`]; [`Error::Conflict`], which
    /// closes the transaction; [`Error::CounterFull`]; [`Error::NoRoom`], the history or the active run full. After the
    /// last two it stays open and may try again, after a freeze for example.
    pub fn commit(&mut self, handle: Handle) -> Result<Option<u64>, Error> {
        let mut reply = [0; 2];
        let number = ffi::commit(&mut self.state, handle.0, &mut reply);
        done(number, 0)?;
        Ok(found(reply[0])?.then_some(reply[1]))
    }

    /// Ends a transaction, open or closed. Writes not committed are dropped, and its room is free again.
    ///
    /// Refusals, in this order: [`Error::Unsound`], [`Error::NoHandle`].
    pub fn end(&mut self, handle: Handle) -> Result<(), Error> {
        done(ffi::end(&mut self.state, handle.0), 0)
    }

    /// Freezes the active run: it becomes an image in the run area, and the active run is empty. An empty one stays.
    ///
    /// Refusals, in this order: [`Error::Unsound`]; [`Error::NoRoom`], a 17th run, or the run area too small.
    pub fn freeze(&mut self) -> Result<(), Error> {
        done(ffi::freeze(&mut self.state), 0)
    }
}

impl fmt::Debug for Store {
    fn fmt(&self, f: &mut fmt::Formatter<'_>) -> fmt::Result {
        // The bytes themselves would fill pages.
        f.debug_struct("Store").field("bytes", &self.state.len()).finish_non_exhaustive()
    }
}

/// A get with its out buffer: the length of the value in front of it.
fn get_in(state: &mut [u8], handle: Handle, key: &[u8], out: &mut [u8]) -> Result<Option<usize>, Error> {
    let mut reply = [0; 2];
    let number = ffi::get(state, handle.0, key, out, &mut reply);
    done(number, 0)?;
    if !found(reply[0])? {
        return Ok(None);
    }
    Ok(Some(length_in(out, reply[1])?))
}

/// One answer of a scan with its out buffers: the lengths of key and value in front of them.
fn scan_in(
    state: &mut [u8],
    handle: Handle,
    low: Bound<&[u8]>,
    high: Bound<&[u8]>,
    key_out: &mut [u8],
    value_out: &mut [u8],
) -> Result<Option<(usize, usize)>, Error> {
    let mut reply = [0; 3];
    let number = ffi::scan(state, handle.0, kind_and_key(low), kind_and_key(high), key_out, value_out, &mut reply);
    done(number, 0)?;
    if !found(reply[0])? {
        return Ok(None);
    }
    Ok(Some((length_in(key_out, reply[1])?, length_in(value_out, reply[2])?)))
}

/// A bound as the calls take it.
fn kind_and_key(bound: Bound<&[u8]>) -> (u64, &[u8]) {
    match bound {
        Bound::Included(key) => (ffi::INCLUDED, key),
        Bound::Excluded(key) => (ffi::EXCLUDED, key),
        Bound::Unbounded => (ffi::UNBOUNDED, &[]),
    }
}

/// What a returned number says; `place` is what the reply tells with 10 and 11.
fn done(number: u64, place: u64) -> Result<(), Error> {
    match number {
        0 => Ok(()),
        _ => Err(Error::of(number, place)),
    }
}

/// Whether a reply that starts with 1 or 0 has further values.
fn found(flag: u64) -> Result<bool, Error> {
    match flag {
        0 => Ok(false),
        1 => Ok(true),
        _ => Err(Error::Unexpected { number: 0 }),
    }
}

/// The length of an answer, which is never above that of its buffer.
fn length_in(out: &[u8], length: u64) -> Result<usize, Error> {
    match usize::try_from(length) {
        Ok(length) if length <= out.len() => Ok(length),
        _ => Err(Error::Unexpected { number: 0 }),
    }
}

#[cfg(test)]
mod tests {
    use super::{found, length_in};
    use crate::Error;

    // No archive gives these replies, so that only the functions themselves can be asked.
    #[test]
    fn replies_that_no_contract_allows_are_told() {
        assert_eq!(found(2), Err(Error::Unexpected { number: 0 }));
        assert_eq!(length_in(&[0; 4], 4), Ok(4));
        assert_eq!(length_in(&[0; 4], 5), Err(Error::Unexpected { number: 0 }));
        assert_eq!(length_in(&[0; 4], u64::MAX), Err(Error::Unexpected { number: 0 }));
    }
}
