//! Our store in one lent buffer, and how it is put back to what it was.

use ngalovuki::ffi;

const TRANSACTIONS: u64 = 4;
const OVERLAY: u64 = 16_384;
const READS: u64 = 1_024;
const WRITES: u64 = 256;
const ENTRIES: u64 = 16;
const HASHES: u64 = 1_024;
const ACTIVE: u64 = 16_384;
const AREA: u64 = 16_777_216;
pub const SETTINGS: [u64; 9] = [1, TRANSACTIONS, OVERLAY, READS, WRITES, ENTRIES, HASHES, ACTIVE, AREA];

/// Where the run area begins and ends (docs/STATE.md). No call but a freeze writes to it, and a freeze only behind the
/// images that are there, so that what stands in front of them and behind the area is all there is to put back.
const AREA_AT: usize = (88 + 8 + 16 * TRANSACTIONS + 8 + 16 * ENTRIES + 4 * HASHES + 8 + ACTIVE) as usize;
const AREA_END: usize = AREA_AT + (8 + 128 + AREA) as usize;

pub struct Ours {
    pub state: Vec<u8>,
}

/// A state without its run area.
pub struct Saved {
    front: Vec<u8>,
    behind: Vec<u8>,
}

impl Ours {
    /// A store over run images, in a buffer of zeros.
    pub fn open(images: &[Vec<u8>]) -> Self {
        let mut state = vec![0; ffi::state_length(SETTINGS) as usize];
        let lengths: Vec<u64> = images.iter().map(|i| i.len() as u64).collect();
        assert_eq!(ffi::open(&mut state, SETTINGS, &images.concat(), &lengths, &mut [0; 3]), 0);
        Ours { state }
    }

    pub fn saved(&self) -> Saved {
        Saved { front: self.state[..AREA_AT + 8].to_vec(), behind: self.state[AREA_END..].to_vec() }
    }

    pub fn put_back(&mut self, saved: &Saved) {
        self.state[..AREA_AT + 8].copy_from_slice(&saved.front);
        self.state[AREA_END..].copy_from_slice(&saved.behind);
    }

    pub fn begin(&mut self) -> u64 {
        let mut reply = [0; 2];
        assert_eq!(ffi::begin(&mut self.state, &mut reply), 0);
        reply[0]
    }

    pub fn put(&mut self, handle: u64, key: &[u8], value: &[u8]) {
        assert_eq!(ffi::put(&mut self.state, handle, key, value), 0);
    }

    pub fn commit(&mut self, handle: u64) {
        assert_eq!(ffi::commit(&mut self.state, handle, &mut [0; 2]), 0);
    }

    pub fn end(&mut self, handle: u64) {
        assert_eq!(ffi::end(&mut self.state, handle), 0);
    }

    /// The length of a key's value, which is then in front of `out`.
    pub fn get(&mut self, handle: u64, key: &[u8], out: &mut [u8]) -> Option<usize> {
        let mut reply = [0; 2];
        assert_eq!(ffi::get(&mut self.state, handle, key, out, &mut reply), 0);
        (reply[0] == 1).then_some(reply[1] as usize)
    }

    /// Up to `most` pairs from a key on, one call for each and for the end; hands over each pair and tells how many
    /// calls were made.
    pub fn scan(&mut self, handle: u64, from: &[u8], most: usize, mut each: impl FnMut(&[u8], &[u8])) -> usize {
        let (mut key, mut value, mut last) = ([0; 64], [0; 64], [0; 64]);
        let (mut kind, mut length) = (ffi::INCLUDED, from.len());
        last[..length].copy_from_slice(from);
        for calls in 1..=most {
            let mut reply = [0; 3];
            let low = (kind, &last[..length]);
            let high = (ffi::UNBOUNDED, &[][..]);
            assert_eq!(ffi::scan(&mut self.state, handle, low, high, &mut key, &mut value, &mut reply), 0);
            if reply[0] == 0 {
                return calls;
            }
            (kind, length) = (ffi::EXCLUDED, reply[1] as usize);
            last[..length].copy_from_slice(&key[..length]);
            each(&key[..length], &value[..reply[2] as usize]);
        }
        most
    }
}
