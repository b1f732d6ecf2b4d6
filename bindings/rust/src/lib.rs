//! A multi-version key-value store in one buffer: what a reader sees, and which commit stands.
//!
//! The store itself is a static archive, compiled from functions that are proved to meet their contracts. This crate
//! calls it: it owns the buffer, hands over slices, and turns the numbers that come back into results. Document 01, the
//! project's scope document, decides what each call does. In the repository, `crates/host/ngalovuki.h` says it call by
//! call, and `docs/STATE.md` shows how the buffer is laid out.
//!
//! # A week booked, and a conflict met
//!
//! Two desks find the same week free, and both book it. The first commit stands, and the second is refused, since what
//! it has read is no longer so.
//!
//! ```
//! use ngalovuki::{Error, Settings, Store};
//!
//! let mut store = Store::open(Settings::small(), &[])?;
//! let north = store.begin()?.handle;
//! let south = store.begin()?.handle;
//!
//! assert_eq!(store.get(north, b"linguist 7, week 47")?, None);
//! assert_eq!(store.get(south, b"linguist 7, week 47")?, None);
//! store.put(north, b"linguist 7, week 47", b"job 12")?;
//! store.put(south, b"linguist 7, week 47", b"job 30")?;
//!
//! assert_eq!(store.commit(north), Ok(Some(1)));
//! assert_eq!(store.commit(south), Err(Error::Conflict));
//! store.end(north)?;
//! store.end(south)?;
//!
//! // The desk tries again, and sees that the week is taken.
//! let again = store.begin()?.handle;
//! assert_eq!(store.get(again, b"linguist 7, week 47")?, Some(b"job 12".to_vec()));
//! store.end(again)?;
//! # Ok::<(), Error>(())
//! ```
//!
//! # Linking
//!
//! `rt lib`, run in `crates/host`, writes the archive to `crates/host/out/libhost.a`. The
//! build of this crate looks there, or in the folder that the environment variable `NGALOVUKI_LIB` names.
#![warn(missing_docs)]
#![deny(unsafe_code)]

mod error;
pub mod ffi;
mod scan;
mod settings;
mod store;

pub use error::Error;
pub use scan::Scan;
pub use settings::Settings;
pub use store::{Begun, Handle, Pair, Store, LONGEST};
