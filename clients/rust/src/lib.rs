//! The piece picker of a BitTorrent download (BEP 3): which block to request next, and from which peer.
//!
//! ```no_run
//! # fn main() -> Result<(), piecepick::Error> {
//! # let (metainfo, payload, word) = (vec![], vec![], || 0);
//! use piecepick::{Answer, Options, Picker};
//!
//! let mut picker = Picker::open(&metainfo, Options::new().workers(20))?;
//! picker.join(0)?;
//! picker.bits(0, &payload)?;
//! picker.unchoke(0)?;
//! loop {
//!     match picker.next(0, word())? {
//!         Answer::Request(block) => println!("send a request for {block:?}"),
//!         Answer::Cancel(block) => println!("send a cancel for {block:?}"),
//!         _ => break, // until something comes of this peer, or the epoch is another
//!     }
//! }
//! # Ok(())
//! # }
//! ```
//!
//! It is a binding of libpiecepick, whose header piecepick.h says what each call means. A call that gives an [`Error`] has changed nothing. A
//! call that a rule refuses has the answer [`Answer::Refused`]: that is mostly the peer's fault, and no error.
//!
//! # Threads
//!
//! A [`Picker`] and a [`Job`] are `Send`, and not `Sync`: the library takes no lock, and admits one call at a time at each of them. Threads that
//! share a picker put it into a `Mutex`. A job is hashed outside that, since it needs no picker.
//!
//! ```compile_fail
//! fn is_sync<T: Sync>() {}
//! is_sync::<piecepick::Picker>();
//! ```
//!
//! Calls that report or set something take `&mut self`. Queries take `&self`, though C has a pointer there that isn't const. What lies behind it is
//! memory of C, to which Rust has no reference. No other thread can make a call meanwhile, and the library calls nothing back.

#![warn(missing_docs)]
#![forbid(unsafe_op_in_unsafe_fn)]

mod answer;
mod depth;
mod error;
mod file;
mod hash;
mod job;
mod options;
mod picker;
pub mod sys;

pub use answer::{Answer, Block, Kind, PickRule, Reason};
pub use depth::DepthByRate;
pub use error::Error;
pub use file::File;
pub use hash::{hash, hash_four, Digest};
pub use job::Job;
pub use options::{Keeps, Options};
pub use picker::Picker;

/// The library's version as a number: 10,200 is 1.2.0.
pub fn version() -> u32 {
    // SAFETY: it takes nothing.
    unsafe { sys::piecepick_version() }
}
