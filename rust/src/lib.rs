//! Paths, connection IDs and timers for QUIC servers.
//!
//! The core behind this crate is written in Rattle, and every function of it is proved to meet its contract. It does what `cid.rs`, `path.rs` and `timer.rs` of
//! tquic 1.6.0 do, under the same names. docs/RULES.md of the project says what each call answers and leaves; the docs here name its headings.
//!
//! Three states, [`Timers`], [`Ids`] and [`Paths`], each of a fixed size, with no allocation in the core, no clock and no globals. Their
//! fields can't be written from outside, so a state that a `fresh` accepted is never [`Refusal::Malformed`]. Each call answers `Result<_, Refusal>`. A refusal
//! leaves what RULES.md names with it, mostly nothing changed.
//!
//! ```
//! use vignorasc::{ConnectionId, Ids, Refusal, ResetToken};
//!
//! # fn main() -> Result<(), Refusal> {
//! let mut ids = Ids::fresh(4, ConnectionId::new(b"server-0"), 0, Some(ResetToken([7; 16])))?;
//! let seq = ids.add_scid(ConnectionId::new(b"server-1"), Some(ResetToken([8; 16])), true, None, false)?;
//! assert_eq!(seq, 1);
//! assert_eq!(ids.next_scid_to_advertise()?, Some(1));
//!
//! // The peer allows two by default, and nothing may be retired for a third.
//! let third = ids.add_scid(ConnectionId::new(b"server-2"), Some(ResetToken([9; 16])), true, None, false);
//! assert_eq!(third, Err(Refusal::ConnectionIdLimitError));
//! # Ok(())
//! # }
//! ```
//!
//! ```compile_fail,E0616
//! vignorasc::Timers::fresh().0.expires[0].set = true; // private
//! ```
//!
//! Nothing here panics, whatever a peer or a host gives: what is out of form comes back as a refusal. The states are plain data, so two threads may work on two
//! of them. The two larger ones are of 5.6 kB each; a server with many connections keeps them in a `Box`.
//!
//! `examples/migrate.rs` is a small server whose client changes its address in mid-push.

// The library's declarations alone, in ffi.rs, are unsafe, and say why they may be called safely.
#![deny(unsafe_code)]
#![warn(missing_docs)]

mod ffi;
mod ids;
mod paths;
mod refusal;
mod time;
mod timers;
mod values;

pub use ids::{Ids, Item, NewConnectionIdFrame};
pub use paths::{Path, PathState, Paths, Response, SentChallenge};
pub use refusal::Refusal;
pub use time::{Clock, Moment, Span};
pub use timers::{Timer, Timers};
pub use values::{token_matches, ConnectionId, FourTuple, ResetToken};
