//! A safe crate over the static library of the proved signing desk: Biscuit signatures and the clip envelope.
//!
//! A [`Set`] names the parameters. [`SecretKey`], [`PublicKey`] and [`Signature`] know their set and always have its length, so a call
//! never meets a key of a wrong length. Bytes of a wrong length are refused where a key (4) or a signature (5) is made of them; the calls still refuse seeds and
//! random bytes (2), a message (3), a signature of another set (5) and an envelope (10). A [`Desk`] owns the
//! work buffer and makes the calls. A [`Refusal`] has the desk's number and words.
//!
//! ```
//! use biscuit::{Desk, Refusal, Set};
//!
//! let set = Set::Biscuit128s;
//! let mut desk = Desk::new();
//! let (secret, _public) = desk.make_keys(set, &[1; 16], &[2; 16])?;
//! let envelope = desk.sign_envelope(&secret, b"Good evening.", None)?;
//! assert_eq!(desk.check(&envelope)?.message(), b"Good evening.");
//! # Ok::<(), Refusal>(())
//! ```
//!
//! What is proved is the library's calls, which [`raw`] shows as they are; this crate is ordinary Rust over them. No random number is drawn: seeds and random
//! bytes come from the caller.
//!
//! In your own crate: `biscuit = { path = ".." }`, with the path of this folder. It links `libdesk.a`, which `bench/archive desk` makes in `target/bench`;
//! `DESK_ARCHIVE`, a whole path, names the folder where it lies elsewhere.

#![warn(missing_docs)]

mod desk;
mod envelope;
mod keys;
pub mod raw;
mod refusal;
mod set;

pub use desk::Desk;
pub use envelope::Envelope;
pub use keys::{clear, PublicKey, SecretKey, Signature};
pub use refusal::Refusal;
pub use set::{Set, MESSAGE_LIMIT};
