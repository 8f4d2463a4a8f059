//! One end of a Lightning channel: BOLT 2 from `open_channel` to the mutual close, over lost connections and restarts.
//! What decides is the proved library liblnlink; sockets, keys and disk are its host's.
//!
//! [`Channel`] is what a wallet uses, with a [`Signer`] and a [`Store`]; [`Link`] is the library call by call. [`Node`]
//! is a routing node of many channels, call by call.
//!
//! ```
//! use lnlink::{message, Refused};
//!
//! // BOLT 1 is of no channel.
//! assert_eq!(message::pong(&[0, 18, 0, 2, 0, 0])?, Some(vec![0, 19, 0, 2, 0, 0]));
//! assert_eq!(message::pong(&[0, 18, 0]), Err(Refused::Truncated));
//! let init = message::init(&[0x10, 0x00], &[[6; 32]])?;
//! message::check_init(&init, &[12])?;
//! message::check_chains(&init, &[[6; 32]])?;
//! # Ok::<(), Refused>(())
//! ```
#![deny(unsafe_code)]
#![warn(missing_docs)]

mod channel;
pub mod codec;
mod command;
mod config;
#[allow(unsafe_code)]
mod ffi;
mod item;
mod link;
pub mod message;
mod node;
mod question;
mod refused;
mod store;
mod view;

pub use channel::{Channel, CommitmentTerms, Error, Messages, OnEvent, Signer};
pub use codec::{Malformed, Wire};
pub use command::{Command, Mark};
pub use config::{channel_id, short_channel_id, Config, Hash, Onion, OpenSpec, Point, Signature};
pub use item::{Blank, Event, HeldSignatures, How, Item, Record};
pub use link::Link;
pub use node::{HeldHtlc, Node, NodeItem, OnionFound, Settings, Verdict};
pub use question::Question;
pub use refused::Refused;
pub use store::{BoxError, FileStore, Store};
pub use view::{Closing, Commitment, Connection, Htlc, LostData, Role, Status, Summary, View};
