//! What a host is asked about a message, before it is taken. What is to be judged stands in the message.

use crate::codec::tagged;
use crate::config::{Hash, Point};
use crate::view::{Closing, Role, View};

tagged! {
    /// What a host is asked about a message.
    pub enum Question {
        /// Are they the peer's signatures over the own commitment of this number, and over its HTLCs? A byte, 0 or 1.
        1 => Signatures {
            /// The own one.
            role: Role,
            /// The commitment's.
            number: u64,
            /// What it is worth.
            view: View,
        },
        /// Is it the secret of the peer's commitment of this number? A byte, 0 or 1.
        2 => Secret {
            /// The commitment's.
            number: u64,
            /// Its per-commitment point.
            point: Point,
        },
        /// Is it the peer's signature over this closing transaction? A byte, 0 or 1.
        3 => Close {
            /// What it pays.
            closing: Closing,
        },
        /// What is the own secret of this number? 32 bytes.
        4 => OwnSecret {
            /// The commitment's.
            number: u64,
        },
        /// Is there no record of this channel? A byte: 1 there is none, 0 there is one.
        5 => New {
            /// The channel.
            channel: Hash,
        },
        /// At a fundee: is it the peer's signature over the own commitment 0? A byte: 0 no, 1 yes, 2 there is a record
        /// of the channel already.
        6 => First {
            /// The channel.
            channel: Hash,
            /// What the commitment is worth.
            view: View,
        },
    }
}
