//! What an end hands out, in its line: records, blanks, messages, events, the close.

use crate::codec::{packed, tagged, Malformed, Wire};
use crate::config::{Hash, Onion, Point, Signature};
use crate::view::{Closing, Role, View};

packed! {
    /// The peer's signatures over an own commitment: what a unilateral close needs.
    pub struct HeldSignatures {
        /// The commitment's.
        number: u64,
        /// Over the commitment.
        signature: Signature,
        /// Over its untrimmed HTLCs, in the order of their outputs.
        htlc_signatures: Vec<Signature> as list,
    }
}

packed! {
    /// What is to be saved before anything that it covers is sent: `to_bytes` whole, and each secret, for ever.
    pub struct Record {
        /// The channel.
        channel: Hash,
        /// The peer's over the own commitment.
        signatures: Option<HeldSignatures>,
        /// The peer's secrets since the record before, each with the number of the commitment that it revokes.
        secrets: Vec<(u64, Hash)> as list,
        /// What the end comes back from.
        record: Vec<u8> as sized8,
    }
}

tagged! {
    /// How an HTLC was removed.
    pub enum How {
        /// Its preimage was told.
        0 => Fulfilled {
            /// What hashes to its payment hash.
            payment_preimage: Hash,
        },
        /// It failed.
        1 => Failed {
            /// Its origin can read this.
            reason: Vec<u8> as sized2,
        },
        /// Its onion couldn't be read.
        2 => Malformed {
            /// Of the onion as it came.
            sha256_of_onion: Hash,
            /// What was wrong.
            failure_code: u16,
        },
    }
}

tagged! {
    /// What an end holds as irrevocably committed.
    pub enum Event {
        /// An HTLC is in both commitments, for good.
        0 => Added {
            /// Whether this side offered it.
            own: bool,
            /// The HTLC.
            id: u64,
            /// In msat.
            amount_msat: u64,
            /// What its preimage has to hash to.
            payment_hash: Hash,
            /// The block height at which it times out.
            cltv_expiry: u32,
            /// What its receiver forwards it by.
            onion: Onion,
        },
        /// An HTLC is out of both commitments, for good.
        1 => Settled {
            /// Whether this side offered it.
            own: bool,
            /// The HTLC.
            id: u64,
            /// How it was removed.
            how: How,
        },
        /// Both sides have signed a closing transaction.
        2 => Closed {
            /// Its fee, in satoshi.
            fee_satoshis: u64,
        },
    }
}

tagged! {
    /// What is open in a message that is to be sent.
    pub enum Blank {
        /// The own signatures over the peer's commitment of this number, then those over its untrimmed HTLCs in the
        /// order of their outputs: 64 bytes each.
        1 => Signatures {
            /// The own one.
            role: Role,
            /// The commitment's.
            number: u64,
            /// The peer's per-commitment point.
            point: Point,
            /// What the commitment is worth.
            view: View,
        },
        /// The own secret of the one number, 32 bytes, and the own point of the other, 33 bytes.
        2 => Revocation {
            /// Of the commitment that is revoked.
            secret_number: u64,
            /// Of the commitment after the next.
            point_number: u64,
        },
        /// The own point of this number: 33 bytes.
        3 => Point {
            /// The commitment's.
            number: u64,
        },
        /// The own signature over this closing transaction: 64 bytes.
        4 => Close {
            /// What it pays.
            closing: Closing,
        },
    }
}

/// The head of a line.
#[derive(Clone, Debug, PartialEq, Eq)]
pub enum Item {
    /// What is to be saved first.
    Record(Record),
    /// What is to be filled; the message then stands in its place.
    Blank(Blank),
    /// A message for the peer.
    Send(Vec<u8>),
    /// An event by its number, from 0; the command `Decide` follows once it was acted on.
    Event(u64, Event),
    /// The channel is closed at this fee, in satoshi.
    Closed(u64),
}

impl Item {
    /// The item of which these are the bytes.
    ///
    /// # Errors
    ///
    /// They are no item's.
    pub fn from_bytes(bytes: &[u8]) -> Result<Item, Malformed> {
        let (kind, rest) = bytes.split_first().ok_or(Malformed)?;
        Ok(match kind {
            1 => Item::Record(Record::from_bytes(rest)?),
            2 => Item::Blank(Blank::from_bytes(rest)?),
            3 => Item::Send(rest.to_vec()),
            4 => {
                let (number, event) = <(u64, Event)>::from_bytes(rest)?;
                Item::Event(number, event)
            }
            5 => Item::Closed(u64::from_bytes(rest)?),
            _ => return Err(Malformed),
        })
    }
}
