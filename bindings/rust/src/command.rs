//! What an end is told to do.

use crate::codec::tagged;
use crate::config::{Hash, Onion};

tagged! {
    /// What an end is told to do. Where it refuses, nothing has changed and nothing is sent: by `Halted`, by what its
    /// channel has failed by, by `NotReady`, by `Disconnected` where the command sends something, and as told below.
    pub enum Command {
        /// The funding is deep enough: sends `channel_ready`. `NotReady` where it was sent.
        0 => Confirm {
            /// Where the funding stands.
            short_channel_id: [u8; 8],
        },
        /// Offers an HTLC with the next id; `Sign` then commits it. `Shut`, `PeerLimit`, `NumbersSpent`.
        1 => Add {
            /// In msat.
            amount_msat: u64,
            /// What its preimage has to hash to.
            payment_hash: Hash,
            /// The block height at which it times out.
            cltv_expiry: u32,
            /// What its receiver forwards it by.
            onion: Onion,
            /// The channel and id of the HTLC that it forwards.
            origin: Option<(Hash, u64)>,
        },
        /// Fulfils an HTLC of the peer's. `NotCommitted`, `AlreadyRemoved`, `PeerLimit(28)`: there is none,
        /// `PeerLimit(29)`: the preimage is wrong.
        2 => Fulfil {
            /// The HTLC.
            id: u64,
            /// What hashes to its payment hash.
            payment_preimage: Hash,
        },
        /// Fails an HTLC of the peer's. `NotCommitted`, `AlreadyRemoved`, `PeerLimit(28)`, `PeerLimit(7)`.
        3 => Fail {
            /// The HTLC.
            id: u64,
            /// For its origin: at most 65,491 bytes.
            reason: Vec<u8> as sized2,
        },
        /// Fails an HTLC of the peer's whose onion can't be read. `NotCommitted`, `AlreadyRemoved`, `PeerLimit(28)`,
        /// `PeerLimit(21)`: the code hasn't 0x8000.
        4 => Malformed {
            /// The HTLC.
            id: u64,
            /// Of the onion as it came.
            sha256_of_onion: Hash,
            /// What was wrong.
            failure_code: u16,
        },
        /// Changes the feerate. `PeerLimit(30)` at the fundee; `Shut`, `NumbersSpent`.
        5 => Fee {
            /// In satoshi for 1000 units of weight.
            feerate_per_kw: u32,
        },
        /// Signs the peer's next commitment. `SignatureOutstanding`, `NothingToSign`, `NumbersSpent`.
        6 => Sign,
        /// Begins the close. `Shut`, `UpdatesPending`.
        7 => Shutdown {
            /// What the own balance is paid to.
            scriptpubkey: Vec<u8> as sized2,
        },
        /// The first undecided event has been acted on. `NotReady` where it has another number, or the mark isn't for
        /// it.
        8 => Decide {
            /// The event's number.
            event: u64,
            /// What the record keeps.
            mark: Mark,
        },
        /// What became of the own HTLC of this id, which forwards another, has been passed on.
        9 => Forget {
            /// The HTLC.
            id: u64,
        },
        /// What is held by the number of this event is decided. `NotReady` where nothing is.
        10 => Resume {
            /// The event's number.
            event: u64,
            /// What is done.
            mark: Mark,
        },
    }
}

tagged! {
    /// What a record keeps of what is done about an event, until the HTLC is gone. All but `Nothing` are for an HTLC
    /// that the peer added.
    pub enum Mark {
        /// Nothing is to be kept.
        0 => Nothing,
        /// The HTLC is forwarded.
        1 => Forward {
            /// Over this channel.
            channel: Hash,
            /// In msat.
            amount_msat: u64,
            /// Of the outgoing HTLC.
            cltv_expiry: u32,
        },
        /// The HTLC is failed.
        2 => Fail {
            /// For this reason.
            reason: Vec<u8> as sized8,
        },
        /// The HTLC is failed, as its onion can't be read.
        3 => Malformed {
            /// What was wrong.
            failure_code: u16,
        },
        /// The HTLC is fulfilled.
        4 => Fulfil {
            /// What hashes to its payment hash.
            payment_preimage: Hash,
        },
        /// The HTLC is held, until the command `Resume` decides it.
        5 => Held {
            /// The number of its own event.
            event: u64,
        },
    }
}
