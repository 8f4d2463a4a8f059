//! What is told of a channel: what a commitment or a closing transaction is worth, and a summary.

use crate::codec::{choice, packed};
use crate::config::Hash;

choice! {
    /// A side of a channel.
    pub enum Role {
        /// It opened the channel, and pays its fees.
        Funder = 0,
        /// The other one.
        Fundee = 1,
    }
}

impl Role {
    /// The other side.
    #[must_use]
    pub fn other(self) -> Role {
        match self {
            Role::Funder => Role::Fundee,
            Role::Fundee => Role::Funder,
        }
    }
}

choice! {
    /// Which commitment `Link::view` tells of.
    pub enum Commitment {
        /// The own one.
        Own = 0,
        /// The peer's.
        Peer = 1,
        /// The peer's that the command `Sign` would sign.
        ToSign = 2,
        /// The own one that the peer's next signature covers.
        ToAccept = 3,
    }
}

choice! {
    /// Whether an end has a connection.
    pub enum Connection {
        /// It has none.
        Down = 0,
        /// It has one, and awaits the peer's `channel_reestablish`.
        AwaitsReestablish = 1,
        /// The peer is there.
        Connected = 2,
    }
}

choice! {
    /// How far a channel is for its end.
    pub enum Status {
        /// It can't take payments yet.
        Open = 0,
        /// It takes payments.
        Ready = 1,
        /// A shutdown has passed.
        Shut = 2,
        /// It is closed.
        Closed = 3,
        /// It has failed.
        Failed = 4,
    }
}

choice! {
    /// Whose data is lost, as far as a `channel_reestablish` that was refused proves it.
    pub enum LostData {
        /// Nothing is proved.
        Unproved = 0,
        /// This side's: its commitment is revoked, and may not be published.
        Own = 1,
        /// The peer's: this side may publish its commitment.
        Peer = 2,
    }
}

impl LostData {
    /// By the byte of an answer.
    pub(crate) fn of(detail: u8) -> LostData {
        match detail {
            1 => LostData::Own,
            2 => LostData::Peer,
            _ => LostData::Unproved,
        }
    }
}

packed! {
    /// A live HTLC of a commitment.
    pub struct Htlc {
        /// Who offered it.
        owner: Role,
        /// Its number among those that its owner offered.
        id: u64,
        /// In msat.
        amount_msat: u64,
        /// What its preimage has to hash to.
        payment_hash: Hash,
        /// The block height at which it times out.
        cltv_expiry: u32,
    }
}

packed! {
    /// What a commitment is worth.
    pub struct View {
        /// In msat.
        funder_msat: u64,
        /// In msat.
        fundee_msat: u64,
        /// In satoshi for 1000 units of weight.
        feerate_per_kw: u32,
        /// The funder's by id, then the fundee's by id.
        htlcs: Vec<Htlc> as list,
    }
}

packed! {
    /// What a closing transaction pays. The funder pays the fee.
    pub struct Closing {
        /// The own one.
        role: Role,
        /// In satoshi.
        fee_satoshis: u64,
        /// The own balance, in msat; the fee isn't taken off.
        own_msat: u64,
        /// The peer's, in msat; the fee isn't taken off.
        peer_msat: u64,
        /// What the own side is paid to.
        own_scriptpubkey: Vec<u8> as sized2,
        /// What the peer is paid to.
        peer_scriptpubkey: Vec<u8> as sized2,
    }
}

packed! {
    /// Where an end is. Balances are those of its own commitment; what a live HTLC pays is in neither.
    pub struct Summary {
        /// Whether it has a connection.
        connection: Connection,
        /// Whether memory ran out; it then answers `Halted` to everything.
        halted: bool,
        /// None while the channel is being opened.
        channel: Option<Hash>,
        /// How far it is.
        status: Status,
        /// The fee in satoshi where `Closed`, the refusal's number where `Failed`, else 0.
        value: u64,
        /// Where it failed by 34; else `Unproved`.
        lost_data: LostData,
        /// The number of the own commitment.
        commitment_number: u64,
        /// The number of the peer's that was signed last.
        signed_number: u64,
        /// How many of the peer's are revoked.
        revoked_number: u64,
        /// In msat.
        own_msat: u64,
        /// In msat.
        peer_msat: u64,
        /// How many there are.
        live_htlcs: u64,
        /// Of the next HTLC that this side offers.
        next_htlc_id: u64,
        /// The peer's HTLCs that this side has removed.
        removed_htlcs: Vec<u64> as list,
    }
}
