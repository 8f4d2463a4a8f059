//! What an end of a channel is opened with (BOLT 2, "Channel Establishment v1").

use crate::codec::packed;

/// 32 bytes: a hash, a secret, a preimage, a channel id, a txid.
pub type Hash = [u8; 32];
/// A compressed point of secp256k1.
pub type Point = [u8; 33];
/// A signature, as messages have it.
pub type Signature = [u8; 64];
/// What the receiver of an HTLC forwards it by (BOLT 4).
pub type Onion = Box<[u8; 1366]>;

packed! {
    /// What a side opens channels with, as funder or as fundee. Its limits bind the HTLCs that the peer offers.
    pub struct Config {
        /// The least amount of an HTLC, in msat.
        htlc_minimum_msat: u64,
        /// The most HTLCs: at most 483.
        max_accepted_htlcs: u16,
        /// The most that they may come to, in msat.
        max_htlc_value_in_flight_msat: u64,
        /// What the peer has to keep, in satoshi.
        channel_reserve_satoshis: u64,
        /// The chain, by the hash of its first block.
        chain_hash: Hash,
        /// Told to the peer, in satoshi.
        dust_limit_satoshis: u64,
        /// Told to the peer, in blocks.
        to_self_delay: u16,
        /// What a fundee tells the funder, in blocks.
        minimum_depth: u32,
        /// Its key of the funding output.
        funding_pubkey: Point,
        /// What the peer's revocation keys come from.
        revocation_basepoint: Point,
        /// What it is paid to where the peer closes alone.
        payment_basepoint: Point,
        /// What it is paid to where it closes alone.
        delayed_payment_basepoint: Point,
        /// What the keys of HTLCs come from.
        htlc_basepoint: Point,
        /// The closing fee that it proposes first as funder, in satoshi.
        closing_fee_satoshis: u64,
        /// The least that it agrees to, in satoshi.
        min_closing_fee_satoshis: u64,
        /// The most that it agrees to, in satoshi.
        max_closing_fee_satoshis: u64,
        /// The script of its `shutdown`, where the command names no other.
        shutdown_scriptpubkey: Vec<u8> as sized2,
    }
}

packed! {
    /// What a funder opens one channel with. The funding may be named later: `Link::fund`.
    pub struct OpenSpec {
        /// What it opens channels with.
        config: Config,
        /// What it pays in, in satoshi.
        funding_satoshis: u64,
        /// What of that the fundee has at first, in msat.
        push_msat: u64,
        /// In satoshi for 1000 units of weight.
        feerate_per_kw: u32,
        /// Bit 0 announces the channel.
        channel_flags: u8,
        /// Its id until the funding is known.
        temporary_channel_id: Hash,
        /// As in messages, not reversed.
        funding_txid: Hash,
        /// The output that pays the channel.
        funding_output_index: u16,
        /// The records of `open_channel`, by type.
        records: Vec<(u64, Vec<u8>)> as list,
    }
}

/// The id of a channel by its funding (BOLT 2, "Definition of `channel_id`").
#[must_use]
pub fn channel_id(funding_txid: &Hash, funding_output_index: u16) -> Hash {
    let mut id = *funding_txid;
    let [high, low] = funding_output_index.to_be_bytes();
    id[30] ^= high;
    id[31] ^= low;
    id
}

/// Where on the chain the funding stands (BOLT 7, "Definition of `short_channel_id`"); block and transaction are below
/// 2^24.
#[must_use]
pub fn short_channel_id(block: u32, transaction: u32, output: u16) -> [u8; 8] {
    let packed = u64::from(block) << 40 | u64::from(transaction) << 16 | u64::from(output);
    packed.to_be_bytes()
}
