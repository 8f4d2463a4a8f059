"""What an end of a channel is opened with (BOLT 2, "Channel Establishment v1")."""

from __future__ import annotations

from dataclasses import dataclass
from typing import Annotated

from .codec import Hash, Packed, Point, Sized2, U8, U16, U32, U64, many, pair


@dataclass(frozen=True)
class Config(Packed):
    """What a side opens channels with, as funder or as fundee. Its limits bind the HTLCs that the peer offers."""

    htlc_minimum_msat: U64
    max_accepted_htlcs: U16  # at most 483
    max_htlc_value_in_flight_msat: U64
    channel_reserve_satoshis: U64
    chain_hash: Hash
    dust_limit_satoshis: U64
    to_self_delay: U16  # blocks
    minimum_depth: U32  # blocks
    funding_pubkey: Point
    revocation_basepoint: Point
    payment_basepoint: Point
    delayed_payment_basepoint: Point
    htlc_basepoint: Point
    closing_fee_satoshis: U64  # proposed first, where it is the funder
    min_closing_fee_satoshis: U64
    max_closing_fee_satoshis: U64
    shutdown_scriptpubkey: Sized2  # where the command Shutdown names no other


@dataclass(frozen=True)
class OpenSpec(Packed):
    """What a funder opens one channel with. The funding may be named later: `Link.fund`."""

    config: Config
    funding_satoshis: U64
    push_msat: U64
    feerate_per_kw: U32  # satoshi for 1000 units of weight
    channel_flags: U8  # bit 0 announces the channel
    temporary_channel_id: Hash
    funding_txid: Hash = bytes(32)  # as in messages, not reversed
    funding_output_index: U16 = 0
    records: Annotated[tuple[tuple[int, bytes], ...], many(pair(U64, Sized2))] = ()  # of open_channel, by type


def channel_id(funding_txid: bytes, funding_output_index: int) -> bytes:
    """The id of a channel by its funding (BOLT 2, "Definition of `channel_id`"): 32 bytes."""
    mixed = int.from_bytes(funding_txid, "big") ^ funding_output_index
    return mixed.to_bytes(32, "big")


def short_channel_id(block: int, transaction: int, output: int) -> bytes:
    """Where on the chain the funding stands (BOLT 7, "Definition of `short_channel_id`"): 8 bytes."""
    return block.to_bytes(3, "big") + transaction.to_bytes(3, "big") + output.to_bytes(2, "big")
