"""What is told of a channel: what a commitment or a closing transaction is worth, and a summary."""

from __future__ import annotations

from dataclasses import dataclass
from enum import IntEnum
from typing import Annotated

from .codec import Bool, Hash, Packed, RoleByte, Sized2, U32, U64, choice, many, optional


class Commitment(IntEnum):
    """Which commitment `Link.view` tells of."""

    OWN = 0
    PEER = 1
    TO_SIGN = 2  # the peer's that the command Sign would sign
    TO_ACCEPT = 3  # the own one that the peer's next signature covers


class Connection(IntEnum):
    """Whether an end has a connection."""

    DOWN = 0
    AWAITS_REESTABLISH = 1
    CONNECTED = 2


class Status(IntEnum):
    """How far a channel is for its end."""

    OPEN = 0  # it can't take payments yet
    READY = 1
    SHUT = 2
    CLOSED = 3
    FAILED = 4


class LostData(IntEnum):
    """Whose data is lost, as far as a channel_reestablish that was refused by 34 proves it."""

    UNPROVED = 0
    OWN = 1  # the own commitment is revoked, and may not be published
    PEER = 2  # the own commitment may be published


@dataclass(frozen=True)
class Htlc(Packed):
    """A live HTLC of a commitment."""

    owner: RoleByte  # who offered it
    id: U64
    amount_msat: U64
    payment_hash: Hash
    cltv_expiry: U32  # block height


@dataclass(frozen=True)
class View(Packed):
    """What a commitment is worth: the HTLCs are the funder's by id, then the fundee's by id."""

    funder_msat: U64
    fundee_msat: U64
    feerate_per_kw: U32
    htlcs: Annotated[tuple[Htlc, ...], many(Htlc)]


@dataclass(frozen=True)
class Closing(Packed):
    """What a closing transaction pays. The funder pays the fee, which isn't taken off its balance here."""

    role: RoleByte  # the own one
    fee_satoshis: U64
    own_msat: U64
    peer_msat: U64
    own_scriptpubkey: Sized2
    peer_scriptpubkey: Sized2


@dataclass(frozen=True)
class Summary(Packed):
    """Where an end is. Balances are those of its own commitment; what a live HTLC pays is in neither."""

    connection: Annotated[Connection, choice(Connection)]
    halted: Bool
    channel: Annotated[bytes | None, optional(Hash)]  # None while it is being opened
    status: Annotated[Status, choice(Status)]
    value: U64  # the fee in satoshi where CLOSED, the refusal's number where FAILED, else 0
    lost_data: Annotated[LostData, choice(LostData)]  # where it failed by 34; else UNPROVED
    commitment_number: U64  # the own one
    signed_number: U64  # the peer's that was signed last
    revoked_number: U64  # how many of the peer's are revoked
    own_msat: U64
    peer_msat: U64
    live_htlcs: U64
    next_htlc_id: U64  # of the next HTLC that this side offers
    removed_htlcs: Annotated[tuple[int, ...], many(U64)]  # of the peer's, by this side
