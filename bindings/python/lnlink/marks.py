"""What a record keeps of what is done about an event, until the HTLC is gone."""

from __future__ import annotations

from dataclasses import dataclass

from .codec import Hash, Sized8, Tagged, U16, U32, U64


class Mark(Tagged):
    """What is done about an event: one of the classes below. All but `NoMark` are for an HTLC that the peer added."""


@dataclass(frozen=True)
class NoMark(Mark, tag=0):
    """Nothing is to be kept."""


@dataclass(frozen=True)
class ForwardMark(Mark, tag=1):
    """The HTLC is forwarded over another channel."""

    channel: Hash
    amount_msat: U64
    cltv_expiry: U32


@dataclass(frozen=True)
class FailMark(Mark, tag=2):
    """The HTLC is failed for this reason (BOLT 4, "Returning Errors")."""

    reason: Sized8


@dataclass(frozen=True)
class MalformedMark(Mark, tag=3):
    """The HTLC is failed, as its onion can't be read."""

    failure_code: U16


@dataclass(frozen=True)
class FulfilMark(Mark, tag=4):
    """The HTLC is fulfilled."""

    payment_preimage: Hash


@dataclass(frozen=True)
class HeldMark(Mark, tag=5):
    """The HTLC is held: the command `Resume` decides it later, by the number of its event."""

    event: U64
