"""What an end hands out, in its line: records, blanks, messages, events, the close."""

from __future__ import annotations

from dataclasses import dataclass
from typing import Annotated

from .codec import (
    Bool,
    Hash,
    Onion,
    Packed,
    Point,
    Rest,
    RoleByte,
    Signature,
    Sized2,
    Sized8,
    Tagged,
    U16,
    U32,
    U64,
    many,
    optional,
    pair,
)
from .views import Closing, View


@dataclass(frozen=True)
class HeldSignatures(Packed):
    """The peer's signatures over the own commitment of this number: what a unilateral close needs."""

    number: U64
    signature: Signature
    htlc_signatures: Annotated[tuple[bytes, ...], many(Signature)]


class How(Tagged):
    """How an HTLC was removed: one of the classes below."""


@dataclass(frozen=True)
class Fulfilled(How, tag=0):
    """Its preimage was told."""

    payment_preimage: Hash


@dataclass(frozen=True)
class Failed(How, tag=1):
    """For this reason, which its origin can read."""

    reason: Sized2


@dataclass(frozen=True)
class FailedMalformed(How, tag=2):
    """Its onion couldn't be read."""

    sha256_of_onion: Hash
    failure_code: U16


class Event(Tagged):
    """What an end holds as irrevocably committed: one of the classes below."""


@dataclass(frozen=True)
class Added(Event, tag=0):
    """An HTLC is in both commitments, for good. `own`: this side offered it."""

    own: Bool
    id: U64
    amount_msat: U64
    payment_hash: Hash
    cltv_expiry: U32
    onion: Onion


@dataclass(frozen=True)
class Settled(Event, tag=1):
    """An HTLC is out of both commitments, for good. `own`: this side offered it."""

    own: Bool
    id: U64
    how: How


@dataclass(frozen=True)
class ChannelClosed(Event, tag=2):
    """Both sides have signed a closing transaction of this fee."""

    fee_satoshis: U64


class Blank(Tagged):
    """What is open in a message that is to be sent: one of the classes below."""


@dataclass(frozen=True)
class SignaturesBlank(Blank, tag=1):
    """The own signatures over the peer's commitment of this number at its point, then those over its untrimmed HTLCs in
    the order of their outputs: 64 bytes each."""

    role: RoleByte  # the own one
    number: U64
    point: Point
    view: View


@dataclass(frozen=True)
class RevocationBlank(Blank, tag=2):
    """The own secret of the one number, 32 bytes, and the own point of the other, 33 bytes."""

    secret_number: U64
    point_number: U64


@dataclass(frozen=True)
class PointBlank(Blank, tag=3):
    """The own point of this number: 33 bytes."""

    number: U64


@dataclass(frozen=True)
class CloseBlank(Blank, tag=4):
    """The own signature over this closing transaction: 64 bytes."""

    closing: Closing


class Item(Tagged):
    """The head of a line: one of the classes below."""


@dataclass(frozen=True)
class Record(Item, tag=1):
    """What is to be saved before anything that it covers is sent: `saved()` whole, and each secret, for ever."""

    channel: Hash
    signatures: Annotated[HeldSignatures | None, optional(HeldSignatures)]
    secrets: Annotated[tuple[tuple[int, bytes], ...], many(pair(U64, Hash))]  # the peer's, since the record before
    record: Sized8

    def saved(self) -> bytes:
        """What `Link.load` takes."""
        return self.to_bytes()[1:]

    @classmethod
    def from_saved(cls, saved: bytes) -> Record:
        """The record that was saved so. ValueError where none was."""
        return cls.from_bytes(bytes([cls.TAG]) + saved)


@dataclass(frozen=True)
class BlankItem(Item, tag=2):
    """What is to be filled; the message then stands in its place."""

    blank: Blank


@dataclass(frozen=True)
class Send(Item, tag=3):
    """A message for the peer."""

    message: Rest


@dataclass(frozen=True)
class EventItem(Item, tag=4):
    """An event, by its number from 0; the command `Decide` follows once it was acted on."""

    number: U64
    event: Event


@dataclass(frozen=True)
class Closed(Item, tag=5):
    """The channel is closed at this fee."""

    fee_satoshis: U64
