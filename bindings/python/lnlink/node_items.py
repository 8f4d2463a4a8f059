"""What a routing node hands out, and what it is answered."""

from __future__ import annotations

from dataclasses import dataclass
from typing import Annotated

from .codec import Bool, Codec, Hash, Onion, Packed, Reader, Rest, Sized2, Sized8, Tagged, U16, U32, U64
from .codec import many, optional, pair
from .items import EventItem, Item, Record


class NodeItem(Tagged):
    """One of the classes below."""


@dataclass(frozen=True)
class Batch(NodeItem, tag=1):
    """Records of channels, which are saved in one transaction: then `Node.saved` is told its number."""

    number: U64
    saved: Annotated[tuple[tuple[int, bytes], ...], many(pair(U64, Sized8))]  # a channel's number, and its record

    def records(self) -> list[Record]:
        """The records, as a store saves them."""
        return [Record.from_saved(saved) for _, saved in self.saved]


@dataclass(frozen=True)
class NodeMessage(NodeItem, tag=2):
    """A message of a channel: a BlankItem, for `Node.fill`, or a Send, for the peer and `Node.sent`. Both are told the
    message's number."""

    channel: U64
    message: U64
    item: Item


@dataclass(frozen=True)
class NodeEvent(NodeItem, tag=3):
    """An event of a channel: `Node.verdict` is told its number."""

    channel: U64
    item: EventItem


@dataclass(frozen=True)
class OnionItem(NodeItem, tag=4):
    """An onion that a peer has offered, with its payment hash: `Node.onion` is told what is in it. None: its HTLC is
    gone."""

    incoming: Annotated[tuple[bytes, bytes] | None, optional(pair(Hash, Onion))]


@dataclass(frozen=True)
class WrapItem(NodeItem, tag=5):
    """A failure that leaves to the peer who has offered this HTLC: `Node.fill` is told how it is wrapped (BOLT 4,
    "Returning Errors"). `came_back`: it comes from the next hop; else it is a failure message of the node's own."""

    channel: U64
    message: U64
    id: U64
    incoming: Annotated[tuple[bytes, bytes] | None, optional(pair(Hash, Onion))]  # payment hash and onion
    came_back: Bool
    failure: Rest


class OnionFound(Tagged):
    """What was found in an onion: one of the classes below."""


def _write_next(onion: bytes | None) -> bytes:
    return onion or b""


def _read_next(reader: Reader) -> bytes | None:
    return reader.rest() or None


@dataclass(frozen=True)
class Opened(OnionFound, tag=0):
    """This hop's payload, and the onion for the next one; None where this is the last hop."""

    payload: Sized2
    next_onion: Annotated[bytes | None, Codec(_write_next, _read_next)] = None


@dataclass(frozen=True)
class WrongVersion(OnionFound, tag=1):
    """Its version isn't known."""


@dataclass(frozen=True)
class WrongHmac(OnionFound, tag=2):
    """Its HMAC is another one's."""


@dataclass(frozen=True)
class WrongKey(OnionFound, tag=3):
    """Its key can't be read."""


@dataclass(frozen=True)
class WrongPayload(OnionFound, tag=4):
    """Its payload can't be read."""


class Verdict(Tagged):
    """What is to be done about an event: one of the classes below. Only of an HTLC that a peer has offered it says
    anything; for all others it is `GoOn`."""


@dataclass(frozen=True)
class GoOn(Verdict, tag=0):
    """The payment is forwarded or taken, as its onion says."""


@dataclass(frozen=True)
class FailPayment(Verdict, tag=1):
    """The payment fails by this code (BOLT 4, "Failure Messages")."""

    failure_code: U16


@dataclass(frozen=True)
class Hold(Verdict, tag=2):
    """The payment is held until `Node.resume`."""


@dataclass(frozen=True)
class HeldHtlc(Packed):
    """An HTLC that is held."""

    channel: U64
    event: U64  # by this number it is resumed
    id: U64
    amount_msat: U64
    payment_hash: Hash
    cltv_expiry: U32


def held_from_bytes(data: bytes) -> list[HeldHtlc]:
    """All of them."""
    return [HeldHtlc.from_bytes(data[at : at + 68]) for at in range(0, len(data), 68)]
