"""What an end is told to do. Where it refuses, nothing has changed and nothing is sent.

Each command may be refused by 62 (the end has halted), by the number that its channel has failed by, by 40 (the channel
isn't ready for it) and, where it sends something, by 47 (there is no connection). Others are told with each command.
"""

from __future__ import annotations

from dataclasses import dataclass
from typing import Annotated

from .codec import Hash, Onion, ShortId, Sized2, Tagged, U16, U32, U64, optional, pair
from .marks import Mark, NoMark


class Command(Tagged):
    """One of the classes below."""


@dataclass(frozen=True)
class Confirm(Command, tag=0):
    """The funding is deep enough: sends channel_ready. 40 where it was sent."""

    short_channel_id: ShortId


@dataclass(frozen=True)
class Add(Command, tag=1):
    """Offers an HTLC with the next id (BOLT 2, "Adding an HTLC: `update_add_htlc`"); `Sign` then commits it.

    43 where a shutdown has passed, 44 with the peer's rule where it would refuse it, 46.
    """

    amount_msat: U64
    payment_hash: Hash
    cltv_expiry: U32  # block height
    onion: Onion
    origin: Annotated[tuple[bytes, int] | None, optional(pair(Hash, U64))] = None  # channel and id that it forwards


@dataclass(frozen=True)
class Fulfil(Command, tag=2):
    """Fulfils an HTLC of the peer's. 44 with 28: there is none; 48: it isn't committed yet; 49: it is removed already;
    44 with 29: the preimage is wrong."""

    id: U64
    payment_preimage: Hash


@dataclass(frozen=True)
class Fail(Command, tag=3):
    """Fails an HTLC of the peer's, for a reason of at most 65,491 bytes (else 44 with 7). 44 with 28, 48, 49."""

    id: U64
    reason: Sized2


@dataclass(frozen=True)
class Malformed(Command, tag=4):
    """Fails an HTLC of the peer's whose onion can't be read. 44 with 28, 48, 49; 44 with 21 for a code without
    0x8000."""

    id: U64
    sha256_of_onion: Hash
    failure_code: U16


@dataclass(frozen=True)
class Fee(Command, tag=5):
    """Changes the feerate, in satoshi for 1000 units of weight. 44 with 30 at the fundee; 43, 46."""

    feerate_per_kw: U32


@dataclass(frozen=True)
class Sign(Command, tag=6):
    """Signs the peer's next commitment. 41 where the last signature isn't revoked yet, 42 where nothing would be new,
    46."""


@dataclass(frozen=True)
class Shutdown(Command, tag=7):
    """Begins the close: the own balance is paid to this script. 43 where it was sent, 45 where own updates are
    pending."""

    scriptpubkey: Sized2


@dataclass(frozen=True)
class Decide(Command, tag=8):
    """The first undecided event has been acted on. 40 where it has another number, or the mark isn't for it."""

    event: U64
    mark: Mark = NoMark()


@dataclass(frozen=True)
class Forget(Command, tag=9):
    """What became of the own HTLC of this id, which forwards another, has been passed on."""

    id: U64


@dataclass(frozen=True)
class Resume(Command, tag=10):
    """What is held by the number of this event is decided. 40 where nothing is."""

    event: U64
    mark: Mark
