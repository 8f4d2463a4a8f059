"""Messages of BOLT 1, and what a signer reads in messages of BOLT 2."""

from __future__ import annotations

from ctypes import c_uint16
from enum import IntEnum
from typing import Iterable

from .library import fetch, library, obey


class MessageType(IntEnum):
    """The types that this package looks for."""

    WARNING = 1
    ERROR = 17
    FUNDING_CREATED = 34
    FUNDING_SIGNED = 35
    CLOSING_SIGNED = 39
    COMMITMENT_SIGNED = 132
    REVOKE_AND_ACK = 133


def init(features: bytes, chains: Iterable[bytes] = ()) -> bytes:
    """An `init` with these features, big-endian as in the message, and chain hashes of 32 bytes each."""
    hashes = b"".join(chains)
    return fetch(library.lnl_init, features, len(features), hashes, len(hashes))


def check_init(message: bytes, known: Iterable[int]) -> None:
    """Whether these are all even features that the peer's `init` asks for; else Refused 9. 21: it is no `init`."""
    bits = list(known)
    obey(library.lnl_check_init, message, len(message), (c_uint16 * len(bits))(*bits), len(bits))


def check_chains(message: bytes, chains: Iterable[bytes]) -> None:
    """Whether the peer's `init` names no networks, or one of these chains; else 21, as where it is no `init`."""
    hashes = b"".join(chains)
    obey(library.lnl_shares_chain, message, len(message), hashes, len(hashes))


def pong(message: bytes) -> bytes | None:
    """The answer to a `ping`; None where none is wanted. 21: it is no `ping`."""
    return fetch(library.lnl_pong, message, len(message)) or None


def channel_of(message: bytes) -> bytes | None:
    """The channel id that a message names, the temporary one in the first three of an opening; None where none."""
    return fetch(library.lnl_channel, message, len(message)) or None


def print_message(message: bytes) -> str:
    """A message as text, a field a line."""
    return fetch(library.lnl_print, message, len(message)).decode()


def message_type(message: bytes) -> int:
    """The type of a message."""
    return int.from_bytes(message[:2], "big")


def error(channel: bytes, text: str) -> bytes:
    """An `error` for this channel: 32 zero bytes for all."""
    return _told(MessageType.ERROR, channel, text)


def warning(channel: bytes, text: str) -> bytes:
    """A `warning` for this channel: 32 zero bytes for none of them."""
    return _told(MessageType.WARNING, channel, text)


def _told(kind: MessageType, channel: bytes, text: str) -> bytes:
    data = text.encode()
    return kind.to_bytes(2, "big") + channel + len(data).to_bytes(2, "big") + data


def signatures_in(message: bytes) -> tuple[bytes, tuple[bytes, ...]]:
    """The signature over a commitment, and those over its HTLCs: of `funding_created`, `funding_signed` or
    `commitment_signed`. ValueError: it is none of these."""
    kind = message_type(message)
    if kind == MessageType.FUNDING_CREATED:
        return message[68:132], ()
    if kind == MessageType.FUNDING_SIGNED:
        return message[34:98], ()
    if kind == MessageType.COMMITMENT_SIGNED:
        count = int.from_bytes(message[98:100], "big")
        return message[34:98], tuple(message[100 + 64 * at : 164 + 64 * at] for at in range(count))
    raise ValueError(f"a message of type {kind} has no signature over a commitment")


def secret_in(message: bytes) -> bytes:
    """The per-commitment secret of a `revoke_and_ack`. ValueError: it is none."""
    if message_type(message) != MessageType.REVOKE_AND_ACK:
        raise ValueError("only revoke_and_ack has a secret")
    return message[34:66]


def closing_signature_in(message: bytes) -> bytes:
    """The signature of a `closing_signed`. ValueError: it is none."""
    if message_type(message) != MessageType.CLOSING_SIGNED:
        raise ValueError("only closing_signed has a signature over a closing transaction")
    return message[42:106]
