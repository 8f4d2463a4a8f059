"""A signer with real keys, secrets and signatures over secp256k1, for tests.

What is signed isn't a BOLT 3 transaction: it is a digest of what the library says of the commitment. A wallet's signer
builds the transaction of the view instead, with the terms of the opening, and derives its keys by the point (BOLT 3,
"Key Derivation"). It plugs in at the same calls.
"""

from __future__ import annotations

import hashlib

from lnlink import (
    Closing,
    FirstQuestion,
    Role,
    SignaturesBlank,
    SignaturesQuestion,
    View,
    closing_signature_in,
    signatures_in,
)

import secp256k1

LAST_INDEX = 2**48 - 1


def sha256(data: bytes) -> bytes:
    """SHA-256."""
    return hashlib.sha256(data).digest()


def generate_from_seed(seed: bytes, index: int) -> bytes:
    """The per-commitment secret of an index (BOLT 3, "Per-commitment Secret Requirements")."""
    secret = bytearray(seed)
    for bit in reversed(range(48)):
        if index >> bit & 1:
            secret[bit // 8] ^= 1 << bit % 8
            secret = bytearray(sha256(secret))
    return bytes(secret)


def commitment_digest(owner: Role, number: int, point: bytes, view: View) -> bytes:
    """What is signed of a commitment: a double SHA-256 over its owner, number and point, and what it is worth."""
    return sha256(sha256(bytes([owner]) + number.to_bytes(8, "big") + point + view.to_bytes()))


def htlc_digest(digest: bytes, at: int) -> bytes:
    """What is signed of a commitment's HTLC."""
    return sha256(sha256(digest + at.to_bytes(2, "big")))


def closing_digest(closing: Closing) -> bytes:
    """What is signed of a closing transaction: the same from both sides."""
    sides = [
        closing.own_msat.to_bytes(8, "big") + closing.own_scriptpubkey,
        closing.peer_msat.to_bytes(8, "big") + closing.peer_scriptpubkey,
    ]
    if closing.role == Role.FUNDEE:
        sides.reverse()
    return sha256(sha256(closing.fee_satoshis.to_bytes(8, "big") + sides[0] + sides[1]))


class RealSigner:
    """The keys of one end. `meet` tells it the peer's points: a wallet reads them in the opening's messages."""

    def __init__(self, name: str):
        self._seed = sha256(name.encode() + b" seed")
        self._funding = sha256(name.encode() + b" funding")
        self._htlc = sha256(name.encode() + b" htlc")
        self.funding_pubkey = secp256k1.point_of(self._funding)
        self.htlc_basepoint = secp256k1.point_of(self._htlc)
        self.peer_funding = b""
        self.peer_htlc = b""
        self.closings: list[Closing] = []  # that it signed

    def meet(self, peer: RealSigner) -> None:
        """Learns the peer's points."""
        self.peer_funding, self.peer_htlc = peer.funding_pubkey, peer.htlc_basepoint

    def point(self, number: int) -> bytes:
        return secp256k1.point_of(self.secret(number))

    def secret(self, number: int) -> bytes:
        return generate_from_seed(self._seed, LAST_INDEX - number)

    def sign(self, blank: SignaturesBlank) -> bytes:
        digest = commitment_digest(blank.role.other, blank.number, blank.point, blank.view)
        signatures = [secp256k1.sign(self._funding, digest)]
        for at in range(len(blank.view.htlcs)):
            signatures.append(secp256k1.sign(self._htlc, htlc_digest(digest, at)))
        return b"".join(signatures)

    def verify(self, question: SignaturesQuestion | FirstQuestion, message: bytes) -> bool:
        digest = commitment_digest(question.role, question.number, self.point(question.number), question.view)
        signature, htlcs = signatures_in(message)
        return (
            secp256k1.verify(self.peer_funding, digest, signature)
            and len(htlcs) == len(question.view.htlcs)
            and all(secp256k1.verify(self.peer_htlc, htlc_digest(digest, at), one) for at, one in enumerate(htlcs))
        )

    def fits(self, number: int, point: bytes, secret: bytes) -> bool:
        try:
            return secp256k1.point_of(secret) == point
        except ValueError:
            return False

    def sign_close(self, closing: Closing) -> bytes:
        self.closings.append(closing)
        return secp256k1.sign(self._funding, closing_digest(closing))

    def verify_close(self, closing: Closing, message: bytes) -> bool:
        return secp256k1.verify(self.peer_funding, closing_digest(closing), closing_signature_in(message))
