"""What a host is asked about a message, before it is taken. What is to be judged stands in the message."""

from __future__ import annotations

from dataclasses import dataclass

from .codec import Hash, Point, Role, RoleByte, Tagged, U64
from .views import Closing, View


class Question(Tagged):
    """One of the classes below."""


@dataclass(frozen=True)
class SignaturesQuestion(Question, tag=1):
    """Are they the peer's signatures over the own commitment of this number, and over its HTLCs? A byte, 0 or 1."""

    role: RoleByte  # the own one
    number: U64
    view: View


@dataclass(frozen=True)
class SecretQuestion(Question, tag=2):
    """Is it the secret of the peer's commitment of this number, which has this point? A byte, 0 or 1."""

    number: U64
    point: Point


@dataclass(frozen=True)
class CloseQuestion(Question, tag=3):
    """Is it the peer's signature over this closing transaction? A byte, 0 or 1."""

    closing: Closing


@dataclass(frozen=True)
class OwnSecretQuestion(Question, tag=4):
    """What is the own secret of this number? 32 bytes."""

    number: U64


@dataclass(frozen=True)
class NewQuestion(Question, tag=5):
    """Is there no record of this channel? A byte: 1 there is none, 0 there is one."""

    channel: Hash


@dataclass(frozen=True)
class FirstQuestion(Question, tag=6):
    """At a fundee: is it the peer's signature over the own commitment 0? A byte: 0 no, 1 yes, 2 there is a record of
    the channel already."""

    channel: Hash
    view: View

    @property
    def role(self) -> Role:
        """The own one."""
        return Role.FUNDEE

    @property
    def number(self) -> int:
        """The commitment's."""
        return 0
