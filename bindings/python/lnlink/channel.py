"""A channel of a wallet: its link, its signer, its store, and the loop over them."""

from __future__ import annotations

from threading import RLock
from typing import Callable, Protocol

from .commands import Command, Decide, Sign
from .config import Config, OpenSpec
from .items import (
    Blank,
    BlankItem,
    CloseBlank,
    Event,
    EventItem,
    Item,
    PointBlank,
    Record,
    RevocationBlank,
    Send,
    SignaturesBlank,
)
from .link import Link
from .marks import Mark, NoMark
from .messages import secret_in
from .questions import (
    CloseQuestion,
    FirstQuestion,
    NewQuestion,
    OwnSecretQuestion,
    Question,
    SecretQuestion,
    SignaturesQuestion,
)
from .refusals import Refused
from .store import Store
from .views import Closing, Commitment, Summary, View

DAMAGED = 70
NOT_NOW = (40, 41, 42, 47)  # not ready, a signature is unrevoked, nothing is new, not connected


class Signer(Protocol):
    """The keys of one end of one channel (BOLT 3). Commitments have numbers from 0.

    `messages.signatures_in` and `messages.closing_signature_in` find what is to be verified.
    """

    def point(self, number: int) -> bytes:
        """The own per-commitment point of this number: 33 bytes."""

    def secret(self, number: int) -> bytes:
        """The own per-commitment secret of this number: 32 bytes. It is asked for once the commitment is revoked in a
        record that was saved, or once the peer tells of it."""

    def sign(self, blank: SignaturesBlank) -> bytes:
        """Signs the peer's commitment and its untrimmed HTLCs, in the order of their outputs: 64 bytes each."""

    def verify(self, question: SignaturesQuestion | FirstQuestion, message: bytes) -> bool:
        """Whether the message's signatures are the peer's over the own commitment and its HTLCs."""

    def fits(self, number: int, point: bytes, secret: bytes) -> bool:
        """Whether this is the secret of the peer's commitment of this number, which has this point."""

    def sign_close(self, closing: Closing) -> bytes:
        """Signs a closing transaction: 64 bytes."""

    def verify_close(self, closing: Closing, message: bytes) -> bool:
        """Whether the message's signature is the peer's over a closing transaction."""


OnEvent = Callable[[int, Event], "Mark | None"]


def _ignore(number: int, event: Event) -> None:
    return None


class Channel:
    """One end of a channel, which saves before it sends.

    Each call answers the messages to send, in order. `on_event` is told of each event, with its number: it answers what
    the record is to keep of what is done (a mark), or None. Then the event is decided, and isn't told again. An event
    is told again where that call raises, and after a restart where it wasn't decided yet. `on_event` gives no commands
    itself: the wallet does so once the call has answered.

    Where the store or the signer raises, nothing that depends on it is answered; `flush` tries again. Threads may share
    a channel.
    """

    def __init__(self, link: Link, signer: Signer, store: Store, on_event: OnEvent = _ignore):
        self.link = link
        self._signer = signer
        self._store = store
        self._on_event = on_event
        self._lock = RLock()
        self._in_turn = False
        self._outbox: list[bytes] = []

    @classmethod
    def open(cls, spec: OpenSpec, signer: Signer, store: Store, on_event: OnEvent = _ignore) -> Channel:
        """A funder's channel. `connect` sends open_channel."""
        return cls(Link.open(spec, signer.point(0)), signer, store, on_event)

    @classmethod
    def accept(cls, config: Config, signer: Signer, store: Store, on_event: OnEvent = _ignore) -> Channel:
        """A fundee's channel, which awaits open_channel once it is connected."""
        return cls(Link.accept(config, signer.point(0)), signer, store, on_event)

    @classmethod
    def load(cls, channel: bytes, signer: Signer, store: Store, on_event: OnEvent = _ignore) -> Channel:
        """A channel that was saved. KeyError: the store has none of this id. Refused by 70 where it gives another
        channel's. The next call, as `connect`, tells of events that weren't decided."""
        saved = store.load(channel)
        if saved is None:
            raise KeyError(channel.hex())
        link = Link.load(saved)
        if link.look().channel != channel:
            link.close()
            raise Refused(DAMAGED)
        return cls(link, signer, store, on_event)

    def fund(self, txid: bytes, output: int) -> None:
        """Names the funding, before accept_channel is received."""
        self.link.fund(txid, output)

    def connect(self) -> list[bytes]:
        """There is a connection, and `init` has passed."""
        return self._turn(self.link.connect)

    def disconnect(self) -> None:
        """The connection is lost. What wasn't sent is sent again, where BOLT 2 wants that, after the next `connect`."""
        with self._lock:
            self.link.disconnect()
            self._outbox.clear()

    def receive(self, message: bytes) -> list[bytes]:
        """Takes a message of the peer's. Refused where it is refused: its `messages` are to be sent, and by any number
        but 20 and 36 the connection is then closed."""
        return self._turn(lambda: self.link.message(message, self._answer(message)))

    def command(self, command: Command) -> list[bytes]:
        """Does what it is told. Refused where it is refused, and nothing has changed."""
        return self._turn(lambda: self.link.command(command))

    def sign_when_due(self) -> list[bytes]:
        """Signs the peer's next commitment, if there is anything new to sign and the last signature is revoked. No
        messages where it can't sign now."""
        try:
            return self.command(Sign())
        except Refused as refused:
            if refused.number in NOT_NOW:
                return []
            raise

    def flush(self) -> list[bytes]:
        """Hands out what waits, after a store or a signer raised."""
        return self._turn(lambda: None)

    def summary(self) -> Summary:
        """Where the channel is."""
        return self.link.look()

    def view(self, which: Commitment = Commitment.OWN) -> View:
        """What a commitment is worth."""
        return self.link.view(which)

    def close(self) -> None:
        """Frees the link. The channel is as it was saved: `load` takes it up again."""
        with self._lock:
            self.link.close()

    def __enter__(self) -> Channel:
        return self

    def __exit__(self, *_: object) -> None:
        self.close()

    def _turn(self, act: Callable[[], None]) -> list[bytes]:
        with self._lock:
            if self._in_turn:
                raise RuntimeError("commands are given once the call that tells of an event has answered")
            self._in_turn = True
            try:
                refused = self._refusal(act)
                self._hand_out()
            finally:
                self._in_turn = False
            sent, self._outbox = self._outbox, []
            if refused is not None:
                refused.messages = sent
                raise refused
            return sent

    @staticmethod
    def _refusal(act: Callable[[], None]) -> Refused | None:
        try:
            act()
        except Refused as refused:
            return refused
        return None

    def _hand_out(self) -> None:
        while (item := self.link.next()) is not None:
            self._take(item)

    def _take(self, item: Item) -> None:
        if isinstance(item, Record):
            self._store.save(item)
            self.link.done()
        elif isinstance(item, BlankItem):
            self.link.done(filled_by(self._signer, item.blank))
        elif isinstance(item, Send):
            self._outbox.append(item.message)
            self.link.done()
        elif isinstance(item, EventItem):
            mark = self._on_event(item.number, item.event)
            self.link.done()
            self.link.command(Decide(item.number, mark or NoMark()))
        else:
            self.link.done()

    def _answer(self, message: bytes) -> bytes:
        question = self.link.question(message)
        return b"" if question is None else self._judge(question, message)

    def _judge(self, question: Question, message: bytes) -> bytes:
        if isinstance(question, NewQuestion):
            return _byte(self._store.load(question.channel) is None)
        if isinstance(question, FirstQuestion) and self._store.load(question.channel) is not None:
            return b"\2"
        return answer_to(self._signer, question, message)


def filled_by(signer: Signer, blank: Blank) -> bytes:
    """What a signer fills in a message."""
    if isinstance(blank, SignaturesBlank):
        return signer.sign(blank)
    if isinstance(blank, RevocationBlank):
        return signer.secret(blank.secret_number) + signer.point(blank.point_number)
    if isinstance(blank, PointBlank):
        return signer.point(blank.number)
    assert isinstance(blank, CloseBlank)
    return signer.sign_close(blank.closing)


def answer_to(signer: Signer, question: Question, message: bytes) -> bytes:
    """What a signer answers to a question about a message."""
    if isinstance(question, (SignaturesQuestion, FirstQuestion)):
        return _byte(signer.verify(question, message))
    if isinstance(question, SecretQuestion):
        return _byte(signer.fits(question.number, question.point, secret_in(message)))
    if isinstance(question, CloseQuestion):
        return _byte(signer.verify_close(question.closing, message))
    assert isinstance(question, OwnSecretQuestion)
    return signer.secret(question.number)


def _byte(yes: bool) -> bytes:
    return b"\1" if yes else b"\0"
