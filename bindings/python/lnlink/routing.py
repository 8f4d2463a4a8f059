"""A routing node of a wallet: its channels, their signers, its store, its onions, and the loop over them."""

from __future__ import annotations

from collections import deque
from threading import RLock
from typing import Callable, Protocol, Sequence

from .channel import Signer, answer_to, filled_by
from .commands import Command
from .config import Config, OpenSpec
from .items import BlankItem, Event, Record, Send
from .node import Node, Settings
from .node_items import Batch, GoOn, HeldHtlc, NodeEvent, NodeItem, NodeMessage, OnionFound, OnionItem, Verdict
from .node_items import WrapItem
from .refusals import Refused
from .views import Commitment, Summary, View

NOT_READY = 40


class NodeStore(Protocol):
    """Where the records of all channels are kept: what a batch has is saved in one transaction, as `Store` says it of
    each record."""

    def save_batch(self, records: Sequence[Record]) -> None:
        """Saves all of them or nothing. Returns only once they are on disk; raises where they aren't."""

    def load_all(self) -> list[tuple[bytes, bytes]]:
        """The id and the last `record.saved()` of each channel."""


class Onions(Protocol):
    """The key by which a node opens onions (BOLT 4)."""

    def open(self, payment_hash: bytes, onion: bytes) -> OnionFound:
        """What is in an onion (BOLT 4, "Onion Decryption")."""

    def wrap(self, item: WrapItem) -> bytes:
        """A failure as it goes back (BOLT 4, "Returning Errors"): `item.incoming` has the onion whose shared secret
        wraps it. One of the node's own is padded and authenticated first."""


OnVerdict = Callable[[int, int, Event], "Verdict | None"]
SendMessage = Callable[[int, bytes], None]


def _go_on(channel: int, number: int, event: Event) -> None:
    return None


class RoutingNode:
    """A node that forwards payments between its channels, and saves before it sends.

    `send` is told each message for a channel's peer, in order. `on_event` is told of each event, by its channel and its
    number, and answers what is to be done about a payment that a peer has offered: GoOn (as None), FailPayment or Hold.
    An event is told again where that call raises, and after a restart where it wasn't decided yet. Neither gives
    commands itself.

    Where the store, a signer, the onions or `on_event` raise, nothing that depends on it is sent; `flush` tries again.
    Threads may share a node.
    """

    def __init__(
        self,
        node: Node,
        signers: list[Signer],
        store: NodeStore,
        onions: Onions,
        send: SendMessage,
        on_event: OnVerdict = _go_on,
    ):
        self.node = node
        self._signers = signers
        self._store = store
        self._onions = onions
        self._send = send
        self._on_event = on_event
        self._lock = RLock()
        self._in_turn = False
        self._item: NodeItem | None = None  # one that wasn't dealt with, as something raised
        self._waiting: deque[NodeEvent] | None = None  # events, until a loaded node begins

    @classmethod
    def load(
        cls,
        settings: Settings,
        signer_of: Callable[[bytes], Signer],
        store: NodeStore,
        onions: Onions,
        send: SendMessage,
        on_event: OnVerdict = _go_on,
    ) -> RoutingNode:
        """The node of all records that the store has, a new one where it has none. The channels' numbers count these
        records from 0. `signer_of` answers the signer of a channel by its id. No event is told before `begin`."""
        saved = store.load_all()
        node = Node.load(settings, [record for _, record in saved])
        loaded = cls(node, [signer_of(channel) for channel, _ in saved], store, onions, send, on_event)
        loaded._waiting = deque()
        loaded.flush()
        return loaded

    def begin(self) -> None:
        """Tells of events, after a load: once the height and the payments that are waited for are told again, and the
        channels are connected. A payment that is to leave by a channel that isn't fails by 0x1007. Does nothing
        later."""
        with self._lock:
            while self._waiting:
                self._turn(self._tell_first)
            self._waiting = None

    def open(self, spec: OpenSpec, signer: Signer) -> int:
        """A channel that this side asks for: its number. `connect` sends open_channel."""
        with self._lock:
            channel = self.node.open(spec, signer.point(0))
            self._signers.append(signer)
            return channel

    def accept(self, config: Config, signer: Signer) -> int:
        """A channel that awaits open_channel once it is connected: its number."""
        with self._lock:
            channel = self.node.accept(config, signer.point(0))
            self._signers.append(signer)
            return channel

    def fund(self, channel: int, txid: bytes, output: int) -> None:
        """Names the funding of a channel, before accept_channel is received."""
        self.node.fund(channel, txid, output)

    def connect(self, channel: int) -> None:
        """There is a connection to the channel's peer, and `init` has passed."""
        self._turn(lambda: self.node.connect(channel))

    def disconnect(self, channel: int) -> None:
        """The connection is lost. What wasn't sent is sent again, where BOLT 2 wants that, after the next `connect`."""
        self._turn(lambda: self.node.disconnect(channel))

    def receive(self, channel: int, message: bytes) -> None:
        """A channel takes a message of its peer's. Refused where it is refused: by any number but 20 and 36 the
        connection is then closed."""
        self._turn(lambda: self.node.message(channel, message, self._answer(channel, message)))

    def command(self, channel: int, command: Command) -> None:
        """A channel does what it is told. Refused where it is refused, and nothing has changed."""
        self._turn(lambda: self.node.command(channel, command))

    def sign(self) -> None:
        """Each channel signs that owes a signature: one covers all updates, the peer's too."""
        self._turn(self.node.sign)

    def expect(self, preimage: bytes, secret: bytes, amount_msat: int) -> None:
        """A payment is waited for, which the node takes as its last hop. It is forgotten by a restart."""
        self.node.expect(preimage, secret, amount_msat)

    def set_height(self, height: int) -> None:
        """The block height from now on."""
        self.node.set_height(height)

    def held(self) -> list[HeldHtlc]:
        """The HTLCs that are held."""
        return self.node.held()

    def resume(self, channel: int, event: int, verdict: Verdict) -> None:
        """What is to be done about an HTLC that was held. Refused by 40 where the channel holds none by this event."""
        self._turn(lambda: self.node.resume(channel, event, verdict))

    def flush(self) -> None:
        """Hands out what waits, after something raised."""
        self._turn(lambda: None)

    def summary(self, channel: int) -> Summary:
        """Where a channel is."""
        return self.node.look(channel)

    def view(self, channel: int, which: Commitment = Commitment.OWN) -> View:
        """What a commitment of a channel is worth."""
        return self.node.view(channel, which)

    def close(self) -> None:
        """Frees the node. Its channels are as they were saved: `load` takes them up again."""
        with self._lock:
            self.node.close()

    def __enter__(self) -> RoutingNode:
        return self

    def __exit__(self, *_: object) -> None:
        self.close()

    def _turn(self, act: Callable[[], None]) -> None:
        with self._lock:
            if self._in_turn:
                raise RuntimeError("commands are given once the call that tells of an event has answered")
            self._in_turn = True
            try:
                refused = None
                try:
                    act()
                except Refused as caught:
                    refused = caught
                self._hand_out()
            finally:
                self._in_turn = False
            if refused is not None:
                raise refused

    def _hand_out(self) -> None:
        while True:
            if self._item is None:
                self._item = self.node.next()
            if self._item is None:
                return
            self._take(self._item)
            self._item = None

    def _take(self, item: NodeItem) -> None:
        if isinstance(item, Batch):
            self._store.save_batch(item.records())
            self.node.saved(item.number)
        elif isinstance(item, NodeMessage):
            self._take_message(item)
        elif isinstance(item, WrapItem):
            self._fill(item.channel, item.message, self._onions.wrap(item))
        elif isinstance(item, OnionItem):
            if item.incoming is not None:
                self.node.onion(*item.incoming, self._onions.open(*item.incoming))
        else:
            assert isinstance(item, NodeEvent)
            if self._waiting is None:
                self._tell(item)
            else:
                self._waiting.append(item)

    def _tell_first(self) -> None:
        assert self._waiting is not None
        self._tell(self._waiting[0])
        self._waiting.popleft()

    def _tell(self, item: NodeEvent) -> None:
        verdict = self._on_event(item.channel, item.item.number, item.item.event)
        self.node.verdict(item.channel, item.item.number, verdict or GoOn())

    def _take_message(self, item: NodeMessage) -> None:
        if isinstance(item.item, BlankItem):
            self._fill(item.channel, item.message, filled_by(self._signers[item.channel], item.item.blank))
            return
        assert isinstance(item.item, Send)
        try:
            self.node.sent(item.channel, item.message)
        except Refused as refused:  # its connection was lost meanwhile
            if refused.number != NOT_READY:
                raise
            return
        self._send(item.channel, item.item.message)

    def _fill(self, channel: int, message: int, filling: bytes) -> None:
        try:
            self.node.fill(channel, message, filling)
        except Refused as refused:  # its connection was lost meanwhile
            if refused.number != NOT_READY:
                raise

    def _answer(self, channel: int, message: bytes) -> bytes:
        question = self.node.question(channel, message)
        return b"" if question is None else answer_to(self._signers[channel], question, message)
