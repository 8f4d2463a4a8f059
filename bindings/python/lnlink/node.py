"""A routing node, call by call: include/lnlink.h, "A node", in Python. `RoutingNode` is the loop over it."""

from __future__ import annotations

from ctypes import byref, c_size_t
from dataclasses import dataclass
from threading import Lock
from typing import Any, Iterable

from .codec import Hash, Packed, U16, U32, U64
from .commands import Command
from .config import Config, OpenSpec
from .library import Handle, fetch, library, obey
from .node_items import HeldHtlc, NodeItem, OnionFound, Verdict, held_from_bytes
from .questions import Question
from .views import Commitment, Summary, View


@dataclass(frozen=True)
class Settings(Packed):
    """What a node asks for what it forwards (BOLT 7), and a secret of 32 bytes that is the same over all restarts: by
    it the node knows the failures that it has made."""

    fee_base_msat: U32
    fee_proportional_millionths: U32
    cltv_expiry_delta: U16  # blocks
    mark: Hash


class Node:
    """A routing node: many channels, told by their numbers 0, 1, .. in the order in which they were loaded, opened or
    accepted, and one book of the payments that it forwards.

    Threads may share it: a lock makes each call wait for the one before. Each call raises Refused where the library
    refuses. A closed node answers 83.
    """

    def __init__(self) -> None:
        self._handle = Handle()
        self._lock = Lock()

    @classmethod
    def load(cls, settings: Settings, records: Iterable[bytes] = ()) -> Node:
        """The node of the last record of each of its channels, all at once: `Record.saved()`. Without any it is a new
        node. Each onion that it then asks for is to be answered before `connect`. 70, 71."""
        data = settings.to_bytes()
        saved = b"".join(len(record).to_bytes(8, "big") + record for record in records)
        node = cls()
        obey(library.lnl_node_load, byref(node._handle), data, len(data), saved, len(saved))
        return node

    def open(self, spec: OpenSpec, first_point: bytes) -> int:
        """A channel that this side asks for: its number. 40: the spec's values don't fit."""
        return self._number(library.lnl_node_open, spec.to_bytes(), first_point)

    def accept(self, config: Config, first_point: bytes) -> int:
        """A channel that a peer may ask for: its number. 40: the config's values don't fit."""
        return self._number(library.lnl_node_accept, config.to_bytes(), first_point)

    def fund(self, channel: int, txid: bytes, output: int) -> None:
        """Names the funding of a channel, until `accept_channel` is given; else 40."""
        self._obey(library.lnl_node_fund, channel, txid, len(txid), output)

    def connect(self, channel: int) -> None:
        """There is a connection to the channel's peer, and `init` has passed. 80: an onion that was asked for after the
        load isn't answered."""
        self._obey(library.lnl_node_connect, channel)

    def disconnect(self, channel: int) -> None:
        """The connection is lost, and with it the messages that wait."""
        self._obey(library.lnl_node_disconnect, channel)

    def question(self, channel: int, message: bytes) -> Question | None:
        """What has to be answered before a message is taken; nothing changes."""
        data = self._fetch(library.lnl_node_question, channel, message, len(message))
        return Question.from_bytes(data) if data else None

    def message(self, channel: int, message: bytes, answer: bytes = b"") -> None:
        """A channel takes a message, with the answer to its question. By 21 to 35 and 37 the channel has failed."""
        self._obey(library.lnl_node_message, channel, message, len(message), answer, len(answer))

    def command(self, channel: int, command: Command) -> None:
        """A channel does what it is told: Confirm, Add without an origin, Fee, Sign, Shutdown. 40 for others, which are
        the node's own."""
        data = command.to_bytes()
        self._obey(library.lnl_node_command, channel, data, len(data))

    def sign(self) -> None:
        """Each channel signs that owes a signature."""
        self._obey(library.lnl_node_sign)

    def set_height(self, height: int) -> None:
        """The block height from now on."""
        self._obey(library.lnl_node_height, height)

    def expect(self, preimage: bytes, secret: bytes, amount_msat: int) -> None:
        """A payment is waited for, which the node takes as its last hop."""
        self._obey(library.lnl_node_expect, preimage, len(preimage), secret, len(secret), amount_msat)

    def next(self) -> NodeItem | None:
        """The next item, which is handed out once; None where there is none."""
        data = self._fetch(library.lnl_node_next)
        return NodeItem.from_bytes(data) if data else None

    def saved(self, batch: int) -> None:
        """The batch of this number is saved, and synced. 40: it isn't the last one."""
        self._obey(library.lnl_node_saved, batch)

    def fill(self, channel: int, message: int, filling: bytes) -> None:
        """Fills a message that has a blank, or wraps its failure: it comes again to be sent."""
        self._obey(library.lnl_node_fill, channel, message, filling, len(filling))

    def sent(self, channel: int, message: int) -> None:
        """A message was sent, or will be: nothing stands before it any more."""
        self._obey(library.lnl_node_sent, channel, message)

    def onion(self, payment_hash: bytes, onion: bytes, found: OnionFound) -> None:
        """What was found in an onion that was asked for. 40: no HTLC has it."""
        data = found.to_bytes()
        self._obey(library.lnl_node_onion, payment_hash, len(payment_hash), onion, len(onion), data, len(data))

    def verdict(self, channel: int, event: int, verdict: Verdict) -> None:
        """What is to be done about an event. 80: its onion isn't answered; 40: it isn't handed out, or was decided."""
        data = verdict.to_bytes()
        self._obey(library.lnl_node_verdict, channel, event, data, len(data))

    def resume(self, channel: int, event: int, verdict: Verdict) -> None:
        """What is to be done about an HTLC that a channel holds by the number of its event. 40: it holds none so."""
        data = verdict.to_bytes()
        self._obey(library.lnl_node_resume, channel, event, data, len(data))

    def held(self) -> list[HeldHtlc]:
        """The HTLCs that are held."""
        return held_from_bytes(self._fetch(library.lnl_node_held))

    def look(self, channel: int) -> Summary:
        """Where a channel is."""
        return Summary.from_bytes(self._fetch(library.lnl_node_look, channel))

    def view(self, channel: int, which: Commitment = Commitment.OWN) -> View:
        """What a commitment of a channel is worth."""
        return View.from_bytes(self._fetch(library.lnl_node_view, channel, which))

    def close(self) -> None:
        """Frees it. The channels are as they were saved."""
        with self._lock:
            library.lnl_node_free(byref(self._handle))

    def _obey(self, call: Any, *arguments: Any) -> None:
        with self._lock:
            obey(call, byref(self._handle), *arguments)

    def _fetch(self, call: Any, *arguments: Any) -> bytes:
        with self._lock:
            return fetch(call, byref(self._handle), *arguments)

    def _number(self, call: Any, data: bytes, first_point: bytes) -> int:
        channel = c_size_t()
        self._obey(call, data, len(data), first_point, len(first_point), byref(channel))
        return channel.value

    def __enter__(self) -> Node:
        return self

    def __exit__(self, *_: object) -> None:
        self.close()

    def __del__(self) -> None:
        library.lnl_node_free(byref(self._handle))
