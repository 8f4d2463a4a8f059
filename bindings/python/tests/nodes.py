"""Three routing nodes in one process, a payer, a middle node and a payee: each with its keys and its database."""

from __future__ import annotations

from collections import deque
from dataclasses import dataclass, field
from pathlib import Path
from typing import Callable, Sequence

from lnlink import (
    Add,
    Confirm,
    Event,
    How,
    OnionFound,
    Opened,
    Record,
    Refused,
    RoutingNode,
    Settings,
    Settled,
    SqliteStore,
    Verdict,
    WrapItem,
    channel_id,
    short_channel_id,
)

from ends import FUNDING_SATOSHIS, PUSH_MSAT, StoreFails, config_of, spec_of
from signer import RealSigner, sha256

SETTINGS = Settings(1000, 100, 40, sha256(b"mark"))  # 1 satoshi and 0.01 % for a payment that is forwarded
HEIGHT = 100
LEFT, RIGHT = channel_id(sha256(b"left"), 1), channel_id(sha256(b"right"), 1)
TXIDS = {LEFT: sha256(b"left"), RIGHT: sha256(b"right")}
SHORT_IDS = {LEFT: short_channel_id(110, 1, 1), RIGHT: short_channel_id(111, 1, 1)}


def tlv(kind: int, value: bytes) -> bytes:
    """A record of a payload."""
    return bytes([kind, len(value)]) + value


def truncated(number: int) -> bytes:
    """A number without its leading zero bytes."""
    return number.to_bytes((number.bit_length() + 7) // 8, "big")


def payload(amount: int, expiry: int, *, channel: bytes = b"", secret: bytes = b"") -> bytes:
    """What a hop is asked for (BOLT 4, "`payload` Format")."""
    hop = tlv(2, truncated(amount)) + tlv(4, truncated(expiry))
    if channel:
        return hop + tlv(6, channel)
    return hop + tlv(8, secret + truncated(amount))


def onion_of(payloads: Sequence[bytes]) -> bytes:
    """An onion that isn't encrypted: each payload after its length."""
    layers = b"".join(len(one).to_bytes(2, "big") + one for one in payloads)
    return layers.ljust(1366, b"\0")


class PlainOnions:
    """Opens such onions, and wraps failures so that a test can read who made them and who passed them on."""

    def __init__(self, name: str):
        self._name = name.encode()
        self.opened: list[bytes] = []

    def open(self, payment_hash: bytes, onion: bytes) -> OnionFound:
        self.opened.append(payment_hash)
        end = 2 + int.from_bytes(onion[:2], "big")
        rest = onion[end:].ljust(1366, b"\0")
        return Opened(onion[2:end], rest if any(rest[:2]) else None)

    def wrap(self, item: WrapItem) -> bytes:
        assert item.incoming is not None
        return self._name + (b" passes on: " if item.came_back else b" says: ") + item.failure


class NodeDisk(SqliteStore):
    """A database that counts its batches, and fails at those of these numbers."""

    def __init__(self, path: Path):
        super().__init__(path)
        self.saves = 0
        self.fails_at: set[int] = set()

    def save_batch(self, records: Sequence[Record]) -> None:
        self.saves += 1
        if self.saves in self.fails_at:
            raise StoreFails(self.saves)
        super().save_batch(records)


@dataclass
class Hop:
    """A node with its channels by their ids."""

    name: str
    folder: Path
    signers: dict[bytes, RealSigner] = field(default_factory=dict)
    numbers: dict[bytes, int] = field(default_factory=dict)
    inbox: dict[bytes, deque[bytes]] = field(default_factory=dict)
    events: dict[tuple[bytes, int], Event] = field(default_factory=dict)

    def __post_init__(self) -> None:
        self.store = NodeDisk(self.folder / f"{self.name}.db")
        self.onions = PlainOnions(self.name)
        self.outbox: deque[tuple[bytes, bytes]] = deque()
        self.tell: Callable[[bytes, int, Event], Verdict | None] = lambda channel, number, event: None
        self.expects: list[tuple[bytes, bytes, int]] = []
        self.start()

    def start(self) -> None:
        """Takes its channels up from their records."""
        ids = [channel for channel, _ in self.store.load_all()]
        self.numbers = {channel: number for number, channel in enumerate(ids)}
        self.outbox.clear()
        self.node = RoutingNode.load(
            SETTINGS, lambda channel: self.signers[channel], self.store, self.onions, self.send, self.on_event
        )
        self.node.set_height(HEIGHT)
        for expected in self.expects:
            self.node.expect(*expected)

    def restart(self) -> None:
        """As after a crash."""
        self.node.close()
        self.start()

    def channel_of(self, number: int) -> bytes:
        """The id of its channel of this number."""
        return next(channel for channel, own in self.numbers.items() if own == number)

    def send(self, number: int, message: bytes) -> None:
        self.outbox.append((self.channel_of(number), message))

    def on_event(self, number: int, event: int, what: Event) -> Verdict | None:
        """Keeps the event. It is told again only where it is the same one."""
        channel = self.channel_of(number)
        verdict = self.tell(channel, event, what)
        assert self.events.setdefault((channel, event), what) == what
        return verdict

    def expect(self, preimage: bytes, amount: int) -> None:
        """A payment is waited for, also after a restart."""
        self.expects.append((preimage, sha256(preimage + b"secret"), amount))
        self.node.expect(*self.expects[-1])

    def own_msat(self, channel: bytes) -> int:
        """What it has in a channel."""
        return self.node.summary(self.numbers[channel]).own_msat


def amount_of(number: int) -> int:
    """The amount of a payment, in msat."""
    return 100_000 + number


def fee_of(amount: int) -> int:
    """What the middle node is paid for it."""
    return SETTINGS.fee_base_msat + amount * SETTINGS.fee_proportional_millionths // 1_000_000


class Line:
    """The payer's node, the middle one, and the payee's, with a channel between each two."""

    def __init__(self, folder: Path):
        self.payer, self.middle, self.payee = (Hop(name, folder) for name in ("payer", "middle", "payee"))
        self.hops = (self.payer, self.middle, self.payee)
        self.sides = {LEFT: (self.payer, self.middle), RIGHT: (self.middle, self.payee)}
        self.to_pay: list[tuple[int, list[bytes]]] = []  # amounts with their payloads
        self.delivered = 0
        self.before_delivery: Callable[[], bool] = lambda: False  # True: all connections are gone

    def peer(self, hop: Hop, channel: bytes) -> Hop:
        """Who is at the other side."""
        return next(other for other in self.sides[channel] if other is not hop)

    def opened(self) -> Line:
        """Both channels are ready."""
        for channel, (funder, fundee) in self.sides.items():
            mine, theirs = (RealSigner(f"{hop.name} {channel.hex()}") for hop in (funder, fundee))
            mine.meet(theirs)
            theirs.meet(mine)
            funder.signers[channel], fundee.signers[channel] = mine, theirs
            spec = spec_of(mine, txid=TXIDS[channel], temporary_channel_id=sha256(channel))
            funder.numbers[channel] = funder.node.open(spec, mine)
            fundee.numbers[channel] = fundee.node.accept(config_of(theirs), theirs)
        self.connect()
        self.settle()
        for channel in self.sides:
            for hop in self.sides[channel]:
                hop.node.command(hop.numbers[channel], Confirm(SHORT_IDS[channel]))
        self.settle()
        for hop in self.hops:
            hop.node.begin()
        return self

    def connect(self) -> None:
        """Connects all ends."""
        for channel, sides in self.sides.items():
            for hop in sides:
                hop.inbox[channel] = deque()
        for channel, sides in self.sides.items():
            for hop in sides:
                hop.node.connect(hop.numbers[channel])

    def cut(self) -> None:
        """All connections are lost, and what is in flight."""
        for channel, sides in self.sides.items():
            for hop in sides:
                hop.node.disconnect(hop.numbers[channel])
                hop.inbox[channel] = deque()
        for hop in self.hops:
            hop.outbox.clear()

    def restart(self, hop: Hop) -> None:
        """A node crashes and comes back from its records; the others lose their connections."""
        hop.restart()
        self.cut()

    def post(self) -> None:
        """What nodes have sent is in flight."""
        for hop in self.hops:
            while hop.outbox:
                channel, message = hop.outbox.popleft()
                self.peer(hop, channel).inbox[channel].append(message)

    def settle(self) -> bool:
        """Delivers all that is in flight. False where the connections were lost meanwhile."""
        while True:
            self.post()
            waiting = [(hop, channel) for channel, sides in self.sides.items() for hop in sides if hop.inbox[channel]]
            if not waiting:
                return True
            for hop, channel in waiting:
                if self.before_delivery():
                    return False
                self.delivered += 1
                hop.node.receive(hop.numbers[channel], hop.inbox[channel].popleft())

    def pay(self, number: int, *, expected: bool = True, next_channel: bytes = RIGHT) -> None:
        """A payment over both channels is to be made, once the line runs."""
        preimage, amount = sha256(f"payment {number}".encode()), amount_of(number)
        if expected:
            self.payee.expect(preimage, amount)
        first = payload(amount, HEIGHT + 100, channel=SHORT_IDS.get(next_channel, bytes(8)))
        last = payload(amount, HEIGHT + 100, secret=sha256(preimage + b"secret"))
        self.to_pay.append((amount + fee_of(amount), [sha256(preimage), onion_of([first, last])]))

    def offer(self) -> bool:
        """The payer offers what it has to pay: lost offers are made again. Whether there was something."""
        channel = self.payer.numbers[LEFT]
        begun = self.payer.node.summary(channel).next_htlc_id
        for amount, (payment_hash, onion) in self.to_pay[begun:]:
            self.payer.node.command(channel, Add(amount, payment_hash, HEIGHT + 140, onion))
        return begun < len(self.to_pay)

    def run(self) -> None:
        """Plays until nothing is to be done; over lost connections it connects anew."""
        while True:
            if not self.settle():
                self.connect()
                continue
            for hop in self.hops:
                hop.node.begin()
            worked = self.offer()
            for hop in self.hops:
                hop.node.sign()
                worked |= bool(hop.outbox)
            if not worked:
                return

    def results(self) -> dict[int, How]:
        """What became of the payer's payments."""
        events = self.payer.events.values()
        return {event.id: event.how for event in events if isinstance(event, Settled) and event.own}

    def paid(self) -> tuple[int, int, int]:
        """What each node has paid or got, in msat."""
        funder, fundee = 1000 * FUNDING_SATOSHIS - PUSH_MSAT, PUSH_MSAT
        middle = self.middle.own_msat(LEFT) + self.middle.own_msat(RIGHT)
        return (
            self.payer.own_msat(LEFT) - funder,
            middle - fundee - funder,
            self.payee.own_msat(RIGHT) - fundee,
        )

    def close(self) -> None:
        """Frees all nodes."""
        for hop in self.hops:
            hop.node.close()
            hop.store.close()


__all__ = ["Hop", "Line", "Refused", "StoreFails"]
