"""Two ends of a channel in one process, each with its keys and its database, and the wire between them."""

from __future__ import annotations

from collections import deque
from pathlib import Path
from typing import Callable, Iterable

from lnlink import (
    Add,
    Added,
    Channel,
    Command,
    Commitment,
    Config,
    Confirm,
    Event,
    Fail,
    Failed,
    FailedMalformed,
    Fulfil,
    Fulfilled,
    How,
    Malformed,
    Mark,
    OpenSpec,
    Record,
    Refused,
    Role,
    Settled,
    SqliteStore,
    Status,
    channel_id,
    short_channel_id,
)

from signer import RealSigner, sha256

CHAIN = bytes.fromhex("06226e46111a0b59caaf126043eb5bbf28c34f3a5e332a1fc7b2b73cf188910f")  # regtest
TXID = sha256(b"funding")
CHANNEL = channel_id(TXID, 1)
ONION = bytes(1366)
FUNDING_SATOSHIS = 1_000_000
PUSH_MSAT = 400_000_000
SHORT_ID = short_channel_id(110, 1, 1)

SIGNATURE_OUTSTANDING, NOTHING_TO_SIGN, NOT_COMMITTED = 41, 42, 48


def config_of(signer: RealSigner, **changes: int) -> Config:
    """What an end opens channels with."""
    values = dict(
        htlc_minimum_msat=1000,
        max_accepted_htlcs=30,
        max_htlc_value_in_flight_msat=500_000_000,
        channel_reserve_satoshis=10_000,
        chain_hash=CHAIN,
        dust_limit_satoshis=546,
        to_self_delay=144,
        minimum_depth=3,
        funding_pubkey=signer.funding_pubkey,
        revocation_basepoint=signer.point(1 << 20),
        payment_basepoint=signer.point(1 << 21),
        delayed_payment_basepoint=signer.point(1 << 22),
        htlc_basepoint=signer.htlc_basepoint,
        closing_fee_satoshis=300,
        min_closing_fee_satoshis=200,
        max_closing_fee_satoshis=400,
        shutdown_scriptpubkey=b"\0\x14" + sha256(signer.funding_pubkey)[:20],
    )
    return Config(**{**values, **changes})


def spec_of(signer: RealSigner, txid: bytes = TXID, **changes: int) -> OpenSpec:
    """What a funder opens the channel with."""
    values = dict(
        config=config_of(signer),
        funding_satoshis=FUNDING_SATOSHIS,
        push_msat=PUSH_MSAT,
        feerate_per_kw=253,
        channel_flags=0,
        temporary_channel_id=sha256(b"temporary"),
        funding_txid=txid,
        funding_output_index=1,
    )
    return OpenSpec(**{**values, **changes})


class StoreFails(Exception):
    """What `Disk` raises."""


class Disk(SqliteStore):
    """A database that counts its saves, and fails at those of these numbers."""

    def __init__(self, path: Path):
        super().__init__(path)
        self.saves = 0
        self.fails_at: set[int] = set()

    def save(self, record: Record) -> None:
        self.saves += 1
        if self.saves in self.fails_at:
            raise StoreFails(self.saves)
        super().save(record)


def preimage_of(payer: str, number: int) -> bytes:
    """The preimage of a payer's payment."""
    return sha256(f"{payer} {number}".encode())


def how_of(payer: str, number: int) -> How:
    """What becomes of a payment: one is fulfilled, one failed, one malformed, and so on."""
    choices: list[How] = [
        Fulfilled(preimage_of(payer, number)),
        Failed(b"no such payment"),
        FailedMalformed(sha256(ONION), 0xC005),
    ]
    return choices[number % 3]


def amount_of(number: int) -> int:
    """The amount of a payment, in msat."""
    return 10_000 + number


def removal_of(payer: str, number: int) -> Command:
    """The command by which the payee removes a payment's HTLC."""
    how = how_of(payer, number)
    if isinstance(how, Fulfilled):
        return Fulfil(number, how.payment_preimage)
    if isinstance(how, Failed):
        return Fail(number, how.reason)
    assert isinstance(how, FailedMalformed)
    return Malformed(number, how.sha256_of_onion, how.failure_code)


class End:
    """An end with a wallet that pays `to_pay` payments of its own, and removes those of the peer's."""

    def __init__(self, name: str, role: Role, folder: Path):
        self.name = name
        self.role = role
        self.signer = RealSigner(name)
        self.store = Disk(folder / f"{name}.db")
        self.channel: Channel | None = None
        self.events: dict[int, Event] = {}
        self.inbox: deque[bytes] = deque()
        self.to_pay = 0
        self.tell: Callable[[int, Event], Mark | None] = lambda number, event: None  # a test's own

    @property
    def link(self) -> Channel:
        """Its channel."""
        assert self.channel is not None
        return self.channel

    def on_event(self, number: int, event: Event) -> Mark | None:
        """Keeps the event. It is told again only where it is the same one."""
        mark = self.tell(number, event)
        assert self.events.setdefault(number, event) == event
        return mark

    def load(self) -> None:
        """Takes the channel up from its record, as after a restart."""
        if self.channel is not None:
            self.channel.close()
        self.channel = Channel.load(CHANNEL, self.signer, self.store, self.on_event)

    def settled(self, own: bool) -> dict[int, How]:
        """What became of HTLCs."""
        return {e.id: e.how for e in self.events.values() if isinstance(e, Settled) and e.own == own}

    def due(self, peer: str) -> Iterable[Command]:
        """What its wallet has to command now: lost updates are given again."""
        summary = self.link.summary()
        for number in range(summary.next_htlc_id, self.to_pay):
            yield Add(amount_of(number), sha256(preimage_of(self.name, number)), 500, ONION)
        added = {e.id for e in self.events.values() if isinstance(e, Added) and not e.own}
        for htlc in self.link.view().htlcs:
            if htlc.owner != self.role and htlc.id in added and htlc.id not in summary.removed_htlcs:
                yield removal_of(peer, htlc.id)


class Wire:
    """Both ends, and what is in flight between them."""

    def __init__(self, folder: Path):
        self.a = End("funder", Role.FUNDER, folder)
        self.b = End("fundee", Role.FUNDEE, folder)
        self.a.signer.meet(self.b.signer)
        self.b.signer.meet(self.a.signer)
        self.delivered = 0
        self.before_delivery: Callable[[], bool] = lambda: False  # True: the connection is gone

    def peer(self, end: End) -> End:
        """The other end."""
        return self.b if end is self.a else self.a

    def post(self, end: End, messages: Iterable[bytes]) -> None:
        """Puts an end's messages in flight."""
        self.peer(end).inbox.extend(messages)

    def open(self, spec: OpenSpec | None = None) -> None:
        """Both ends, new and connected; open_channel is in flight."""
        self.a.channel = Channel.open(spec or spec_of(self.a.signer), self.a.signer, self.a.store, self.a.on_event)
        self.b.channel = Channel.accept(config_of(self.b.signer), self.b.signer, self.b.store, self.b.on_event)
        self.connect()

    def opened(self) -> Wire:
        """A channel that is ready."""
        self.open()
        self.settle()
        self.confirm()
        return self

    def confirm(self) -> None:
        """Tells both ends that the funding is deep enough."""
        for end in (self.a, self.b):
            self.post(end, end.link.command(Confirm(SHORT_ID)))
        self.settle()

    def connect(self) -> None:
        """Connects both ends."""
        for end in (self.a, self.b):
            self.post(end, end.link.connect())

    def cut(self) -> None:
        """The connection is lost, and what is in flight."""
        for end in (self.a, self.b):
            end.link.disconnect()
            end.inbox.clear()

    def restart(self, *ends: End) -> None:
        """These ends come back from their records; the connection is lost."""
        self.cut()
        for end in ends:
            end.load()

    def deliver(self, end: End) -> None:
        """An end takes the oldest message in flight to it."""
        self.delivered += 1
        self.post(end, end.link.receive(end.inbox.popleft()))

    def settle(self) -> bool:
        """Delivers all that is in flight. False where the connection was lost meanwhile."""
        while self.a.inbox or self.b.inbox:
            for end in (self.a, self.b):
                if end.inbox:
                    if self.before_delivery():
                        return False
                    self.deliver(end)
        return True

    def work(self, end: End) -> bool:
        """Its wallet commands what is due, and signs it. Whether there was something."""
        worked = False
        for command in list(end.due(self.peer(end).name)):
            worked |= self.command(end, command)
        signed = end.link.sign_when_due()
        self.post(end, signed)
        return bool(signed) or worked

    def command(self, end: End, command: Command) -> bool:
        """Gives a command. False where it can't be taken yet."""
        try:
            self.post(end, end.link.command(command))
            return True
        except Refused as refused:
            assert refused.number in (SIGNATURE_OUTSTANDING, NOTHING_TO_SIGN, NOT_COMMITTED), refused
            return False

    def run(self) -> None:
        """Plays until both wallets have nothing to do; over a lost connection it connects anew."""
        while True:
            if not self.settle():
                self.connect()
            elif not any([self.work(self.a), self.work(self.b)]):
                return

    def close(self) -> None:
        """Frees both ends."""
        for end in (self.a, self.b):
            if end.channel is not None:
                end.channel.close()
            end.store.close()

    def check_payments(self, test: object) -> None:
        """All payments are over, each as it should be, and both ends agree on the balances."""
        moved = 0
        for payer, payee in ((self.a, self.b), (self.b, self.a)):
            expected = {number: how_of(payer.name, number) for number in range(payer.to_pay)}
            test.assertEqual(payer.settled(own=True), expected)  # type: ignore[attr-defined]
            test.assertEqual(payee.settled(own=False), expected)  # type: ignore[attr-defined]
            paid = sum(amount_of(number) for number, how in expected.items() if isinstance(how, Fulfilled))
            moved += paid if payer is self.a else -paid
        funder_msat = 1000 * FUNDING_SATOSHIS - PUSH_MSAT - moved
        for end in (self.a, self.b):
            for which in Commitment:
                view = end.link.view(which)
                test.assertEqual(  # type: ignore[attr-defined]
                    (view.funder_msat, view.fundee_msat, view.htlcs),
                    (funder_msat, 1000 * FUNDING_SATOSHIS - funder_msat, ()),
                )
            test.assertEqual(end.link.summary().status, Status.READY)  # type: ignore[attr-defined]
