"""Two channels in one process, with real signatures and a database each: what a wallet does with them."""

from __future__ import annotations

import tempfile
import unittest
from pathlib import Path
from threading import Thread

from lnlink import (
    Add,
    Added,
    ChannelClosed,
    Closing,
    Commitment,
    Fee,
    Fulfil,
    Fulfilled,
    FulfilMark,
    HeldMark,
    Refused,
    Resume,
    Role,
    Shutdown,
    Sign,
    Status,
)

from ends import CHANNEL, ONION, End, Wire, config_of
from signer import sha256


class ChannelTest(unittest.TestCase):
    def setUp(self) -> None:
        folder = tempfile.TemporaryDirectory()
        self.addCleanup(folder.cleanup)
        self.wire = Wire(Path(folder.name))
        self.addCleanup(self.wire.close)

    def test_opens(self) -> None:
        wire = self.wire
        wire.open()
        wire.settle()
        for end in (wire.a, wire.b):
            self.assertEqual(end.link.summary().channel, CHANNEL)
            self.assertEqual(end.link.summary().status, Status.OPEN)
            self.assertIsNotNone(end.store.load(CHANNEL))
        wire.confirm()
        for end in (wire.a, wire.b):
            self.assertEqual(end.link.summary().status, Status.READY)
        self.assertEqual(wire.a.link.summary().own_msat, 600_000_000)
        self.assertEqual(wire.b.link.summary().own_msat, 400_000_000)

    def test_hundred_payments_both_ways(self) -> None:
        wire = self.wire.opened()
        for done in range(0, 100, 10):
            wire.a.to_pay = wire.b.to_pay = done + 10
            wire.run()
        wire.check_payments(self)
        for end in (wire.a, wire.b):
            summary = end.link.summary()
            self.assertEqual(summary.next_htlc_id, 100)
            # Each of the peer's commitments but the last is revoked, and its secret is kept.
            self.assertEqual(sorted(end.store.secrets(CHANNEL)), list(range(summary.revoked_number)))
            peer = wire.peer(end)
            for number, secret in end.store.secrets(CHANNEL).items():
                self.assertEqual(secret, peer.signer.secret(number))

    def test_changes_the_feerate(self) -> None:
        wire = self.wire.opened()
        wire.post(wire.a, wire.a.link.command(Fee(500)))
        wire.run()
        for end in (wire.a, wire.b):
            for which in Commitment:
                self.assertEqual(end.link.view(which).feerate_per_kw, 500)

    def test_closes(self) -> None:
        for first in ("a", "b"):
            with self.subTest(first=first), tempfile.TemporaryDirectory() as folder:
                wire = Wire(Path(folder)).opened()
                wire.a.to_pay = 3
                wire.run()
                closer: End = getattr(wire, first)
                wire.post(closer, closer.link.command(Shutdown(b"\0\x14" + bytes(20))))
                wire.settle()
                for end in (wire.a, wire.b):
                    summary = end.link.summary()
                    self.assertEqual((summary.status, summary.value), (Status.CLOSED, 300))
                    self.assertEqual(end.events[max(end.events)], ChannelClosed(300))
                wire.close()

    def test_signer_sees_what_both_are_paid_at_the_close(self) -> None:
        wire = self.wire.opened()
        wire.post(wire.a, wire.a.link.command(Shutdown(b"a script")))
        wire.settle()
        own_script = config_of(wire.b.signer).shutdown_scriptpubkey
        expected = Closing(Role.FUNDEE, 300, 400_000_000, 600_000_000, own_script, b"a script")
        self.assertEqual(wire.b.signer.closings, [expected])

    def test_funding_may_be_named_after_open_channel(self) -> None:
        wire = self.wire
        wire.open()
        wire.deliver(wire.b)
        wire.a.link.fund(bytes([7]) * 32, 2)
        wire.settle()
        expected = bytes([7]) * 31 + bytes([5])
        self.assertEqual(wire.a.link.summary().channel, expected)
        self.assertEqual(wire.b.link.summary().channel, expected)
        with self.assertRaises(Refused) as caught:
            wire.a.link.fund(bytes(32), 0)
        self.assertEqual(caught.exception.number, 40)

    def test_event_is_told_until_it_was_acted_on(self) -> None:
        wire = self.wire.opened()
        wire.a.to_pay = 1
        told: list[int] = []

        def raises_once(number: int, event: object) -> None:
            told.append(number)
            if len(told) == 1:
                raise OSError("the wallet's own database is busy")

        wire.b.tell = raises_once
        wire.work(wire.a)
        wire.settle()
        wire.work(wire.b)
        with self.assertRaises(OSError):
            wire.settle()
        wire.post(wire.b, wire.b.link.flush())
        wire.settle()
        self.assertEqual(told, [0, 0])
        self.assertEqual(wire.b.link.summary().live_htlcs, 1)

    def test_no_commands_while_an_event_is_told(self) -> None:
        wire = self.wire.opened()
        wire.a.to_pay = 1
        caught: list[Exception] = []

        def commands(number: int, event: object) -> None:
            try:
                wire.b.link.command(Sign())
            except RuntimeError as error:
                caught.append(error)

        wire.b.tell = commands
        wire.run()
        self.assertEqual(len(caught), len(wire.b.events))

    def test_event_tells_of_the_htlc(self) -> None:
        wire = self.wire.opened()
        wire.a.to_pay = 1
        wire.run()
        added = [e for e in wire.b.events.values() if isinstance(e, Added)]
        self.assertEqual([(e.own, e.id, e.amount_msat, e.cltv_expiry) for e in added], [(False, 0, 10_000, 500)])

    def test_holds_an_htlc_over_a_restart(self) -> None:
        wire = self.wire.opened()
        wire.b.tell = lambda number, event: HeldMark(number)
        wire.command(wire.a, Add(10_000, sha256(bytes(32)), 500, ONION))
        for end in (wire.a, wire.b):
            wire.command(end, Sign())
            wire.settle()
        wire.b.tell = lambda number, event: None
        wire.b.events.clear()
        wire.restart(wire.b)
        wire.connect()
        wire.settle()
        self.assertEqual(wire.b.events, {})  # it was decided: held
        wire.b.link.command(Resume(0, FulfilMark(bytes(32))))
        wire.command(wire.b, Fulfil(0, bytes(32)))
        wire.run()
        self.assertEqual(wire.a.settled(own=True), {0: Fulfilled(bytes(32))})

    def test_threads_share_a_channel(self) -> None:
        wire = self.wire.opened()
        sent: list[bytes] = []

        def pays() -> None:
            for _ in range(5):
                sent.extend(wire.a.link.command(Add(10_000, bytes(32), 500, ONION)))

        threads = [Thread(target=pays) for _ in range(4)]
        for thread in threads:
            thread.start()
        for thread in threads:
            thread.join()
        self.assertEqual(sorted(int.from_bytes(message[34:42], "big") for message in sent), list(range(20)))
        self.assertEqual(wire.a.link.summary().next_htlc_id, 20)


if __name__ == "__main__":
    unittest.main()
