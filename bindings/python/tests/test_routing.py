"""Payments over three routing nodes, with real signatures and a database each."""

from __future__ import annotations

import random
import tempfile
import unittest
from dataclasses import replace
from pathlib import Path
from typing import Callable

from lnlink import Add, Added, Failed, FailPayment, Fulfilled, GoOn, Hold, Node, OnionItem, Refused, Status

from nodes import LEFT, RIGHT, SETTINGS, Line, amount_of, fee_of
from ends import StoreFails
from signer import sha256

ASKS, NOT_READY = 80, 40


def preimage_of(number: int) -> bytes:
    return sha256(f"payment {number}".encode())


class RoutingTest(unittest.TestCase):
    def line(self) -> Line:
        folder = tempfile.TemporaryDirectory()
        self.addCleanup(folder.cleanup)
        line = Line(Path(folder.name))
        self.addCleanup(line.close)
        return line.opened()

    def check_paid(self, line: Line, count: int) -> None:
        """These payments were made, each once: the middle node has its fees."""
        self.assertEqual(line.results(), {number: Fulfilled(preimage_of(number)) for number in range(count)})
        amounts = sum(amount_of(number) for number in range(count))
        fees = sum(fee_of(amount_of(number)) for number in range(count))
        self.assertEqual(line.paid(), (-amounts - fees, fees, amounts))
        for channel, sides in line.sides.items():
            for hop in sides:
                self.assertEqual(hop.node.summary(hop.numbers[channel]).live_htlcs, 0)

    def test_forwards(self) -> None:
        line = self.line()
        for number in range(25):
            line.pay(number)
            if number % 12 == 0:
                line.run()
        self.check_paid(line, 25)
        # Each onion is asked for once, at each node that it reaches.
        self.assertEqual(len(line.middle.onions.opened), 25)
        self.assertEqual(len(line.payee.onions.opened), 25)

    def test_two_htlcs_of_one_onion(self) -> None:
        """Their onion is asked for once, and known until both are gone."""
        line = self.line()
        line.pay(0)
        line.to_pay *= 2
        line.run()
        self.assertEqual(len(line.middle.onions.opened), 1)
        self.assertEqual(list(line.results()), [0, 1])
        line.pay(0)
        line.run()
        self.assertEqual(len(line.middle.onions.opened), 2)
        self.assertEqual(list(line.results()), [0, 1, 2])

    def test_hostile_peer_of_one_channel(self) -> None:
        """Whatever a peer sends, its channel answers by a number, and the other channel goes on."""
        line = self.line()
        channel = line.middle.numbers[LEFT]
        chance = random.Random(1)
        for _ in range(300):
            kind = chance.choice([1, 17, 32, 33, 34, 35, 36, 38, 39, 128, 130, 131, 132, 133, 134, 135, 136])
            fields = LEFT + chance.randbytes(chance.randrange(200))
            try:
                line.middle.node.receive(channel, kind.to_bytes(2, "big") + fields)
            except Refused as refused:
                self.assertIn(refused.number, range(1, 50))
        line.middle.outbox.clear()
        self.assertEqual(line.payee.node.summary(0).status, Status.READY)
        line.middle.node.command(line.middle.numbers[RIGHT], Add(10_000, bytes(32), 500, bytes(1366)))
        for hop in (line.middle, line.payee) * 3:
            hop.node.sign()
            line.settle()
        self.assertEqual(line.payee.node.summary(0).live_htlcs, 0)  # the payee has failed it
        self.assertEqual(line.middle.node.summary(line.middle.numbers[RIGHT]).next_htlc_id, 1)

    def test_failure_of_the_payee_is_passed_on(self) -> None:
        line = self.line()
        line.pay(0, expected=False)
        line.run()
        amount = amount_of(0)
        failure = bytes.fromhex("400f") + amount.to_bytes(8, "big") + (100).to_bytes(4, "big")
        self.assertEqual(line.results(), {0: Failed(b"middle passes on: payee says: " + failure)})
        self.assertEqual(line.paid(), (0, 0, 0))

    def test_failure_of_the_middle(self) -> None:
        line = self.line()
        line.pay(0, next_channel=b"no channel")
        line.run()
        self.assertEqual(line.results(), {0: Failed(b"middle says: " + bytes.fromhex("400a"))})

    def test_failure_by_the_host(self) -> None:
        line = self.line()
        line.middle.tell = lambda channel, number, event: FailPayment(0x1007)
        line.pay(0)
        line.run()
        [how] = line.results().values()
        assert isinstance(how, Failed)
        self.assertTrue(how.reason.startswith(b"middle says: \x10\x07"), how)

    def test_holds_over_a_restart(self) -> None:
        line = self.line()
        line.middle.tell = lambda channel, number, event: Hold() if isinstance(event, Added) else None
        line.pay(0)
        line.run()
        self.assertEqual(line.results(), {})
        line.middle.tell = lambda channel, number, event: None
        line.restart(line.middle)
        line.connect()
        line.run()
        self.assertEqual(line.results(), {})
        [held] = line.middle.node.held()
        self.assertEqual((held.id, held.amount_msat), (0, amount_of(0) + fee_of(amount_of(0))))
        line.middle.node.resume(held.channel, held.event, GoOn())
        line.run()
        self.assertEqual(line.middle.node.held(), [])
        self.check_paid(line, 1)

    def at_each_message(self, break_off: Callable[[Line], None]) -> None:
        """Plays two payments, one of which fails, and breaks off before each message in turn."""
        at = 0
        while self.breaks_at(at, break_off):
            at += 1
        self.assertGreater(at, 20)

    def breaks_at(self, at: int, break_off: Callable[[Line], None]) -> bool:
        with tempfile.TemporaryDirectory() as folder, self.subTest(at=at):
            line = Line(Path(folder)).opened()
            begun, broken = line.delivered, False

            def breaks() -> bool:
                nonlocal broken
                if broken or line.delivered < begun + at:
                    return False
                broken = True
                break_off(line)
                return True

            line.before_delivery = breaks
            line.pay(0)
            line.run()
            line.pay(1, expected=False)
            line.run()
            results = line.results()
            self.assertEqual(results[0], Fulfilled(preimage_of(0)))
            assert isinstance(results[1], Failed)
            self.assertTrue(results[1].reason.startswith(b"middle passes on: payee says: \x40\x0f"), results)
            amount, fee = amount_of(0), fee_of(amount_of(0))
            self.assertEqual(line.paid(), (-amount - fee, fee, amount))
            line.close()
        return broken

    def test_lost_connections(self) -> None:
        self.at_each_message(Line.cut)

    def test_payer_restarts(self) -> None:
        self.at_each_message(lambda line: line.restart(line.payer))

    def test_middle_restarts(self) -> None:
        self.at_each_message(lambda line: line.restart(line.middle))

    def test_payee_restarts(self) -> None:
        self.at_each_message(lambda line: line.restart(line.payee))

    def test_disk_fails_at_each_batch(self) -> None:
        """A batch that isn't saved lets nothing be sent; the node comes back from the records before."""
        for name in ("payer", "middle", "payee"):
            at = 1
            while self.disk_fails(name, at):
                at += 1
            self.assertGreater(at, 5)

    def disk_fails(self, name: str, at: int) -> bool:
        with tempfile.TemporaryDirectory() as folder, self.subTest(name=name, at=at):
            line = Line(Path(folder)).opened()
            hop = getattr(line, name)
            hop.store.fails_at = {hop.store.saves + at}
            line.pay(0)
            failed = False
            while True:
                try:
                    line.run()
                    break
                except StoreFails:
                    failed = True
                    line.restart(hop)
                    line.connect()
            self.check_paid(line, 1)
            line.close()
        return failed

    def test_onions_come_before_connections(self) -> None:
        """After a load nothing is forwarded by an onion of which nothing was told."""
        line = self.line()
        line.middle.tell = lambda channel, number, event: Hold() if isinstance(event, Added) else None
        line.pay(0)
        line.run()
        [held] = line.middle.node.held()
        ids, saved = zip(*line.middle.store.load_all())
        left = ids.index(LEFT)
        with Node.load(SETTINGS, saved) as node:
            self.assertEqual(node.held(), [replace(held, channel=left)])
            for call in (lambda: node.connect(left), lambda: node.resume(left, held.event, GoOn())):
                with self.assertRaises(Refused) as caught:
                    call()
                self.assertEqual(caught.exception.number, ASKS)
            item = node.next()
            assert isinstance(item, OnionItem) and item.incoming is not None
            with self.assertRaises(Refused) as caught:
                node.onion(bytes(32), item.incoming[1], line.middle.onions.open(*item.incoming))
            self.assertEqual(caught.exception.number, NOT_READY)
            node.onion(*item.incoming, line.middle.onions.open(*item.incoming))
            node.connect(left)

    def test_channels_of_a_load_are_told_by_their_records(self) -> None:
        line = self.line()
        line.restart(line.middle)
        for channel in (LEFT, RIGHT):
            self.assertEqual(line.middle.node.summary(line.middle.numbers[channel]).channel, channel)
        saved = [record for _, record in line.middle.store.load_all()]
        for records in ([saved[0], saved[0]], [saved[0][:-1]], [saved[0] + b"\0"]):
            with self.assertRaises(Refused) as caught:
                Node.load(SETTINGS, records)
            self.assertEqual(caught.exception.number, 70)


if __name__ == "__main__":
    unittest.main()
