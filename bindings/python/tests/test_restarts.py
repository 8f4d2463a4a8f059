"""Lost connections, restarts and failing disks at each message and each save: every payment is made once."""

from __future__ import annotations

import tempfile
import unittest
from pathlib import Path
from typing import Callable

from lnlink import Refused, Shutdown, Status

from ends import CHANNEL, StoreFails, Wire, spec_of

PAYMENTS = 3


class RestartTest(unittest.TestCase):
    def play(self, at: int, break_off: Callable[[Wire], None]) -> bool:
        """Pays both ways; before the message `at` of that the connection is broken off. False: there is none."""
        with tempfile.TemporaryDirectory() as folder:
            wire = Wire(Path(folder)).opened()
            begun = wire.delivered
            broken = False

            def breaks() -> bool:
                nonlocal broken
                if broken or wire.delivered - begun != at:
                    return False
                broken = True
                break_off(wire)
                return True

            wire.before_delivery = breaks
            wire.a.to_pay = wire.b.to_pay = PAYMENTS
            wire.run()
            wire.check_payments(self)
            wire.close()
            return broken

    def at_each_message(self, break_off: Callable[[Wire], None]) -> None:
        at = 0
        while self.play(at, break_off):
            at += 1
        self.assertGreater(at, 20)

    def test_lost_connection(self) -> None:
        self.at_each_message(lambda wire: wire.cut())

    def test_funder_restarts(self) -> None:
        self.at_each_message(lambda wire: wire.restart(wire.a))

    def test_fundee_restarts(self) -> None:
        self.at_each_message(lambda wire: wire.restart(wire.b))

    def test_both_restart(self) -> None:
        self.at_each_message(lambda wire: wire.restart(wire.a, wire.b))

    def test_disk_fails_at_each_save(self) -> None:
        """A save that fails lets nothing be sent; the end comes back from the record before."""
        for name in ("a", "b"):
            at = 1
            while self.disk_fails(name, at):
                at += 1
            self.assertGreater(at, 10)

    def disk_fails(self, name: str, at: int) -> bool:
        with tempfile.TemporaryDirectory() as folder:
            wire = Wire(Path(folder)).opened()
            end = getattr(wire, name)
            end.store.fails_at = {end.store.saves + at}
            wire.a.to_pay = wire.b.to_pay = PAYMENTS
            failed = False
            while True:
                try:
                    wire.run()
                    break
                except StoreFails:
                    failed = True
                    wire.restart(end)
                    wire.connect()
                    wire.settle()
            wire.check_payments(self)
            wire.close()
            return failed

    def test_close_goes_on_over_restarts(self) -> None:
        for at in range(4):
            with self.subTest(at=at), tempfile.TemporaryDirectory() as folder:
                wire = Wire(Path(folder)).opened()
                wire.post(wire.b, wire.b.link.command(Shutdown(b"script")))
                for _ in range(at):
                    wire.deliver(wire.a if wire.a.inbox else wire.b)
                wire.restart(wire.a, wire.b)
                wire.connect()
                wire.settle()
                if Status.READY in (wire.a.link.summary().status, wire.b.link.summary().status):
                    wire.post(wire.b, wire.b.link.command(Shutdown(b"script")))
                    wire.settle()
                for end in (wire.a, wire.b):
                    self.assertEqual(end.link.summary().status, Status.CLOSED)
                wire.close()

    def test_opening_is_gone_with_its_connection(self) -> None:
        """Before both have signed, nothing is saved at the funder; a later opening has another funding."""
        for at in range(4):
            with self.subTest(at=at), tempfile.TemporaryDirectory() as folder:
                wire = Wire(Path(folder))
                wire.open()
                for _ in range(at):
                    wire.deliver(wire.a if wire.a.inbox else wire.b)
                wire.cut()
                self.assertIsNone(wire.a.store.load(CHANNEL))
                self.assertEqual(wire.b.store.load(CHANNEL) is not None, at == 3)
                with self.assertRaises(Refused) as caught:
                    wire.a.link.connect()
                self.assertEqual(caught.exception.number, 40)
                wire.a.link.close()
                wire.b.link.close()
                wire.open(spec_of(wire.a.signer, txid=bytes([at + 1]) * 32))
                wire.settle()
                wire.confirm()
                self.assertEqual(wire.a.link.summary().status, Status.READY)
                wire.close()

    def test_events_that_were_not_decided_are_told_again(self) -> None:
        with tempfile.TemporaryDirectory() as folder:
            wire = Wire(Path(folder)).opened()
            wire.a.to_pay = 1

            def raises(number: int, event: object) -> None:
                raise OSError("stopped")

            wire.b.tell = raises
            wire.work(wire.a)
            wire.settle()
            wire.work(wire.b)
            with self.assertRaises(OSError):
                wire.settle()
            self.assertEqual(wire.b.events, {})
            wire.b.tell = lambda number, event: None
            wire.restart(wire.a, wire.b)
            wire.connect()
            self.assertEqual(list(wire.b.events), [0])
            wire.settle()
            wire.run()
            wire.check_payments(self)
            wire.close()


if __name__ == "__main__":
    unittest.main()
