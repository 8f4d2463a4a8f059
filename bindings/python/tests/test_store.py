"""Saved before said: no message leaves a channel before the record that covers it is on disk."""

from __future__ import annotations

import sys
import tempfile
import unittest
from pathlib import Path

from lnlink import Add, HeldSignatures, Record, Sign, SqliteStore, Store

from ends import CHANNEL, ONION, StoreFails, Wire, amount_of, preimage_of
from postgres_server import TemporaryServer
from signer import sha256

EXAMPLES = Path(__file__).parent.parent / "examples"


def add() -> Add:
    return Add(amount_of(0), sha256(preimage_of("funder", 0)), 500, ONION)


class SavedBeforeSaidTest(unittest.TestCase):
    def setUp(self) -> None:
        folder = tempfile.TemporaryDirectory()
        self.addCleanup(folder.cleanup)
        self.wire = Wire(Path(folder.name)).opened()
        self.addCleanup(self.wire.close)

    def test_a_store_that_fails_lets_nothing_be_sent(self) -> None:
        wire = self.wire
        wire.command(wire.a, add())
        store, link = wire.a.store, wire.a.link
        before = store.load(CHANNEL)
        store.fails_at = {store.saves + 1, store.saves + 2}
        with self.assertRaises(StoreFails):
            link.command(Sign())
        self.assertIsInstance(link.link.next(), Record)
        with self.assertRaises(StoreFails):
            link.flush()
        self.assertEqual(store.load(CHANNEL), before)
        sent = link.flush()
        self.assertNotEqual(store.load(CHANNEL), before)
        self.assertEqual([int.from_bytes(message[:2], "big") for message in sent], [132])
        wire.post(wire.a, sent)
        wire.settle()

    def test_each_signature_and_revocation_is_preceded_by_a_save(self) -> None:
        """Of every call that answers one of them, the record on disk is another one than before the call."""
        wire = self.wire
        wire.a.to_pay = wire.b.to_pay = 6
        checked = 0

        for end in (wire.a, wire.b):
            receive, command = end.link.receive, end.link.command

            def watched(call, store=end.store):  # type: ignore[no-untyped-def]
                def watch(argument):  # type: ignore[no-untyped-def]
                    nonlocal checked
                    before = store.load(CHANNEL)
                    sent = call(argument)
                    if any(int.from_bytes(message[:2], "big") in (132, 133) for message in sent):
                        self.assertNotEqual(store.load(CHANNEL), before)
                        checked += 1
                    return sent

                return watch

            end.link.receive = watched(receive)  # type: ignore[method-assign]
            end.link.command = watched(command)  # type: ignore[method-assign]
        wire.run()
        wire.check_payments(self)
        self.assertGreater(checked, 8)

    def test_the_peer_s_signatures_come_with_the_record(self) -> None:
        wire = self.wire
        wire.a.to_pay = 2
        wire.run()
        for end in (wire.a, wire.b):
            record = Record.from_saved(end.store.load(CHANNEL) or b"")
            assert record.signatures is not None
            self.assertEqual(record.signatures.number, end.link.summary().commitment_number)


class StoresTest(unittest.TestCase):
    def keeps(self, store: Store) -> None:
        """What every store does."""
        one, other = sha256(b"one"), sha256(b"other")
        self.assertIsNone(store.load(one))
        store.save(Record(one, None, ((0, bytes(32)),), b"first"))
        store.save(Record(other, None, (), b"other's"))
        latest = Record(one, HeldSignatures(1, bytes(64), ()), ((1, b"\1" * 32),), b"second")
        store.save(latest)
        self.assertEqual(store.load(one), latest.saved())
        self.assertEqual(store.secrets(one), {0: bytes(32), 1: b"\1" * 32})  # type: ignore[attr-defined]

    def test_sqlite(self) -> None:
        with tempfile.TemporaryDirectory() as folder:
            store = SqliteStore(Path(folder) / "records.db")
            self.keeps(store)
            saved = store.load(sha256(b"one"))
            store.close()
            again = SqliteStore(Path(folder) / "records.db")
            self.assertEqual(again.load(sha256(b"one")), saved)
            self.assertEqual(len(again.channels()), 2)
            again.close()

    def test_postgres(self) -> None:
        sys.path.insert(0, str(EXAMPLES))
        try:
            import postgres_store
        except ImportError as missing:
            self.skipTest(str(missing))
        if not TemporaryServer.is_installed():
            self.skipTest("no PostgreSQL server is installed")
        with TemporaryServer() as address, tempfile.TemporaryDirectory() as folder:
            store = postgres_store.PostgresStore(address)
            self.keeps(store)
            wire = Wire(Path(folder))
            wire.a.store = store
            wire.opened()
            wire.a.to_pay = 3
            wire.run()
            wire.restart(wire.a)
            wire.connect()
            wire.run()
            wire.check_payments(self)
            wire.close()


if __name__ == "__main__":
    unittest.main()
