"""Each refusal that a caller can provoke, by its number, and what is left after it."""

from __future__ import annotations

import hashlib
import random
import tempfile
import unittest
from ctypes import byref, c_size_t, create_string_buffer
from pathlib import Path
from typing import Any, Callable

from lnlink import (
    Add,
    BlankItem,
    Channel,
    Command,
    Config,
    Confirm,
    Decide,
    Fail,
    FailMark,
    Fee,
    Fulfil,
    FulfilMark,
    HeldMark,
    Link,
    LostData,
    Malformed,
    OpenSpec,
    Record,
    Refused,
    Resume,
    Send,
    Shutdown,
    Sign,
    SignaturesBlank,
    Status,
    error,
    print_message,
    warning,
)
from lnlink.channel import filled_by
from lnlink.library import library, obey
from lnlink.refusals import NAMES

from ends import CHANNEL, ONION, SHORT_ID, TXID, End, Wire, config_of, preimage_of, spec_of
from signer import RealSigner, sha256


def add(number: int = 0, amount_msat: int = 10_000, cltv_expiry: int = 500) -> Add:
    return Add(amount_msat, sha256(preimage_of("funder", number)), cltv_expiry, ONION)


class RefusalTest(unittest.TestCase):
    def setUp(self) -> None:
        folder = tempfile.TemporaryDirectory()
        self.addCleanup(folder.cleanup)
        self.folder = Path(folder.name)
        self.wire = Wire(self.folder)
        self.addCleanup(self.wire.close)

    def refused(self, number: int, call: Callable[..., Any], *arguments: Any, rule: int | None = None) -> Refused:
        with self.assertRaises(Refused) as caught:
            call(*arguments)
        self.assertEqual((caught.exception.number, caught.exception.rule), (number, rule), caught.exception)
        return caught.exception

    def with_htlc(self) -> tuple[End, End]:
        """A channel with an HTLC 0 of the funder's, which both hold as irrevocably committed."""
        wire = self.wire.opened()
        wire.command(wire.a, add())
        for end in (wire.a, wire.b):
            wire.command(end, Sign())
            wire.settle()
        return wire.a, wire.b

    # ---- of calls

    def test_80_a_message_without_its_answer(self) -> None:
        wire = self.wire.opened()
        wire.command(wire.a, add())
        wire.command(wire.a, Sign())
        wire.deliver(wire.b)
        link, message = wire.b.link.link, wire.b.inbox[0]
        question, before = link.question(message), link.look()
        self.refused(80, link.message, message)
        self.assertEqual((link.question(message), link.look()), (question, before))
        wire.settle()

    def test_81_an_answer_of_another_form(self) -> None:
        wire = self.wire.opened()
        wire.command(wire.a, add())
        link = wire.a.link.link
        link.command(Sign())
        record = link.next()
        assert isinstance(record, Record)
        self.refused(81, link.done, b"\1")
        wire.a.store.save(record)
        link.done()
        blank = link.next()
        assert isinstance(blank, BlankItem) and isinstance(blank.blank, SignaturesBlank)
        for filling in (b"", bytes(63), bytes(65)):
            self.refused(81, link.done, filling)
        self.assertEqual(link.next(), blank)
        wire.post(wire.a, wire.a.link.flush())
        wire.deliver(wire.b)
        for answer in (b"\2", b"\1\1"):
            self.refused(81, wire.b.link.link.message, wire.b.inbox[0], answer)
        wire.settle()

    def test_40_a_record_that_was_not_shown(self) -> None:
        wire = self.wire.opened()
        wire.command(wire.a, add())
        link = wire.a.link.link
        link.command(Sign())
        self.refused(40, link.done)
        older = link.next()
        assert isinstance(older, Record)
        self.refused(41, link.command, Sign())
        self.refused(40, link.done)
        newer = link.next()
        assert isinstance(newer, Record)
        wire.a.store.save(newer)
        link.done()
        self.assertIsInstance(link.next(), BlankItem)
        wire.post(wire.a, wire.a.link.flush())
        wire.settle()

    def test_40_a_blank_and_a_message_that_were_not_shown(self) -> None:
        wire = self.wire.opened()
        wire.command(wire.a, add())
        link = wire.a.link.link
        link.command(Sign())
        record = link.next()
        assert isinstance(record, Record)
        wire.a.store.save(record)
        link.done()
        blank = link.next()
        assert isinstance(blank, BlankItem)
        filling = filled_by(wire.a.signer, blank.blank)
        self.refused(41, link.command, Sign())
        self.refused(40, link.done, filling)
        self.assertEqual(link.next(), blank)
        self.refused(81, link.done, filling[:-1])
        link.done(filling)
        self.refused(40, link.done)
        self.assertIsInstance(link.next(), Send)
        link.disconnect()
        self.refused(40, link.done)
        self.assertIsNone(link.next())
        self.refused(40, link.done)

    def test_40_what_a_short_buffer_did_not_show(self) -> None:
        wire = self.wire.opened()
        wire.command(wire.a, add())
        link = wire.a.link.link
        link.command(Sign())
        count = c_size_t()
        self.refused(82, obey, library.lnl_next, byref(link._handle), None, 0, byref(count))
        self.refused(40, link.done)
        self.assertIsInstance(link.next(), Record)
        self.refused(82, obey, library.lnl_next, byref(link._handle), None, 0, byref(count))
        link.done()

    def test_82_a_buffer_that_is_too_short(self) -> None:
        wire = self.wire.opened()
        link = wire.a.link.link
        whole = link.look().to_bytes()
        out, count = create_string_buffer(b"untouched", 4096), c_size_t()
        for room in (0, 1, len(whole) - 1):
            self.refused(82, obey, library.lnl_look, byref(link._handle), out, room, byref(count))
            self.assertEqual((count.value, out.value), (len(whole), b"untouched"))
        obey(library.lnl_look, byref(link._handle), out, len(whole), byref(count))
        self.assertEqual(out.raw[: count.value], whole)

    def test_83_a_handle_that_may_not_be_given(self) -> None:
        wire = self.wire.opened()
        link = wire.a.link.link
        saved = wire.a.store.load(CHANNEL) or b""
        self.refused(83, obey, library.lnl_load, byref(link._handle), saved, len(saved))
        self.refused(83, obey, library.lnl_connect, None)
        self.refused(83, obey, library.lnl_command, byref(link._handle), None, 1)
        wire.a.link.close()
        wire.a.link.close()
        for call in (link.connect, link.disconnect, link.next, link.done, link.look, link.view):
            self.refused(83, call)
        for call in (link.question, link.message):
            self.refused(83, call, b"\0\x12\0\0\0\0")
        self.refused(83, link.command, Sign())
        self.refused(83, link.fund, bytes(32), 0)
        library.lnl_free(None)

    def test_40_values_that_do_not_fit(self) -> None:
        signer = RealSigner("funder")
        for spec in (
            spec_of(signer, funding_satoshis=0),
            spec_of(signer, push_msat=1_000_000_001),
            spec_of(signer, config=config_of(signer, max_accepted_htlcs=484)),  # type: ignore[arg-type]
            spec_of(signer, config=config_of(signer, min_closing_fee_satoshis=301)),  # type: ignore[arg-type]
            spec_of(signer, records=((2, b""),)),  # type: ignore[arg-type]
        ):
            self.refused(40, Link.open, spec, signer.point(0))
        self.refused(40, Link.accept, config_of(signer, max_closing_fee_satoshis=299), signer.point(0))

    def test_70_bytes_that_are_no_value(self) -> None:
        signer = RealSigner("funder")
        spec, config, point = spec_of(signer).to_bytes(), config_of(signer).to_bytes(), signer.point(0)
        wire = self.wire.opened()
        link = wire.a.link.link

        def made(call: Any, data: bytes, *more: Any) -> None:
            fresh = Link()
            obey(call, byref(fresh._handle), data, len(data), *more)

        for data in (b"", spec[:-1], spec + b"\0"):
            self.refused(70, made, library.lnl_open, data, point, 33)
        for data in (b"", config[:-1], config + b"\0"):
            self.refused(70, made, library.lnl_accept, data, point, 33)
        for size in (0, 32, 34):
            self.refused(81, made, library.lnl_open, spec, bytes(size), size)
        for data in (b"", b"\x0b", b"\6\0", add().to_bytes()[:-1], Decide(0).to_bytes()[:-1] + b"\6"):
            self.refused(70, obey, library.lnl_command, byref(link._handle), data, len(data))
        self.assertEqual(OpenSpec.from_bytes(spec).config, Config.from_bytes(config))

    def test_70_a_record_that_is_damaged_or_of_another_channel(self) -> None:
        wire = self.wire.opened()
        saved = wire.a.store.load(CHANNEL) or b""
        record = Record.from_saved(saved)
        for data in (b"", saved[:-1], saved + b"\0", saved[:-40] + bytes([saved[-40] ^ 1]) + saved[-39:]):
            self.refused(70, Link.load, data)
        Link.load(saved).close()
        for end in (wire.a, wire.b):
            end.link.close()
        other = sha256(b"another channel")
        wire.a.store.save(Record(other, record.signatures, (), record.record))
        self.refused(70, Channel.load, other, wire.a.signer, wire.a.store)

    def test_71_a_record_of_a_later_version(self) -> None:
        wire = self.wire.opened()
        record = Record.from_saved(wire.a.store.load(CHANNEL) or b"")
        later = record.record[:4] + (99).to_bytes(2, "big") + record.record[6:-32]
        sealed = Record(CHANNEL, record.signatures, record.secrets, later + hashlib.sha256(later).digest())
        self.refused(71, Link.load, sealed.saved())

    def test_1_to_9_bytes_that_are_no_message(self) -> None:
        wire = self.wire.opened()
        link = wire.a.link.link
        for number, message in [
            (1, b""),
            (1, b"\0\x12\0"),
            (6, b"\x80\x00"),
            (7, b"\0\x12\0\0\0\0" + bytes(65_530)),
            (1, b"\0\x24" + bytes(64)),
            (2, b"\0\x24" + CHANNEL + bytes(33) + b"\xfd\0\1\0"),
            (4, b"\0\x24" + CHANNEL + bytes(33) + b"\2\0"),
            (5, b"\0\x24" + CHANNEL + bytes(33) + b"\1\x09"),
            (8, b"\0\x24" + CHANNEL + bytes(33) + b"\1\1\0"),
        ]:
            with self.subTest(number=number):
                self.refused(number, link.question, message)
                self.refused(number, link.message, message)
                self.refused(number, print_message, message)
        self.assertEqual(link.look().status, Status.READY)

    def test_any_bytes_are_answered(self) -> None:
        """Messages of a play, each with bytes turned, cut or added: every call answers by a known number."""
        wire = self.wire.opened()
        seen: list[bytes] = []

        def listens() -> bool:
            seen.extend([*wire.a.inbox, *wire.b.inbox])
            return False

        wire.before_delivery = listens
        wire.a.to_pay = wire.b.to_pay = 3
        wire.run()
        saved = wire.b.store.load(CHANNEL) or b""
        chance = random.Random(1)
        for message in chance.choices(seen, k=300):
            with Link.load(saved) as link:
                link.connect()
                turned = bytearray(message)
                for _ in range(chance.randrange(4)):
                    turned[chance.randrange(len(turned))] = chance.randrange(256)
                data = bytes(turned[: chance.randrange(len(turned) + 20)]) + chance.randbytes(chance.randrange(3))
                for call in (link.question, link.message, link.done, print_message):
                    try:
                        call(data)
                    except Refused as refused:
                        self.assertIn(refused.number, NAMES)
                while link.next() is not None and not isinstance(link.next(), BlankItem):
                    link.done()

    # ---- of commands

    def test_40_before_the_channel_is_ready(self) -> None:
        wire = self.wire
        wire.open()
        wire.settle()
        for command in (add(), Sign(), Fulfil(0, bytes(32)), Fee(300)):
            self.refused(40, wire.a.link.command, command)
        self.refused(40, wire.a.link.connect)
        self.refused(40, wire.a.link.link.done)
        wire.confirm()
        self.refused(40, wire.a.link.command, Confirm(SHORT_ID))
        self.refused(40, wire.a.link.command, Decide(0))
        self.refused(40, wire.a.link.command, Resume(0, FailMark(b"reason")))

    def test_41_42_signatures(self) -> None:
        wire = self.wire.opened()
        self.refused(42, wire.a.link.command, Sign())
        wire.command(wire.a, add(0))
        wire.command(wire.a, Sign())
        wire.command(wire.a, add(1))
        self.refused(41, wire.a.link.command, Sign())

    def test_43_45_shutdown(self) -> None:
        wire = self.wire.opened()
        wire.command(wire.a, add())
        self.refused(45, wire.a.link.command, Shutdown(b""))
        wire.run()
        wire.command(wire.a, Shutdown(b""))
        for command in (add(1), Fee(300), Shutdown(b"")):
            self.refused(43, wire.a.link.command, command)

    def test_44_what_the_peer_would_refuse(self) -> None:
        wire = self.wire.opened()
        for rule, command in [
            (23, add(amount_msat=0)),
            (23, add(amount_msat=999)),
            (27, add(cltv_expiry=500_000_000)),
            (25, add(amount_msat=500_000_001)),
            (28, Fulfil(0, bytes(32))),
            (28, Fail(7, b"")),
        ]:
            self.refused(44, wire.a.link.command, command, rule=rule)
        self.refused(44, wire.b.link.command, Fee(300), rule=30)
        self.refused(44, wire.b.link.command, add(amount_msat=400_000_000), rule=26)
        for number in range(30):
            wire.command(wire.a, add(number))
        self.refused(44, wire.a.link.command, add(30), rule=24)

    def test_44_48_49_removals(self) -> None:
        wire = self.wire.opened()
        a, b = wire.a, wire.b
        wire.command(a, add())
        wire.command(a, Sign())
        wire.settle()
        self.refused(48, b.link.command, Fulfil(0, preimage_of("funder", 0)))
        wire.command(b, Sign())
        wire.settle()
        self.refused(44, b.link.command, Fulfil(0, bytes(32)), rule=29)
        self.refused(44, b.link.command, Malformed(0, bytes(32), 0x4005), rule=21)
        self.refused(44, b.link.command, Fail(0, bytes(65_492)), rule=7)
        wire.command(b, Fulfil(0, preimage_of("funder", 0)))
        self.refused(49, b.link.command, Fail(0, b""))

    def test_47_without_a_connection(self) -> None:
        wire = self.wire.opened()
        wire.cut()
        commands: list[Command] = [add(), Fee(300), Shutdown(b"")]
        for command in commands:
            self.refused(47, wire.a.link.command, command)
        wire.post(wire.a, wire.a.link.connect())
        self.refused(47, wire.a.link.command, add())  # the peer's channel_reestablish hasn't come

    def test_40_held_htlcs(self) -> None:
        wire = self.wire.opened()
        a, b = wire.a, wire.b
        link = b.link.link
        wire.command(a, add())
        wire.command(a, Sign())
        wire.settle()
        b.tell = self.stops
        wire.command(b, Sign())
        with self.assertRaises(InterruptedError):
            wire.settle()
        self.refused(40, link.command, Decide(1))
        self.refused(40, link.command, Decide(0, HeldMark(5)))
        link.command(Decide(0, HeldMark(0)))
        self.refused(40, link.command, Decide(0))
        self.refused(40, link.command, Resume(0, HeldMark(0)))
        link.command(Resume(0, FulfilMark(preimage_of("funder", 0))))
        self.refused(40, link.command, Resume(0, FulfilMark(preimage_of("funder", 0))))

    @staticmethod
    def stops(number: int, event: object) -> None:
        raise InterruptedError

    # ---- of the peer's messages

    def received(self, end: End, number: int, message: bytes) -> Refused:
        refused = self.refused(number, end.link.receive, message)
        if number not in (20, 36):
            summary = end.link.summary()
            self.assertEqual((summary.status, summary.value), (Status.FAILED, number))
            self.refused(number, end.link.command, Sign())
        return refused

    def test_20_a_message_of_another_channel(self) -> None:
        wire = self.wire.opened()
        other = sha256(b"another channel")
        refused = self.received(wire.a, 20, b"\0\x84" + other + bytes(64) + b"\0\0")
        self.assertEqual(refused.messages, [error(other, "refused 20")])
        self.assertEqual(wire.a.link.summary().status, Status.READY)

    def test_21_a_message_out_of_place_fails_the_channel_for_good(self) -> None:
        wire = self.wire.opened()
        refused = self.received(wire.a, 21, b"\0\x23" + CHANNEL + bytes(64))
        self.assertEqual(refused.messages, [error(CHANNEL, "refused 21")])
        wire.a.load()
        summary = wire.a.link.summary()
        self.assertEqual((summary.status, summary.value), (Status.FAILED, 21))

    def test_22_28_29_30_updates(self) -> None:
        id_7, amount, rest = (7).to_bytes(8, "big"), (5000).to_bytes(8, "big"), bytes(32 + 4 + 1366)
        for number, message in [
            (22, b"\0\x80" + CHANNEL + id_7 + amount + rest),
            (23, b"\0\x80" + CHANNEL + bytes(8) + bytes(8) + rest),
            (28, b"\0\x82" + CHANNEL + id_7 + bytes(32)),
            (30, b"\0\x86" + CHANNEL + (300).to_bytes(4, "big")),
        ]:
            with self.subTest(number=number), tempfile.TemporaryDirectory() as folder:
                wire = Wire(Path(folder)).opened()
                self.received(wire.a, number, message)
                wire.close()

    def test_29_a_wrong_preimage(self) -> None:
        a, _ = self.with_htlc()
        self.received(a, 29, b"\0\x82" + CHANNEL + bytes(8) + bytes(32))

    def test_31_a_wrong_signature(self) -> None:
        wire = self.wire.opened()
        wire.command(wire.a, add())
        wire.command(wire.a, Sign())
        wire.deliver(wire.b)
        signed = bytearray(wire.b.inbox.popleft())
        signed[40] ^= 1
        self.received(wire.b, 31, bytes(signed))

    def test_31_a_wrong_first_signature(self) -> None:
        wire = self.wire
        wire.open()
        wire.deliver(wire.b)
        wire.deliver(wire.a)
        created = bytearray(wire.b.inbox.popleft())
        created[100] ^= 1
        self.received(wire.b, 31, bytes(created))
        self.assertEqual(wire.b.store.saves, 0)

    def test_32_33_revocations(self) -> None:
        wire = self.wire.opened()
        point = wire.b.signer.point(2)
        self.received(wire.a, 33, b"\0\x85" + CHANNEL + wire.b.signer.secret(0) + point)
        with tempfile.TemporaryDirectory() as folder:
            wire = Wire(Path(folder)).opened()
            wire.command(wire.a, add())
            wire.command(wire.a, Sign())
            self.received(wire.a, 32, b"\0\x85" + CHANNEL + wire.b.signer.secret(5) + point)
            wire.close()

    def test_34_a_channel_that_was_rolled_back(self) -> None:
        wire = self.wire.opened()
        old = wire.b.store.load(CHANNEL) or b""
        wire.a.to_pay = 3
        wire.run()
        wire.cut()
        wire.b.store.save(Record.from_saved(old))
        wire.b.load()
        wire.connect()
        for end, lost_data in ((wire.b, LostData.OWN), (wire.a, LostData.PEER)):
            self.lost(end, lost_data, end.inbox.popleft())

    def test_34_numbers_that_prove_nothing(self) -> None:
        wire = self.wire.opened()
        wire.restart(wire.a)
        wire.connect()
        wire.b.inbox.clear()
        numbers = 2 * (9).to_bytes(8, "big")
        self.lost(wire.b, LostData.UNPROVED, b"\0\x88" + CHANNEL + numbers + bytes(32) + wire.a.signer.point(1))

    def lost(self, end: End, lost_data: LostData, reestablish: bytes) -> None:
        """An end refuses the message by 34, and tells whose data is lost then and after a restart."""
        refused = self.received(end, 34, reestablish)
        self.assertEqual((refused.lost_data, end.link.summary().lost_data), (lost_data, lost_data))
        end.load()
        self.assertEqual(end.link.summary().lost_data, lost_data)

    def test_35_an_add_after_shutdown(self) -> None:
        wire = self.wire.opened()
        self.with_shutdown(wire)
        rest = bytes(8) + (5000).to_bytes(8, "big") + bytes(32 + 4 + 1366)
        self.received(wire.a, 35, b"\0\x80" + CHANNEL + rest)

    def with_shutdown(self, wire: Wire) -> None:
        """The funder has an HTLC that stays, and the fundee has shut down."""
        wire.command(wire.a, add())
        for end in (wire.a, wire.b):
            wire.command(end, Sign())
            wire.settle()
        wire.command(wire.b, Shutdown(b"script"))
        wire.settle()

    def test_36_a_fee_that_cannot_be_agreed_to(self) -> None:
        wire = self.wire.opened()
        wire.command(wire.a, Shutdown(b"script"))
        wire.deliver(wire.b)  # shutdown
        wire.deliver(wire.a)  # shutdown
        offer = wire.b.inbox.popleft()
        self.assertEqual(int.from_bytes(offer[:2], "big"), 39)
        fee = (5000).to_bytes(8, "big")
        far = offer[:34] + fee + offer[42:106]
        wire.b.signer.verify_close = lambda closing, message: True  # type: ignore[method-assign]
        refused = self.refused(36, wire.b.link.receive, far)
        self.assertEqual(refused.messages, [warning(CHANNEL, "refused 36")])
        self.assertEqual(wire.b.link.summary().status, Status.SHUT)

    def test_37_the_peer_sent_an_error(self) -> None:
        wire = self.wire.opened()
        refused = self.received(wire.a, 37, error(CHANNEL, "no more"))
        self.assertEqual(refused.messages, [])

    def test_21_a_channel_that_has_a_record_is_not_opened_again(self) -> None:
        wire = self.wire.opened()
        before = [end.store.load(CHANNEL) for end in (wire.a, wire.b)]
        wire.cut()
        for end in (wire.a, wire.b):
            end.link.close()
        wire.open(spec_of(wire.a.signer, TXID))
        wire.deliver(wire.b)  # open_channel
        self.received(wire.a, 21, wire.a.inbox.popleft())  # accept_channel
        # A fundee that has the record, and a funder that lost it.
        with tempfile.TemporaryDirectory() as folder:
            lost = Wire(Path(folder))
            lost.b = wire.b
            lost.a.signer.meet(wire.b.signer)
            wire.b.link.close()
            lost.open()
            lost.deliver(lost.b)
            lost.deliver(lost.a)
            self.received(lost.b, 21, lost.b.inbox.popleft())  # funding_created
            lost.a.link.close()
            lost.a.store.close()
        self.assertEqual([end.store.load(CHANNEL) for end in (wire.a, wire.b)], before)


if __name__ == "__main__":
    unittest.main()
