"""What Python values are as bytes: the forms of include/lnlink.h, told byte by byte, and every class read back."""

from __future__ import annotations

import unittest

from lnlink import (
    Add,
    Added,
    BlankItem,
    ChannelClosed,
    CloseBlank,
    Closed,
    CloseQuestion,
    Closing,
    Command,
    Config,
    Confirm,
    Connection,
    Decide,
    EventItem,
    Fail,
    Failed,
    FailedMalformed,
    FailMark,
    Fee,
    FirstQuestion,
    Forget,
    ForwardMark,
    Fulfil,
    Fulfilled,
    FulfilMark,
    HeldMark,
    HeldSignatures,
    Htlc,
    Item,
    LostData,
    Malformed,
    MalformedMark,
    NewQuestion,
    OpenSpec,
    OwnSecretQuestion,
    PointBlank,
    Question,
    Record,
    Resume,
    RevocationBlank,
    Role,
    SecretQuestion,
    Send,
    Settled,
    Shutdown,
    Sign,
    SignaturesBlank,
    SignaturesQuestion,
    Status,
    Summary,
    View,
    channel_id,
    short_channel_id,
)

A, B, P = bytes([0xA1]) * 32, bytes([0xB2]) * 32, bytes([2]) * 33
S = bytes([0x51]) * 64
VIEW = View(5, 6, 253, (Htlc(Role.FUNDER, 1, 1000, A, 500), Htlc(Role.FUNDEE, 0, 2000, B, 501)))
CLOSING = Closing(Role.FUNDEE, 300, 7, 8, b"own", b"peer's")
CONFIG = Config(1, 30, 3, 4, A, 546, 144, 6, P, P, P, P, P, 300, 200, 400, b"script")

COMMANDS = [
    Confirm(short_channel_id(110, 1, 2)),
    Add(5000, A, 400, bytes(1366)),
    Add(5000, A, 400, bytes(1366), (B, 7)),
    Fulfil(1, A),
    Fail(1, b"reason"),
    Malformed(1, A, 0xC005),
    Fee(300),
    Sign(),
    Shutdown(b"script"),
    Decide(3),
    Decide(3, ForwardMark(B, 1000, 400)),
    Decide(3, FailMark(b"reason")),
    Decide(3, MalformedMark(0xC005)),
    Decide(3, FulfilMark(A)),
    Decide(3, HeldMark(3)),
    Forget(9),
    Resume(3, FulfilMark(A)),
]
QUESTIONS = [
    SignaturesQuestion(Role.FUNDER, 9, VIEW),
    SecretQuestion(8, P),
    CloseQuestion(CLOSING),
    OwnSecretQuestion(7),
    NewQuestion(A),
    FirstQuestion(A, VIEW),
]
ITEMS = [
    Record(A, None, (), b"record"),
    Record(A, HeldSignatures(4, S, (S, S)), ((3, A), (4, B)), b"record"),
    BlankItem(SignaturesBlank(Role.FUNDEE, 9, P, VIEW)),
    BlankItem(RevocationBlank(8, 10)),
    BlankItem(PointBlank(1)),
    BlankItem(CloseBlank(CLOSING)),
    Send(b"\0\x12\0\0\0\0"),
    EventItem(0, Added(False, 0, 5000, A, 400, bytes(1366))),
    EventItem(1, Settled(True, 0, Fulfilled(A))),
    EventItem(2, Settled(True, 0, Failed(b"reason"))),
    EventItem(3, Settled(True, 0, FailedMalformed(A, 0xC005))),
    EventItem(4, ChannelClosed(300)),
    Closed(300),
]
OTHERS = [
    VIEW,
    CLOSING,
    CONFIG,
    OpenSpec(CONFIG, 1_000_000, 0, 253, 1, A, B, 1, ((0, b"script"), (1, b"\x10"))),
    Summary(Connection.CONNECTED, False, A, Status.READY, 0, LostData.UNPROVED, 1, 2, 3, 4, 5, 6, 7, (8, 9)),
    Summary(Connection.DOWN, True, None, Status.FAILED, 34, LostData.PEER, 0, 0, 0, 0, 0, 0, 0, ()),
]


def u(size: int, value: int) -> bytes:
    return value.to_bytes(size, "big")


SEEN = b"".join(u(8, x) for x in (1, 2, 3, 4, 5, 6, 7, 2, 8, 9))


class BytesTest(unittest.TestCase):
    def test_every_value_is_read_back(self) -> None:
        for family, values in ((Command, COMMANDS), (Question, QUESTIONS), (Item, ITEMS)):
            for value in values:
                with self.subTest(kind=type(value).__name__):
                    self.assertEqual(family.from_bytes(value.to_bytes()), value)
                    self.assertEqual(type(value).from_bytes(value.to_bytes()), value)
        for value in OTHERS:
            with self.subTest(kind=type(value).__name__):
                self.assertEqual(type(value).from_bytes(value.to_bytes()), value)

    def test_every_class_of_a_family_is_tried(self) -> None:
        for family, values in ((Command, COMMANDS), (Question, QUESTIONS), (Item, ITEMS)):
            self.assertEqual({type(value) for value in values}, set(family.MEMBERS.values()))

    def test_bytes(self) -> None:
        view = u(8, 5) + u(8, 6) + u(4, 253) + u(8, 2)
        view += b"\0" + u(8, 1) + u(8, 1000) + A + u(4, 500) + b"\1" + u(8, 0) + u(8, 2000) + B + u(4, 501)
        closing = b"\1" + u(8, 300) + u(8, 7) + u(8, 8) + u(2, 3) + b"own" + u(2, 6) + b"peer's"
        config = u(8, 1) + u(2, 30) + u(8, 3) + u(8, 4) + A + u(8, 546) + u(2, 144) + u(4, 6) + 5 * P
        config += u(8, 300) + u(8, 200) + u(8, 400) + u(2, 6) + b"script"
        spec = config + u(8, 1_000_000) + u(8, 0) + u(4, 253) + b"\1" + A + B + u(2, 1)
        spec += u(8, 2) + u(8, 0) + u(2, 6) + b"script" + u(8, 1) + u(2, 1) + b"\x10"
        held = b"\1" + u(8, 4) + S + u(8, 2) + S + S + u(8, 2) + u(8, 3) + A + u(8, 4) + B
        for value, expected in [
            (VIEW, view),
            (CLOSING, closing),
            (CONFIG, config),
            (OTHERS[3], spec),
            (COMMANDS[0], b"\0" + u(3, 110) + u(3, 1) + u(2, 2)),
            (COMMANDS[1], b"\1" + u(8, 5000) + A + u(4, 400) + bytes(1366) + b"\0"),
            (COMMANDS[2], b"\1" + u(8, 5000) + A + u(4, 400) + bytes(1366) + b"\1" + B + u(8, 7)),
            (Fail(1, b"reason"), b"\3" + u(8, 1) + u(2, 6) + b"reason"),
            (Malformed(1, A, 0xC005), b"\4" + u(8, 1) + A + b"\xc0\5"),
            (Sign(), b"\6"),
            (Decide(3), b"\x08" + u(8, 3) + b"\0"),
            (Decide(3, ForwardMark(B, 1000, 400)), b"\x08" + u(8, 3) + b"\1" + B + u(8, 1000) + u(4, 400)),
            (Decide(3, FailMark(b"reason")), b"\x08" + u(8, 3) + b"\2" + u(8, 6) + b"reason"),
            (Resume(3, FulfilMark(A)), b"\x0a" + u(8, 3) + b"\4" + A),
            (QUESTIONS[0], b"\1\0" + u(8, 9) + view),
            (QUESTIONS[1], b"\2" + u(8, 8) + P),
            (QUESTIONS[5], b"\6" + A + view),
            (ITEMS[0], b"\1" + A + b"\0" + u(8, 0) + u(8, 6) + b"record"),
            (ITEMS[1], b"\1" + A + held + u(8, 6) + b"record"),
            (ITEMS[2], b"\2\1\1" + u(8, 9) + P + view),
            (ITEMS[6], b"\3\0\x12\0\0\0\0"),
            (ITEMS[9], b"\4" + u(8, 2) + b"\1\1" + u(8, 0) + b"\1" + u(2, 6) + b"reason"),
            (OTHERS[4], b"\2\0\1" + A + b"\1" + u(8, 0) + b"\0" + SEEN),
            (OTHERS[5], b"\0\1\0\4" + u(8, 34) + b"\2" + bytes(64)),
        ]:
            with self.subTest(kind=type(value).__name__):
                self.assertEqual(value.to_bytes(), expected)

    def test_a_record_is_loaded_by_what_follows_its_kind(self) -> None:
        record = ITEMS[1]
        assert isinstance(record, Record)
        self.assertEqual(record.saved(), record.to_bytes()[1:])
        self.assertEqual(Record.from_saved(record.saved()), record)

    def test_what_is_no_value_is_refused(self) -> None:
        for data in (b"", b"\x0b", b"\0short", Sign().to_bytes() + b"\0"):
            with self.subTest(data=data), self.assertRaises(ValueError):
                Command.from_bytes(data)
        with self.assertRaises(ValueError):
            Sign.from_bytes(Fee(1).to_bytes())
        for value in (Fulfil(1, b"short"), Fulfil(1 << 64, A), Fee(-1), Malformed(1, A, 1 << 16)):
            with self.subTest(kind=type(value).__name__), self.assertRaises(ValueError):
                value.to_bytes()

    def test_channel_id_is_mixed_of_its_funding(self) -> None:
        self.assertEqual(channel_id(bytes(30) + b"\x12\x34", 0x0102), bytes(30) + b"\x13\x36")


if __name__ == "__main__":
    unittest.main()
