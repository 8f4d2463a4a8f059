"""BOLT 1 messages: bytes of the standard, and what is read in them."""

from __future__ import annotations

import unittest

from lnlink import (
    Refused,
    channel_of,
    check_chains,
    check_init,
    closing_signature_in,
    error,
    init,
    message_type,
    pong,
    print_message,
    secret_in,
    signatures_in,
    warning,
)

A, B = bytes([0xA1]) * 32, bytes([0xB2]) * 32


class Bolt1Test(unittest.TestCase):
    def test_init(self) -> None:
        self.assertEqual(init(b""), bytes.fromhex("001000000000"))
        self.assertEqual(init(b"\x20\x02"), bytes.fromhex("0010000000022002"))
        self.assertEqual(init(b"\x02", [A]), bytes.fromhex("00100000000102" + "0120") + A)
        self.assertEqual(init(b"\x02", [A, B]), bytes.fromhex("00100000000102" + "0140") + A + B)

    def test_check_init(self) -> None:
        check_init(init(b"\x20\x02"), [])  # odd features alone
        check_init(init(b"\x10\x00"), [12])
        check_init(bytes.fromhex("001000011000021000"), [4, 12])  # the one map names bit 4, the other bit 12
        for message, number in [(init(b"\x10\x00"), 9), (init(b"\x01"), 9), (b"\0\x10\0", 1), (pong_of(0), 21)]:
            with self.subTest(message=message), self.assertRaises(Refused) as caught:
                check_init(message, [5])
            self.assertEqual(caught.exception.number, number)

    def test_check_chains(self) -> None:
        for message in (init(b""), init(b"", [A]), init(b"", [B, A])):
            check_chains(message, [A])
        for message in (init(b"", [B]), pong_of(0)):
            with self.assertRaises(Refused) as caught:
                check_chains(message, [A])
            self.assertEqual(caught.exception.number, 21)

    def test_pong(self) -> None:
        self.assertEqual(pong(bytes.fromhex("001200020000")), bytes.fromhex("001300020000"))
        self.assertEqual(pong(b"\0\x12" + (65_531).to_bytes(2, "big") + b"\0\0"), pong_of(65_531))
        self.assertIsNone(pong(b"\0\x12" + (65_532).to_bytes(2, "big") + b"\0\0"))
        for message, number in [(init(b""), 21), (b"\0\x12\0", 1)]:
            with self.assertRaises(Refused) as caught:
                pong(message)
            self.assertEqual(caught.exception.number, number)

    def test_channel_of(self) -> None:
        self.assertEqual(channel_of(error(A, "text")), A)
        self.assertEqual(channel_of(b"\0\x85" + B + bytes(65)), B)
        self.assertIsNone(channel_of(init(b"")))
        self.assertIsNone(channel_of(pong_of(0)))

    def test_print_message(self) -> None:
        self.assertEqual(print_message(bytes.fromhex("001200020000")).split("\n")[0], "type 18 ping")
        self.assertEqual(
            print_message(error(A, "no")).rstrip("\n").split("\n"),
            ["type 17 error", "channel_id " + A.hex(), "data " + b"no".hex()],
        )

    def test_what_signers_read(self) -> None:
        one, two, three = (bytes([n]) * 64 for n in (1, 2, 3))
        self.assertEqual(signatures_in(b"\0\x22" + A + B + b"\0\1" + one), (one, ()))
        self.assertEqual(signatures_in(b"\0\x23" + A + one), (one, ()))
        self.assertEqual(signatures_in(b"\0\x84" + A + one + b"\0\2" + two + three), (one, (two, three)))
        self.assertEqual(secret_in(b"\0\x85" + A + B + bytes(33)), B)
        self.assertEqual(closing_signature_in(b"\0\x27" + A + bytes(8) + two + b"\1\x10" + bytes(16)), two)
        for read in (signatures_in, secret_in, closing_signature_in):
            with self.assertRaises(ValueError):
                read(init(b""))
        self.assertEqual(message_type(warning(A, "text")), 1)


def pong_of(size: int) -> bytes:
    return b"\0\x13" + size.to_bytes(2, "big") + bytes(size)


if __name__ == "__main__":
    unittest.main()
