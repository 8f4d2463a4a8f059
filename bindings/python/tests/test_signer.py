"""The signer of these tests: BOLT 3's published vectors of secrets, and real signatures."""

from __future__ import annotations

import unittest

from lnlink import Role, View

import secp256k1
from signer import LAST_INDEX, commitment_digest, generate_from_seed, sha256


class SignerTest(unittest.TestCase):
    def test_secrets_of_bolt_3(self) -> None:
        """BOLT 3, "Appendix D: Per-commitment Secret Generation Test Vectors"."""
        for seed, index, expected in [
            (bytes(32), LAST_INDEX, "02a40c85b6f28da08dfdbe0926c53fab2de6d28c10301f8f7c4073d5e42e3148"),
            (b"\xff" * 32, LAST_INDEX, "7cc854b54e3e0dcdb010d7a3fee464a9687be6e8db3be6854c475621e007a5dc"),
            (b"\xff" * 32, 0xAAAAAAAAAAA, "56f4008fb007ca9acf0e15b054d5c9fd12ee06cea347914ddbaed70d1c13a528"),
            (b"\xff" * 32, 0x555555555555, "9015daaeb06dba4ccc05b91b2f73bd54405f2be9f217fbacd3c5ac2e62327d31"),
            (b"\x01" * 32, 1, "915c75942a26bb3a433a8ce2cb0427c29ec6c1775cfc78328b57f6ba7bfeaa9c"),
        ]:
            self.assertEqual(generate_from_seed(seed, index).hex(), expected)

    def test_a_signature_is_of_one_digest_and_key(self) -> None:
        key, other = sha256(b"key"), sha256(b"other")
        digest = commitment_digest(Role.FUNDER, 1, secp256k1.point_of(key), View(1, 2, 3, ()))
        signature = secp256k1.sign(key, digest)
        self.assertTrue(secp256k1.verify(secp256k1.point_of(key), digest, signature))
        self.assertFalse(secp256k1.verify(secp256k1.point_of(key), sha256(digest), signature))
        self.assertFalse(secp256k1.verify(secp256k1.point_of(other), digest, signature))


if __name__ == "__main__":
    unittest.main()
