"""Points and ECDSA signatures over secp256k1, by ctypes over libsecp256k1 (Debian: libsecp256k1-dev)."""

from __future__ import annotations

from ctypes import CDLL, byref, c_char_p, c_int, c_size_t, c_uint, c_void_p, create_string_buffer
from ctypes.util import find_library

_PATH = find_library("secp256k1")
if _PATH is None:
    raise ImportError("libsecp256k1 isn't installed")
_LIBRARY = CDLL(_PATH)
_LIBRARY.secp256k1_context_create.argtypes = [c_uint]
_LIBRARY.secp256k1_context_create.restype = c_void_p

_SIGN_AND_VERIFY = 0x301
_COMPRESSED = 0x102
_CONTEXT = c_void_p(_LIBRARY.secp256k1_context_create(_SIGN_AND_VERIFY))

for _name, _arguments in {
    "secp256k1_ec_pubkey_create": [c_void_p, c_char_p, c_char_p],
    "secp256k1_ec_pubkey_parse": [c_void_p, c_char_p, c_char_p, c_size_t],
    "secp256k1_ec_pubkey_serialize": [c_void_p, c_char_p, c_void_p, c_char_p, c_uint],
    "secp256k1_ecdsa_sign": [c_void_p, c_char_p, c_char_p, c_char_p, c_void_p, c_void_p],
    "secp256k1_ecdsa_verify": [c_void_p, c_char_p, c_char_p, c_char_p],
    "secp256k1_ecdsa_signature_parse_compact": [c_void_p, c_char_p, c_char_p],
    "secp256k1_ecdsa_signature_serialize_compact": [c_void_p, c_char_p, c_char_p],
}.items():
    _call = getattr(_LIBRARY, _name)
    _call.argtypes = _arguments
    _call.restype = c_int


def point_of(secret: bytes) -> bytes:
    """The point of a secret, compressed: 33 bytes."""
    key, out, size = create_string_buffer(64), create_string_buffer(33), c_size_t(33)
    if not _LIBRARY.secp256k1_ec_pubkey_create(_CONTEXT, key, secret):
        raise ValueError("no secret of secp256k1")
    _LIBRARY.secp256k1_ec_pubkey_serialize(_CONTEXT, out, byref(size), key, _COMPRESSED)
    return out.raw


def sign(secret: bytes, digest: bytes) -> bytes:
    """The signature over a digest of 32 bytes (RFC 6979, low s): 64 bytes."""
    signature, out = create_string_buffer(64), create_string_buffer(64)
    if not _LIBRARY.secp256k1_ecdsa_sign(_CONTEXT, signature, digest, secret, None, None):
        raise ValueError("no secret of secp256k1")
    _LIBRARY.secp256k1_ecdsa_signature_serialize_compact(_CONTEXT, out, signature)
    return out.raw


def verify(point: bytes, digest: bytes, signature: bytes) -> bool:
    """Whether it is the signature over a digest by the secret of a point."""
    key, parsed = create_string_buffer(64), create_string_buffer(64)
    return bool(
        _LIBRARY.secp256k1_ec_pubkey_parse(_CONTEXT, key, point, len(point))
        and _LIBRARY.secp256k1_ecdsa_signature_parse_compact(_CONTEXT, parsed, signature)
        and _LIBRARY.secp256k1_ecdsa_verify(_CONTEXT, parsed, digest, key)
    )
