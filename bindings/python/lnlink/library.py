"""The shared object: the variable LNLINK_LIBRARY names it, else it is liblnlink.so beside this file."""

from __future__ import annotations

import os
from ctypes import CDLL, POINTER, Structure, byref, c_char_p, c_int32, c_size_t, c_uint8, c_uint16, c_uint32, c_uint64
from ctypes import c_void_p, create_string_buffer
from pathlib import Path
from typing import Any

from .refusals import Refused, check


class Handle(Structure):
    """`lnl_link` or `lnl_node` of include/lnlink.h."""

    _fields_ = [("at", c_void_p)]


_LINK = POINTER(Handle)
_IN = [c_char_p, c_size_t]  # bytes and their length
_OUT = [c_void_p, c_size_t, POINTER(c_size_t)]  # a buffer, its size, and how many bytes there are

_CALLS: dict[str, list[Any]] = {
    "lnl_open": [_LINK, *_IN, *_IN],
    "lnl_accept": [_LINK, *_IN, *_IN],
    "lnl_load": [_LINK, *_IN],
    "lnl_fund": [_LINK, *_IN, c_uint16],
    "lnl_connect": [_LINK],
    "lnl_disconnect": [_LINK],
    "lnl_question": [_LINK, *_IN, *_OUT],
    "lnl_message": [_LINK, *_IN, *_IN],
    "lnl_command": [_LINK, *_IN],
    "lnl_next": [_LINK, *_OUT],
    "lnl_done": [_LINK, *_IN],
    "lnl_look": [_LINK, *_OUT],
    "lnl_view": [_LINK, c_uint8, *_OUT],
    "lnl_init": [*_IN, *_IN, *_OUT],
    "lnl_check_init": [*_IN, POINTER(c_uint16), c_size_t],
    "lnl_shares_chain": [*_IN, *_IN],
    "lnl_pong": [*_IN, *_OUT],
    "lnl_channel": [*_IN, *_OUT],
    "lnl_print": [*_IN, *_OUT],
    "lnl_node_load": [_LINK, *_IN, *_IN],
    "lnl_node_open": [_LINK, *_IN, *_IN, POINTER(c_size_t)],
    "lnl_node_accept": [_LINK, *_IN, *_IN, POINTER(c_size_t)],
    "lnl_node_fund": [_LINK, c_size_t, *_IN, c_uint16],
    "lnl_node_connect": [_LINK, c_size_t],
    "lnl_node_disconnect": [_LINK, c_size_t],
    "lnl_node_question": [_LINK, c_size_t, *_IN, *_OUT],
    "lnl_node_message": [_LINK, c_size_t, *_IN, *_IN],
    "lnl_node_command": [_LINK, c_size_t, *_IN],
    "lnl_node_sign": [_LINK],
    "lnl_node_height": [_LINK, c_uint32],
    "lnl_node_expect": [_LINK, *_IN, *_IN, c_uint64],
    "lnl_node_next": [_LINK, *_OUT],
    "lnl_node_saved": [_LINK, c_uint64],
    "lnl_node_fill": [_LINK, c_size_t, c_uint64, *_IN],
    "lnl_node_sent": [_LINK, c_size_t, c_uint64],
    "lnl_node_onion": [_LINK, *_IN, *_IN, *_IN],
    "lnl_node_verdict": [_LINK, c_size_t, c_uint64, *_IN],
    "lnl_node_resume": [_LINK, c_size_t, c_uint64, *_IN],
    "lnl_node_held": [_LINK, *_OUT],
    "lnl_node_look": [_LINK, c_size_t, *_OUT],
    "lnl_node_view": [_LINK, c_size_t, c_uint8, *_OUT],
}

# Holds all but records and views of many HTLCs.
_ROOM = 70_000

_SHORT = 82


def _load() -> CDLL:
    library = CDLL(os.environ.get("LNLINK_LIBRARY") or str(Path(__file__).with_name("liblnlink.so")))
    for name, arguments in _CALLS.items():
        call = getattr(library, name)
        call.argtypes = arguments
        call.restype = c_int32
    for free in (library.lnl_free, library.lnl_node_free):
        free.argtypes = [_LINK]
        free.restype = None
    return library


library = _load()


def obey(call: Any, *arguments: Any) -> None:
    """Calls the library. Refused where it refuses."""
    check(call(*arguments))


def fetch(call: Any, *arguments: Any) -> bytes:
    """Calls the library for bytes, again with more room where they need it. Refused where it refuses."""
    room = _ROOM
    while True:
        out = create_string_buffer(room)
        count = c_size_t()
        try:
            check(call(*arguments, out, room, byref(count)))
        except Refused as refused:
            if refused.number != _SHORT or count.value <= room:
                raise
            room = count.value
            continue
        return out.raw[: count.value]
