"""One end of a channel, call by call: include/lnlink.h in Python. `Channel` is the loop over it."""

from __future__ import annotations

from ctypes import byref
from threading import Lock
from typing import Any

from .commands import Command
from .config import Config, OpenSpec
from .items import Item
from .library import Handle, fetch, library, obey
from .questions import Question
from .views import Commitment, Summary, View


class Link:
    """One end of a channel, from its opening to its close.

    Made by `open`, `accept` or `load`. Threads may share it: a lock makes each call wait for the one before. Each call
    raises Refused where the library refuses; by 80 to 83 nothing has changed. A closed link answers 83.
    """

    def __init__(self) -> None:
        self._handle = Handle()
        self._lock = Lock()

    @classmethod
    def open(cls, spec: OpenSpec, first_point: bytes) -> Link:
        """A funder's end. `first_point` is the own point of commitment 0, 33 bytes. 40: the spec's values don't fit."""
        data = spec.to_bytes()
        return cls._made(library.lnl_open, data, len(data), first_point, len(first_point))

    @classmethod
    def accept(cls, config: Config, first_point: bytes) -> Link:
        """A fundee's end. 40: the config's values don't fit."""
        data = config.to_bytes()
        return cls._made(library.lnl_accept, data, len(data), first_point, len(first_point))

    @classmethod
    def load(cls, saved: bytes) -> Link:
        """The end that was saved: `Record.saved`. Its events that aren't decided stand in its line. 70, 71."""
        return cls._made(library.lnl_load, saved, len(saved))

    @classmethod
    def _made(cls, call: Any, *arguments: Any) -> Link:
        link = cls()
        obey(call, byref(link._handle), *arguments)
        return link

    def fund(self, txid: bytes, output: int) -> None:
        """A funder names its funding, until `accept_channel` is given; else 40."""
        self._obey(library.lnl_fund, txid, len(txid), output)

    def connect(self) -> None:
        """There is a connection, and `init` has passed. 40: there was one already, or the opening was broken off."""
        self._obey(library.lnl_connect)

    def disconnect(self) -> None:
        """The connection is lost: messages leave the line, records and events stay."""
        self._obey(library.lnl_disconnect)

    def question(self, message: bytes) -> Question | None:
        """What has to be answered before a message is taken; nothing changes. 1 to 9: it is no message."""
        data = self._fetch(library.lnl_question, message, len(message))
        return Question.from_bytes(data) if data else None

    def message(self, message: bytes, answer: bytes = b"") -> None:
        """Takes a message, with the answer to its question. By 21 to 35 and 37 the channel has failed."""
        self._obey(library.lnl_message, message, len(message), answer, len(answer))

    def command(self, command: Command) -> None:
        """Does what it is told."""
        data = command.to_bytes()
        self._obey(library.lnl_command, data, len(data))

    def next(self) -> Item | None:
        """Shows the head of the line, which stays there; None where it is empty."""
        data = self._fetch(library.lnl_next)
        return Item.from_bytes(data) if data else None

    def done(self, answer: bytes = b"") -> None:
        """Takes the head of the line off, or fills it where it is a blank. 40: the line is empty, or `next` didn't show
        its head since the last call.
        """
        self._obey(library.lnl_done, answer, len(answer))

    def look(self) -> Summary:
        """Where it is."""
        return Summary.from_bytes(self._fetch(library.lnl_look))

    def view(self, which: Commitment = Commitment.OWN) -> View:
        """What a commitment is worth."""
        return View.from_bytes(self._fetch(library.lnl_view, which))

    def close(self) -> None:
        """Frees it. The channel is as it was saved."""
        with self._lock:
            library.lnl_free(byref(self._handle))

    def _obey(self, call: Any, *arguments: Any) -> None:
        with self._lock:
            obey(call, byref(self._handle), *arguments)

    def _fetch(self, call: Any, *arguments: Any) -> bytes:
        with self._lock:
            return fetch(call, byref(self._handle), *arguments)

    def __enter__(self) -> Link:
        return self

    def __exit__(self, *_: object) -> None:
        self.close()

    def __del__(self) -> None:
        library.lnl_free(byref(self._handle))
