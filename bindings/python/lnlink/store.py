"""Where records are kept."""

from __future__ import annotations

import sqlite3
from os import PathLike
from threading import Lock
from typing import Protocol, Sequence

from .items import Record


class Store(Protocol):
    """Where an end's records are kept.

    A record is saved whole: `record.saved()` takes the place of the channel's one before, and each of `record.secrets`
    is kept for ever, as later records don't repeat it. With these a revoked commitment of the peer's can be punished.
    """

    def save(self, record: Record) -> None:
        """Saves a record, all of it or nothing. Returns only once it is on disk; raises where it isn't."""

    def load(self, channel: bytes) -> bytes | None:
        """The last `record.saved()` of a channel; None where there is none."""


class SqliteStore:
    """Records in a file of SQLite: the tables `records` and `secrets`."""

    def __init__(self, path: str | PathLike[str]):
        self._lock = Lock()
        self._base = sqlite3.connect(path, check_same_thread=False)
        self._base.execute("PRAGMA journal_mode = WAL")
        self._base.execute("PRAGMA synchronous = FULL")
        with self._base:
            self._base.execute("CREATE TABLE IF NOT EXISTS records (channel BLOB PRIMARY KEY, saved BLOB NOT NULL)")
            self._base.execute(
                "CREATE TABLE IF NOT EXISTS secrets"
                " (channel BLOB NOT NULL, number INTEGER NOT NULL, secret BLOB NOT NULL, PRIMARY KEY (channel, number))"
            )

    def save(self, record: Record) -> None:
        """Saves a record and its secrets in one transaction, synced. sqlite3.Error where it can't."""
        self.save_batch([record])

    def save_batch(self, records: Sequence[Record]) -> None:
        """Saves records of several channels and their secrets in one transaction, synced. sqlite3.Error where it
        can't."""
        saved = [(record.channel, record.saved()) for record in records]
        secrets = [(record.channel, number, secret) for record in records for number, secret in record.secrets]
        with self._lock, self._base:
            self._base.executemany("REPLACE INTO records VALUES (?, ?)", saved)
            self._base.executemany("REPLACE INTO secrets VALUES (?, ?, ?)", secrets)

    def load(self, channel: bytes) -> bytes | None:
        """What was saved last of a channel."""
        with self._lock:
            row = self._base.execute("SELECT saved FROM records WHERE channel = ?", (channel,)).fetchone()
        return None if row is None else row[0]

    def load_all(self) -> list[tuple[bytes, bytes]]:
        """The id of each channel, and what was saved last of it."""
        with self._lock:
            return self._base.execute("SELECT channel, saved FROM records ORDER BY channel").fetchall()

    def channels(self) -> list[bytes]:
        """The channels that it has records of."""
        with self._lock:
            return [row[0] for row in self._base.execute("SELECT channel FROM records ORDER BY channel")]

    def secrets(self, channel: bytes) -> dict[int, bytes]:
        """The peer's secrets, by the number of the commitment that each revokes."""
        with self._lock:
            query = "SELECT number, secret FROM secrets WHERE channel = ? ORDER BY number"
            return dict(self._base.execute(query, (channel,)).fetchall())

    def close(self) -> None:
        """Closes the file."""
        with self._lock:
            self._base.close()
